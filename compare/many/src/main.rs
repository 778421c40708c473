//! many OPERATION SEED CALLS [ACCEPTED]: draws calls of an exported operation from SEED on and holds the port's answer, and everything that
//! was lent to it, against the judge's, until there were so many calls and so many of outcome 0. Prints how many there were of each outcome;
//! status 1 on a difference. `many list` prints the operations.

mod frames;
#[path = "../../../rust/src/layout.rs"]
#[allow(dead_code)]
mod layout;
mod lent;
mod of_captures;
mod of_frames;
mod operation;
#[path = "../../../rust/src/raw.rs"]
mod raw;
mod small;
mod steer;

use judge::rng::Rng;
use operation::Operation;
use steer::{Steer, OUTCOMES};

const NAMES: [&str; 15] = [
    "parse",
    "header",
    "blocks",
    "range_eq",
    "burst_write",
    "burst_read",
    "editable",
    "set",
    "salvage",
    "index",
    "aht",
    "profile",
    "pack",
    "unpack",
    "correct",
];

fn operation(name: &str, rng: &mut Rng) -> Option<Box<dyn Operation>> {
    Some(match name {
        "parse" => Box::new(of_frames::Parse::new(rng)),
        "header" => Box::new(of_frames::Header::new(rng)),
        "blocks" => Box::new(of_frames::Blocks::new(rng)),
        "range_eq" => Box::new(small::RangeEq::new()),
        "burst_write" => Box::new(of_frames::Write::new(rng)),
        "burst_read" => Box::new(of_captures::Read::new(rng)),
        "editable" => Box::new(small::Editable),
        "set" => Box::new(small::Set::new()),
        "salvage" => Box::new(of_captures::Salvage::new(rng)),
        "index" => Box::new(of_captures::Index::new(rng)),
        "aht" => Box::new(small::Aht::new()),
        "profile" => Box::new(of_frames::Profile::new(rng)),
        "pack" => Box::new(small::Listings::new(true)),
        "unpack" => Box::new(small::Listings::new(false)),
        "correct" => Box::new(of_frames::Correct::new(rng)),
        _ => return None,
    })
}

fn usage() -> ! {
    eprintln!("usage: many OPERATION SEED CALLS [ACCEPTED]");
    eprintln!("operations: {}", NAMES.join(" "));
    std::process::exit(2);
}

fn main() {
    let mut args = std::env::args().skip(1);
    let name = args.next().unwrap_or_else(|| usage());
    if name == "list" {
        println!("{}", NAMES.join(" "));
        return;
    }
    let numbers: Option<Vec<usize>> = args.map(|a| a.parse().ok()).collect();
    let (seed, least, accepted) = match numbers.as_deref() {
        Some([seed, calls]) => (*seed, *calls, 0),
        Some([seed, calls, accepted]) => (*seed, *calls, *accepted),
        _ => usage(),
    };
    let mut rng = Rng(seed as u64);
    let mut operation = operation(&name, &mut rng).unwrap_or_else(|| usage());
    let plain = operation.plain();
    let mut steer = Steer::new(operation.ways());
    let (mut calls, mut differences) = (0, 0);
    while calls < least || steer.met[0] < accepted {
        let way = steer.way(&mut rng, plain, operation.light());
        let held = operation.call(&mut rng, way);
        steer.note(way, held.outcome);
        calls += 1;
        if let Some(difference) = held.difference {
            differences += 1;
            if differences <= 3 {
                println!("{name}, call {calls}: {difference}");
            }
        }
        if calls % 1_000_000 == 0 {
            let accepted = steer.met[0];
            println!(
                "{name}: {calls} calls, {accepted} of outcome 0, {differences} differences so far"
            );
        }
    }
    let met = (0..OUTCOMES).filter(|outcome| steer.met[*outcome] > 0);
    let met: Vec<String> = met
        .map(|outcome| format!("{outcome}: {}", steer.met[outcome]))
        .collect();
    println!(
        "{name}, seed {seed}: {calls} calls {}: {}{}",
        operation.outcomes(),
        met.join(", "),
        operation.more()
    );
    println!("{name}: {differences} differences");
    std::process::exit(i32::from(differences > 0));
}
