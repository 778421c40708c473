//! salvage_against SEED SIZE: runs the generator of captures to be salvaged and holds the port's answer, every number of its room and its
//! list, and every byte of its output against the judge's. Prints what was compared; status 1 on a difference, or where something that the
//! captures are to reach was not reached.

use compare_salvage::raw;
use judge::hex;
use judge::layout::SalvageAnswer;
use judge::salvage::again::Runs;
use judge::salvage::cases::{Amounts, Case, Salvages};
use std::fmt::Debug;

/// The first place at which two runs differ, with what stands there.
fn show_first<T: PartialEq + Debug>(of: &str, judge: &[T], port: &[T]) {
    if let Some(at) = (0..judge.len()).find(|&i| judge[i] != port[i]) {
        let (judge, port) = (&judge[at], &port[at]);
        println!("  {at} of the {of}: judge {judge:?}, port {port:?}");
    }
}

fn show(case: &Case<'_>, answer: SalvageAnswer, runs: &Runs) {
    println!("{:?}, {}", runs.lent(), hex::of(case.capture));
    println!("  judge {:?}", case.answer);
    println!("  port  {answer:?}");
    show_first("room", &case.runs.room, &runs.room);
    show_first("list", &case.runs.list, &runs.list);
    show_first("output", &case.runs.out, &runs.out);
}

fn main() {
    let args: Vec<usize> = std::env::args()
        .skip(1)
        .map(|a| a.parse().expect("SEED and SIZE are numbers"))
        .collect();
    let [seed, size] = args[..] else {
        eprintln!("usage: salvage_against SEED SIZE");
        std::process::exit(2);
    };
    let (mut differences, mut numbers, mut listed, mut bytes) = (0, 0, 0, 0);
    let mut compare = |case: &Case<'_>| {
        let lent = case.runs.lent();
        let mut runs = Runs::fresh(lent);
        let Runs { room, list, out } = &mut runs;
        let (answer, _, _) = raw::salvage(case.capture, room, list, out);
        numbers += lent.numbers;
        listed += lent.list;
        bytes += lent.bytes;
        if answer != case.answer || runs != *case.runs {
            differences += 1;
            if differences <= 3 {
                show(case, answer, &runs);
            }
        }
    };
    let mut salvages = Salvages::new(seed as u64, &mut compare);
    salvages.run(Amounts::of_size(size));
    let (captures, calls) = (salvages.captures, salvages.calls);
    for (goal, times) in &salvages.reached.0 {
        println!("{goal}: {times}");
    }
    let missed = salvages.reached.missed();
    missed.iter().for_each(|what| println!("MISSED {what}"));
    println!(
        "{calls} calls of {captures} captures, all goals reached: {}",
        missed.is_empty()
    );
    println!(
        "{numbers} numbers of room, {listed} numbers of lists and {bytes} bytes of output compared"
    );
    println!("{differences} differences");
    std::process::exit((differences > 0 || !missed.is_empty()) as i32);
}
