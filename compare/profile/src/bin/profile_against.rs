//! profile_against SEED SIZE: runs the generator of calls about the profile and holds the port's answer and every number of its room against
//! the judge's. Prints what was compared; status 1 on a difference, or where something that is to be compared was not met.

use compare_profile::layout::ProfileAnswer;
use compare_profile::raw;
use judge::agree::fresh_room;
use judge::cases::Amounts;
use judge::hex;
use judge::profile_cases::{Case, Profiles};

fn show(case: &Case<'_>, answer: ProfileAnswer, room: &[i32]) {
    println!("place {} of {}", case.place, hex::of(case.capture));
    println!("  room for {} numbers", room.len());
    println!("  judge {:?}", case.answer);
    println!("  port  {answer:?}");
    if let Some(at) = (0..room.len()).find(|&i| room[i] != case.room[i]) {
        let (judge, port) = (case.room[at], room[at]);
        println!("  number {at} of the room: judge {judge}, port {port}");
    }
}

/// Counts by number, as text.
fn counted<N: std::fmt::Display>(counts: impl Iterator<Item = (N, usize)>) -> String {
    let each: Vec<String> = counts.map(|(n, times)| format!("{n}: {times}")).collect();
    each.join(", ")
}

fn main() {
    let args: Vec<usize> = std::env::args()
        .skip(1)
        .map(|a| a.parse().expect("SEED and SIZE are numbers"))
        .collect();
    let [seed, size] = args[..] else {
        eprintln!("usage: profile_against SEED SIZE");
        std::process::exit(2);
    };
    let (mut differences, mut numbers) = (0, 0);
    let mut compare = |case: &Case<'_>| {
        let mut room = fresh_room(case.room.len());
        let (answer, _) = raw::profile(case.capture, case.place, &mut room);
        numbers += room.len();
        if answer != case.answer || room != case.room {
            differences += 1;
            if differences <= 3 {
                show(case, answer, &room);
            }
        }
    };
    let mut profiles = Profiles::new(seed as u64, &mut compare);
    // (The inputs of the parser are many: of them one size fewer.)
    let amounts = Amounts::of_size(size.saturating_sub(1));
    profiles.run(seed as u64, size, amounts);
    let calls = profiles.calls();
    let refused = profiles.refused.iter().map(|(n, times)| (n, *times));
    println!("calls by refusal (0: none): {}", counted(refused));
    let told = profiles.told.iter().copied().enumerate();
    println!("accepted frames by rule (0: within): {}", counted(told));
    let sets = (profiles.sets.len(), profiles.sets.iter().min());
    println!(
        "{} sets of rules, each at least {} times",
        sets.0,
        sets.1.unwrap_or(&0)
    );
    let blocks = profiles.deltas[1..].iter().min().unwrap_or(&0);
    println!("63 sets of blocks with deltbaie 1, each at least {blocks} times");
    let drawn: usize = profiles.drawn.values().sum();
    let (kinds, first) = (profiles.drawn.len(), profiles.drawn_blocks);
    println!("{drawn} drawn frames of {kinds} sorts, deltbaie first in blocks 0 to 5: {first:?}");
    for (what, times) in &profiles.named {
        println!("{what}: {times}");
    }
    let missed = profiles.missed();
    missed.iter().for_each(|what| println!("MISSED {what}"));
    println!("{calls} calls and {numbers} numbers of room compared");
    println!("{differences} differences");
    std::process::exit((differences > 0 || !missed.is_empty()) as i32);
}
