//! aht_against SEED SIZE: runs the generator of AHT sections and holds the port's answers against the judge's. Prints what was compared;
//! status 1 on a difference, or where a refusal, a gaqmod, an edge or another goal was not met.

use compare_aht::raw;
use judge::aht::{can_be_published, Asked};
use judge::aht_cases::{required, say, Case, Sections, ANSWER, EDGE, FIRST_FAULT, IN_MODE};
use judge::hex;
use std::collections::BTreeMap;

fn by_port(asked: &Asked<'_>) -> [usize; 3] {
    let Asked {
        data,
        at,
        end,
        hebap,
        first,
        past,
    } = *asked;
    raw::aht(data, at, end, hebap, first, past)
}

fn main() {
    let args: Vec<usize> = std::env::args()
        .skip(1)
        .map(|a| a.parse().expect("SEED and SIZE are numbers"))
        .collect();
    let [seed, size] = args[..] else {
        eprintln!("usage: aht_against SEED SIZE");
        std::process::exit(2);
    };
    let (mut differences, mut published, mut bits, mut tags) = (0, 0, 0, 0);
    let mut compare = |case: &Case<'_>| {
        let answer = by_port(&case.asked);
        published += usize::from(can_be_published(&case.asked));
        if case.answer[0] == 0 {
            bits += case.answer[1] - case.asked.at;
            tags += case.answer[2];
        }
        if answer != case.answer {
            differences += 1;
            if differences <= 3 {
                let Asked {
                    at,
                    end,
                    first,
                    past,
                    ..
                } = case.asked;
                println!("bits {at} to {end} of {}", hex::of(case.asked.data));
                println!("  bins {first} to {past} of {:?}", case.asked.hebap);
                println!("  judge {:?}", case.answer);
                println!("  port  {answer:?}");
            }
        }
    };
    let mut sections = Sections::new(seed as u64, &mut compare);
    sections.run(size);
    let calls = sections.calls;
    // One by one those that are told by name; of the others the least.
    let mut least = BTreeMap::new();
    for goal in required() {
        let times = sections.of(goal);
        if [ANSWER, IN_MODE, EDGE, FIRST_FAULT].contains(&goal.0) {
            println!("{}: {times}", say(&goal));
        } else {
            let (count, of_kind) = least.entry(goal.0).or_insert((0, times));
            *count += 1;
            *of_kind = times.min(*of_kind);
        }
    }
    for (kind, (count, times)) in least {
        println!("{kind}, each of {count}: at least {times} times");
    }
    let missed = sections.missed();
    missed.iter().for_each(|goal| println!("MISSED {goal}"));
    println!("{} goals, {} missed", required().len(), missed.len());
    println!(
        "{calls} calls from seed {seed}, of which the original can take {published}; {bits} bits and {tags} tags in accepted sections"
    );
    println!("{differences} differences");
    std::process::exit((differences > 0 || !missed.is_empty()) as i32);
}
