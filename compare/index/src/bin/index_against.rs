//! index_against SEED SIZE: runs the generator of growing captures and holds the port's answer and every number of its room and its index
//! against the judge's, those that are not to be touched too. Prints what was compared; status 1 on a difference, or where something that
//! the calls are to reach was not reached: each refusal among them, at each place where it can be given.

use compare_index::raw;
use judge::hex;
use judge::index::again::Runs;
use judge::index::cases::{Amounts, Case, Indexes};
use judge::layout::IndexAnswer;
use std::fmt::Debug;

/// The first place at which two runs differ, with what stands there.
fn show_first<T: PartialEq + Debug>(of: &str, judge: &[T], port: &[T]) {
    if let Some(at) = (0..judge.len()).find(|&i| judge[i] != port[i]) {
        let (judge, port) = (&judge[at], &port[at]);
        println!("  {at} of the {of}: judge {judge:?}, port {port:?}");
    }
}

fn show(case: &Case<'_>, answer: IndexAnswer, runs: &Runs) {
    let (room, index) = (case.before.room.len(), &case.before.index);
    println!("{room} numbers of room, {} entries of", case.entries);
    println!("{index:?}, {}", hex::of(case.capture));
    println!("  judge {:?}", case.answer);
    println!("  port  {answer:?}");
    show_first("room", &case.after.room, &runs.room);
    show_first("index", &case.after.index, &runs.index);
}

fn main() {
    let args: Vec<usize> = std::env::args()
        .skip(1)
        .map(|a| a.parse().expect("SEED and SIZE are numbers"))
        .collect();
    let [seed, size] = args[..] else {
        eprintln!("usage: index_against SEED SIZE");
        std::process::exit(2);
    };
    let (mut differences, mut numbers, mut indexed) = (0, 0, 0);
    let mut compare = |case: &Case<'_>| {
        let mut runs = case.before.clone();
        let answer = raw::index(case.capture, &mut runs.room, &mut runs.index, case.entries);
        numbers += runs.room.len();
        indexed += runs.index.len();
        if answer != case.answer || runs != *case.after {
            differences += 1;
            if differences <= 3 {
                show(case, answer, &runs);
            }
        }
    };
    let mut indexes = Indexes::new(seed as u64, &mut compare);
    indexes.run(Amounts::of_size(size));
    for (goal, times) in &indexes.reached.0 {
        println!("{goal}: {times}");
    }
    let missed = indexes.reached.missed();
    missed.iter().for_each(|what| println!("MISSED {what}"));
    println!(
        "{} calls of {} captures, {} of them extensions with an index made afresh beside them, all goals reached: {}",
        indexes.calls,
        indexes.captures,
        indexes.extensions,
        missed.is_empty()
    );
    println!("{numbers} numbers of room and {indexed} numbers of indexes compared");
    println!("{differences} differences");
    std::process::exit((differences > 0 || !missed.is_empty()) as i32);
}
