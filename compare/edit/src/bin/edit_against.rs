//! edit_against SEED COUNT: holds the port's list of names that may be edited against the judge's, number by number; then runs the
//! generator of edits and holds the port's answers to `set`, and every byte that it leaves, against the judge's, and its answer and every
//! number of its room for each of COUNT frames that its own `set` edited. Prints what was compared; status 1 on a difference, or where a
//! refusal, an edge or a name was not met.

use compare_edit::raw;
use judge::agree::fresh_room;
use judge::edit::editable;
use judge::edit_cases::{Call, Case, Edit, Edits, Write, ELSEWHERE};
use judge::hex;
use judge::layout::ROW;
use judge::names::{COUNT, NAMES};

/// Numbers asked of the list: all small ones, and those that are small again in fewer bits.
fn asked() -> impl Iterator<Item = usize> {
    let far = [8, 16, 31, 32, 33, 61, 63].map(|bits| 1usize << bits);
    let near = move |n: usize| far.into_iter().map(move |base| base + n);
    let last = (0..=300).map(|n| usize::MAX - n);
    (0..=300).chain((0..=COUNT + 1).flat_map(near)).chain(last)
}

/// The first differences, shown; the others, counted.
#[derive(Default)]
struct Differences(usize);

impl Differences {
    fn meet(&mut self, show: impl Fn() -> String) {
        self.0 += 1;
        if self.0 <= 3 {
            println!("{}", show());
        }
    }
}

fn set(capture: &mut [u8], place: usize, write: &Write) -> u8 {
    raw::set(capture, place, write.position, write.width, write.value)
}

fn compare_set(call: &Call<'_>, differences: &mut Differences) {
    let mut capture = call.before.to_vec();
    let answer = set(&mut capture, call.place, &call.write);
    if answer != call.answer || capture != call.after {
        differences.meet(|| {
            format!(
                "set at place {} of {}: {:?}\n  judge {} {}\n  port  {answer} {}",
                call.place,
                hex::of(call.before),
                call.write,
                call.answer,
                hex::of(call.after),
                hex::of(&capture)
            )
        });
    }
}

/// An edit made by the port's `set`, and the edited frame parsed by the port, in room that leaves some numbers over; both against the
/// judge. Gives how many numbers of the room were compared.
fn compare_edit(edit: &Edit<'_>, left_over: usize, differences: &mut Differences) -> usize {
    let mut capture = edit.before.to_vec();
    let refused = edit
        .writes
        .iter()
        .any(|w| set(&mut capture, edit.place, w) != 0);
    let mut expected = fresh_room(edit.rows.len() + left_over);
    let mut room = expected.clone();
    expected[..edit.rows.len()].copy_from_slice(edit.rows);
    let (answer, _) = raw::parse(&capture, edit.place, &mut room);
    if refused || capture != edit.after || answer != edit.answer || room != expected {
        differences.meet(|| {
            format!(
                "edit at place {} of {}: {:?}\n  refused: {refused}; bytes are the judge's: {}\n  judge {:?}\n  port  {answer:?}\n  \
                 first number of the room that differs: {:?}",
                edit.place,
                hex::of(edit.before),
                edit.writes,
                capture == edit.after,
                edit.answer,
                (0..room.len()).find(|i| room[*i] != expected[*i])
            )
        });
    }
    room.len()
}

fn main() {
    let args: Vec<usize> = std::env::args()
        .skip(1)
        .map(|a| a.parse().expect("SEED and COUNT are numbers"))
        .collect();
    let [seed, count] = args[..] else {
        eprintln!("usage: edit_against SEED COUNT");
        std::process::exit(2);
    };
    let mut differences = Differences::default();
    let mut names = 0;
    for n in asked() {
        names += 1;
        let (judge, port) = (editable(n), raw::editable(n));
        if judge != port {
            differences.meet(|| format!("may name {n} be edited? judge {judge}, port {port}"));
        }
    }
    let (mut bytes, mut numbers, mut fields, mut edited) = (0, 0, 0, 0);
    let mut compare = |case: &Case<'_>| match case {
        Case::Set(call) => {
            bytes += call.before.len();
            compare_set(call, &mut differences);
        }
        Case::Edit(edit) => {
            edited += 1;
            fields += edit.writes.len();
            bytes += edit.before.len();
            numbers += compare_edit(edit, edited % ROW, &mut differences);
        }
    };
    let mut edits = Edits::new(seed as u64, &mut compare);
    edits.run(count);
    let answers: Vec<String> = edits
        .answers
        .iter()
        .map(|(answer, times)| format!("{answer}: {times}"))
        .collect();
    let calls: usize = edits.answers.values().sum();
    println!("set, calls by refusal (0: none): {}", answers.join(", "));
    for (edge, times) in &edits.edges {
        println!("{edge}: {times}");
    }
    let least = edits.places_in_a_byte.iter().flatten().min();
    println!(
        "each width at each bit of a byte: at least {} times",
        least.expect("widths")
    );
    println!("fields that got another value, by name:");
    for (n, name) in (1..).zip(&NAMES).filter(|(n, _)| editable(*n)) {
        println!("  {n} {}: {}", name.text, edits.fields[n]);
    }
    for what in ELSEWHERE {
        println!("edits, {what}: {}", edits.elsewhere.get(what).unwrap_or(&0));
    }
    let others = judge::edit_cases::not_listed().map(|n| edits.steering[n]);
    let (times, differed) = others.fold((0, 0), |(times, differed), tried| {
        (times + tried.times, differed + tried.differed)
    });
    println!("edits of one other field: {times}; of which {differed} were refused or changed something else (the judge alone)");
    let missed = edits.missed();
    missed.iter().for_each(|what| println!("MISSED {what}"));
    let edited = edits.edits;
    println!("{names} numbers asked of the list, {calls} calls of set, {edited} frames edited by {fields} values");
    println!("{bytes} bytes of captures and {numbers} numbers of room compared");
    println!("{} differences", differences.0);
    std::process::exit((differences.0 > 0 || !missed.is_empty()) as i32);
}
