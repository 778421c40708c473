//! apart_against SEED SIZE: runs the generator of calls of `header` and `blocks` and holds the port's answer and every number of its room
//! against the judge's. On each input the port's whole parse must also be its `blocks` of its own `header`, or end at the header's refusal.
//! Prints what was compared; status 1 on a difference, or where a refusal, a sort of header answer or a case to be compared by name was not
//! met.

use compare_apart::layout::{answer_at, header_answer_at, Answer, HeaderAnswer, ANSWER_NUMBERS};
use compare_apart::raw;
use judge::agree::fresh_room;
use judge::apart_cases::{
    required, Apart, Case, Sort, Told, BLOCKS, BY_NAME, GIVEN, HEADER, NAMED,
};
use judge::cases::Amounts;
use judge::hex;

/// The first differences, shown; the others, counted.
#[derive(Default)]
struct Differences(usize);

impl Differences {
    fn meet(&mut self, case: &Case<'_>, show: impl Fn() -> String) {
        self.0 += 1;
        if self.0 <= 3 {
            println!("place {} of {}", case.place, hex::of(case.capture));
            println!("  room for {} numbers\n{}", case.room.len(), show());
        }
    }

    /// Holds an answer and a room of the port against those expected.
    fn hold<A: PartialEq + std::fmt::Debug>(
        &mut self,
        case: &Case<'_>,
        what: &str,
        [expected, port]: [(A, &[i32]); 2],
    ) {
        if expected != port {
            let at = (0..port.1.len()).find(|i| expected.1[*i] != port.1[*i]);
            self.meet(case, || {
                format!(
                    "  {what}\n  expected {:?}\n  port     {:?}\n  first number of the room that differs: {at:?}",
                    expected.0, port.0
                )
            });
        }
    }
}

/// What the whole parse answers where the header is refused.
fn ended_at(header: &HeaderAnswer) -> Answer {
    let mut answer = [0; ANSWER_NUMBERS];
    answer[answer_at::REFUSAL] = header[header_answer_at::REFUSAL];
    answer[answer_at::ROWS] = header[header_answer_at::ROWS];
    answer[answer_at::BIT] = header[header_answer_at::BIT];
    answer[answer_at::NAME] = header[header_answer_at::NAME];
    answer[answer_at::BLOCK] = header[header_answer_at::BLOCK];
    answer
}

/// The port's whole parse is its `blocks` of its `header`, which was `told` and left that room; where that is refused, the parse ends there.
fn both_in_turn(case: &Case<'_>, told: &HeaderAnswer, left: &[i32], differences: &mut Differences) {
    let (mut whole, mut parts) = (fresh_room(left.len()), fresh_room(left.len()));
    let (parsed, _) = raw::parse(case.capture, case.place, &mut whole);
    let (in_turn, _) = raw::blocks(case.capture, case.place, &mut parts, told);
    let expected = match told[header_answer_at::REFUSAL] {
        0 => (in_turn, &parts[..]),
        _ => (ended_at(told), left),
    };
    differences.hold(
        case,
        "parse, against header and blocks",
        [expected, (parsed, &whole[..])],
    );
}

fn main() {
    let args: Vec<usize> = std::env::args()
        .skip(1)
        .map(|a| a.parse().expect("SEED and SIZE are numbers"))
        .collect();
    let [seed, size] = args[..] else {
        eprintln!("usage: apart_against SEED SIZE");
        std::process::exit(2);
    };
    let mut differences = Differences::default();
    let mut numbers = 0;
    let mut compare = |case: &Case<'_>| {
        let mut room = fresh_room(case.room.len());
        numbers += room.len();
        match &case.told {
            Told::Header(judge) => {
                let (port, _) = raw::header(case.capture, case.place, &mut room);
                differences.hold(case, "header", [(*judge, case.room), (port, &room[..])]);
                both_in_turn(case, &port, &room, &mut differences);
            }
            Told::Blocks { given, answer } => {
                let (port, _) = raw::blocks(case.capture, case.place, &mut room, given);
                let what = format!("blocks with {given:?}");
                differences.hold(case, &what, [(*answer, case.room), (port, &room[..])]);
            }
        }
    };
    let mut apart = Apart::new(seed as u64, &mut compare);
    apart.run(seed as u64, Amounts::for_list(size));
    let by_refusal = |kind| {
        let reached = apart.reached.iter().filter(|((of, _, _), _)| *of == kind);
        let by_number = reached.map(|((_, n, _), times)| format!("{n}: {times}"));
        by_number.collect::<Vec<_>>().join(", ")
    };
    println!("header, calls by refusal (0: none): {}", by_refusal(HEADER));
    println!("blocks, calls by refusal (0: none): {}", by_refusal(BLOCKS));
    println!("header answers given to blocks, by sort: taken, refused with 24");
    for sort in Sort::ALL {
        let [refused, taken] = [0, 1].map(|taken| apart.of((GIVEN, sort as i32, taken)));
        println!("  {sort:?}: {taken}, {refused}");
    }
    for (at, name) in (0..).zip(BY_NAME) {
        println!("{name}: {}", apart.of((NAMED, at, 0)));
    }
    println!(
        "most rows of a header: {}, most bits: {}",
        apart.most_rows, apart.longest
    );
    let missed = apart.missed();
    println!("{} goals, {} missed", required().len(), missed.len());
    missed.iter().for_each(|what| println!("MISSED {what}"));
    let [headers, blocks] = apart.calls;
    println!("{headers} calls of header and {blocks} of blocks, {numbers} numbers of room compared; {headers} parses against both in turn");
    println!("{} differences", differences.0);
    std::process::exit((differences.0 > 0 || !missed.is_empty()) as i32);
}
