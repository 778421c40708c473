//! level_against SEED SIZE: runs the generator of calls about level correction and holds the port's answer, every byte of its capture,
//! every number of its room and every number of its list of changes against the judge's. Prints what was compared; status 1 on a
//! difference, or where something that is to be compared was not met.

use compare_level::layout::LevelAnswer;
use compare_level::raw;
use judge::agree::fresh_room;
use judge::cases::Amounts;
use judge::hex;
use judge::layout::Changes;
use judge::level::cases::{fresh_changes, Case, Levels};
use std::fmt::Debug;

/// The first place at which two runs differ, with what stands there.
fn show_first<T: PartialEq + Debug>(of: &str, judge: &[T], port: &[T]) {
    if let Some(at) = (0..judge.len()).find(|&i| judge[i] != port[i]) {
        let (judge, port) = (&judge[at], &port[at]);
        println!("  {at} of the {of}: judge {judge:?}, port {port:?}");
    }
}

fn show(case: &Case<'_>, answer: LevelAnswer, after: &[u8], room: &[i32], changes: &Changes) {
    let (place, programme, level) = (case.place, case.programme, case.level);
    println!(
        "place {place}, programme {programme}, level {level} of {}",
        hex::of(case.capture)
    );
    println!("  room for {} numbers", room.len());
    println!("  judge {:?} {:?}", case.answer, case.changes);
    println!("  port  {answer:?} {changes:?}");
    show_first("capture", case.after, after);
    show_first("room", case.room, room);
}

fn main() {
    let args: Vec<usize> = std::env::args()
        .skip(1)
        .map(|a| a.parse().expect("SEED and SIZE are numbers"))
        .collect();
    let [seed, size] = args[..] else {
        eprintln!("usage: level_against SEED SIZE");
        std::process::exit(2);
    };
    let (mut differences, mut numbers, mut bytes) = (0, 0, 0);
    let mut compare = |case: &Case<'_>| {
        let mut capture = case.capture.to_vec();
        let (mut room, mut changes) = (fresh_room(case.room.len()), fresh_changes());
        let (place, programme, level) = (case.place, case.programme, case.level);
        let (answer, _) = raw::correct(
            &mut capture,
            place,
            programme,
            level,
            &mut room,
            &mut changes,
        );
        numbers += room.len();
        bytes += capture.len();
        let same = answer == case.answer && changes == *case.changes;
        if !same || capture != case.after || room != case.room {
            differences += 1;
            if differences <= 3 {
                show(case, answer, &capture, &room, &changes);
            }
        }
    };
    let mut levels = Levels::new(seed as u64, &mut compare);
    // (The inputs of the parser are many: of them one size fewer.)
    let amounts = Amounts::of_size(size.saturating_sub(1));
    levels.run(seed as u64, size, amounts);
    let refused = levels.refused.iter();
    let refused: Vec<String> = refused.map(|(n, times)| format!("{n}: {times}")).collect();
    println!("calls by refusal (0: none): {}", refused.join(", "));
    println!(
        "{} levels of programmes, {} sizes at a rate, {} sets of changes of a programme",
        levels.levels.len(),
        levels.sizes.len(),
        levels.sets.len()
    );
    let least = levels.left.iter().min().unwrap_or(&0);
    println!(
        "0 to {} bits behind the audio, each at least {least} times",
        levels.left.len() - 1
    );
    for (what, times) in &levels.named {
        println!("{what}: {times}");
    }
    let missed = levels.missed();
    missed.iter().for_each(|what| println!("MISSED {what}"));
    let calls = levels.calls();
    println!("{calls} calls, {bytes} bytes of captures and {numbers} numbers of room compared");
    println!("{differences} differences");
    std::process::exit((differences > 0 || !missed.is_empty()) as i32);
}
