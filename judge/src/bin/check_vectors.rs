//! check_vectors < LIST: runs the judge on every case of a list, the text one or the binary one,
//! and compares; ends with the number of cases. To check another parser, replace `answer` here.

use judge::agree::{fresh_room, Room};
use judge::cases::input;
use judge::cut::answer;
use judge::hex;
use judge::list::{checksum, Listed, Said};
use judge::replay::{self, MAGIC};
use std::io::{self, Read};

fn say(capture: &[u8], place: usize, numbers: usize) -> Said {
    let mut room = fresh_room(numbers);
    let got = answer(capture, place, &mut room);
    Said {
        numbers: got.numbers(),
        checksum: checksum(&room),
    }
}

fn main() -> io::Result<()> {
    let mut list = Vec::new();
    io::stdin().read_to_end(&mut list)?;
    let (mut cases, mut wrong) = (0, 0);
    let mut compare = |which: &str, got: Said, said: Said| {
        cases += 1;
        if got != said {
            wrong += 1;
            println!("{which}\n  got {got:?}");
        }
    };
    if list.starts_with(MAGIC) {
        for (i, case) in replay::read(&list).into_iter().enumerate() {
            let Room::Numbers(numbers) = case.room else {
                unreachable!("a list gives the numbers")
            };
            let got = say(case.capture, case.place, numbers);
            compare(&format!("case {i}"), got, case.said);
        }
    } else {
        let mut capture = Vec::new();
        for line in String::from_utf8(list).expect("text").lines() {
            if let Some(digits) = line.strip_prefix("frame ") {
                capture = hex::bytes(digits);
            } else if line.starts_with("case ") {
                let case = Listed::read(line);
                let input = input(&capture, case.edit, case.keep);
                compare(line, say(&input, case.place, case.numbers), case.said);
            }
        }
    }
    println!("{cases} cases, {wrong} wrong");
    std::process::exit(i32::from(wrong > 0 || cases == 0));
}
