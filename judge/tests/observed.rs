//! The cut copy against the published control flow itself: `ac3.rs` and `blocks.rs` as published,
//! over a cursor that shows the rows, the bit at which a refusal stands and what did not fit, with its block (the published parser
//! keeps them to itself), and that lends a limited number of rows.
//!
//! The published files ask for `crate::syntax`, so they are compiled here a second time.

#![allow(dead_code)]

#[rustfmt::skip]
#[path = "../ddpmeta/ac3.rs"]
mod ac3;
#[path = "observed/frame.rs"]
mod frame;
#[rustfmt::skip]
#[path = "../ddpmeta/blocks.rs"]
mod blocks;
#[path = "observed/syntax.rs"]
mod syntax;

use judge::agree::Room;
use judge::cases::{Amounts, Case, Generator};
use judge::layout::{row, row_at, ROW};
use judge::names::number;
use judge::{alloc, bits, error, tables};
use syntax::{Seen, SEEN};

/// The published parse of the input with room for so many rows, as it was seen.
fn observed(data: &[u8], rows: usize) -> (Seen, Option<String>) {
    SEEN.set(Seen {
        rows,
        ..Seen::default()
    });
    let verdict = ac3::parse(data);
    let seen = SEEN.take();
    let refused = match verdict {
        _ if seen.full => Some("no row left".into()),
        Ok(_) => None,
        Err(error::Error::Invalid(text) | error::Error::Truncated(text)) => Some(text),
        Err(other) => panic!("{other:?}"),
    };
    (seen, refused)
}

#[test]
fn every_answer_is_that_of_the_published_control_flow() {
    let (mut accepted, mut past, mut refused, mut full) = (0, 0, 0, 0);
    let mut compare = |case: &Case<'_>| {
        let data = case.input.get(case.place..).unwrap_or(&[]);
        let answer = &case.call.answer;
        let (seen, text) = observed(data, case.call.room.len() / ROW);
        // The published fields have no part: `judge::parts` tells it.
        let fields = seen.fields.iter().zip(case.call.room.chunks_exact(ROW));
        let rows: Vec<i32> = fields.flat_map(|(f, r)| row(f, r[row_at::PART])).collect();
        assert_eq!(rows, case.call.room[..ROW * answer.rows]);
        assert_eq!(seen.pos, answer.bit);
        assert_eq!(
            text.as_ref(),
            answer.verdict.as_ref().err().map(|no| &no.text)
        );
        // After the last row that there is room for, the published parser goes on where it walked mantissas, and may find no room there.
        let unfit = seen.unfit.filter(|_| !seen.full);
        let unfit = unfit.map(|(name, block)| {
            let name = if name == "mantissa" {
                "mantissas"
            } else {
                &name
            };
            (number(name), i32::from(block))
        });
        let told = answer.unfit();
        assert_eq!(unfit.unwrap_or((0, -1)), (told.name, told.block));
        match answer.number() {
            0 => accepted += 1,
            6 => past += 1,
            7 => full += 1,
            _ => refused += 1,
        }
    };
    let mut generator = Generator::new(3, &mut compare);
    generator.run(Amounts::of_size(1));
    assert!(accepted > 5_000 && past > 1_000 && refused > 5_000 && full > 1_000);
}

/// The observing cursor is itself seen to notice a difference.
#[test]
fn another_room_is_noticed() {
    let frame = judge::craft::small(&|_| None);
    let mut judge = judge::agree::Judge::default();
    let call = judge.call(&frame, 0, Room::Numbers(ROW * 50));
    assert_eq!(observed(&frame, 50).0.pos, call.answer.bit);
    assert_ne!(observed(&frame, 51).0.pos, call.answer.bit);
}
