//! What docs/FORMAT.md asks to run and compare: chbwcod 60 and 61; rows one too few; a frame one byte
//! short; zero-width mantissas. Each call also passes the checks against the published parser.

use judge::agree::{Judge, Room};
use judge::craft::small;
use judge::layout::{row_at, summary, ROW};
use judge::names::number;

const AMPLE: Room = Room::Sufficient { left_over: 0 };

#[test]
fn chbwcod_60_and_61() {
    let mut judge = Judge::default();
    let frame = |code: u32| small(&|a| (a.name == "chbwcod").then_some(code));
    let call = judge.call(&frame(60), 0, AMPLE);
    assert_eq!(call.answer.number(), 0);
    // D45 up to bin 253: one exponent and 21 groups of 12.
    let groups = call
        .room
        .chunks(ROW)
        .filter(|r| r[row_at::NAME] == number("exps[ch]"))
        .count();
    assert_eq!(groups, 21);

    let call = judge.call(&frame(61), 0, AMPLE);
    assert_eq!(call.answer.number(), 11);
    let row = &call.room[ROW * (call.answer.rows - 1)..];
    assert_eq!(
        (row[row_at::NAME], row[row_at::VALUE]),
        (number("chbwcod"), 61),
        "its row stands"
    );
    assert_eq!(call.answer.bit as i32, row[row_at::POS] + 6, "and is read");
}

#[test]
fn rows_one_too_few() {
    let mut judge = Judge::default();
    let frame = small(&|_| None);
    let enough = judge.call(&frame, 0, AMPLE);
    let rows = enough.answer.rows;
    for limit in 0..rows {
        for left_over in [0, ROW - 1] {
            let call = judge.call(&frame, 0, Room::Numbers(ROW * limit + left_over));
            assert_eq!((call.answer.number(), call.answer.rows), (7, limit));
            assert_eq!(call.room[..ROW * limit], enough.room[..ROW * limit]);
            let numbers = call.answer.numbers();
            let zeros = summary().all(|at| numbers[at] == 0);
            assert!(zeros, "the summary is all zeros");
        }
    }
    let call = judge.call(&frame, 0, Room::Numbers(ROW * rows));
    assert_eq!(call.answer, enough.answer);
}

#[test]
fn frame_one_byte_short() {
    let mut judge = Judge::default();
    let frame = small(&|_| None);
    for kept in 6..128 {
        let call = judge.call(&frame[..kept], 0, AMPLE);
        assert_eq!(
            (call.answer.number(), call.answer.rows, call.answer.bit),
            (4, 4, 40)
        );
    }
    for kept in 0..6 {
        let call = judge.call(&frame[..kept], 0, AMPLE);
        assert_eq!(
            (call.answer.number(), call.answer.rows, call.answer.bit),
            (1, 0, 0)
        );
    }
    assert_eq!(judge.call(&frame, 0, AMPLE).answer.number(), 0);
}

#[test]
fn zero_width_mantissas() {
    let mut judge = Judge::default();
    let call = judge.call(&small(&|_| None), 0, AMPLE);
    let widths: Vec<i32> = call
        .room
        .chunks(ROW)
        .filter(|r| r[row_at::NAME] == number("mantissas"))
        .map(|r| r[row_at::WIDTH])
        .collect();
    assert_eq!(widths, [0; 6], "each takes a row");
}
