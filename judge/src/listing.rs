//! The form in which the listing program of docs/FORMAT.md prints an answer.

use crate::cut::Answer;
use crate::layout::ROW;
use std::fmt::Write;

/// The listing program's room, in rows, and the most that it reads, in bytes.
pub const ROWS: usize = 1820;
pub const BYTES: usize = 3840;

/// The last line, without its line feed.
pub fn last_line(answer: &Answer) -> String {
    match &answer.verdict {
        Ok(s) => format!("audio {} {} {}", s.rows, s.bytes, s.audio_end),
        Err(no) => format!(
            "refused {} {} {} {} {}",
            no.number, answer.rows, answer.bit, no.unfit.name, no.unfit.block
        ),
    }
}

/// Every row written, then the last line.
pub fn listing(answer: &Answer, room: &[i32]) -> String {
    let mut out = String::new();
    for row in room.chunks(ROW).take(answer.rows) {
        let numbers: Vec<String> = row.iter().map(i32::to_string).collect();
        writeln!(out, "{}", numbers.join(" ")).expect("text");
    }
    out + &last_line(answer) + "\n"
}
