//! `list`: the fields of a frame, as the listing program prints them, as a table, or as JSON.

use crate::arguments::{flag, valued, Arguments, Command};
use crate::end::{End, Verdict};
use crate::frames::refused;
use crate::input::Capture;
use crate::output::Text;
use crate::{json, words};
use ferrysprig::{parse_into, Field, Refusal, Summary, MOST_BYTES, MOST_ROWS, NAMES, ROW_NUMBERS};
use std::fmt::Write;

pub const LIST: Command = Command {
    name: "list",
    does: "Lists the fields of a frame.",
    operands: &["FILE"],
    options: &[
        flag("--all", "all frames of the file, not the first alone"),
        valued(
            "--at",
            "BYTE",
            "begin at this byte of the file, counted from 0",
        ),
        flag(
            "--names",
            "a table with names, and words for what they mean",
        ),
        flag("--json", "an object for each frame, on a line of its own"),
        valued("--room", "ROWS", "room for so many rows"),
    ],
    more: "Each field is a row of nine numbers, and a last line tells the frame's length or its\n\
           refusal (docs/FORMAT.md). Without an option that is the listing program's output: the\n\
           first frame, with room for 1,820 rows. --names and --json have room for any frame.\n\
           A frame that is refused is listed as far as it was read, and ends the listing.",
    run,
};

/// The listing program's room (docs/FORMAT.md).
const LISTED_ROWS: usize = 1820;

/// A frame's answer, and what its rows are: numbers in a room.
struct Listed<'a> {
    place: usize,
    rows: &'a [i32],
    answer: Result<(Vec<Field>, Summary), Refusal>,
}

type Form = fn(&Listed<'_>) -> String;

fn run(given: &Arguments) -> Result<Verdict, End> {
    given.not_both("--names", "--json")?;
    let (form, rows): (Form, usize) = if given.has("--names") {
        (table, MOST_ROWS)
    } else if given.has("--json") {
        (object, MOST_ROWS)
    } else {
        (numbers, LISTED_ROWS)
    };
    // More than that is never needed.
    let rows = given.number("--room")?.unwrap_or(rows).min(MOST_ROWS);
    let place = given.number("--at")?.unwrap_or(0);
    let mut room = vec![0; rows * ROW_NUMBERS];
    let mut capture = Capture::open(given.operand(0))?;
    capture.seek(place)?;
    let name = capture.name().to_string();
    let mut text = Text::new()?;
    if text.on_terminal() {
        capture.progress.never();
    }
    while capture.more(MOST_BYTES, || text.flush())? {
        let (place, bytes) = (capture.place(), capture.rest());
        let passed = listed(&mut text, form, &mut room, &name, place, bytes)?;
        if !given.has("--all") {
            break;
        }
        capture.pass(passed);
    }
    text.flush()?;
    Ok(Verdict::Accepted)
}

/// Lists the frame that bytes begin with, and gives its length.
fn listed(
    text: &mut Text,
    form: Form,
    room: &mut [i32],
    name: &str,
    place: usize,
    bytes: &[u8],
) -> Result<usize, End> {
    let answer = match parse_into(bytes, 0, room) {
        Ok(frame) => Ok((frame.fields.collect::<Vec<Field>>(), frame.summary)),
        Err(refusal) => Err(refusal),
    };
    let rows = match &answer {
        Ok((fields, _)) => fields.len(),
        Err(refusal) => refusal.rows.len(),
    };
    let shown = Listed {
        place,
        rows: &room[..rows * ROW_NUMBERS],
        answer,
    };
    text.put(form(&shown))?;
    match shown.answer {
        Ok((_, summary)) => Ok(summary.bytes),
        Err(refusal) => {
            text.flush()?;
            let more = match refusal.number {
                7 => format!(" (there is room for {rows}; --room {MOST_ROWS} takes any frame)"),
                _ => String::new(),
            };
            Err(refused(name, place, bytes, format_args!("{refusal}{more}")))
        }
    }
}

/// As the listing program prints it.
fn numbers(listed: &Listed<'_>) -> String {
    let mut text = String::new();
    for row in listed.rows.chunks(ROW_NUMBERS) {
        for (at, number) in row.iter().enumerate() {
            let space = if at == 0 { "" } else { " " };
            let _ = write!(text, "{space}{number}");
        }
        text += "\n";
    }
    let last = match &listed.answer {
        Ok((fields, summary)) => {
            let Summary {
                bytes, audio_end, ..
            } = summary;
            format!("audio {} {bytes} {audio_end}\n", fields.len())
        }
        Err(refusal) => {
            let Refusal {
                number, rows, bit, ..
            } = refusal;
            let (name, block) = refusal
                .unfit
                .map_or((0, -1), |u| (name_number(u.name), u.block));
            format!("refused {number} {} {bit} {name} {block}\n", rows.len())
        }
    };
    text + &last
}

/// A name's number (docs/NAMES.md).
fn name_number(name: &str) -> usize {
    let place = NAMES.iter().position(|known| *known == name);
    place.map_or(0, |place| place + 1)
}

const TABLE_HEAD: &str =
    "    bit  width  value  name          block  index  part  programme  role\n";

/// As a table for people.
fn table(listed: &Listed<'_>) -> String {
    let place = listed.place;
    let (fields, mut text, last) = match &listed.answer {
        Ok((fields, s)) => (
            fields,
            words::frame(place, s.bytes, s.acmod, s.lfeon, s.fscod) + "\n",
            format!("the audio ends at bit {} of {}\n", s.audio_end, 8 * s.bytes),
        ),
        Err(refusal) => (
            &refusal.rows,
            format!("no frame at byte {place}\n"),
            format!("{refusal}\n"),
        ),
    };
    text += TABLE_HEAD;
    for field in fields {
        let value = match field.role.is_span() {
            true => "-".into(),
            false => field.value.to_string(),
        };
        let line = format!(
            "{:>7}  {:>5}  {value:>5}  {:<12}  {:>5}  {:>5}  {:>4}  {:>9}  {}",
            field.pos,
            field.width,
            field.name,
            or_dash(block(field)),
            or_dash(index(field)),
            or_dash(field.part),
            or_dash(words::programme(field.role)),
            words::role(field.role),
        );
        text += line.trim_end();
        text += "\n";
    }
    text + &last
}

fn or_dash(number: Option<impl ToString>) -> String {
    number.map_or("-".into(), |number| number.to_string())
}

fn block(field: &Field) -> Option<i8> {
    (field.block >= 0).then_some(field.block)
}

fn index(field: &Field) -> Option<i16> {
    (field.index >= 0).then_some(field.index)
}

/// As an object.
fn object(listed: &Listed<'_>) -> String {
    let mut text = format!("{{\"place\":{}", listed.place);
    let fields = match &listed.answer {
        Ok((fields, summary)) => {
            text += &summary_pairs(summary);
            fields
        }
        Err(refusal) => {
            text += &format!(",\"refusal\":{}", refusal_object(refusal));
            &refusal.rows
        }
    };
    text += &format!(",\"fields\":{}}}\n", json::list(fields, field_object));
    text
}

fn summary_pairs(s: &Summary) -> String {
    format!(
        ",\"bytes\":{},\"audio_end\":{},\"bsid\":{},\"acmod\":{},\"lfeon\":{},\"fscod\":{},\"cpl_blocks\":{},\"block_starts\":{},\
         \"mantissa_starts\":{},\"mantissa_bits\":{},\"coordinates_sent\":{}",
        s.bytes,
        s.audio_end,
        s.bsid,
        s.acmod,
        s.lfeon,
        s.fscod,
        s.cpl_blocks,
        json::list(&s.block_starts, usize::to_string),
        json::list(&s.mantissa_starts, usize::to_string),
        json::list(&s.mantissa_bits, |slots| json::list(slots, usize::to_string)),
        s.coordinates_sent,
    )
}

fn refusal_object(refusal: &Refusal) -> String {
    format!(
        "{{\"number\":{},\"text\":{},\"bit\":{},\"name\":{},\"block\":{}}}",
        refusal.number,
        json::text(refusal.meaning()),
        refusal.bit,
        json::or_null(refusal.unfit.map(|unfit| json::text(unfit.name))),
        json::or_null(refusal.unfit.map(|unfit| unfit.block)),
    )
}

fn field_object(field: &Field) -> String {
    let role = format!("{:?}", field.role);
    let role = role.split('(').next().unwrap_or_default();
    format!(
        "{{\"name\":{},\"role\":{},\"programme\":{},\"block\":{},\"index\":{},\"position\":{},\"width\":{},\"value\":{},\"part\":{}}}",
        json::text(field.name),
        json::text(role),
        json::or_null(words::programme(field.role)),
        json::or_null(block(field)),
        json::or_null(index(field)),
        field.pos,
        field.width,
        json::or_null((!field.role.is_span()).then_some(field.value)),
        json::or_null(field.part),
    )
}
