//! Captures with a frame: a store of accepted frames, most of them small, which are drawn anew as the calls go on, and ways to make an input
//! of one of them.

use judge::bits;
use judge::cut::{self, Answer, MANY_ROWS};
use judge::draw::{accepted, drawn, tried, Style};
use judge::layout::{row_at, ROW};
use judge::names;
use judge::rng::Rng;

/// The most rows that are lent.
pub const MOST_ROWS: usize = 4200;

const SMALL: usize = 600;
const LARGE: usize = 60;

/// A field of a frame: its name, where it stands, and its width.
#[derive(Clone, Copy)]
struct Field {
    name: u8,
    at: u16,
    width: u16,
}

fn field(row: &[i32]) -> Field {
    Field {
        name: row[row_at::NAME] as u8,
        at: row[row_at::POS] as u16,
        width: row[row_at::WIDTH] as u16,
    }
}

struct Frame {
    bytes: Vec<u8>,
    fields: Vec<Field>,
}

/// What may be done with a frame; from `REWRITTEN` on: a field of the name with that number more gets another value.
#[derive(Clone, Copy, PartialEq, Eq)]
enum Way {
    Whole,
    Large,
    Later,
    Truncated,
    FewRows,
    Flipped,
    Resized,
    OtherPlace,
    FarPlace,
    TwoRewritten,
    NoFrame,
}

const WAYS: [Way; 11] = [
    Way::Whole,
    Way::Large,
    Way::Later,
    Way::Truncated,
    Way::FewRows,
    Way::Flipped,
    Way::Resized,
    Way::OtherPlace,
    Way::FarPlace,
    Way::TwoRewritten,
    Way::NoFrame,
];

/// How many ways there are.
pub const FRAME_WAYS: usize = WAYS.len() + names::COUNT;

/// The ways that lead to a refusal at or near the beginning: truncated, at another place, at a far place, no frame.
pub const LIGHT: [usize; 4] = [
    Way::Truncated as usize,
    Way::OtherPlace as usize,
    Way::FarPlace as usize,
    Way::NoFrame as usize,
];

pub struct Frames {
    small: Vec<Frame>,
    large: Vec<Frame>,
    room: Vec<i32>,
    /// Of 100 whole frames so many are drawn anew.
    renewed: usize,
    small_style: Draws,
    large_style: Draws,
    /// The frame of the store that is drawn anew, and from which bit on.
    at: usize,
    from: usize,
    /// The input last made: a capture, the place of its frame, and how many numbers are lent.
    pub capture: Vec<u8>,
    pub place: usize,
    pub numbers: usize,
}

/// How the style of a frame is drawn.
pub type Draws = fn(&mut Rng) -> Style;

/// Any large frame.
pub fn any_large(rng: &mut Rng) -> Style {
    match rng.below(8) {
        0 => Style::dense(rng),
        _ => Style::random(rng),
    }
}

/// Any small frame: one in six of any style, the others of one that most often fits in one run, and most of these with few bins.
pub fn any_small(rng: &mut Rng) -> Style {
    let style = Style {
        frmsizecod: rng.below(8),
        ..Style::random(rng)
    };
    match rng.below(6) {
        0 => style,
        1 => Style {
            snr: style.snr / 3,
            change: style.change / 3,
            delta: style.delta / 3,
            skip: style.skip / 3,
            extras: style.extras / 3,
            dense: false,
            ..style
        },
        _ => few_bins(rng, style),
    }
}

/// Most often a frame with few bins, which takes little time.
pub fn tiny(rng: &mut Rng) -> Style {
    let style = any_small(rng);
    match rng.chance(96) {
        true => few_bins(rng, style),
        false => style,
    }
}

fn few_bins(rng: &mut Rng, style: Style) -> Style {
    Style {
        acmod: rng.pick(&[1, 1, 1, 0, 2]),
        extras: style.extras / 3,
        change: rng.pick(&[0, 0, 20]),
        delta: style.delta / 5,
        skip: style.skip / 3,
        snr: rng.pick(&[0, 5, 10, 20]),
        narrow: true,
        dense: false,
        ..style
    }
}

impl Frames {
    pub fn new(rng: &mut Rng, renewed: usize, small: Draws, large: Draws) -> Self {
        let mut frames = Frames {
            small: Vec::new(),
            large: Vec::new(),
            room: vec![0; MANY_ROWS * ROW],
            renewed,
            small_style: small,
            large_style: large,
            at: 0,
            from: 0,
            capture: Vec::new(),
            place: 0,
            numbers: 0,
        };
        while frames.small.len() < SMALL {
            let made = accepted(small(rng), rng).map(|bytes| frames.known(bytes));
            frames.small.extend(made);
        }
        while frames.large.len() < LARGE {
            let made = accepted(large(rng), rng).map(|bytes| frames.known(bytes));
            frames.large.extend(made);
        }
        frames
    }

    /// An accepted frame with its fields.
    fn known(&mut self, bytes: Vec<u8>) -> Frame {
        let rows = cut::answer(&bytes, 0, &mut self.room).rows;
        let fields = self.room[..ROW * rows].chunks(ROW).map(field).collect();
        Frame { bytes, fields }
    }

    /// A frame of the store, drawn anew from some field on, or wholly.
    fn renew(&mut self, rng: &mut Rng) -> usize {
        let at = rng.below(SMALL);
        let style = (self.small_style)(rng);
        let made = match rng.chance(25) {
            true => accepted(style, rng),
            false => {
                let old = &self.small[at];
                let field = old.fields[rng.below(old.fields.len())];
                let from = usize::from(field.at + field.width);
                drawn(old.bytes.clone(), from, style, rng)
            }
        };
        if let Some(bytes) = made {
            self.small[at] = self.known(bytes);
        }
        at
    }

    fn renew_large(&mut self, rng: &mut Rng) -> usize {
        let at = rng.below(LARGE);
        if rng.chance(10) {
            let style = (self.large_style)(rng);
            if let Some(bytes) = accepted(style, rng) {
                self.large[at] = self.known(bytes);
            }
        }
        at
    }

    /// Begins a frame that is to be drawn: one of the store, from some field on, or wholly. Gives how many numbers are to be lent.
    pub fn begin(&mut self, rng: &mut Rng) -> usize {
        self.at = rng.below(SMALL);
        let old = &self.small[self.at];
        self.place = 0;
        self.capture.clear();
        self.capture.extend(&old.bytes);
        // (Not at the very end, where little is left to be drawn.)
        let field = old.fields[rng.below(old.fields.len() * 7 / 8)];
        self.from = match rng.chance(4) {
            true => 40,
            false => usize::from(field.at + field.width),
        };
        // Other bits in the spans behind it, too.
        for bytes in self.capture[self.from / 8 + 1..].chunks_mut(8) {
            bytes.copy_from_slice(&rng.draw().to_le_bytes()[..bytes.len()]);
        }
        // Rows for what may come to stand there; most often enough.
        self.numbers = ROW * (old.fields.len() + 150) + rng.below(ROW);
        self.numbers
    }

    /// Draws that frame, in one run of the judge, which is this input's.
    pub fn tried(&mut self, rng: &mut Rng, room: &mut [i32]) -> Answer {
        let style = (self.small_style)(rng);
        tried(&mut self.capture, self.from, style, rng, room)
    }

    /// Keeps that frame, which was accepted with these rows, if it has room for others to be drawn instead.
    pub fn keep(&mut self, rows: &[i32]) {
        let last = field(&rows[rows.len() - ROW..]);
        if usize::from(last.at + last.width) > 5 * self.capture.len() {
            return;
        }
        let kept = &mut self.small[self.at];
        kept.bytes.clear();
        kept.bytes.extend(&self.capture);
        kept.fields.clear();
        kept.fields.extend(rows.chunks(ROW).map(field));
    }

    /// The bytes of any small frame.
    pub fn any(&mut self, rng: &mut Rng) -> &[u8] {
        let at = match rng.below(100) < self.renewed {
            true => self.renew(rng),
            false => rng.below(SMALL),
        };
        &self.small[at].bytes
    }

    fn take(&mut self, frame: usize, is_large: bool) {
        let frame = match is_large {
            true => &self.large[frame],
            false => &self.small[frame],
        };
        self.capture.clear();
        self.capture.extend(&frame.bytes);
        self.place = 0;
        self.numbers = ROW * frame.fields.len();
    }

    /// A large frame with a value in its field of that name.
    pub fn make_large(&mut self, rng: &mut Rng, name: i32, value: u32) {
        self.make(rng, Way::Large as usize);
        let start = |field: &&Field| i32::from(field.name) == name;
        if let Some(field) = self.large[self.at].fields.iter().find(start) {
            let (at, width) = (usize::from(field.at), usize::from(field.width));
            bits::set(&mut self.capture, at, width, value);
        }
    }

    /// Another value in a field of a name, if a frame that has one is soon found.
    fn rewrite(&mut self, rng: &mut Rng, name: usize) {
        for _ in 0..12 {
            let at = rng.below(SMALL);
            let of_name = |field: &&Field| usize::from(field.name) == name;
            let count = self.small[at].fields.iter().filter(of_name).count();
            if count == 0 {
                continue;
            }
            let nth = rng.below(count);
            let mut fields = self.small[at].fields.iter().filter(of_name);
            let field = *fields.nth(nth).expect("counted");
            self.take(at, false);
            self.another_value(rng, field);
            // (Rows enough for what may come to stand there.)
            self.numbers += ROW * rng.below(120);
            return;
        }
        let at = rng.below(SMALL);
        self.take(at, false);
    }

    fn another_value(&mut self, rng: &mut Rng, field: Field) {
        let (at, width) = (usize::from(field.at), usize::from(field.width.min(16)));
        let value = match width {
            0 => return,
            1 => 1 - bits::get(&self.capture, at, 1),
            _ => rng.below(1 << width) as u32,
        };
        bits::set(&mut self.capture, at, width, value);
        // Now and then what stands behind it, too.
        let behind = at + width;
        if rng.chance(15) && behind + 16 <= 8 * self.capture.len() {
            bits::set(&mut self.capture, behind, 16, rng.below(1 << 16) as u32);
        }
    }

    fn behind_others(&mut self, rng: &mut Rng) {
        let before = 1 + rng.below(12);
        self.capture.splice(..0, rng.bytes(before));
        self.place = before;
        let after = rng.below(12);
        self.capture.extend(rng.bytes(after));
    }

    /// Makes an input in that way.
    pub fn make(&mut self, rng: &mut Rng, way: usize) {
        let Some(&way) = WAYS.get(way) else {
            self.rewrite(rng, 1 + way - WAYS.len());
            self.numbers += rng.below(ROW);
            return;
        };
        match way {
            Way::Large => {
                self.at = self.renew_large(rng);
                self.take(self.at, true);
            }
            _ => {
                let renewed = way == Way::Whole && rng.below(100) < self.renewed;
                let at = match renewed {
                    true => self.renew(rng),
                    false => rng.below(SMALL),
                };
                self.take(at, false);
            }
        }
        let bytes = self.capture.len();
        match way {
            Way::Whole | Way::Large => {}
            Way::Later => self.behind_others(rng),
            Way::Truncated => self.capture.truncate(rng.below(bytes + 1)),
            Way::FewRows => self.numbers = ROW * rng.below(self.numbers / ROW + 1),
            Way::Flipped => {
                for _ in 0..=rng.below(3) {
                    let at = rng.below(8 * bytes);
                    self.capture[at / 8] ^= 128 >> (at % 8);
                }
                self.numbers += ROW * 20;
            }
            Way::Resized => {
                self.capture[4] = rng.draw() as u8;
                if rng.chance(50) {
                    let longer = rng.below(400);
                    self.capture.extend(rng.bytes(longer));
                }
            }
            Way::OtherPlace => {
                self.behind_others(rng);
                self.place = rng.below(self.capture.len() + 2);
            }
            Way::FarPlace => {
                self.place = match rng.below(4) {
                    0 => bytes,
                    1 => bytes + 1,
                    2 => usize::MAX - rng.below(9),
                    _ => rng.draw() as usize,
                };
            }
            Way::TwoRewritten => {
                let name = 1 + rng.below(names::COUNT);
                self.rewrite(rng, name);
                let at = rng.below(8 * self.capture.len() - 8);
                bits::set(&mut self.capture, at, 8, rng.below(256) as u32);
            }
            Way::NoFrame => {
                let length = rng.below(12);
                self.capture = rng.bytes(length);
                if rng.chance(50) {
                    self.capture.splice(..0, [0x0B, 0x77]);
                }
            }
        }
        self.numbers += rng.below(2 * ROW);
    }
}
