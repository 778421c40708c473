//! The generator of calls about packed listings, the same for the same seed and size: listings of an encoder's frames and of refusals, and
//! listings of any numbers; each packed and unpacked, cut, lengthened and changed at every byte, in both forms; every number at every
//! place, right and wrong in each way; each two faults together; all short inputs. Each is tried in rooms around the exact one. What a
//! planted fault must give is known beforehand, and what `again` derives must be what the judge answers: a disagreement stops the program.

use super::{again, pack, unpack, Listing, Word, AUDIO, GREATEST, REFUSED};
use super::{ENDS, LEFT_OVER, MALFORMED, NEEDLESS, NO_ROOM, TOO_LARGE, WRONG};
use crate::cut::{answer, MANY_ROWS};
use crate::frames;
use crate::hex;
use crate::layout::{PackAnswer, ROW};
use crate::listing;
use crate::rng::Rng;
use std::collections::BTreeMap;

/// Which of the two was called.
#[derive(Clone, Copy, Debug, PartialEq, Eq, PartialOrd, Ord)]
pub enum Way {
    Pack,
    Unpack,
}

use Way::{Pack, Unpack};

/// One call and the judge's answer, with every byte of the output after it.
pub struct Case<'a> {
    pub way: Way,
    pub input: &'a [u8],
    pub answer: PackAnswer,
    pub out: &'a [u8],
}

/// An output that nothing was written to yet: no byte is that of its neighbours.
pub fn fresh(room: usize) -> Vec<u8> {
    (0..room)
        .map(|i| (i as u8).wrapping_mul(37) ^ 0xA5)
        .collect()
}

/// The numbers at which a further digit or group begins, their neighbours, and the ends.
const EDGES: [i64; 28] = [
    -1,
    0,
    1,
    9,
    10,
    99,
    100,
    126,
    127,
    128,
    129,
    999,
    1000,
    16_382,
    16_383,
    16_384,
    65_535,
    65_536,
    2_097_150,
    2_097_151,
    2_097_152,
    268_435_454,
    268_435_455,
    268_435_456,
    999_999_999,
    1_000_000_000,
    2_147_483_646,
    GREATEST,
];

/// Texts in a number's place that are no number of the form.
const NO_NUMBERS: [&[u8]; 24] = [
    b"", b"-", b"-0", b"-00", b"-2", b"-5", b"-10", b"-11", b"--1", b"- 1", b"00", b"01", b"007",
    b"+0", b"+1", b" 1", b"1 ", b"1\t", b"1\r", b"0x1", b"1.0", b"1,000", b"a", b"\x00",
];

/// Texts in its place that are too large.
const LARGE: [&[u8]; 9] = [
    b"2147483648",
    b"2147483650",
    b"3000000000",
    b"4294967295",
    b"4294967296",
    b"9999999999",
    b"18446744073709551615",
    b"18446744073709551616",
    b"99999999999999999999999999999999999999999999999999999999",
];

/// Packed numbers, right ones and wrong ones; what is refused of the wrong ones.
const STORED: [(&[u8], usize); 40] = [
    (&[0x00], 0),
    (&[0x01], 0),
    (&[0x7F], 0),
    (&[0x80, 0x01], 0),
    (&[0x81, 0x01], 0),
    (&[0xFF, 0x7F], 0),
    (&[0x80, 0x80, 0x01], 0),
    (&[0xFF, 0xFF, 0x7F], 0),
    (&[0x80, 0x80, 0x80, 0x01], 0),
    (&[0xFF, 0xFF, 0xFF, 0x7F], 0),
    (&[0x80, 0x80, 0x80, 0x80, 0x01], 0),
    // 2,147,483,646 and 2,147,483,647.
    (&[0xFF, 0xFF, 0xFF, 0xFF, 0x07], 0),
    (&[0x80, 0x80, 0x80, 0x80, 0x08], 0),
    // One more, and more.
    (&[0x81, 0x80, 0x80, 0x80, 0x08], TOO_LARGE),
    (&[0x80, 0x81, 0x80, 0x80, 0x08], TOO_LARGE),
    (&[0x80, 0x80, 0x80, 0x80, 0x09], TOO_LARGE),
    (&[0xFF, 0xFF, 0xFF, 0xFF, 0x0F], TOO_LARGE),
    (&[0x80, 0x80, 0x80, 0x80, 0x10], TOO_LARGE),
    (&[0x80, 0x80, 0x80, 0x80, 0x40], TOO_LARGE),
    (&[0xFF, 0xFF, 0xFF, 0xFF, 0x7F], TOO_LARGE),
    // The group that makes it too large comes before one that is needless.
    (&[0x81, 0x80, 0x80, 0x80, 0x88, 0x00], TOO_LARGE),
    (&[0xFF, 0xFF, 0xFF, 0xFF, 0xFF, 0x00], TOO_LARGE),
    (
        &[0xFF, 0xFF, 0xFF, 0xFF, 0xFF, 0xFF, 0xFF, 0xFF, 0xFF, 0x01],
        TOO_LARGE,
    ),
    // Six groups, of which the last alone is not 0; ten, so that a shift of 64 bits or more would lose it.
    (&[0x80, 0x80, 0x80, 0x80, 0x80, 0x01], TOO_LARGE),
    (&[0x80, 0x80, 0x80, 0x80, 0x80, 0x81, 0x00], TOO_LARGE),
    (
        &[0x80, 0x80, 0x80, 0x80, 0x80, 0x80, 0x80, 0x80, 0x80, 0x01],
        TOO_LARGE,
    ),
    (
        &[0x80, 0x80, 0x80, 0x80, 0x80, 0x80, 0x80, 0x80, 0x80, 0x02],
        TOO_LARGE,
    ),
    (
        &[
            0x80, 0x80, 0x80, 0x80, 0x80, 0x80, 0x80, 0x80, 0x80, 0x80, 0x01,
        ],
        TOO_LARGE,
    ),
    (
        &[
            0x81, 0x80, 0x80, 0x80, 0x80, 0x80, 0x80, 0x80, 0x80, 0x80, 0x80, 0x80, 0x80, 0x01,
        ],
        TOO_LARGE,
    ),
    // Needless groups.
    (&[0x80, 0x00], NEEDLESS),
    (&[0x81, 0x00], NEEDLESS),
    (&[0xFF, 0x00], NEEDLESS),
    (&[0x80, 0x80, 0x00], NEEDLESS),
    (&[0x80, 0x81, 0x00], NEEDLESS),
    (&[0x80, 0x80, 0x80, 0x80, 0x00], NEEDLESS),
    (&[0xFF, 0xFF, 0xFF, 0xFF, 0x87, 0x00], NEEDLESS),
    (&[0x80, 0x80, 0x80, 0x80, 0x88, 0x00], NEEDLESS),
    (&[0x80, 0x80, 0x80, 0x80, 0x80, 0x00], NEEDLESS),
    (&[0x80, 0x80, 0x80, 0x80, 0x88, 0x80, 0x00], NEEDLESS),
    (
        &[0x80, 0x80, 0x80, 0x80, 0x80, 0x80, 0x80, 0x80, 0x80, 0x00],
        NEEDLESS,
    ),
];

/// Lengths of chains of 0x80: at each the shifts of some width come to an end.
const CHAINS: [usize; 16] = [1, 2, 3, 4, 5, 6, 8, 9, 10, 11, 18, 19, 20, 37, 64, 3000];

/// Bytes that are tried in another's place: all those of listings, their neighbours, and some of every sort.
const TEXT_BYTES: [u8; 30] = *b"-0129 \n\t\r+,./:;aderfsuxAR\x00\x0B\x80\xB0\xFF";
const PACKED_BYTES: [u8; 16] = [
    0x00, 0x01, 0x02, 0x03, 0x07, 0x08, 0x09, 0x0A, 0x20, 0x7E, 0x7F, 0x80, 0x81, 0x88, 0xFE, 0xFF,
];

/// What is to be compared by name.
pub const NAMED: [&str; 25] = [
    "a frame's listing",
    "a refused frame's listing",
    "a listing without rows",
    "a listing of more than 126 rows",
    "a listing of more than 16,382 rows",
    "a text cut at every byte",
    "a packed form cut at every byte",
    "a text lengthened",
    "a packed form lengthened",
    "a byte changed at every place of a text",
    "a byte changed at every place of a packed form",
    "every byte in place of one of a text",
    "every byte in place of one of a packed form",
    "a number at every edge at every place",
    "no number at every place",
    "a number too large at every place",
    "a stored number of every sort at every place",
    "chains of 0x80 at every place",
    "a row count of -1",
    "a row count that is too small, or too large by one",
    "audio or refused -1",
    "audio or refused 2 and more",
    "two faults together",
    "a room of a byte too few",
    "a room of just enough",
];

/// A text or a packed form in pieces: what separates and ends, and numbers. The numbers can be replaced.
type Pieces = Vec<Vec<u8>>;

pub struct Packs<'s> {
    rng: Rng,
    /// Calls by way and refusal, 0 for none.
    pub refused: BTreeMap<(Way, usize), usize>,
    /// Of these the calls without any room.
    pub roomless: BTreeMap<(Way, usize), usize>,
    /// Bytes of accepted inputs.
    pub bytes: usize,
    /// Values and rooms that are to be compared by name.
    pub named: BTreeMap<&'static str, usize>,
    sink: &'s mut dyn FnMut(&Case<'_>),
}

impl<'s> Packs<'s> {
    pub fn new(seed: u64, sink: &'s mut dyn FnMut(&Case<'_>)) -> Self {
        Packs {
            rng: Rng(seed ^ 0x9AC4ED),
            refused: BTreeMap::new(),
            roomless: BTreeMap::new(),
            bytes: 0,
            named: BTreeMap::new(),
            sink,
        }
    }

    pub fn calls(&self) -> usize {
        self.refused.values().sum()
    }

    fn name(&mut self, what: &'static str) {
        *self.named.entry(what).or_default() += 1;
    }

    /// One call, held against what `again` derives.
    fn ask(&mut self, way: Way, input: &[u8], room: usize) -> PackAnswer {
        let derived = match way {
            Pack => again::pack(input),
            Unpack => again::unpack(input),
        };
        self.held(way, input, room, &derived)
    }

    /// One call, held against what was derived.
    fn held(
        &mut self,
        way: Way,
        input: &[u8],
        room: usize,
        derived: &Result<Vec<u8>, usize>,
    ) -> PackAnswer {
        let mut out = fresh(room);
        let told = match way {
            Pack => pack(input, &mut out),
            Unpack => unpack(input, &mut out),
        };
        let mut expected = (fresh(room), [0, 0]);
        match derived {
            Err(refusal) => expected.1[0] = *refusal,
            Ok(made) if made.len() > room => expected.1[0] = NO_ROOM,
            Ok(made) => {
                expected.0[..made.len()].copy_from_slice(made);
                expected.1[1] = made.len();
                self.bytes += input.len();
            }
        }
        if (&out, told) != (&expected.0, expected.1) {
            let input = hex::of(input);
            panic!(
                "{way:?} {input}: {told:?}, {:?} is derived, or the bytes differ",
                expected.1
            );
        }
        *self.refused.entry((way, told[0])).or_default() += 1;
        if room == 0 {
            *self.roomless.entry((way, told[0])).or_default() += 1;
        }
        (self.sink)(&Case {
            way,
            input,
            answer: told,
            out: &out,
        });
        told
    }

    /// In some room, mostly an ample one; the refusal, 0 for none.
    fn refusal(&mut self, way: Way, input: &[u8]) -> usize {
        let most = match way {
            Pack => input.len(),
            Unpack => 4 * input.len(),
        };
        let ample = most + self.rng.below(8);
        let room = if self.rng.chance(10) { 0 } else { ample };
        let [refusal, _] = self.ask(way, input, room);
        match refusal {
            NO_ROOM => 0,
            other => other,
        }
    }

    /// With a fault of this number planted.
    fn faulty(&mut self, way: Way, input: &[u8], refusal: usize) {
        let told = self.refusal(way, input);
        assert_eq!(told, refusal, "{way:?} {}", hex::of(input));
    }

    /// An input that is right, in rooms around the exact one.
    fn right(&mut self, way: Way, input: &[u8], made: &[u8]) {
        let exact = made.len();
        let any = self.rng.below(exact);
        let derived = Ok(made.to_vec());
        for (room, refusal) in [
            (exact, 0),
            (exact + 1 + self.rng.below(40), 0),
            (exact - 1, NO_ROOM),
            (any, NO_ROOM),
            (0, NO_ROOM),
        ] {
            let told = self.held(way, input, room, &derived);
            assert_eq!(told[0], refusal);
        }
        assert_eq!(self.ask(way, input, exact), [0, exact]);
        self.name("a room of a byte too few");
        self.name("a room of just enough");
    }

    /// A listing: both forms, in both ways. Gives them.
    fn listing(&mut self, listing: &Listing) -> (Vec<u8>, Vec<u8>) {
        let (text, packed) = (listing.text(), listing.packed());
        assert_eq!(again::pack(&text), Ok(packed.clone()));
        assert_eq!(again::unpack(&packed), Ok(text.clone()));
        // What rust/ and c/ say of rooms that are always enough.
        assert!(packed.len() <= text.len() && text.len() <= 4 * packed.len());
        self.right(Pack, &text, &packed);
        self.right(Unpack, &packed, &text);
        (text, packed)
    }

    /// A byte more behind a right input.
    fn lengthened(&mut self, way: Way, input: &[u8]) {
        let tail = match way {
            Pack => self.rng.pick(&TEXT_BYTES),
            Unpack => self.rng.pick(&PACKED_BYTES),
        };
        self.faulty(way, &[input, &[tail]].concat(), LEFT_OVER);
        self.faulty(way, &[input, input].concat(), LEFT_OVER);
        self.name(match way {
            Pack => "a text lengthened",
            Unpack => "a packed form lengthened",
        });
    }

    /// A right input cut, and a byte changed, left out, doubled and put in, at these places.
    fn changed_at(&mut self, way: Way, input: &[u8], places: impl Iterator<Item = usize>) {
        for at in places {
            self.faulty(way, &input[..at], ENDS);
            let byte = match way {
                Pack => self.rng.pick(&TEXT_BYTES),
                Unpack => self.rng.pick(&PACKED_BYTES),
            };
            let (before, after) = (&input[..at], &input[at + 1..]);
            let this = input[at];
            for other in [&[byte][..], &[], &[this, this], &[byte, this], &[this ^ 1]] {
                let changed = [before, other, after].concat();
                self.refusal(way, &changed);
            }
        }
    }

    fn changed_everywhere(&mut self, way: Way, input: &[u8]) {
        self.changed_at(way, input, 0..input.len());
        self.lengthened(way, input);
        for what in match way {
            Pack => [
                "a text cut at every byte",
                "a byte changed at every place of a text",
            ],
            Unpack => [
                "a packed form cut at every byte",
                "a byte changed at every place of a packed form",
            ],
        } {
            self.name(what);
        }
    }

    /// Every byte in the place of every byte.
    fn every_byte(&mut self, way: Way, input: &[u8]) {
        for at in 0..input.len() {
            for byte in 0..=255 {
                let mut changed = input.to_vec();
                changed[at] = byte;
                self.refusal(way, &changed);
            }
        }
        self.name(match way {
            Pack => "every byte in place of one of a text",
            Unpack => "every byte in place of one of a packed form",
        });
    }

    /// The listings of an encoder's frames: of each file's first frame; of that with a row too few; and of its first bytes.
    fn of_frames(&mut self, size: usize) {
        for (_, stream) in frames::kept() {
            let mut room = vec![0; ROW * MANY_ROWS];
            let whole = answer(&stream, 0, &mut room);
            let short = self.rng.below(whole.rows.max(1));
            let cut = self.rng.below(60);
            for (bytes, rows) in [
                (stream.len(), MANY_ROWS),
                (stream.len(), short),
                (cut, MANY_ROWS),
            ] {
                let mut room = vec![0; ROW * rows];
                let told = answer(&stream[..bytes], 0, &mut room);
                let text = listing::listing(&told, &room).into_bytes();
                let listing = super::read_text(&text).expect("the judge's own listing");
                self.name(match listing.word {
                    AUDIO => "a frame's listing",
                    _ => "a refused frame's listing",
                });
                let (again, packed) = self.listing(&listing);
                assert_eq!(again, text);
                for (way, input) in [(Pack, &text), (Unpack, &packed)] {
                    self.lengthened(way, input);
                    if input.len() < 300 {
                        self.changed_everywhere(way, input);
                    } else {
                        let places: Vec<usize> =
                            (0..size).map(|_| self.rng.below(input.len())).collect();
                        self.changed_at(way, input, places.into_iter());
                    }
                }
            }
        }
    }

    /// The smallest frame's listing, at every byte.
    fn smallest_frame(&mut self) {
        let frames = frames::kept();
        let listings = frames.iter().filter_map(|(_, stream)| {
            let mut room = vec![0; ROW * MANY_ROWS];
            let told = answer(stream, 0, &mut room);
            (told.number() == 0).then(|| listing::listing(&told, &room).into_bytes())
        });
        let text = listings.min_by_key(Vec::len).expect("an accepted frame");
        let packed = super::read_text(&text)
            .expect("the judge's own listing")
            .packed();
        self.changed_everywhere(Pack, &text);
        self.changed_everywhere(Unpack, &packed);
    }

    fn number(&mut self) -> i64 {
        match self.rng.below(3) {
            0 => self.rng.pick(&EDGES),
            1 => self.rng.below(200) as i64 - 1,
            _ => {
                let below = self.rng.below(32);
                self.rng.below(1 << below) as i64
            }
        }
    }

    fn made(&mut self, rows: usize, word: Word) -> Listing {
        let rows = (0..rows).map(|_| [(); ROW].map(|()| self.number()));
        Listing {
            rows: rows.collect(),
            word,
            last: Vec::new(),
        }
        .ended(|| self.rng.pick(&EDGES))
    }

    /// Listings of any numbers.
    fn any_numbers(&mut self, size: usize) {
        for round in 0..20 * size {
            for word in [AUDIO, REFUSED] {
                let rows = self.rng.below(4 + round % 3);
                let listing = self.made(rows, word);
                self.listing(&listing);
            }
        }
        for rows in [0, 1, 2, 3] {
            for word in [AUDIO, REFUSED] {
                let listing = self.made(rows, word);
                let (text, packed) = self.listing(&listing);
                self.changed_everywhere(Pack, &text);
                self.changed_everywhere(Unpack, &packed);
                if rows < 2 {
                    self.every_byte(Pack, &text);
                    self.every_byte(Unpack, &packed);
                }
            }
        }
        self.name("a listing without rows");
        for rows in [125, 126, 127, 128, 16_382, 16_383] {
            let listing = Listing {
                rows: vec![[rows as i64 % 10; ROW]; rows],
                word: AUDIO,
                last: vec![0; AUDIO.numbers],
            };
            let (text, packed) = self.listing(&listing);
            self.faulty(Pack, &text[..text.len() - 1], ENDS);
            self.faulty(Unpack, &packed[..packed.len() - 1], ENDS);
            match rows {
                0..=126 => {}
                127..=16_382 => self.name("a listing of more than 126 rows"),
                _ => self.name("a listing of more than 16,382 rows"),
            }
        }
    }

    /// A text of two rows in pieces, each number one of its own.
    fn text_pieces(&mut self, word: Word) -> Pieces {
        let listing = self.made(2, word);
        let mut pieces: Pieces = Vec::new();
        let mut line = |numbers: &[i64]| {
            for (i, number) in numbers.iter().enumerate() {
                let end = if i + 1 < numbers.len() { b' ' } else { b'\n' };
                pieces.extend([number.to_string().into_bytes(), vec![end]]);
            }
        };
        listing.rows.iter().for_each(|row| line(row));
        line(&listing.last);
        let at = pieces.len() - 2 * word.numbers;
        pieces.insert(at, format!("{} ", word.word).into_bytes());
        pieces
    }

    /// Every number, and what is none, in every number's place of a text.
    fn texts_by_place(&mut self) {
        for word in [AUDIO, REFUSED] {
            let pieces = self.text_pieces(word);
            let numbers = (0..pieces.len())
                .filter(|at| pieces[*at][0].is_ascii_digit() || pieces[*at][0] == b'-');
            let numbers: Vec<usize> = numbers.collect();
            assert_eq!(numbers.len(), 2 * ROW + word.numbers);
            for at in numbers {
                let with = |text: &[u8]| {
                    let mut pieces = pieces.clone();
                    pieces[at] = text.to_vec();
                    pieces.concat()
                };
                for edge in EDGES {
                    self.faulty(Pack, &with(edge.to_string().as_bytes()), 0);
                }
                self.name("a number at every edge at every place");
                for text in NO_NUMBERS {
                    self.faulty(Pack, &with(text), MALFORMED);
                }
                self.name("no number at every place");
                for text in LARGE {
                    self.faulty(Pack, &with(text), TOO_LARGE);
                }
                self.name("a number too large at every place");
                // The text ends with the number: so far it may be right, wrong or too large.
                for (text, refusal) in [
                    ("-", ENDS),
                    ("2147483647", ENDS),
                    ("-0", MALFORMED),
                    ("2147483648", TOO_LARGE),
                ] {
                    let front = pieces[..at].concat();
                    self.faulty(Pack, &[&front, text.as_bytes()].concat(), refusal);
                }
            }
        }
    }

    /// Every stored number, right and wrong, in every place of a packed form, after which enough numbers follow for any row count below 4.
    fn stored_by_place(&mut self) {
        for word in [AUDIO, REFUSED] {
            let listing = self.made(2, word);
            let mut pieces: Pieces = vec![vec![3]];
            let numbers = listing.rows.iter().flatten();
            pieces.extend(numbers.map(|n| again::stored(*n)));
            pieces.push(vec![word.number as u8 + 1]);
            pieces.extend(listing.last.iter().map(|n| again::stored(*n)));
            assert_eq!(pieces.concat(), listing.packed());
            let kind = 1 + 2 * ROW;
            for at in 0..pieces.len() {
                let with = |bytes: &[u8]| {
                    let mut pieces = pieces.clone();
                    pieces[at] = bytes.to_vec();
                    pieces.concat()
                };
                for (bytes, refusal) in STORED {
                    let input = with(bytes);
                    match (refusal, at) {
                        (0, 0) if bytes == [0] => {
                            self.faulty(Unpack, &input, WRONG);
                            self.name("a row count of -1");
                        }
                        (0, 0) => drop(self.refusal(Unpack, &input)),
                        (0, _) if at == kind && bytes == [0] => {
                            self.faulty(Unpack, &input, WRONG);
                            self.name("audio or refused -1");
                        }
                        (0, _) if at == kind && bytes == [1] => drop(self.refusal(Unpack, &input)),
                        (0, _) if at == kind => {
                            self.faulty(Unpack, &input, WRONG);
                            self.name("audio or refused 2 and more");
                        }
                        _ => self.faulty(Unpack, &input, refusal),
                    }
                }
                self.name("a stored number of every sort at every place");
                for chain in CHAINS {
                    let chain = vec![0x80; chain];
                    let front = pieces[..at].concat();
                    // No piece ends here: what was read is only a beginning.
                    self.faulty(Unpack, &[&front[..], &chain].concat(), ENDS);
                    self.faulty(Unpack, &[&front[..], &chain, &[0]].concat(), NEEDLESS);
                    self.faulty(Unpack, &with(&[&chain[..], &[0]].concat()), NEEDLESS);
                    let ended = with(&[&chain[..], &[1]].concat());
                    match chain.len() {
                        0..=4 => drop(self.refusal(Unpack, &ended)),
                        _ => self.faulty(Unpack, &ended, TOO_LARGE),
                    }
                }
                self.name("chains of 0x80 at every place");
            }
            for count in [0u8, 1, 2, 4, 5, 0x7F] {
                let mut counted = pieces.clone();
                counted[0] = vec![count];
                self.refusal(Unpack, &counted.concat());
            }
            self.name("a row count that is too small, or too large by one");
        }
    }

    /// Two faults in one input: the first is told.
    fn two_faults(&mut self, size: usize) {
        for _ in 0..200 * size {
            let word = self.rng.pick(&[AUDIO, REFUSED]);
            let mut text = self.text_pieces(word);
            let mut places: Vec<usize> = (0..text.len())
                .filter(|at| text[*at].len() > 1 || text[*at][0] > b' ')
                .collect();
            places.retain(|at| text[*at][0] < b'a');
            let first = self.rng.below(places.len() - 1);
            let second = first + 1 + self.rng.below(places.len() - first - 1);
            let mut faults = [(0, &b""[..]); 2];
            for fault in &mut faults {
                *fault = match self.rng.chance(50) {
                    true => (TOO_LARGE, self.rng.pick(&LARGE)),
                    false => (MALFORMED, self.rng.pick(&NO_NUMBERS)),
                };
            }
            text[places[first]] = faults[0].1.to_vec();
            text[places[second]] = faults[1].1.to_vec();
            self.faulty(Pack, &text.concat(), faults[0].0);
            // And a byte too many, or a wrong last line.
            self.faulty(Pack, &[&text.concat()[..], b"0"].concat(), faults[0].0);

            let listing = self.made(2, word);
            let mut pieces: Pieces = vec![vec![3]];
            let numbers = listing.rows.iter().flatten();
            pieces.extend(numbers.map(|n| again::stored(*n)));
            let wrong = [&[0][..], &[3], &[0x7F], &[0x80, 0x01]];
            pieces.push(self.rng.pick(&wrong).to_vec());
            let at = self.rng.below(pieces.len() - 1);
            let mut faulty = STORED[13..].to_vec();
            faulty.rotate_left(self.rng.below(27));
            let (bytes, refusal) = faulty[0];
            self.faulty(Unpack, &pieces.concat(), WRONG);
            pieces[at] = bytes.to_vec();
            self.faulty(Unpack, &pieces.concat(), refusal);
            let other = at + 1 + self.rng.below(pieces.len() - at - 1);
            pieces[other] = self.rng.pick(&faulty).0.to_vec();
            self.faulty(Unpack, &pieces.concat(), refusal);
            self.name("two faults together");
        }
    }

    /// All inputs of up to so many of these bytes, behind a beginning.
    fn all_short(&mut self, way: Way, front: &[u8], bytes: &[u8], most: usize) {
        let mut inputs = vec![front.to_vec()];
        for _ in 0..most {
            inputs = inputs
                .iter()
                .flat_map(|input| bytes.iter().map(move |byte| [input, &[*byte][..]].concat()))
                .collect();
            for input in &inputs {
                self.refusal(way, input);
            }
        }
    }

    fn short_inputs(&mut self) {
        self.ask(Pack, &[], 0);
        self.ask(Unpack, &[], 0);
        let every: Vec<u8> = (0..=255).collect();
        self.all_short(Pack, b"", &every, 1);
        self.all_short(Unpack, b"", &every, 2);
        self.all_short(Unpack, &[0x01, 0x01, 0x05, 0x05], &every, 1);
        for front in [
            &b""[..],
            b"audio 1 2 ",
            b"refused 1 2 3 4 ",
            b"1 2 3 4 5 6 7 8 ",
            b"1 2 3 4 5 6 7 8 9\n",
        ] {
            self.all_short(Pack, front, b"-019 \na", 4);
        }
        for front in [&b"aud"[..], b"refuse"] {
            self.all_short(Pack, front, b"io d\n", 4);
        }
        self.all_short(Unpack, &[], &[0x00, 0x01, 0x02, 0x80, 0x81], 6);
        self.all_short(
            Unpack,
            &[0x01, 0x02, 0x80, 0x80, 0x80],
            &[0x00, 0x01, 0x07, 0x08, 0x80, 0x88],
            4,
        );
    }

    /// Words that are almost those of a last line, in its place, and lines in another order.
    fn other_lines(&mut self) {
        let lines: [(&[u8], usize); 22] = [
            (b"audio 0 0 0", ENDS),
            (b"audio 0 0 0\n", 0),
            (b"audio 0 0 0\r\n", MALFORMED),
            (b"audio 0 0\n", MALFORMED),
            (b"audio 0 0 0 0\n", MALFORMED),
            (b"audio  0 0 0\n", MALFORMED),
            (b"audio 0 0 0\n\n", LEFT_OVER),
            (b"audio 0 0 0\naudio 0 0 0\n", LEFT_OVER),
            (b"Audio 0 0 0\n", MALFORMED),
            (b" audio 0 0 0\n", MALFORMED),
            (b"audios 0 0 0\n", MALFORMED),
            (b"audio\n", MALFORMED),
            (b"\n", MALFORMED),
            (b"refused 1 0 0 0 -1\n", 0),
            (b"refused 1 0 0\n", MALFORMED),
            (b"refused 1 0 0 0\n", MALFORMED),
            (b"refused 1 0 0 0 -1 0\n", MALFORMED),
            (b"0 0 0 0 0 0 0 0\n", MALFORMED),
            (b"0 0 0 0 0 0 0 0 0 0\n", MALFORMED),
            (b"0 0 0 0 0 0 0 0 0\n", ENDS),
            (b"0 0 0 0 0 0 0 0 0\n\naudio 0 0 0\n", MALFORMED),
            (b"0 0 0 0 0 0 0 0 0 audio 0 0 0\n", MALFORMED),
        ];
        for (text, refusal) in lines {
            self.faulty(Pack, text, refusal);
            let behind = [b"-1 0 127 128 16383 2147483647 7 8 9\n", text].concat();
            self.faulty(Pack, &behind, refusal);
        }
    }

    /// Bytes at random, of those that listings have and of all.
    fn random(&mut self, size: usize) {
        for _ in 0..500 * size {
            let length = self.rng.below(40);
            let any = self.rng.bytes(length);
            let text: Vec<u8> = any
                .iter()
                .map(|b| TEXT_BYTES[usize::from(*b) % 8])
                .collect();
            let packed: Vec<u8> = any
                .iter()
                .map(|b| PACKED_BYTES[usize::from(*b) % 16])
                .collect();
            self.refusal(Pack, &text);
            self.refusal(Unpack, &packed);
            self.refusal(Pack, &any);
            self.refusal(Unpack, &any);
        }
    }

    /// All of it.
    pub fn run(&mut self, size: usize) {
        self.short_inputs();
        self.other_lines();
        self.texts_by_place();
        self.stored_by_place();
        self.any_numbers(size);
        self.of_frames(size);
        self.smallest_frame();
        self.two_faults(size);
        self.random(size);
    }

    /// What was to be reached and was not, or was and cannot be.
    pub fn missed(&self) -> Vec<String> {
        let possible = [
            (
                Pack,
                vec![0, MALFORMED, TOO_LARGE, ENDS, LEFT_OVER, NO_ROOM],
            ),
            (
                Unpack,
                vec![0, NEEDLESS, TOO_LARGE, ENDS, LEFT_OVER, NO_ROOM, WRONG],
            ),
        ];
        let mut missed = Vec::new();
        for (way, refusals) in &possible {
            for refusal in refusals {
                if !self.refused.contains_key(&(*way, *refusal)) {
                    missed.push(format!("{way:?} with {refusal} was not reached"));
                }
                if *refusal > 0 && !self.roomless.contains_key(&(*way, *refusal)) {
                    missed.push(format!(
                        "{way:?} with {refusal} and no room was not reached"
                    ));
                }
            }
        }
        for what in NAMED {
            if !self.named.contains_key(what) {
                missed.push(format!("{what} was not reached"));
            }
        }
        for (way, refusal) in self.refused.keys() {
            let can = possible
                .iter()
                .any(|(w, refusals)| w == way && refusals.contains(refusal));
            if !can {
                missed.push(format!("{way:?} with {refusal} cannot be, and was"));
            }
        }
        missed
    }
}

impl Listing {
    /// With the numbers of its last line.
    fn ended(mut self, mut number: impl FnMut() -> i64) -> Listing {
        self.last = (0..self.word.numbers).map(|_| number()).collect();
        self
    }
}
