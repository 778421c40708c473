//! Operations that take no frame: range_eq, editable, set, aht, pack and unpack.

use crate::lent::Lent;
use crate::of_frames::untouched_byte;
use crate::operation::{Held, Operation};
use crate::raw;
use judge::aht;
use judge::bits;
use judge::edit;
use judge::hex;
use judge::packed;
use judge::packed::{Listing, AUDIO, REFUSED};
use judge::rng::Rng;

pub struct RangeEq {
    x: Vec<u8>,
    y: Vec<u8>,
}

impl RangeEq {
    pub fn new() -> Self {
        RangeEq {
            x: Vec::new(),
            y: Vec::new(),
        }
    }
}

/// Its outcomes.
const EQUAL: usize = 0;
const DIFFERENT: usize = 1;
const PAST_AN_END: usize = 2;

impl Operation for RangeEq {
    fn ways(&self) -> usize {
        6
    }

    /// Bytes of few kinds, so that equal ranges are met often.
    fn call(&mut self, rng: &mut Rng, way: usize) -> Held {
        let RangeEq { x, y } = self;
        x.clear();
        let (bytes, shift) = (rng.below(24), rng.below(3));
        x.extend((0..bytes).map(|_| rng.pick(&[0x00, 0xFF, 0x5A, 0x01])));
        y.clear();
        y.extend((0..shift).map(|_| 0));
        y.extend(&x[..]);
        let n = rng.below(8 * bytes + 1);
        let mut a = rng.below(8 * bytes + 1 - n);
        let mut b = a + 8 * shift;
        let mut n = n;
        match way {
            0 => {}
            1 => y[shift..].iter_mut().for_each(|byte| *byte = !*byte),
            2 => {
                // One bit, often just outside the range.
                let at = (b + rng.below(n + 4)).saturating_sub(2);
                if let Some(byte) = y.get_mut(at / 8) {
                    *byte ^= 128 >> (at % 8);
                }
            }
            3 => n += rng.below(20),
            4 => (a, b) = (rng.below(200), rng.below(200)),
            _ => {
                let far = [usize::MAX, usize::MAX - 7, 1 << 61, 1 << 40];
                match rng.below(3) {
                    0 => a = rng.pick(&far),
                    1 => b = rng.pick(&far),
                    _ => n = rng.pick(&far),
                }
            }
        }
        let fits = |data: &[u8], at: usize| at as u128 + n as u128 <= 8 * data.len() as u128;
        let inside = fits(x, a) && fits(y, b);
        let judge = inside && bits::range_eq(x, a, y, b, n);
        let told = raw::range_eq(x, a, y, b, n);
        let outcome = match (inside, judge) {
            (false, _) => PAST_AN_END,
            (true, false) => DIFFERENT,
            (true, true) => EQUAL,
        };
        Held::new(outcome, told == judge, || {
            format!(
                "{n} bits from {a} of {} and from {b} of {}\n  judge {judge}\n  port {told}",
                hex::of(x),
                hex::of(y)
            )
        })
    }

    fn outcomes(&self) -> &'static str {
        "by answer (0: equal, 1: not equal, 2: not equal, since past an end)"
    }
}

pub struct Editable;

impl Operation for Editable {
    fn ways(&self) -> usize {
        4
    }

    fn call(&mut self, rng: &mut Rng, way: usize) -> Held {
        let small = rng.below(130);
        let name = match way {
            0 => small,
            1 => small + (1 << (7 + rng.below(57))),
            2 => usize::MAX - small,
            _ => rng.draw() as usize,
        };
        let (judge, told) = (edit::editable(name), raw::editable(name));
        Held::new(usize::from(!judge), told == judge, || {
            format!("name {name}: judge {judge}, port {told}")
        })
    }

    fn outcomes(&self) -> &'static str {
        "by answer (0: yes, 1: no)"
    }
}

pub struct Set(Lent<u8>);

impl Set {
    pub fn new() -> Self {
        Set(Lent::new(16, untouched_byte))
    }
}

impl Operation for Set {
    fn ways(&self) -> usize {
        6
    }

    fn call(&mut self, rng: &mut Rng, way: usize) -> Held {
        let bytes = 1 + rng.below(15);
        let capture: [u8; 16] = rng_bytes(rng);
        let mut width = 1 + rng.below(16.min(8 * bytes));
        let first = rng.below(8 * bytes + 1 - width);
        let place = rng.below(first / 8 + 1);
        let (mut place, mut position) = (place, first - 8 * place);
        let mut value = rng.below(1 << width);
        let far = [usize::MAX, usize::MAX - 7, 1 << 61, 1 << 60, 1 << 32];
        match way {
            0 => {}
            1 => width = rng.pick(&[0, 17, 18, 64, 256 + width, usize::MAX]),
            2 => position += 8 * bytes - first - width + 1 + rng.below(20),
            3 => match rng.chance(50) {
                true => place = rng.pick(&far),
                false => position = rng.pick(&far),
            },
            4 => value = (1 << width) + rng.pick(&[0, 1, value, 1 << 20, 1 << 40]),
            _ => {
                width = rng.below(20);
                (place, position, value) = (rng.below(18), rng.below(140), rng.below(1 << 18));
            }
        }
        let (judged, lent) = self.0.lend_these(&capture[..bytes]);
        let judge = edit::set(judged, place, position, width, value);
        let told = raw::set(lent, place, position, width, value);
        let same = told == judge && self.0.same();
        Held::new(judge.into(), same, || {
            format!(
                "place {place}, position {position}, width {width}, value {value} of {}\n  judge {judge}, port {told}, first byte that differs {:?}",
                hex::of(&capture[..bytes]),
                self.0.first()
            )
        })
    }
}

fn rng_bytes<const N: usize>(rng: &mut Rng) -> [u8; N] {
    std::array::from_fn(|_| rng.draw() as u8)
}

pub struct Aht {
    data: Vec<u8>,
    hebap: Vec<u8>,
}

impl Aht {
    pub fn new() -> Self {
        Aht {
            data: Vec::new(),
            hebap: Vec::new(),
        }
    }
}

impl Operation for Aht {
    fn ways(&self) -> usize {
        8
    }

    fn call(&mut self, rng: &mut Rng, way: usize) -> Held {
        let bins = rng.below(8);
        self.hebap.clear();
        let of_any = way == 1;
        self.hebap.extend((0..bins).map(|_| match rng.below(4) {
            0 => rng.below(8) as u8,
            1 if of_any => rng.below(20) as u8,
            _ => 8 + rng.below(9) as u8,
        }));
        let bytes = match way {
            2 => rng.below(40),
            _ => 100 + rng.below(20),
        };
        self.data.clear();
        // Bits of few kinds: tags are met more often among zeros.
        let kind = rng.below(3);
        self.data.extend((0..bytes).map(|_| match kind {
            0 => rng.draw() as u8,
            1 => (rng.draw() & rng.draw() & rng.draw()) as u8,
            _ => rng.pick(&[0x80, 0x08, 0x00, 0x88, 0x55]),
        }));
        let mut at = rng.below(20).min(8 * bytes);
        let (mut end, mut first, mut past) = (8 * bytes, 0, bins);
        match way {
            3 => end = rng.below(8 * bytes + 20),
            4 => past += 1 + rng.below(3),
            5 => {
                if let Some(hebap) = self.hebap.last_mut() {
                    *hebap = 20 + rng.below(236) as u8;
                }
            }
            6 => bits::set(
                &mut self.data,
                at,
                7,
                0b1100000 | (27 + rng.below(5) as u32),
            ),
            7 => match rng.below(4) {
                0 => at = usize::MAX - rng.below(9),
                1 => end = usize::MAX - rng.below(9),
                2 => (first, past) = (rng.below(10), rng.below(10)),
                _ => past = usize::MAX - rng.below(3),
            },
            _ => {}
        }
        let asked = aht::Asked {
            data: &self.data,
            at,
            end,
            hebap: &self.hebap,
            first,
            past,
        };
        let (_, judge) = aht::answer(asked);
        let told = raw::aht(&self.data, at, end, &self.hebap, first, past);
        Held::new(judge[0], told == judge, || {
            format!("{asked:?}\n  judge {judge:?}\n  port {told:?}")
        })
    }
}

/// Small listings, as text or packed.
pub struct Listings {
    out: Lent<u8>,
    packs: bool,
}

impl Listings {
    pub fn new(packs: bool) -> Self {
        Listings {
            out: Lent::new(1024, untouched_byte),
            packs,
        }
    }
}

/// A number of a listing: small, around a power of 128 or of 10, or any.
fn number(rng: &mut Rng) -> i64 {
    match rng.below(8) {
        0..4 => rng.below(130) as i64 - 1,
        4 => packed::LEAST,
        5 => packed::GREATEST - rng.below(2) as i64,
        6 => (1 << (7 * (1 + rng.below(4)))) - 3 + rng.below(4) as i64,
        _ => rng.below(1 << 31) as i64,
    }
}

fn listing(rng: &mut Rng) -> Listing {
    let rows = rng.below(3);
    let word = rng.pick(&[AUDIO, REFUSED]);
    Listing {
        rows: (0..rows)
            .map(|_| std::array::from_fn(|_| number(rng)))
            .collect(),
        word,
        last: (0..word.numbers).map(|_| number(rng)).collect(),
    }
}

/// A byte that stands in texts, or has a meaning in packed ones.
fn byte(rng: &mut Rng) -> u8 {
    match rng.below(4) {
        0 => rng.draw() as u8,
        1 => rng.pick(&[0x00, 0x01, 0x02, 0x80, 0x81, 0xFF, 0x7F, 0x08, 0x10]),
        _ => rng.pick(b"0123456789 -\nard"),
    }
}

impl Operation for Listings {
    fn ways(&self) -> usize {
        9
    }

    fn call(&mut self, rng: &mut Rng, way: usize) -> Held {
        let listing = listing(rng);
        let (text, packed) = (listing.text(), listing.packed());
        let (mut input, made) = match self.packs {
            true => (text, packed.len()),
            false => (packed, text.len()),
        };
        let at = rng.below(input.len());
        let mut bytes = made + rng.below(4);
        match way {
            0 => {}
            1 => bytes = rng.below(made),
            2 => input.truncate(at),
            3 => input.push(byte(rng)),
            4 => input[at] = byte(rng),
            5 => input.insert(at, byte(rng)),
            6 => {
                input.remove(at);
            }
            // A number that is longer than it may be.
            7 if self.packs => {
                input.splice(
                    at..at,
                    rng.pick(&[&b"0"[..], b"99999999999", b"2147483648 "])
                        .iter()
                        .copied(),
                );
            }
            7 => {
                let chain = rng.below(7);
                input.splice(at..at, std::iter::repeat_n(0x80, chain));
            }
            _ => {
                let length = rng.below(20);
                input = (0..length).map(|_| byte(rng)).collect();
            }
        }
        let (judged, lent) = self.out.lend(bytes);
        let (judge, told) = match self.packs {
            true => (packed::pack(&input, judged), raw::pack(&input, lent).0),
            false => (packed::unpack(&input, judged), raw::unpack(&input, lent).0),
        };
        let same = told == judge && self.out.same();
        Held::new(judge[0], same, || {
            format!(
                "{}\n  {bytes} bytes of output, of which first differs {:?}\n  judge {judge:?}\n  port {told:?}",
                hex::of(&input),
                self.out.first()
            )
        })
    }
}
