//! What `parse`, `parse_at` and `parse_into` answer.

mod files;

use ferrysprig::{
    parse, parse_at, parse_into, slot, Field, Frame, Parser, Refusal, Role, MOST_BYTES, MOST_ROWS,
    REFUSALS, ROW_NUMBERS,
};
use std::cell::RefCell;
use std::sync::mpsc::{channel, Sender};
use std::thread;

/// fscod 3: refused after four fields.
const EXAMPLE: [u8; 6] = [0x0B, 0x77, 0, 0, 0xC0, 0];

fn first_fields() -> Vec<Field> {
    let field = |name, role, pos, width, value| Field::new(name, role, -1, -1, pos, width, value);
    vec![
        field("syncword", Role::Sync, 0, 16, 2935),
        field("crc1", Role::Crc1, 16, 16, 0),
        field("fscod", Role::FrameSize, 32, 2, 3),
        field("frmsizecod", Role::FrameSize, 34, 6, 0),
    ]
}

/// Number i of a room before a call: no row holds it.
fn mark(i: usize) -> i32 {
    1_000_000 + i as i32
}

fn marked(numbers: usize) -> Vec<i32> {
    (0..numbers).map(mark).collect()
}

#[test]
fn the_example() {
    let refusal = parse(&EXAMPLE).unwrap_err();
    assert_eq!((refusal.number, refusal.bit), (3, 40));
    assert_eq!(refusal.rows, first_fields());
    assert_eq!(refusal.unfit, None);
}

/// A frame of judge/corners.txt.
fn corner_frame(name: &str) -> Vec<u8> {
    let list = files::text("judge/corners.txt");
    let (_, entry) = list.split_once(&format!("\n{name}: ")).expect(name);
    let input = entry.lines().nth(1).unwrap();
    let (digits, length) = input.split_once(" (").unwrap();
    let digits = digits.trim_end_matches(" and zeros");
    let mut frame = judge::hex::bytes(digits);
    frame.resize(length.strip_suffix(" bytes)").unwrap().parse().unwrap(), 0);
    frame
}

/// How it is refused.
fn corner(name: &str) -> Refusal {
    parse(&corner_frame(name)).unwrap_err()
}

#[test]
fn each_missing_flag_has_its_number() {
    for (name, number, flag) in [
        ("cplstre-0", 8, "cplstre"),
        ("rematstr-0", 21, "rematstr"),
        ("baie-0", 22, "baie"),
        ("snroffste-0", 23, "snroffste"),
    ] {
        let refusal = corner(name);
        assert_eq!((refusal.number, refusal.unfit), (number, None), "{name}");
        assert_eq!(refusal.meaning(), format!("block 0 has {flag} 0"));
        let last = refusal.rows.last().unwrap();
        assert_eq!((last.name, last.block, last.value), (flag, 0, 0));
    }
}

#[test]
fn what_did_not_fit_is_told() {
    for (case, name, block) in [
        ("field-past-the-frame-in-block-0", "exps[ch]", 0),
        ("skip-too-much", "skipfld", 0),
        ("mantissa-too-much", "mantissas", 0),
        ("audio-one-bit-more", "skipl", 5),
        ("block-5-starts-at-the-end", "blksw", 5),
        ("skip-too-much-in-block-5", "skipfld", 5),
        ("mantissa-too-much-in-block-5", "mantissas", 5),
    ] {
        let refusal = corner(case);
        let told = refusal.unfit.map(|unfit| (unfit.name, unfit.block));
        assert_eq!((refusal.number, told), (6, Some((name, block))), "{case}");
        assert!(refusal
            .to_string()
            .ends_with(&format!(" ({name} in block {block})")));
    }
}

/// Part and value of the elements of a name and index.
fn parts(frame: &Frame, name: &str, index: i16) -> Vec<(Option<u8>, u32)> {
    let named = frame.fields.iter().filter(|f| f.name == name);
    let indexed = named.filter(|f| f.index == index);
    indexed.map(|f| (f.part, f.value)).collect()
}

#[test]
fn bands_groups_and_segments_are_told() {
    let accepted = |name: &str| parse(&corner_frame(name)).unwrap();
    let bands = accepted("bands-eighteen");
    let eighteen: Vec<_> = (0..18).map(|n: u8| (Some(n), u32::from(n) % 16)).collect();
    for (name, channel) in [("cplcoexp", 0), ("cplcomant", 0), ("cplcoexp", 1)] {
        assert_eq!(parts(&bands, name, channel), eighteen);
    }
    assert_eq!(parts(&bands, "mstrcplco", 1), [(None, 0)]);
    assert_eq!(
        parts(&accepted("bands-one"), "cplcomant", 1),
        [(Some(0), 0)]
    );
    let groups = accepted("groups-to-the-end");
    for (name, index, count) in [("cplexps", 0, 72), ("exps[ch]", 2, 84), ("lfeexps", 0, 2)] {
        let counted: Vec<_> = (0..count).map(|n| (Some(n), 62)).collect();
        assert_eq!(parts(&groups, name, index), counted);
    }
    assert_eq!(parts(&groups, "exps[ch][0]", 2), [(None, 0)]);
    let segments = accepted("segments-eight");
    let eight: Vec<_> = (0..8).map(|n: u8| (Some(n), u32::from(n))).collect();
    for (name, index) in [("cpldeltba", 5), ("deltoffst", 0), ("deltlen", 4)] {
        assert_eq!(parts(&segments, name, index), eight);
    }
}

#[test]
fn coordinates_are_asked_of_every_coupled_channel() {
    for (case, sent) in [
        ("plain", true),
        ("coordinates-never-sent", false),
        ("coordinates-of-a-late-channel", false),
        ("coordinates-of-a-late-channel-sent", true),
        ("coordinates-a-block-late", false),
        ("coordinates-of-a-channel-that-comes-back", true),
        ("coordinates-through-pause", true),
        ("coordinates-two-programmes", true),
        ("coordinates-of-one-programme", false),
    ] {
        let frame = parse(&corner_frame(case)).unwrap();
        assert_eq!(frame.summary.coordinates_sent, sent, "{case}");
    }
}

#[test]
fn mantissa_bits_are_counted_by_slot() {
    for (case, block_0) in [
        ("group-into-the-next-channel", [85, 80, 0, 0, 0, 0, 0]),
        ("group-into-coupling", [85, 80, 0, 0, 0, 20, 0]),
        ("group-into-lfe", [85, 0, 0, 0, 0, 0, 10]),
        ("group-from-coupling-into-lfe", [85, 0, 0, 0, 0, 20, 10]),
        ("slot-of-members-alone", [85, 0, 0, 0, 0, 0, 0]),
        ("slots-all-silent", [0; 7]),
    ] {
        let frame = parse(&corner_frame(case)).unwrap();
        let bits = frame.summary.mantissa_bits;
        assert_eq!(bits[0], block_0, "{case}");
        assert_eq!(bits[1..], [[0; 7]; 5], "{case}");
        assert_eq!(bits[0][slot::COUPLING], block_0[5]);
        assert_eq!(bits[0][slot::LFE], block_0[6]);
    }
}

#[test]
fn they_sum_to_the_mantissas() {
    for (name, stream) in files::frames() {
        let Ok(frame) = parse(&stream) else { continue };
        let mut mantissas = frame.all(Role::Mantissas);
        for slots in frame.summary.mantissa_bits {
            let width = mantissas.next().unwrap().width;
            assert_eq!(slots.iter().sum::<usize>(), width, "{name}");
        }
    }
}

#[test]
fn an_element_of_the_callers_has_no_part() {
    assert_eq!(first_fields()[0].part, None);
}

#[test]
fn too_few_bytes() {
    for length in 0..6 {
        let refusal = parse(&EXAMPLE[..length]).unwrap_err();
        assert_eq!((refusal.number, refusal.bit, refusal.rows.len()), (1, 0, 0));
    }
}

#[test]
fn a_place_in_a_capture_and_past_its_end() {
    let mut capture = vec![0x0B, 0x77, 0xFF];
    capture.extend(EXAMPLE);
    assert_eq!(parse_at(&capture, 3), parse(&EXAMPLE));
    assert_eq!(parse_at(&capture, 0).unwrap_err().number, 3);
    assert_eq!(parse_at(&capture, 1).unwrap_err().number, 2);
    for place in [4, 8, 9, 10, 1 << 40, usize::MAX] {
        let refusal = parse_at(&capture, place).unwrap_err();
        assert_eq!(
            (refusal.number, refusal.bit, refusal.rows.len()),
            (1, 0, 0),
            "place {place}"
        );
    }
    assert_eq!(parse_at(&[], usize::MAX).unwrap_err().number, 1);
}

#[test]
fn rooms_too_small_hold_what_fits() {
    for numbers in 0..5 * ROW_NUMBERS {
        let mut rows = marked(numbers);
        let refusal = parse_into(&EXAMPLE, 0, &mut rows).unwrap_err();
        let fit = (numbers / ROW_NUMBERS).min(4);
        let (number, bit) = if fit == 4 {
            (3, 40)
        } else {
            (7, first_fields()[fit].pos)
        };
        assert_eq!(
            (refusal.number, refusal.bit),
            (number, bit),
            "{numbers} numbers"
        );
        assert_eq!(refusal.rows, first_fields()[..fit]);
        assert!(
            (fit * ROW_NUMBERS..numbers).all(|i| rows[i] == mark(i)),
            "{numbers} numbers: the rest was touched"
        );
    }
}

#[test]
fn one_row_too_few_of_an_accepted_frame() {
    let (_, stream) = &files::frames()[0];
    let frame = parse(stream).unwrap();
    let all = frame.fields.len();
    let mut room = marked(ROW_NUMBERS * all);
    let refusal = parse_into(stream, 0, &mut room[1..]).unwrap_err();
    assert_eq!((refusal.number, refusal.bit), (7, frame.summary.audio_end));
    assert_eq!(refusal.rows, frame.fields[..all - 1]);
    let given = parse_into(stream, 0, &mut room).map(|frame| frame.to_frame());
    assert_eq!(given.unwrap(), frame);
}

#[test]
fn a_parser_gives_what_parse_gives() {
    let mut parser = Parser::new();
    let mut most = 0;
    for (name, stream) in files::frames() {
        let mut place = 0;
        while let Ok(frame) = parse_at(&stream, place) {
            let lent = parser.parse_at(&stream, place).unwrap();
            assert_eq!(
                lent.total_bits(),
                frame.total_bits(),
                "{name}, byte {place}"
            );
            assert_eq!(lent.fields.len(), frame.fields.len());
            assert!(lent
                .fields
                .clone()
                .rev()
                .eq(frame.fields.iter().rev().cloned()));
            assert_eq!(lent.fields.clone().nth(3).as_ref(), frame.fields.get(3));
            assert_eq!(lent.to_frame(), frame, "{name}, byte {place}");
            most = most.max(frame.fields.len());
            place += frame.summary.bytes;
        }
        assert_eq!(
            parser.parse_at(&stream, place).unwrap_err(),
            parse_at(&stream, place).unwrap_err()
        );
    }
    assert!(most > 1024, "{most} rows");
}

/// Bits, written one value after the other.
struct Writer {
    bytes: Vec<u8>,
    at: usize,
}

impl Writer {
    fn put(&mut self, width: usize, value: usize) {
        for i in (0..width).rev() {
            self.bytes[self.at / 8] |= ((value >> i & 1) as u8) << (7 - self.at % 8);
            self.at += 1;
        }
    }

    fn repeat(&mut self, times: usize, width: usize, value: usize) {
        (0..times).for_each(|_| self.put(width, value));
    }

    /// A first exponent, and groups that repeat it.
    fn exponents(&mut self, groups: usize) {
        self.put(4, 9);
        self.repeat(groups, 7, 62);
    }
}

/// All that a header of bsid 6 and 3/2 with LFE can hold, and in every block two channels coupled from the lowest sub-band on, everything
/// sent anew, exponents D15, and eight delta segments for each slot. No mantissa has a bit.
fn frame_of_most_rows() -> Vec<u8> {
    let mut w = Writer {
        bytes: vec![0; MOST_BYTES],
        at: 0,
    };
    w.put(32, 0x0B77_0000);
    w.put(8, 2 << 6 | 37); // fscod, frmsizecod
    w.put(11, 6 << 6 | 7); // bsid, bsmod, acmod
    w.put(5, 1); // cmixlev, surmixlev, lfeon
    w.put(14, 1 << 8); // dialnorm, compre, compr
    w.put(9, 1 << 8); // langcode, langcod
    w.put(8, 1 << 7); // audprodie, mixlevel, roomtyp
    w.put(2, 0); // copyrightb, origbs
    w.put(15, 1 << 14); // xbsi1e and its five
    w.put(15, 1 << 14); // xbsi2e and its five
    w.put(7, 1 << 6); // addbsie, addbsil
    w.put(8, 0); // addbsi
    for _ in 0..6 {
        w.repeat(5 + 5, 1, 0); // blksw, dithflag
        w.put(9, 1 << 8); // dynrnge, dynrng
        w.put(2, 3); // cplstre, cplinu
        w.put(5, 0b11000); // chincpl
        w.put(8, 15); // cplbegf, cplendf
        w.repeat(17, 1, 0); // cplbndstrc
        for _ in 0..2 {
            w.put(3, 1 << 2); // cplcoe, mstrcplco
            w.repeat(18, 8, 0); // cplcoexp, cplcomant
        }
        w.repeat(1 + 5, 2, 1); // cplexpstr, chexpstr
        w.put(1, 1); // lfeexpstr
        w.repeat(3, 6, 60); // chbwcod
        w.exponents(72); // coupling
        for groups in [12, 12, 84, 84, 84] {
            w.exponents(groups);
            w.put(2, 0); // gainrng
        }
        w.exponents(2); // LFE
        w.put(12, 1 << 11); // baie and its five
        w.put(7, 1 << 6); // snroffste, csnroffst
        w.repeat(7, 7, 0); // fine offsets and gain codes
        w.put(7, 1 << 6); // cplleake, cplfleak, cplsleak
        w.put(1, 1); // deltbaie
        w.repeat(6, 2, 1); // cpldeltbae, deltbae
        for _ in 0..6 {
            w.put(3, 7); // deltnseg
            w.repeat(8, 12, 0); // deltoffst, deltlen, deltba
        }
        w.put(10, 1 << 9); // skiple, skipl
    }
    w.bytes
}

#[test]
fn a_frame_of_most_rows_needs_that_room_and_no_more() {
    let stream = frame_of_most_rows();
    let frame = parse(&stream).unwrap();
    assert_eq!(frame.fields.len(), MOST_ROWS);
    assert_eq!(frame.summary.bytes, MOST_BYTES);
    let mut room = marked(MOST_ROWS * ROW_NUMBERS);
    let refusal = parse_into(&stream, 0, &mut room[1..]).unwrap_err();
    assert_eq!((refusal.number, refusal.rows.len()), (7, MOST_ROWS - 1));
    let original = judge::ac3::parse(&stream).unwrap();
    assert_eq!(original.audio_end, frame.summary.audio_end);
}

#[test]
fn a_frame_one_byte_short_and_bytes_after_it() {
    for (name, stream) in files::frames() {
        let Ok(frame) = parse(&stream) else { continue };
        let bytes = frame.summary.bytes;
        let refusal = parse(&stream[..bytes - 1]).unwrap_err();
        assert_eq!(
            (refusal.number, refusal.bit, refusal.rows.len()),
            (4, 40, 4),
            "{name}"
        );
        assert_eq!(parse(&stream[..bytes]).unwrap(), frame, "{name}");
    }
}

#[test]
fn fields_are_found_by_role_and_name() {
    let stream = files::frame("rate-192-2_0-tones.ac3");
    let frame = parse(&stream).unwrap();
    let mut parser = Parser::new();
    let lent = parser.parse(&stream).unwrap();
    for role in [
        Role::Dialnorm(0),
        Role::Dialnorm(1),
        Role::DynrngExists(0),
        Role::Plain,
    ] {
        assert!(lent.all(role).eq(frame.all(role).cloned()));
        for block in [-1, 0, 5] {
            assert_eq!(lent.find(role, block).as_ref(), frame.find(role, block));
            assert_eq!(lent.value(role, block), frame.value(role, block));
        }
    }
    assert_eq!(lent.named("acmod").as_ref(), frame.named("acmod"));
    assert_eq!(lent.named("dialnorm2"), None);
    let dialnorm = frame.find(Role::Dialnorm(0), -1).unwrap();
    assert_eq!(frame.named("dialnorm"), Some(dialnorm));
    assert_eq!(frame.value(Role::Dialnorm(0), -1), Some(dialnorm.value));
    assert_eq!(frame.find(Role::Dialnorm(1), -1), None);
    assert_eq!(frame.named("dialnorm2"), None);
    let mantissas: Vec<_> = frame.all(Role::Mantissas).collect();
    assert_eq!(
        mantissas.iter().map(|f| f.block).collect::<Vec<_>>(),
        [0, 1, 2, 3, 4, 5]
    );
    assert_eq!(
        mantissas.iter().map(|f| f.pos).collect::<Vec<_>>(),
        frame.summary.mantissa_starts
    );
    assert_eq!(mantissas[5].end(), frame.summary.audio_end);
    assert_eq!(frame.total_bits(), 8 * 768);
}

/// What a thread keeps for `parse` is gone when its last destructors run: whichever runs first, one of these two parses before that and one
/// after.
#[test]
fn parse_answers_while_its_thread_ends() {
    struct Parses(Sender<u8>);
    impl Drop for Parses {
        fn drop(&mut self) {
            let refusal = parse(&EXAMPLE).unwrap_err();
            self.0.send(refusal.number).unwrap();
        }
    }
    thread_local!(static FIRST: RefCell<Option<Parses>> = const { RefCell::new(None) });
    thread_local!(static LAST: RefCell<Option<Parses>> = const { RefCell::new(None) });
    let (sender, receiver) = channel();
    thread::spawn(move || {
        FIRST.with(|kept| kept.replace(Some(Parses(sender.clone()))));
        parse(&EXAMPLE).unwrap_err();
        LAST.with(|kept| kept.replace(Some(Parses(sender))));
    });
    assert_eq!(receiver.iter().collect::<Vec<_>>(), [3, 3]);
}

/// Every frame with bytes exchanged, from a fixed seed: an answer, and fields that lie end to end.
#[test]
fn bytes_at_random() {
    let mut random = files::random();
    let mut numbers = [0; REFUSALS.len() + 1];
    for (_, mut stream) in files::frames() {
        for _ in 0..30 {
            let at = random(stream.len().min(200));
            let old = std::mem::replace(&mut stream[at], random(256) as u8);
            let (fields, end) = match parse(&stream) {
                Ok(frame) => (frame.fields, frame.summary.audio_end),
                Err(refusal) => {
                    numbers[usize::from(refusal.number)] += 1;
                    // Mantissas have their row only once they are walked.
                    let end = refusal.rows.last().map_or(0, Field::end);
                    assert!(end <= refusal.bit);
                    (refusal.rows, end)
                }
            };
            let mut next = 0;
            for field in &fields {
                assert_eq!(field.pos, next);
                next = field.end();
            }
            assert_eq!(next, end);
            stream[at] = old;
        }
    }
    assert!(
        numbers.iter().filter(|n| **n > 0).count() > 9,
        "refusals: {numbers:?}"
    );
}
