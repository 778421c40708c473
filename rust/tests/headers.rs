//! Headers alone, and the blocks after them: over the encoder's frames, beside the parse; every refusal; and what a refusal leaves alone.

mod files;

use ferrysprig::{
    blocks_into, header, header_at, header_into, parse, parse_at, parse_into, Header,
    HeaderSummary, Parser, Refusal, Role, MOST_HEADER_ROWS, MOST_ROWS, ROW_NUMBERS,
};

/// fscod 3: refused after four fields.
const EXAMPLE: [u8; 6] = [0x0B, 0x77, 0, 0, 0xC0, 0];

/// Number i of a room before a call: no row holds it.
fn mark(i: usize) -> i32 {
    1_000_000 + i as i32
}

fn marked(numbers: usize) -> Vec<i32> {
    (0..numbers).map(mark).collect()
}

/// Reads a header in marked room for so many rows; past those written it must be as it was.
fn read(capture: &[u8], place: usize, rows: usize) -> Result<Header, Refusal> {
    let mut room = marked(rows * ROW_NUMBERS + 5);
    let given = header_into(capture, place, &mut room).map(|header| header.to_header());
    let fields = match &given {
        Ok(header) => header.fields.len(),
        Err(refusal) => refusal.rows.len(),
    };
    assert!((fields * ROW_NUMBERS..room.len()).all(|i| room[i] == mark(i)));
    given
}

/// Refused with 24, with nothing read and no number of the room touched.
fn other_header(capture: &[u8], place: usize, rows: usize, told: &HeaderSummary) {
    let mut room = marked(rows * ROW_NUMBERS);
    let refusal = blocks_into(capture, place, &mut room, told).unwrap_err();
    assert_eq!((refusal.number, refusal.bit), (24, 0), "{told:?}");
    assert_eq!((refusal.rows, refusal.unfit), (Vec::new(), None));
    assert_eq!(room, marked(rows * ROW_NUMBERS));
}

#[test]
fn headers_of_the_encoders_frames() {
    let mut parser = Parser::new();
    let mut frames = 0;
    for (name, stream) in files::frames() {
        let mut place = 0;
        while let Ok(frame) = parse_at(&stream, place) {
            let header = header_at(&stream, place).unwrap();
            let (told, summary) = (&header.summary, &frame.summary);
            assert_eq!(header.fields, frame.fields[..told.rows], "{name}");
            assert!(frame.fields[told.rows..].iter().all(|f| f.block >= 0));
            assert_eq!(told.end, summary.block_starts[0], "{name}");
            assert_eq!(
                (told.bytes, told.bsid, told.acmod),
                (summary.bytes, summary.bsid, summary.acmod)
            );
            assert_eq!(
                (told.lfeon, told.fscod),
                (summary.lfeon, summary.fscod),
                "{name}"
            );
            assert_eq!(read(&stream, place, MOST_HEADER_ROWS), Ok(header.clone()));
            let lent = parser.header_at(&stream, place).unwrap();
            assert_eq!(lent.to_header(), header);
            for role in [Role::Dialnorm(0), Role::Compr(0), Role::Addbsi] {
                assert_eq!(lent.find(role).as_ref(), header.find(role));
                assert_eq!(lent.value(role), frame.value(role, -1));
            }
            assert_eq!(lent.named("acmod").as_ref(), frame.named("acmod"));
            assert_eq!(header.value(Role::Sync), Some(0x0B77));
            assert_eq!(header.named("mantissas"), None);
            let whole = parser.blocks_at(&stream, place, told).unwrap();
            assert_eq!(whole.to_frame(), frame, "{name}, byte {place}");
            place += told.bytes;
            frames += 1;
        }
        let refusal = parser.header_at(&stream, place).unwrap_err();
        assert_eq!(refusal, parse_at(&stream, place).unwrap_err(), "{name}");
    }
    assert!(frames > 200, "{frames} frames");
}

/// A header says nothing of the blocks: where they are damaged it is read all the same, and the blocks are refused as by `parse`.
#[test]
fn damaged_blocks() {
    let mut random = files::random();
    let mut refused = 0;
    for (_, mut stream) in files::frames() {
        let Ok(told) = header(&stream) else { continue };
        for _ in 0..10 {
            let first = told.summary.end / 8 + 1;
            let at = first + random(stream.len() - first);
            stream[at] = random(256) as u8;
        }
        assert_eq!(header(&stream).unwrap(), told);
        let mut room = vec![0; MOST_ROWS * ROW_NUMBERS];
        let given = blocks_into(&stream, 0, &mut room, &told.summary).map(|f| f.to_frame());
        refused += usize::from(given.is_err());
        assert_eq!(given, parse(&stream));
    }
    assert!(refused > 10, "{refused} refused");
}

#[test]
fn refusals_of_a_header() {
    let frame = files::frame("rate-192-2_0-tones.ac3");
    let other_bsid = [&frame[..5], &[9 << 3], &frame[6..]].concat();
    for (capture, place, number, bit) in [
        (&EXAMPLE[..5], 0, 1, 0),
        (&EXAMPLE, 7, 1, 0),
        (&EXAMPLE, usize::MAX, 1, 0),
        (&frame, 1, 2, 16),
        (&EXAMPLE, 0, 3, 40),
        (&frame[..767], 0, 4, 40),
        (&other_bsid, 0, 5, 45),
    ] {
        let refusal = read(capture, place, MOST_HEADER_ROWS).unwrap_err();
        assert_eq!((refusal.number, refusal.bit), (number, bit));
        assert_eq!(refusal, parse_at(capture, place).unwrap_err());
        // Whatever it is told, the header that it reads itself is refused.
        let told = header(&frame).unwrap().summary;
        other_header(capture, place, MOST_HEADER_ROWS, &told);
    }
}

#[test]
fn rooms_from_none_to_the_headers() {
    let stream = files::frame("header-6-both.ac3");
    let whole = header(&stream).unwrap();
    let rows = whole.summary.rows;
    for room in 0..rows {
        let refusal = read(&stream, 0, room).unwrap_err();
        let missing = &whole.fields[room];
        assert_eq!((refusal.number, refusal.bit), (7, missing.pos));
        assert_eq!(refusal.rows, whole.fields[..room]);
        other_header(&stream, 0, room, &whole.summary);
    }
    assert_eq!(read(&stream, 0, rows), Ok(whole.clone()));
    // The summary of another room that is equal is taken.
    let mut room = marked(rows * ROW_NUMBERS + 8);
    let refusal = blocks_into(&stream, 0, &mut room, &whole.summary).unwrap_err();
    assert_eq!((refusal.number, refusal.bit), (7, whole.summary.end));
    assert_eq!(refusal.rows, whole.fields);
    let mut parsed = marked(rows * ROW_NUMBERS + 8);
    assert_eq!(parse_into(&stream, 0, &mut parsed).unwrap_err(), refusal);
    assert_eq!(room, parsed);
}

type Change = fn(&mut HeaderSummary);

#[test]
fn another_summary() {
    let stream = files::frame("rate-192-2_0-tones.ac3");
    let told = header(&stream).unwrap().summary;
    let changes: [Change; 14] = [
        |told| told.rows += 1,
        |told| told.rows -= 1,
        |told| told.rows = usize::MAX,
        |told| told.end += 1,
        |told| told.end -= 1,
        |told| told.end |= 1 << 32,
        |told| told.bytes += 2,
        |told| told.bytes = 0,
        |told| told.bsid = 6,
        |told| told.acmod = 7,
        |told| told.acmod = 255,
        |told| told.lfeon = !told.lfeon,
        |told| told.fscod = 1,
        |told| told.fscod = 3,
    ];
    for change in changes {
        let mut other = told;
        change(&mut other);
        assert_ne!(other, told);
        other_header(&stream, 0, MOST_ROWS, &other);
    }
    // That of another file, and of another place.
    let other = header(&files::frame("header-6-both.ac3")).unwrap();
    other_header(&stream, 0, MOST_ROWS, &other.summary);
    other_header(&stream, 1, MOST_ROWS, &told);
    other_header(&stream, stream.len(), MOST_ROWS, &told);
    let mut parser = Parser::new();
    let refusal = parser.blocks_at(&stream, 0, &other.summary).unwrap_err();
    assert_eq!(
        refusal.meaning(),
        "the header answer does not fit the input"
    );
    // The next frame's is the same, and is taken.
    let next = header_at(&stream, told.bytes).unwrap();
    assert_eq!(next.summary, told);
    let frame = parser.blocks_at(&stream, 0, &next.summary).unwrap();
    assert_eq!(frame.to_frame(), parse(&stream).unwrap());
}

/// Two programmes, bsid 6, all that a header can hold: no header has more rows, and those that are proved to be enough are.
#[test]
fn a_header_of_most_rows() {
    let rows = judge::apart::MOST_ROWS as usize;
    assert!(rows <= MOST_HEADER_ROWS);
    let full = judge::craft::sized(0, 20, &|asked: &judge::craft::Asked| match asked.name {
        "acmod" => Some(0),
        "bsid" => Some(6),
        "addbsil" => Some(63),
        name if name.ends_with('e') && asked.block == -1 => Some(1),
        _ => None,
    });
    let whole = header(&full).unwrap();
    assert_eq!((whole.summary.rows, whole.summary.end), (rows, 665));
    let dialnorm2 = whole.named("dialnorm2").map(|f| f.role);
    assert_eq!(dialnorm2, Some(Role::Dialnorm(1)));
    assert_eq!(whole.find(Role::Addbsi).map(|f| f.width), Some(512));
    assert_eq!(read(&full, 0, rows), Ok(whole));
    let refusal = read(&full, 0, rows - 1).unwrap_err();
    assert_eq!((refusal.number, refusal.bit), (7, 665 - 512));
}
