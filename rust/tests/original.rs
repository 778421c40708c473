//! Beside the original Rust, on an encoder's frames: the same fields as far as the end of the audio, and the same summary. (The original's
//! fields have no part: that is the judge's.)

mod files;

use ferrysprig::Role;
use judge::agree::Judge;
use judge::layout::{row_at, NO_PART, ROW};
use judge::{ac3, syntax};

/// A role of the crate's as the original's.
fn role(role: Role) -> syntax::Role {
    match role {
        Role::Plain => syntax::Role::Plain,
        Role::Sync => syntax::Role::Sync,
        Role::Crc1 => syntax::Role::Crc1,
        Role::Crc2 => syntax::Role::Crc2,
        Role::CrcRsv => syntax::Role::CrcRsv,
        Role::FrameSize => syntax::Role::FrameSize,
        Role::Dialnorm(p) => syntax::Role::Dialnorm(p),
        Role::ComprExists(p) => syntax::Role::ComprExists(p),
        Role::Compr(p) => syntax::Role::Compr(p),
        Role::DynrngExists(p) => syntax::Role::DynrngExists(p),
        Role::Dynrng(p) => syntax::Role::Dynrng(p),
        Role::Skiple => syntax::Role::Skiple,
        Role::Skipl => syntax::Role::Skipl,
        Role::Skipfld => syntax::Role::Skipfld,
        Role::Addbsi => syntax::Role::Addbsi,
        Role::Mantissas => syntax::Role::Mantissas,
        Role::AuxBits => syntax::Role::AuxBits,
        Role::AuxDataL => syntax::Role::AuxDataL,
        Role::AuxDataE => syntax::Role::AuxDataE,
        Role::BlkStrtInfoE => syntax::Role::BlkStrtInfoE,
        Role::BlkStrtInfo => syntax::Role::BlkStrtInfo,
    }
}

fn field(f: &ferrysprig::Field) -> syntax::Field {
    syntax::Field {
        name: f.name,
        role: role(f.role),
        block: f.block,
        index: f.index,
        pos: f.pos,
        width: f.width,
        value: f.value,
    }
}

#[test]
fn fields_and_summary_are_the_originals() {
    let (mut judge, mut accepted) = (Judge::default(), 0);
    for (name, stream) in files::frames() {
        let mut place = 0;
        while place < stream.len() {
            let data = &stream[place..];
            let Ok(frame) = ferrysprig::parse_at(&stream, place) else {
                assert!(
                    ac3::parse(data).is_err(),
                    "{name}: only the original accepts byte {place}"
                );
                break;
            };
            let summary = &frame.summary;
            let original = ac3::parse(data).unwrap();
            let ours: Vec<_> = frame.fields.iter().map(field).collect();
            assert_eq!(ours, original.fields[..ours.len()], "{name}, byte {place}");
            let rows = judge.ample(&stream, place).rows;
            let parts = frame
                .fields
                .iter()
                .map(|f| f.part.map_or(NO_PART, i32::from));
            let judged = rows.chunks(ROW).map(|row| row[row_at::PART]);
            assert!(parts.eq(judged), "{name}, byte {place}");
            assert_eq!(summary.bytes, original.bytes);
            assert_eq!(summary.audio_end, original.audio_end);
            assert_eq!(summary.bsid, original.bsid);
            assert_eq!(summary.acmod, original.acmod);
            assert_eq!(summary.lfeon, original.lfeon);
            assert_eq!(summary.fscod, original.fscod);
            assert_eq!(summary.cpl_blocks, original.cpl_blocks);
            assert_eq!(summary.block_starts[..], original.block_starts[..]);
            assert_eq!(summary.mantissa_starts[..], original.mantissa_starts[..]);
            accepted += 1;
            place += summary.bytes;
        }
    }
    assert!(accepted > 200, "{accepted} frames");
}

#[test]
fn roles_say_of_themselves_what_the_originals_do() {
    let programmes = [0, 1].into_iter().flat_map(|p| {
        [
            Role::Dialnorm(p),
            Role::ComprExists(p),
            Role::Compr(p),
            Role::DynrngExists(p),
            Role::Dynrng(p),
        ]
    });
    #[rustfmt::skip]
    let others = [
        Role::Plain, Role::Sync, Role::Crc1, Role::Crc2, Role::CrcRsv, Role::FrameSize, Role::Skiple, Role::Skipl, Role::Skipfld,
        Role::Addbsi, Role::Mantissas, Role::AuxBits, Role::AuxDataL, Role::AuxDataE, Role::BlkStrtInfoE, Role::BlkStrtInfo,
    ];
    for ours in programmes.chain(others) {
        let theirs = role(ours);
        assert_eq!(format!("{ours:?}"), format!("{theirs:?}"));
        assert_eq!(
            (ours.is_drc(), ours.is_checksum(), ours.is_span()),
            (theirs.is_drc(), theirs.is_checksum(), theirs.is_span()),
            "{ours:?}"
        );
    }
}
