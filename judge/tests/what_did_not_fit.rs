//! What an answer's name and block tell. The corner cases have the blocks; the header, where no frame is short enough to show it,
//! is tried on the cursor itself.

use judge::agree::{Judge, Room};
use judge::craft::small;
use judge::cut::{Bytes, Cursor, No, Unfit};
use judge::layout::{answer_at, ROW};
use judge::names::number;
use judge::syntax::Role;

/// Name and block of an answer with room for so many rows.
fn told(capture: &[u8], rows: usize) -> [i32; 2] {
    let call = Judge::default().call(capture, 0, Room::Numbers(ROW * rows));
    let numbers = call.answer.numbers();
    [numbers[answer_at::NAME], numbers[answer_at::BLOCK]]
}

#[test]
fn they_stand_after_the_first_part_of_the_summary() {
    assert_eq!([answer_at::NAME, answer_at::BLOCK], [24, 25]);
}

#[test]
fn nothing_where_a_frame_is_accepted_or_refused_for_something_else() {
    let plain = small(&|_| None);
    assert_eq!(told(&plain, 95), [0, -1], "accepted");
    assert_eq!(told(&plain, 94), [0, -1], "no row for mantissas");
    assert_eq!(told(&plain[..127], 95), [0, -1], "a byte short");
    assert_eq!(told(&[], 0), [0, -1], "nothing at all");
    for flag in ["cplstre", "rematstr", "baie", "snroffste"] {
        let frame = small(&|a| match a.name {
            "acmod" => Some(2),
            name if name == flag => Some(0),
            _ => None,
        });
        assert_eq!(told(&frame, 95), [0, -1], "{flag} 0");
    }
}

#[test]
fn a_skip_field_and_not_its_length() {
    let skip = small(&|a| match (a.name, a.block) {
        ("skiple", 2) => Some(1),
        ("skipl", 2) => Some(200),
        _ => None,
    });
    assert_eq!(told(&skip, 95), [number("skipfld"), 2]);
}

/// What a cursor of so many bits refuses, in the block.
fn refused(
    limit: usize,
    block: i8,
    read: impl Fn(&mut Cursor<'_, Bytes<'_>>) -> Result<(), No>,
) -> (u32, Unfit) {
    let mut room = [0; 4 * ROW];
    let mut cursor = Cursor::new(Bytes(&[0; 64]), &mut room);
    (cursor.limit, cursor.block) = (limit, block);
    let no = read(&mut cursor).unwrap_err();
    (no.number, no.unfit)
}

#[test]
fn in_the_header_the_block_is_minus_one() {
    let six = |name: &str, block: i32| {
        let name = number(name);
        (6, Unfit { name, block })
    };
    let addbsi = refused(100, -1, |c| c.span("addbsi", Role::Addbsi, 104));
    assert_eq!(addbsi, six("addbsi", -1));
    let addbsil = refused(5, -1, |c| c.get("addbsil", 6).map(drop));
    assert_eq!(addbsil, six("addbsil", -1));
    let mantissa = refused(30, 5, |c| {
        c.raw(16, "mantissa").and_then(|_| c.raw(16, "mantissa"))
    });
    assert_eq!(mantissa, six("mantissas", 5));
    let skipfld = refused(30, 3, |c| c.span("skipfld", Role::Skipfld, 32));
    assert_eq!(skipfld, six("skipfld", 3));
}
