//! The bits of mantissas by slot: the corner cases have the counts that the words give them, an answer has them where it is to, and the
//! check by groups notices every other way to count.

use judge::agree::{Ample, Judge, Room};
use judge::corners::all;
use judge::craft::small;
use judge::cut::blocks::{CPL, LFE, SLOTS};
use judge::layout::{answer_at, summary, ANSWER, ROW};
use judge::mantissas::{bins, bits, check, shown, sought, Bin, Bits};

fn ample(name: &str) -> Ample {
    let corner = all().into_iter().find(|c| c.name == name).expect(name);
    Judge::default().ample(&corner.capture, 0)
}

fn told(ample: &Ample) -> Bits {
    let summary = ample.answer.verdict.as_ref().expect("accepted");
    summary.mantissa_bits
}

#[test]
fn cases_by_name() {
    for (name, block_0) in [
        ("group-into-the-next-channel", [85, 80, 0, 0, 0, 0, 0]),
        ("group-into-coupling", [85, 80, 0, 0, 0, 20, 0]),
        ("group-into-lfe", [85, 0, 0, 0, 0, 0, 10]),
        ("group-from-coupling-into-lfe", [85, 0, 0, 0, 0, 20, 10]),
        ("slot-of-members-alone", [85, 0, 0, 0, 0, 0, 0]),
        ("slots-all-silent", [0; SLOTS]),
    ] {
        let ample = ample(name);
        let mut expected = [[0; SLOTS]; 6];
        expected[0] = block_0;
        assert_eq!(told(&ample), expected, "{name}");
        let blocks = bins(&ample.rows, &ample.pointers).expect("agreed");
        let members = |slot| {
            let of_slot = blocks[0].iter().filter(move |bin| bin.slot == slot);
            of_slot.filter(|bin| bin.pointer == 1).count()
        };
        // What their descriptions say of pointers.
        let pointers = [0, 1, CPL, LFE].map(members);
        let expected = match name {
            "group-into-the-next-channel" => [49, 49, 0, 0],
            "group-into-coupling" => [49, 49, 12, 0],
            "group-into-lfe" => [49, 0, 0, 7],
            "group-from-coupling-into-lfe" => [49, 0, 12, 7],
            "slot-of-members-alone" => [49, 0, 0, 2],
            _ => [0; 4],
        };
        assert_eq!(pointers, expected, "{name}");
    }
}

/// Number 26 + 7 block + slot, and nothing after them.
#[test]
fn they_are_an_answers_last_numbers() {
    assert_eq!((answer_at::MANTISSA_BITS, ANSWER), (26, 68));
    let most = ample("more-rows-than-lent");
    let numbers = most.answer.numbers();
    for (block, slots) in told(&most).iter().enumerate() {
        for (slot, bits) in slots.iter().enumerate() {
            assert_eq!(numbers[26 + 7 * block + slot], *bits as i32);
        }
    }
    assert_eq!(summary().count(), 21 + 42);
}

#[test]
fn a_refusal_has_none() {
    let loud = small(&|a| match (a.name, a.block) {
        ("fgaincod", _) => Some(7),
        ("snroffste", 5) => Some(1),
        ("csnroffst", 0) => Some(1),
        ("csnroffst", 5) => Some(63),
        _ => None,
    });
    let mut judge = Judge::default();
    let past = judge.call(&loud, 0, Room::Sufficient { left_over: 0 });
    assert_eq!((past.answer.number(), past.room.len() % ROW), (6, 0));
    let short = judge.call(&loud, 0, Room::Numbers(ROW * 60));
    assert_eq!(short.answer.number(), 7);
    for answer in [past.answer, short.answer] {
        let numbers = answer.numbers();
        assert!(summary().all(|at| numbers[at] == 0));
    }
}

/// The seven counts of a block, counted in other ways, each of which the check notices in the frame of the name.
#[test]
fn other_ways_to_count_are_noticed() {
    let to_the_last_member = |block: &[Bin]| {
        let mut backwards: Vec<Bin> = block.to_vec();
        let open = block.iter().filter(|bin| bin.pointer == 1).count() % 3;
        // A group that stays open is finished by a member that takes its bits, and whose slot its last member has.
        let last = block.iter().rev().find(|bin| bin.pointer == 1).copied();
        backwards.extend(last.into_iter().cycle().take((3 - open) % 3));
        backwards.reverse();
        bits(&backwards)
    };
    let coupling_to_its_first_channel = |block: &[Bin]| {
        let mut bits = bits(block);
        bits[0] += bits[CPL];
        bits[CPL] = 0;
        bits
    };
    let closed_at_each_slot = |block: &[Bin]| {
        let mut counts = [0; SLOTS];
        for slot in 0..SLOTS {
            let own = block.iter().filter(|bin| bin.slot == slot).copied();
            counts[slot] = bits(&own.collect::<Vec<Bin>>())[slot];
        }
        counts
    };
    let a_members_share = |block: &[Bin]| {
        let mut counts = [0; SLOTS];
        let members = block.iter().filter(|bin| bin.pointer == 1);
        members.for_each(|bin| counts[bin.slot] += 5);
        counts.map(|bits| bits / 3)
    };
    let coupling_and_lfe_exchanged = |block: &[Bin]| {
        let mut bits = bits(block);
        bits.swap(CPL, LFE);
        bits
    };
    type Way<'a> = &'a dyn Fn(&[Bin]) -> [usize; SLOTS];
    let ways: [(&str, Way, &[&str]); 5] = [
        (
            "to the last member",
            &to_the_last_member,
            &["group-into-coupling", "group-into-lfe"],
        ),
        (
            "coupling's to its first channel",
            &coupling_to_its_first_channel,
            &["group-into-coupling", "group-from-coupling-into-lfe"],
        ),
        (
            "groups closed at each slot",
            &closed_at_each_slot,
            &["group-into-the-next-channel", "slot-of-members-alone"],
        ),
        (
            "a share to each member",
            &a_members_share,
            &["group-into-lfe", "slot-of-members-alone"],
        ),
        (
            "coupling and LFE exchanged",
            &coupling_and_lfe_exchanged,
            &["group-into-coupling", "group-into-lfe"],
        ),
    ];
    for (way, count, names) in ways {
        for name in names {
            let ample = ample(name);
            let mut other = told(&ample);
            assert_eq!(check(&ample.rows, &ample.pointers, &other), Ok(()));
            let blocks = bins(&ample.rows, &ample.pointers).expect("agreed");
            other[0] = count(&blocks[0]);
            let noticed = check(&ample.rows, &ample.pointers, &other);
            assert!(noticed.is_err(), "{way}, {name}: {other:?}");
        }
    }
}

/// Every single count that is one more, with and without another that is one less, is noticed.
#[test]
fn other_counts_are_noticed() {
    let ample = ample("group-from-coupling-into-lfe");
    for block in 0..6 {
        for slot in 0..SLOTS {
            let mut more = told(&ample);
            more[block][slot] += 1;
            assert!(check(&ample.rows, &ample.pointers, &more).is_err());
            more[0][0] -= 1;
            let same = (block, slot) == (0, 0);
            assert_eq!(check(&ample.rows, &ample.pointers, &more).is_ok(), same);
        }
    }
}

/// What is sought is seen where it is, and not elsewhere.
#[test]
fn what_is_sought_is_seen() {
    let of = |slots: &[(usize, u8)]| -> Vec<(i32, i32)> {
        let bins = slots.iter().map(|&(slot, pointer)| Bin { slot, pointer });
        let mut shown = shown(&bins.collect::<Vec<_>>());
        shown.sort();
        shown
    };
    assert_eq!(of(&[(0, 1), (0, 1), (0, 1)]), []);
    assert_eq!(of(&[(0, 1), (0, 1), (1, 1), (1, 3)]), [(0, 1)]);
    assert_eq!(of(&[(0, 4), (2, 4), (2, 5), (1, 6)]), []);
    assert_eq!(of(&[(0, 2), (0, 2), (CPL, 2)]), [(1, 2), (7, 1)]);
    assert_eq!(of(&[(0, 3), (CPL, 4), (1, 4), (1, 6)]), [(2, 4)]);
    assert_eq!(of(&[(0, 4), (LFE, 4), (LFE, 6)]), [(3, 4)]);
    assert_eq!(of(&[(CPL, 1), (CPL, 1), (LFE, 1)]), [(4, 1), (7, 2)]);
    assert_eq!(
        of(&[(0, 1), (CPL, 1), (1, 1), (1, 7)]),
        [(0, 1), (5, 1), (7, 1)]
    );
    assert_eq!(of(&[(0, 2), (0, 2)]), [(6, 2)]);
    assert_eq!(of(&[(0, 3), (1, 0)]), [(8, 0)]);
    assert_eq!(of(&[(0, 0), (1, 0)]), []);
    assert_eq!(of(&[(0, 0), (CPL, 0), (LFE, 0)]), [(9, 0)]);
    assert_eq!(sought().count(), 25);
}
