//! The profile: the cases to be tried by name, each with the answer that its description gives, written out; and slips that the generator's
//! calls must notice.

use judge::agree::fresh_room;
use judge::cases::Amounts;
use judge::cut::{answer, MANY_ROWS};
use judge::layout::{row_at, ProfileAnswer, ROW};
use judge::names::number;
use judge::profile::profile;
use judge::profile_cases::{Case, Order, Profiles, WITHIN};
use judge::rng::Rng;

/// The rule and the row that are told of an accepted frame made to order.
fn told(order: Order) -> [i32; 2] {
    let frame = order.frame(&mut Rng(1));
    let mut room = fresh_room(ROW * MANY_ROWS);
    let [refusal, _, rule, row] = profile(&frame, 0, &mut room);
    assert_eq!(refusal, 0, "{order:?}");
    [rule, row]
}

/// The name, block and value of a row of such a frame.
fn row(order: Order, row: i32) -> [i32; 3] {
    let frame = order.frame(&mut Rng(1));
    let mut room = fresh_room(ROW * MANY_ROWS);
    answer(&frame, 0, &mut room);
    let row = &room[ROW * row as usize..];
    [row_at::NAME, row_at::BLOCK, row_at::VALUE].map(|at| row[at])
}

#[test]
fn each_rule_alone() {
    let order = WITHIN;
    assert_eq!(told(order), [0, 0]);
    assert_eq!(told(Order { fscod: 1, ..order }), [1, 2]);
    assert_eq!(told(Order { fscod: 2, ..order }), [1, 2]);
    for acmod in [0, 1, 3, 4, 5, 6] {
        assert_eq!(told(Order { acmod, ..order }), [2, 6]);
    }
    for bsid in [0, 1, 2, 3, 4, 5, 7] {
        assert_eq!(told(Order { bsid, ..order }), [3, 4]);
    }
    assert_eq!(told(Order { lfeon: 1, ..order }), [5, 8]);
    assert_eq!(
        told(Order {
            dialnorm: 0,
            ..order
        }),
        [7, 9]
    );
    let five = Order {
        acmod: 7,
        dialnorm: 0,
        ..order
    };
    assert_eq!(told(five), [7, 10]);
}

#[test]
fn what_is_within() {
    for acmod in [2, 7] {
        for bsid in [6, 8] {
            for dialnorm in [1, 31] {
                let order = Order {
                    acmod,
                    bsid,
                    dialnorm,
                    ..WITHIN
                };
                assert_eq!(told(order), [0, 0]);
            }
        }
    }
    let order = Order {
        acmod: 7,
        lfeon: 1,
        ..WITHIN
    };
    assert_eq!(told(order), [0, 0]);
}

#[test]
fn words_384_and_the_next_fewer() {
    for (frmsizecod, bytes, expected) in [
        (18, 640, [4, 3]),
        (19, 640, [4, 3]),
        (20, 768, [0, 0]),
        (21, 768, [0, 0]),
        (0, 128, [4, 3]),
        (37, 2560, [0, 0]),
    ] {
        let order = Order {
            frmsizecod,
            ..WITHIN
        };
        assert_eq!(order.frame(&mut Rng(1)).len(), bytes);
        assert_eq!(told(order), expected);
    }
    // 348 words at 44.1 kHz, 576 at 32 kHz: the first rule is told.
    assert_eq!(
        told(Order {
            fscod: 1,
            frmsizecod: 18,
            ..WITHIN
        }),
        [1, 2]
    );
    assert_eq!(
        told(Order {
            fscod: 2,
            frmsizecod: 20,
            ..WITHIN
        }),
        [1, 2]
    );
}

#[test]
fn the_earliest_block_with_deltbaie() {
    for deltas in 1..64u32 {
        let order = Order {
            deltas,
            dialnorm: 0,
            ..WITHIN
        };
        let [rule, at] = told(order);
        assert_eq!(rule, 6);
        let block = deltas.trailing_zeros() as i32;
        assert_eq!(row(order, at), [number("deltbaie"), block, 1]);
    }
}

#[test]
fn the_order_of_the_rules() {
    // All broken, mended one after the other from the first.
    let mut order = Order {
        fscod: 1,
        frmsizecod: 0,
        bsid: 7,
        acmod: 3,
        lfeon: 1,
        dialnorm: 0,
        deltas: 0b101000,
    };
    assert_eq!(told(order), [1, 2]);
    order.fscod = 0;
    assert_eq!(told(order), [2, 6]);
    order.acmod = 2;
    assert_eq!(told(order), [3, 4]);
    order.bsid = 6;
    assert_eq!(told(order), [4, 3]);
    order.frmsizecod = 20;
    assert_eq!(told(order), [5, 8]);
    order.lfeon = 0;
    let [rule, at] = told(order);
    assert_eq!((rule, row(order, at)), (6, [number("deltbaie"), 3, 1]));
    order.deltas = 0;
    assert_eq!(told(order), [7, 9]);
    order.dialnorm = 1;
    assert_eq!(told(order), [0, 0]);
}

#[test]
fn a_refused_frame() {
    let frame = Order {
        dialnorm: 0,
        ..WITHIN
    }
    .frame(&mut Rng(1));
    let mut room = fresh_room(ROW * MANY_ROWS);
    let [_, rows, rule, _] = profile(&frame, 0, &mut room);
    assert_eq!(rule, 7);
    let told = |bytes: usize, place: usize, numbers: usize| {
        let mut room = fresh_room(numbers);
        profile(&frame[..bytes], place, &mut room)
    };
    let ample = ROW * MANY_ROWS;
    assert_eq!(told(767, 0, ample), [4, 4, 0, 0]);
    assert_eq!(told(768, 763, ample), [1, 0, 0, 0]);
    assert_eq!(told(768, usize::MAX, ample), [1, 0, 0, 0]);
    // The row that breaks the rule is there, the last one is not.
    assert_eq!(told(768, 0, ROW * rows as usize - 1), [7, rows - 1, 0, 0]);
    assert_eq!(told(768, 0, ROW * 10), [7, 10, 0, 0]);
    assert_eq!(told(768, 0, 0), [7, 0, 0, 0]);
}

/// The generator reaches all that it is to reach; a disagreement with what it knows beforehand would stop it.
#[test]
fn every_goal_is_reached() {
    let mut nothing = |_: &Case<'_>| {};
    let mut profiles = Profiles::new(1, &mut nothing);
    profiles.run(1, 1, Amounts::of_size(0));
    assert_eq!(profiles.missed(), Vec::<String>::new());
}

/// Implementations with one slip each. The generator's calls must tell each from the judge.
const SLIPS: [&str; 31] = [
    "rules 1 and 2 exchanged",
    "rules 2 and 3 exchanged",
    "rules 3 and 4 exchanged",
    "rules 4 and 5 exchanged",
    "rules 5 and 6 exchanged",
    "rules 6 and 7 exchanged",
    "the first row that breaks any rule",
    "the last broken rule",
    "the last block's deltbaie",
    "deltbaie of block 0 alone",
    "block 5 not looked at",
    "words above 384",
    "words 320 taken",
    "the row of fscod for words",
    "bytes for words",
    "acmod 7 not taken",
    "acmod 2 not taken",
    "acmod 3 taken",
    "bsid 6 not taken",
    "bsid 7 taken",
    "bsid up to 8 taken",
    "lfeon with any acmod",
    "lfeon never",
    "the row of acmod for lfeon",
    "dialnorm of 31 refused",
    "dialnorm of 0 taken",
    "rows from 1",
    "row -1 when within",
    "a rule told of a refused frame",
    "rows 0 of a refused frame",
    "the room written past the rows",
];

/// The judge's answer again, with a slip.
fn slipped(slip: &str, capture: &[u8], place: usize, room: &mut [i32]) -> ProfileAnswer {
    let parsed = answer(capture, place, room);
    let (refusal, rows) = (parsed.number() as i32, parsed.rows);
    if slip == "the room written past the rows" && room.len() > ROW * rows {
        room[ROW * rows] = 0;
    }
    let count = match slip {
        "rows 0 of a refused frame" if refusal > 0 => 0,
        _ => rows as i32,
    };
    if refusal > 0 && slip != "a rule told of a refused frame" {
        return [refusal, count, 0, 0];
    }
    let is = |other: &str| slip == other;
    let named = |name: &str| {
        let name = number(name);
        let mut each = room[..ROW * rows].chunks(ROW).enumerate();
        each.find(|(_, r)| r[row_at::NAME] == name)
            .map(|(at, r)| (at as i32, r[row_at::VALUE]))
    };
    let names = ["fscod", "frmsizecod", "bsid", "acmod", "lfeon", "dialnorm"];
    let [Some(fscod), Some(size), Some(bsid), Some(acmod), Some(lfeon), Some(dialnorm)] =
        names.map(named)
    else {
        return [refusal, count, 0, 0];
    };
    let name = number("deltbaie");
    let deltas: Vec<i32> = (0..rows)
        .filter(|at| {
            let row = &room[ROW * at..];
            let block = row[row_at::BLOCK];
            row[row_at::NAME] == name
                && row[row_at::VALUE] == 1
                && !(is("deltbaie of block 0 alone") && block > 0)
                && !(is("block 5 not looked at") && block == 5)
        })
        .map(|at| at as i32)
        .collect();
    let delta = match is("the last block's deltbaie") {
        true => deltas.last(),
        false => deltas.first(),
    };
    let words = judge::tables::ac3_frame_words(fscod.1 as usize, size.1 as usize).unwrap_or(0);
    let least = match slip {
        "words above 384" => 385,
        "words 320 taken" => 320,
        "bytes for words" => 192,
        _ => 384,
    };
    let acmods: &[i32] = match slip {
        "acmod 7 not taken" => &[2],
        "acmod 2 not taken" => &[7],
        "acmod 3 taken" => &[2, 3, 7],
        _ => &[2, 7],
    };
    let bsids: &[i32] = match slip {
        "bsid 6 not taken" => &[8],
        "bsid 7 taken" => &[6, 7, 8],
        "bsid up to 8 taken" => &[0, 1, 2, 3, 4, 5, 6, 7, 8],
        _ => &[6, 8],
    };
    let lfe = match slip {
        "lfeon with any acmod" => false,
        "lfeon never" => true,
        _ => acmod.1 != 7,
    };
    let level = match slip {
        "dialnorm of 31 refused" => dialnorm.1 == 0 || dialnorm.1 == 31,
        "dialnorm of 0 taken" => false,
        _ => dialnorm.1 == 0,
    };
    let size_row = if is("the row of fscod for words") {
        fscod.0
    } else {
        size.0
    };
    let lfe_row = if is("the row of acmod for lfeon") {
        acmod.0
    } else {
        lfeon.0
    };
    let mut checks = [
        (1, fscod.1 != 0, fscod.0),
        (2, !acmods.contains(&acmod.1), acmod.0),
        (3, !bsids.contains(&bsid.1), bsid.0),
        (4, words < least, size_row),
        (5, lfeon.1 == 1 && lfe, lfe_row),
        (6, delta.is_some(), *delta.unwrap_or(&0)),
        (7, level, dialnorm.0),
    ];
    for earlier in 0..6 {
        if slip == format!("rules {} and {} exchanged", earlier + 1, earlier + 2) {
            checks.swap(earlier, earlier + 1);
        }
    }
    match slip {
        "the first row that breaks any rule" => checks.sort_by_key(|(_, _, row)| *row),
        "the last broken rule" => checks.reverse(),
        _ => {}
    }
    match checks.into_iter().find(|(_, breaks, _)| *breaks) {
        Some((rule, _, row)) => [refusal, count, rule, row + i32::from(is("rows from 1"))],
        None => [refusal, count, 0, -i32::from(is("row -1 when within"))],
    }
}

#[test]
fn slips_are_noticed() {
    let mut noticed = vec![0usize; SLIPS.len()];
    let mut without = 0usize;
    let mut compare = |case: &Case<'_>| {
        let differs = |slip: &str| {
            let mut room = fresh_room(case.room.len());
            let told = slipped(slip, case.capture, case.place, &mut room);
            told != case.answer || room != case.room
        };
        without += usize::from(differs("none"));
        for (slip, times) in SLIPS.iter().zip(&mut noticed) {
            // Once is enough.
            if *times == 0 {
                *times += usize::from(differs(slip));
            }
        }
    };
    Profiles::new(1, &mut compare).run(1, 1, Amounts::of_size(0));
    assert_eq!(without, 0, "without a slip nothing differs");
    for (slip, times) in SLIPS.iter().zip(noticed) {
        assert!(times > 0, "{slip}");
    }
}
