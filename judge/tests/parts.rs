//! The check of parts itself: it passes the rows of a frame that has all sorts of them, and notices each number that is not the part.

use judge::agree::Judge;
use judge::corners::all;
use judge::layout::{row_at, NO_PART, ROW};
use judge::names::number;
use judge::parts::{check, told, PARTED};

/// The rows of the corner case in which everything is sent in every block.
fn rows() -> Vec<i32> {
    let most = all().into_iter().find(|c| c.name == "most-rows");
    let rows = Judge::default()
        .ample(&most.expect("listed").capture, 0)
        .rows;
    assert_eq!(check(&rows), Ok(()));
    rows
}

/// The rows with one part changed are refused.
fn noticed(rows: &[i32], at: usize, part: i32) {
    let mut changed = rows.to_vec();
    changed[ROW * at + row_at::PART] = part;
    assert!(check(&changed).is_err(), "row {at}, part {part}");
}

#[test]
fn every_other_part_is_noticed() {
    let rows = rows();
    for (at, row) in rows.chunks(ROW).enumerate() {
        for part in [row[row_at::PART] - 1, row[row_at::PART] + 1] {
            noticed(&rows, at, part);
        }
        if row[row_at::PART] != NO_PART {
            noticed(&rows, at, NO_PART);
        }
    }
}

/// Counted from 1; counted on from block to block; counted across the channels.
#[test]
fn other_ways_to_count_are_noticed() {
    let rows = rows();
    let recount = |part: &dyn Fn(usize, &[i32]) -> i32| {
        let mut changed = rows.clone();
        for (at, row) in changed.chunks_mut(ROW).enumerate() {
            if row[row_at::PART] != NO_PART {
                row[row_at::PART] = part(at, row);
            }
        }
        check(&changed)
    };
    assert_eq!(recount(&|_, row| row[row_at::PART]), Ok(()));
    assert!(recount(&|_, row| row[row_at::PART] + 1).is_err());
    let before = |at: usize, same: &dyn Fn(&[i32]) -> bool| {
        let earlier = rows.chunks(ROW).take(at);
        earlier.filter(|r| same(r)).count() as i32
    };
    let in_frame = |at: usize, row: &[i32]| {
        let key = |r: &[i32]| (r[row_at::NAME], r[row_at::INDEX]);
        before(at, &|r| key(r) == key(row))
    };
    assert!(recount(&in_frame).is_err());
    let of_all_channels = |at: usize, row: &[i32]| {
        let key = |r: &[i32]| (r[row_at::NAME], r[row_at::BLOCK]);
        before(at, &|r| key(r) == key(row))
    };
    assert!(recount(&of_all_channels).is_err());
}

/// The rules look at the other eight numbers alone, and hold for a list that breaks off anywhere.
#[test]
fn told_without_the_parts_themselves() {
    let rows = rows();
    let mut blind = rows.clone();
    for row in blind.chunks_mut(ROW) {
        row[row_at::PART] = 77;
    }
    assert_eq!(told(&blind), told(&rows));
    for count in 0..rows.len() / ROW {
        assert_eq!(told(&blind[..ROW * count]), told(&rows)[..count]);
    }
}

/// A name that has a part has it in every row, one that has none in no row.
#[test]
fn eleven_names_have_parts() {
    let rows = rows();
    let parted: Vec<i32> = PARTED.iter().map(|(name, ..)| number(name)).collect();
    for row in rows.chunks(ROW) {
        let has = row[row_at::PART] != NO_PART;
        assert_eq!(has, parted.contains(&row[row_at::NAME]), "{row:?}");
    }
}
