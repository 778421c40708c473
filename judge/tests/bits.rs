//! `bits::get` and `bits::range_eq`, bit by bit.

use judge::bits::{get, range_eq};
use judge::rng::Rng;

fn bit(data: &[u8], at: usize) -> u32 {
    u32::from(data[at / 8] >> (7 - at % 8)) & 1
}

#[test]
fn get_reads_the_most_significant_bit_first() {
    let data = Rng(1).bytes(24);
    for n in 0..=32 {
        for pos in 0..=8 * data.len() - n {
            let expected = (pos..pos + n).fold(0u64, |v, at| 2 * v + u64::from(bit(&data, at)));
            assert_eq!(u64::from(get(&data, pos, n)), expected, "{n} bits at {pos}");
        }
    }
}

#[test]
fn range_eq_compares_every_bit() {
    let mut rng = Rng(2);
    let x = rng.bytes(20);
    for round in 0..2000 {
        let n = rng.below(100);
        let (a, b) = (rng.below(161 - n), rng.below(161 - n));
        let mut y = rng.bytes(20);
        for i in 0..n {
            judge::bits::set(&mut y, b + i, 1, bit(&x, a + i));
        }
        assert!(range_eq(&x, a, &y, b, n), "round {round}");
        if n > 0 {
            let i = rng.below(n);
            let turned = 1 - bit(&y, b + i);
            judge::bits::set(&mut y, b + i, 1, turned);
            assert!(!range_eq(&x, a, &y, b, n), "round {round}, bit {i}");
        }
    }
}

/// The Rust leaves bounds to the caller: past the data it stops the program.
#[test]
fn past_the_data_is_the_callers_fault() {
    assert!(std::panic::catch_unwind(|| get(&[0x0B, 0x77], 10, 7)).is_err());
    assert!(std::panic::catch_unwind(|| range_eq(&[1], 0, &[1, 2], 0, 9)).is_err());
    // Nothing is read of an empty range, wherever it stands.
    assert_eq!(get(&[], 1000, 0), 0);
    assert!(range_eq(&[], 5, &[], 1000, 0));
}
