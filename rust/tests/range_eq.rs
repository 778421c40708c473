//! What `range_eq` answers: the original's answer where it has one, and false past an end.

mod files;

use ferrysprig::range_eq;
use judge::bits;

#[test]
fn the_originals_answer_inside_and_false_past_an_end() {
    // Bytes of few kinds, so that equal ranges are met often.
    let mut random = files::random();
    let mut met = [0; 3];
    for _ in 0..50_000 {
        let kinds = [0x00, 0xFF, 0x00, 0x0F];
        let x: Vec<u8> = (0..random(12)).map(|_| kinds[random(4)]).collect();
        let mut y: Vec<u8> = x.clone();
        if let Some(byte) = y.first_mut().filter(|_| random(2) == 0) {
            *byte ^= 1 << random(8);
        }
        let (a, b, n) = (random(60), random(60), random(60));
        let b = if random(2) == 0 { a } else { b };
        let inside = a + n <= 8 * x.len() && b + n <= 8 * y.len();
        let expected = inside && bits::range_eq(&x, a, &y, b, n);
        assert_eq!(
            range_eq(&x, a, &y, b, n),
            expected,
            "{x:?} {a}, {y:?} {b}, {n} bits"
        );
        met[usize::from(inside) + usize::from(expected)] += 1;
    }
    assert!(
        met.iter().all(|n| *n > 1000),
        "past an end, different, equal: {met:?}"
    );
}

#[test]
fn places_and_lengths_without_bound() {
    let bytes = [0; 4];
    for far in [33, 1 << 40, usize::MAX - 31, usize::MAX] {
        assert!(!range_eq(&bytes, far, &bytes, 0, 0));
        assert!(!range_eq(&bytes, 0, &bytes, far, 1));
        assert!(!range_eq(&bytes, 0, &bytes, 0, far));
        assert!(!range_eq(&bytes, far, &bytes, far, far));
    }
    assert!(range_eq(&[], 0, &[], 0, 0));
    assert!(range_eq(&bytes, 32, &[], 0, 0));
    assert!(range_eq(&bytes, 0, &bytes, 0, 32));
}
