//! `logadd` and `calc_lowcomp` of the published alloc.rs, which are private there, against the words
//! of docs/FORMAT.md; its values (j) among them.

use judge::tables;

#[allow(dead_code)]
mod alloc {
    include!(concat!(env!("OUT_DIR"), "/alloc_body.rs"));

    #[test]
    fn j_logadd_values() {
        assert_eq!(logadd(3072, 0), 3072);
        for level in [-5000, 0, 64, 3072] {
            assert_eq!(logadd(level, level), level + 64);
        }
    }

    /// "The larger of the two, plus LOG_ADD at the smaller of 255 and half the absolute difference,
    /// rounded down", and its bound.
    #[test]
    fn logadd_as_in_words() {
        for a in -700..700 {
            for b in (-700..700).chain([-3072, 3072, 6000]) {
                let larger = if a > b { a } else { b };
                let smaller = if a > b { b } else { a };
                let half = (larger - smaller) / 2;
                let address = if half < 255 { half } else { 255 };
                let sum = logadd(a, b);
                assert_eq!(sum, larger + LOG_ADD[address as usize]);
                assert!((larger..=larger + 64).contains(&sum));
            }
        }
    }

    /// The mask before its last step stays below 0x2000, so that "bits 5 to 12" loses nothing above:
    /// the loudest band (24 bins of 3,072) less the least fast gain, and the most that knee, delta,
    /// SNR offset and floor can add.
    #[test]
    fn no_mask_reaches_bit_13() {
        let loudest = (1..24).fold(3072, |level, _| logadd(level, 3072));
        let (gain, knee, delta, offset, floor) = (128, 2816 >> 2, 512, 960, 2048);
        assert!(loudest - gain + knee + delta + offset + floor < 0x2000);
    }

    /// "Below bin 20, if b0 + 256 = b1 the answer is 384 (bin below 7) or 320 (bin 7 to 19); else
    /// if b0 > b1, the larger of 0 and a - 64; else a. From bin 20, the larger of 0 and a - 128."
    #[test]
    fn calc_lowcomp_as_in_words() {
        for bin in 0..60 {
            for a in 0..=400 {
                for difference in [-512, -256, -128, -1, 0, 1, 128, 255, 256, 257, 384] {
                    for b0 in [0, 1000] {
                        let b1 = b0 + difference;
                        let mut expected = a;
                        if bin >= 20 {
                            expected = (a - 128).max(0);
                        } else if b0 + 256 == b1 {
                            expected = if bin < 7 { 384 } else { 320 };
                        } else if b0 > b1 {
                            expected = (a - 64).max(0);
                        }
                        assert_eq!(calc_lowcomp(a, b0, b1, bin), expected);
                    }
                }
            }
        }
    }
}
