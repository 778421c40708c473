//! The published files are what was published: their SHA-256 sums are those of ddpmeta/SHA256SUMS.

use std::fs;
use std::path::Path;

/// FIPS 180-4, 6.2.
fn sha256(message: &[u8]) -> String {
    let primes = || (2u64..).filter(|n| (2..*n).all(|d| n % d != 0));
    // The first 32 bits of the fractional part of a root, found by integer search.
    let fraction = |power: u32, prime: u64| {
        let wide = u128::from(prime) << (32 * power);
        let (mut low, mut high) = (0u128, 1 << 40);
        while high - low > 1 {
            let middle = (low + high) / 2;
            if middle.pow(power) <= wide {
                low = middle;
            } else {
                high = middle;
            }
        }
        low as u32
    };
    let k: Vec<u32> = primes().take(64).map(|p| fraction(3, p)).collect();
    let mut h: Vec<u32> = primes().take(8).map(|p| fraction(2, p)).collect();

    let mut padded = message.to_vec();
    padded.push(0x80);
    padded.resize(padded.len().next_multiple_of(64), 0);
    if padded.len() - message.len() < 9 {
        padded.resize(padded.len() + 64, 0);
    }
    let end = padded.len();
    padded[end - 8..].copy_from_slice(&(8 * message.len() as u64).to_be_bytes());

    for block in padded.chunks(64) {
        let mut w: Vec<u32> = block
            .chunks(4)
            .map(|b| u32::from_be_bytes(b.try_into().unwrap()))
            .collect();
        for t in 16..64 {
            let s0 = w[t - 15].rotate_right(7) ^ w[t - 15].rotate_right(18) ^ (w[t - 15] >> 3);
            let s1 = w[t - 2].rotate_right(17) ^ w[t - 2].rotate_right(19) ^ (w[t - 2] >> 10);
            w.push(
                s0.wrapping_add(s1)
                    .wrapping_add(w[t - 16])
                    .wrapping_add(w[t - 7]),
            );
        }
        let mut v = h.clone();
        for t in 0..64 {
            let s1 = v[4].rotate_right(6) ^ v[4].rotate_right(11) ^ v[4].rotate_right(25);
            let choice = (v[4] & v[5]) ^ (!v[4] & v[6]);
            let t1 = [s1, choice, k[t], w[t]]
                .iter()
                .fold(v[7], |a, b| a.wrapping_add(*b));
            let s0 = v[0].rotate_right(2) ^ v[0].rotate_right(13) ^ v[0].rotate_right(22);
            let majority = (v[0] & v[1]) ^ (v[0] & v[2]) ^ (v[1] & v[2]);
            v.rotate_right(1);
            v[4] = v[4].wrapping_add(t1);
            v[0] = t1.wrapping_add(s0).wrapping_add(majority);
        }
        for (a, b) in h.iter_mut().zip(v) {
            *a = a.wrapping_add(b);
        }
    }
    h.iter().map(|n| format!("{n:08x}")).collect()
}

#[test]
fn the_sum_is_sha_256() {
    let empty = "e3b0c44298fc1c149afbf4c8996fb92427ae41e4649b934ca495991b7852b855";
    assert_eq!(sha256(b""), empty);
    let abc = "ba7816bf8f01cfea414140de5dae2223b00361a396177a9cb410ff61f20015ad";
    assert_eq!(sha256(b"abc"), abc);
    let two_blocks = "248d6a61d20638b8e5c026930c3e6039a33ce45964ff2167f6ecedd419db06c1";
    assert_eq!(
        sha256(b"abcdbcdecdefdefgefghfghighijhijkijkljklmklmnlmnomnopnopq"),
        two_blocks
    );
}

#[test]
fn published_files_are_unchanged() {
    let directory = Path::new(env!("CARGO_MANIFEST_DIR")).join("ddpmeta");
    let list = fs::read_to_string(directory.join("SHA256SUMS")).expect("the list");
    let mut listed: Vec<&str> = Vec::new();
    for line in list.lines() {
        let (sum, file) = line.split_once("  ").expect("a sum and a file");
        let bytes = fs::read(directory.join(file)).expect(file);
        assert_eq!(sha256(&bytes), sum, "{file}");
        listed.push(file);
    }
    let mut found: Vec<String> = fs::read_dir(&directory)
        .expect("the directory")
        .map(|f| f.unwrap().file_name().into_string().unwrap())
        .filter(|f| f.ends_with(".rs") || f == "LICENSE.txt")
        .collect();
    found.sort();
    assert_eq!(found, listed, "each file is in the list");
    assert_eq!(listed.len(), 11);
}
