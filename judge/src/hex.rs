//! Bytes as hexadecimal digits, two to a byte.

pub fn of(bytes: &[u8]) -> String {
    bytes.iter().map(|b| format!("{b:02x}")).collect()
}

/// The bytes that the digits stand for; spaces are passed over.
pub fn bytes(digits: &str) -> Vec<u8> {
    let digits: Vec<u8> = digits
        .chars()
        .filter(|c| *c != ' ')
        .map(|c| c.to_digit(16).expect("a hexadecimal digit") as u8)
        .collect();
    assert!(digits.len().is_multiple_of(2), "two digits to a byte");
    digits.chunks(2).map(|d| d[0] << 4 | d[1]).collect()
}
