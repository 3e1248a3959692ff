//! Bytes as hexadecimal digits.

pub fn digits(bytes: &[u8]) -> String {
    bytes.iter().map(|byte| format!("{byte:02x}")).collect()
}

/// The bytes of as many pairs of digits.
pub fn bytes(digits: &str) -> Result<Vec<u8>, String> {
    let pair = |place: usize| {
        let pair = digits.get(place..place + 2);
        pair.and_then(|pair| u8::from_str_radix(pair, 16).ok())
            .ok_or_else(|| format!("{digits} is no list of bytes"))
    };
    (0..digits.len()).step_by(2).map(pair).collect()
}
