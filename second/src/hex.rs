//! Hexadecimal text for the binaries that print cases.

/// Two small digits for each byte; `-` for an area of no bytes.
pub fn encode(bytes: &[u8]) -> String {
    if bytes.is_empty() {
        return "-".to_string();
    }
    let mut text = String::with_capacity(bytes.len() * 2);
    for byte in bytes {
        text.push(char::from_digit(u32::from(byte / 16), 16).unwrap());
        text.push(char::from_digit(u32::from(byte % 16), 16).unwrap());
    }
    text
}

/// The bytes of a text that [`encode`] made; None for any other text.
pub fn decode(text: &str) -> Option<Vec<u8>> {
    if text == "-" {
        return Some(Vec::new());
    }
    let digits: Option<Vec<u32>> = text.chars().map(|c| c.to_digit(16)).collect();
    let digits = digits?;
    if digits.is_empty() || !digits.len().is_multiple_of(2) {
        return None;
    }
    Some(
        digits
            .chunks(2)
            .map(|pair| (pair[0] * 16 + pair[1]) as u8)
            .collect(),
    )
}
