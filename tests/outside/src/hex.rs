//! Bytes as hexadecimal digits; `-` for no bytes.

pub fn to_hex(bytes: &[u8]) -> String {
    if bytes.is_empty() {
        return "-".to_string();
    }
    let digit = |n: u8| char::from_digit(u32::from(n), 16).expect("below 16");
    let mut text = String::with_capacity(2 * bytes.len());
    for byte in bytes {
        text.push(digit(byte >> 4));
        text.push(digit(byte & 15));
    }
    text
}

pub fn from_hex(text: &str) -> Result<Vec<u8>, String> {
    if text == "-" {
        return Ok(Vec::new());
    }
    let digit = |c: u8| {
        char::from(c)
            .to_digit(16)
            .ok_or(format!("no hexadecimal digit: {}", char::from(c)))
    };
    if !text.len().is_multiple_of(2) {
        return Err("an odd number of hexadecimal digits".to_string());
    }
    text.as_bytes()
        .chunks(2)
        .map(|pair| Ok((digit(pair[0])? * 16 + digit(pair[1])?) as u8))
        .collect()
}
