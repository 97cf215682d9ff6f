//! Two-digit hex, as the bench program prints it and the command line takes it.

/// Capital pairs with one space between them.
pub fn to_hex(bytes: &[u8]) -> String {
    bytes
        .iter()
        .map(|byte| format!("{byte:02X}"))
        .collect::<Vec<_>>()
        .join(" ")
}

/// Spaces may stand anywhere; everything else must be pairs of hex digits.
pub fn from_hex(text: &str) -> Result<Vec<u8>, String> {
    let mut digits = Vec::new();
    for letter in text.chars().filter(|letter| !letter.is_whitespace()) {
        let digit = letter.to_digit(16);
        digits
            .push(digit.ok_or(format!("'{letter}' is no hex digit; use 0 to 9 and A to F"))? as u8);
    }
    if digits.len() % 2 == 1 {
        return Err("odd number of hex digits; write two for every byte".to_string());
    }
    Ok(digits
        .chunks(2)
        .map(|pair| 16 * pair[0] + pair[1])
        .collect())
}
