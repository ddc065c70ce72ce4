//! Numbers and bytes as text.

use crate::Wrong;

/// Decimal digits, up to the greatest number of the type, which is unsigned and has 64 bits or fewer.
pub fn number<T: TryFrom<u64>>(text: &str) -> Result<T, Wrong> {
    let bits = 8 * size_of::<T>().clamp(1, 8);
    let greatest = u64::MAX >> (64 - bits);
    let digits = text.bytes().all(|byte| byte.is_ascii_digit());
    let number: Option<u64> = text.parse().ok().filter(|_| digits);
    number
        .and_then(|number| T::try_from(number).ok())
        .ok_or_else(|| Wrong::new(format!("a number from 0 to {greatest}"), text))
}

/// Hexadecimal digits, two a byte; blanks are free.
pub fn bytes(text: &str) -> Result<Vec<u8>, Wrong> {
    let wrong = || Wrong::new("hexadecimal digits, two a byte", text);
    let digits: Option<Vec<u8>> = text
        .chars()
        .filter(|character| !character.is_whitespace())
        .map(|character| Some(character.to_digit(16)? as u8))
        .collect();
    let digits = digits.ok_or_else(wrong)?;
    let pairs = digits.chunks_exact(2);
    match pairs.remainder() {
        [] => Ok(pairs.map(|pair| pair[0] << 4 | pair[1]).collect()),
        _ => Err(wrong()),
    }
}

/// Capital hexadecimal digits, two a byte.
pub fn hex(bytes: &[u8]) -> String {
    const DIGITS: &[u8; 16] = b"0123456789ABCDEF";
    let digit = |half: u8| char::from(DIGITS[usize::from(half)]);
    bytes
        .iter()
        .flat_map(|byte| [digit(byte >> 4), digit(byte & 0x0F)])
        .collect()
}

/// A single byte in hexadecimal.
pub(crate) fn byte(text: &str) -> Result<u8, Wrong> {
    match bytes(text)?[..] {
        [byte] => Ok(byte),
        _ => Err(Wrong::new("two hexadecimal digits", text)),
    }
}
