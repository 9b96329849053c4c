//! Bytes in hexadecimal digits.

/// The bytes that a text writes, two digits each. None if it has any other character or an odd number of digits.
pub fn unhex(text: &str) -> Option<Vec<u8>> {
    let (pairs, odd) = text.as_bytes().as_chunks::<2>();
    if !odd.is_empty() {
        return None;
    }
    pairs
        .iter()
        .map(|&[high, low]| Some(digit(high)? * 16 + digit(low)?))
        .collect()
}

fn digit(byte: u8) -> Option<u8> {
    match byte {
        b'0'..=b'9' => Some(byte - b'0'),
        b'a'..=b'f' => Some(byte - b'a' + 10),
        b'A'..=b'F' => Some(byte - b'A' + 10),
        _ => None,
    }
}

#[cfg(test)]
mod tests {
    use super::*;

    #[test]
    fn two_digits_a_byte() {
        assert_eq!(unhex(""), Some(vec![]));
        assert_eq!(unhex("00fFA91b"), Some(vec![0x00, 0xff, 0xa9, 0x1b]));
    }

    #[test]
    fn no_other_characters_and_no_odd_digit() {
        for text in [
            "0", "000", "0g", "g0", " 00", "00 ", "0 0", "0x00", "é", "+1", "00\r",
        ] {
            assert_eq!(unhex(text), None, "{text}");
        }
    }
}
