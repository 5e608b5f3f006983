//! Fields of a script line: decimal numbers and hexadecimal pairs, by DESIGN.md.

/// Reads one or more decimal digits as a number of at most `max`.
///
/// The value is compared after each digit, so it stays below 10 x `max` + 10.
pub fn number(field: &[u8], max: u64) -> Option<u64> {
    if field.is_empty() {
        return None;
    }
    let mut value = 0;
    for &byte in field {
        if !byte.is_ascii_digit() {
            return None;
        }
        value = value * 10 + u64::from(byte - b'0');
        if value > max {
            return None;
        }
    }
    Some(value)
}

/// Reads a decimal number of at most 255.
pub fn byte_number(field: &[u8]) -> Option<u8> {
    number(field, u8::MAX.into()).map(|value| value as u8)
}

/// Reads a decimal number of at most 65,535.
pub fn word(field: &[u8]) -> Option<u16> {
    number(field, u16::MAX.into()).map(|value| value as u16)
}

/// Reads a decimal number of at most 4,294,967,295.
pub fn long_number(field: &[u8]) -> Option<u32> {
    number(field, u32::MAX.into()).map(|value| value as u32)
}

/// Reads a decimal number of at most 1 as a bit.
pub fn bit(field: &[u8]) -> Option<bool> {
    number(field, 1).map(|value| value == 1)
}

/// Reads none or more decimal numbers of at most 65,535.
pub fn words(fields: &[&[u8]]) -> Option<Vec<u16>> {
    fields.iter().map(|field| word(field)).collect()
}

/// Reads none or more decimal numbers of at most 4,294,967,295.
pub fn long_numbers(fields: &[&[u8]]) -> Option<Vec<u32>> {
    fields.iter().map(|field| long_number(field)).collect()
}

/// Reads one upper-case hexadecimal digit.
fn hex_digit(byte: u8) -> Option<u8> {
    match byte {
        b'0'..=b'9' => Some(byte - b'0'),
        b'A'..=b'F' => Some(byte - b'A' + 10),
        _ => None,
    }
}

/// Reads exactly two upper-case hexadecimal digits as a byte.
pub fn pair(field: &[u8]) -> Option<u8> {
    match *field {
        [high, low] => Some(hex_digit(high)? * 16 + hex_digit(low)?),
        _ => None,
    }
}

/// Reads none or more hexadecimal pairs as bytes.
pub fn pairs(fields: &[&[u8]]) -> Option<Vec<u8>> {
    fields.iter().map(|field| pair(field)).collect()
}

#[cfg(test)]
mod tests {
    use super::*;

    #[test]
    fn numbers() {
        assert_eq!(number(b"512", 512), Some(512));
        assert_eq!(number(b"513", 512), None);
        assert_eq!(number(b"000000000000000000000000512", 512), Some(512));
        assert_eq!(byte_number(b"255"), Some(255));
        assert_eq!(byte_number(b"256"), None);
        assert_eq!(word(b"65535"), Some(65_535));
        assert_eq!(word(b"65536"), None);
        assert_eq!(long_number(b"4294967295"), Some(u32::MAX));
        assert_eq!(long_number(b"4294967296"), None);
        assert_eq!(long_number(b"18446744073709551616"), None);
        assert_eq!(long_numbers(&[]), Some(vec![]));
        assert_eq!(long_numbers(&[b"0", b"65536"]), Some(vec![0, 65_536]));
        assert_eq!(long_numbers(&[b"0", b"4294967296"]), None);
        assert_eq!(bit(b"0"), Some(false));
        assert_eq!(bit(b"1"), Some(true));
        assert_eq!(bit(b"01"), Some(true));
        assert_eq!(bit(b"2"), None);
    }

    #[test]
    fn other_texts_are_no_numbers() {
        for text in [
            "", "-1", "+1", "1x", "x", "0x1", "1.0", " 1", "1 ", "1\r", "\u{b2}",
        ] {
            assert_eq!(word(text.as_bytes()), None, "text {text:?}");
        }
    }

    #[test]
    fn pairs_of_digits() {
        for byte in 0..=255 {
            assert_eq!(pair(format!("{byte:02X}").as_bytes()), Some(byte));
        }
        for text in [
            "", "0", "000", "0a", "a0", "G0", "0G", ":0", "@0", " 0", "0 ", "+1",
        ] {
            assert_eq!(pair(text.as_bytes()), None, "text {text:?}");
        }
        assert_eq!(pairs(&[]), Some(vec![]));
        assert_eq!(pairs(&[b"00", b"FF"]), Some(vec![0, 255]));
        assert_eq!(pairs(&[b"00", b""]), None);
    }
}
