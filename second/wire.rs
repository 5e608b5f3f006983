//! Protected identifiers and checksums, by "Bytes on the bus" of document 01.

use crate::refusal::Refusal;

/// The largest frame identifier.
const IDENTIFIER_MAX: u8 = 63;

/// Identifiers from this one on always use the classic checksum.
const FIRST_CLASSIC_ONLY: u8 = 60;

/// The largest number of data bytes in a frame.
const DATA_LENGTH_MAX: usize = 8;

/// The checksum model asked for.
#[derive(Debug, Clone, Copy, PartialEq, Eq)]
pub enum ChecksumModel {
    /// Over the data bytes only.
    Classic,
    /// Over the protected identifier and the data bytes.
    Enhanced,
}

/// Gives bit `number` of `value` as 0 or 1.
fn bit(value: u8, number: u8) -> u8 {
    (value >> number) & 1
}

/// Gives P0 = ID0 xor ID1 xor ID2 xor ID4.
fn parity_0(identifier: u8) -> u8 {
    bit(identifier, 0) ^ bit(identifier, 1) ^ bit(identifier, 2) ^ bit(identifier, 4)
}

/// Gives P1 = not (ID1 xor ID3 xor ID4 xor ID5).
fn parity_1(identifier: u8) -> u8 {
    1 - (bit(identifier, 1) ^ bit(identifier, 3) ^ bit(identifier, 4) ^ bit(identifier, 5))
}

/// Builds the protected identifier: the identifier, P0 as bit 6 and P1 as bit 7.
pub fn protected_identifier(identifier: u8) -> Result<u8, Refusal> {
    if identifier > IDENTIFIER_MAX {
        return Err(Refusal::BytesRefused);
    }
    Ok(identifier | (parity_0(identifier) << 6) | (parity_1(identifier) << 7))
}

/// Reads the identifier out of a protected identifier and refuses wrong parity.
pub fn frame_identifier(protected: u8) -> Result<u8, Refusal> {
    let identifier = protected & IDENTIFIER_MAX;
    let parity_right =
        bit(protected, 6) == parity_0(identifier) && bit(protected, 7) == parity_1(identifier);
    if parity_right {
        Ok(identifier)
    } else {
        Err(Refusal::BytesRefused)
    }
}

/// Adds one byte to the sum and subtracts 255 when the sum is 256 or more.
fn add(sum: u16, byte: u8) -> u16 {
    let raised = sum + u16::from(byte);
    if raised >= 256 {
        raised - 255
    } else {
        raised
    }
}

/// Gives the checksum of a frame with this identifier and these data bytes.
pub fn checksum(identifier: u8, model: ChecksumModel, data: &[u8]) -> Result<u8, Refusal> {
    let protected = protected_identifier(identifier)?;
    if data.is_empty() || data.len() > DATA_LENGTH_MAX {
        return Err(Refusal::BytesRefused);
    }
    let mut sum = 0;
    if model == ChecksumModel::Enhanced && identifier < FIRST_CLASSIC_ONLY {
        sum = add(sum, protected);
    }
    for &byte in data {
        sum = add(sum, byte);
    }
    // The sum is at most 255 here, so its inverted eight bits are 255 less the sum.
    Ok((255 - sum) as u8)
}

#[cfg(test)]
mod tests {
    use super::ChecksumModel::{Classic, Enhanced};
    use super::*;

    #[test]
    fn identifiers_of_the_paper() {
        let pairs = [
            (0, 0x80),
            (1, 0xC1),
            (2, 0x42),
            (4, 0xC4),
            (5, 0x85),
            (60, 0x3C),
            (61, 0x7D),
        ];
        for (identifier, protected) in pairs {
            assert_eq!(protected_identifier(identifier), Ok(protected));
            assert_eq!(frame_identifier(protected), Ok(identifier));
        }
    }

    #[test]
    fn identifiers_of_annex_a() {
        #[rustfmt::skip]
        let table = [
            0x80, 0xC1, 0x42, 0x03, 0xC4, 0x85, 0x06, 0x47,
            0x08, 0x49, 0xCA, 0x8B, 0x4C, 0x0D, 0x8E, 0xCF,
            0x50, 0x11, 0x92, 0xD3, 0x14, 0x55, 0xD6, 0x97,
            0xD8, 0x99, 0x1A, 0x5B, 0x9C, 0xDD, 0x5E, 0x1F,
            0x20, 0x61, 0xE2, 0xA3, 0x64, 0x25, 0xA6, 0xE7,
            0xA8, 0xE9, 0x6A, 0x2B, 0xEC, 0xAD, 0x2E, 0x6F,
            0xF0, 0xB1, 0x32, 0x73, 0xB4, 0xF5, 0x76, 0x37,
            0x78, 0x39, 0xBA, 0xFB, 0x3C, 0x7D, 0xFE, 0xBF,
        ];
        for (identifier, protected) in (0..).zip(table) {
            assert_eq!(protected_identifier(identifier), Ok(protected));
        }
    }

    #[test]
    fn identifiers_above_63_are_refused() {
        for identifier in 64..=255 {
            assert_eq!(protected_identifier(identifier), Err(Refusal::BytesRefused));
            assert_eq!(
                checksum(identifier, Classic, &[0]),
                Err(Refusal::BytesRefused)
            );
            assert_eq!(
                checksum(identifier, Enhanced, &[0]),
                Err(Refusal::BytesRefused)
            );
        }
    }

    #[test]
    fn a_byte_is_read_exactly_when_it_can_be_built() {
        for byte in 0..=255 {
            let built = (0..=63).find(|&n| protected_identifier(n) == Ok(byte));
            assert_eq!(frame_identifier(byte), built.ok_or(Refusal::BytesRefused));
        }
    }

    #[test]
    fn checksums_of_the_paper() {
        assert_eq!(checksum(0, Classic, &[0x4A, 0x55, 0x93, 0xE5]), Ok(0xE6));
        assert_eq!(checksum(0, Classic, &[0x00]), Ok(0xFF));
        assert_eq!(checksum(0, Classic, &[0xFF]), Ok(0x00));
        assert_eq!(checksum(0, Classic, &[0xFF, 0x01]), Ok(0xFE));
        assert_eq!(checksum(2, Enhanced, &[0x00]), Ok(0xBD));
    }

    #[test]
    fn two_bytes_ff_sum_to_ff() {
        assert_eq!(checksum(0, Classic, &[0xFF, 0xFF]), Ok(0x00));
        assert_eq!(checksum(0, Classic, &[0xFF; 8]), Ok(0x00));
    }

    #[test]
    fn identifiers_60_to_63_use_classic_and_no_others() {
        for identifier in 0..=63 {
            let classic = checksum(identifier, Classic, &[0x12, 0x34]);
            let enhanced = checksum(identifier, Enhanced, &[0x12, 0x34]);
            assert_eq!(classic, Ok(0xB9));
            assert_eq!(enhanced == classic, identifier >= 60);
        }
    }

    #[test]
    fn data_lengths_1_to_8_are_taken_and_no_others() {
        for length in 0..=20 {
            let data = vec![0; length];
            let taken = (1..=8).contains(&length);
            assert_eq!(checksum(7, Classic, &data).is_ok(), taken);
            assert_eq!(checksum(7, Enhanced, &data).is_ok(), taken);
        }
        assert_eq!(checksum(7, Classic, &[]), Err(Refusal::BytesRefused));
        assert_eq!(checksum(7, Enhanced, &[0; 9]), Err(Refusal::BytesRefused));
    }
}
