//! The bits of signals in a frame's bytes, by "Bytes on the bus" of document 01.
//!
//! Data bits are numbered from the least significant bit of byte 0.

/// Tells whether this data bit is 1.
fn data_bit(data: &[u8], number: usize) -> bool {
    (data[number / 8] >> (number % 8)) & 1 == 1
}

/// Makes this data bit 1 or 0.
fn set_data_bit(data: &mut [u8], number: usize, value: bool) {
    let mask = 1 << (number % 8);
    if value {
        data[number / 8] |= mask;
    } else {
        data[number / 8] &= !mask;
    }
}

/// Reads a scalar of `width` bits at `offset`, lowest bit first.
pub fn scalar(data: &[u8], offset: usize, width: usize) -> u16 {
    let mut value = 0;
    for number in 0..width {
        if data_bit(data, offset + number) {
            value |= 1 << number;
        }
    }
    value
}

/// Puts the lowest `width` bits of a value at `offset` and leaves all other bits.
pub fn put_scalar(data: &mut [u8], offset: usize, width: usize, value: u16) {
    for number in 0..width {
        set_data_bit(data, offset + number, (value >> number) & 1 == 1);
    }
}

/// Reads a byte array of `width` bits at `offset`, both whole bytes, lowest numbered byte first.
pub fn array(data: &[u8], offset: usize, width: usize) -> Vec<u8> {
    data[offset / 8..(offset + width) / 8].to_vec()
}

/// Puts the bytes of an array at `offset` and leaves all other bytes.
pub fn put_array(data: &mut [u8], offset: usize, bytes: &[u8]) {
    data[offset / 8..offset / 8 + bytes.len()].copy_from_slice(bytes);
}

#[cfg(test)]
mod tests {
    use super::*;

    #[test]
    fn twelve_bits_at_4() {
        let mut data = [0xFF; 2];
        put_scalar(&mut data, 4, 12, 0xABC);
        assert_eq!(data, [0xCF, 0xAB]);
        assert_eq!(scalar(&data, 4, 12), 0xABC);
    }

    #[test]
    fn sixteen_bits_at_4() {
        let mut data = [0xFF; 3];
        put_scalar(&mut data, 4, 16, 0x1234);
        assert_eq!(data, [0x4F, 0x23, 0xF1]);
        assert_eq!(scalar(&data, 4, 16), 0x1234);
    }

    #[test]
    fn every_place_of_a_scalar() {
        for width in 1..=16 {
            let largest = u16::MAX >> (16 - width);
            for offset in 0..=64 - width {
                for (value, before) in [(largest, 0x00), (0, 0xFF), (0x5A69 & largest, 0xFF)] {
                    let mut data = [before; 8];
                    put_scalar(&mut data, offset, width, value);
                    assert_eq!(scalar(&data, offset, width), value);
                    let word = u64::from_le_bytes(data);
                    let mask = u64::from(largest) << offset;
                    assert_eq!(word & mask, u64::from(value) << offset);
                    assert_eq!(word | mask, u64::from_le_bytes([before; 8]) | mask);
                }
            }
        }
    }

    #[test]
    fn every_place_of_an_array() {
        let bytes = [1, 2, 3, 4, 5, 6, 7, 8];
        for length in 1..=8 {
            for first in 0..=8 - length {
                let mut data = [0xEE; 8];
                put_array(&mut data, 8 * first, &bytes[..length]);
                assert_eq!(array(&data, 8 * first, 8 * length), &bytes[..length]);
                assert_eq!(
                    data.iter().filter(|&&byte| byte == 0xEE).count(),
                    8 - length
                );
                assert_eq!(data[first], 1);
            }
        }
    }
}
