//! Lines of a log: right ones, wrong ones and ones that are no frame.

use crate::random::Random;
use crate::wire::{self, ChecksumModel};

/// The bytes of a right frame that the log program knows.
fn right_frame(random: &mut Random) -> Vec<u8> {
    let (identifier, length) = random.one_of(&[(2, 1), (2, 1), (60, 8), (61, 8)]);
    let mut data = random.bytes(length);
    match random.below(6) {
        0 => data.fill(0x00),
        1 => data.fill(0xFF),
        2 => {
            data[length - 1] = 0;
            data[length - 1] = checksum(identifier, ChecksumModel::Enhanced, &data);
        }
        _ => {}
    }
    frame_of(identifier, &data)
}

/// The bytes of a frame with this identifier and these data.
fn frame_of(identifier: u8, data: &[u8]) -> Vec<u8> {
    let mut frame = vec![protected(identifier)];
    frame.extend(data);
    frame.push(checksum(identifier, ChecksumModel::Enhanced, data));
    frame
}

/// The checksum of 1 to 8 data bytes; that of a diagnostic frame is classic anyway.
fn checksum(identifier: u8, model: ChecksumModel, data: &[u8]) -> u8 {
    wire::checksum(identifier, model, data).expect("1 to 8 data bytes")
}

/// The protected identifier of an identifier below 64.
fn protected(identifier: u8) -> u8 {
    wire::protected_identifier(identifier).expect("an identifier of at most 63")
}

/// A frame with a wrong checksum, preferably one that looks right.
fn wrong_checksum(random: &mut Random) -> Vec<u8> {
    let mut frame = right_frame(random);
    let last = frame.len() - 1;
    let right = frame[last];
    let classic = checksum(2, ChecksumModel::Classic, &frame[1..last]);
    let with_identifier = checksum(2, ChecksumModel::Classic, &frame[..last.min(8)]);
    frame[last] = match random.below(6) {
        0 => classic,
        1 => with_identifier,
        2 => !right,
        3 => right.wrapping_add(1),
        _ => right ^ 1 << random.below(8),
    };
    frame
}

/// A frame with one or both parity bits or an identifier bit changed.
fn wrong_parity(random: &mut Random) -> Vec<u8> {
    let mut frame = right_frame(random);
    let any = 1 << random.below(8);
    frame[0] ^= random.one_of(&[0x40, 0x80, 0xC0, any]);
    frame
}

/// A frame of any identifier, right apart from being unknown.
fn any_identifier(random: &mut Random) -> Vec<u8> {
    let any = random.below(64) as u8;
    let identifier = random.one_of(&[0, 1, 3, 59, 60, 61, 62, 62, 63, 63, any, any]);
    let length = random.one_of(&[1, 1, 2, 4, 8, 8]);
    let data = random.bytes(length);
    frame_of(identifier, &data)
}

/// An identifier, mostly a known one, with any number of pairs from 0 to 12.
fn any_count(random: &mut Random) -> Vec<u8> {
    let count = random.below(13);
    let mut bytes = random.bytes(count);
    let any = random.below(64) as u8;
    if let Some(first) = bytes.first_mut() {
        *first = protected(random.one_of(&[2, 2, 60, 61, 62, any]));
    }
    bytes
}

/// Frame bytes as upper-case hexadecimal pairs with one space between.
pub fn pairs(bytes: &[u8]) -> Vec<u8> {
    let pairs: Vec<String> = bytes.iter().map(|byte| format!("{byte:02X}")).collect();
    pairs.join(" ").into_bytes()
}

/// A right line.
pub fn right_line(random: &mut Random) -> Vec<u8> {
    pairs(&right_frame(random))
}

/// A line of any kind but a very long one.
pub fn line(random: &mut Random) -> Vec<u8> {
    let bytes = match random.below(20) {
        0..=3 => right_frame(random),
        4..=6 => wrong_checksum(random),
        7..=8 => wrong_parity(random),
        9..=10 => any_identifier(random),
        11..=12 => any_count(random),
        13..=17 => return damaged_line(random),
        18 => return line_of_about_ten_pairs(random),
        _ => return odd_line(random),
    };
    pairs(&bytes)
}

/// A line of pairs, mostly a right one, damaged in one place.
fn damaged_line(random: &mut Random) -> Vec<u8> {
    let mut line = match random.below(4) {
        0 => pairs(&wrong_parity(random)),
        1 => pairs(&any_identifier(random)),
        _ => right_line(random),
    };
    let at = random.below(line.len());
    let space = line.iter().position(|&byte| byte == b' ').unwrap_or(at);
    let odd = random.one_of(b" \r\t\0\xFF0Ff:@G/`gx-\x80\x0b,");
    match random.below(12) {
        0 => line.make_ascii_lowercase(),
        1 => line[at] = line[at].to_ascii_lowercase(),
        2 => {
            line.remove(space);
        }
        3 => line.insert(space, b' '),
        4 => line.push(b' '),
        5 => line.insert(0, b' '),
        6 => line.push(b'\r'),
        7 => {
            line.remove(at);
        }
        8 => line.insert(at, odd),
        9 => line.truncate(at),
        _ => line[at] = odd,
    }
    line
}

/// A line of 26 to 34 bytes: about ten pairs, cut or lengthened.
fn line_of_about_ten_pairs(random: &mut Random) -> Vec<u8> {
    let mut bytes = random.bytes(12);
    bytes[0] = protected(random.one_of(&[2, 60, 61, 62]));
    let mut line = pairs(&bytes);
    line.truncate(random.between(26, 34));
    line
}

/// An empty line, a short one of any bytes, or one of spaces.
fn odd_line(random: &mut Random) -> Vec<u8> {
    let count = random.below(40);
    match random.below(5) {
        0 => Vec::new(),
        1 => vec![random.one_of(b" \r\t\0\xFF-0")],
        2 => vec![b' '; count],
        3 => vec![random.one_of(b"0F"); count],
        _ => without_newlines(random.bytes(count)),
    }
}

/// These bytes but the newlines.
fn without_newlines(bytes: Vec<u8>) -> Vec<u8> {
    bytes.into_iter().filter(|&byte| byte != b'\n').collect()
}

/// A line of exactly this length: pairs, spaces, one byte again and again, or a right line first.
pub fn long_line(random: &mut Random, length: usize) -> Vec<u8> {
    let mut line = match random.below(5) {
        0 => right_line(random),
        1 => b"42 00 BD\0".to_vec(),
        _ => Vec::new(),
    };
    let filling: &[u8] = random.one_of(&[&b"42 "[..], b" 00", b" ", b"0", b"\0", b"\xFF", b"\r"]);
    while line.len() < length {
        line.extend_from_slice(filling);
    }
    line.truncate(length);
    line
}
