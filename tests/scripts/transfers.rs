//! The bytes of an open transfer: right ones, wrong ones and too few.

use crate::draft::Script;
use crate::random::Random;
use crate::runs::interlude;
use crate::table::Frame;
use crate::transfer::{checksum, Open};
use crate::wire::ChecksumModel;

/// Gives the open transfer the bytes planned for it, with other lines in between.
pub fn steer(script: &mut Script) {
    let Some(bytes) = planned_bytes(script) else {
        return;
    };
    let busy = script.random.one_of(&[4, 8, 30]);
    for byte in bytes {
        if script.random.once_in(busy) {
            interlude(script);
        }
        script.say(format!("byte {byte:02X}"));
        if script.open() == Open::Nothing && !script.random.once_in(20) {
            break;
        }
    }
}

/// Gives the open transfer one byte, mostly a right one.
pub fn next_byte(script: &mut Script) {
    let any = script.random.byte();
    let planned = planned_bytes(script).and_then(|bytes| bytes.first().copied());
    script.say(format!("byte {:02X}", planned.unwrap_or(any)));
}

/// The bytes planned for the rest of the open transfer, in most cases for a success.
fn planned_bytes(script: &mut Script) -> Option<Vec<u8>> {
    let frame = script.open_frame()?;
    let transfer = &script.bench.master.state.transfer;
    let passed = transfer.count;
    let before = transfer.bytes[..passed.min(frame.length)].to_vec();
    let mut bytes = if frame.published {
        script.bench.master.out()
    } else {
        right_response(&mut script.random, &frame, &before)
    };
    if !script.random.percent(script.success) {
        spoil(&mut script.random, &frame, &mut bytes, before.len());
    }
    Some(bytes.split_off(passed.min(bytes.len())))
}

/// Makes the bytes behind the first ones too few or wrong.
fn spoil(random: &mut Random, frame: &Frame, bytes: &mut Vec<u8>, passed: usize) {
    let last = bytes.len() - 1;
    let any = random.between(passed, last);
    if random.once_in(3) {
        bytes.truncate(random.one_of(&[passed, passed, passed + 1, last, any]));
    } else if frame.published {
        let at = random.one_of(&[passed, last, any, any]);
        bytes[at] = other_byte(random, bytes[at]);
    } else {
        spoil_checksum(random, frame, bytes);
    }
}

/// A byte other than this one, near it or not.
fn other_byte(random: &mut Random, byte: u8) -> u8 {
    match random.below(4) {
        0 => byte ^ 0xFF,
        1 => byte.wrapping_add(random.byte() | 1),
        _ => byte ^ 1 << random.below(8),
    }
}

/// The data before, random ones and their checksum, often 00 or FF.
fn right_response(random: &mut Random, frame: &Frame, before: &[u8]) -> Vec<u8> {
    let mut data = random.bytes(frame.length);
    let last = frame.length - 1;
    match random.below(6) {
        0 => data.fill(0x00),
        1 => data.fill(0xFF),
        _ => {}
    }
    data[..before.len()].copy_from_slice(before);
    if random.once_in(6) && before.len() <= last {
        data[last] = 0;
        data[last] = checksum(frame, &data);
    }
    data.push(checksum(frame, &data));
    data
}

/// Puts a wrong checksum behind the data, preferably one that looks right.
fn spoil_checksum(random: &mut Random, frame: &Frame, bytes: &mut [u8]) {
    let last = frame.length;
    let right = bytes[last];
    let other_model = match frame.model {
        ChecksumModel::Classic => ChecksumModel::Enhanced,
        ChecksumModel::Enhanced => ChecksumModel::Classic,
    };
    let other_frame = Frame {
        model: other_model,
        ..frame.clone()
    };
    let other = checksum(&other_frame, &bytes[..last]);
    let any = other_byte(random, right);
    // The inverted one is FF in the place of 00 and the reverse.
    let (more, less) = (right.wrapping_add(1), right.wrapping_sub(1));
    let wrong = random.one_of(&[other, other, !right, !right, more, less, any]);
    bytes[last] = if wrong == right { any } else { wrong };
}
