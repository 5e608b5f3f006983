//! Frames for the reassembler: whole messages, disturbed ones and single odd frames.

use crate::diagnostic::{frame_count, request_frame};
use crate::draft::Script;
use crate::random::Random;

/// Rooms at and around the lengths that matter.
const ROOMS: [usize; 16] = [
    0, 1, 2, 5, 6, 7, 8, 11, 12, 13, 20, 50, 120, 300, 4_095, 4_096,
];

/// Several messages in one room or several.
pub fn reassembling(script: &mut Script) {
    for _ in 0..script.random.between(1, 3) {
        let any = script.random.between(0, 150);
        let room = script.random.one_of(&ROOMS);
        let room = if script.random.once_in(2) { any } else { room };
        script.say(format!("room {room}"));
        for _ in 0..script.random.between(3, 10) {
            message(script);
            if script.bench.room.len() < 200 || script.random.once_in(4) {
                script.say("taken");
            }
        }
    }
    script.say("taken");
}

/// A length for a message: inside the room, at its end or beyond it.
fn message_length(script: &mut Script) -> usize {
    let room = script.bench.room.len();
    let inside = script.random.between(1, room.clamp(1, 130));
    let lengths = [room, room + 1, 6, 7, inside, inside, inside, inside];
    script.random.one_of(&lengths).clamp(1, 400)
}

/// A node address, mostly the one of the open message.
fn address(script: &mut Script) -> u8 {
    let open = script.bench.reassembler.open.as_ref().map(|open| open.nad);
    match open {
        Some(nad) if script.random.percent(70) => nad,
        _ => script.random.one_of(&[1, 1, 2, 127, 128, 255, 0]),
    }
}

/// One message cut into frames, mostly disturbed, and taken frame by frame.
fn message(script: &mut Script) {
    let length = message_length(script);
    let bytes = script.random.bytes(length);
    let nad = address(script);
    let cut = |number| request_frame(nad, &bytes, number);
    let mut frames: Vec<Vec<u8>> = (0..frame_count(length)).map(cut).collect();
    for _ in 0..script.random.one_of(&[0, 0, 1, 1, 2, 4]) {
        disturb(&mut script.random, &mut frames);
    }
    for frame in frames {
        script.say_bytes("take", &frame);
        match script.random.below(120) {
            0..=1 => {
                let room = script.random.one_of(&ROOMS);
                script.say(format!("room {room}"));
            }
            2..=3 => {
                script.say(
                    script
                        .random
                        .clone()
                        .one_of(&["table 0 0 0 0 0", "table 1", "fresh"]),
                );
            }
            _ => {}
        }
        if script.random.once_in(12) {
            odd_frame(script);
        }
        if script.bench.room.len() < 60 && script.random.once_in(10) {
            script.say("taken");
        }
    }
}

/// Changes one frame of a message, leaves it out, doubles it or swaps it with the next.
fn disturb(random: &mut Random, frames: &mut Vec<Vec<u8>>) {
    if frames.is_empty() {
        return;
    }
    let at = random.below(frames.len());
    match random.below(10) {
        0 => {
            frames.remove(at);
        }
        1 => frames.insert(at, frames[at].clone()),
        2 if at + 1 < frames.len() => frames.swap(at, at + 1),
        3 => change(&mut frames[at], 1, |pci| pci ^ 1),
        4 => change(&mut frames[at], 1, |pci| pci.wrapping_add(1)),
        5 => change(&mut frames[at], 1, |pci| pci & 0xF0 | random.byte() & 0x0F),
        6 => change(&mut frames[at], 0, |nad| nad.wrapping_add(1)),
        7 => change(&mut frames[at], 0, |_| 0),
        8 => change(&mut frames[at], 1, |_| random.byte()),
        _ => frames[at].resize(random.one_of(&[0, 1, 2, 3, 7, 9, 16]), 0xEE),
    }
}

/// Changes one byte of a frame, if it is there.
fn change(frame: &mut [u8], at: usize, new: impl FnOnce(u8) -> u8) {
    if let Some(byte) = frame.get_mut(at) {
        *byte = new(*byte);
    }
}

/// A frame of any kind with any PCI, often at the ends of the ranges.
fn odd_frame(script: &mut Script) {
    let nad = address(script);
    let room = script.bench.room.len();
    let any = script.random.byte();
    let borders = [
        0, 1, 6, 7, 15, 16, 17, 31, 32, 33, 47, 48, 49, 128, 255, any, any,
    ];
    let pci = script.random.one_of(&borders);
    let mut frame = script.random.bytes(8);
    frame[0] = nad;
    frame[1] = pci;
    if script.random.once_in(2) {
        let length = script
            .random
            .one_of(&[0, 5, 6, 7, 8, room, room + 1, room + 255]);
        frame[2] = length as u8;
        if (16..=31).contains(&pci) {
            frame[1] = 16 + (length / 256 % 16) as u8;
        }
    }
    if let Some(open) = &script.bench.reassembler.open {
        if (32..=47).contains(&pci) && script.random.once_in(2) {
            frame[1] = 32 + open.counter;
        }
    }
    script.say_bytes("take", &frame);
}

/// Odd frames alone, a look at the room after each.
pub fn odd_frames(script: &mut Script) {
    let room = script.random.one_of(&[0, 3, 6, 7, 8, 13, 40]);
    script.say(format!("room {room}"));
    for _ in 0..script.random.between(20, 80) {
        odd_frame(script);
        if script.random.once_in(3) {
            script.say("taken");
        }
    }
}

/// Every PCI for one node address, with and without a message open.
pub fn every_pci(script: &mut Script) {
    let room = script.random.one_of(&[5, 6, 7, 100, 4_095]);
    script.say(format!("room {room}"));
    let open = script.random.once_in(2);
    let begin = script.random.byte();
    for pci in (0..=255).map(|n: u8| n.wrapping_add(begin)) {
        if open && script.bench.reassembler.open.is_none() && script.random.once_in(3) {
            script.say("take 05 10 64 01 02 03 04 05");
        }
        let mut frame = script.random.bytes(8);
        frame[0] = 5;
        frame[1] = pci;
        script.say_bytes("take", &frame);
    }
    script.say("taken");
}

/// A message of the largest length or near it, in a room that takes it or just not.
pub fn longest_message(script: &mut Script) {
    let length = script.random.one_of(&[4_095, 4_095, 4_090, 2_048]);
    let room = script.random.one_of(&[length, length, 4_096, length - 1]);
    let bytes = script.random.bytes(length);
    script.say(format!("room {room}"));
    let first = script.random.between(0, 3);
    for number in 0..frame_count(length) {
        let frame = request_frame(9, &bytes, number);
        script.say_bytes("take", &frame);
        if number == first {
            script.say_bytes("take", &request_frame(8, &bytes[..5], 0));
        }
    }
    script.say("taken");
}
