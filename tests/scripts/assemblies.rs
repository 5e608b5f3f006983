//! States of the reassembler that are set: some fit, the others miss one clause of refusal 3.

use crate::draft::Script;
use crate::random::Random;
use crate::reassembler::OpenMessage;

/// Sets states of the reassembler at the borders of what fits, with frames of all kinds on each.
pub fn set_assemblies(script: &mut Script) {
    let any = script.random.between(0, 60);
    let room = script
        .random
        .one_of(&[0, 6, 7, 11, 12, 40, any, any, any, 4_095]);
    script.say(format!("room {room}"));
    for _ in 0..script.random.between(8, 20) {
        let open = fitting(&mut script.random, room);
        for _ in 0..script.random.between(1, 4) {
            set(script, open);
            frame(script, open);
        }
        if script.random.once_in(6) {
            script.say("set assembly none");
            frame(script, open);
        }
        let other = misfit(&mut script.random, open);
        set(script, other);
        for _ in 0..script.random.between(1, 4) {
            frame(script, other);
        }
        if room < 50 || script.random.once_in(10) {
            script.say("taken");
        }
    }
}

/// An open message that fits, often as long as the room or one byte longer.
fn fitting(random: &mut Random, room: usize) -> OpenMessage {
    let any = random.between(7, 200);
    let lengths = [7, 11, 12, 4_095, room, room, room, room + 1, any];
    let length = random.one_of(&lengths).clamp(7, 4_095);
    let last = (length - 6) / 6;
    let frames = random.between(0, last);
    at(random, length, [0, last, last, frames])
}

/// An open message of this length behind its first frame and one of these numbers of next ones.
fn at(random: &mut Random, length: usize, numbers: [usize; 4]) -> OpenMessage {
    let frames = random.one_of(&numbers);
    OpenMessage {
        nad: random.one_of(&[1, 5, 127, 255]),
        length,
        count: 5 + 6 * frames,
        counter: ((frames + 1) % 16) as u8,
    }
}

/// A neighbour of an open message that misses one clause.
fn misfit(random: &mut Random, open: OpenMessage) -> OpenMessage {
    match random.below(8) {
        0 => OpenMessage { nad: 0, ..open },
        1 => at(random, 6, [0; 4]),
        2 => {
            let length = random.one_of(&[4_096, 4_096, 4_097, 65_535]);
            let frames = random.between(0, 681);
            at(random, length, [0, 681, frames, frames])
        }
        3 => {
            let frames = random.between(1, 20);
            at(random, 5 + 6 * frames, [frames; 4])
        }
        4 => {
            let more = random.one_of(&[1, 1, 10]);
            let frames = (open.length - 6) / 6 + more;
            at(random, open.length, [frames; 4])
        }
        5 => OpenMessage {
            count: open.count + random.between(1, 5),
            length: open.length.max(open.count + 6).min(4_095),
            ..open
        },
        6 => OpenMessage {
            count: random.between(0, 4),
            counter: random.one_of(&[0, 0, 1]),
            ..open
        },
        _ => {
            let wrong = [1, 1, 15, 16, 254, 255];
            let counter = open.counter.wrapping_add(random.one_of(&wrong));
            OpenMessage { counter, ..open }
        }
    }
}

/// Sets the reassembler's state and mostly shows it.
fn set(script: &mut Script, open: OpenMessage) {
    let OpenMessage {
        nad,
        length,
        count,
        counter,
    } = open;
    script.say(format!("set assembly {nad} {length} {count} {counter}"));
    if !script.random.once_in(4) {
        script.say("assembly");
    }
}

/// A frame for an open message: mostly the next one, and a look at what it left.
fn frame(script: &mut Script, open: OpenMessage) {
    let random = &mut script.random;
    let mut frame = random.bytes(8);
    frame[0] = match random.below(8) {
        0 => 0,
        1 => open.nad.wrapping_add(1),
        _ => open.nad,
    };
    let due = 32 + (open.counter & 15);
    let other = 32 + (open.counter.wrapping_add(1) & 15);
    let border = random.one_of(&[0, 1, 6, 7, 15, 16, 31, 32, 47, 48, 48, 255]);
    let any = random.byte();
    frame[1] = random.one_of(&[due, due, due, due, other, border, border, any]);
    if random.once_in(10) {
        frame.resize(random.one_of(&[0, 1, 7, 9, 16]), 0xEE);
    }
    script.say_bytes("take", &frame);
    script.say("assembly");
}
