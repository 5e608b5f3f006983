//! Diagnostic messages that the master sends.

use crate::diagnostic::{frame_count, Message};
use crate::draft::Script;
use crate::runs::{peek, slot};
use crate::signal_tables::right_signals;
use crate::tables::{right_frames, right_members, sections, table_line};

/// The length of the message being sent, if there is one.
fn length_being_sent(script: &Script) -> Option<usize> {
    match script.bench.master.state.message {
        Message::Sending { length, .. } => Some(length),
        _ => None,
    }
}

/// Lends random bytes of this length, at most 4,097.
pub fn lend(script: &mut Script, length: usize) {
    let bytes = script.random.bytes(length.min(4_097));
    script.say_bytes("lend", &bytes);
}

/// Does something about messages: send, lend the right or another length, or look.
pub fn step(script: &mut Script) {
    match length_being_sent(script) {
        Some(length) if script.bench.lent.len() != length => {
            if script.random.percent(80) {
                lend(script, length);
            }
        }
        Some(length) => match script.random.below(6) {
            0 => lend(script, length),
            1 => lend_another(script, length),
            2 => send(script),
            _ => {
                script.say("message");
            }
        },
        None => send(script),
    }
}

/// Lends a message of a length near this one, so that ticks are refused.
fn lend_another(script: &mut Script, length: usize) {
    let lengths = [length + 1, length - 1, 0, 6, length + 256, 4_096];
    let other = script.random.one_of(&lengths);
    lend(script, other);
}

/// A node address; the ends of the range come often.
fn address(script: &mut Script) -> u8 {
    let any = script.random.byte();
    script.random.one_of(&[0, 1, 127, 128, 255, any, any, any])
}

/// Sends a message of any length, mostly a right and short one, and mostly lends its bytes.
fn send(script: &mut Script) {
    let any = script.random.between(1, 40) as u64;
    let length = match script.random.below(16) {
        0 => script
            .random
            .one_of(&[0, 4_096, 4_097, 65_536 + any, u64::from(u32::MAX)]),
        1 => script.random.one_of(&[4_095, 300, 256, 255]),
        2..=6 => script.random.one_of(&[1, 5, 6, 7, 8, 11, 12, 13]),
        _ => any,
    };
    let nad = address(script);
    if script.say(format!("send {nad} {length}")) == "sending" && !script.random.once_in(8) {
        lend(script, length as usize);
    }
}

/// A table of mostly request slots.
fn request_table(script: &mut Script) {
    let random = &mut script.random;
    let frames = right_frames(random, 2, false);
    let signals = right_signals(random, &frames, 3);
    let members = right_members(random, &frames, 2);
    let mut entries = vec![[0, 2, 0, 1]];
    for _ in 0..random.between(0, 4) {
        let kind = random.one_of(&[2, 2, 2, 3, 0]);
        let schedule = entries.len() as u16 / 3;
        entries.push([schedule, kind, 0, random.one_of(&[1, 1, 2])]);
    }
    let words = sections(&frames, &signals, &members, &entries).concat();
    let line = table_line(random, &words);
    script.say(line);
    script.say("fresh");
    script.say("select 0");
}

/// Several messages, each sent to its end or until it fails.
pub fn sending(script: &mut Script) {
    let length = script.random.between(1, 30);
    lend(script, length);
    request_table(script);
    script.say(format!("send 1 {length}"));
    script.say("tick");
    script.say("out");
    for _ in 0..script.random.between(2, 6) {
        script.success = script.random.one_of(&[85, 97, 100, 100]);
        let any = script.random.between(1, 130);
        let lengths = [1, 6, 7, 11, 12, 17, 95, 96, 101, any, any, any, any];
        let length = script.random.one_of(&lengths);
        one_message(script, length);
    }
}

/// One message of this length, with changed bytes and other lengths lent in between.
fn one_message(script: &mut Script, length: usize) {
    if script.random.once_in(2) {
        lend(script, length);
    }
    let nad = address(script);
    script.say(format!("send {nad} {length}"));
    for _ in 0..4 * frame_count(length) + 4 {
        let Some(length) = length_being_sent(script) else {
            break;
        };
        match script.random.below(30) {
            0 => lend(script, length),
            1 => lend_another(script, length),
            2 => step(script),
            3 => peek(script),
            _ => {}
        }
        if script.bench.lent.len() != length && script.random.percent(70) {
            lend(script, length);
        }
        slot(script);
    }
    script.say("message");
    if script.random.once_in(2) {
        script.say("status");
    }
}

/// A message of more than 16 frames sent whole, with a look at the state after each of them.
pub fn whole_message(script: &mut Script) {
    script.say("table 0 0 0 2 0 0 2 0 1 0 3 0 1");
    script.say("select 0");
    let length = script.random.between(90, 260);
    lend(script, length);
    let nad = address(script);
    script.say(format!("send {nad} {length}"));
    while length_being_sent(script).is_some() {
        script.say("tick");
        for byte in script.bench.master.out() {
            script.say(format!("byte {byte:02X}"));
        }
        script.say("state");
    }
    script.say("message");
}

/// A message of the largest length or near it, every frame a success.
pub fn longest_message(script: &mut Script) {
    script.say("table 0 0 0 1 0 0 2 0 1");
    script.say("select 0");
    let length = script.random.one_of(&[4_095, 4_095, 4_094, 4_090, 3_000]);
    lend(script, length);
    let nad = address(script);
    script.say(format!("send {nad} {length}"));
    let last_fails = script.random.once_in(4);
    for number in 0..=frame_count(length) {
        script.say("tick");
        let mut bytes = script.bench.master.out();
        if last_fails && number + 1 == frame_count(length) {
            bytes[8] ^= 1;
        }
        for byte in bytes {
            script.say(format!("byte {byte:02X}"));
        }
        if script.random.once_in(100) {
            lend(script, length);
        }
    }
    script.say("message");
    script.say("status");
}
