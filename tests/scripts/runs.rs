//! Long runs of select, tick, byte and write, with the transfers steered.

use crate::draft::Script;
use crate::judging;
use crate::lines;
use crate::messages;
use crate::rows;
use crate::setting;
use crate::tables::{list_table, numerous_table, right_table, table_line, Sections, Size};
use crate::transfer::Open;
use crate::transfers;
use crate::values::{self, read_signal, signal_number, write_signal, wrong_buffer};

/// A table of this size and a run of this many lines on it.
pub fn run_on(script: &mut Script, size: Size, length: usize) {
    let table = right_table(&mut script.random, size);
    run_on_table(script, &table, length);
}

/// A table with long lists and a run of this many lines on it.
pub fn run_on_lists(script: &mut Script, length: usize) {
    let table = list_table(&mut script.random);
    run_on_table(script, &table, length);
}

/// The numbers of a table that has as many of everything as there may be.
pub fn large_numbers(script: &mut Script) {
    let table = numerous_table(&mut script.random);
    let line = table_line(&mut script.random, &table.concat());
    script.say(line);
    script.say("fresh");
    for _ in 0..script.random.between(20, 50) {
        let number = script.random.below(256);
        write_signal(script, number, 95);
        read_signal(script, number, 95);
        ahead(script);
        let schedule = script.random.below(256);
        script.say(format!("select {schedule}"));
        script.say("tick");
        transfers::steer(script);
    }
    script.say("pending");
    script.say("frames");
}

/// A table and a run of this many lines on it.
fn run_on_table(script: &mut Script, table: &Sections, length: usize) {
    let words = table.concat();
    let line = table_line(&mut script.random, &words);
    script.say(line);
    if !script.random.once_in(6) {
        script.say("fresh");
    }
    script.success = script.random.one_of(&[40, 60, 60, 85]);
    run(script, length);
}

/// A run of about this many lines on the table that is there.
pub fn run(script: &mut Script, length: usize) {
    let end = script.lines.len() + length;
    select(script);
    while script.lines.len() < end {
        match script.random.below(100) {
            0..=5 => select(script),
            6..=25 => write_some(script),
            26..=31 => messages::step(script),
            32..=33 => unusual(script),
            34..=40 => peek(script),
            _ => slot(script),
        }
    }
}

/// Asks for a schedule, mostly one that is there, sometimes twice.
pub fn select(script: &mut Script) {
    let count = script.schedule_count();
    let number = if count == 0 || script.random.once_in(12) {
        script
            .random
            .one_of(&[count, count + 1, count + 256, 255, 256, 65_535])
    } else {
        script.random.below(count)
    };
    script.say(format!("select {number}"));
    if script.random.once_in(8) {
        select(script);
    }
}

/// Writes one to four signals, mostly rightly, once in four times as a row.
pub fn write_some(script: &mut Script) {
    if script.random.once_in(4) {
        return rows::write_some(script);
    }
    for _ in 0..script.random.between(1, 4) {
        let number = values::published_number(script);
        write_signal(script, number, 93);
    }
}

/// Ticks until a slot starts, and gives its transfer the bytes that are planned for it.
pub fn slot(script: &mut Script) {
    for _ in 0..12 {
        let answer = script.say("tick");
        if script.random.once_in(6) {
            peek(script);
        }
        match answer.as_str() {
            "waiting" => {}
            "refused 3" if script.random.once_in(2) => messages::step(script),
            "refused 2" => right_buffer(script),
            _ => break,
        }
        if script.random.once_in(6) {
            select(script);
        }
    }
    if script.open() != Open::Nothing {
        transfers::steer(script);
    } else if script.random.once_in(10) {
        let byte = script.random.byte();
        script.say(format!("byte {byte:02X}"));
    }
    if script.random.once_in(2) {
        peek(script);
    }
}

/// Something between two bytes of a transfer: mostly a write to the frame that is going out.
pub fn interlude(script: &mut Script) {
    match script.random.below(20) {
        0..=4 => write_open_frame(script),
        5..=8 => write_open_row(script),
        9..=10 => write_some(script),
        11..=16 => peek(script),
        17 => select(script),
        18 if script.bench.master.state.wait > 1 => {
            script.say("tick");
        }
        18 => messages::step(script),
        _ => unusual(script),
    }
}

/// Writes a signal of the frame whose transfer is open, or changes the bytes of the message lent.
fn write_open_frame(script: &mut Script) {
    let found = match script.open() {
        Open::Frame(frame) => values::signal_of_frame(script, frame),
        Open::Request if script.bench.lent.len() < 200 => {
            let length = script.bench.lent.len();
            return messages::lend(script, length);
        }
        _ => None,
    };
    let number = found.unwrap_or_else(|| signal_number(script));
    write_signal(script, number, 97);
}

/// Writes a row that has signals of the frame whose transfer is open, if it is one of the table.
fn write_open_row(script: &mut Script) {
    match script.open() {
        Open::Frame(frame) => rows::write_frame(script, frame),
        _ => write_open_frame(script),
    }
}

/// Looks at a part of the state.
pub fn peek(script: &mut Script) {
    match script.random.below(24) {
        0..=3 => script.say("status"),
        4..=6 => script.say("pending"),
        7..=9 => ahead(script),
        10 => script.say("frames"),
        11 => script.say("out"),
        12 => script.say("message"),
        13..=16 => script.say("state"),
        17 => judging::judge(script),
        18..=19 => script.say("received"),
        _ => {
            let number = signal_number(script);
            read_signal(script, number, 95)
        }
    };
}

/// Asks for the pending members ahead of a frame, mostly of one that is in a list.
pub fn ahead(script: &mut Script) -> String {
    let lists = script.table().map_or(&[][..], |table| &table.lists);
    let members = lists.concat();
    let frames = script.frame_count();
    let number = if members.is_empty() || script.random.once_in(12) {
        let number = script.random.below(frames + 2);
        script
            .random
            .one_of(&[number, frames, 60, 63, 64, 255, 256, 65_535])
    } else {
        script.random.one_of(&members)
    };
    script.say(format!("ahead {number}"))
}

/// Something that a run does seldom.
fn unusual(script: &mut Script) {
    match script.random.below(15) {
        0 => wrong_buffer(script, any_call),
        1..=4 => begin_anew(script),
        5 => {
            let byte = script.random.byte();
            script.say(format!("byte {byte:02X}"));
        }
        6 => {
            script.say("status");
            script.say("status");
        }
        7..=9 => setting::disturb(script),
        10 => rows::malformed_row(script),
        _ => lines::damaged_line(script),
    }
}

/// Fresh, a buffer, the table again or another message lent, also while a transfer is open.
fn begin_anew(script: &mut Script) {
    match script.random.below(4) {
        0 => {
            script.say("fresh");
        }
        1 => right_buffer(script),
        2 => {
            let line = script.table_line.clone();
            script.say(line);
        }
        _ => {
            let length = script.random.between(0, 20);
            messages::lend(script, length);
        }
    }
    for line in ["state", "received", "frames", "out"] {
        script.say(line);
    }
    any_call(script);
    if script.random.once_in(2) {
        select(script);
    }
}

/// Gives the master a buffer of the right length.
fn right_buffer(script: &mut Script) {
    let right = 8 * script.frame_count();
    script.say(format!("buffer {right}"));
}

/// Any call of the master.
pub fn any_call(script: &mut Script) {
    match script.random.below(9) {
        0 => {
            script.say("fresh");
        }
        1 => write_some(script),
        2 => {
            script.say("tick");
        }
        3 => {
            let byte = script.random.byte();
            script.say(format!("byte {byte:02X}"));
        }
        4 => select(script),
        5 => messages::step(script),
        _ => peek(script),
    }
}

/// A run that is mostly calls with wrong buffers.
pub fn buffers(script: &mut Script) {
    let size = script
        .random
        .one_of(&[Size::Tiny, Size::Small, Size::Middle]);
    run_on(script, size, 20);
    for _ in 0..script.random.between(2, 6) {
        wrong_buffer(script, any_call);
        run(script, 25);
    }
}

/// Delays that take long, each looked at for some ticks.
pub fn long_delays(script: &mut Script) {
    for _ in 0..script.random.between(5, 20) {
        let any = usize::from(script.random.word().max(1));
        let delays = [
            1, 2, 255, 256, 257, 32_767, 32_768, 65_534, 65_535, any, any,
        ];
        let (first, second) = (script.random.one_of(&delays), script.random.one_of(&delays));
        script.say(format!("table 0 0 0 2 0 0 3 0 {first} 0 2 0 {second}"));
        script.say("select 0");
        for _ in 0..script.random.between(2, 6) {
            script.say("tick");
        }
    }
}

/// Delays that take long, waited for to the end.
pub fn long_waits(script: &mut Script) {
    let mut delays = [255, 256, 257, 300, 511, 512, 1_000];
    script.random.shuffle(&mut delays);
    if script.random.once_in(6) {
        delays[0] = script.random.one_of(&[4_096, 32_767, 32_768, 65_535]);
    }
    let (first, second) = (delays[0], delays[1]);
    script.say(format!(
        "table 0 0 0 3 0 0 3 0 {first} 0 2 0 {second} 1 3 0 1"
    ));
    script.say("select 0");
    for number in 0..=first + second {
        script.say("tick");
        if script.random.once_in(400) || number + 1 == first {
            script.say("status");
        }
    }
    script.say("select 1");
    for _ in 0..=first {
        script.say("tick");
    }
}
