//! Signals in several frames: received in every order with failures between, and written.

use crate::draft::Script;
use crate::random::Random;
use crate::runs::peek;
use crate::signal_tables::{right_signals, signal_in_each};
use crate::tables::{right_frames, right_members, sections, table_line, Sections};
use crate::transfers;
use crate::values::{read_signal, signal_of_frame, write_signal};

/// Receptions and writes in any order on a table with a schedule for each frame.
pub fn receptions(script: &mut Script) {
    let table = frame_table(&mut script.random);
    let line = table_line(&mut script.random, &table.concat());
    script.say(line);
    if !script.random.once_in(4) {
        script.say("fresh");
    }
    script.success = script.random.one_of(&[40, 60, 75, 90]);
    for _ in 0..script.random.between(10, 40) {
        match script.random.below(20) {
            0 => {
                let line = script.random.one_of(&["fresh", "pending", "status"]);
                script.say(line);
            }
            1 => forget(script),
            2 => peek(script),
            3 => set_reception(script),
            _ => frame_slot(script),
        }
    }
    script.say("received");
    script.say("frames");
}

/// A right table of few frames, mostly received ones, with a schedule for each frame and a last
/// one for all members.
fn frame_table(random: &mut Random) -> Sections {
    let count = random.between(2, 8);
    let mut frames = right_frames(random, count, false);
    let published = random.one_of(&[0, 20, 40, 60]);
    for frame in &mut frames {
        frame[2] = frame[2] & 2 | u16::from(random.percent(published));
    }
    let signals = if random.once_in(2) {
        signal_in_each(random, &frames)
    } else {
        right_signals(random, &frames, 3 * count)
    };
    let members = right_members(random, &frames, count);
    let delay = random.one_of(&[1, 1, 2]);
    let schedules = 0..count as u16;
    let mut entries: Vec<[u16; 4]> = schedules.map(|frame| [frame, 0, frame, delay]).collect();
    if let Some(last) = members.last() {
        let lists = 0..=last[0];
        entries.extend(lists.map(|list| [count as u16, 1, list, 1]));
    }
    sections(&frames, &signals, &members, &entries)
}

/// Opens a frame, gives its transfer bytes for a success or a failure, and reads what may change.
fn frame_slot(script: &mut Script) {
    let count = script.schedule_count();
    let frame = script.random.below(count.max(1));
    if script.random.once_in(3) {
        write(script, frame);
    }
    script.say(format!("select {frame}"));
    while script.say("tick") == "waiting" {}
    if script.random.once_in(6) {
        read(script, frame);
    }
    if script.random.once_in(8) {
        write(script, frame);
    }
    transfers::steer(script);
    for _ in 0..script.random.between(1, 3) {
        read(script, frame);
    }
    if script.random.once_in(3) {
        script.say("received");
    }
}

/// Reads a signal of a frame.
fn read(script: &mut Script, frame: usize) {
    if let Some(number) = signal_of_frame(script, frame) {
        read_signal(script, number, 97);
    }
}

/// Writes a signal of a frame and looks at what is pending.
fn write(script: &mut Script, frame: usize) {
    if let Some(number) = signal_of_frame(script, frame) {
        write_signal(script, number, 97);
        script.say("pending");
    }
}

/// Makes the frame bytes zeros, with the receptions as they were, or the table new.
fn forget(script: &mut Script) {
    let line = match script.random.below(3) {
        0 => script.table_line.clone(),
        _ => format!("buffer {}", 8 * script.frame_count()).into_bytes(),
    };
    script.say(line);
}

/// Sets a last reception, mostly one that fits, reads the signal and mends what does not fit.
fn set_reception(script: &mut Script) {
    let placements = script
        .table()
        .map_or(Vec::new(), |table| table.placements.clone());
    let number = script.random.below(placements.len() + 1);
    let Some(placement) = placements.get(number) else {
        return;
    };
    let signal = placement.signal;
    let other = script.random.below(placements.len() + 1);
    let number = script.random.one_of(&[number, number, number, other]);
    match script.random.below(4) {
        0 => script.say(format!("set received {signal} none")),
        _ => script.say(format!("set received {signal} {number}")),
    };
    if read_signal(script, signal, 97) == "refused 3" {
        script.say("received");
        script.say(format!("set received {signal} none"));
        read_signal(script, signal, 97);
    }
}
