//! Writes and reads of signals, and wrong buffers.

use crate::draft::{with_bytes, Script};
use crate::table::{Signal, SignalKind};
use crate::tables::{right_table, table_line, Size};

/// A signal number: mostly one that is there.
pub fn signal_number(script: &mut Script) -> usize {
    let count = script.signal_count();
    if count == 0 || script.random.once_in(30) {
        return missing_number(script);
    }
    script.random.below(count)
}

/// A signal number that is mostly not there.
pub fn missing_number(script: &mut Script) -> usize {
    let count = script.signal_count();
    let beyond = [count, count + 1, count + 256, 255, 256, 65_535];
    script.random.one_of(&beyond)
}

/// A signal number to write: mostly of a signal that the master publishes.
pub fn published_number(script: &mut Script) -> usize {
    let published: Vec<usize> = script.table().map_or(Vec::new(), |table| {
        let numbers = table.placements.iter();
        let published = numbers.filter(|placement| table.is_published(placement));
        published.map(|placement| placement.signal).collect()
    });
    if published.is_empty() || script.random.once_in(8) {
        return signal_number(script);
    }
    script.random.one_of(&published)
}

/// The signal with this number, if it is there.
fn signal(script: &Script, number: usize) -> Option<Signal> {
    script.table()?.signals.get(number).cloned()
}

/// A value for a scalar of this width, at an end of the range or inside it.
pub fn value_inside(script: &mut Script, width: usize) -> u64 {
    let end = 1 << width;
    match script.random.below(5) {
        0 => 0,
        1 => end - 1,
        2 => end / 2,
        _ => script.random.next() % end,
    }
}

/// A value that a scalar of this width does not take.
pub fn value_beyond(script: &mut Script, width: usize) -> u64 {
    let end = 1 << width;
    let inside = script.random.next() % end;
    let values = [
        end,
        end,
        end + 1,
        65_536,
        65_536 + inside,
        1 << 31,
        u64::from(u32::MAX),
    ];
    script.random.one_of(&values)
}

/// Writes a scalar, mostly with a value that it takes.
fn write_scalar(script: &mut Script, number: usize, width: usize, right: usize) -> String {
    let value = if script.random.percent(right) {
        value_inside(script, width)
    } else {
        value_beyond(script, width)
    };
    script.say(format!("write {number} {value}"))
}

/// Writes an array, mostly of the right length.
fn write_array(script: &mut Script, number: usize, width: usize, right: usize) -> String {
    let length = width / 8;
    let length = if script.random.percent(right) {
        length
    } else {
        let others = [0, 1, length - 1, length + 1, 8, 9, length + 256, 16];
        script.random.one_of(&others)
    };
    let mut bytes = script.random.bytes(length);
    if script.random.once_in(4) {
        bytes.fill(script.random.one_of(&[0x00, 0xFF]));
    }
    script.say(with_bytes(&format!("writes {number}"), &bytes))
}

/// Writes a signal, in this many of a hundred cases rightly.
pub fn write_signal(script: &mut Script, number: usize, right: usize) -> String {
    let found = signal(script, number);
    let (kind, width) = found.map_or((SignalKind::Scalar, 16), |found| (found.kind, found.width));
    let as_scalar = (kind == SignalKind::Scalar) == script.random.percent(right);
    if as_scalar {
        write_scalar(script, number, width.min(16), right)
    } else {
        write_array(script, number, width.next_multiple_of(8), right)
    }
}

/// Reads a signal, in this many of a hundred cases by the call for its kind.
pub fn read_signal(script: &mut Script, number: usize, right: usize) -> String {
    let kind = signal(script, number).map_or(SignalKind::Scalar, |found| found.kind);
    let as_scalar = (kind == SignalKind::Scalar) == script.random.percent(right);
    script.say(format!(
        "{} {number}",
        if as_scalar { "read" } else { "reads" }
    ))
}

/// A signal number of this frame, if it has one.
pub fn signal_of_frame(script: &mut Script, frame: usize) -> Option<usize> {
    let placements = script.table()?.placements.iter();
    let of_frame = placements.filter(|placement| placement.frame == frame);
    let numbers: Vec<usize> = of_frame.map(|placement| placement.signal).collect();
    match numbers.len() {
        0 => None,
        count => Some(numbers[script.random.below(count)]),
    }
}

/// Writes and reads the signals of a table one by one.
pub fn every_signal(script: &mut Script) {
    let size = script.random.one_of(&[
        Size::Tiny,
        Size::Small,
        Size::Small,
        Size::Middle,
        Size::Middle,
        Size::Limit,
    ]);
    let words = right_table(&mut script.random, size).concat();
    let line = table_line(&mut script.random, &words);
    script.say(line);
    if !script.random.once_in(5) {
        script.say("fresh");
        script.say("frames");
    }
    let mut numbers: Vec<usize> = (0..script.signal_count()).collect();
    script.random.shuffle(&mut numbers);
    numbers.truncate(60);
    for number in numbers {
        one_signal(script, number);
    }
    script.say("frames");
    script.say("pending");
    for beyond in [script.signal_count(), script.signal_count() + 256, 65_535] {
        one_signal(script, beyond);
    }
}

/// Reads, writes and reads one signal, and sometimes looks at the frame bytes.
fn one_signal(script: &mut Script, number: usize) {
    read_signal(script, number, 90);
    for _ in 0..script.random.between(1, 4) {
        let right = script.random.one_of(&[40, 90, 100]);
        let frames = script.frame_count();
        if write_signal(script, number, right) == "written" && frames <= 8 {
            script.say("frames");
        }
        read_signal(script, number, 95);
    }
    if script.random.once_in(8) {
        script.say("pending");
    }
}

/// Gives the master a buffer of a wrong length, makes calls, and gives it a right one again.
pub fn wrong_buffer(script: &mut Script, mut call: impl FnMut(&mut Script)) {
    let right = 8 * script.frame_count();
    let lengths = [
        right + 1,
        right.wrapping_sub(1),
        right + 8,
        right.wrapping_sub(8),
        0,
        480,
        512,
    ];
    let wrong = script.random.one_of(&lengths);
    script.say(format!("buffer {}", wrong.min(513)));
    for _ in 0..script.random.between(1, 12) {
        call(script);
    }
    script.say("frames");
    script.say(format!("buffer {right}"));
    if script.random.once_in(3) {
        script.say("frames");
    }
}
