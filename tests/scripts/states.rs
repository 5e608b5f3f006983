//! States that fit the table, most of which no history has, and the lines that set them.

use crate::diagnostic::{frame_count, Message};
use crate::draft::{with_bytes, Script};
use crate::random::Random;
use crate::state::State;
use crate::table::{Slot, Table};
use crate::transfer::{Open, Status, Transfer};

/// A state that fits the table.
pub fn fitting(random: &mut Random, table: &Table) -> State {
    let mut state = State::fresh();
    state.message = fitting_message(random);
    state.status = any_status(random);
    state.transfer = any_record(random, 255);
    set_receptions(random, table, &mut state);
    let chance = random.one_of(&[0, 10, 50, 100]);
    for (bit, frame) in state.pending.iter_mut().zip(&table.frames) {
        *bit = frame.published && random.percent(chance);
    }
    if !table.entries.is_empty() {
        if random.once_in(3) {
            state.requested = Some(random.below(table.schedule_count()));
        }
        if !random.once_in(6) {
            let entry = random.below(table.entries.len());
            enter(random, table, &mut state, entry);
        }
    }
    state
}

/// Gives signals that are not published any of their placements as the one received last.
fn set_receptions(random: &mut Random, table: &Table, state: &mut State) {
    let chance = random.one_of(&[0, 20, 50, 100]);
    for (number, placement) in table.placements.iter().enumerate() {
        if !table.is_published(placement) && random.percent(chance) {
            state.received[placement.signal] = Some(number);
        }
    }
}

/// Makes an entry the current one, with a wait that fits, mostly with a transfer that it can open.
pub fn enter(random: &mut Random, table: &Table, state: &mut State, entry: usize) {
    let delay = table.entries[entry].delay;
    let any = random.between(0, delay.into()) as u16;
    state.entry = Some(entry);
    state.wait = random.one_of(&[0, 1, delay, delay, any]);
    let open = openable(random, table, state.message, entry);
    state.transfer = any_record(random, 255);
    if let (Some(open), false) = (open, random.once_in(4)) {
        open_transfer(random, table, state, open);
    }
}

/// Opens something with a number of bytes that does not close it.
pub fn open_transfer(random: &mut Random, table: &Table, state: &mut State, open: Open) {
    let length = open.frame(table).map_or(8, |frame| frame.length);
    state.transfer = any_record(random, length);
    state.transfer.open = open;
}

/// Something that an entry can open, if there is anything.
pub fn openable(random: &mut Random, table: &Table, message: Message, at: usize) -> Option<Open> {
    match (table.entries[at].slot, message) {
        (Slot::Frame(frame), _) => Some(Open::Frame(frame)),
        (Slot::List(list), _) => Some(Open::Frame(random.one_of(&table.lists[list]))),
        (Slot::Request, Message::Sending { .. }) => Some(Open::Request),
        (Slot::Request, _) => None,
        (Slot::Response, _) => Some(Open::Response),
    }
}

/// A record with nothing open, any bytes and at most this count.
fn any_record(random: &mut Random, count_max: usize) -> Transfer {
    let any = random.between(0, count_max);
    let mut transfer = Transfer::none();
    transfer.count = random.one_of(&[0, 0, 1, count_max, any]);
    transfer.written = random.once_in(2);
    if !random.once_in(4) {
        transfer.bytes.fill_with(|| random.byte());
    }
    transfer
}

/// A message that fits, in half of the cases one that is being sent.
fn fitting_message(random: &mut Random) -> Message {
    match random.below(6) {
        0 => Message::None,
        1 => Message::Completed,
        2 => Message::Failed,
        _ => message_being_sent(random),
    }
}

/// A message that is being sent, mostly a short one, with any of its frames next.
pub fn message_being_sent(random: &mut Random) -> Message {
    let (short, long) = (random.between(1, 60), random.between(61, 4_095));
    let ends = random.one_of(&[1, 6, 7, 11, 12, 95, 101, 4_095]);
    let length = random.one_of(&[short, short, short, ends, ends, long]);
    let last = frame_count(length) - 1;
    let any = random.between(0, last);
    Message::Sending {
        nad: random.one_of(&[0, 1, 127, 255, 85]),
        length,
        next: random.one_of(&[0, last, any]),
    }
}

/// Any status.
fn any_status(random: &mut Random) -> Status {
    let bits = random.one_of(&[0, 0, 1, 2, 3, 4, 5, 6, 7]);
    Status {
        error_in_response: bits & 1 != 0,
        successful_transfer: bits & 2 != 0,
        overrun: bits & 4 != 0,
        last: random.one_of(&[0x00, 0x42, 0x3C, 0x7D, 0xFF]),
    }
}

/// Sets the parts in which a state differs from the one that is there, and some others.
pub fn set(script: &mut Script, state: &State) {
    let wanted = lines_of(state);
    let there = lines_of(&script.bench.master.state);
    let often = script.random.one_of(&[3, 10, 40]);
    let mut lines = Vec::new();
    for (line, old) in wanted.into_iter().zip(there) {
        let one_of_many = line.starts_with("set pending") || line.starts_with("set received");
        if line != old || !one_of_many && script.random.once_in(often) {
            lines.push(line);
        }
    }
    script.random.shuffle(&mut lines);
    for line in lines {
        script.say(line);
    }
}

/// The lines that set every part of a state.
fn lines_of(state: &State) -> Vec<String> {
    let transfer = &state.transfer;
    let mut lines = vec![
        format!("set wait {}", state.wait),
        format!("set entry {}", number_or_none(state.entry)),
        format!("set request {}", number_or_none(state.requested)),
        open_line(transfer.open),
        format!("set count {}", transfer.count),
        with_bytes("set bytes", &transfer.bytes),
        format!("set written {}", u8::from(transfer.written)),
        message_line(state.message),
        status_line(state.status),
    ];
    for (frame, &pending) in state.pending.iter().enumerate() {
        lines.push(format!("set pending {frame} {}", u8::from(pending)));
    }
    for (signal, &placement) in state.received.iter().enumerate() {
        lines.push(format!(
            "set received {signal} {}",
            number_or_none(placement)
        ));
    }
    lines
}

/// A number, or the word for none.
fn number_or_none(number: Option<usize>) -> String {
    number.map_or("none".to_string(), |number| number.to_string())
}

/// The line that sets what is open.
fn open_line(open: Open) -> String {
    match open {
        Open::Nothing => "set open nothing".to_string(),
        Open::Frame(frame) => format!("set open frame {frame}"),
        Open::Request => "set open request".to_string(),
        Open::Response => "set open response".to_string(),
    }
}

/// The line that sets the message.
fn message_line(message: Message) -> String {
    match message {
        Message::None => "set message none".to_string(),
        Message::Sending { nad, length, next } => {
            format!("set message sending {nad} {length} {next}")
        }
        Message::Completed => "set message completed".to_string(),
        Message::Failed => "set message failed".to_string(),
    }
}

/// The line that sets the status.
fn status_line(status: Status) -> String {
    let bits = [
        status.error_in_response,
        status.successful_transfer,
        status.overrun,
    ];
    let [error, success, overrun] = bits.map(u8::from);
    format!("set status {error} {success} {overrun} {:02X}", status.last)
}
