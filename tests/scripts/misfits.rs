//! Pairs of states at the borders of refusal 3: one fits the table, the other misses one clause.

use crate::diagnostic::{frame_count, Message};
use crate::random::Random;
use crate::state::{State, SIGNALS_MAX};
use crate::states::{enter, fitting, message_being_sent, open_transfer, openable};
use crate::table::{Placement, Slot, Table};
use crate::transfer::Open;

/// Makes a fitting state and its neighbour, if the table has what the clause is about.
type Clause = fn(&mut Random, &Table) -> Option<(State, State)>;

/// The clauses of refusal 3; those with many cases come more often.
const CLAUSES: [Clause; 26] = [
    requested_schedule,
    current_entry,
    wait_above_the_delay,
    wait_with_no_schedule,
    pending_not_published,
    pending_beyond_the_frames,
    open_beyond_the_frames,
    open_with_no_entry,
    open_another_frame,
    open_another_frame,
    open_another_kind,
    open_another_kind,
    open_another_kind,
    request_with_no_message,
    count_that_closes,
    count_that_closes,
    count_that_closes,
    message_length,
    message_without_a_frame,
    message_without_a_frame,
    only_what_is_open_counts,
    reception_of_another_signal,
    reception_in_a_published_frame,
    reception_beyond_the_placements,
    reception_beyond_the_signals,
    reception_of_the_first_signal_beyond,
];

/// Pairs of states at the borders of all clauses that the table has, in any order.
pub fn pairs(random: &mut Random, table: &Table) -> Vec<(State, State)> {
    let mut clauses = CLAUSES;
    random.shuffle(&mut clauses);
    let pairs = clauses.iter().map(|clause| clause(random, table));
    pairs.flatten().collect()
}

/// A pair of states at the border of any clause that the table has.
pub fn pair(random: &mut Random, table: &Table) -> Option<(State, State)> {
    pairs(random, table).pop()
}

/// A state and its neighbour, which is changed.
fn beside(state: State, change: impl FnOnce(&mut State)) -> Option<(State, State)> {
    let mut other = state.clone();
    change(&mut other);
    Some((state, other))
}

/// A fitting state at an entry of the table for which this holds, if there is one.
fn at_entry(random: &mut Random, table: &Table, apt: impl Fn(Slot) -> bool) -> Option<State> {
    let entries = (0..table.entries.len()).filter(|&entry| apt(table.entries[entry].slot));
    let entries: Vec<usize> = entries.collect();
    if entries.is_empty() {
        return None;
    }
    let mut state = fitting(random, table);
    let entry = random.one_of(&entries);
    enter(random, table, &mut state, entry);
    Some(state)
}

/// The kind of a slot in the table; one for a frame that is received has a kind of its own.
fn kind_of(table: &Table, slot: Slot) -> usize {
    match slot {
        Slot::Frame(frame) if !table.frames[frame].published => 4,
        Slot::Frame(_) => 0,
        Slot::List(_) => 1,
        Slot::Request => 2,
        Slot::Response => 3,
    }
}

/// A fitting state with something open, at a slot of any kind.
fn at_open(random: &mut Random, table: &Table) -> Option<State> {
    let kind = random.below(5);
    let mut state = at_entry(random, table, |slot| kind_of(table, slot) == kind)?;
    state.message = message_being_sent(random);
    let open = openable(random, table, state.message, state.entry?)?;
    open_transfer(random, table, &mut state, open);
    Some(state)
}

/// A number that none of this many records has.
fn beyond(random: &mut Random, count: usize) -> usize {
    let another = random.below(count.max(1)) + 256;
    let numbers = [count, count, count + 1, another, another, 60, 65_535];
    random.one_of(&numbers).max(count)
}

/// The last schedule, and one that is not there, is requested.
fn requested_schedule(random: &mut Random, table: &Table) -> Option<(State, State)> {
    let count = table.schedule_count();
    let mut state = fitting(random, table);
    state.requested = count.checked_sub(1);
    let number = beyond(random, count);
    beside(state, |other| other.requested = Some(number))
}

/// The last entry, and one that is not there, is the current one.
fn current_entry(random: &mut Random, table: &Table) -> Option<(State, State)> {
    let count = table.entries.len();
    let mut state = fitting(random, table);
    state.entry = count.checked_sub(1);
    state.wait = 0;
    state.transfer.open = Open::Nothing;
    let number = beyond(random, count);
    beside(state, |other| other.entry = Some(number))
}

/// The wait is the delay of the current entry, and above it.
fn wait_above_the_delay(random: &mut Random, table: &Table) -> Option<(State, State)> {
    let mut state = at_entry(random, table, |_| true)?;
    state.wait = table.entries[state.entry?].delay;
    let above = state.wait.checked_add(1)?;
    let wrapped = state.wait.saturating_add(256);
    let wait = random.one_of(&[above, above, wrapped, 65_535]);
    beside(state, |other| other.wait = wait)
}

/// The wait is 0 with no schedule, and above 0.
fn wait_with_no_schedule(random: &mut Random, table: &Table) -> Option<(State, State)> {
    let mut state = fitting(random, table);
    state.entry = None;
    state.wait = 0;
    state.transfer.open = Open::Nothing;
    let wait = random.one_of(&[1, 1, 2, 256, 65_535]);
    beside(state, |other| other.wait = wait)
}

/// Published frames are pending, and one that is received.
fn pending_not_published(random: &mut Random, table: &Table) -> Option<(State, State)> {
    let numbers = (0..table.frames.len()).filter(|&number| !table.frames[number].published);
    let received: Vec<usize> = numbers.collect();
    if received.is_empty() {
        return None;
    }
    let frame = random.one_of(&received);
    let state = fitting(random, table);
    beside(state, |other| other.pending[frame] = true)
}

/// Published frames are pending, and one that is not there.
fn pending_beyond_the_frames(random: &mut Random, table: &Table) -> Option<(State, State)> {
    let count = table.frames.len();
    if count == 60 {
        return None;
    }
    let any = random.between(count, 59);
    let frame = random.one_of(&[count, count, 59, any]);
    let state = fitting(random, table);
    beside(state, |other| other.pending[frame] = true)
}

/// What the entry can open is open, and a frame that is not there.
fn open_beyond_the_frames(random: &mut Random, table: &Table) -> Option<(State, State)> {
    let state = at_open(random, table)?;
    let count = table.frames.len();
    let number = match state.transfer.open {
        Open::Frame(frame) if random.once_in(3) => frame + 256,
        _ => beyond(random, count),
    };
    let any = random.below(9);
    beside(state, |other| {
        other.transfer.open = Open::Frame(number);
        other.transfer.count = any;
    })
}

/// Nothing is open with no schedule, and something is.
fn open_with_no_entry(random: &mut Random, table: &Table) -> Option<(State, State)> {
    let mut state = fitting(random, table);
    state.entry = None;
    state.wait = 0;
    state.message = message_being_sent(random);
    state.transfer.count = 0;
    state.transfer.open = Open::Nothing;
    let frame = random.below(table.frames.len().max(1));
    let open = random.one_of(&[Open::Frame(frame), Open::Request, Open::Response]);
    beside(state, |other| other.transfer.open = open)
}

/// A frame that the entry can open is open, and another frame.
fn open_another_frame(random: &mut Random, table: &Table) -> Option<(State, State)> {
    let kind = random.one_of(&[0, 1, 4]);
    let mut state = at_entry(random, table, |slot| kind_of(table, slot) == kind)?;
    let entry = state.entry?;
    let open = openable(random, table, state.message, entry)?;
    open_transfer(random, table, &mut state, open);
    state.transfer.count = 0;
    let own = match table.entries[entry].slot {
        Slot::List(list) => table.lists[list].clone(),
        Slot::Frame(frame) => vec![frame],
        _ => return None,
    };
    let others = (0..table.frames.len()).filter(|number| !own.contains(number));
    let others: Vec<usize> = others.collect();
    if others.is_empty() {
        return None;
    }
    let other = Open::Frame(random.one_of(&others));
    beside(state, |state| state.transfer.open = other)
}

/// What the entry can open is open, and something of another kind.
fn open_another_kind(random: &mut Random, table: &Table) -> Option<(State, State)> {
    let mut state = at_open(random, table)?;
    state.transfer.count = 0;
    let frame = random.below(table.frames.len().max(1));
    let others = match table.entries[state.entry?].slot {
        Slot::Request => [Open::Response, Open::Frame(frame)],
        Slot::Response => [Open::Request, Open::Frame(frame)],
        _ => [Open::Request, Open::Response],
    };
    let other = random.one_of(&others);
    beside(state, |state| state.transfer.open = other)
}

/// A request is open while a message is being sent, and while none is.
fn request_with_no_message(random: &mut Random, table: &Table) -> Option<(State, State)> {
    let mut state = at_entry(random, table, |slot| slot == Slot::Request)?;
    state.message = message_being_sent(random);
    open_transfer(random, table, &mut state, Open::Request);
    let message = random.one_of(&[Message::None, Message::Completed, Message::Failed]);
    beside(state, |other| other.message = message)
}

/// All bytes but the last have passed, and as many as close the transfer.
fn count_that_closes(random: &mut Random, table: &Table) -> Option<(State, State)> {
    let mut state = at_open(random, table)?;
    let frame = state.transfer.open.frame(table)?;
    state.transfer.count = frame.length;
    let closing = frame.length + 1;
    let count = random.one_of(&[closing, closing, closing + 1, 9, 16, 255]);
    beside(state, |other| other.transfer.count = count)
}

/// A message of the least or largest length is being sent, and one beyond it.
fn message_length(random: &mut Random, table: &Table) -> Option<(State, State)> {
    let mut state = fitting(random, table);
    let (length, beyond) = match random.below(6) {
        0..=1 => (1, 0),
        2..=3 => (4_095, 4_096),
        4 => (4_095, 65_535),
        _ => (7, 4_103),
    };
    let sending = |length| Message::Sending {
        nad: 1,
        length,
        next: 0,
    };
    state.message = sending(length);
    beside(state, |other| other.message = sending(beyond))
}

/// The last frame of a message is next, and none is left.
fn message_without_a_frame(random: &mut Random, table: &Table) -> Option<(State, State)> {
    let mut state = fitting(random, table);
    let any = random.between(1, 100);
    let length = random.one_of(&[6, 6, 6, 6, 7, 1, 5, 11, 12, 17, 18, 95, 4_095, any]);
    let sending = |next| Message::Sending {
        nad: 0,
        length,
        next,
    };
    let count = frame_count(length);
    state.message = sending(count - 1);
    let any = beyond(random, count);
    let next = random.one_of(&[count, count, any]);
    beside(state, |other| other.message = sending(next))
}

/// Not a misfit: with nothing open any count, bytes and mark fit.
fn only_what_is_open_counts(random: &mut Random, table: &Table) -> Option<(State, State)> {
    let mut state = fitting(random, table);
    state.transfer.open = Open::Nothing;
    let count = random.one_of(&[8, 9, 10, 255]);
    let bytes = random.bytes(9);
    beside(state, |other| {
        other.transfer.count = count;
        other.transfer.bytes.copy_from_slice(&bytes);
        other.transfer.written = true;
    })
}

/// The number of any placement of which this holds, if there is one.
fn any_placement(
    random: &mut Random,
    table: &Table,
    holds: impl Fn(&Placement) -> bool,
) -> Option<usize> {
    let numbers = 0..table.placements.len();
    let found: Vec<usize> = numbers
        .filter(|&number| holds(&table.placements[number]))
        .collect();
    match found.len() {
        0 => None,
        count => Some(found[random.below(count)]),
    }
}

/// A signal was received last in a placement of its own, and in one of another signal.
fn reception_of_another_signal(random: &mut Random, table: &Table) -> Option<(State, State)> {
    let received = |placement: &Placement| !table.is_published(placement);
    let own = any_placement(random, table, received)?;
    let signal = table.placements[own].signal;
    let other = any_placement(random, table, |placement| {
        received(placement) && placement.signal != signal
    })?;
    let mut state = fitting(random, table);
    state.received[signal] = random.one_of(&[Some(own), None]);
    beside(state, |state| state.received[signal] = Some(other))
}

/// A published signal was never received, and in one of its placements or another one.
fn reception_in_a_published_frame(random: &mut Random, table: &Table) -> Option<(State, State)> {
    let published = |placement: &Placement| table.is_published(placement);
    let own = any_placement(random, table, published)?;
    let any = random.below(table.placements.len());
    let number = random.one_of(&[own, own, own, any]);
    let signal = table.placements[own].signal;
    let state = fitting(random, table);
    beside(state, |other| other.received[signal] = Some(number))
}

/// A signal was received last in the last placement or never, and in one that is not there.
fn reception_beyond_the_placements(random: &mut Random, table: &Table) -> Option<(State, State)> {
    let count = table.placements.len();
    let signal = table.placements.last()?.signal;
    let any = random.below(table.signals.len());
    let signal = random.one_of(&[signal, signal, any]);
    let number = beyond(random, count);
    let state = fitting(random, table);
    beside(state, |other| other.received[signal] = Some(number))
}

/// A signal that is not there was never received, and in any placement.
fn reception_beyond_the_signals(random: &mut Random, table: &Table) -> Option<(State, State)> {
    let count = table.signals.len();
    if count == SIGNALS_MAX {
        return None;
    }
    let any = random.between(count, SIGNALS_MAX - 1);
    let signal = random.one_of(&[count, count, 255, any]);
    let number = random.below(table.placements.len() + 1);
    let state = fitting(random, table);
    beside(state, |other| other.received[signal] = Some(number))
}

/// The same for the signal directly behind the last one and the placements of the last one.
fn reception_of_the_first_signal_beyond(
    random: &mut Random,
    table: &Table,
) -> Option<(State, State)> {
    let count = table.signals.len();
    if count == SIGNALS_MAX {
        return None;
    }
    let last = any_placement(random, table, |placement| placement.signal + 1 == count)?;
    let number = random.one_of(&[last, table.placements.len()]);
    let state = fitting(random, table);
    beside(state, |other| other.received[count] = Some(number))
}
