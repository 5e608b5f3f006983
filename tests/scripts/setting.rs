//! Scripts that set states, of which some fit the table and some do not, and make calls on them.

use crate::diagnostic::Message;
use crate::draft::Script;
use crate::judging;
use crate::messages;
use crate::misfits::{pair, pairs};
use crate::rows;
use crate::runs::{self, ahead, select};
use crate::state::State;
use crate::states::{fitting, set};
use crate::tables::{numerous_table, right_table, state_table, table_line, Size};
use crate::transfers;
use crate::values::{read_signal, signal_number, write_signal};

/// The number of calls that `call` knows.
const CALLS: usize = 12;

/// A table on which states are set; mostly small, with slots of all kinds.
fn table(script: &mut Script) {
    let random = &mut script.random;
    let table = match random.below(24) {
        0 => numerous_table(random),
        1..=4 => right_table(random, Size::Tiny),
        5..=7 => right_table(random, Size::Small),
        _ => state_table(random),
    };
    let line = table_line(random, &table.concat());
    script.say(line);
    if script.random.once_in(2) {
        script.say("fresh");
    }
}

/// Pairs of states at the borders of refusal 3, with calls on both.
pub fn state_borders(script: &mut Script) {
    table(script);
    let Some(table) = script.table().cloned() else {
        return;
    };
    let mut pairs = pairs(&mut script.random, &table);
    pairs.truncate(script.random.between(6, 20));
    for (state, other) in pairs {
        set(script, &state);
        if script.random.once_in(2) {
            calls_one_by_one(script, &state);
        }
        set(script, &other);
        every_call(script);
        if script.random.once_in(4) {
            set(script, &state);
            runs::run(script, 10);
        }
    }
}

/// States that fit and no history has, each with a run on it.
pub fn set_runs(script: &mut Script) {
    table(script);
    for _ in 0..script.random.between(6, 15) {
        let Some(table) = script.table().cloned() else {
            return;
        };
        let state = fitting(&mut script.random, &table);
        set(script, &state);
        lend_what_is_sent(script);
        script.say("state");
        transfers::steer(script);
        script.say("state");
        script.say("received");
        script.say("tick");
        script.say("state");
        let length = script.random.one_of(&[0, 0, 5, 20]);
        runs::run(script, length);
    }
}

/// Sets a state that is far from the one that is there, makes some calls and mostly sets it back.
pub fn disturb(script: &mut Script) {
    let Some(table) = script.table().cloned() else {
        return;
    };
    let Some((state, other)) = pair(&mut script.random, &table) else {
        return;
    };
    let before = script.bench.master.state.clone();
    let chosen = if script.random.once_in(3) {
        other
    } else {
        state
    };
    set(script, &chosen);
    for _ in 0..script.random.between(1, 4) {
        any_call(script);
    }
    match script.random.below(4) {
        0 => set(script, &before),
        1 => {
            script.say("fresh");
        }
        _ => repair(script, &before),
    }
}

/// Sets a state again where the one that is there is refused.
fn repair(script: &mut Script, state: &State) {
    if script.say("message") == "refused 3" {
        set(script, state);
    }
}

/// Every call on the state that is there, in any order, with looks before and after.
fn every_call(script: &mut Script) {
    let mut calls: Vec<usize> = (0..CALLS).collect();
    script.random.shuffle(&mut calls);
    if script.random.once_in(2) {
        lend_what_is_sent(script);
    }
    let wrong_buffer = script.random.once_in(12);
    if wrong_buffer {
        script.say(format!("buffer {}", script.frame_count() * 8 + 1));
    }
    look(script);
    for number in calls {
        call(script, number);
    }
    look(script);
    if wrong_buffer {
        script.say(format!("buffer {}", script.frame_count() * 8));
    }
}

/// Some calls, each on this state.
fn calls_one_by_one(script: &mut Script, state: &State) {
    lend_what_is_sent(script);
    for _ in 0..script.random.between(1, 4) {
        any_call(script);
        script.say("state");
        set(script, state);
    }
}

/// Any call that tests the state, or the judge.
fn any_call(script: &mut Script) {
    let number = script.random.below(CALLS);
    call(script, number);
}

/// One of the calls that test the state, or the judge, which does not.
fn call(script: &mut Script, number: usize) {
    match number {
        0 | 1 => {
            let number = signal_number(script);
            write_signal(script, number, 80);
        }
        2 | 3 => {
            let number = signal_number(script);
            read_signal(script, number, 80);
        }
        4 => select(script),
        5 => {
            script.say("tick");
        }
        6 => transfers::next_byte(script),
        7 => {
            let length = script.random.one_of(&[0, 1, 7, 4_095, 4_096]);
            script.say(format!("send 5 {length}"));
        }
        8 => {
            ahead(script);
        }
        9 => rows::write_some(script),
        10 => {
            judging::judge(script);
        }
        _ => {
            let line = script.random.one_of(&["status", "message"]);
            script.say(line);
        }
    }
}

/// Looks at the whole state and the frame bytes.
fn look(script: &mut Script) {
    for line in ["state", "pending", "received", "frames", "out"] {
        script.say(line);
    }
}

/// Mostly lends a message of the length that is being sent.
fn lend_what_is_sent(script: &mut Script) {
    if let Message::Sending { length, .. } = script.bench.master.state.message {
        if script.bench.lent.len() != length && script.random.percent(85) {
            messages::lend(script, length);
        }
    }
}
