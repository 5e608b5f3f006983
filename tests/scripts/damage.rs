//! Scripts on damaged and hostile cluster tables: every call on each of them.

use crate::damaged::{damaged_table, hostile_words};
use crate::draft::Script;
use crate::runs;
use crate::settings_lines;
use crate::tables::{right_table, table_line, Size};

/// Every call of the master, the judge, and the lines that show what a call may have changed.
const CALLS: [&str; 23] = [
    "fresh",
    "write 0 0",
    "writes 0 00",
    "row 0 : 0",
    "row 0 :",
    "row :",
    "read 0",
    "reads 0",
    "select 0",
    "tick",
    "byte 00",
    "status",
    "send 1 1",
    "message",
    "ahead 0",
    "judge 1736 100",
    "judge 1735 100",
    "judge 0 65536",
    "pending",
    "frames",
    "out",
    "state",
    "received",
];

/// Sets some parts of the state, whatever the table is.
fn set_anything(script: &mut Script) {
    for _ in 0..script.random.between(1, 4) {
        let line = settings_lines::any_line(&mut script.random);
        script.say(line);
    }
}

/// So many of the calls and looks on the current table, in any order.
pub fn calls(script: &mut Script, count: usize) {
    let mut lines = CALLS;
    script.random.shuffle(&mut lines);
    for line in &lines[..count] {
        script.say(*line);
    }
}

/// A right table with every call on it, then damaged ones made from it and hostile ones.
pub fn tables(script: &mut Script) {
    let size = script.random.one_of(&[
        Size::Tiny,
        Size::Small,
        Size::Small,
        Size::Small,
        Size::Middle,
        Size::Middle,
        Size::Large,
        Size::Limit,
    ]);
    let table = right_table(&mut script.random, size);
    let right_line = table_line(&mut script.random, &table.concat());
    script.say(right_line.clone());
    calls(script, CALLS.len());
    for _ in 0..script.random.between(3, 8) {
        let damaged = damaged_table(&mut script.random, &table);
        let words = match script.random.below(10) {
            0 => hostile_words(&mut script.random),
            _ => damaged.concat(),
        };
        let line = table_line(&mut script.random, &words);
        script.say(line);
        if script.random.once_in(3) {
            set_anything(script);
        }
        let count = script.random.one_of(&[3, 5, CALLS.len()]);
        calls(script, count);
        if script.random.once_in(4) {
            script.say(right_line.clone());
            runs::run(script, 20);
        }
    }
}

/// Counts that begin no table or an empty one.
pub fn empty_tables(script: &mut Script) {
    calls(script, CALLS.len());
    for line in [
        "table",
        "table 0",
        "table 0 0",
        "table 0 0 0",
        "table 0 0 0 0",
        "table 61",
        "table 60",
        "table 0 257",
        "table 0 0 61",
        "table 0 0 0 257",
        "table 0 0 0 0 513",
        "table 0 0 0 0 0 0",
        "table 1 0 0 0 0",
        "table 0 1 0 0 0",
        "table 0 1 0 0 0 0 1 0",
        "table 0 1 0 0 0 0 1 0 0",
        "table 0 0 0 0 1",
        "table 0 0 0 0 1 0 0 0",
        "table 0 0 0 0 512",
        "table 0 0 0 0 0",
    ] {
        script.say(line);
        let count = script.random.one_of(&[2, 5, CALLS.len()]);
        calls(script, count);
    }
}
