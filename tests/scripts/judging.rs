//! Judge lines: on right tables with full, short and long slots, on damaged ones, and malformed.

use crate::damaged::{damaged_table, hostile_words};
use crate::draft::Script;
use crate::lines::{damage, with_changed_field};
use crate::random::Random;
use crate::settings_lines;
use crate::tables::{right_table, slot_table, table_line, Sections, Size};
use crate::times::{change_delays, judge_line, slots, Slot};

/// Fields that make a judge line none, and some that do not.
const FIELDS: [&str; 14] = [
    "",
    ":",
    "x",
    "-1",
    "+1",
    "0x1",
    "1.0",
    "none",
    "0",
    "01",
    "65535",
    "65536",
    "4294967295",
    "4294967296",
];

/// The judge on some tables made from a right one, and on damaged ones among them.
pub fn judging(script: &mut Script) {
    let right = any_table(&mut script.random);
    for _ in 0..script.random.between(2, 6) {
        let mut table = right.clone();
        change_delays(&mut script.random, &mut table);
        let slots = slots(&table.concat());
        say_table(script, &table.concat());
        if script.random.once_in(3) {
            disturb(script);
        }
        let count = script.random.between(4, 12);
        judge_lines(script, &slots, count);
        if script.random.once_in(3) {
            let words = damaged_words(&mut script.random, &table);
            say_table(script, &words);
            let count = script.random.between(1, 4);
            judge_lines(script, &slots, count);
        }
    }
}

/// A right table with slots of all kinds, mostly small and without signals.
fn any_table(random: &mut Random) -> Sections {
    match random.below(32) {
        0 => right_table(random, Size::Limit),
        1..=2 => slot_table(random, Size::Limit),
        3..=6 => slot_table(random, Size::Large),
        7..=12 => right_table(random, Size::Small),
        13..=14 => right_table(random, Size::Middle),
        15..=18 => slot_table(random, Size::Tiny),
        19..=22 => slot_table(random, Size::Middle),
        _ => slot_table(random, Size::Small),
    }
}

/// The words of a damaged table, sometimes of a hostile one.
fn damaged_words(random: &mut Random, table: &Sections) -> Vec<u16> {
    if random.once_in(8) {
        return hostile_words(random);
    }
    damaged_table(random, table).concat()
}

/// Takes a table.
fn say_table(script: &mut Script, words: &[u16]) {
    let line = table_line(&mut script.random, words);
    script.say(line);
}

/// Sets parts of the state, or a buffer of any length: the judge answers the same.
fn disturb(script: &mut Script) {
    for _ in 0..script.random.between(1, 4) {
        let line = settings_lines::any_line(&mut script.random);
        script.say(line);
    }
    if script.random.once_in(3) {
        let length = script.random.below(513);
        script.say(format!("buffer {length}"));
    }
}

/// So many judge lines for these slots, now and then malformed ones, a tick or a look.
fn judge_lines(script: &mut Script, slots: &[Slot], count: usize) {
    for _ in 0..count {
        let line = judge_line(&mut script.random, slots);
        script.say(line);
        match script.random.below(24) {
            0 => {
                let line = script.random.one_of(&["pending", "out", "tick", "message"]);
                script.say(line);
            }
            1 => malformed_line(script, slots),
            _ => {}
        }
    }
}

/// A judge line with one field changed, sometimes damaged anywhere.
fn malformed_line(script: &mut Script, slots: &[Slot]) {
    let random = &mut script.random;
    let right = judge_line(random, slots);
    let at = random.between(1, 2);
    let field = random.one_of(&FIELDS);
    let mut line = with_changed_field(random, &right, at, field).into_bytes();
    if random.once_in(3) {
        damage(random, &mut line);
    }
    script.say(line);
}

/// One judge line for the last right table, which may not be the table that is there.
pub fn judge(script: &mut Script) -> String {
    let line = String::from_utf8_lossy(&script.table_line);
    let words: Vec<u16> = line
        .split(' ')
        .filter_map(|word| word.parse().ok())
        .collect();
    let line = judge_line(&mut script.random, &slots(&words));
    script.say(line)
}
