//! The mix of kinds of scripts.

use crate::draft::Script;
use crate::tables::Size;
use crate::{assemblies, borders, damage, judging, limits, lines, messages, reassembly};
use crate::{receptions, rows, runs, setting, settings_lines, values};

/// Fills a script with one to four acts and looks at the state at the end.
pub fn fill(script: &mut Script) {
    for _ in 0..script.random.one_of(&[1, 1, 2, 2, 3, 4]) {
        act(script);
    }
    for line in [
        "state", "out", "pending", "received", "frames", "assembly", "taken", "status", "message",
        "tick",
    ] {
        script.say(line);
    }
}

/// Adds one act of any kind.
fn act(script: &mut Script) {
    match script.random.below(1_120) {
        0..=139 => run(script, &[Size::Tiny, Size::Small], 100, 400),
        140..=189 => run(script, &[Size::Middle], 200, 400),
        190..=259 => {
            let length = script.random.between(100, 400);
            runs::run_on_lists(script, length);
        }
        260..=274 => run(script, &[Size::Large, Size::Limit], 200, 400),
        275..=282 => runs::large_numbers(script),
        283..=286 => run(script, &[Size::Small, Size::Middle], 1_500, 3_000),
        287..=346 => damage::tables(script),
        347..=371 => borders::borders(script),
        372..=387 => borders::signal_borders(script),
        388..=395 => damage::empty_tables(script),
        396..=425 => runs::buffers(script),
        426..=470 => values::every_signal(script),
        471..=495 => rows::rows(script),
        496..=735 => message_act(script),
        736..=835 => line_act(script),
        836..=935 => setting::state_borders(script),
        936..=965 => setting::set_runs(script),
        966..=979 => limits::columns(script),
        980..=983 => limits::targets(script),
        984..=986 => limits::counts(script),
        987..=995 => runs::long_delays(script),
        996..=999 => runs::long_waits(script),
        1_000..=1_039 => judging::judging(script),
        _ => receptions::receptions(script),
    }
}

/// Adds an act on messages that are sent or put together.
fn message_act(script: &mut Script) {
    match script.random.below(250) {
        0..=84 => messages::sending(script),
        85..=89 => messages::longest_message(script),
        90..=109 => messages::whole_message(script),
        110..=169 => reassembly::reassembling(script),
        170..=185 => reassembly::odd_frames(script),
        186..=193 => reassembly::every_pci(script),
        194..=198 => reassembly::longest_message(script),
        _ => assemblies::set_assemblies(script),
    }
}

/// Adds an act on single lines.
fn line_act(script: &mut Script) {
    match script.random.below(100) {
        0..=12 => lines::wire(script),
        13..=30 => lines::limits(script),
        31..=52 => lines::any_lines(script),
        53..=62 => lines::long_lines(script),
        63..=66 => lines::lent_lengths(script),
        67..=83 => settings_lines::limits(script),
        _ => settings_lines::malformed(script),
    }
}

/// A run on a table of one of these sizes, with a number of lines between these.
fn run(script: &mut Script, sizes: &[Size], least: usize, most: usize) {
    let size = script.random.one_of(sizes);
    let length = script.random.between(least, most);
    runs::run_on(script, size, length);
}
