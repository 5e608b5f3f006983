//! Runs seeded random bench scripts through a bench program and compares it with the second one.
//!
//! Usage: scripts SEED COUNT BENCH [--only N]. The same seed gives the same scripts. The second
//! program's modules give the expected answers and steer the scripts. At the first difference it
//! prints what is needed to repeat it and ends with status 1. With --only it runs script N alone
//! and writes it to standard output.

#[path = "../second/answers.rs"]
mod answers;
#[path = "scripts/assemblies.rs"]
mod assemblies;
#[path = "../second/bench.rs"]
mod bench;
#[path = "scripts/borders.rs"]
mod borders;
#[path = "../second/cluster.rs"]
mod cluster;
#[path = "scripts/damage.rs"]
mod damage;
#[path = "scripts/damaged.rs"]
mod damaged;
#[path = "../second/diagnostic.rs"]
mod diagnostic;
#[path = "scripts/draft.rs"]
mod draft;
#[path = "../second/fields.rs"]
mod fields;
#[path = "../second/fits.rs"]
mod fits;
#[path = "scripts/judging.rs"]
mod judging;
#[path = "scripts/kinds.rs"]
mod kinds;
#[path = "scripts/limits.rs"]
mod limits;
#[path = "scripts/lines.rs"]
mod lines;
#[path = "../second/master.rs"]
mod master;
#[path = "scripts/messages.rs"]
mod messages;
#[path = "scripts/misfits.rs"]
mod misfits;
#[path = "scripts/program.rs"]
mod program;
#[path = "scripts/random.rs"]
mod random;
#[path = "../second/reassembler.rs"]
mod reassembler;
#[path = "scripts/reassembly.rs"]
mod reassembly;
#[path = "scripts/receptions.rs"]
mod receptions;
#[path = "../second/refusal.rs"]
mod refusal;
#[path = "scripts/rows.rs"]
mod rows;
#[path = "scripts/runs.rs"]
mod runs;
#[path = "../second/script.rs"]
mod script;
#[path = "scripts/setting.rs"]
mod setting;
#[path = "../second/settings.rs"]
mod settings;
#[path = "scripts/settings_lines.rs"]
mod settings_lines;
#[path = "scripts/signal_tables.rs"]
mod signal_tables;
#[path = "../second/signals.rs"]
mod signals;
#[path = "../second/state.rs"]
mod state;
#[path = "scripts/states.rs"]
mod states;
#[path = "../second/table.rs"]
mod table;
#[path = "scripts/tables.rs"]
mod tables;
#[path = "scripts/times.rs"]
mod times;
#[path = "../second/timing.rs"]
mod timing;
#[path = "../second/transfer.rs"]
mod transfer;
#[path = "scripts/transfers.rs"]
mod transfers;
#[path = "scripts/values.rs"]
mod values;
#[path = "../second/wire.rs"]
mod wire;

use draft::Script;
use program::Options;
use random::Random;
use std::io::Write;

fn main() {
    let options = Options::read("scripts", "script");
    let mut answers = 0;
    for case in options.cases() {
        let mut script = Script::new(Random::of_case(options.seed, case));
        kinds::fill(&mut script);
        let input = input_of(&mut script);
        if options.only.is_some() {
            let written = std::io::stdout().write_all(&input);
            written.unwrap_or_else(|error| program::fail("scripts", &error.to_string()));
        }
        let outcome = program::run(&options, input);
        if let Some(difference) = program::compare(&expected_output(&script), outcome) {
            let after_last = (script.lines.len() + 1, String::new());
            let (number, _) = script.answers.get(difference.at).unwrap_or(&after_last);
            let line = script.lines.get(number - 1).map_or(&[][..], Vec::as_slice);
            options.report(case, (*number, line), &difference);
        }
        answers += script.answers.len();
    }
    options.tell_all_the_same(&format!("{answers} answers"));
}

/// The text of a script; in one of four the last line lacks its newline.
fn input_of(script: &mut Script) -> Vec<u8> {
    let mut input = script.lines.join(&b'\n');
    if !script.random.once_in(4) {
        input.push(b'\n');
    }
    input
}

/// The answers that the second program gives.
fn expected_output(script: &Script) -> Vec<u8> {
    let mut output = String::new();
    for (_, answer) in &script.answers {
        output.push_str(answer);
        output.push('\n');
    }
    output.into_bytes()
}
