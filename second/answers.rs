//! The texts of answers, by DESIGN.md and REQUESTS.md.

use crate::diagnostic::Message;
use crate::reassembler::{OpenMessage, Taken};
use crate::state::{Came, State, Ticked};
use crate::timing::Judged;
use crate::transfer::{Open, Status};

/// Gives an answer that is always the same.
pub fn text(answer: &str) -> String {
    answer.to_string()
}

/// Gives a word with decimal numbers behind it.
pub fn with_numbers(word: &str, numbers: &[usize]) -> String {
    let mut text = word.to_string();
    for number in numbers {
        text.push_str(&format!(" {number}"));
    }
    text
}

/// Gives a word with bytes behind it as hexadecimal pairs.
pub fn with_bytes(word: &str, bytes: &[u8]) -> String {
    let mut text = word.to_string();
    for byte in bytes {
        text.push_str(&format!(" {byte:02X}"));
    }
    text
}

/// Gives the answer to a tick.
pub fn ticked(ticked: Ticked) -> String {
    match ticked {
        Ticked::Waiting => text("waiting"),
        Ticked::Idle => text("idle"),
        Ticked::Silent => text("silent"),
        Ticked::Opened(protected) => format!("open {protected:02X}"),
    }
}

/// Gives the answer to a byte in.
pub fn came(came: Came) -> String {
    match came {
        Came::More => text("more"),
        Came::Success => text("success"),
        Came::Failure => text("failure"),
        Came::Response(data) => with_bytes("response", &data),
    }
}

/// Gives the answer to a question for the message.
pub fn message(message: Message) -> String {
    match message {
        Message::None => text("none"),
        Message::Sending { .. } => text("sending"),
        Message::Completed => text("completed"),
        Message::Failed => text("failed"),
    }
}

/// Gives the answer of the judge.
pub fn judged(judged: Judged) -> String {
    match judged {
        Judged::Holds => text("holds"),
        Judged::Short(entry) => format!("short {entry}"),
    }
}

/// Gives the answer to a frame for the reassembler.
pub fn taken(taken: Taken) -> String {
    match taken {
        Taken::Ignored => text("ignored"),
        Taken::Started => text("started"),
        Taken::More => text("more"),
        Taken::Done(length) => format!("done {length}"),
        Taken::Broken => text("broken"),
    }
}

/// Gives the whole state but the pending bits and the receptions.
pub fn state(state: &State) -> String {
    let transfer = &state.transfer;
    format!(
        "state wait {} entry {} request {} open {} count {} {} written {} message {} status {}",
        state.wait,
        number_or_none(state.entry),
        number_or_none(state.requested),
        open(transfer.open),
        transfer.count,
        with_bytes("bytes", &transfer.bytes),
        u8::from(transfer.written),
        whole_message(state.message),
        status(state.status),
    )
}

/// Gives a number, or the word for none.
fn number_or_none(number: Option<usize>) -> String {
    number.map_or_else(|| text("none"), |number| number.to_string())
}

/// Gives what is open.
fn open(open: Open) -> String {
    match open {
        Open::Nothing => text("nothing"),
        Open::Frame(number) => format!("frame {number}"),
        Open::Request => text("request"),
        Open::Response => text("response"),
    }
}

/// Gives the message with its address, length and next frame where it is being sent.
fn whole_message(whole: Message) -> String {
    match whole {
        Message::Sending { nad, length, next } => format!("sending {nad} {length} {next}"),
        _ => message(whole),
    }
}

/// Gives the parts of the status.
fn status(status: Status) -> String {
    format!(
        "{} {} {} {:02X}",
        u8::from(status.error_in_response),
        u8::from(status.successful_transfer),
        u8::from(status.overrun),
        status.last
    )
}

/// Gives the reassembler's state.
pub fn assembly(open: Option<OpenMessage>) -> String {
    match open {
        Some(open) => format!(
            "assembly {} {} {} {}",
            open.nad, open.length, open.count, open.counter
        ),
        None => text("assembly none"),
    }
}
