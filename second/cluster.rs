//! The table check, by "The cluster table" of document 01 and Req 03 of document 02.
//!
//! Each word is judged by itself and the words before it, which are all right by then. What these
//! have used up is kept in marks, so that the check looks at each word once.

/// The number of words in front: how many frames, signals, members, entries and placements follow.
const COUNTS: usize = 5;

/// The largest number of frames, signals, members, entries and placements.
const COUNT_MAX: [u16; COUNTS] = [60, 256, 60, 256, 512];

// The sections in their order.
pub const FRAMES: usize = 0;
pub const SIGNALS: usize = 1;
pub const PLACEMENTS: usize = 2;
pub const MEMBERS: usize = 3;
pub const ENTRIES: usize = 4;

/// The number of sections.
const SECTIONS: usize = 5;

/// The position of each section's count.
const COUNT_PLACE: [usize; SECTIONS] = [0, 1, 4, 2, 3];

/// The number of words of a frame, a signal, a placement, a member and an entry.
const RECORD_WORDS: [usize; SECTIONS] = [3, 3, 3, 2, 4];

/// The largest number of frames, and of identifiers that a frame may have.
const FRAMES_MAX: usize = 60;

/// The largest identifier of a frame.
const IDENTIFIER_MAX: u16 = 59;

/// The largest length of a frame in bytes.
const LENGTH_MAX: u16 = 8;

/// The largest number of data bits of a frame.
const BITS_MAX: usize = 64;

/// The largest flags of a frame.
const FLAGS_MAX: u16 = 3;

// The kinds of a signal.
const SCALAR: u16 = 0;
const ARRAY: u16 = 1;

/// The largest width of a scalar in bits.
const SCALAR_WIDTH_MAX: u16 = 16;

/// The largest width of an array in bits.
const ARRAY_WIDTH_MAX: u16 = 64;

// The kinds of an entry.
const FRAME_SLOT: u16 = 0;
const LIST_SLOT: u16 = 1;
const REQUEST_SLOT: u16 = 2;
const RESPONSE_SLOT: u16 = 3;

/// What right words have used up.
struct Marks {
    /// The identifiers that a frame has.
    identifiers: [bool; FRAMES_MAX],
    /// For each frame the signal that was placed there last.
    last_signal: [Option<u16>; FRAMES_MAX],
    /// For each frame the bits that a placement has.
    bits: [[bool; BITS_MAX]; FRAMES_MAX],
    /// The frames that are a member.
    members: [bool; FRAMES_MAX],
}

impl Marks {
    /// Gives the marks before the first word.
    fn none() -> Marks {
        Marks {
            identifiers: [false; FRAMES_MAX],
            last_signal: [None; FRAMES_MAX],
            bits: [[false; BITS_MAX]; FRAMES_MAX],
            members: [false; FRAMES_MAX],
        }
    }

    /// Marks what a right word behind these right words uses up.
    fn add(&mut self, before: &[u16], word: u16) {
        match section_at(before) {
            Some(FRAMES) => {
                if records::<3>(before, FRAMES).1.is_empty() {
                    self.identifiers[usize::from(word)] = true;
                }
            }
            Some(PLACEMENTS) => self.add_to_placement(before, word),
            Some(MEMBERS) => {
                if records::<2>(before, MEMBERS).1.len() == 1 {
                    self.members[usize::from(word)] = true;
                }
            }
            _ => {}
        }
    }

    /// Marks the signal of a placement at its frame word and its bits at its offset word.
    fn add_to_placement(&mut self, before: &[u16], word: u16) {
        match *records::<3>(before, PLACEMENTS).1 {
            [signal] => self.last_signal[usize::from(word)] = Some(signal),
            [signal, frame] => {
                let [_, width, _] = signal_record(before, signal);
                self.bits[usize::from(frame)][range(word, width)].fill(true);
            }
            _ => {}
        }
    }

    /// Tells whether a placement has one of these bits of a frame.
    fn has_any(&self, frame: u16, offset: u16, width: u16) -> bool {
        self.bits[usize::from(frame)][range(offset, width)].contains(&true)
    }
}

/// Gives the numbers of so many bits from an offset on.
fn range(offset: u16, width: u16) -> std::ops::Range<usize> {
    usize::from(offset)..usize::from(offset) + usize::from(width)
}

/// Gives the position of the first word that is wrong, missing or surplus, if there is one.
pub fn first_fault(words: &[u16]) -> Option<usize> {
    let mut marks = Marks::none();
    for (position, &word) in words.iter().enumerate() {
        let before = &words[..position];
        if !is_right(&marks, before, word) {
            return Some(position);
        }
        marks.add(before, word);
    }
    let complete = words.len() >= section_begin(words, SECTIONS);
    if !complete || lacks_placements(words) {
        return Some(words.len());
    }
    None
}

/// Tells whether a word is right behind these right words; a surplus word is not.
fn is_right(marks: &Marks, before: &[u16], word: u16) -> bool {
    if let Some(&max) = COUNT_MAX.get(before.len()) {
        return word <= max;
    }
    match section_at(before) {
        Some(FRAMES) => frame_word_is_right(marks, before, word),
        Some(SIGNALS) => signal_word_is_right(before, word),
        Some(PLACEMENTS) => placement_word_is_right(marks, before, word),
        _ if lacks_placements(before) => false,
        Some(MEMBERS) => member_word_is_right(marks, before, word),
        Some(ENTRIES) => entry_word_is_right(before, word),
        _ => false,
    }
}

/// Gives the section of the word behind these words; the counts and surplus words are in none.
fn section_at(before: &[u16]) -> Option<usize> {
    let position = before.len();
    if position < COUNTS {
        return None;
    }
    (0..SECTIONS).find(|&section| position < section_begin(before, section + 1))
}

/// Gives the number of records of a section, 0 where the count is missing.
fn count(words: &[u16], section: usize) -> u16 {
    words.get(COUNT_PLACE[section]).copied().unwrap_or(0)
}

/// Gives the position where a section begins; behind the last section that is the table's length.
fn section_begin(words: &[u16], section: usize) -> usize {
    let mut position = COUNTS;
    for earlier in 0..section {
        position += usize::from(count(words, earlier)) * RECORD_WORDS[earlier];
    }
    position
}

/// Gives the complete records of a section and the words of a record only begun.
pub fn records<const SIZE: usize>(words: &[u16], section: usize) -> (&[[u16; SIZE]], &[u16]) {
    let begin = section_begin(words, section).min(words.len());
    let end = section_begin(words, section + 1).min(words.len());
    words[begin..end].as_chunks()
}

/// Gives the frame with this number, if there is one.
fn frame(words: &[u16], number: u16) -> Option<[u16; 3]> {
    let (frames, _) = records(words, FRAMES);
    frames.get(usize::from(number)).copied()
}

/// Gives the kind, the width and the start value of a signal that is there.
fn signal_record(words: &[u16], number: u16) -> [u16; 3] {
    records(words, SIGNALS).0[usize::from(number)]
}

/// Judges the identifier, the length or the flags of a frame.
fn frame_word_is_right(marks: &Marks, before: &[u16], word: u16) -> bool {
    match records::<3>(before, FRAMES).1 {
        [] => word <= IDENTIFIER_MAX && !marks.identifiers[usize::from(word)],
        [_] => (1..=LENGTH_MAX).contains(&word),
        _ => word <= FLAGS_MAX,
    }
}

/// Judges the kind, the width or the start value of a signal.
fn signal_word_is_right(before: &[u16], word: u16) -> bool {
    match *records::<3>(before, SIGNALS).1 {
        [] => word == SCALAR || word == ARRAY,
        [SCALAR] => (1..=SCALAR_WIDTH_MAX).contains(&word),
        [_] => (8..=ARRAY_WIDTH_MAX).contains(&word) && word % 8 == 0,
        [SCALAR, width] => u32::from(word) < 2_u32.pow(u32::from(width)),
        _ => word <= 255,
    }
}

/// Judges the signal number, the frame number or the offset of a placement.
fn placement_word_is_right(marks: &Marks, before: &[u16], word: u16) -> bool {
    let (placements, begun) = records::<3>(before, PLACEMENTS);
    let previous = placements.last().copied();
    match *begun {
        [] => {
            let number = previous.map(|[signal, _, _]| signal);
            number_follows(number, word) && word < count(before, SIGNALS)
        }
        [signal] => {
            frame(before, word).is_some()
                && marks.last_signal[usize::from(word)] != Some(signal)
                && is_published_alike(before, previous, signal, word)
        }
        [signal, frame, ..] => offset_is_right(marks, before, signal, frame, word),
    }
}

/// Tells whether a frame is published like the signal's placement before, if there is one.
fn is_published_alike(words: &[u16], previous: Option<[u16; 3]>, signal: u16, frame: u16) -> bool {
    match previous {
        Some([same, earlier, _]) if same == signal => {
            is_published(words, earlier) == is_published(words, frame)
        }
        _ => true,
    }
}

/// Judges the offset of a signal in a frame: inside it, and with no bit of an earlier placement.
fn offset_is_right(marks: &Marks, words: &[u16], signal: u16, frame: u16, offset: u16) -> bool {
    let [kind, width, _] = signal_record(words, signal);
    let bits = frame_bits(words, frame);
    offset < bits
        && (kind == SCALAR || offset % 8 == 0)
        && offset + width <= bits
        && !marks.has_any(frame, offset, width)
}

/// Gives the number of data bits of a frame, or 0 where there is no such frame.
fn frame_bits(words: &[u16], number: u16) -> u16 {
    frame(words, number).map_or(0, |[_, length, _]| 8 * length)
}

/// Tells whether the placements are over and the last signals have none.
fn lacks_placements(words: &[u16]) -> bool {
    let (placements, _) = records::<3>(words, PLACEMENTS);
    let placed = placements.last().map_or(0, |[signal, _, _]| signal + 1);
    words.len() >= section_begin(words, MEMBERS) && placed < count(words, SIGNALS)
}

/// Judges the list number or the frame number of a member.
fn member_word_is_right(marks: &Marks, before: &[u16], word: u16) -> bool {
    let (members, begun) = records::<2>(before, MEMBERS);
    match begun {
        [] => number_follows(members.last().map(|member| member[0]), word),
        _ => is_published(before, word) && !marks.members[usize::from(word)],
    }
}

/// Tells whether there is a frame with this number that the master publishes.
fn is_published(words: &[u16], number: u16) -> bool {
    matches!(frame(words, number), Some([_, _, 1 | 3]))
}

/// Judges a list, schedule or signal number by the one before it.
fn number_follows(previous: Option<u16>, number: u16) -> bool {
    match previous {
        None => number == 0,
        Some(previous) => number == previous || number == previous + 1,
    }
}

/// Judges the schedule number, the kind, the target or the delay of an entry.
fn entry_word_is_right(before: &[u16], word: u16) -> bool {
    let (entries, begun) = records::<4>(before, ENTRIES);
    match *begun {
        [] => number_follows(entries.last().map(|entry| entry[0]), word),
        [_] => [FRAME_SLOT, LIST_SLOT, REQUEST_SLOT, RESPONSE_SLOT].contains(&word),
        [_, FRAME_SLOT] => frame(before, word).is_some(),
        [_, LIST_SLOT] => is_list(before, word),
        [_, _] => word == 0,
        _ => word >= 1,
    }
}

/// Tells whether a list has this number; the last member is in the last list.
fn is_list(words: &[u16], number: u16) -> bool {
    let (members, _) = records::<2>(words, MEMBERS);
    members.last().is_some_and(|&[last, _]| number <= last)
}

#[cfg(test)]
#[path = "cluster_tests.rs"]
mod tests;
