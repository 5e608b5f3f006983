//! Damaged and hostile cluster tables.

use crate::random::Random;
use crate::tables::{Sections, COUNTS, COUNT_PLACE, ENTRIES, FRAMES, MEMBERS, PLACEMENTS, SIGNALS};

/// The number of words of one record of each section.
pub const RECORD_WORDS: [usize; 6] = [1, 3, 3, 3, 2, 4];

/// Words at and around the ends of the ranges that the paper has.
const BORDERS: [u16; 25] = [
    1, 2, 3, 4, 7, 8, 9, 15, 16, 17, 56, 59, 60, 61, 63, 64, 65, 128, 255, 256, 257, 258, 511, 512,
    513,
];

/// A place in a table: its section, the later ones more often, and the number of the word in it.
pub fn place(random: &mut Random, table: &Sections) -> (usize, usize) {
    let sections = [0, 1, 1, 2, 2, 3, 3, 3, 3, 4, 4, 5, 5, 5].map(|section| {
        if table[section].is_empty() {
            0
        } else {
            section
        }
    });
    let section = random.one_of(&sections);
    (section, random.below(table[section].len().max(1)))
}

/// A word to stand at this place: at an end of a range, near the word there, from elsewhere in the table, or any.
fn other_word(random: &mut Random, table: &Sections, section: usize, at: usize) -> u16 {
    let word = table[section].get(at).copied().unwrap_or(0);
    match random.below(12) {
        0 => random.word(),
        1 => random.one_of(&[0, 65_535]),
        2 | 3 => random.one_of(&BORDERS),
        4 | 5 => word.wrapping_add(1),
        6 | 7 => word.wrapping_sub(1),
        8 => any_word(random, table).unwrap_or(word),
        _ => same_column(random, table, section, at).unwrap_or(word),
    }
}

/// Any word of a table.
fn any_word(random: &mut Random, table: &Sections) -> Option<u16> {
    let words = table.concat();
    words.get(random.below(words.len().max(1))).copied()
}

/// The word of any record of this section that stands in the same column as the word at this place.
fn same_column(random: &mut Random, table: &Sections, section: usize, at: usize) -> Option<u16> {
    let size = RECORD_WORDS[section];
    let record = random.below((table[section].len() / size).max(1));
    table[section].get(record * size + at % size).copied()
}

/// Replaces one word.
fn replace_word(random: &mut Random, table: &mut Sections) {
    let (section, at) = place(random, table);
    let word = other_word(random, table, section, at);
    if let Some(place) = table[section].get_mut(at) {
        *place = word;
    }
}

/// Takes one word out.
fn take_word_out(random: &mut Random, table: &mut Sections) {
    let (section, at) = place(random, table);
    if at < table[section].len() {
        table[section].remove(at);
    }
}

/// Puts one word in.
fn put_word_in(random: &mut Random, table: &mut Sections) {
    let (section, at) = place(random, table);
    let word = other_word(random, table, section, at);
    table[section].insert(at, word);
}

/// Cuts a table short at any place.
fn cut_short(random: &mut Random, table: &mut Sections) {
    let (section, at) = place(random, table);
    table[section].truncate(at);
    table[section + 1..].iter_mut().for_each(Vec::clear);
}

/// Puts one to five words behind the last one.
fn lengthen(random: &mut Random, table: &mut Sections) {
    for _ in 0..1 + random.below(5) {
        let word = other_word(random, table, ENTRIES, 0);
        table[ENTRIES].push(word);
    }
}

/// Repeats a record at another place of its section and counts it, so that identifiers, bits or frames come twice.
fn repeat_record(random: &mut Random, table: &mut Sections) {
    let section = random.between(FRAMES, ENTRIES);
    let size = RECORD_WORDS[section];
    let records = table[section].len() / size;
    if records > 0 {
        let from = size * random.below(records);
        let to = size * random.below(records + 1);
        let record = table[section][from..from + size].to_vec();
        table[section].splice(to..to, record);
        change_count(table, section, 1);
    }
}

/// Adds to the number of records of a section.
fn change_count(table: &mut Sections, section: usize, difference: i16) {
    if let Some(count) = table[COUNTS].get_mut(COUNT_PLACE[section]) {
        *count = count.saturating_add_signed(difference);
    }
}

/// Copies a record over another one of its section, mostly an early one over a late one.
fn copy_record(random: &mut Random, table: &mut Sections) {
    let section = random.one_of(&[FRAMES, SIGNALS, PLACEMENTS, PLACEMENTS, MEMBERS, ENTRIES]);
    let size = RECORD_WORDS[section];
    let records = table[section].len() / size;
    if records > 0 {
        let from = early(random, records);
        let to = records - 1 - early(random, records);
        table[section].copy_within(size * from..size * (from + 1), size * to);
    }
}

/// A number below this count, mostly small.
fn early(random: &mut Random, count: usize) -> usize {
    let most = random.below(count);
    random.below(most + 1)
}

/// Takes out the last placements, so that the last signals have none or fewer of them.
fn drop_placements(random: &mut Random, table: &mut Sections) {
    let records = table[PLACEMENTS].len() / 3;
    let few = random.between(0, records.min(3));
    let dropped = random.one_of(&[few, few, few, records]);
    table[PLACEMENTS].truncate(3 * (records - dropped));
    change_count(table, PLACEMENTS, -(dropped as i16));
}

/// Puts a signal in that has no placement, mostly behind the others.
fn add_signal(random: &mut Random, table: &mut Sections) {
    let records = table[SIGNALS].len() / 3;
    let any = random.between(0, records);
    let at = 3 * random.one_of(&[records, records, any]);
    table[SIGNALS].splice(at..at, [0, 1, 0]);
    change_count(table, SIGNALS, 1);
}

/// Takes out all placements of one signal.
fn skip_signal(random: &mut Random, table: &mut Sections) {
    let signals = table[SIGNALS].len() / 3;
    let skipped = random.below(signals.max(1)) as u16;
    let placements = table[PLACEMENTS].chunks_exact(3);
    let kept: Vec<u16> = placements
        .filter(|placement| placement[0] != skipped)
        .flatten()
        .copied()
        .collect();
    let dropped = (table[PLACEMENTS].len() - kept.len()) / 3;
    table[PLACEMENTS] = kept;
    change_count(table, PLACEMENTS, -(dropped as i16));
}

/// Changes which of the frames with a placement is published, so that publishers are mixed.
fn turn_publisher(random: &mut Random, table: &mut Sections) {
    let placements = table[PLACEMENTS].len() / 3;
    let at = 3 * random.below(placements.max(1));
    let frame = table[PLACEMENTS].get(at + 1).copied().unwrap_or(0);
    if let Some(flags) = table[FRAMES].get_mut(3 * usize::from(frame) + 2) {
        *flags ^= 1;
    }
}

/// Gives a placement the signal, the frame or the offset of the one before it, or two of these.
fn repeat_placement(random: &mut Random, table: &mut Sections) {
    let placements = table[PLACEMENTS].len() / 3;
    if placements > 1 {
        let at = 3 * random.between(1, placements - 1);
        let (first, end) = random.one_of(&[(0, 1), (0, 2), (1, 2), (1, 2), (1, 3), (2, 3)]);
        let before = at - 3;
        table[PLACEMENTS].copy_within(before + first..before + end, at + first);
    }
}

/// Puts a placement into the same frame and over a bit of another one.
fn overlap_placement(random: &mut Random, table: &mut Sections) {
    let placements = table[PLACEMENTS].len() / 3;
    if placements > 1 {
        let late = random.between(1, placements - 1);
        let early = random.below(late);
        let [_, frame, offset] = [0, 1, 2].map(|column| table[PLACEMENTS][3 * early + column]);
        let signal = usize::from(table[PLACEMENTS][3 * early]);
        let width = table[SIGNALS].get(3 * signal + 1).copied().unwrap_or(1);
        let near = [offset, offset, offset + width - 1, offset + width];
        table[PLACEMENTS][3 * late + 1] = frame;
        table[PLACEMENTS][3 * late + 2] = random.one_of(&near);
    }
}

/// Makes the number of placements another one, with the placements as they are.
fn miscount_placements(random: &mut Random, table: &mut Sections) {
    let count = (table[PLACEMENTS].len() / 3) as u16;
    let counts = [count + 1, count.saturating_sub(1), 0, 511, 512, 513, 65_535];
    if let Some(word) = table[COUNTS].get_mut(COUNT_PLACE[PLACEMENTS]) {
        *word = random.one_of(&counts);
    }
}

/// Damages the placements of a table.
fn damage_placements(random: &mut Random, table: &mut Sections) {
    match random.below(8) {
        0 => drop_placements(random, table),
        1 => add_signal(random, table),
        2 => skip_signal(random, table),
        3 => turn_publisher(random, table),
        4 | 5 => repeat_placement(random, table),
        6 => overlap_placement(random, table),
        _ => miscount_placements(random, table),
    }
}

/// Damages a table once, in half of the cases by replacing a word.
fn damage(random: &mut Random, table: &mut Sections) {
    match random.below(24) {
        0 => take_word_out(random, table),
        1 => put_word_in(random, table),
        2 => cut_short(random, table),
        3 => lengthen(random, table),
        4 | 5 => repeat_record(random, table),
        6 | 7 => copy_record(random, table),
        8..=12 => damage_placements(random, table),
        _ => replace_word(random, table),
    }
}

/// A copy of a table with one damage, one time in six with two.
pub fn damaged_table(random: &mut Random, table: &Sections) -> Sections {
    let mut table = table.clone();
    damage(random, &mut table);
    if random.once_in(6) {
        damage(random, &mut table);
    }
    table
}

/// Random words, huge counts or counts without their records.
pub fn hostile_words(random: &mut Random) -> Vec<u16> {
    let count = random.one_of(&[0, 1, 4, 5, 6, 40, 40, 300, 3_632, 3_633, 3_634]);
    let small = random.once_in(2);
    let mut words: Vec<u16> = (0..count)
        .map(|_| {
            if small {
                random.below(5) as u16
            } else {
                random.word()
            }
        })
        .collect();
    let counts = match random.below(4) {
        0 => [60, 256, 60, 256, 512],
        1 => [65_535; 5],
        2 => [62, 258, 0, 1, 514].map(|end| random.below(end.max(1)) as u16),
        _ => return words,
    };
    let counted = words.len().min(5);
    words[..counted].copy_from_slice(&counts[..counted]);
    words
}
