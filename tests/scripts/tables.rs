//! Right cluster tables of all sizes.

use crate::random::Random;
use crate::signal_tables::{most_signals, right_signals, signal_in_each, Signals};

/// The words of a table by section: counts, frames, signals, placements, members, entries.
pub type Sections = [Vec<u16>; 6];

// The sections.
pub const COUNTS: usize = 0;
pub const FRAMES: usize = 1;
pub const SIGNALS: usize = 2;
pub const PLACEMENTS: usize = 3;
pub const MEMBERS: usize = 4;
pub const ENTRIES: usize = 5;

/// The place of each section's count among the counts; the counts have none themselves.
pub const COUNT_PLACE: [usize; 6] = [0, 0, 1, 4, 2, 3];

/// The most frames, signals, members and entries of a table.
pub const COUNT_MAX: [usize; 4] = [60, 256, 60, 256];

/// The most bytes of a line.
const LINE_LENGTH_MAX: usize = 20_000;

/// How large a table is to be.
#[derive(Clone, Copy, PartialEq, Eq)]
pub enum Size {
    Tiny,
    Small,
    Middle,
    Large,
    /// All counts at their limits.
    Limit,
}

impl Size {
    /// The numbers of frames, signals, members and entries to aim at.
    fn counts(self, random: &mut Random) -> [usize; 4] {
        let up_to = |random: &mut Random, most: [usize; 4]| most.map(|max| random.between(1, max));
        match self {
            Size::Tiny => up_to(random, [2, 3, 2, 3]),
            Size::Small => up_to(random, [6, 12, 6, 10]),
            Size::Middle => up_to(random, [16, 50, 16, 40]),
            Size::Large => up_to(random, COUNT_MAX),
            Size::Limit => COUNT_MAX,
        }
    }
}

/// A right table of about this size, made by the rules of the paper.
pub fn right_table(random: &mut Random, size: Size) -> Sections {
    let counts = size.counts(random);
    let frames = right_frames(random, counts[0], size == Size::Limit);
    let signals = if size == Size::Limit {
        most_signals(random, &frames)
    } else {
        right_signals(random, &frames, counts[1])
    };
    let members = right_members(random, &frames, counts[2]);
    let lists = members.last().map_or(0, |member| member[0] + 1);
    let entries = right_entries(random, counts[0] as u16, lists, counts[3]);
    sections(&frames, &signals, &members, &entries)
}

/// A right table with long lists, of short frames that all have a signal, and mostly list slots.
pub fn list_table(random: &mut Random) -> Sections {
    let count = random.between(3, 12);
    let mut frames = right_frames(random, count, true);
    frames
        .iter_mut()
        .for_each(|frame| frame[1] = random.between(1, 3) as u16);
    frames[random.below(count)][2] &= random.one_of(&[2, 3]);
    let signals = signal_in_each(random, &frames);
    let members = right_members(random, &frames, count);
    let lists = members
        .last()
        .map_or(0, |member| usize::from(member[0]) + 1);
    let mut entries = Vec::new();
    for at in 0..random.between(1, 8) {
        let (kind, target) = match random.below(5) {
            0 => (0, random.below(count)),
            _ => (1, random.below(lists)),
        };
        entries.push([
            at as u16 / 3,
            kind,
            target as u16,
            random.one_of(&[1, 1, 2]),
        ]);
    }
    sections(&frames, &signals, &members, &entries)
}

/// A right table of few frames, of all kinds, with a slot of each kind and long delays among them.
pub fn state_table(random: &mut Random) -> Sections {
    let count = random.between(2, 6);
    let mut frames = right_frames(random, count, false);
    frames[random.below(count)][2] |= 1;
    let signals = right_signals(random, &frames, 2 * count);
    let mut members = right_members(random, &frames, count);
    let kept = members.len() - random.below(members.len());
    members.truncate(kept);
    let lists = members[kept - 1][0] + 1;
    let mut slots = vec![(2, 0), (3, 0)];
    slots.extend((0..count).map(|frame| (0, frame as u16)));
    slots.extend((0..lists).map(|list| (1, list)));
    random.shuffle(&mut slots);
    let schedules = counted_numbers(random, slots.len(), &[1, 2, 4]);
    let mut entries = Vec::new();
    for (schedule, (kind, target)) in schedules.into_iter().zip(slots) {
        let delay = random.one_of(&[1, 1, 2, 3, 5, 255, 256, 65_535]);
        entries.push([schedule, kind, target, delay]);
    }
    sections(&frames, &signals, &members, &entries)
}

/// A right table of about this size without signals: frames of all lengths, slots of all kinds.
pub fn slot_table(random: &mut Random, size: Size) -> Sections {
    let counts = size.counts(random);
    let mut frames = right_frames(random, counts[0], size == Size::Limit);
    frames
        .iter_mut()
        .for_each(|frame| frame[1] = random.between(1, 8) as u16);
    let members = right_members(random, &frames, counts[2]);
    let lists = members.last().map_or(0, |member| member[0] + 1);
    let entries = right_entries(random, counts[0] as u16, lists, counts[3]);
    sections(&frames, &Signals::default(), &members, &entries)
}

/// A right table with as many frames, signals, lists and schedules as there may be.
pub fn numerous_table(random: &mut Random) -> Sections {
    let all_published = random.once_in(2);
    let mut frames = right_frames(random, COUNT_MAX[0], all_published);
    frames[59][2] |= 1;
    frames.iter_mut().for_each(|frame| frame[1] = 8);
    let signals = most_signals(random, &frames);
    let mut members = right_members(random, &frames, COUNT_MAX[2]);
    (0..)
        .zip(&mut members)
        .for_each(|(list, member)| member[0] = list);
    let mut entry = |schedule| match random.below(8) {
        0 => [schedule, random.one_of(&[2, 3]), 0, 1],
        1..=3 => [schedule, 1, random.below(members.len()) as u16, 1],
        _ => [schedule, 0, random.below(COUNT_MAX[0]) as u16, 1],
    };
    let entries: Vec<[u16; 4]> = (0..256).map(&mut entry).collect();
    sections(&frames, &signals, &members, &entries)
}

/// Joins the records of a table and counts them.
pub fn sections(
    frames: &[[u16; 3]],
    signals: &Signals,
    members: &[[u16; 2]],
    entries: &[[u16; 4]],
) -> Sections {
    let placements = signals.placements();
    let counts = [
        frames.len(),
        signals.records.len(),
        members.len(),
        entries.len(),
        placements.len(),
    ];
    [
        counts.map(|count| count as u16).to_vec(),
        frames.concat(),
        signals.records.concat(),
        placements.concat(),
        members.concat(),
        entries.concat(),
    ]
}

/// Frames with different identifiers; in some tables all are long or all are published.
pub fn right_frames(random: &mut Random, count: usize, all_published: bool) -> Vec<[u16; 3]> {
    let mut identifiers: Vec<u16> = (0..60).collect();
    random.shuffle(&mut identifiers);
    let long = all_published || random.once_in(5);
    let length_max = random.one_of(&[2, 4, 8]);
    let published = if all_published {
        100
    } else {
        random.one_of(&[20, 65, 65, 80])
    };
    let mut frame = |identifier| {
        let length = if long {
            8
        } else {
            random.between(1, length_max) as u16
        };
        let classic = if random.once_in(3) { 2 } else { 0 };
        [
            identifier,
            length,
            u16::from(random.percent(published)) + classic,
        ]
    };
    identifiers[..count]
        .iter()
        .map(|&identifier| frame(identifier))
        .collect()
}

/// At most this many members: published frames in any order, in one list or several.
pub fn right_members(random: &mut Random, frames: &[[u16; 3]], count: usize) -> Vec<[u16; 2]> {
    let numbers = 0..frames.len() as u16;
    let is_published = |&number: &u16| frames[usize::from(number)][2] & 1 == 1;
    let mut published: Vec<u16> = numbers.filter(is_published).collect();
    random.shuffle(&mut published);
    published.truncate(count);
    let lists = counted_numbers(random, published.len(), &[1, 4, 8, 64]);
    lists
        .into_iter()
        .zip(published)
        .map(|(list, frame)| [list, frame])
        .collect()
}

/// Numbers that begin with 0, each the one before or, once in one of these times, one more.
fn counted_numbers(random: &mut Random, count: usize, times: &[usize]) -> Vec<u16> {
    let step = random.one_of(times);
    let mut number = 0;
    let mut numbers = Vec::new();
    for at in 0..count {
        if at > 0 && random.once_in(step) {
            number += 1;
        }
        numbers.push(number);
    }
    numbers
}

/// This many entries of the kinds that frames and lists allow, in one schedule or several.
fn right_entries(random: &mut Random, frames: u16, lists: u16, count: usize) -> Vec<[u16; 4]> {
    let schedules = counted_numbers(random, count, &[1, 3, 3, 6, 16]);
    let of_lists = random.one_of(&[10, 40, 70]);
    let mut entries = Vec::new();
    for schedule in schedules {
        let delay = right_delay(random);
        let entry = if lists > 0 && random.percent(of_lists) {
            [schedule, 1, random.below(lists.into()) as u16, delay]
        } else if random.percent(60) {
            [schedule, 0, random.below(frames.into()) as u16, delay]
        } else {
            [schedule, random.one_of(&[2, 2, 3]), 0, delay]
        };
        entries.push(entry);
    }
    entries
}

/// A delay, mostly 1 to 3.
fn right_delay(random: &mut Random) -> u16 {
    match random.below(400) {
        0 => random.one_of(&[40, 255, 256, 65_534, 65_535]),
        1..=20 => random.between(4, 7) as u16,
        21..=220 => 1,
        _ => random.between(1, 3) as u16,
    }
}

/// The line for a table, once in sixteen times with zeros before its numbers, as many as fit.
pub fn table_line(random: &mut Random, words: &[u16]) -> String {
    let most = LINE_LENGTH_MAX / (words.len() + 2) - 1;
    let digits = if random.once_in(16) {
        random.below(7).min(most)
    } else {
        1
    };
    let mut line = "table".to_string();
    for word in words {
        line.push_str(&format!(" {word:0digits$}"));
    }
    line
}
