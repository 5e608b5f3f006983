//! Tick lengths and bit times for the judge: slots exactly full, nearly so, limits and any.

use crate::random::Random;
use crate::tables::{Sections, ENTRIES};

/// A tick length and a bit time.
type Times = (usize, usize);

/// The largest tick length and the largest bit time.
const TIME_MAX: usize = 65_535;

/// Numbers at the ends of what the judge takes, and beyond them.
const LIMITS: [usize; 10] = [
    0,
    0,
    1,
    65_534,
    65_535,
    65_536,
    65_537,
    131_072,
    1 << 31,
    (1 << 32) - 1,
];

/// The least delay with which a slot may have more than 2^32 hundredths of a microsecond.
const LONG_DELAY: usize = 656;

/// The tenths of a bit time for each tick of a slot that is full at a tick of 7 and a bit time of 25.
const TENTHS_PER_TICK: usize = 28;

/// The largest number of times that all such slots may have that many ticks.
const DELAY_TIMES_MAX: usize = 1_057;

/// A slot of a right table.
#[derive(Clone, Copy)]
pub struct Slot {
    delay: usize,
    /// The data bytes of its longest frame.
    length: usize,
}

impl Slot {
    /// The longest time of its frame in tenths of a bit time.
    fn frame_tenths(self) -> usize {
        14 * (34 + 10 * (self.length + 1))
    }

    /// The hundredths of a microsecond that it has with a tick of one microsecond.
    fn hundredths(self) -> usize {
        100 * self.delay
    }

    /// The smallest tick length and bit time at which it is exactly full.
    fn full(self) -> Times {
        let (frame, slot) = (self.frame_tenths(), self.hundredths());
        let divisor = common_divisor(frame, slot);
        (frame / divisor, slot / divisor)
    }

    /// Tells whether its frame needs more of it than that of another slot does there.
    fn is_tighter(self, other: Slot) -> bool {
        self.frame_tenths() * other.hundredths() > other.frame_tenths() * self.hundredths()
    }
}

/// The greatest common divisor of two numbers.
fn common_divisor(one: usize, other: usize) -> usize {
    match other {
        0 => one,
        _ => common_divisor(other, one % other),
    }
}

/// The slots of a right table; none where there are no words.
pub fn slots(words: &[u16]) -> Vec<Slot> {
    let Some(counts) = words.first_chunk::<5>() else {
        return Vec::new();
    };
    let [frames, signals, members, _, placements] = counts.map(usize::from);
    let (frame_words, rest) = words[5..].split_at(3 * frames);
    let (member_words, entry_words) = rest[3 * (signals + placements)..].split_at(2 * members);
    let length = |frame: u16| usize::from(frame_words[3 * usize::from(frame) + 1]);
    let longest = |list: u16| {
        let members = member_words.chunks(2).filter(|member| member[0] == list);
        members.map(|member| length(member[1])).max()
    };
    let slot = |entry: &[u16]| Slot {
        delay: entry[3].into(),
        length: match entry[1] {
            0 => length(entry[2]),
            1 => longest(entry[2]).unwrap_or(8),
            _ => 8,
        },
    };
    entry_words.chunks(4).map(slot).collect()
}

/// A judge line, mostly with numbers that fill one of these slots or nearly do.
pub fn judge_line(random: &mut Random, slots: &[Slot]) -> String {
    let (tick, bit) = match random.below(20) {
        0..=2 => limit_times(random),
        3..=5 => any_times(random),
        6 => wrapping_times(random, slots),
        _ => near_times(random, slots),
    };
    match random.below(16) {
        0 => {
            let digits = random.between(2, 12);
            format!("judge {tick:0digits$} {bit:0digits$}")
        }
        _ => format!("judge {tick} {bit}"),
    }
}

/// One number or both at a limit.
fn limit_times(random: &mut Random) -> Times {
    let (tick, bit) = any_times(random);
    match random.below(3) {
        0 => (random.one_of(&LIMITS), bit),
        1 => (tick, random.one_of(&LIMITS)),
        _ => (random.one_of(&LIMITS), random.one_of(&LIMITS)),
    }
}

/// Any two numbers that the judge takes.
fn any_times(random: &mut Random) -> Times {
    (any_time(random), any_time(random))
}

/// A number that the judge takes, as often of few digits as of many.
fn any_time(random: &mut Random) -> usize {
    let most = TIME_MAX >> random.one_of(&[0, 0, 0, 3, 6, 9, 12]);
    random.between(1, most)
}

/// Numbers with which the longest slot has just above a multiple of 2^32 hundredths.
fn wrapping_times(random: &mut Random, slots: &[Slot]) -> Times {
    let longest = slots.iter().map(|slot| slot.hundredths()).max();
    let hundredths = longest.unwrap_or(1);
    match (hundredths * TIME_MAX) >> 32 {
        0 => any_times(random),
        most => {
            let multiple = random.between(1, most) << 32;
            let bit = random.between(TIME_MAX / 2, TIME_MAX);
            (multiple.div_ceil(hundredths), bit)
        }
    }
}

/// Numbers that fill a slot, in half of the cases the tightest one, or one of them one beside that.
fn near_times(random: &mut Random, slots: &[Slot]) -> Times {
    let tightest = slots.iter().copied().reduce(|tightest, slot| {
        if slot.is_tighter(tightest) {
            slot
        } else {
            tightest
        }
    });
    let Some(tightest) = tightest else {
        return any_times(random);
    };
    let any = random.one_of(slots);
    let slot = random.one_of(&[tightest, any]);
    let (tick, bit) = full_times(random, slot);
    match random.below(8) {
        0 | 1 => (tick - 1, bit),
        2 => (tick + 1, bit),
        3 => (tick, bit - 1),
        4 => (tick, bit + 1),
        _ => (tick, bit),
    }
}

/// Numbers that fill a slot exactly; once in three times, and where there are none, nearly.
fn full_times(random: &mut Random, slot: Slot) -> Times {
    let (tick, bit) = slot.full();
    let most = TIME_MAX / tick.max(bit);
    if most == 0 || random.once_in(3) {
        return least_times(random, slot);
    }
    let any = random.between(1, most);
    let times = random.one_of(&[1, any, any, most]);
    (times * tick, times * bit)
}

/// A bit time with the least tick at which a slot holds its frame, with some room left over.
fn least_times(random: &mut Random, slot: Slot) -> Times {
    let (frame, slot) = (slot.frame_tenths(), slot.hundredths());
    let most = (TIME_MAX * slot / frame).min(TIME_MAX);
    let any = random.between(1, most);
    let bit = random.one_of(&[any, any, any, 1, most]);
    ((frame * bit).div_ceil(slot), bit)
}

/// Gives the slots of a right table other delays: all of them exactly full at the same numbers but
/// for a few that are one tick shorter or longer, or all of them long; or leaves them.
pub fn change_delays(random: &mut Random, table: &mut Sections) {
    let any = random.between(1, DELAY_TIMES_MAX);
    let times = random.one_of(&[1, 2, any, DELAY_TIMES_MAX]);
    let kind = random.below(6);
    let slots = slots(&table.concat());
    for (entry, slot) in table[ENTRIES].chunks_mut(4).zip(slots) {
        entry[3] = match kind {
            0 => entry[3],
            1 => random.between(LONG_DELAY, 65_535) as u16,
            _ => (times * slot.frame_tenths() / TENTHS_PER_TICK) as u16,
        };
    }
    if kind > 2 {
        for _ in 0..random.between(1, 3) {
            change_one(random, table);
        }
    }
}

/// Makes the delay of one slot one tick shorter or, seldom, longer, where it can be.
fn change_one(random: &mut Random, table: &mut Sections) {
    let entries = table[ENTRIES].len() / 4;
    if entries > 0 {
        let delay = &mut table[ENTRIES][4 * random.below(entries) + 3];
        *delay = match random.below(4) {
            0 => delay.saturating_add(1),
            _ => (*delay - 1).max(1),
        };
    }
}
