//! What is measured: records of two lengths at each density, clean and damaged, forward and backward, and what is moved
//! between the orders.

use crate::{calls, fast6250, fast800, fast_copy, fast_log, fast_order, Answer, Counts};

/// A seeded generator (splitmix64), so that every run measures the same records.
pub struct Seeded(pub u64);

impl Seeded {
    pub fn next(&mut self) -> u64 {
        self.0 = self.0.wrapping_add(0x9E37_79B9_7F4A_7C15);
        let mut z = self.0;
        z = (z ^ (z >> 30)).wrapping_mul(0xBF58_476D_1CE4_E5B9);
        z = (z ^ (z >> 27)).wrapping_mul(0x94D0_49BB_1331_11EB);
        z ^ (z >> 31)
    }

    pub fn below(&mut self, bound: usize) -> usize {
        (self.next() % bound as u64) as usize
    }
}

#[derive(Clone, Copy, PartialEq)]
pub enum Damage {
    Clean,
    /// One track that nobody points is wrong in one group.
    OneGroup,
    /// One track that nobody points is wrong in every group, or in half of the characters.
    OneTrack,
    /// One track that the drive points is wrong in every group.
    OnePointed,
    /// One track is wrong in every group, and the drive points at another.
    AnotherPointed,
    /// Two tracks that the drive points are wrong in every group.
    TwoPointed,
}

#[derive(Clone, Copy, PartialEq)]
pub enum Call {
    Write6250,
    Read6250 { backward: bool, damage: Damage },
    Log6250 { backward: bool, damage: Damage },
    /// The log of a clean reading, or of one with a mark in every group.
    ReadLog { marked: bool },
    Write800,
    Read800 { backward: bool, damage: Damage },
    /// A reading at 800, written at 6250, and the two calls that do the same one after the other.
    Copy800 { backward: bool, damage: Damage },
    ReadThenWrite { backward: bool, damage: Damage },
    /// Nine words, and a map, by the standard card.
    Order { physical: bool },
    MapOrder { physical: bool },
    /// The same by the record's card.
    CardOrder { physical: bool },
    CardMapOrder { physical: bool },
    InverseCard,
}

/// One record: its data, what lies on tape, the maps, and at 6250 the log of the reading. To be moved between the orders:
/// nine words on tape, one map, and a good card.
#[derive(Default)]
pub struct Record {
    pub data: Vec<u8>,
    pub tape: Vec<u16>,
    pub maps: Vec<u16>,
    pub log: Vec<u8>,
    pub card: Vec<u8>,
}

/// What the calls write to: words or maps, bytes, and the nine counts.
#[derive(Clone, PartialEq)]
pub struct Output {
    pub words: Vec<u16>,
    pub bytes: Vec<u8>,
    pub counts: Counts,
}

impl Output {
    /// Space for every record, full of a number.
    pub fn full_of(number: u8) -> Output {
        Output { words: vec![u16::from(number); 5280], bytes: vec![number; 4104], counts: [usize::from(number); 9] }
    }
}

fn data(seeded: &mut Seeded, length: usize) -> Vec<u8> {
    (0..length).map(|_| seeded.next() as u8).collect()
}

fn other_word(seeded: &mut Seeded, word: u16) -> u16 {
    loop {
        let byte = [seeded.next() as u8];
        let mut words = [0; 9];
        fast6250::write(&byte, &mut words);
        if words[1] != word {
            return words[1];
        }
    }
}

fn log_of(tape: &[u16], maps: &[u16], backward: bool) -> Vec<u8> {
    let mut log = vec![0; 3 * maps.len()];
    let Answer::Delivered([length, ..]) = RUST.log6250[usize::from(backward)](tape, maps, &mut log) else {
        panic!("every record that is measured is delivered");
    };
    log.truncate(length);
    log
}

fn record6250(seeded: &mut Seeded, length: usize, backward: bool, damage: Damage) -> Record {
    let data = data(seeded, length);
    let groups = length / 7 + 1;
    let (mut tape, mut maps) = (vec![0; 9 * groups], vec![0; groups]);
    fast6250::write(&data, &mut tape);
    let (first, second) = (seeded.below(9), seeded.below(8));
    let second = if second < first { second } else { second + 1 };
    let (wrong, pointed): (&[usize], &[usize]) = match damage {
        Damage::Clean => (&[], &[]),
        Damage::OneGroup | Damage::OneTrack => (&[first], &[]),
        Damage::OnePointed => (&[first], &[first]),
        Damage::AnotherPointed => (&[first], &[second]),
        Damage::TwoPointed => (&[first, second], &[first, second]),
    };
    let places = if damage == Damage::OneGroup { vec![seeded.below(groups)] } else { (0..groups).collect() };
    for g in places {
        for &track in wrong {
            tape[9 * g + track] = other_word(seeded, tape[9 * g + track]);
        }
        maps[g] = pointed.iter().map(|track| 1 << track).sum();
    }
    if backward {
        maps.reverse();
        tape = tape.chunks(9).rev().flatten().map(|word| word.reverse_bits() >> 6).collect();
    }
    let log = log_of(&tape, &maps, backward);
    Record { data, tape, maps, log, ..Record::default() }
}

fn record800(seeded: &mut Seeded, length: usize, backward: bool, damage: Damage) -> Record {
    let data = data(seeded, length);
    let mut tape = vec![0; length + 2];
    fast800::write(&data, &mut tape);
    if damage == Damage::OneTrack {
        let track = seeded.below(9);
        for character in &mut tape {
            *character ^= (seeded.next() as u16 & 1) << track;
        }
    }
    if backward {
        tape.reverse();
    }
    Record { data, tape, ..Record::default() }
}

/// For each physical track one of the numbers that are left, so that each of the nine stands once.
fn good_card(seeded: &mut Seeded) -> Vec<u8> {
    let mut left: Vec<u8> = (0..9).collect();
    (0..9).map(|_| left.swap_remove(seeded.below(left.len()))).collect()
}

fn record_to_move(seeded: &mut Seeded) -> Record {
    let tape = (0..9).map(|_| seeded.below(1024) as u16).collect();
    let maps = vec![seeded.below(512) as u16];
    Record { tape, maps, card: good_card(seeded), ..Record::default() }
}

/// A reading's direction and damage.
pub fn reading(backward: bool, damage: Damage) -> String {
    let direction = if backward { "backward" } else { "forward" };
    let damage = match damage {
        Damage::Clean => "clean",
        Damage::OneGroup => "one group wrong",
        Damage::OneTrack => "one track wrong",
        Damage::OnePointed => "one pointed",
        Damage::AnotherPointed => "another pointed",
        Damage::TwoPointed => "two pointed",
    };
    format!("{direction}, {damage}")
}

/// The order that something is moved to.
fn target(physical: bool) -> &'static str {
    if physical { "to head order" } else { "to code order" }
}

impl Call {
    pub fn record(self, seeded: &mut Seeded, length: usize) -> Record {
        match self {
            Call::Write6250 => record6250(seeded, length, false, Damage::Clean),
            Call::Read6250 { backward, damage } | Call::Log6250 { backward, damage } => record6250(seeded, length, backward, damage),
            Call::ReadLog { marked } => record6250(seeded, length, false, if marked { Damage::OneTrack } else { Damage::Clean }),
            Call::Write800 => record800(seeded, length, false, Damage::Clean),
            Call::Read800 { backward, damage } | Call::Copy800 { backward, damage } | Call::ReadThenWrite { backward, damage } => {
                record800(seeded, length, backward, damage)
            }
            Call::Order { .. } | Call::MapOrder { .. } | Call::CardOrder { .. } | Call::CardMapOrder { .. } | Call::InverseCard => record_to_move(seeded),
        }
    }

    pub fn name(self) -> String {
        match self {
            Call::Write6250 => "write 6250".to_string(),
            Call::Write800 => "write 800".to_string(),
            Call::Read6250 { backward, damage } => format!("read 6250 {}", reading(backward, damage)),
            Call::Log6250 { backward, damage } => format!("log 6250 {}", reading(backward, damage)),
            Call::ReadLog { marked: false } => "read log, clean".to_string(),
            Call::ReadLog { marked: true } => "read log, one mark in every group".to_string(),
            Call::Read800 { backward, damage } => format!("read 800 {}", reading(backward, damage)),
            Call::Copy800 { backward, damage } => format!("copy 800 {}", reading(backward, damage)),
            Call::ReadThenWrite { backward, damage } => format!("read 800 {}, then write 6250", reading(backward, damage)),
            Call::Order { physical } => format!("nine words {}", target(physical)),
            Call::MapOrder { physical } => format!("a map {}", target(physical)),
            Call::CardOrder { physical } => format!("nine words {} by a card", target(physical)),
            Call::CardMapOrder { physical } => format!("a map {} by a card", target(physical)),
            Call::InverseCard => "the inverse card".to_string(),
        }
    }

    /// The call by an implementation, on a record, into the outputs.
    pub fn run(self, by: &Implementation, record: &Record, Output { words, bytes, counts }: &mut Output) -> Answer {
        match self {
            Call::Write6250 => (by.write6250)(&record.data, words),
            Call::Read6250 { backward, .. } => by.read6250[usize::from(backward)](&record.tape, &record.maps, bytes, counts),
            Call::Log6250 { backward, .. } => by.log6250[usize::from(backward)](&record.tape, &record.maps, bytes),
            Call::ReadLog { .. } => (by.read_log)(record.maps.len(), &record.log, words, counts),
            Call::Write800 => (by.write800)(&record.data, words),
            Call::Read800 { backward, .. } => by.read800[usize::from(backward)](&record.tape, bytes, counts),
            Call::Copy800 { backward, .. } => by.copy800[usize::from(backward)](&record.tape, words, counts),
            Call::ReadThenWrite { backward, .. } => match by.read800[usize::from(backward)](&record.tape, bytes, counts) {
                Answer::Delivered([size, ..]) => (by.write6250)(&bytes[..size], words),
                refusal => refusal,
            },
            Call::Order { physical } => by.order[usize::from(physical)](&record.tape, words),
            Call::MapOrder { physical } => by.map_order[usize::from(physical)](record.maps[0]),
            Call::CardOrder { physical } => by.card_order[usize::from(physical)](&record.card, &record.tape, words),
            Call::CardMapOrder { physical } => by.card_map_order[usize::from(physical)](&record.card, record.maps[0]),
            Call::InverseCard => (by.inverse_card)(&record.card, bytes.first_chunk_mut().expect("the output has space for a card")),
        }
    }
}

/// The calls of one implementation: forward before backward, and to code order before to head order.
pub struct Implementation {
    write6250: fn(&[u8], &mut [u16]) -> Answer,
    read6250: [fn(&[u16], &[u16], &mut [u8], &mut Counts) -> Answer; 2],
    log6250: [fn(&[u16], &[u16], &mut [u8]) -> Answer; 2],
    read_log: fn(usize, &[u8], &mut [u16], &mut Counts) -> Answer,
    write800: fn(&[u8], &mut [u16]) -> Answer,
    read800: [fn(&[u16], &mut [u8], &mut Counts) -> Answer; 2],
    copy800: [fn(&[u16], &mut [u16], &mut Counts) -> Answer; 2],
    order: [fn(&[u16], &mut [u16]) -> Answer; 2],
    map_order: [fn(u16) -> Answer; 2],
    card_order: [fn(&[u8], &[u16], &mut [u16]) -> Answer; 2],
    card_map_order: [fn(&[u8], u16) -> Answer; 2],
    inverse_card: fn(&[u8], &mut [u8; 9]) -> Answer,
}

pub const LIBRARY: Implementation = Implementation {
    write6250: calls::write6250,
    read6250: [calls::read6250::<false>, calls::read6250::<true>],
    log6250: [calls::log6250::<false>, calls::log6250::<true>],
    read_log: calls::read_log,
    write800: calls::write800,
    read800: [calls::read800::<false>, calls::read800::<true>],
    copy800: [calls::copy800::<false>, calls::copy800::<true>],
    order: [calls::words_to_algebraic, calls::words_to_physical],
    map_order: [calls::map::<false>, calls::map::<true>],
    card_order: [calls::words_by_card::<false>, calls::words_by_card::<true>],
    card_map_order: [calls::map_by_card::<false>, calls::map_by_card::<true>],
    inverse_card: calls::inverse_card,
};

pub const RUST: Implementation = Implementation {
    write6250: fast6250::write,
    read6250: [fast6250::read::<false>, fast6250::read::<true>],
    log6250: [fast_log::write::<false>, fast_log::write::<true>],
    read_log: fast_log::read_back,
    write800: fast800::write,
    read800: [fast800::read::<false>, fast800::read::<true>],
    copy800: [fast_copy::copy::<false>, fast_copy::copy::<true>],
    order: [fast_order::to_algebraic, fast_order::to_physical],
    map_order: [fast_order::map::<false>, fast_order::map::<true>],
    card_order: [fast_order::words_by_card::<false>, fast_order::words_by_card::<true>],
    card_map_order: [fast_order::map_by_card::<false>, fast_order::map_by_card::<true>],
    inverse_card: fast_order::inverse_card,
};
