//! Seeded readings at 6250, damaged in the ways that document 01 speaks of and in combinations of them.
//! The library and the reader of these tests answer each, and their outputs are compared whole.

use crate::library::{self, only, Answer, Direction};
use crate::reading6250::{self, byte_of, turned};
use crate::record6250::{body, word, words_of_body};
use crate::vectors::{BEHIND, LENT_BYTE};
use crate::{Seeded, Tried};

const CASES: usize = 200_000;

/// A reading in forward order.
pub struct Reading {
    pub words: Vec<u16>,
    pub maps: Vec<u16>,
}

impl Reading {
    /// The words and maps as they come in a direction.
    pub fn in_direction(self, direction: Direction) -> (Vec<u16>, Vec<u16>) {
        match direction {
            Direction::Forward => (self.words, self.maps),
            Direction::Backward => turned(&self.words, &self.maps),
        }
    }
}

/// Short data mostly, and the limits: 4,101 bytes are 586 groups.
fn random_data(seeded: &mut Seeded, case: usize) -> Vec<u8> {
    let length = match case % 64 {
        0 => 4101 - seeded.index(14),
        1..=3 => seeded.index(700),
        _ => seeded.index(30),
    };
    // zero bytes before the padding show whether it is told from the data
    let mask = [0xFF, 0xFF, 0xFF, 0x81, 0x01, 0][seeded.index(6)];
    (0..length).map(|_| seeded.next() as u8 & mask).collect()
}

/// Makes the last byte another one, too large or not, or one of the bytes that it counts nonzero.
fn break_padding(seeded: &mut Seeded, body: &mut [u8]) {
    let last = body.len() - 1;
    match seeded.below(4) {
        0 => body[last] = 7 + seeded.below(249) as u8,
        1 => body[last] = seeded.below(9) as u8,
        _ => {
            let padding = 1 + seeded.index(6);
            body[last - padding..last].fill(0);
            body[last] = padding as u8;
            body[last - 1 - seeded.index(padding)] = 1 + seeded.below(255) as u8;
        }
    }
}

fn illegal(seeded: &mut Seeded) -> u16 {
    loop {
        let word = seeded.below(1024) as u16;
        if byte_of(word).is_none() {
            return word;
        }
    }
}

/// The tracks in any order, so that a few in front are a choice of tracks.
pub fn shuffled(seeded: &mut Seeded) -> [usize; 9] {
    let mut tracks = [0, 1, 2, 3, 4, 5, 6, 7, 8];
    for k in (1..9).rev() {
        tracks.swap(k, seeded.index(k + 1));
    }
    tracks
}

pub fn map_of(tracks: &[usize]) -> u16 {
    tracks.iter().map(|track| 1 << track).sum()
}

/// Damages some tracks of a group: exchanges them, or gives them other words, all in one way or each in its own.
fn damage_tracks(seeded: &mut Seeded, words: &mut [u16], tracks: &[usize]) {
    let way = seeded.below(6);
    if way == 5 {
        tracks.windows(2).for_each(|pair| words.swap(pair[0], pair[1]));
        return;
    }
    for &track in tracks {
        match if way == 4 { seeded.below(4) } else { way } {
            0 => words[track] = word(seeded.next() as u8),
            1 => words[track] = seeded.below(1024) as u16,
            2 => words[track] = illegal(seeded),
            _ => words[track] ^= 1 << seeded.below(10),
        }
    }
}

/// Damages up to three tracks of a group, or all, and points at tracks that need not be the damaged ones:
/// the pointed ones follow one another in the same choice of tracks, from a damaged or a healthy one on.
pub fn damage_group(seeded: &mut Seeded, words: &mut [u16], map: &mut u16) {
    let tracks = shuffled(seeded);
    let damaged = match seeded.below(16) {
        0 | 1 => 0,
        2..=7 => 1,
        8..=13 => 2,
        14 => 3,
        _ => 9,
    };
    damage_tracks(seeded, words, &tracks[..damaged]);
    *map |= match seeded.below(16) {
        0..=5 => 0,
        6..=9 => map_of(&tracks[..damaged]),
        10..=14 => {
            let from = seeded.index(damaged.min(3) + 1);
            map_of(&tracks[from..from + [0, 1, 1, 2, 2, 3][seeded.index(6)]])
        }
        _ => seeded.below(512) as u16,
    };
}

/// Damages the same tracks in every group, as a weak head does, and points at them, at others or at none.
fn damage_record(seeded: &mut Seeded, reading: &mut Reading) {
    let tracks = shuffled(seeded);
    let damaged = 1 + seeded.index(2);
    let pointed = [0, map_of(&tracks[..damaged]), map_of(&tracks[1..3])][seeded.index(3)];
    let exchanged = seeded.once_in(4);
    for (group, map) in reading.words.chunks_mut(9).zip(&mut reading.maps) {
        if exchanged {
            group.swap(tracks[0], tracks[1]);
        } else {
            damage_tracks(seeded, group, &tracks[..damaged]);
        }
        *map |= pointed;
    }
}

/// Gives track 8 even parity in every group, as a record had it before request 2.2.
pub fn make_even(words: &mut [u16]) {
    for group in words.chunks_mut(9) {
        let byte = byte_of(group[8]).expect("a written word is legal");
        group[8] = word(!byte);
    }
}

/// A word or a map beyond its width, by one or by anything.
fn stray(seeded: &mut Seeded, reading: &mut Reading) {
    let place = seeded.index(reading.maps.len());
    let (numbers, place, limit) = match seeded.below(2) {
        0 => (&mut reading.words, 9 * place + seeded.index(9), 1024),
        _ => (&mut reading.maps, place, 512),
    };
    numbers[place] = if seeded.once_in(3) { limit } else { limit + seeded.below(65536 - u64::from(limit)) as u16 };
}

/// Lengths that do not suit, and a whole number of groups less, which does.
fn wrong_lengths(seeded: &mut Seeded, reading: &mut Reading) {
    let (words, maps) = (reading.words.len(), reading.maps.len());
    match seeded.below(10) {
        0 => reading.words.truncate(words - 1 - seeded.index(9)),
        1 => reading.words.resize(words + 1 + seeded.index(9), word(0)),
        2 => reading.maps.truncate(maps - 1),
        3 => reading.maps.push(0),
        4 => reading.maps.clear(),
        5 => reading.words.clear(),
        6 => *reading = Reading { words: vec![], maps: vec![] },
        7 => reading.maps.resize(words, 0),
        8 => *reading = Reading { words: words_of_body(&[0; 7 * 587]), maps: vec![0; 587] },
        _ => {
            let left = seeded.index(maps);
            reading.words.truncate(9 * left);
            reading.maps.truncate(left);
        }
    }
}

/// A reading of the record of these data, undamaged or damaged in one way or in several.
pub fn random_reading(seeded: &mut Seeded, data: &[u8]) -> Reading {
    let mut body = body(data);
    if seeded.once_in(10) {
        break_padding(seeded, &mut body);
    }
    let groups = body.len() / 7;
    let mut reading = Reading { words: words_of_body(&body), maps: vec![0; groups] };
    if seeded.once_in(16) {
        make_even(&mut reading.words);
    }
    for _ in 0..[0, 1, 1, 1, 2, 3][seeded.index(6)] {
        let place = seeded.index(groups);
        damage_group(seeded, &mut reading.words[9 * place..9 * place + 9], &mut reading.maps[place]);
    }
    if seeded.once_in(16) {
        damage_record(seeded, &mut reading);
    }
    if seeded.once_in(16) {
        stray(seeded, &mut reading);
        if seeded.once_in(2) {
            stray(seeded, &mut reading);
        }
    }
    if seeded.once_in(16) {
        wrong_lengths(seeded, &mut reading);
    }
    reading
}

/// How a case is told; a long one by its number and lengths only.
pub fn told(case: usize, words: &[u16], maps: &[u16]) -> String {
    match maps.len() {
        0..=5 => format!("case {case}: words {words:?}, maps {maps:?}"),
        groups => format!("case {case}: {} words, {groups} maps", words.len()),
    }
}

/// One reading answered by the library and by the reader of these tests; what the latter answered.
fn compare(tried: &mut Tried, direction: Direction, reading: Reading, space: usize) -> Answer {
    let (words, maps) = reading.in_direction(direction);
    let mut output = vec![LENT_BYTE; space + BEHIND];
    let mut after = vec![LENT_BYTE; space + BEHIND];
    let got = library::read6250(direction, &words, &maps, &mut output[..space]);
    let want = reading6250::read(direction, &words, &maps, &mut after[..space]);
    if got != want || output != after {
        tried.wrong.push(format!("{}, space {space}: {got:?} for {want:?}", told(tried.cases, &words, &maps)));
    }
    tried.cases += 1;
    want
}

/// Every number as a word of every track of a group, and every number as its map.
pub fn every_number(direction: Direction) -> Tried {
    let mut tried = Tried::default();
    let words = words_of_body(&body(&[212]));
    for number in 0..=u16::MAX {
        for track in 0..9 {
            let mut damaged = words.clone();
            damaged[track] = number;
            compare(&mut tried, direction, Reading { words: damaged, maps: vec![0] }, 6);
        }
        compare(&mut tried, direction, Reading { words: words.clone(), maps: vec![number] }, 6);
    }
    tried
}

/// Every track pointed by the drive against every track wrong, by every word of ten bits, in the last group of seeded
/// records: that track alone, which must be corrected, with any other one, and with the pointed one.
pub fn one_pointer(direction: Direction) -> Tried {
    let mut seeded = Seeded(23 + matches!(direction, Direction::Backward) as u64);
    let mut tried = Tried::default();
    let (mut answers, mut another) = ([0; 7], 0);
    let tracks = || (0..9).flat_map(|pointed| (0..9).map(move |wrong| (pointed, wrong)));
    for ((pointed, wrong), number) in tracks().flat_map(|pair| (0..1024).map(move |number| (pair, number))) {
        for way in 0..3 {
            let length = seeded.index(21);
            let data: Vec<u8> = (0..length).map(|_| seeded.next() as u8).collect();
            let groups = length / 7 + 1;
            let mut reading = Reading { words: words_of_body(&body(&data)), maps: vec![0; groups] };
            let group = &mut reading.words[9 * groups - 9..];
            let changed = group[wrong] != number;
            group[wrong] = number;
            match way {
                0 => {}
                1 => group[seeded.index(9)] = word(seeded.next() as u8),
                _ => group[pointed] = word(seeded.next() as u8),
            }
            reading.maps[groups - 1] = 1 << pointed;
            let answer = compare(&mut tried, direction, reading, 7 * groups);
            answers[answer.number()] += 1;
            if way == 0 {
                another += usize::from(changed && pointed != wrong && byte_of(number).is_some());
                if answer != Answer::counted(&[length as u64, u64::from(changed)], only(wrong, u64::from(changed))) {
                    tried.wrong.push(format!("track {pointed} pointed, track {wrong} made {number}: {answer:?}"));
                }
            }
        }
    }
    tried.tell_answers(&answers, &[0, 5]);
    tried.remarks.push(format!("one legal word wrong on another track than the pointed one: {another}"));
    tried
}

pub fn random_readings(direction: Direction) -> Tried {
    let mut seeded = Seeded(matches!(direction, Direction::Backward) as u64);
    let mut tried = Tried::default();
    let (mut answers, mut changed) = ([0; 7], 0);
    for case in 0..CASES {
        let data = random_data(&mut seeded, case);
        let reading = random_reading(&mut seeded, &data);
        let space = seeded.space((7 * reading.maps.len()).saturating_sub(1));
        let answer = compare(&mut tried, direction, reading, space);
        answers[answer.number()] += 1;
        changed += usize::from(matches!(answer, Answer::Delivered(values) if values[1] > 0));
    }
    tried.tell_answers(&answers, &[0, 1, 2, 3, 4, 5, 6]);
    tried.remarks.push(format!("deliveries with changed words: {changed}"));
    tried
}
