//! Seeded records and readings at 800, damaged in the ways that document 01 speaks of and in combinations of them.
//! The library and the implementation of these tests answer each, and their outputs are compared whole. A reading is read,
//! or copied (`damage_copy`).

use crate::library::{self, Answer, Direction};
use crate::reading800::{self, in_direction};
use crate::record800::{self, written, G2};
use crate::vectors::{From800, BEHIND, LENT, LENT_BYTE};
use crate::{Seeded, Tried};

const CASES: usize = 250_000;

/// The answers that document 01 has for reading at 800.
const READING: [usize; 6] = [0, 1, 2, 3, 7, 8];

/// Short data mostly, and the limit: 2,048 bytes.
pub fn random_data(seeded: &mut Seeded, case: usize) -> Vec<u8> {
    let length = match case % 64 {
        0 => 2048 - [0, seeded.index(20)][seeded.index(2)],
        1..=3 => 1 + seeded.index(700),
        _ => 1 + seeded.index(40),
    };
    let mask = [0xFF, 0xFF, 0xFF, 0x81, 0x01, 0][seeded.index(6)];
    (0..length).map(|_| seeded.next() as u8 & mask).collect()
}

/// Places of a reading in which a track may be wrong: one, some of the last two, a few, or about half of all.
/// A place may come twice, and the track is then right in it.
pub fn some_places(seeded: &mut Seeded, length: usize) -> Vec<usize> {
    match seeded.below(4) {
        0 => vec![seeded.index(length)],
        1 => vec![length - 1 - seeded.index(2), length - 1 - seeded.index(3)],
        2 => (0..1 + seeded.index(5)).map(|_| seeded.index(length)).collect(),
        _ => (0..length).filter(|_| seeded.below(2) == 1).collect(),
    }
}

pub fn flip(characters: &mut [u16], places: &[usize], bits: u16) {
    for &place in places {
        characters[place] ^= bits;
    }
}

fn one_track(seeded: &mut Seeded, characters: &mut [u16]) {
    let places = some_places(seeded, characters.len());
    flip(characters, &places, 1 << seeded.below(9));
}

/// Two tracks wrong, in the same characters, which keep their parity, or each in its own.
fn two_tracks(seeded: &mut Seeded, characters: &mut [u16]) {
    let first = seeded.index(9);
    let second = (first + 1 + seeded.index(8)) % 9;
    let places = some_places(seeded, characters.len());
    flip(characters, &places, 1 << first);
    let others = if seeded.once_in(2) { places } else { some_places(seeded, characters.len()) };
    flip(characters, &others, 1 << second);
}

fn single_bits(seeded: &mut Seeded, characters: &mut [u16]) {
    for _ in 0..1 + seeded.index(3) {
        let place = seeded.index(characters.len());
        characters[place] ^= 1 << seeded.below(9);
    }
}

/// Some characters, or all, made anything.
fn noise(seeded: &mut Seeded, characters: &mut [u16]) {
    for place in some_places(seeded, characters.len()) {
        characters[place] = seeded.below(512) as u16;
    }
}

/// Makes a track wrong in the characters whose indices are the powers of a multiple of G2: G2 times some powers.
/// The number of wrong characters, the longitudinal one among them, is even mostly; then each track fits.
pub fn multiple_of_g2(seeded: &mut Seeded, characters: &mut [u16]) {
    let n = characters.len() - 2;
    if n < 8 {
        return one_track(seeded, characters);
    }
    let bit = 1 << seeded.below(9);
    let terms = [1, 1, 2, 3, 1 + seeded.index(n)][seeded.index(5)];
    for _ in 0..terms {
        let shift = seeded.index(n - 7);
        flip(characters, &G2.map(|power| n - power - shift), bit);
    }
    let even = !seeded.once_in(4);
    if even == (terms % 2 == 1) {
        flip(characters, &[n + 1], bit);
    }
}

/// Makes a track wrong in two characters at a distance around 17, the exponent of G, or around a multiple of it.
fn far_apart(seeded: &mut Seeded, characters: &mut [u16]) {
    let n = characters.len() - 2;
    if n < 18 {
        return one_track(seeded, characters);
    }
    let distance = 17 * (1 + seeded.index((n - 1) / 17)) + [0, 0, 0, 1][seeded.index(4)];
    let first = seeded.index(n + 1 - distance.min(n));
    flip(characters, &[first, first + distance.min(n)], 1 << seeded.below(9));
}

pub fn damage(seeded: &mut Seeded, characters: &mut [u16]) {
    match seeded.below(16) {
        0..=4 => one_track(seeded, characters),
        5 | 6 => two_tracks(seeded, characters),
        7 | 8 => single_bits(seeded, characters),
        9 => noise(seeded, characters),
        10..=13 => multiple_of_g2(seeded, characters),
        _ => far_apart(seeded, characters),
    }
}

/// A character beyond its width: by one of the upper bits, by all, or anything.
fn stray(seeded: &mut Seeded, characters: &mut [u16]) {
    let place = match seeded.below(4) {
        0 => characters.len() - 1 - seeded.index(2),
        1 => 0,
        _ => seeded.index(characters.len()),
    };
    match seeded.below(3) {
        0 => characters[place] = 512,
        1 => characters[place] |= 512 << seeded.below(7),
        _ => characters[place] = 512 + seeded.below(65536 - 512) as u16,
    }
}

/// Lengths beyond the limits, and lengths within them that are not the record's.
fn wrong_length(seeded: &mut Seeded, characters: &mut Vec<u16>) {
    match seeded.below(6) {
        0 => characters.truncate(seeded.index(3)),
        1 => characters.resize(2051, 256),
        2 => *characters = [written(&vec![0; 2048]), vec![256; 1 + seeded.index(5)]].concat(),
        3 => *characters = characters.split_off(1),
        4 => characters.truncate(characters.len() - 1),
        _ => characters.push(256),
    }
}

/// A reading of some record in forward order, undamaged or damaged in one way or in several.
fn random_reading(seeded: &mut Seeded, case: usize) -> Vec<u16> {
    let mut characters = written(&random_data(seeded, case));
    for _ in 0..[0, 1, 1, 1, 1, 2][seeded.index(6)] {
        damage(seeded, &mut characters);
    }
    if seeded.once_in(16) {
        stray(seeded, &mut characters);
        if seeded.once_in(2) {
            stray(seeded, &mut characters);
        }
    }
    if seeded.once_in(16) {
        wrong_length(seeded, &mut characters);
    }
    characters
}

/// How a case is told; a long one by its number and length only.
fn told(case: usize, characters: &[u16]) -> String {
    match characters.len() {
        0..=50 => format!("case {case}: characters {characters:?}"),
        length => format!("case {case}: {length} characters"),
    }
}

/// A reading as it comes, and the space that is lent for what is made of it.
pub struct Case<'a> {
    pub direction: Direction,
    pub characters: &'a [u16],
    pub space: usize,
}

impl Case<'_> {
    /// Finds fault with what came of this case.
    pub fn wrong(&self, tried: &mut Tried, what: &str) {
        tried.wrong.push(format!("{:?}, {}, space {}: {what}", self.direction, told(tried.cases, self.characters), self.space));
    }
}

/// One reading answered by the library and by another that is to answer as it does, each with an output full of `lent`;
/// what the latter answered.
pub fn compare<T: Copy + PartialEq>(tried: &mut Tried, case: &Case, lent: T, library: From800<T>, other: From800<T>) -> Answer {
    let mut output = vec![lent; case.space + BEHIND];
    let mut after = vec![lent; case.space + BEHIND];
    let got = library(case.direction, case.characters, &mut output[..case.space]);
    let want = other(case.direction, case.characters, &mut after[..case.space]);
    if got != want || output != after {
        let differs = if output == after { "" } else { ", outputs differ" };
        case.wrong(tried, &format!("{got:?} for {want:?}{differs}"));
    }
    tried.cases += 1;
    want
}

/// A way to ask for what is made of a reading.
pub struct Asked {
    pub seed: u64,
    /// The least space for what is made of so many characters.
    pub space: fn(usize) -> usize,
    /// Tries a case and gives its answer.
    pub answer: fn(&mut Tried, &Case) -> Answer,
}

impl Asked {
    /// Asks for a reading that stands in forward order.
    pub fn ask(&self, tried: &mut Tried, direction: Direction, reading: &[u16], space: usize) -> Answer {
        (self.answer)(tried, &Case { direction, characters: &in_direction(direction, reading), space })
    }
}

/// The data of a reading, as the reader of these tests gives them.
pub const READ: Asked = Asked {
    seed: 800,
    space: |characters| characters.saturating_sub(2),
    answer: |tried, case| compare(tried, case, LENT_BYTE, library::read800, reading800::read),
};

/// Every number as every character of a record of one byte.
pub fn every_number(asked: &Asked, direction: Direction) -> Tried {
    let mut tried = Tried::default();
    for number in 0..=u16::MAX {
        for place in 0..3 {
            let mut characters = written(&[212]);
            characters[place] = number;
            asked.ask(&mut tried, direction, &characters, (asked.space)(3));
        }
    }
    tried
}

/// Every track wrong in every choice of the characters of a record, up to n = 10.
pub fn every_choice(asked: &Asked, direction: Direction) -> Tried {
    let mut seeded = Seeded(800);
    let mut tried = Tried::default();
    let mut answers = [0; 9];
    for n in 1..=10 {
        let record = written(&(0..n).map(|_| seeded.next() as u8).collect::<Vec<_>>());
        for (choice, track) in (0..1 << (n + 2)).flat_map(|choice| (0..9).map(move |track| (choice, track))) {
            let places: Vec<usize> = (0..n + 2).filter(|place| choice >> place & 1 == 1).collect();
            let mut characters = record.clone();
            flip(&mut characters, &places, 1 << track);
            answers[asked.ask(&mut tried, direction, &characters, (asked.space)(n + 2)).number()] += 1;
        }
    }
    tried.tell_answers(&answers, &[0, 8]);
    tried
}

pub fn random_readings(asked: &Asked, direction: Direction) -> Tried {
    let mut seeded = Seeded(asked.seed + matches!(direction, Direction::Backward) as u64);
    let mut tried = Tried::default();
    let (mut answers, mut tracks, mut longest) = ([0; 9], [0; 10], [0; 9]);
    for case in 0..CASES {
        let reading = random_reading(&mut seeded, case);
        let space = seeded.space((asked.space)(reading.len()));
        let answer = asked.ask(&mut tried, direction, &reading, space);
        answers[answer.number()] += 1;
        longest[answer.number()] += usize::from(reading.len() == 2050);
        if let Answer::Delivered(values) = answer {
            tracks[values[1] as usize] += 1;
        }
    }
    tried.tell_answers(&answers, &READING);
    tried.remarks.push(format!("of these with 2,048 data characters: {longest:?}; deliveries by corrected track, 9 for none: {tracks:?}"));
    tried
}

pub fn random_writes() -> Tried {
    let mut seeded = Seeded(800);
    let mut tried = Tried::default();
    let mut answers = [0; 9];
    for case in 0..CASES {
        tried.cases += 1;
        let mut bytes = random_data(&mut seeded, case);
        if seeded.once_in(32) {
            bytes.resize([0, 2049, 2050, 3000][seeded.index(4)], 0);
        }
        let space = seeded.space(bytes.len() + 2);
        let mut characters = vec![LENT; space + BEHIND];
        let mut after = vec![LENT; space + BEHIND];
        let got = library::write800(&bytes, &mut characters[..space]);
        let want = record800::write(&bytes, &mut after[..space]);
        if got != want || characters != after {
            tried.wrong.push(format!("write {} bytes into {space} characters: {got:?} for {want:?}", bytes.len()));
        }
        answers[want.number()] += 1;
    }
    tried.tell_answers(&answers, &[0, 1, 2]);
    tried
}
