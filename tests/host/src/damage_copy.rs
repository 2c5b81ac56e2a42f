//! Readings at 800 that are copied to 6250, damaged in the ways of `damage800`. The library copies each beside the
//! implementation of these tests, and beside its own reader and writer, one after the other; and what it wrote is read back.

use crate::bench::reads;
use crate::copying;
use crate::damage800::{compare, flip, Asked, Case};
use crate::library::{self, Answer, Direction};
use crate::record800::{written, G2};
use crate::vectors::LENT;
use crate::Tried;

/// The copy, as the implementation of these tests makes it.
pub const COPIED: Asked = Asked {
    seed: 260,
    space: copying::space,
    answer: |tried, case| compare(tried, case, LENT, library::copy800, copying::copy),
};

/// The copy, as the library's two single calls make it.
pub const BY_TWO_CALLS: Asked = Asked {
    seed: 262,
    space: copying::space,
    answer: |tried, case| compare(tried, case, LENT, library::copy800, two_calls),
};

/// The copy, read back.
pub const READ_BACK: Asked = Asked { seed: 264, space: copying::space, answer: read_back };

/// Reads at 800, and writes the data at 6250. Of a reading that is refused the data stay the zeros that were lent, and writing
/// those tells whether the space is short, which comes before every other refusal but 1.
fn two_calls(direction: Direction, characters: &[u16], words: &mut [u16]) -> Answer {
    let mut data = vec![0; characters.len()];
    let read = library::read800(direction, characters, &mut data);
    if read == Answer::Refused(1, 0) {
        return read;
    }
    let mut record = words.to_vec();
    match (read, library::write6250(&data[..characters.len() - 2], &mut record)) {
        (Answer::Delivered(figures), Answer::Delivered(groups)) => {
            words.copy_from_slice(&record);
            Answer::Delivered([figures, groups].concat())
        }
        (_, refusal @ Answer::Refused(..)) | (refusal, _) => refusal,
    }
}

/// What was written, read at 6250 with no pointer, in both directions, gives the data of the one 800 record that fits, and no
/// change.
fn read_back(tried: &mut Tried, case: &Case) -> Answer {
    let mut words = vec![LENT; case.space];
    let got = library::copy800(case.direction, case.characters, &mut words);
    let found = copying::found(case.direction, case.characters, case.space);
    let holds = match (&got, &found) {
        (Answer::Delivered(told), Ok((data, _))) => {
            let gives = |record: &[u16]| reads(record, Answer::counted(&[data.len() as u64, 0], [0; 9]), data);
            let groups = told.last().expect("a copy tells its groups");
            words.get(..9 * *groups as usize).is_some_and(gives)
        }
        (got, found) => found.as_ref().err() == Some(got),
    };
    if !holds {
        case.wrong(tried, &format!("{got:?}, and not read back as the data of {found:?}"));
    }
    tried.cases += 1;
    found.map_or_else(|refusal| refusal, |(_, figures)| Answer::Delivered(figures))
}

/// Copies a reading forward and backward, with each of two spaces.
fn both_ways(tried: &mut Tried, reading: &[u16], spaces: [usize; 2]) -> Vec<Answer> {
    let mut copied = |direction: Direction| spaces.map(|space| COPIED.ask(tried, direction, reading, space));
    [copied(Direction::Forward), copied(Direction::Backward)].concat()
}

/// A record of n bytes.
fn record_of(n: usize) -> Vec<u16> {
    written(&(0..n).map(|place| (place * place % 251) as u8).collect::<Vec<_>>())
}

/// Records of every length, each with a track wrong in every third character or with none, and lengths beyond the limits; with
/// the least space, and with one word less.
pub fn every_length() -> Tried {
    let mut tried = Tried::default();
    for length in (0..=2055usize).chain([4103, 4104, 65_535, 65_536, 65_539, 65_546]) {
        let mut characters = record_of(length.saturating_sub(2));
        characters.truncate(length);
        let bit = (1 << (length % 10)) & 511;
        flip(&mut characters, &(0..length).step_by(3).collect::<Vec<_>>(), bit);
        let least = copying::space(length);
        both_ways(&mut tried, &characters, [least, least - 1]);
    }
    tried
}

/// The refusals of a copy, from top to bottom, with the places that they have in the readings of `faulty`.
const REFUSALS: [Answer; 5] = [Answer::Refused(1, 0), Answer::Refused(2, 0), Answer::Refused(3, 2), Answer::Refused(7, 0), Answer::Refused(8, 0)];

/// A reading of n bytes with stray characters, with damage that no record fits, and with damage that nine fit: one track wrong in
/// the characters whose indices are the powers of G2, and in the longitudinal one. With two tracks wrong in one character, whose
/// parity holds then, no record fits, be there that other damage or not.
fn faulty(n: usize, [stray, none, nine]: [bool; 3]) -> Vec<u16> {
    let mut characters = record_of(n);
    if nine {
        flip(&mut characters, &G2.map(|power| n - power), 1);
        flip(&mut characters, &[n + 1], 1);
    }
    if none {
        flip(&mut characters, &[3], 0b110);
    }
    if stray {
        flip(&mut characters, &[2, n + 1], 512);
    }
    characters
}

/// Every choice of faults: too many characters, short space, stray characters, no record that fits, nine that do. The refusal
/// is that of the first.
pub fn every_choice_of_faults() -> Tried {
    let mut tried = Tried::default();
    for (n, choice) in [8, 13, 14, 2048].into_iter().flat_map(|n| (0..32).map(move |choice| (n, choice))) {
        let faults = [0, 1, 2, 3, 4].map(|fault| choice >> fault & 1 == 1);
        let [long, short, in_characters @ ..] = faults;
        let n = if long { 2049 } else { n };
        let (reading, least) = (faulty(n, in_characters), copying::space(n + 2));
        let spaces = if short { [0, least - 1] } else { [least, least + 1] };
        let want = match faults.iter().position(|&fault| fault) {
            Some(first) => REFUSALS[first].clone(),
            None => Answer::copied(&[n as u64, 9, 0], [0; 9], n as u64 / 7 + 1),
        };
        let answers = both_ways(&mut tried, &reading, spaces);
        if answers.iter().any(|answer| *answer != want) {
            tried.wrong.push(format!("n = {n}, faults {faults:?}: {answers:?} for {want:?}"));
        }
    }
    tried
}
