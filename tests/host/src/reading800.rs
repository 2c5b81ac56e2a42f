//! Reading at 800 again, from the third term of the notice: it writes the data of the nine candidates and
//! compares, and computes no error pattern. It shares nothing with the library.

use crate::library::{Answer, Direction};
use crate::record800::written;

/// Whether a character has not the parity that every written record of this length has there: odd, but even
/// in the check character if n is odd.
fn parity_wrong(characters: &[u16], place: usize) -> bool {
    let n = characters.len() - 2;
    let even = place == n && n % 2 == 1;
    (characters[place].count_ones() % 2 == 0) != even
}

/// The only characters with the parities of a written record that differ from the reading in one track at most.
fn candidate(characters: &[u16], track: usize) -> Vec<u16> {
    (0..characters.len()).map(|place| characters[place] ^ u16::from(parity_wrong(characters, place)) << track).collect()
}

/// The data bytes in the characters of a record.
pub fn data_of(record: &[u16]) -> Vec<u8> {
    record[..record.len() - 2].iter().map(|&character| character as u8).collect()
}

/// The different written records among the nine candidates.
pub fn fitting(characters: &[u16]) -> Vec<Vec<u16>> {
    let mut fits = vec![];
    for track in 0..9 {
        let candidate = candidate(characters, track);
        if !fits.contains(&candidate) && written(&data_of(&candidate)) == candidate {
            fits.push(candidate);
        }
    }
    fits
}

/// The track in which a reading differs from a record, or 9, and in how many characters it does.
fn compared(characters: &[u16], record: &[u16]) -> (u64, u64) {
    let differences: Vec<u16> = characters.iter().zip(record).map(|(read, written)| read ^ written).filter(|&bits| bits != 0).collect();
    let tracks = differences.iter().fold(0, |tracks, bits| tracks | bits);
    assert!(tracks.count_ones() <= 1, "{characters:?} differ from {record:?} in several tracks");
    let track = (0..9).find(|track| tracks >> track & 1 == 1).unwrap_or(9);
    (track, differences.len() as u64)
}

/// How many bits of each track differ between a reading and a record.
fn counted(characters: &[u16], record: &[u16]) -> [u64; 9] {
    let bit = |character: u16, track: usize| character >> track & 1;
    let differs = |place: usize, track: usize| bit(characters[place], track) != bit(record[place], track);
    std::array::from_fn(|track| (0..record.len()).filter(|&place| differs(place, track)).count() as u64)
}

/// A reading in the other direction: the characters last first.
pub fn turned(characters: &[u16]) -> Vec<u16> {
    characters.iter().rev().copied().collect()
}

/// A forward reading as it comes in a direction, and one that comes in a direction as it is forward.
pub fn in_direction(direction: Direction, characters: &[u16]) -> Vec<u16> {
    match direction {
        Direction::Forward => characters.to_vec(),
        Direction::Backward => turned(characters),
    }
}

/// How many characters a reading may have.
pub const LENGTHS: std::ops::RangeInclusive<usize> = 3..=2050;

/// The data of the one written record that fits a reading within the limits, with the figures of its delivery: their
/// length, the corrected track or 9, the changes, and those of each track. If not one fits, or a character is stray, the refusal.
pub fn found(direction: Direction, characters: &[u16]) -> Result<(Vec<u8>, Vec<u64>), Answer> {
    let characters = in_direction(direction, characters);
    if let Some(place) = characters.iter().position(|&character| character > 511) {
        return Err(Answer::Refused(3, place));
    }
    match &fitting(&characters)[..] {
        [] => Err(Answer::Refused(7, 0)),
        [record] => {
            let data = data_of(record);
            let (track, changes) = compared(&characters, record);
            let figures = [&[data.len() as u64, track, changes][..], &counted(&characters, record)].concat();
            Ok((data, figures))
        }
        _ => Err(Answer::Refused(8, 0)),
    }
}

pub fn read(direction: Direction, characters: &[u16], output: &mut [u8]) -> Answer {
    if !LENGTHS.contains(&characters.len()) {
        return Answer::Refused(1, 0);
    }
    if output.len() < characters.len() - 2 {
        return Answer::Refused(2, 0);
    }
    match found(direction, characters) {
        Ok((data, figures)) => {
            output[..data.len()].copy_from_slice(&data);
            Answer::Delivered(figures)
        }
        Err(refusal) => refusal,
    }
}
