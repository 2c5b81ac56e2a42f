//! The sense log again, from the words of document 02, request 2.1. The maps are found by comparing the reading with the one
//! record that fits it, word by word, and a log is read back by searching for the maps that it is the log of. It shares nothing
//! with the library.

use crate::library::{Answer, Direction};
use crate::reading6250::{self, turned};
use crate::record6250::written;

/// Every map of nine tracks is below this.
pub const MAPS: u16 = 512;

/// The bytes in which every group has a bit.
pub fn bit_map(groups: usize) -> usize {
    (0..=groups).find(|bytes| 8 * bytes >= groups).unwrap()
}

/// The space that a log is lent: the bit map and two bytes a group.
pub fn space(groups: usize) -> usize {
    bit_map(groups) + 2 * groups
}

/// A number as two bytes, low one first.
pub fn two_bytes(number: u16) -> [u8; 2] {
    [(number % 256) as u8, (number / 256) as u8]
}

/// The log of the maps of changed tracks, one a group.
pub fn log_of(maps: &[u16]) -> Vec<u8> {
    let stands = |group: usize| maps.get(group).is_some_and(|&map| map != 0);
    let byte = |at: usize| (0..8).filter(|bit| stands(8 * at + bit)).map(|bit| 1 << bit).sum();
    let bits = (0..bit_map(maps.len())).map(byte);
    bits.chain(maps.iter().filter(|&&map| map != 0).flat_map(|&map| two_bytes(map))).collect()
}

/// How many track bits stand in the maps of all groups.
pub fn marks(maps: &[u16]) -> u64 {
    maps.iter().map(|map| (0..16).filter(|bit| map >> bit & 1 == 1).count() as u64).sum()
}

/// How many of the maps have each track's bit.
pub fn marks_of_tracks(maps: &[u16]) -> [u64; 9] {
    std::array::from_fn(|track| maps.iter().filter(|&map| map >> track & 1 == 1).count() as u64)
}

/// For each group in forward order, the tracks whose words differ from those of the record of these data.
fn changed_tracks(direction: Direction, words: &[u16], maps: &[u16], data: &[u8]) -> Vec<u16> {
    let forward = match direction {
        Direction::Forward => words.to_vec(),
        Direction::Backward => turned(words, maps).0,
    };
    let record = written(data);
    let differs = |group: usize, track: usize| forward[9 * group + track] != record[9 * group + track];
    (0..maps.len()).map(|group| (0..9).filter(|&track| differs(group, track)).map(|track| 1 << track).sum()).collect()
}

/// Refusal 1 comes before the log's space is asked, and every other refusal of the reading after it.
pub fn write(direction: Direction, words: &[u16], maps: &[u16], log: &mut [u8]) -> Answer {
    let mut data = vec![0; 7 * maps.len()];
    let read = reading6250::read(direction, words, maps, &mut data);
    if read == Answer::Refused(1, 0) {
        return read;
    }
    if log.len() < space(maps.len()) {
        return Answer::Refused(2, 0);
    }
    let Answer::Delivered(figures) = read else {
        return read;
    };
    let changed = changed_tracks(direction, words, maps, &data[..figures[0] as usize]);
    assert_eq!(marks(&changed), figures[1], "the marks are the changes that the reader tells");
    assert_eq!(marks_of_tracks(&changed), figures[2..], "and those of each track its counts");
    let whole = log_of(&changed);
    log[..whole.len()].copy_from_slice(&whole);
    Answer::Delivered(vec![whole.len() as u64])
}

/// The groups whose bits stand, if there is a bit for each.
fn marked(groups: usize, log: &[u8]) -> Option<Vec<bool>> {
    let bits: Vec<bool> = log.iter().take(bit_map(groups)).flat_map(|byte| (0..8).map(move |bit| byte >> bit & 1 == 1)).collect();
    Some(bits.get(..groups)?.to_vec())
}

/// Whether the length suits the group count and the bits of its groups: it is that of the logs of all maps that
/// are zero where no bit stands and nowhere else.
fn suits(groups: usize, log: &[u8]) -> bool {
    let like = |stands: &bool| u16::from(*stands);
    (1..=586).contains(&groups) && marked(groups, log).is_some_and(|bits| log_of(&bits.iter().map(like).collect::<Vec<_>>()).len() == log.len())
}

/// The maps of which this is the log, if there are any: for each group whose bit stands, every map is tried.
fn searched(groups: usize, log: &[u8]) -> Option<Vec<u16>> {
    let mut pairs = log[bit_map(groups)..].chunks(2);
    let mut maps = vec![];
    for stands in marked(groups, log)? {
        maps.push(if stands { search(pairs.next()?)? } else { 0 });
    }
    Some(maps).filter(|maps| log_of(maps) == log)
}

fn search(pair: &[u8]) -> Option<u16> {
    (1..MAPS).find(|&map| two_bytes(map) == pair)
}

/// The two faults of refusal 10, of a log whose length suits, as the paper names them: a spare bit stands; a map is 0 or above 511.
pub fn faults(groups: usize, log: &[u8]) -> [bool; 2] {
    let (bits, pairs) = log.split_at(bit_map(groups));
    let spare = (groups..8 * bits.len()).any(|bit| bits[bit / 8] >> (bit % 8) & 1 == 1);
    let wrong = |pair: &[u8]| {
        let map = u16::from(pair[0]) + 256 * u16::from(pair[1]);
        map == 0 || map > 511
    };
    [spare, pairs.chunks(2).any(wrong)]
}

/// Once the length suits, a log that is the log of no maps is refused by 10.
pub fn read_back(groups: usize, log: &[u8], maps: &mut [u16]) -> Answer {
    if maps.len() < groups {
        return Answer::Refused(2, 0);
    }
    if !suits(groups, log) {
        return Answer::Refused(9, 0);
    }
    let Some(found) = searched(groups, log) else {
        return Answer::Refused(10, 0);
    };
    maps[..groups].copy_from_slice(&found);
    Answer::Delivered(marks_of_tracks(&found).to_vec())
}
