//! Reading at 6250 again, from the third term of the notice and from document 02, request 2.3: it tries what may fit,
//! candidate by candidate, and computes no syndrome. It shares nothing with the library.

use crate::library::{Answer, Direction};
use crate::record6250::{body, group, written, CODES};

/// The byte that a word records, or none if a half of it is illegal.
pub fn byte_of(word: u16) -> Option<u8> {
    let half = |code: u16| CODES.iter().position(|&legal| legal == code);
    Some((half(word >> 5)? << 4 | half(word & 31)?) as u8)
}

/// The information bytes in what nine tracks record, B7 first.
pub fn information(tracks: &[u8; 9]) -> [u8; 7] {
    let mut info = [0u8; 7];
    for i in 1..8 {
        for j in 0..8 {
            info[7 - i] |= (tracks[j] >> i & 1) << j;
        }
    }
    info
}

/// The characters of even parity, bit i for that of bits i.
fn even_characters(tracks: &[u8; 9]) -> u8 {
    tracks.iter().fold(255, |even, track| even ^ track)
}

/// Whether nine tracks record a group of the code: what is written from their own information bytes.
/// Every character of a written group has odd parity, so that a candidate without it need not be written.
fn is_group(tracks: &[u8; 9]) -> bool {
    even_characters(tracks) == 0 && group(&information(tracks)) == *tracks
}

fn replaced(read: &[u8; 9], track: usize, value: u8) -> [u8; 9] {
    let mut candidate = *read;
    candidate[track] = value;
    candidate
}

/// The groups of the code that differ from what was read in one track at most, anywhere: 9 × 255 + 1 candidates.
fn anywhere(read: &[u8; 9]) -> Vec<[u8; 9]> {
    if is_group(read) {
        // a group of the code is its own only fit: two groups differ in three tracks or more
        return vec![*read];
    }
    (0..9)
        .flat_map(|track| (0..=255).map(move |value| (track, value)))
        .filter(|&(track, value)| value != read[track])
        .map(|(track, value)| replaced(read, track, value))
        .filter(is_group)
        .collect()
}

/// The groups of the code that differ in the pointed track only: 256 candidates.
fn pointed_once(read: &[u8; 9], track: usize) -> Vec<[u8; 9]> {
    (0..=255).map(|value| replaced(read, track, value)).filter(is_group).collect()
}

/// The groups of the code that differ in the two pointed tracks only. Of the 65,536 pairs, 256 leave every character of
/// odd parity: one value of the second track for each of the first.
fn pointed_twice(read: &[u8; 9], first: usize, second: usize) -> Vec<[u8; 9]> {
    (0..=255)
        .map(|value| replaced(&replaced(read, first, value), second, 0))
        .map(|open| replaced(&open, second, even_characters(&open)))
        .filter(is_group)
        .collect()
}

/// The one group of the code that fits nine words under a map, or the number of the refusal.
pub fn fitting(words: &[u16], map: u16) -> Result<[u8; 9], u16> {
    let mut read = [0u8; 9];
    let mut pointed = vec![];
    for track in 0..9 {
        let byte = byte_of(words[track]);
        if byte.is_none() || map >> track & 1 == 1 {
            pointed.push(track);
        }
        // what stands on a track with an illegal word is never compared: the track is pointed
        read[track] = byte.unwrap_or(0);
    }
    let fits = match pointed[..] {
        [track] if byte_of(words[track]).is_none() => pointed_once(&read, track),
        // one that the drive alone points, its word being legal, need not be the wrong one (document 02, request 2.3)
        [] | [_] => anywhere(&read),
        [first, second] => pointed_twice(&read, first, second),
        _ => return Err(4),
    };
    assert!(fits.len() <= 1, "several groups fit {words:?} under {map}: the papers or these tests are wrong");
    assert!(pointed.len() < 2 || fits.len() == 1, "two pointed tracks of {words:?} under {map} have a group that fits");
    fits.first().copied().ok_or(5)
}

/// The data whose body this is: they end where one to seven bytes are left.
fn data_of(whole: &[u8]) -> Option<&[u8]> {
    (1..=7).map(|rest| &whole[..whole.len() - rest]).find(|data| body(data) == whole)
}

/// The ten bits of a word in reverse; a stray word stays.
fn reversed(word: u16) -> u16 {
    if word > 1023 {
        return word;
    }
    (0..10).fold(0, |bits, k| bits | (word >> k & 1) << (9 - k))
}

/// A reading in the other direction: groups and maps last first, each word's bits reversed.
pub fn turned(words: &[u16], maps: &[u16]) -> (Vec<u16>, Vec<u16>) {
    let groups = words.chunks(9).rev();
    (groups.flatten().map(|&word| reversed(word)).collect(), maps.iter().rev().copied().collect())
}

/// How many words of each track differ between a forward reading and a record.
fn counted(words: &[u16], record: &[u16]) -> [u64; 9] {
    let differs = |group: usize, track: usize| words[9 * group + track] != record[9 * group + track];
    std::array::from_fn(|track| (0..record.len() / 9).filter(|&group| differs(group, track)).count() as u64)
}

pub fn read(direction: Direction, words: &[u16], maps: &[u16], output: &mut [u8]) -> Answer {
    let groups = maps.len();
    if groups < 1 || groups > 586 || words.len() != 9 * groups {
        return Answer::Refused(1, 0);
    }
    if output.len() < 7 * groups - 1 {
        return Answer::Refused(2, 0);
    }
    let (words, maps) = match direction {
        Direction::Forward => (words.to_vec(), maps.to_vec()),
        Direction::Backward => turned(words, maps),
    };
    let stray = |place: &usize| maps[*place] > 511 || words[9 * place..9 * place + 9].iter().any(|&word| word > 1023);
    if let Some(place) = (0..groups).find(stray) {
        return Answer::Refused(3, place);
    }
    let mut whole = vec![];
    for place in 0..groups {
        match fitting(&words[9 * place..9 * place + 9], maps[place]) {
            Ok(tracks) => whole.extend(information(&tracks)),
            Err(number) => return Answer::Refused(number, place),
        }
    }
    let Some(data) = data_of(&whole) else {
        return Answer::Refused(6, 0);
    };
    let record = written(data);
    let changes = record.iter().zip(&words).filter(|(written, read)| written != read).count();
    output[..data.len()].copy_from_slice(data);
    Answer::counted(&[data.len() as u64, changes as u64], counted(&words, &record))
}
