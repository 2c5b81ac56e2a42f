//! Records at 800 written for speed in Rust: every rule of document 01, tables made at compile time. It shares
//! no table and no code with the library.

use crate::{Answer, Counts};

pub const MOST_DATA: usize = 2048;
const GENERATOR: u16 = 633;
const OFFSET: u16 = 471;

const fn parities() -> [u8; 512] {
    let mut table = [0; 512];
    let mut value = 0;
    while value < 512 {
        table[value] = (value as u16).count_ones() as u8 & 1;
        value += 1;
    }
    table
}

static PARITIES: [u8; 512] = parities();

fn parity(character: u16) -> u16 {
    u16::from(PARITIES[character as usize & 511])
}

fn shifted(a: u16) -> u16 {
    let doubled = a << 1;
    if doubled < 512 {
        doubled
    } else {
        doubled ^ GENERATOR
    }
}

pub fn write(bytes: &[u8], characters: &mut [u16]) -> Answer {
    let n = bytes.len();
    if n == 0 || n > MOST_DATA {
        return Answer::Refused(1, 0);
    }
    if characters.len() < n + 2 {
        return Answer::Refused(2, 0);
    }
    let (mut check, mut longitudinal) = (0, 0);
    for (to, &byte) in characters.iter_mut().zip(bytes) {
        let character = u16::from(byte) | (parity(u16::from(byte)) ^ 1) << 8;
        check = shifted(check) ^ character;
        longitudinal ^= character;
        *to = character;
    }
    check = shifted(check) ^ OFFSET;
    characters[n] = check;
    characters[n + 1] = longitudinal ^ check;
    Answer::Delivered([n + 2, 0, 0, 0])
}

fn turned<const BACKWARD: bool>(characters: &[u16], k: usize) -> u16 {
    characters[if BACKWARD { characters.len() - 1 - k } else { k }]
}

/// The one track that accounts for the reading: 9 if nothing differs, or the refusal.
fn located(mut check: u16, mut pattern: u16, longitudinal: u16, wrong: usize) -> Result<usize, u16> {
    check ^= OFFSET;
    if wrong == 0 {
        return if check | longitudinal == 0 { Ok(9) } else { Err(7) };
    }
    for _ in 0..9 {
        pattern = shifted(pattern);
    }
    let odd = (wrong & 1) as u16;
    let (mut count, mut track) = (0, 9);
    for j in 0..9 {
        if check == pattern && longitudinal == odd << j {
            count += 1;
            track = j;
        }
        pattern = shifted(pattern);
    }
    match count {
        0 => Err(7),
        1 => Ok(track),
        _ => Err(8),
    }
}

/// The length of the data, the one track that accounts for the reading and how many characters differ, or the refusal.
/// Whether the space suffices is asked by that length.
#[inline(always)]
pub fn judged<const BACKWARD: bool>(characters: &[u16], suffices: impl Fn(usize) -> bool) -> Result<[usize; 3], Answer> {
    let count = characters.len();
    if count < 3 || count > MOST_DATA + 2 {
        return Err(Answer::Refused(1, 0));
    }
    let n = count - 2;
    if !suffices(n) {
        return Err(Answer::Refused(2, 0));
    }
    if characters.iter().fold(0, |all, &character| all | character) > 511 {
        let place = (0..count).find(|&k| turned::<BACKWARD>(characters, k) > 511).unwrap();
        return Err(Answer::Refused(3, place));
    }
    let (mut check, mut pattern, mut longitudinal, mut wrong) = (0, 0, 0, 0);
    for k in 0..n {
        let character = turned::<BACKWARD>(characters, k);
        let odd = parity(character) ^ 1;
        check = shifted(check) ^ character;
        pattern = shifted(pattern) ^ odd << 8;
        longitudinal ^= character;
        wrong += usize::from(odd);
    }
    let crc = turned::<BACKWARD>(characters, n);
    let lrc = turned::<BACKWARD>(characters, n + 1);
    let odd = parity(crc) ^ ((n + 1) % 2) as u16;
    check = shifted(check) ^ crc;
    pattern = shifted(pattern) ^ odd << 8;
    longitudinal ^= crc ^ lrc;
    wrong += usize::from(odd) + usize::from(parity(lrc) ^ 1);
    match located(check, pattern, longitudinal, wrong) {
        Ok(track) => Ok([n, track, wrong]),
        Err(number) => Err(Answer::Refused(number, 0)),
    }
}

/// Stores the data with the track corrected. The ones are counted: a loop without a look-up takes several characters at once.
#[inline(always)]
pub fn correct<const BACKWARD: bool>(characters: &[u16], track: usize, bytes: &mut [u8]) {
    let data = if BACKWARD { &characters[2..] } else { &characters[..bytes.len()] };
    for (k, byte) in bytes.iter_mut().enumerate() {
        let character = turned::<BACKWARD>(data, k);
        let odd = (character.count_ones() & 1 ^ 1) as u16;
        *byte = (character ^ odd << track) as u8;
    }
}

/// The counts of the tracks, of which only the corrected one's is above zero.
pub fn counted(track: usize, wrong: usize) -> Counts {
    let mut counts = [0; 9];
    if let Some(count) = counts.get_mut(track) {
        *count = wrong;
    }
    counts
}

pub fn read<const BACKWARD: bool>(characters: &[u16], output: &mut [u8], counts: &mut Counts) -> Answer {
    match judged::<BACKWARD>(characters, |n| output.len() >= n) {
        Ok([n, track, wrong]) => {
            correct::<BACKWARD>(characters, track, &mut output[..n]);
            *counts = counted(track, wrong);
            Answer::Delivered([n, track, wrong, 0])
        }
        Err(refusal) => refusal,
    }
}
