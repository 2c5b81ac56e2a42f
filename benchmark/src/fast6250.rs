//! Records at 6250 written for speed in Rust: every rule of document 01, track 8 as document 02 has it, tables made at
//! compile time, the direction a constant of the compiled function. It shares no table and no code with the library.

use crate::{Answer, Counts};

const CODES: [u16; 16] = [25, 27, 18, 19, 29, 21, 22, 23, 26, 9, 10, 11, 30, 13, 14, 15];
pub const MOST_GROUPS: usize = 586;

/// X times a byte modulo g.
const fn shifted(a: u8) -> u8 {
    (a << 1) ^ if a >= 128 { 57 } else { 0 }
}

const fn power(exponent: usize, a: u8) -> u8 {
    let (mut k, mut value) = (0, a);
    while k < exponent % 17 {
        value = shifted(value);
        k += 1;
    }
    value
}

/// T^i x, or T^-i x, for i from 0 to 7, at index x.
const fn powers(backward: bool) -> [[u8; 8]; 256] {
    let mut table = [[0; 8]; 256];
    let mut x = 0;
    while x < 256 {
        let mut i = 0;
        while i < 8 {
            table[x][i] = power(if backward { 17 - i } else { i }, x as u8);
            i += 1;
        }
        x += 1;
    }
    table
}

/// The byte y with y + T^d y = x, at index d.
const fn erasures() -> [[u8; 256]; 8] {
    let mut table = [[0; 256]; 8];
    let mut d = 1;
    while d < 8 {
        let mut y = 0;
        while y < 256 {
            table[d][(y as u8 ^ power(d, y as u8)) as usize] = y as u8;
            y += 1;
        }
        d += 1;
    }
    table
}

/// Bit j of a byte at bit 8j.
const fn spread(byte: u8) -> u64 {
    let (mut j, mut bits) = (0, 0);
    while j < 8 {
        bits |= ((byte >> j & 1) as u64) << (8 * j);
        j += 1;
    }
    bits
}

const fn byte_spreads() -> [u64; 256] {
    let mut table = [0; 256];
    let mut byte = 0;
    while byte < 256 {
        table[byte] = spread(byte as u8);
        byte += 1;
    }
    table
}

/// What an information byte contributes to all eight track bytes, the check byte's part included.
const fn contributions() -> [[u64; 256]; 7] {
    let mut table = [[0; 256]; 7];
    let mut k = 0;
    while k < 7 {
        let i = 7 - k;
        let mut byte = 0;
        while byte < 256 {
            table[k][byte] = spread(byte as u8) << i ^ spread(power(i, byte as u8));
            byte += 1;
        }
        k += 1;
    }
    table
}

const fn words() -> [u16; 256] {
    let mut table = [0; 256];
    let mut byte = 0;
    while byte < 256 {
        table[byte] = CODES[byte >> 4] << 5 | CODES[byte & 15];
        byte += 1;
    }
    table
}

const fn reversed(word: usize) -> usize {
    ((word as u16).reverse_bits() >> 6) as usize
}

/// The byte of a word, or 256.
const fn values(backward: bool) -> [u16; 1024] {
    let mut table = [256; 1024];
    let mut byte = 0;
    while byte < 256 {
        let word = words()[byte] as usize;
        table[if backward { reversed(word) } else { word }] = byte as u16;
        byte += 1;
    }
    table
}

const fn spreads(backward: bool) -> [u64; 1024] {
    let mut table = [0; 1024];
    let values = values(backward);
    let mut word = 0;
    while word < 1024 {
        if values[word] < 256 {
            table[word] = spread(values[word] as u8);
        }
        word += 1;
    }
    table
}

const fn reductions() -> [u8; 128] {
    let mut table = [0; 128];
    let mut high = 0;
    while high < 128 {
        let mut k = 0;
        while k < 7 {
            if high >> k & 1 == 1 {
                table[high] ^= power(8 + k, 1);
            }
            k += 1;
        }
        high += 1;
    }
    table
}

/// The bits that one track's count takes among those of all nine: more than the groups of a record need.
const LANE: usize = 14;

/// Track i of a map, counted once, in lane i.
const fn lanes() -> [u128; 512] {
    let mut table = [0; 512];
    let mut map = 0;
    while map < 512 {
        let mut track = 0;
        while track < 9 {
            table[map] |= ((map >> track & 1) as u128) << (LANE * track);
            track += 1;
        }
        map += 1;
    }
    table
}

static LANES: [u128; 512] = lanes();

/// The tracks of a map, to be added to those of other maps.
#[inline(always)]
pub fn once(map: u16) -> u128 {
    LANES[usize::from(map & 511)]
}

/// The nine counts in such a sum.
#[inline(always)]
pub fn counted(sum: u128) -> Counts {
    std::array::from_fn(|track| (sum >> (LANE * track)) as usize & ((1 << LANE) - 1))
}

static CONTRIBUTIONS: [[u64; 256]; 7] = contributions();
static WORDS: [u16; 256] = words();
pub static VALUES: [[u16; 1024]; 2] = [values(false), values(true)];
pub static SPREADS: [[u64; 1024]; 2] = [spreads(false), spreads(true)];
pub static REDUCTIONS: [u8; 128] = reductions();
pub static BYTE_SPREADS: [u64; 256] = byte_spreads();
static POWERS: [[u8; 8]; 256] = powers(false);
static BACK: [[u8; 8]; 256] = powers(true);
static ERASURES: [[u8; 256]; 8] = erasures();

fn store(info: &[u8; 7], words: &mut [u16; 9]) {
    let mut tracks = 0;
    for k in 0..7 {
        tracks ^= CONTRIBUTIONS[k][info[k] as usize];
    }
    let mut parity = tracks ^ tracks >> 32;
    parity ^= parity >> 16;
    parity ^= parity >> 8;
    for j in 0..8 {
        words[j] = WORDS[(tracks >> (8 * j)) as u8 as usize];
    }
    words[8] = WORDS[!parity as u8 as usize];
}

pub fn write(bytes: &[u8], words: &mut [u16]) -> Answer {
    if bytes.len() > 7 * MOST_GROUPS - 1 {
        return Answer::Refused(1, 0);
    }
    let groups = bytes.len() / 7 + 1;
    if words.len() < 9 * groups {
        return Answer::Refused(2, 0);
    }
    let full = bytes.chunks_exact(7);
    let mut last = [0; 7];
    let left = full.remainder();
    last[..left.len()].copy_from_slice(left);
    last[6] = 6 - left.len() as u8;
    let mut to = words.chunks_exact_mut(9);
    for info in full {
        store(info.try_into().unwrap(), to.next().unwrap().try_into().unwrap());
    }
    store(&last, to.next().unwrap().try_into().unwrap());
    Answer::Delivered([groups, 0, 0, 0])
}

pub fn stray(words: &[u16], maps: &[u16], backward: bool) -> Option<usize> {
    if words.iter().fold(0, |all, &word| all | word) < 1024 && maps.iter().fold(0, |all, &map| all | map) < 512 {
        return None;
    }
    let bad = |g: &usize| maps[*g] > 511 || words[9 * g..9 * g + 9].iter().any(|&word| word > 1023);
    let groups = maps.len();
    if backward {
        (0..groups).rev().find(bad).map(|g| groups - 1 - g)
    } else {
        (0..groups).find(bad)
    }
}

/// The first track in which an error s1 accounts for s2: all are compared, with no branch.
fn located(s1: u8, s2: u8) -> Option<usize> {
    let matches = POWERS[s1 as usize].iter().enumerate().fold(0u32, |all, (i, &power)| all | u32::from(power == s2) << i);
    let track = (matches | u32::from(s2 == 0) << 8).trailing_zeros() as usize;
    if track < 9 {
        Some(track)
    } else {
        None
    }
}

/// The tracks that may differ: none in particular where the drive points at one and no word is illegal.
pub fn relied(pointers: u16, illegal: u16) -> u16 {
    if illegal == 0 && pointers.is_power_of_two() {
        0
    } else {
        pointers | illegal
    }
}

/// The errors in two tracks, of which the second may be none, or the refusal.
pub fn errors(pointers: u16, s1: u8, s2: u8) -> Result<[(usize, u8); 2], u16> {
    let first = pointers.trailing_zeros() as usize;
    match pointers.count_ones() {
        0 => located(s1, s2).map(|track| [(track, s1), (8, 0)]).ok_or(5),
        1 if s2 == if first < 8 { POWERS[s1 as usize][first] } else { 0 } => Ok([(first, s1), (8, 0)]),
        1 => Err(5),
        2 => {
            let second = 15 - pointers.leading_zeros() as usize;
            let both = s1 ^ BACK[s2 as usize][first];
            let error = if second < 8 { ERASURES[second - first][both as usize] } else { both };
            Ok([(first, s1 ^ error), (second, error)])
        }
        _ => Err(4),
    }
}

pub fn illegal_map(words: &[u16; 9], direction: usize) -> u16 {
    (0..9).fold(0, |map, j| map | (VALUES[direction][words[j] as usize & 1023] >> 8) << j)
}

/// Reads every group, and tells the sum of the changed tracks: a group in which nothing is changed adds nothing.
#[inline(always)]
fn read_groups<const BACKWARD: bool>(words: &[u16], maps: &[u16], body: &mut [u8]) -> Result<u128, Answer> {
    let direction = usize::from(BACKWARD);
    let groups = maps.len();
    let mut changes = 0;
    for (g, to) in body.chunks_exact_mut(7).enumerate() {
        let place = if BACKWARD { groups - 1 - g } else { g };
        let from: &[u16; 9] = words[9 * place..9 * place + 9].try_into().unwrap();
        let (mut columns, mut sum, mut parity, mut illegal) = (0u64, 0u16, 0u16, 0u16);
        for j in (0..8).rev() {
            let word = from[j] as usize & 1023;
            let value = VALUES[direction][word];
            columns = columns << 1 ^ SPREADS[direction][word];
            sum ^= (value & 255) << j;
            parity ^= value;
            illegal |= value;
        }
        let value = VALUES[direction][from[8] as usize & 1023];
        let s1 = !(parity ^ value) as u8;
        let s2 = sum as u8 ^ REDUCTIONS[(sum >> 8) as usize & 127];
        illegal = (illegal | value) >> 8;
        if illegal | u16::from(s1 | s2) | maps[place] != 0 {
            let mut changed = if illegal == 0 { 0 } else { illegal_map(from, direction) };
            match errors(relied(maps[place], changed), s1, s2) {
                Ok(pair) => {
                    for (track, error) in pair {
                        columns ^= if track < 8 { BYTE_SPREADS[error as usize] << track } else { 0 };
                        changed |= u16::from(error != 0) << track;
                    }
                    changes += once(changed);
                }
                Err(number) => return Err(Answer::Refused(number, g)),
            }
        }
        to.copy_from_slice(&columns.to_be_bytes()[..7]);
    }
    Ok(changes)
}

pub fn read<const BACKWARD: bool>(words: &[u16], maps: &[u16], output: &mut [u8], counts: &mut Counts) -> Answer {
    let groups = maps.len();
    if groups == 0 || groups > MOST_GROUPS || words.len() != 9 * groups {
        return Answer::Refused(1, 0);
    }
    let size = 7 * groups;
    if output.len() < size - 1 {
        return Answer::Refused(2, 0);
    }
    if let Some(place) = stray(words, maps, BACKWARD) {
        return Answer::Refused(3, place);
    }
    let mut whole = [0; 7 * MOST_GROUPS];
    let mut short = [0; 7 * 16];
    let body = if groups <= 16 { &mut short[..size] } else { &mut whole[..size] };
    let changes = match read_groups::<BACKWARD>(words, maps, body) {
        Ok(changes) => changes,
        Err(refusal) => return refusal,
    };
    let padding = body[size - 1] as usize;
    if padding > 6 || body[size - 1 - padding..size - 1].iter().any(|&byte| byte != 0) {
        return Answer::Refused(6, 0);
    }
    let length = size - 1 - padding;
    output[..length].copy_from_slice(&body[..length]);
    *counts = counted(changes);
    Answer::Delivered([length, counts.iter().sum(), 0, 0])
}
