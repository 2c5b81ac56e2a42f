//! The sense log written for speed in Rust: every rule of document 02, request 2.1. Groups are judged by the tables of
//! `fast6250`, but no data are made, only the last group's, for its padding. It shares no table and no code with the library.

use crate::fast6250::{counted, errors, illegal_map, once, relied, stray, BYTE_SPREADS, MOST_GROUPS, REDUCTIONS, SPREADS, VALUES};
use crate::{Answer, Counts};

/// The errors of one group and the map of its changed tracks, or the refusal.
#[inline(always)]
fn judged(words: &[u16; 9], map: u16, direction: usize) -> Result<([(usize, u8); 2], u16), u16> {
    let (mut sum, mut parity, mut illegal) = (0u16, 0u16, 0u16);
    for j in 0..8 {
        let value = VALUES[direction][words[j] as usize & 1023];
        sum ^= (value & 255) << j;
        parity ^= value;
        illegal |= value;
    }
    let value = VALUES[direction][words[8] as usize & 1023];
    let s1 = !(parity ^ value) as u8;
    let s2 = sum as u8 ^ REDUCTIONS[(sum >> 8) as usize & 127];
    illegal = (illegal | value) >> 8;
    if illegal | u16::from(s1 | s2) | map == 0 {
        return Ok(([(8, 0); 2], 0));
    }
    let mut changed = if illegal == 0 { 0 } else { illegal_map(words, direction) };
    let pair = errors(relied(map, changed), s1, s2)?;
    for (track, error) in pair {
        changed |= u16::from(error != 0) << track;
    }
    Ok((pair, changed))
}

/// The seven information bytes of a group without its errors.
fn information(words: &[u16; 9], pair: [(usize, u8); 2], direction: usize) -> [u8; 7] {
    let mut columns = (0..8).rev().fold(0, |columns, j| columns << 1 ^ SPREADS[direction][words[j] as usize & 1023]);
    for (track, error) in pair {
        columns ^= if track < 8 { BYTE_SPREADS[error as usize] << track } else { 0 };
    }
    columns.to_be_bytes()[..7].try_into().unwrap()
}

fn padding_suits(last: [u8; 7]) -> bool {
    let padding = last[6] as usize;
    padding < 7 && last[6 - padding..6].iter().all(|&byte| byte == 0)
}

/// Judges every group into the maps of changed tracks, in forward order.
#[inline(always)]
fn gather<const BACKWARD: bool>(words: &[u16], maps: &[u16], changed: &mut [u16]) -> Result<(), Answer> {
    let direction = usize::from(BACKWARD);
    let groups = maps.len();
    let mut padding = true;
    for (g, to) in changed.iter_mut().enumerate() {
        let place = if BACKWARD { groups - 1 - g } else { g };
        let from: &[u16; 9] = words[9 * place..9 * place + 9].try_into().unwrap();
        let (pair, map) = judged(from, maps[place], direction).map_err(|number| Answer::Refused(number, g))?;
        *to = map;
        if g == groups - 1 {
            padding = padding_suits(information(from, pair, direction));
        }
    }
    if padding { Ok(()) } else { Err(Answer::Refused(6, 0)) }
}

/// Stores the log of these maps, and tells its length.
fn store(changed: &[u16], log: &mut [u8]) -> usize {
    let (bits, marks) = log.split_at_mut(changed.len().div_ceil(8));
    let mut length = 0;
    for (byte, eight) in bits.iter_mut().zip(changed.chunks(8)) {
        *byte = eight.iter().rev().fold(0, |byte, &map| byte << 1 | u8::from(map != 0));
        if *byte != 0 {
            for map in eight.iter().filter(|&&map| map != 0) {
                marks[length..length + 2].copy_from_slice(&map.to_le_bytes());
                length += 2;
            }
        }
    }
    bits.len() + length
}

pub fn write<const BACKWARD: bool>(words: &[u16], maps: &[u16], log: &mut [u8]) -> Answer {
    let groups = maps.len();
    if groups == 0 || groups > MOST_GROUPS || words.len() != 9 * groups {
        return Answer::Refused(1, 0);
    }
    if log.len() < groups.div_ceil(8) + 2 * groups {
        return Answer::Refused(2, 0);
    }
    if let Some(place) = stray(words, maps, BACKWARD) {
        return Answer::Refused(3, place);
    }
    let mut whole = [0; MOST_GROUPS];
    let mut short = [0; 16];
    let changed = if groups <= 16 { &mut short[..groups] } else { &mut whole[..groups] };
    match gather::<BACKWARD>(words, maps, changed) {
        Ok(()) => Answer::Delivered([store(changed, log), 0, 0, 0]),
        Err(refusal) => refusal,
    }
}

pub fn read_back(groups: usize, log: &[u8], maps: &mut [u16], counts: &mut Counts) -> Answer {
    if maps.len() < groups {
        return Answer::Refused(2, 0);
    }
    let bytes = groups.div_ceil(8);
    if groups == 0 || groups > MOST_GROUPS || log.len() < bytes {
        return Answer::Refused(9, 0);
    }
    let (bits, marks) = log.split_at(bytes);
    let spare = bits[bytes - 1] & !(255 >> (8 * bytes - groups));
    let standing = bits.iter().map(|byte| byte.count_ones()).sum::<u32>() - spare.count_ones();
    if marks.len() != 2 * standing as usize {
        return Answer::Refused(9, 0);
    }
    let mut pairs = marks.chunks_exact(2).map(|pair| u16::from_le_bytes([pair[0], pair[1]]));
    if spare != 0 || pairs.clone().fold(false, |wrong, map| wrong | (map.wrapping_sub(1) > 510)) {
        return Answer::Refused(10, 0);
    }
    *counts = counted(pairs.clone().map(once).sum());
    maps[..groups].fill(0);
    for (&byte, eight) in bits.iter().zip(maps[..groups].chunks_mut(8)) {
        let mut left = byte;
        while left != 0 {
            eight[left.trailing_zeros() as usize] = pairs.next().unwrap();
            left &= left - 1;
        }
    }
    Answer::Delivered([0; 4])
}
