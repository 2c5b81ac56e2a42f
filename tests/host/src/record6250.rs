//! The 6250 record again, bit by bit from the papers: it shares nothing with the library.

use crate::library::Answer;

/// Document 01's codes for 0 to 15.
pub const CODES: [u16; 16] = [25, 27, 18, 19, 29, 21, 22, 23, 26, 9, 10, 11, 30, 13, 14, 15];

/// Multiplication by the variable modulo g = 1 + X^3 + X^4 + X^5 + X^8.
fn times_t(byte: u8) -> u8 {
    let mut product = 0;
    for k in 0..8 {
        if byte >> k & 1 == 1 {
            product ^= if k == 7 { 1 | 1 << 3 | 1 << 4 | 1 << 5 } else { 1 << (k + 1) };
        }
    }
    product
}

/// What the nine tracks record of the group of seven information bytes, B7 first. Track 8 makes the number of ones in
/// each character odd (document 02, request 2.2).
pub fn group(info: &[u8]) -> [u8; 9] {
    let mut b = [0u8; 8];
    for i in 1..8 {
        b[i] = info[7 - i];
    }
    for i in 1..8 {
        let mut term = b[i];
        for _ in 0..i {
            term = times_t(term);
        }
        b[0] ^= term;
    }
    let mut tracks = [0u8; 9];
    for (i, character) in b.iter().enumerate() {
        for j in 0..8 {
            tracks[j] |= (character >> j & 1) << i;
        }
        tracks[8] |= u8::from(character.count_ones() % 2 == 0) << i;
    }
    tracks
}

/// The word of a byte on a track.
pub fn word(byte: u8) -> u16 {
    CODES[usize::from(byte >> 4)] << 5 | CODES[usize::from(byte & 15)]
}

/// The data with their padding: zero bytes, and a byte that tells how many.
pub fn body(data: &[u8]) -> Vec<u8> {
    let mut body = data.to_vec();
    let padding = (0..7).find(|p| (data.len() + p + 1) % 7 == 0).unwrap();
    body.resize(data.len() + padding, 0);
    body.push(padding as u8);
    body
}

/// The words of the groups cut from a body, which need not be one that a writer leaves.
pub fn words_of_body(body: &[u8]) -> Vec<u16> {
    body.chunks(7).flat_map(|info| group(info).map(word)).collect()
}

/// How many words the record of so many bytes takes: nine for each seven bytes of its body.
pub fn space(length: usize) -> usize {
    9 * (body(&vec![0; length]).len() / 7)
}

/// The words of the written record.
pub fn written(data: &[u8]) -> Vec<u16> {
    words_of_body(&body(data))
}

pub fn write(data: &[u8], words: &mut [u16]) -> Answer {
    if data.len() > 4101 {
        return Answer::Refused(1, 0);
    }
    let record = written(data);
    if words.len() < record.len() {
        return Answer::Refused(2, 0);
    }
    words[..record.len()].copy_from_slice(&record);
    Answer::Delivered(vec![record.len() as u64 / 9])
}
