//! The 800 record again, from the papers: the check character by long division of the whole polynomial,
//! without a register. It shares nothing with the library.

use crate::library::Answer;

/// The powers of the register polynomial G = 1 + X^3 + X^4 + X^5 + X^6 + X^9.
const G: [usize; 6] = [0, 3, 4, 5, 6, 9];

/// The powers of G2, the polynomial of document 003's last section.
pub const G2: [usize; 7] = [0, 1, 2, 4, 6, 7, 8];

/// The number whose bits are the coefficients of these powers.
fn number_of(powers: &[usize]) -> u16 {
    powers.iter().map(|power| 1 << power).sum()
}

/// What long division by G leaves of a polynomial; its coefficients stand lowest power first, nine at least.
fn remainder(mut coefficients: Vec<bool>) -> u16 {
    for top in (9..coefficients.len()).rev() {
        if coefficients[top] {
            for power in G {
                coefficients[top - 9 + power] ^= true;
            }
        }
    }
    number_of(&(0..9).filter(|&power| coefficients[power]).collect::<Vec<_>>())
}

/// The character of a byte: track 8 makes the number of ones odd.
fn character(byte: u8) -> u16 {
    let parity = if byte.count_ones() % 2 == 0 { 1 } else { 0 };
    u16::from(byte) + 256 * parity
}

/// The check character of data characters; the last of them has index 1, the first index n.
fn check(characters: &[u16]) -> u16 {
    let mut sum = vec![false; characters.len() + 9];
    for (index, character) in (1..).zip(characters.iter().rev()) {
        for track in 0..9 {
            sum[index + track] ^= character >> track & 1 == 1;
        }
    }
    remainder(sum) ^ number_of(&G2)
}

/// The characters of the written record.
pub fn written(data: &[u8]) -> Vec<u16> {
    let mut record: Vec<u16> = data.iter().map(|&byte| character(byte)).collect();
    record.push(check(&record));
    record.push(record.iter().fold(0, |sum, character| sum ^ character));
    record
}

pub fn write(data: &[u8], characters: &mut [u16]) -> Answer {
    if data.is_empty() || data.len() > 2048 {
        return Answer::Refused(1, 0);
    }
    if characters.len() < data.len() + 2 {
        return Answer::Refused(2, 0);
    }
    let record = written(data);
    characters[..record.len()].copy_from_slice(&record);
    Answer::Delivered(vec![record.len() as u64])
}
