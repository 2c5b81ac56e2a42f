//! Copying from 800 to 6250 again, from the words of document 02, request 2.6: the one 800 record that fits is found by
//! writing the candidates and comparing, and its data are written at 6250 bit by bit. It shares nothing with the library.

use crate::library::{Answer, Direction};
use crate::reading800::{self, LENGTHS};
use crate::record6250;

/// The word space that the copy of so many characters needs: that of the record of two bytes fewer.
pub fn space(characters: usize) -> usize {
    record6250::space(characters.saturating_sub(2))
}

/// The data that are copied where there is so much word space, with the figures of their reading, or the refusal. The checks
/// come in the order 1, 2, 3, 7, 8: the word space takes the place of the 800 reader's space.
pub fn found(direction: Direction, characters: &[u16], words: usize) -> Result<(Vec<u8>, Vec<u64>), Answer> {
    if !LENGTHS.contains(&characters.len()) {
        return Err(Answer::Refused(1, 0));
    }
    if words < space(characters.len()) {
        return Err(Answer::Refused(2, 0));
    }
    reading800::found(direction, characters)
}

pub fn copy(direction: Direction, characters: &[u16], words: &mut [u16]) -> Answer {
    match found(direction, characters, words.len()) {
        Ok((data, figures)) => {
            let record = record6250::written(&data);
            words[..record.len()].copy_from_slice(&record);
            Answer::Delivered([figures, vec![record.len() as u64 / 9]].concat())
        }
        Err(refusal) => refusal,
    }
}
