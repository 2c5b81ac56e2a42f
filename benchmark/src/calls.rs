//! The library's calls on slices, with answers in the form of the Rust implementations.

use crate::abi::*;
use crate::{Answer, Counts};

fn answer(status: u16, place: usize, figures: [usize; 4]) -> Answer {
    match status {
        0 => Answer::Delivered(figures),
        number => Answer::Refused(number, place),
    }
}

pub fn write6250(bytes: &[u8], words: &mut [u16]) -> Answer {
    let (mut groups, mut place) = (0, 0);
    let status = unsafe { rindthok_write6250(bytes.as_ptr(), bytes.len(), words.as_mut_ptr(), words.len(), &mut groups, &mut place) };
    answer(status, place, [groups, 0, 0, 0])
}

pub fn read6250<const BACKWARD: bool>(words: &[u16], maps: &[u16], output: &mut [u8], counts: &mut Counts) -> Answer {
    let (mut size, mut changes, mut place) = (0, 0, 0);
    let call = if BACKWARD { rindthok_read6250_backward } else { rindthok_read6250_forward };
    let (from, pointers, to, nine) = (words.as_ptr(), maps.as_ptr(), output.as_mut_ptr(), counts.as_mut_ptr());
    let status = unsafe { call(from, words.len(), pointers, maps.len(), to, output.len(), &mut size, &mut changes, nine, &mut place) };
    answer(status, place, [size, changes, 0, 0])
}

pub fn log6250<const BACKWARD: bool>(words: &[u16], maps: &[u16], log: &mut [u8]) -> Answer {
    let (mut length, mut place) = (0, 0);
    let call = if BACKWARD { rindthok_log6250_backward } else { rindthok_log6250_forward };
    let (from, pointers, to) = (words.as_ptr(), maps.as_ptr(), log.as_mut_ptr());
    let status = unsafe { call(from, words.len(), pointers, maps.len(), to, log.len(), &mut length, &mut place) };
    answer(status, place, [length, 0, 0, 0])
}

pub fn read_log(groups: usize, log: &[u8], maps: &mut [u16], counts: &mut Counts) -> Answer {
    let mut place = 0;
    let (from, to, nine) = (log.as_ptr(), maps.as_mut_ptr(), counts.as_mut_ptr());
    let status = unsafe { rindthok_read_log(groups, from, log.len(), to, maps.len(), nine, &mut place) };
    answer(status, place, [0; 4])
}

pub fn write800(bytes: &[u8], characters: &mut [u16]) -> Answer {
    let (mut count, mut place) = (0, 0);
    let (from, to) = (bytes.as_ptr(), characters.as_mut_ptr());
    let status = unsafe { rindthok_write800(from, bytes.len(), to, characters.len(), &mut count, &mut place) };
    answer(status, place, [count, 0, 0, 0])
}

pub fn read800<const BACKWARD: bool>(characters: &[u16], output: &mut [u8], counts: &mut Counts) -> Answer {
    let (mut size, mut track, mut changes, mut place) = (0, 0, 0, 0);
    let call = if BACKWARD { rindthok_read800_backward } else { rindthok_read800_forward };
    let (from, to, nine) = (characters.as_ptr(), output.as_mut_ptr(), counts.as_mut_ptr());
    let status = unsafe { call(from, characters.len(), to, output.len(), &mut size, &mut track, &mut changes, nine, &mut place) };
    answer(status, place, [size, track, changes, 0])
}

pub fn copy800<const BACKWARD: bool>(characters: &[u16], words: &mut [u16], counts: &mut Counts) -> Answer {
    let (mut size, mut track, mut changes, mut groups, mut place) = (0, 0, 0, 0, 0);
    let call = if BACKWARD { rindthok_copy800_backward } else { rindthok_copy800_forward };
    let (from, to, nine) = (characters.as_ptr(), words.as_mut_ptr(), counts.as_mut_ptr());
    let status = unsafe { call(from, characters.len(), to, words.len(), &mut size, &mut track, &mut changes, nine, &mut groups, &mut place) };
    answer(status, place, [size, track, changes, groups])
}

pub fn words_to_physical(source: &[u16], target: &mut [u16]) -> Answer {
    let mut place = 0;
    let (from, to) = (source.as_ptr(), target.as_mut_ptr());
    let status = unsafe { rindthok_words_to_physical(from, source.len(), to, target.len(), &mut place) };
    answer(status, place, [0; 4])
}

pub fn words_to_algebraic(source: &[u16], target: &mut [u16]) -> Answer {
    let mut place = 0;
    let (from, to) = (source.as_ptr(), target.as_mut_ptr());
    let status = unsafe { rindthok_words_to_algebraic(from, source.len(), to, target.len(), &mut place) };
    answer(status, place, [0; 4])
}

pub fn map<const TO_PHYSICAL: bool>(map: u16) -> Answer {
    let (mut moved, mut place) = (0, 0);
    let call = if TO_PHYSICAL { rindthok_map_to_physical } else { rindthok_map_to_algebraic };
    let status = unsafe { call(map, &mut moved, &mut place) };
    answer(status, place, [usize::from(moved), 0, 0, 0])
}

pub fn words_by_card<const TO_PHYSICAL: bool>(card: &[u8], source: &[u16], target: &mut [u16]) -> Answer {
    let mut place = 0;
    let call = if TO_PHYSICAL { rindthok_card_words_to_physical } else { rindthok_card_words_to_algebraic };
    let (numbers, from, to) = (card.as_ptr(), source.as_ptr(), target.as_mut_ptr());
    let status = unsafe { call(numbers, card.len(), from, source.len(), to, target.len(), &mut place) };
    answer(status, place, [0; 4])
}

pub fn map_by_card<const TO_PHYSICAL: bool>(card: &[u8], map: u16) -> Answer {
    let (mut moved, mut place) = (0, 0);
    let call = if TO_PHYSICAL { rindthok_card_map_to_physical } else { rindthok_card_map_to_algebraic };
    let status = unsafe { call(card.as_ptr(), card.len(), map, &mut moved, &mut place) };
    answer(status, place, [usize::from(moved), 0, 0, 0])
}

pub fn inverse_card(card: &[u8], inverse: &mut [u8; 9]) -> Answer {
    let mut place = 0;
    let status = unsafe { rindthok_inverse_card(card.as_ptr(), card.len(), inverse.as_mut_ptr(), &mut place) };
    answer(status, place, [0; 4])
}
