//! Nine words and maps between head order and code order, by the standard card (document 000, note 11) or by a wiring card
//! (document 02, request 2.4), and the inverse card, written for speed in Rust.

use crate::Answer;

/// The algebraic track of each physical track, 1 to 9, and the index in head order of each algebraic one.
const ALGEBRAIC: [usize; 9] = [1, 4, 7, 8, 3, 6, 0, 2, 5];
const PHYSICAL: [usize; 9] = [6, 0, 7, 4, 1, 8, 5, 2, 3];

/// Every map of nine bits, moved: each bit is taken from its place in the map.
const fn maps(places: [usize; 9]) -> [u16; 512] {
    let mut table = [0; 512];
    let mut map = 0;
    while map < 512 {
        let mut to = 0;
        while to < 9 {
            table[map] |= ((map >> places[to] & 1) as u16) << to;
            to += 1;
        }
        map += 1;
    }
    table
}

static PHYSICAL_MAPS: [u16; 512] = maps(ALGEBRAIC);
static ALGEBRAIC_MAPS: [u16; 512] = maps(PHYSICAL);

/// Takes each word of the target from its place in the source.
fn moved(source: &[u16], target: &mut [u16], places: [usize; 9]) -> Answer {
    if source.len() != 9 {
        return Answer::Refused(1, 0);
    }
    if target.len() < 9 {
        return Answer::Refused(2, 0);
    }
    if let Some(place) = source.iter().position(|&word| word > 1023) {
        return Answer::Refused(3, place);
    }
    for (to, from) in places.into_iter().enumerate() {
        target[to] = source[from];
    }
    Answer::Delivered([0; 4])
}

pub fn to_physical(source: &[u16], target: &mut [u16]) -> Answer {
    moved(source, target, ALGEBRAIC)
}

pub fn to_algebraic(source: &[u16], target: &mut [u16]) -> Answer {
    moved(source, target, PHYSICAL)
}

pub fn map<const TO_PHYSICAL: bool>(map: u16) -> Answer {
    let table = if TO_PHYSICAL { &PHYSICAL_MAPS } else { &ALGEBRAIC_MAPS };
    match table.get(usize::from(map)) {
        Some(&moved) => Answer::Delivered([usize::from(moved), 0, 0, 0]),
        None => Answer::Refused(3, 0),
    }
}

/// Whether each of nine numbers is one of 0 to 8 and has a bit of its own. That each is below 9 is asked one by one,
/// so that the compiler knows it where words are moved by them, and asks no more.
#[inline(always)]
fn is_good(card: &[u8; 9]) -> bool {
    card.iter().all(|&number| number < 9) && card.iter().fold(0, |bits, number| bits | 1 << number) == 511
}

/// Refusal 11, with the lowest physical track that has a number above 8, or one that stands on two tracks.
#[cold]
fn bad_card(card: &[u8; 9]) -> Answer {
    let twice = |number| card.iter().filter(|&&other| other == number).count() > 1;
    let index = card.iter().position(|&number| number > 8 || twice(number));
    Answer::Refused(11, index.expect("a bad card has such a number") + 1)
}

/// Refusal 3, with the place of the first word that is above 1023.
#[cold]
fn stray_word(words: &[u16; 9]) -> Answer {
    let place = words.iter().position(|&word| word > 1023);
    Answer::Refused(3, place.expect("one of the words has a stray bit"))
}

pub fn words_by_card<const TO_PHYSICAL: bool>(card: &[u8], source: &[u16], target: &mut [u16]) -> Answer {
    let Ok(card) = <&[u8; 9]>::try_from(card) else { return Answer::Refused(12, 0) };
    let Ok(source) = <&[u16; 9]>::try_from(source) else { return Answer::Refused(1, 0) };
    let Some(target) = target.first_chunk_mut::<9>() else { return Answer::Refused(2, 0) };
    if !is_good(card) {
        return bad_card(card);
    }
    if source.iter().fold(0, |bits, word| bits | word) > 1023 {
        return stray_word(source);
    }
    for (index, &number) in card.iter().enumerate() {
        let (to, from) = if TO_PHYSICAL { (index, usize::from(number)) } else { (usize::from(number), index) };
        target[to] = source[from];
    }
    Answer::Delivered([0; 4])
}

pub fn map_by_card<const TO_PHYSICAL: bool>(card: &[u8], map: u16) -> Answer {
    let Ok(card) = <&[u8; 9]>::try_from(card) else { return Answer::Refused(12, 0) };
    if !is_good(card) {
        return bad_card(card);
    }
    if map > 511 {
        return Answer::Refused(3, 0);
    }
    let mut moved = 0;
    for (index, &number) in card.iter().enumerate() {
        let (to, from) = if TO_PHYSICAL { (index, usize::from(number)) } else { (usize::from(number), index) };
        moved |= (usize::from(map) >> from & 1) << to;
    }
    Answer::Delivered([moved, 0, 0, 0])
}

pub fn inverse_card(card: &[u8], inverse: &mut [u8; 9]) -> Answer {
    let Ok(card) = <&[u8; 9]>::try_from(card) else { return Answer::Refused(12, 0) };
    if !is_good(card) {
        return bad_card(card);
    }
    for (index, &number) in card.iter().enumerate() {
        inverse[usize::from(number)] = index as u8;
    }
    Answer::Delivered([0; 4])
}
