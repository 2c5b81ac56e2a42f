//! The readers of these tests take short cuts: at 6250 a candidate is passed over if a character has even parity, and a
//! group of the code is taken for its own only fit; at 800 the wrong characters are those of wrong parity. Here both are held, on
//! seeded readings, to enumerations with no short cut: every candidate that the third term speaks of is written.

use crate::damage6250::damage_group;
use crate::damage800::{damage, flip};
use crate::reading6250::{self, byte_of, information};
use crate::reading800::{self, data_of};
use crate::record6250::{group, word, words_of_body};
use crate::record800::written;
use crate::{Seeded, Tried};

/// The words of the groups that fit nine words under a map, tracks that may differ taking every value.
fn every_group(words: &[u16], map: u16) -> Vec<Vec<u16>> {
    let illegal = |track: usize| byte_of(words[track]).is_none();
    let pointed: Vec<usize> = (0..9).filter(|&track| map >> track & 1 == 1 || illegal(track)).collect();
    let choices = match pointed[..] {
        [] | [_] if !pointed.iter().any(|&track| illegal(track)) => (0..9).map(|track| vec![track]).collect(),
        [_] | [_, _] => vec![pointed],
        _ => vec![],
    };
    let mut fits = vec![];
    for tracks in choices {
        for number in 0..1usize << (8 * tracks.len()) {
            let mut candidate = words.to_vec();
            for (place, &track) in tracks.iter().enumerate() {
                candidate[track] = word((number >> (8 * place)) as u8);
            }
            let mut values = [0; 9];
            for (value, &word) in values.iter_mut().zip(&candidate) {
                *value = byte_of(word).expect("a word that is not pointed is legal");
            }
            let is_group = group(&information(&values)).map(word).to_vec() == candidate;
            if is_group && !fits.contains(&candidate) {
                fits.push(candidate);
            }
        }
    }
    fits
}

/// The written records that differ from a reading in one track, in any of its characters.
fn every_record(characters: &[u16]) -> Vec<Vec<u16>> {
    let mut fits = vec![];
    for track in 0..9 {
        for choice in 0..1usize << characters.len() {
            let places: Vec<usize> = (0..characters.len()).filter(|place| choice >> place & 1 == 1).collect();
            let mut candidate = characters.to_vec();
            flip(&mut candidate, &places, 1 << track);
            if written(&data_of(&candidate)) == candidate && !fits.contains(&candidate) {
                fits.push(candidate);
            }
        }
    }
    fits
}

pub fn groups() -> Tried {
    let mut seeded = Seeded(6251);
    let mut tried = Tried::default();
    let mut answers = [0; 6];
    for _ in 0..400 {
        tried.cases += 1;
        let info: Vec<u8> = (0..7).map(|_| seeded.next() as u8).collect();
        let (mut words, mut map) = (words_of_body(&info), 0);
        damage_group(&mut seeded, &mut words, &mut map);
        let got = reading6250::fitting(&words, map);
        answers[usize::from(got.err().unwrap_or(0))] += 1;
        let found: Vec<Vec<u16>> = got.iter().map(|tracks| tracks.map(word).to_vec()).collect();
        if found != every_group(&words, map) {
            tried.wrong.push(format!("words {words:?} under {map}: {got:?}"));
        }
    }
    tried.remarks.push(format!("a group found, refusal 4, refusal 5: {:?}", [answers[0], answers[4], answers[5]]));
    tried
}

pub fn records() -> Tried {
    let mut seeded = Seeded(801);
    let mut tried = Tried::default();
    let mut counts = [0; 10];
    for case in 0..1000 {
        tried.cases += 1;
        let mut characters = written(&(0..1 + case % 9).map(|_| seeded.next() as u8).collect::<Vec<_>>());
        damage(&mut seeded, &mut characters);
        let mut found = reading800::fitting(&characters);
        let mut every = every_record(&characters);
        counts[every.len()] += 1;
        found.sort();
        every.sort();
        if found != every {
            tried.wrong.push(format!("characters {characters:?}: {} for {}", found.len(), every.len()));
        }
    }
    tried.remarks.push(format!("readings that 0 to 9 records fit: {counts:?}"));
    tried
}
