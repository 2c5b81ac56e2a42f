//! Wiring cards (document 02, request 2.4) again, by search and by comparing each track with every other: this shares nothing with
//! the library. Below it the library's calls are set beside it, outputs compared whole, those of refusals too.

use crate::library::{self, Answer, Toward};
use crate::vectors::{self, BEHIND, LENT, LENT_BYTE};
use crate::Tried;

/// Seeded cases for each call.
pub const CASES: usize = 200_000;

/// Whether the number of a physical track is no algebraic track, or another physical track has it too.
fn is_wrong(card: &[u8], physical: usize) -> bool {
    let number = card[physical - 1];
    let on_another = (1..=9).any(|other| other != physical && card[other - 1] == number);
    on_another || !(0..9).contains(&number)
}

/// Refusal 11 with the lowest physical track that has such a number, or none.
fn refused_for_content(card: &[u8]) -> Option<Answer> {
    (1..=9).find(|&physical| is_wrong(card, physical)).map(|physical| Answer::Refused(11, physical))
}

/// The index in head order of an algebraic track, for which a good card is searched.
fn head_index(card: &[u8], algebraic: usize) -> usize {
    (0..9).find(|&head| usize::from(card[head]) == algebraic).expect("a good card has every algebraic track")
}

fn words(toward: Toward, card: &[u8], source: &[u16], target: &mut [u16]) -> Answer {
    if card.len() != 9 {
        return Answer::Refused(12, 0);
    }
    if source.len() != 9 {
        return Answer::Refused(1, 0);
    }
    if target.len() < 9 {
        return Answer::Refused(2, 0);
    }
    if let Some(refusal) = refused_for_content(card) {
        return refusal;
    }
    if let Some(place) = source.iter().position(|&word| word > 1023) {
        return Answer::Refused(3, place);
    }
    for algebraic in 0..9 {
        let head = head_index(card, algebraic);
        match toward {
            Toward::Physical => target[head] = source[algebraic],
            Toward::Algebraic => target[algebraic] = source[head],
        }
    }
    Answer::Delivered(vec![])
}

fn map(toward: Toward, card: &[u8], map: u16, moved: &mut u16) -> Answer {
    if card.len() != 9 {
        return Answer::Refused(12, 0);
    }
    if let Some(refusal) = refused_for_content(card) {
        return refusal;
    }
    if map > 511 {
        return Answer::Refused(3, 0);
    }
    *moved = (0..9)
        .map(|algebraic| match toward {
            Toward::Physical => (map >> algebraic & 1) << head_index(card, algebraic),
            Toward::Algebraic => (map >> head_index(card, algebraic) & 1) << algebraic,
        })
        .sum();
    Answer::Delivered(vec![u64::from(*moved)])
}

fn inverse(card: &[u8], inverse: &mut [u8; 9]) -> Answer {
    if card.len() != 9 {
        return Answer::Refused(12, 0);
    }
    if let Some(refusal) = refused_for_content(card) {
        return refusal;
    }
    *inverse = std::array::from_fn(|algebraic| head_index(card, algebraic) as u8);
    Answer::Delivered(vec![])
}

/// The outside cases of the five calls by the functions above.
pub fn outside_cases() -> Tried {
    type Run = fn(&str) -> Result<(), String>;
    let kinds: [(&str, Run); 5] = [
        ("card-to-physical", |line| vectors::card_words(line, Toward::Physical, words)),
        ("card-to-algebraic", |line| vectors::card_words(line, Toward::Algebraic, words)),
        ("card-map-to-physical", |line| vectors::card_map(line, Toward::Physical, map)),
        ("card-map-to-algebraic", |line| vectors::card_map(line, Toward::Algebraic, map)),
        ("inverse-card", |line| vectors::inverse_card(line, inverse)),
    ];
    let mut tried = Tried::default();
    for (kind, run) in kinds {
        let of_kind = vectors::of_kind(kind, run);
        tried.cases += of_kind.cases;
        tried.wrong.extend(of_kind.wrong);
        if of_kind.cases == 0 {
            tried.wrong.push(format!("no case of the kind {kind}"));
        }
    }
    tried
}

/// Keeps what went wrong. There are so many cases that to tell of each would take all memory.
pub fn found(tried: &mut Tried, what: impl FnOnce() -> String) {
    if tried.wrong.len() < 1000 {
        tried.wrong.push(what());
    }
}

/// Words moved by the library and by these tests; what the latter answered, and the library's target.
pub fn compare_words(tried: &mut Tried, toward: Toward, card: &[u8], source: &[u16], space: usize) -> (Answer, Vec<u16>) {
    let mut target = vec![LENT; space + BEHIND];
    let mut after = vec![LENT; space + BEHIND];
    let got = library::card_words(toward, card, source, &mut target[..space]);
    let want = words(toward, card, source, &mut after[..space]);
    tried.cases += 1;
    if got != want || target != after {
        found(tried, || format!("{toward:?}, card {card:?}, words {source:?}, space {space}: {got:?} for {want:?}, output {target:?}"));
    }
    (want, target)
}

/// The same for a map; with the answer what the library left where the moved map is due.
pub fn compare_map(tried: &mut Tried, toward: Toward, card: &[u8], number: u16) -> (Answer, u16) {
    let mut moved = [LENT; 1 + BEHIND];
    let mut after = [LENT; 1 + BEHIND];
    let got = library::card_map(toward, card, number, &mut moved[0]);
    let want = map(toward, card, number, &mut after[0]);
    tried.cases += 1;
    if got != want || moved != after {
        found(tried, || format!("{toward:?}, card {card:?}, map {number}: {got:?} for {want:?}, output {moved:?}"));
    }
    (want, moved[0])
}

/// The same for the inverse card, with the library's nine numbers.
pub fn compare_inverse(tried: &mut Tried, card: &[u8]) -> (Answer, [u8; 9]) {
    let mut numbers = [LENT_BYTE; 9 + BEHIND];
    let mut after = [LENT_BYTE; 9 + BEHIND];
    let got = library::inverse_card(card, numbers.first_chunk_mut().unwrap());
    let want = inverse(card, after.first_chunk_mut().unwrap());
    tried.cases += 1;
    if got != want || numbers != after {
        found(tried, || format!("card {card:?}: {got:?} for {want:?}, inverse {numbers:?}"));
    }
    (want, *numbers.first_chunk().unwrap())
}
