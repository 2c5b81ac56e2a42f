//! Good cards: every one of them, words and maps moved out and back by it, its inverse, and the standard card beside none.

use crate::card::{compare_inverse, compare_map, compare_words, found, CASES};
use crate::damage6250::shuffled;
use crate::library::{self, Answer, Toward};
use crate::vectors::{BEHIND, LENT};
use crate::{random_source, random_space, Seeded, Tried};

/// Note 11 of document 000: the card of a head that nobody rewired.
const STANDARD: [u8; 9] = [1, 4, 7, 8, 3, 6, 0, 2, 5];

/// Every good card: on each track every number that no track before it has.
fn good_cards() -> Vec<Vec<u8>> {
    let mut cards: Vec<Vec<u8>> = vec![vec![]];
    for _ in 0..9 {
        let pairs = cards.iter().flat_map(|card| (0..9).map(move |number| (card, number)));
        cards = pairs.filter(|(card, number)| !card.contains(number)).map(|(card, number)| [&card[..], &[number]].concat()).collect();
    }
    assert_eq!(cards.len(), 362_880, "there are 9! good cards");
    cards
}

pub fn nine_words(seeded: &mut Seeded) -> Vec<u16> {
    (0..9).map(|_| seeded.below(1024) as u16).collect()
}

/// A map that is not stray, moved by a good card and back.
fn map_and_back(tried: &mut Tried, toward: Toward, card: &[u8], number: u16) {
    let (_, moved) = compare_map(tried, toward, card, number);
    let (_, restored) = compare_map(tried, toward.back(), card, moved);
    if restored != number {
        found(tried, || format!("{toward:?} and back, card {card:?}: map {number} comes back as {restored}"));
    }
}

/// Seeded words, a seeded map, its complement and each track by itself, moved by every good card and back.
pub fn every_card(toward: Toward) -> Tried {
    let mut seeded = Seeded(24 + matches!(toward, Toward::Algebraic) as u64);
    let mut tried = Tried::default();
    for card in good_cards() {
        let source = nine_words(&mut seeded);
        let (_, moved) = compare_words(&mut tried, toward, &card, &source, 9);
        let (_, restored) = compare_words(&mut tried, toward.back(), &card, &moved[..9], 9);
        if restored[..9] != source {
            found(&mut tried, || format!("{toward:?} and back, card {card:?}: words {source:?} come back as {restored:?}"));
        }
        let any = seeded.below(512) as u16;
        for number in [any, 511 - any].into_iter().chain((0..9).map(|track| 1 << track)) {
            map_and_back(&mut tried, toward, &card, number);
        }
    }
    tried
}

/// Every good card's inverse, whose own inverse is the card. To move one way by the one is to move the other way by the other.
pub fn every_inverse() -> Tried {
    let mut seeded = Seeded(362_880);
    let mut tried = Tried::default();
    for card in good_cards() {
        let (_, inverse) = compare_inverse(&mut tried, &card);
        let (_, again) = compare_inverse(&mut tried, &inverse);
        if again[..] != card {
            found(&mut tried, || format!("card {card:?}: the inverse of {inverse:?} is {again:?}"));
        }
        let source = nine_words(&mut seeded);
        for toward in [Toward::Physical, Toward::Algebraic] {
            let (_, by_card) = compare_words(&mut tried, toward, &card, &source, 9);
            let (_, by_inverse) = compare_words(&mut tried, toward.back(), &inverse, &source, 9);
            if by_card != by_inverse {
                found(&mut tried, || format!("{toward:?}, card {card:?}: {by_card:?}, back by its inverse {by_inverse:?}"));
            }
        }
    }
    tried
}

pub fn good_card(seeded: &mut Seeded) -> Vec<u8> {
    shuffled(seeded).map(|track| track as u8).to_vec()
}

/// The standard card, the tracks in order and in reverse, and seeded cards.
pub fn some_good_cards(seeded: &mut Seeded) -> Vec<Vec<u8>> {
    let mut cards = vec![STANDARD.to_vec(), (0..9).collect(), (0..9).rev().collect()];
    cards.extend((0..29).map(|_| good_card(seeded)));
    cards
}

/// Every number as a map, moved by some good cards, and back if it is no stray one.
pub fn every_map(toward: Toward) -> Tried {
    let mut tried = Tried::default();
    for card in some_good_cards(&mut Seeded(511)) {
        (0..=511).for_each(|number| map_and_back(&mut tried, toward, &card, number));
        for number in 512..=u16::MAX {
            let (answer, _) = compare_map(&mut tried, toward, &card, number);
            if answer != Answer::Refused(3, 0) {
                found(&mut tried, || format!("{toward:?}, card {card:?}, map {number}: {answer:?} by these tests"));
            }
        }
    }
    tried
}

/// The calls without a card, which answer as those by the standard card do: seeded words, and every map.
pub fn standard_card(toward: Toward) -> Tried {
    let mut seeded = Seeded(147 + matches!(toward, Toward::Algebraic) as u64);
    let mut tried = Tried::default();
    let mut answers = [0; 4];
    for _ in 0..CASES {
        let (source, space) = (random_source(&mut seeded), random_space(&mut seeded));
        let (answer, by_card) = compare_words(&mut tried, toward, &STANDARD, &source, space);
        let mut target = vec![LENT; space + BEHIND];
        let got = library::words(toward, &source, &mut target[..space]);
        answers[answer.number()] += 1;
        if got != answer || target != by_card {
            found(&mut tried, || format!("words {source:?}, space {space}: {got:?} without a card, output {target:?}; {answer:?} by it, {by_card:?}"));
        }
    }
    for number in 0..=u16::MAX {
        let (answer, by_card) = compare_map(&mut tried, toward, &STANDARD, number);
        let mut moved = LENT;
        let got = library::map(toward, number, &mut moved);
        answers[answer.number()] += 1;
        if got != answer || moved != by_card {
            found(&mut tried, || format!("map {number}: {got:?} without a card, output {moved}; {answer:?} by it, {by_card}"));
        }
    }
    tried.tell_answers(&answers, &[0, 1, 2, 3]);
    tried
}
