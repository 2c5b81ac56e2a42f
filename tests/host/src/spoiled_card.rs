//! Cards with faults: every number on every track of some good cards, every length, and seeded cards with every combination of what a
//! call refuses, so that the order of the checks shows.

use crate::card::{compare_inverse, compare_map, compare_words, found, CASES};
use crate::good_card::{good_card, nine_words, some_good_cards};
use crate::library::{Answer, Toward};
use crate::{random_source, random_space, Seeded, Tried};

/// A card in all five calls, with words and a map that nothing is wrong with.
fn in_every_call(tried: &mut Tried, seeded: &mut Seeded, card: &[u8]) -> [Answer; 5] {
    let source = nine_words(seeded);
    let number = seeded.below(512) as u16;
    [
        compare_words(tried, Toward::Physical, card, &source, 9).0,
        compare_words(tried, Toward::Algebraic, card, &source, 9).0,
        compare_map(tried, Toward::Physical, card, number).0,
        compare_map(tried, Toward::Algebraic, card, number).0,
        compare_inverse(tried, card).0,
    ]
}

/// The refusal of a good card on which a number was put, or none where it is the track's own: a number above 8 is refused at that
/// track, and any other at the lower of the two tracks that have it now.
fn due(card: &[u8], index: usize, number: u8) -> Option<Answer> {
    match card.iter().position(|&other| other == number) {
        Some(other) if other == index => None,
        Some(other) => Some(Answer::Refused(11, index.min(other) + 1)),
        None => Some(Answer::Refused(11, index + 1)),
    }
}

/// Whether an answer is the refusal that is due, or a delivery where none is.
fn is_due(answer: &Answer, due: &Option<Answer>) -> bool {
    due.as_ref().map_or(answer.number() == 0, |refusal| answer == refusal)
}

/// What was answered.
#[derive(Default)]
struct Seen {
    answers: [usize; 13],
    /// The refusals by 11 at each physical track; there is no track 0.
    tracks: [usize; 10],
    /// The cases that have each combination of what a call refuses.
    combinations: [usize; 32],
}

impl Seen {
    fn count(&mut self, answer: &Answer) {
        self.answers[answer.number()] += 1;
        if let Answer::Refused(11, physical) = answer {
            self.tracks[*physical] += 1;
        }
    }

    /// Counts a case by what it has of that which its call refuses, told in the order of the checks: the first gives the answer.
    fn count_checks(&mut self, tried: &mut Tried, checks: &[(usize, bool)], answer: &Answer) {
        self.count(answer);
        self.combinations[checks.iter().fold(0, |bits, &(_, refused)| 2 * bits + usize::from(refused))] += 1;
        let (case, first) = (tried.cases, checks.iter().find(|check| check.1).map_or(0, |check| check.0));
        if answer.number() != first {
            found(tried, || format!("case {case}: {answer:?} by these tests, and {first} by the order of the checks"));
        }
    }

    fn tell(&self, tried: &mut Tried, needed: &[usize]) {
        tried.tell_answers(&self.answers, needed);
        tried.remarks.push(format!("refused by 11 at physical tracks 1 to 9: {:?}", &self.tracks[1..]));
        if self.tracks[1..].contains(&0) {
            tried.wrong.push("no such refusal by 11".to_string());
        }
    }

    /// Tells that too, and finds fault if a combination of so many checks never occurred: then their order does not show.
    fn tell_checks(&self, tried: &mut Tried, needed: &[usize], checks: usize) {
        self.tell(tried, needed);
        let combinations = &self.combinations[..1 << checks];
        tried.remarks.push(format!("cases with each combination of what is refused: {combinations:?}"));
        if combinations.contains(&0) {
            tried.wrong.push("no case of such a combination".to_string());
        }
    }
}

/// Every number on every track of some good cards, in all five calls.
pub fn every_number() -> Tried {
    let mut seeded = Seeded(256);
    let (mut tried, mut seen) = (Tried::default(), Seen::default());
    for good in some_good_cards(&mut seeded) {
        for (index, number) in (0..9).flat_map(|index| (0..=255).map(move |number| (index, number))) {
            let mut card = good.clone();
            card[index] = number;
            let due = due(&good, index, number);
            for answer in in_every_call(&mut tried, &mut seeded, &card) {
                seen.count(&answer);
                if !is_due(&answer, &due) {
                    found(&mut tried, || format!("{number} at index {index} of card {good:?}: {answer:?} by these tests"));
                }
            }
        }
    }
    seen.tell(&mut tried, &[0, 11]);
    tried
}

/// Cards of 0 to 20 numbers, and of lengths that are nine in their lowest byte or two; the numbers are those of some good cards, over
/// and over. In all five calls.
pub fn every_length() -> Tried {
    let mut seeded = Seeded(20);
    let mut tried = Tried::default();
    let mut answers = [0; 13];
    let lengths = || (0..=20).chain([256 + 9, 65_536 + 9]);
    for (good, length) in some_good_cards(&mut seeded).iter().flat_map(|good| lengths().map(move |length| (good, length))) {
        let card: Vec<u8> = good.iter().copied().cycle().take(length).collect();
        let due = (length != 9).then_some(Answer::Refused(12, 0));
        for answer in in_every_call(&mut tried, &mut seeded, &card) {
            answers[answer.number()] += 1;
            if !is_due(&answer, &due) {
                found(&mut tried, || format!("{length} numbers of card {good:?}: {answer:?} by these tests"));
            }
        }
    }
    tried.tell_answers(&answers, &[0, 12]);
    tried
}

/// A good card, or one with a fault or two: numbers above 8, and numbers that another track has. Once in a while the numbers are
/// all seeded, or there are not nine.
fn random_card(seeded: &mut Seeded) -> Vec<u8> {
    let mut card = good_card(seeded);
    for _ in 0..[0, 0, 0, 1, 1, 2][seeded.index(6)] {
        card[seeded.index(9)] = match seeded.below(4) {
            0 => 9,
            1 => 9 + seeded.below(247) as u8,
            _ => card[seeded.index(9)],
        };
    }
    if seeded.once_in(32) {
        let limit = [9, 10, 256][seeded.index(3)];
        card = (0..9).map(|_| seeded.below(limit) as u8).collect();
    }
    if seeded.once_in(4) {
        let length = [0, 8, 10, 18, seeded.index(9), seeded.index(41)][seeded.index(6)];
        card = card.iter().copied().cycle().take(length).collect();
    }
    card
}

/// Whether a card of any length has a number above 8, or a number twice.
fn has_wrong_number(card: &[u8]) -> bool {
    let mut numbers = card.to_vec();
    numbers.sort();
    numbers.dedup();
    numbers.len() < card.len() || numbers.last().is_some_and(|&highest| highest > 8)
}

pub fn random_words(toward: Toward) -> Tried {
    let mut seeded = Seeded(241 + matches!(toward, Toward::Algebraic) as u64);
    let (mut tried, mut seen) = (Tried::default(), Seen::default());
    for _ in 0..CASES {
        let card = random_card(&mut seeded);
        let source = random_source(&mut seeded);
        let space = random_space(&mut seeded);
        let stray = source.iter().any(|&word| word > 1023);
        let checks = [(12, card.len() != 9), (1, source.len() != 9), (2, space < 9), (11, has_wrong_number(&card)), (3, stray)];
        let (answer, _) = compare_words(&mut tried, toward, &card, &source, space);
        seen.count_checks(&mut tried, &checks, &answer);
    }
    seen.tell_checks(&mut tried, &[0, 1, 2, 3, 11, 12], 5);
    tried
}

pub fn random_maps(toward: Toward) -> Tried {
    let mut seeded = Seeded(243 + matches!(toward, Toward::Algebraic) as u64);
    let (mut tried, mut seen) = (Tried::default(), Seen::default());
    for _ in 0..CASES {
        let card = random_card(&mut seeded);
        let number = match seeded.below(8) {
            0 => 512 << seeded.below(7) | seeded.below(512) as u16,
            1 => [512, 65535, 512 + seeded.below(65536 - 512) as u16][seeded.index(3)],
            _ => seeded.below(512) as u16,
        };
        let checks = [(12, card.len() != 9), (11, has_wrong_number(&card)), (3, number > 511)];
        let (answer, _) = compare_map(&mut tried, toward, &card, number);
        seen.count_checks(&mut tried, &checks, &answer);
    }
    seen.tell_checks(&mut tried, &[0, 3, 11, 12], 3);
    tried
}

pub fn random_inverses() -> Tried {
    let mut seeded = Seeded(245);
    let (mut tried, mut seen) = (Tried::default(), Seen::default());
    for _ in 0..CASES {
        let card = random_card(&mut seeded);
        let (answer, _) = compare_inverse(&mut tried, &card);
        seen.count_checks(&mut tried, &[(12, card.len() != 9), (11, has_wrong_number(&card))], &answer);
    }
    seen.tell_checks(&mut tried, &[0, 11, 12], 2);
    tried
}
