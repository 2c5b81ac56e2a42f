//! Tests of the proved archive and of the programs from outside: the outside cases of tests/vectors, and comparisons
//! with implementations that share nothing with the library. The last line is `N passed, M failed`.

mod abi;
mod bench;
mod by_track;
mod card;
mod copying;
mod damage6250;
mod damage800;
mod damage_copy;
mod damage_log;
mod good_card;
mod head_order;
mod library;
mod programs;
mod reading6250;
mod reading800;
mod record6250;
mod record800;
mod report;
mod sense_log;
mod short_cuts;
mod spoiled_card;
mod spoiled_log;
mod vectors;

use damage800::READ;
use damage_copy::{BY_TWO_CALLS, COPIED, READ_BACK};
use library::{Direction, Toward};
use vectors::{BEHIND, LENT};

/// A seeded generator (splitmix64), so that every run tries the same cases.
struct Seeded(u64);

impl Seeded {
    fn next(&mut self) -> u64 {
        self.0 = self.0.wrapping_add(0x9E37_79B9_7F4A_7C15);
        let mut z = self.0;
        z = (z ^ (z >> 30)).wrapping_mul(0xBF58_476D_1CE4_E5B9);
        z = (z ^ (z >> 27)).wrapping_mul(0x94D0_49BB_1331_11EB);
        z ^ (z >> 31)
    }

    fn below(&mut self, bound: u64) -> u64 {
        self.next() % bound
    }

    fn index(&mut self, bound: usize) -> usize {
        self.below(bound as u64) as usize
    }

    fn once_in(&mut self, bound: u64) -> bool {
        self.below(bound) == 0
    }

    /// The least space that a call needs, somewhat more, or less.
    fn space(&mut self, least: usize) -> usize {
        match self.below(24) {
            0 => least.saturating_sub(1),
            1 => self.index(least + 1),
            2..=12 => least,
            _ => least + self.index(12),
        }
    }
}

/// The cases tried, what went wrong in those that differ, and what else the suite tells of them.
#[derive(Default)]
struct Tried {
    cases: usize,
    wrong: Vec<String>,
    remarks: Vec<String>,
}

impl Tried {
    fn expect(&mut self, name: &str, holds: bool) {
        self.cases += 1;
        if !holds {
            self.wrong.push(name.to_string());
        }
    }

    /// Tells how often each number was the answer, and finds fault if one of those that must occur never did.
    fn tell_answers(&mut self, answers: &[usize], needed: &[usize]) {
        self.remarks.push(format!("answers 0 (delivered) to {}: {answers:?}", answers.len() - 1));
        for number in needed.iter().filter(|&&number| answers[number] == 0) {
            self.wrong.push(format!("no case is answered by {number}"));
        }
    }
}

fn every_map(toward: Toward) -> Tried {
    let mut tried = Tried::default();
    for map in 0..=u16::MAX {
        tried.cases += 1;
        let mut moved = LENT;
        let got = library::map(toward, map, &mut moved);
        let want = head_order::map(toward, map);
        let kept = map < 512 || moved == LENT;
        if got != want || !kept {
            tried.wrong.push(format!("map {map}: {got:?} for {want:?}, output {moved}"));
        }
    }
    tried
}

/// One or two of the words beyond ten bits, by one or by anything.
fn stray(seeded: &mut Seeded, words: &mut [u16]) {
    for _ in 0..1 + seeded.below(2) {
        let place = seeded.index(words.len());
        words[place] = if seeded.once_in(3) { 1024 } else { 1024 + seeded.below(65536 - 1024) as u16 };
    }
}

/// Nine words mostly, or another number of them, with stray ones among them once in a while.
fn random_source(seeded: &mut Seeded) -> Vec<u16> {
    let count = if seeded.once_in(8) { seeded.below(20) } else { 9 };
    let mut source: Vec<u16> = (0..count).map(|_| seeded.below(1024) as u16).collect();
    if count > 0 && seeded.once_in(4) {
        stray(seeded, &mut source);
    }
    source
}

/// Space for nine words, somewhat more, or less.
fn random_space(seeded: &mut Seeded) -> usize {
    (if seeded.once_in(8) { seeded.below(9) } else { 9 + seeded.below(4) }) as usize
}

fn random_words(toward: Toward) -> Tried {
    let mut seeded = Seeded(212);
    let mut tried = Tried::default();
    for _ in 0..200_000 {
        tried.cases += 1;
        let source = random_source(&mut seeded);
        let space = random_space(&mut seeded);
        let mut target = vec![LENT; space + BEHIND];
        let mut after = vec![LENT; space + BEHIND];
        let got = library::words(toward, &source, &mut target[..space]);
        let want = head_order::words(toward, &source, &mut after[..space]);
        if got != want || target != after {
            tried.wrong.push(format!("words {source:?}: {got:?} for {want:?}, output {target:?}"));
        }
    }
    tried
}

/// Lengths that matter: short ones, every remainder by 7, and the limits.
fn random_length(seeded: &mut Seeded, case: usize) -> usize {
    match case % 16 {
        0 => 4095 + seeded.below(9) as usize,
        1..=3 => seeded.below(700) as usize,
        _ => seeded.below(40) as usize,
    }
}

fn random_writes() -> Tried {
    let mut seeded = Seeded(6250);
    let mut tried = Tried::default();
    for case in 0..200_000 {
        tried.cases += 1;
        let count = random_length(&mut seeded, case);
        let bytes: Vec<u8> = (0..count).map(|_| seeded.next() as u8).collect();
        let space = seeded.space(record6250::space(count));
        let mut words = vec![LENT; space + BEHIND];
        let mut after = vec![LENT; space + BEHIND];
        let got = library::write6250(&bytes, &mut words[..space]);
        let want = record6250::write(&bytes, &mut after[..space]);
        if got != want || words != after {
            tried.wrong.push(format!("write {count} bytes into {space} words: {got:?} for {want:?}"));
        }
    }
    tried
}

/// A suite's name and what it tried.
type Suite = (String, Tried);

fn named<const COUNT: usize>(suites: [(&str, Tried); COUNT]) -> Vec<Suite> {
    suites.into_iter().map(|(name, tried)| (name.to_string(), tried)).collect()
}

/// Every row of the outside cases, whatever its kind.
fn outside_cases() -> Vec<Suite> {
    let suite = |kind: String| (format!("{kind}, outside cases"), vectors::of_kind(&kind, vectors::run));
    vectors::kinds().into_iter().map(suite).collect()
}

fn suites_at_6250() -> Vec<Suite> {
    named([
        ("the 6250 reader of these tests, outside cases", vectors::of_kind("read6250", |line| vectors::read6250(line, reading6250::read))),
        ("the 6250 reader of these tests, without its short cuts", short_cuts::groups()),
        ("bench readings at 6250", bench::readings6250()),
        ("seeded writes at 6250", random_writes()),
        ("every number in a group at 6250, forward", damage6250::every_number(Direction::Forward)),
        ("every number in a group at 6250, backward", damage6250::every_number(Direction::Backward)),
        ("one pointer against one wrong track at 6250, forward", damage6250::one_pointer(Direction::Forward)),
        ("one pointer against one wrong track at 6250, backward", damage6250::one_pointer(Direction::Backward)),
        ("seeded readings at 6250, forward", damage6250::random_readings(Direction::Forward)),
        ("seeded readings at 6250, backward", damage6250::random_readings(Direction::Backward)),
        ("the listing program", programs::listing()),
    ])
}

fn suites_of_the_log() -> Vec<Suite> {
    named([
        ("the log of these tests, outside cases", vectors::of_kind("log", |line| vectors::read6250(line, sense_log::write))),
        ("the log read back by these tests, outside cases", vectors::of_kind("read-log", |line| vectors::read_log(line, sense_log::read_back))),
        ("the log read back by these tests, small logs", spoiled_log::small_logs(sense_log::read_back, 0..=7)),
        ("the report of these tests, outside cases", vectors::of_kind("report", |line| vectors::program(line, |input| Ok(report::text_for(input))))),
        ("logs with every word in a group, forward", damage_log::every_word(Direction::Forward)),
        ("logs with every word in a group, backward", damage_log::every_word(Direction::Backward)),
        ("logs of seeded readings, forward", damage_log::random_readings(Direction::Forward)),
        ("logs of seeded readings, backward", damage_log::random_readings(Direction::Backward)),
        ("small logs read back", spoiled_log::small_logs(library::read_log, 0..=255)),
        ("seeded logs read back", spoiled_log::random_logs()),
        ("the report program", report::streams()),
    ])
}

fn suites_at_800() -> Vec<Suite> {
    named([
        ("the 800 writer of these tests, outside cases", vectors::of_kind("write800", |line| vectors::write800(line, record800::write))),
        ("the 800 reader of these tests, outside cases", vectors::of_kind("read800", |line| vectors::read800(line, reading800::read))),
        ("the 800 reader of these tests, without its short cut", short_cuts::records()),
        ("bench readings at 800", bench::readings800()),
        ("seeded writes at 800", damage800::random_writes()),
        ("every number in a record at 800, forward", damage800::every_number(&READ, Direction::Forward)),
        ("every number in a record at 800, backward", damage800::every_number(&READ, Direction::Backward)),
        ("every choice of wrong characters at 800, forward", damage800::every_choice(&READ, Direction::Forward)),
        ("every choice of wrong characters at 800, backward", damage800::every_choice(&READ, Direction::Backward)),
        ("seeded readings at 800, forward", damage800::random_readings(&READ, Direction::Forward)),
        ("seeded readings at 800, backward", damage800::random_readings(&READ, Direction::Backward)),
    ])
}

fn suites_of_copying() -> Vec<Suite> {
    named([
        ("the copy of these tests, outside cases", vectors::of_kind("copy", |line| vectors::copy800(line, copying::copy))),
        ("bench readings copied", bench::copies()),
        ("every choice of faults in a copy", damage_copy::every_choice_of_faults()),
        ("records of every length copied", damage_copy::every_length()),
        ("every number in a record copied, forward", damage800::every_number(&COPIED, Direction::Forward)),
        ("every number in a record copied, backward", damage800::every_number(&COPIED, Direction::Backward)),
        ("every choice of wrong characters copied, forward", damage800::every_choice(&COPIED, Direction::Forward)),
        ("every choice of wrong characters copied, backward", damage800::every_choice(&COPIED, Direction::Backward)),
        ("seeded readings copied, forward", damage800::random_readings(&COPIED, Direction::Forward)),
        ("seeded readings copied, backward", damage800::random_readings(&COPIED, Direction::Backward)),
        ("seeded readings copied, and by two calls, forward", damage800::random_readings(&BY_TWO_CALLS, Direction::Forward)),
        ("seeded readings copied, and by two calls, backward", damage800::random_readings(&BY_TWO_CALLS, Direction::Backward)),
        ("seeded readings copied and read back, forward", damage800::random_readings(&READ_BACK, Direction::Forward)),
        ("seeded readings copied and read back, backward", damage800::random_readings(&READ_BACK, Direction::Backward)),
    ])
}

fn suites_by_track() -> Vec<Suite> {
    named([
        ("weak tracks at 6250, and what their logs tell of each, forward", by_track::readings6250(Direction::Forward)),
        ("weak tracks at 6250, and what their logs tell of each, backward", by_track::readings6250(Direction::Backward)),
        ("one weak track at 800, read and copied, forward", by_track::readings800(Direction::Forward)),
        ("one weak track at 800, read and copied, backward", by_track::readings800(Direction::Backward)),
        ("as many changes of a track as there can be", by_track::most_changes()),
    ])
}

fn suites_of_head_order() -> Vec<Suite> {
    named([
        ("every map to physical", every_map(Toward::Physical)),
        ("every map to algebraic", every_map(Toward::Algebraic)),
        ("seeded words to physical", random_words(Toward::Physical)),
        ("seeded words to algebraic", random_words(Toward::Algebraic)),
    ])
}

fn suites_of_cards() -> Vec<Suite> {
    named([
        ("the card calls of these tests, outside cases", card::outside_cases()),
        ("words and maps by every card, to physical and back", good_card::every_card(Toward::Physical)),
        ("words and maps by every card, to algebraic and back", good_card::every_card(Toward::Algebraic)),
        ("the inverse of every card", good_card::every_inverse()),
        ("every map by some cards, to physical", good_card::every_map(Toward::Physical)),
        ("every map by some cards, to algebraic", good_card::every_map(Toward::Algebraic)),
        ("every number on every track of a card", spoiled_card::every_number()),
        ("cards of every length up to 20, and of two more", spoiled_card::every_length()),
        ("seeded words by seeded cards, to physical", spoiled_card::random_words(Toward::Physical)),
        ("seeded words by seeded cards, to algebraic", spoiled_card::random_words(Toward::Algebraic)),
        ("seeded maps by seeded cards, to physical", spoiled_card::random_maps(Toward::Physical)),
        ("seeded maps by seeded cards, to algebraic", spoiled_card::random_maps(Toward::Algebraic)),
        ("inverses of seeded cards", spoiled_card::random_inverses()),
        ("the standard card and none, to physical", good_card::standard_card(Toward::Physical)),
        ("the standard card and none, to algebraic", good_card::standard_card(Toward::Algebraic)),
    ])
}

fn main() {
    let parts = [
        outside_cases(),
        suites_at_6250(),
        suites_of_the_log(),
        suites_at_800(),
        suites_of_copying(),
        suites_by_track(),
        suites_of_head_order(),
        suites_of_cards(),
    ];
    let suites: Vec<Suite> = parts.into_iter().flatten().collect();
    let mut failed = 0;
    for (name, tried) in &suites {
        println!("{name}: {} cases, {} differ", tried.cases, tried.wrong.len());
        for what in tried.remarks.iter().chain(tried.wrong.iter().take(5)) {
            println!("  {what}");
        }
        failed += usize::from(!tried.wrong.is_empty() || tried.cases == 0);
    }
    println!("{} passed, {failed} failed", suites.len() - failed);
    std::process::exit(i32::from(failed > 0));
}
