//! Logs read back: those of seeded maps, good ones and ones that are spoiled in the ways that document 02, request 2.1, refuses, and
//! every log of one group or two. The library and the implementation of these tests answer each, and their outputs are
//! compared whole.

use crate::library::{self, Answer};
use crate::sense_log::{self, bit_map, log_of, marks_of_tracks, two_bytes, MAPS};
use crate::vectors::{LogReader, BEHIND, LENT};
use crate::{Seeded, Tried};
use std::collections::HashMap;
use std::ops::RangeInclusive;

const CASES: usize = 300_000;

/// What is lent: a group count and a log.
struct Lent {
    groups: usize,
    log: Vec<u8>,
}

impl Lent {
    fn of(maps: &[u16]) -> Lent {
        Lent { groups: maps.len(), log: log_of(maps) }
    }

    /// The bit map, as far as the log has it.
    fn bits(&mut self) -> &mut [u8] {
        let bytes = bit_map(self.groups.min(65_535)).min(self.log.len());
        &mut self.log[..bytes]
    }

    /// Makes one of the maps another, if there is any.
    fn set_map(&mut self, seeded: &mut Seeded, map: u16) {
        let bytes = self.bits().len();
        let count = (self.log.len() - bytes) / 2;
        if count > 0 {
            let place = bytes + 2 * seeded.index(count);
            self.log[place..place + 2].copy_from_slice(&two_bytes(map));
        }
    }
}

/// Group counts around the ends of a bit map's bytes, few groups, and the limit.
fn random_groups(seeded: &mut Seeded, case: usize) -> usize {
    match case % 64 {
        0 | 1 => 585 + seeded.index(2),
        2 => 1 + seeded.index(586),
        3..=50 => [1, 7, 8, 9, 15, 16, 17][seeded.index(7)],
        _ => 1 + seeded.index(40),
    }
}

fn random_map(seeded: &mut Seeded) -> u16 {
    match seeded.below(4) {
        0 => 1 << seeded.below(9),
        1 => [1, 255, 256, 511][seeded.index(4)],
        _ => 1 + seeded.below(511) as u16,
    }
}

/// Maps of which none, a few, about half or all are not zero.
pub fn random_maps(seeded: &mut Seeded, groups: usize) -> Vec<u16> {
    let often = [0, 1, 2, 8][seeded.index(4)];
    (0..groups).map(|_| if often > 0 && seeded.once_in(often) { random_map(seeded) } else { 0 }).collect()
}

/// By one byte, by two, or by any number of them.
fn cut(seeded: &mut Seeded, lent: &mut Lent) {
    let length = lent.log.len();
    let less = [1, 2, seeded.index(length + 1)][seeded.index(3)];
    lent.log.truncate(length.saturating_sub(less));
}

fn lengthened(seeded: &mut Seeded, lent: &mut Lent) {
    for _ in 0..1 + seeded.index(2) {
        lent.log.push([0, 1, seeded.next() as u8][seeded.index(3)]);
    }
}

/// A bit behind those of the groups, where the bit map has one.
fn spare_bit(seeded: &mut Seeded, lent: &mut Lent) {
    let groups = lent.groups;
    let bits = lent.bits();
    let spare = (8 * bits.len()).saturating_sub(groups);
    if let Some(last) = bits.last_mut().filter(|_| spare > 0) {
        *last |= 128 >> seeded.index(spare);
    }
}

fn map_of_no_track(seeded: &mut Seeded, lent: &mut Lent) {
    lent.set_map(seeded, 0);
}

/// By one, by one bit, or by anything.
fn map_above_511(seeded: &mut Seeded, lent: &mut Lent) {
    let map = match seeded.below(3) {
        0 => 512,
        1 => 512 << seeded.below(7) | seeded.below(512) as u16,
        _ => 512 + seeded.below(65536 - 512) as u16,
    };
    lent.set_map(seeded, map);
}

/// A bit of the bit map, spare or not, made the other.
fn bit_turned(seeded: &mut Seeded, lent: &mut Lent) {
    let bits = lent.bits();
    if !bits.is_empty() {
        bits[seeded.index(bits.len())] ^= 1 << seeded.below(8);
    }
}

/// The same, and the length made to suit where a group has the bit: every map behind goes to another group.
fn bit_and_length(seeded: &mut Seeded, lent: &mut Lent) {
    let before: u32 = lent.bits().iter().map(|byte| byte.count_ones()).sum();
    bit_turned(seeded, lent);
    let after: u32 = lent.bits().iter().map(|byte| byte.count_ones()).sum();
    if after > before {
        lent.log.extend(two_bytes(random_map(seeded)));
    } else {
        lent.log.truncate(lent.log.len().saturating_sub(2));
    }
}

fn count_off_by_one(seeded: &mut Seeded, lent: &mut Lent) {
    lent.groups = if seeded.once_in(2) { lent.groups.wrapping_sub(1) } else { lent.groups.saturating_add(1) };
}

fn another_count(seeded: &mut Seeded, lent: &mut Lent) {
    lent.groups = [0, 586, 587, 65_535, usize::MAX, seeded.index(600)][seeded.index(6)];
}

/// A log of more groups than a record has, with the length that would suit it.
fn too_many_groups(seeded: &mut Seeded, lent: &mut Lent) {
    let groups = 587 + seeded.index(20);
    *lent = Lent::of(&random_maps(seeded, groups));
}

fn nothing(_: &mut Seeded, lent: &mut Lent) {
    lent.log.clear();
}

fn any_byte(seeded: &mut Seeded, lent: &mut Lent) {
    if !lent.log.is_empty() {
        let place = seeded.index(lent.log.len());
        lent.log[place] = seeded.next() as u8;
    }
}

fn any_bytes(seeded: &mut Seeded, lent: &mut Lent) {
    lent.log.iter_mut().for_each(|byte| *byte = seeded.next() as u8);
}

type Way = fn(&mut Seeded, &mut Lent);

const WAYS: [(&str, Way); 14] = [
    ("not spoiled", |_, _| ()),
    ("cut", cut),
    ("lengthened", lengthened),
    ("a spare bit stands", spare_bit),
    ("a map is 0", map_of_no_track),
    ("a map is above 511", map_above_511),
    ("a bit turned", bit_turned),
    ("a bit turned, the length made to suit", bit_and_length),
    ("the group count off by one", count_off_by_one),
    ("another group count", another_count),
    ("more groups than a record has", too_many_groups),
    ("nothing lent", nothing),
    ("a byte made anything", any_byte),
    ("every byte made anything", any_bytes),
];

/// The numbers with which a log that is read back is answered.
const ANSWERS: [usize; 4] = [0, 2, 9, 10];

/// What was answered: for each way to spoil, and the refusals 10 for a spare bit, for a map, and for both.
#[derive(Default)]
struct Seen {
    answers: [usize; 11],
    by_way: [[usize; 11]; WAYS.len()],
    faults: [usize; 3],
}

impl Seen {
    fn tell(&self, tried: &mut Tried) {
        tried.tell_answers(&self.answers, &ANSWERS);
        for ((way, _), answers) in WAYS.iter().zip(&self.by_way) {
            tried.remarks.push(format!("delivered, refused by 2, 9 and 10, {way}: {:?}", ANSWERS.map(|number| answers[number])));
        }
        tried.remarks.push(format!("refused by 10 for a spare bit, for a map, for both: {:?}", self.faults));
        if self.faults.contains(&0) {
            tried.wrong.push("no such refusal by 10".to_string());
        }
    }

    /// Whether the answer of these tests, which is found by search, goes by the faults that the paper names.
    fn as_named(&mut self, lent: &Lent, want: &Answer) -> bool {
        match want.number() {
            0 => sense_log::faults(lent.groups, &lent.log) == [false, false],
            10 => match sense_log::faults(lent.groups, &lent.log) {
                [false, false] => false,
                [spare, map] => {
                    self.faults[usize::from(spare) + 2 * usize::from(map) - 1] += 1;
                    true
                }
            },
            _ => true,
        }
    }
}

/// How a case is told; a long one by its number and length only.
fn told(case: usize, lent: &Lent) -> String {
    match lent.log.len() {
        0..=60 => format!("case {case}: {} groups, log {:?}", lent.groups, lent.log),
        length => format!("case {case}: {} groups, log of {length} bytes", lent.groups),
    }
}

fn compare(tried: &mut Tried, seen: &mut Seen, lent: &Lent, space: usize) -> Answer {
    let mut output = vec![LENT; space + BEHIND];
    let mut after = vec![LENT; space + BEHIND];
    let got = library::read_log(lent.groups, &lent.log, &mut output[..space]);
    let want = sense_log::read_back(lent.groups, &lent.log, &mut after[..space]);
    if got != want || output != after {
        let differs = if output == after { "" } else { ", outputs differ" };
        tried.wrong.push(format!("{}, space {space}: {got:?} for {want:?}{differs}", told(tried.cases, lent)));
    }
    if !seen.as_named(lent, &want) {
        tried.wrong.push(format!("{}: {want:?} by these tests, and not by the paper's words", told(tried.cases, lent)));
    }
    tried.cases += 1;
    want
}

/// Space for a map a group, somewhat more, or less; where the count is above what anybody lends, any space.
fn random_space(seeded: &mut Seeded, groups: usize) -> usize {
    if groups > 65_536 { seeded.index(600) } else { seeded.space(groups) }
}

pub fn random_logs() -> Tried {
    let mut seeded = Seeded(910);
    let (mut tried, mut seen) = (Tried::default(), Seen::default());
    for case in 0..CASES {
        let groups = random_groups(&mut seeded, case);
        let mut lent = Lent::of(&random_maps(&mut seeded, groups));
        let way = if seeded.once_in(5) { 0 } else { seeded.index(WAYS.len()) };
        WAYS[way].1(&mut seeded, &mut lent);
        if way > 0 && seeded.once_in(4) {
            WAYS[seeded.index(WAYS.len())].1(&mut seeded, &mut lent);
        }
        let space = random_space(&mut seeded, lent.groups);
        let number = compare(&mut tried, &mut seen, &lent, space).number();
        seen.answers[number] += 1;
        seen.by_way[way][number] += 1;
    }
    seen.tell(&mut tried);
    tried
}

/// Every log of so few groups, with its maps; one set of maps has one log.
fn every_log(groups: usize) -> HashMap<Vec<u8>, Vec<u16>> {
    let limit = usize::from(MAPS);
    let count = limit.pow(groups as u32);
    let maps_of = |number: usize| (0..groups).map(|group| (number / limit.pow(group as u32) % limit) as u16).collect::<Vec<_>>();
    let logs: HashMap<_, _> = (0..count).map(maps_of).map(|maps| (log_of(&maps), maps)).collect();
    assert_eq!(logs.len(), count, "one set of maps has one log");
    logs
}

/// One log of one or two groups, by a reader and by whether it is among all that there are.
fn compare_small(tried: &mut Tried, answers: &mut [usize; 11], reader: LogReader, logs: &HashMap<Vec<u8>, Vec<u16>>, groups: usize, log: &[u8]) {
    let mut output = [LENT; 2 + BEHIND];
    let got = reader(groups, log, &mut output[..groups]);
    let mut after = [LENT; 2 + BEHIND];
    let standing = |bits: &u8| (0..groups).filter(|group| bits >> group & 1 == 1).count();
    let want = match (logs.get(log), log.first().map(standing)) {
        (Some(maps), _) => {
            after[..groups].copy_from_slice(maps);
            Answer::Delivered(marks_of_tracks(maps).to_vec())
        }
        (None, Some(marks)) if log.len() == 1 + 2 * marks => Answer::Refused(10, 0),
        _ => Answer::Refused(9, 0),
    };
    // there are so many cases that to tell of each would take all memory
    if (got != want || output != after) && tried.wrong.len() < 1000 {
        tried.wrong.push(format!("{groups} groups, log {log:?}: {got:?} for {want:?}, output {output:?}"));
    }
    answers[want.number()] += 1;
    tried.cases += 1;
}

/// Logs of one group and of two that begin with one of these bytes: of every length from 0 to 7 with the same map over and over,
/// and, where one bit of a group stands, with every number as its map.
pub fn small_logs(reader: LogReader, bytes: RangeInclusive<u8>) -> Tried {
    let (mut tried, mut answers) = (Tried::default(), [0; 11]);
    for groups in [1, 2] {
        let logs = every_log(groups);
        for bits in bytes.clone() {
            for (map, length) in [0, 1, 255, 256, 511, 512, 65535].into_iter().flat_map(|map| (0..8).map(move |length| (map, length))) {
                let whole = [&[bits][..], &two_bytes(map).repeat(4)].concat();
                compare_small(&mut tried, &mut answers, reader, &logs, groups, &whole[..length]);
            }
            if (0..groups).filter(|group| bits >> group & 1 == 1).count() == 1 {
                for [low, high] in (0..=u16::MAX).map(two_bytes) {
                    compare_small(&mut tried, &mut answers, reader, &logs, groups, &[bits, low, high]);
                }
            }
        }
    }
    tried.tell_answers(&answers, &[0, 9, 10]);
    tried
}
