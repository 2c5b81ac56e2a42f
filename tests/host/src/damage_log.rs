//! The logs of seeded readings, which are damaged in the ways of `damage6250`. The library and the implementation of
//! these tests answer each, their outputs are compared whole, and every log that is delivered is read back.

use crate::damage6250::{map_of, random_reading, shuffled, told, Reading};
use crate::library::{self, Answer, Direction};
use crate::record6250::{word, written};
use crate::sense_log::{self, marks};
use crate::vectors::{BEHIND, LENT, LENT_BYTE};
use crate::{Seeded, Tried};

const CASES: usize = 200_000;

/// Group counts around the ends of a bit map's bytes, few groups, and the limit.
fn random_groups(seeded: &mut Seeded, case: usize) -> usize {
    match case % 128 {
        0 => 585 + seeded.index(2),
        1 => 1 + seeded.index(586),
        2..=40 => [7, 8, 9, 15, 16, 17][seeded.index(6)],
        41..=50 => 1 + seeded.index(40),
        _ => 1 + seeded.index(5),
    }
}

/// Data of so many groups.
pub fn random_data(seeded: &mut Seeded, case: usize) -> Vec<u8> {
    let length = 7 * random_groups(seeded, case) - 1 - seeded.index(7);
    (0..length).map(|_| seeded.next() as u8).collect()
}

/// Changes words in some groups so that a record still fits: one track, with none, itself or another one pointed, or up to two
/// that are pointed. A pointed track may stay right.
fn weaken(seeded: &mut Seeded, reading: &mut Reading) {
    let often = 1 + seeded.below(6);
    for (words, map) in reading.words.chunks_exact_mut(9).zip(&mut reading.maps) {
        if !seeded.once_in(often) {
            continue;
        }
        let tracks = shuffled(seeded);
        let pointed = seeded.index(3);
        *map |= map_of(&tracks[..pointed]);
        let first = if pointed == 1 { seeded.index(2) } else { 0 };
        for &track in &tracks[first..first + [1, 1, seeded.index(3)][pointed]] {
            words[track] = if seeded.once_in(2) { word(seeded.next() as u8) } else { words[track] ^ 1 << seeded.below(10) };
        }
    }
}

/// How many deliveries have what a log may have.
#[derive(Default)]
struct Seen {
    answers: [usize; 7],
    marked: usize,
    behind_first_byte: usize,
    pointed_and_right: usize,
    marks: u64,
    /// The most groups with marks in one log.
    most: usize,
}

impl Seen {
    /// Counts a delivery: the maps lent, and those of the changed tracks, both in forward order.
    fn delivered(&mut self, pointers: &[u16], changed: &[u16]) {
        self.marked += usize::from(changed.iter().any(|&map| map != 0));
        self.behind_first_byte += usize::from(changed.iter().skip(8).any(|&map| map != 0));
        self.pointed_and_right += usize::from(pointers.iter().zip(changed).any(|(map, changed)| map & !changed != 0));
        self.marks += marks(changed);
        self.most = self.most.max(changed.iter().filter(|&&map| map != 0).count());
    }

    fn tell(&self, tried: &mut Tried) {
        tried.tell_answers(&self.answers, &[0, 1, 2, 3, 4, 5, 6]);
        let kinds = [self.marked, self.behind_first_byte, self.pointed_and_right];
        tried.remarks.push(format!("deliveries with marks, with marks behind the first eight groups, with a pointed track that is right: {kinds:?}"));
        tried.remarks.push(format!("marks: {}; most groups with marks in one log: {}", self.marks, self.most));
        if kinds.contains(&0) {
            tried.wrong.push("no such delivery".to_string());
        }
    }
}

/// What reading back a delivered log must give: the maps that were changed, and as many marks as the reader tells changes, in all and
/// of each track.
fn read_back(direction: Direction, words: &[u16], maps: &[u16], log: &[u8]) -> Result<Vec<u16>, String> {
    let groups = maps.len();
    let (mut changed, mut after) = (vec![LENT; groups + BEHIND], vec![LENT; groups + BEHIND]);
    let got = library::read_log(groups, log, &mut changed[..groups]);
    let want = sense_log::read_back(groups, log, &mut after[..groups]);
    let (Answer::Delivered(counts), true) = (&got, got == want && changed == after) else {
        return Err(format!("read back: {got:?} for {want:?}"));
    };
    changed.truncate(groups);
    let mut data = vec![0; 7 * groups];
    let read = library::read6250(direction, words, maps, &mut data);
    let told = matches!(&read, Answer::Delivered(figures) if figures[1] == marks(&changed) && figures[2..] == counts[..]);
    if told { Ok(changed) } else { Err(format!("{} marks, {counts:?}, read {read:?}", marks(&changed))) }
}

/// One reading's log by the library and by the implementation of these tests.
fn compare(tried: &mut Tried, seen: &mut Seen, direction: Direction, reading: Reading, space: usize) {
    let pointers = reading.maps.clone();
    let (words, maps) = reading.in_direction(direction);
    let mut output = vec![LENT_BYTE; space + BEHIND];
    let mut after = vec![LENT_BYTE; space + BEHIND];
    let got = library::log6250(direction, &words, &maps, &mut output[..space]);
    let want = sense_log::write(direction, &words, &maps, &mut after[..space]);
    let what = || format!("{direction:?}, {}, space {space}", told(tried.cases, &words, &maps));
    if got != want || output != after {
        let differs = if output == after { "" } else { ", outputs differ" };
        tried.wrong.push(format!("{}: {got:?} for {want:?}{differs}", what()));
    } else if let Answer::Delivered(figures) = &want {
        match read_back(direction, &words, &maps, &output[..figures[0] as usize]) {
            Ok(changed) => seen.delivered(&pointers, &changed),
            Err(fault) => tried.wrong.push(format!("{}: {fault}", what())),
        }
    }
    seen.answers[want.number()] += 1;
    tried.cases += 1;
}

pub fn random_readings(direction: Direction) -> Tried {
    let mut seeded = Seeded(21 + matches!(direction, Direction::Backward) as u64);
    let (mut tried, mut seen) = (Tried::default(), Seen::default());
    for case in 0..CASES {
        let data = random_data(&mut seeded, case);
        let mut reading = random_reading(&mut seeded, &data);
        if seeded.once_in(3) {
            weaken(&mut seeded, &mut reading);
        }
        let space = seeded.space(sense_log::space(reading.maps.len()));
        compare(&mut tried, &mut seen, direction, reading, space);
    }
    seen.tell(&mut tried);
    tried
}

/// Every word in every track of the last of nine groups, whose bit is the first of the second byte, with no track pointed and
/// with each.
pub fn every_word(direction: Direction) -> Tried {
    let (mut tried, mut seen) = (Tried::default(), Seen::default());
    let record = written(&[212; 62]);
    for (track, word) in (0..9).flat_map(|track| (0..1024).map(move |word| (track, word))) {
        for pointers in [0, 1, 2, 4, 8, 16, 32, 64, 128, 256] {
            let mut reading = Reading { words: record.clone(), maps: vec![0; 9] };
            reading.words[9 * 8 + track] = word;
            reading.maps[8] = pointers;
            compare(&mut tried, &mut seen, direction, reading, sense_log::space(9));
        }
    }
    tried.remarks.push(format!("deliveries with marks: {}, with a pointed track that is right: {}", seen.marked, seen.pointed_and_right));
    tried
}
