//! Changes by track, document 02, request 2.7. Readings are made here from a written record so that it still fits, and with them the
//! counts that are due, so that no reader is asked what they are. Some tracks are wrong far more often than others, as those of a
//! head with a gap that is going bad are.

use crate::damage6250::{self, map_of, shuffled, Reading};
use crate::damage800::{self, flip, Case};
use crate::damage_log;
use crate::library::{self, only, Answer, Direction};
use crate::reading6250::byte_of;
use crate::reading800::{fitting, in_direction};
use crate::record6250::{self, word};
use crate::record800;
use crate::sense_log::{self, log_of, MAPS};
use crate::vectors::{LENT, LENT_BYTE};
use crate::{Seeded, Tried};

const CASES: usize = 200_000;

/// One of the tracks: the first one in every other case, and each that follows half as often as the one before it.
fn weak_track(seeded: &mut Seeded, tracks: &[usize; 9]) -> usize {
    tracks[(seeded.next().trailing_zeros() as usize).min(8)]
}

/// Another word than the right one, legal or illegal.
fn other_word(seeded: &mut Seeded, right: u16) -> u16 {
    loop {
        let other = if seeded.once_in(2) { word(seeded.next() as u8) } else { seeded.below(1024) as u16 };
        if other != right {
            return other;
        }
    }
}

/// Makes none, one or two tracks of a group wrong so that the group still fits, and gives them. One may be pointed or not, and the
/// drive may point at a healthy neighbour, or at both; two are pointed, by the drive or by their words.
fn weaken(seeded: &mut Seeded, tracks: &[usize; 9], words: &mut [u16], map: &mut u16) -> Vec<usize> {
    let (first, second) = (weak_track(seeded, tracks), weak_track(seeded, tracks));
    let wrong = match seeded.below(4) {
        0 => vec![],
        3 if first != second => vec![first, second],
        _ => vec![first],
    };
    for &track in &wrong {
        words[track] = other_word(seeded, words[track]);
    }
    *map = [0, 1 << first, 1 << second, 1 << first | 1 << second][seeded.index(4)];
    if wrong.len() == 2 {
        let silent: Vec<usize> = wrong.iter().copied().filter(|&track| byte_of(words[track]).is_some()).collect();
        *map |= map_of(&silent);
    }
    wrong
}

/// What was changed: in each track of all readings, the most in one track of one, and how many words of it were illegal.
#[derive(Default)]
struct Seen {
    changes: [u64; 9],
    most: u64,
    illegal: usize,
    /// Readings of which every track's count is another one than its neighbours', so that no count can stand for the next.
    uneven: usize,
    refused: usize,
}

impl Seen {
    fn delivered(&mut self, counts: [u64; 9]) {
        for (sum, count) in self.changes.iter_mut().zip(counts) {
            *sum += count;
            self.most = self.most.max(count);
        }
        self.uneven += usize::from(counts.windows(2).all(|pair| pair[0] != pair[1]));
    }

    /// Tells what there was, and finds fault if a track never was wrong or nothing was refused.
    fn tell(&self, tried: &mut Tried) {
        tried.remarks.push(format!("changes of tracks 0 to 8: {:?}; the most of one track in one reading: {}", self.changes, self.most));
        tried.remarks.push(format!("refused: {}", self.refused));
        if self.changes.contains(&0) || self.refused == 0 {
            tried.wrong.push("a track is never wrong, or nothing is refused".to_string());
        }
    }
}

/// A reading of these data at 6250 is answered so by the library's reader, which writes them and nothing else; and its own log, read back,
/// tells the same counts, or is refused alike.
fn answered6250(tried: &mut Tried, direction: Direction, reading: Reading, data: &[u8], want: &Answer) {
    let groups = reading.maps.len();
    let (words, maps) = reading.in_direction(direction);
    let mut output = vec![LENT_BYTE; 7 * groups];
    let read = library::read6250(direction, &words, &maps, &mut output);
    let mut log = vec![LENT_BYTE; sense_log::space(groups)];
    let back = match library::log6250(direction, &words, &maps, &mut log) {
        Answer::Delivered(length) => library::read_log(groups, &log[..length[0] as usize], &mut vec![LENT; groups]),
        refusal => refusal,
    };
    let (written, marks) = match want {
        Answer::Delivered(figures) => (data, Answer::Delivered(figures[2..].to_vec())),
        refusal => (&[][..], refusal.clone()),
    };
    let untouched = output[written.len()..].iter().all(|&byte| byte == LENT_BYTE);
    if read != *want || back != marks || !output.starts_with(written) || !untouched {
        let told = damage6250::told(tried.cases, &words, &maps);
        tried.wrong.push(format!("{direction:?}, {told}: read {read:?}, its log read back {back:?}, for {want:?}"));
    }
    tried.cases += 1;
}

/// The delivery of so many bytes at 6250 with these counts, of which the changes are the total.
fn delivered6250(length: usize, counts: [u64; 9]) -> Answer {
    Answer::counted(&[length as u64, counts.iter().sum()], counts)
}

/// Weak tracks in every group. Once in a while three tracks of the last group are pointed: the reading is refused though the groups
/// before it were changed, and no count is stored.
pub fn readings6250(direction: Direction) -> Tried {
    let mut seeded = Seeded(270 + matches!(direction, Direction::Backward) as u64);
    let (mut tried, mut seen) = (Tried::default(), Seen::default());
    for case in 0..CASES {
        let data = damage_log::random_data(&mut seeded, case);
        let record = record6250::written(&data);
        let groups = record.len() / 9;
        let mut reading = Reading { words: record, maps: vec![0; groups] };
        let (tracks, mut counts) = (shuffled(&mut seeded), [0; 9]);
        for (words, map) in reading.words.chunks_exact_mut(9).zip(&mut reading.maps) {
            for track in weaken(&mut seeded, &tracks, words, map) {
                counts[track] += 1;
                seen.illegal += usize::from(byte_of(words[track]).is_none());
            }
        }
        let want = if seeded.once_in(8) {
            reading.maps[groups - 1] = map_of(&tracks[..3]);
            seen.refused += 1;
            Answer::Refused(4, groups - 1)
        } else {
            seen.delivered(counts);
            delivered6250(data.len(), counts)
        };
        answered6250(&mut tried, direction, reading, &data, &want);
    }
    seen.tell(&mut tried);
    tried.remarks.push(format!("illegal words: {}; readings whose neighbouring tracks all have different counts: {}", seen.illegal, seen.uneven));
    if seen.illegal == 0 || seen.uneven == 0 {
        tried.wrong.push("no such word or reading".to_string());
    }
    tried
}

/// A record of these data at 800, of which the same track is wrong in some characters: it alone has a count, which is that of the
/// changes, and a copy tells the same. Several records may fit, and then both are refused; gives what the reading was answered.
fn answered800(tried: &mut Tried, direction: Direction, data: &[u8], reading: &[u16]) -> Answer {
    let record = record800::written(data);
    let differences: Vec<u16> = reading.iter().zip(&record).map(|(read, written)| read ^ written).filter(|&bits| bits != 0).collect();
    let track = differences.first().map_or(9, |bits| bits.trailing_zeros() as usize);
    let changes = differences.len() as u64;
    let (figures, counts) = ([data.len() as u64, track as u64, changes], only(track, changes));
    let words = record6250::written(data);
    let case = Case { direction, characters: &in_direction(direction, reading), space: words.len() };
    let (mut output, mut copy) = (vec![LENT_BYTE; data.len()], vec![LENT; words.len()]);
    let read = library::read800(direction, case.characters, &mut output);
    let copied = library::copy800(direction, case.characters, &mut copy);
    let several = Answer::Refused(8, 0);
    let holds = if read == several {
        let untouched = output.iter().all(|&byte| byte == LENT_BYTE) && copy.iter().all(|&word| word == LENT);
        copied == several && fitting(reading).len() > 1 && untouched
    } else {
        let both = read == Answer::counted(&figures, counts) && copied == Answer::copied(&figures, counts, words.len() as u64 / 9);
        both && output == data && copy == words
    };
    if !holds {
        case.wrong(tried, &format!("read {read:?}, copied {copied:?} for {figures:?} and {counts:?}"));
    }
    tried.cases += 1;
    read
}

/// One track wrong in some characters of a record at 800, or none; once in a while in such characters that every track fits.
pub fn readings800(direction: Direction) -> Tried {
    let mut seeded = Seeded(278 + matches!(direction, Direction::Backward) as u64);
    let (mut tried, mut seen) = (Tried::default(), Seen::default());
    for case in 0..CASES {
        let data = damage800::random_data(&mut seeded, case);
        let mut reading = record800::written(&data);
        if seeded.once_in(16) {
            damage800::multiple_of_g2(&mut seeded, &mut reading);
        } else {
            let places = damage800::some_places(&mut seeded, reading.len());
            flip(&mut reading, &places, 1 << seeded.below(10) & 511);
        }
        match answered800(&mut tried, direction, &data, &reading) {
            Answer::Delivered(figures) => seen.delivered(figures[3..12].try_into().expect("nine counts")),
            Answer::Refused(..) => seen.refused += 1,
        }
    }
    seen.tell(&mut tried);
    tried
}

/// How many groups of the longest record, or of its log, have the same tracks changed: all, and around what eight and nine bits hold.
const OF_GROUPS: [usize; 9] = [1, 255, 256, 257, 511, 512, 513, 585, 586];

/// The same for the characters of the longest record at 800, and around what ten and eleven bits hold.
const OF_CHARACTERS: [usize; 14] = [1, 255, 256, 257, 511, 512, 513, 1023, 1024, 1025, 2047, 2048, 2049, 2050];

/// The counts where each track of a map was changed so often.
fn alike(map: u16, count: usize) -> [u64; 9] {
    std::array::from_fn(|track| u64::from(map >> track & 1) * count as u64)
}

/// One or two tracks wrong in so many groups, the first ones or the last.
fn many_groups(tried: &mut Tried, direction: Direction) {
    let data = vec![212; 4101];
    let record = record6250::written(&data);
    let maps = (1..MAPS).filter(|map| map.count_ones() <= 2);
    for (map, count) in maps.flat_map(|map| OF_GROUPS.map(|count| (map, count))) {
        let mut reading = Reading { words: record.clone(), maps: vec![0; 586] };
        for group in if count % 2 == 0 { 0..count } else { 586 - count..586 } {
            // an illegal word points at its track, in either direction
            (0..9).filter(|track| map >> track & 1 == 1).for_each(|track| reading.words[9 * group + track] = 1023);
        }
        answered6250(tried, direction, reading, &data, &delivered6250(data.len(), alike(map, count)));
    }
}

/// Every map in so many groups of a log.
fn many_maps(tried: &mut Tried) {
    for (map, count) in (1..MAPS).flat_map(|map| OF_GROUPS.map(|count| (map, count))) {
        let maps = [vec![map; count], vec![0; 586 - count]].concat();
        let got = library::read_log(586, &log_of(&maps), &mut [LENT; 586]);
        tried.expect(&format!("map {map} in {count} groups: {got:?}"), got == Answer::Delivered(alike(map, count).to_vec()));
    }
}

/// Each track wrong in so many characters, the last ones; and the first ones, where one record fits, whatever their number.
fn many_characters(tried: &mut Tried, direction: Direction) {
    let data: Vec<u8> = (0..2048).map(|place| (place * place % 251) as u8).collect();
    let record = record800::written(&data);
    for (track, count) in (0..9).flat_map(|track| OF_CHARACTERS.map(|count| (track, count))) {
        let mut last = record.clone();
        flip(&mut last, &(2050 - count..2050).collect::<Vec<_>>(), 1 << track);
        answered800(tried, direction, &data, &last);
        let mut first = record.clone();
        flip(&mut first, &(0..count).collect::<Vec<_>>(), 1 << track);
        let got = answered800(tried, direction, &data, &first);
        tried.expect(&format!("{direction:?}, track {track} in {count} characters: {got:?}"), matches!(got, Answer::Delivered(_)));
    }
}

/// As many changes of a track as there can be, so that a count that is kept in too few bits shows.
pub fn most_changes() -> Tried {
    let mut tried = Tried::default();
    for direction in [Direction::Forward, Direction::Backward] {
        many_groups(&mut tried, direction);
        many_characters(&mut tried, direction);
    }
    many_maps(&mut tried);
    tried
}
