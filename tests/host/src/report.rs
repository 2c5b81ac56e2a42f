//! The report program on streams of logs, and the text that document 02, request 2.1, has it print.

use crate::library::Answer;
use crate::programs::{printed, printed_piecewise};
use crate::sense_log::{self, log_of, marks, two_bytes};
use crate::spoiled_log::random_maps;
use crate::{Seeded, Tried};
use std::time::Duration;

/// The maps that the program lends, so that it never prints a 2.
const LENT_MAPS: usize = 65_535;

/// The next log of a stream with its group count, and what is behind it; none where the stream is cut.
fn next_log(stream: &[u8]) -> Option<(usize, &[u8], &[u8])> {
    let number = |at: usize| Some(usize::from(*stream.get(at)?) + 256 * usize::from(*stream.get(at + 1)?));
    let (groups, length) = (number(0)?, number(2)?);
    let log = stream.get(4..4 + length)?;
    Some((groups, log, &stream[4 + length..]))
}

/// What is to be printed for a stream of logs.
pub fn text_for(mut stream: &[u8]) -> String {
    let (mut text, mut total) = (String::new(), 0);
    let mut maps = vec![0; LENT_MAPS];
    while !stream.is_empty() {
        let Some((groups, log, rest)) = next_log(stream) else {
            return text + "refused 9 0\n";
        };
        if let Answer::Refused(number, place) = sense_log::read_back(groups, log, &mut maps) {
            return text + &format!("refused {number} {place}\n");
        }
        let count = marks(&maps[..groups]);
        text += &format!("{count}\n");
        total += count;
        stream = rest;
    }
    text + &format!("{total}\n")
}

/// A log with its heading: the group count and the length, two bytes each.
fn headed(groups: usize, log: &[u8]) -> Vec<u8> {
    [&two_bytes(groups as u16)[..], &two_bytes(log.len() as u16), log].concat()
}

fn headed_log(maps: &[u16]) -> Vec<u8> {
    headed(maps.len(), &log_of(maps))
}

impl Tried {
    /// Compares what came of a stream with the text for it. A long one is told by its length.
    fn report(&mut self, name: &str, stream: &[u8], got: Result<String, String>) {
        let want = text_for(stream);
        self.cases += 1;
        if got.as_ref() != Ok(&want) {
            let what = if stream.len() < 100 { format!("{stream:?}: {got:?} for {want:?}") } else { format!("{} bytes", stream.len()) };
            self.wrong.push(format!("{name}, {what}"));
        }
    }

    fn whole(&mut self, name: &str, stream: &[u8]) {
        self.report(name, stream, printed("report", stream));
    }
}

/// Three good logs: with marks, without one, and of nine groups.
fn three_logs() -> Vec<Vec<u8>> {
    vec![headed_log(&[0, 257, 511]), headed_log(&[0]), headed_log(&[1, 0, 0, 0, 0, 0, 0, 0, 256])]
}

/// A stream cut behind each of its bytes: in a heading, in a log, and between logs, where it is whole.
fn cut_everywhere(tried: &mut Tried) {
    let stream = three_logs().concat();
    for length in 0..=stream.len() {
        tried.whole("cut", &stream[..length]);
    }
}

/// A bad log before, between and behind good ones.
fn bad_logs(tried: &mut Tried) {
    let longest: Vec<u8> = vec![255; usize::from(u16::MAX)];
    let bad = [
        headed(0, &[]),
        headed(0, &[0]),
        headed(1, &[]),
        headed(1, &[1]),
        headed(1, &[0, 0]),
        headed(1, &[1, 1, 0, 0]),
        headed(1, &[2]),
        headed(1, &[1, 0, 0]),
        headed(1, &[1, 0, 2]),
        headed(8, &[255, 1, 0]),
        headed(9, &[0, 2]),
        headed(586, &[0; 73]),
        headed(586, &[[0; 73].as_slice(), &[4]].concat()),
        headed(587, &[0; 74]),
        headed(65_535, &[]),
        headed(65_535, &[0; 8192]),
        headed(586, &longest),
        headed(65_535, &longest),
    ];
    for log in bad {
        for place in 0..4 {
            let mut logs = three_logs();
            logs.insert(place, log.clone());
            tried.whole("a bad log", &logs.concat());
        }
    }
}

/// Logs of the most groups, with no mark, with every mark and with any.
fn longest_logs(tried: &mut Tried) {
    let mut seeded = Seeded(586);
    for maps in [vec![0; 586], vec![511; 586], random_maps(&mut seeded, 586), random_maps(&mut seeded, 585)] {
        tried.whole("the most groups", &headed_log(&maps));
        tried.whole("the most groups, twice", &headed_log(&maps).repeat(2));
    }
}

fn random_streams(tried: &mut Tried) {
    let mut seeded = Seeded(1021);
    for _ in 0..300 {
        let mut stream = vec![];
        for _ in 0..seeded.index(6) {
            let groups = [1, 2, 7, 8, 9, 16, 17, 1 + seeded.index(100)][seeded.index(8)];
            stream.extend(headed_log(&random_maps(&mut seeded, groups)));
        }
        if !stream.is_empty() && seeded.once_in(2) {
            let place = seeded.index(stream.len());
            stream[place] ^= 1 << seeded.below(8);
        }
        tried.whole("any stream", &stream);
    }
}

/// More logs than any page has room for, and more marks than 16 bits hold: whole, and refused at the end.
fn long_streams(tried: &mut Tried) {
    let mut seeded = Seeded(100_000);
    let mut stream = vec![];
    for _ in 0..100_000 {
        let groups = [1, 8, 9][seeded.index(3)];
        stream.extend(headed_log(&random_maps(&mut seeded, groups)));
    }
    tried.whole("100,000 logs", &stream);
    stream.push(1);
    tried.whole("100,000 logs and a cut heading", &stream);
}

/// Inputs that come byte by byte: with a pause after each, so that a read gets no more than one, and without.
fn slow_streams(tried: &mut Tried) {
    let good = three_logs().concat();
    let bad = [&good[..], &headed(1, &[2])].concat();
    let cut = [&good[..], &[9, 0, 2]].concat();
    for stream in [good, bad, cut] {
        let pause = || std::thread::sleep(Duration::from_millis(2));
        tried.report("byte by byte", &stream, printed_piecewise("report", stream.chunks(1), pause));
    }
    let mut seeded = Seeded(2);
    let stream = (0..40).flat_map(|_| headed_log(&random_maps(&mut seeded, 17))).collect::<Vec<_>>();
    for size in [1, 3, 7] {
        tried.report("in small pieces", &stream, printed_piecewise("report", stream.chunks(size), || ()));
    }
}

pub fn streams() -> Tried {
    let mut tried = Tried::default();
    cut_everywhere(&mut tried);
    bad_logs(&mut tried);
    longest_logs(&mut tried);
    random_streams(&mut tried);
    long_streams(&mut tried);
    slow_streams(&mut tried);
    tried
}
