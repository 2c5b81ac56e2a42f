//! The ways to call the programs, each with an input of the full size and what a good run makes of it. The report program has
//! no full size: it is called with an input whose report is a page, and with one whose report is several.

use crate::run::run;

pub struct Invocation {
    /// The program and its arguments.
    pub line: &'static str,
    pub input: Vec<u8>,
    pub good: Vec<u8>,
}

/// A page that holds more than this is handed over before the next line.
const NEARLY_FULL: usize = 65536 - 64;

impl Invocation {
    fn lines(&self) -> impl Iterator<Item = usize> + '_ {
        self.good
            .split_inclusive(|&byte| byte == b'\n')
            .map(<[u8]>::len)
    }

    /// How many bytes of the good output are due where only so many of the input can be read: the report has the lines of the
    /// logs in them, and the other programs print nothing.
    pub fn printed_of(&self, read: usize) -> usize {
        let (mut at, mut logs) = (0, 0);
        while self.line == "report" && at + 4 <= read {
            at += 4 + usize::from(u16::from_le_bytes([self.input[at + 2], self.input[at + 3]]));
            logs += usize::from(at <= read);
        }
        self.lines().take(logs).sum()
    }

    /// How many bytes a program has made by the time that it hands over the one behind so many.
    pub fn made_by(&self, taken: usize) -> usize {
        let (mut made, mut held) = (0, 0);
        for line in self.lines() {
            if held > NEARLY_FULL {
                if made > taken {
                    break;
                }
                held = 0;
            }
            made += line;
            held += line;
        }
        made
    }

    /// Whether the output has more than one page.
    pub fn has_pages(&self) -> bool {
        self.made_by(0) < self.good.len()
    }
}

/// Bytes of a seeded generator, so that every run tries the same.
fn data(count: usize) -> Vec<u8> {
    let mut state = count as u32;
    let mut next = || {
        state = state.wrapping_mul(1664525).wrapping_add(1013904223);
        (state >> 24) as u8
    };
    (0..count).map(|_| next()).collect()
}

/// So many logs of one group, each behind its heading: its count of groups and its length. A third have no mark.
fn logs(count: usize) -> Vec<u8> {
    let log = |byte: &u8| match byte % 3 {
        0 => vec![1, 0, 1, 0, 0],
        _ => vec![1, 0, 3, 0, 1, byte | 1, byte >> 7],
    };
    data(count).iter().flat_map(log).collect()
}

/// What has to be reported of these logs: behind the heading and the bit map stand the two bytes of a map, or nothing.
pub fn report_of(mut input: &[u8]) -> Vec<u8> {
    let (mut report, mut total) = (String::new(), 0);
    while let [_, _, length, _, rest @ ..] = input {
        let (log, behind) = rest.split_at(usize::from(*length));
        let marks: u32 = log[1..].iter().map(|byte| byte.count_ones()).sum();
        report += &format!("{marks}\n");
        total += marks;
        input = behind;
    }
    (report + &format!("{total}\n")).into()
}

fn printed(line: &str, input: &[u8]) -> String {
    String::from_utf8(run(line, input, &[]).output).expect("the programs print text")
}

/// A group as it passes the head backward: the tracks in their places, the ten bits of each word reversed.
fn turned_group(group: &str) -> String {
    let turned = |word: &str| (word.parse::<u16>().unwrap().reverse_bits() >> 6).to_string();
    group.split(' ').map(turned).collect::<Vec<_>>().join(" ")
}

/// A record as it passes the head backward: its groups or its characters last first.
fn turned(parts: impl DoubleEndedIterator<Item = String>) -> String {
    parts.rev().map(|part| part + "\n").collect()
}

pub fn all() -> Vec<Invocation> {
    let (data6250, data800) = (data(4101), data(2048));
    let words = printed("bench write 6250", &data6250);
    let words_turned = turned(words.lines().map(turned_group));
    let characters = printed("bench write 800", &data800);
    let characters_turned = turned(characters.split_whitespace().map(String::from));
    let inputs = [
        ("listing", data6250.clone()),
        ("bench write 6250", data6250),
        ("bench write 800", data800),
        ("bench read 6250 forward", words.into()),
        ("bench read 6250 backward", words_turned.into()),
        ("bench read 800 forward", characters.into()),
        ("bench read 800 backward", characters_turned.into()),
        ("report", logs(8000)),
        ("report", logs(100000)),
    ];
    let invocation = |(line, input): (_, Vec<u8>)| {
        let good = printed(line, &input).into();
        Invocation { line, input, good }
    };
    inputs.into_iter().map(invocation).collect()
}
