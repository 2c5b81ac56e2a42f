//! What has to come of a run, and in what a run differs from it.

use crate::invocations::Invocation;
use crate::run::Ran;

/// What standard output has to get of the good output.
#[derive(Clone, Copy, Debug)]
pub enum Written {
    All,
    Nothing,
    First(usize),
    /// What is printed of so many bytes of the input, where a read behind them fails.
    Of(usize),
    /// The same, of half the input.
    OfHalf,
}

/// A line that standard error has to get: with the number of an error, or with how much of the output a file took.
#[derive(Clone, Copy)]
pub enum Line {
    Unread(u32),
    Unwritten(u32),
    Cut,
}

impl Written {
    /// How many bytes of the good output are due.
    fn due(self, invocation: &Invocation) -> usize {
        match self {
            Written::All => invocation.good.len(),
            Written::Nothing => 0,
            Written::First(count) => count,
            Written::Of(count) => invocation.printed_of(count),
            Written::OfHalf => invocation.printed_of(invocation.input.len() / 2),
        }
    }
}

impl Line {
    /// How the line begins, if so many bytes are there of those that were made.
    fn start(self, count: usize, made: usize) -> String {
        let unwritten = "cannot write standard output:";
        match self {
            Line::Unread(error) => format!("cannot read standard input: error {error}"),
            Line::Unwritten(error) => format!("{unwritten} error {error}"),
            Line::Cut => format!("{unwritten} cut behind {count} of {made} bytes"),
        }
    }

    /// What follows the start may not go on with its number: error 2 is not error 21.
    fn holds(self, said: &str, start: &str) -> bool {
        let line = said.strip_suffix('\n');
        let rest = line.and_then(|line| line.strip_prefix(start));
        let digit = |next: char| next.is_ascii_digit();
        match self {
            Line::Unread(_) => rest.is_some_and(|rest| rest.is_empty() || rest.starts_with(", ")),
            Line::Unwritten(_) | Line::Cut => rest.is_some_and(|rest| !rest.starts_with(digit)),
        }
    }
}

/// What was seen and was not due. Whatever fails, the exit status is 0.
pub fn differences(
    ran: &Ran,
    written: Written,
    due: &[Line],
    invocation: &Invocation,
) -> Vec<String> {
    let good = &invocation.good;
    let (count, whole) = (ran.output.len(), good.len());
    let mut seen = Vec::new();
    if ran.ended != "exit status: 0" {
        seen.push(format!("ended with {}", ran.ended));
    }
    if good.get(..written.due(invocation)) != Some(&ran.output) {
        let pairs = ran.output.iter().zip(good);
        let same = pairs.take_while(|(a, b)| a == b).count();
        let wrote = format!("wrote {count} bytes, {same} of them as the {whole} of a good run");
        seen.push(format!("{wrote}, due: {written:?}"));
    }
    let made = invocation.made_by(count);
    let starts: Vec<_> = due.iter().map(|line| line.start(count, made)).collect();
    let said: Vec<_> = ran.said.split_inclusive('\n').collect();
    let mut lines = due.iter().zip(&said).zip(&starts);
    if said.len() != due.len() || !lines.all(|((line, said), start)| line.holds(said, start)) {
        seen.push(format!("said {:?}, due: {starts:?}", ran.said));
    }
    seen
}
