//! The programs, each run on an input.

use crate::record6250;
use crate::{Seeded, Tried};
use std::io::Write;
use std::process::{Child, Command, Output, Stdio};

fn started(program: &str) -> Child {
    let path = format!("{}/../../target/bin/{program}", env!("CARGO_MANIFEST_DIR"));
    let piped = Stdio::piped;
    Command::new(path).stdin(piped()).stdout(piped()).stderr(piped()).spawn().expect("the programs are built")
}

/// What a program printed. Nothing else may come of a run: no message, and the exit status is 0.
fn text_of(ran: Output) -> Result<String, String> {
    let said = String::from_utf8_lossy(&ran.stderr);
    if !ran.status.success() || !said.is_empty() {
        return Err(format!("{}, standard error {said:?}", ran.status));
    }
    String::from_utf8(ran.stdout).map_err(|_| "standard output is no text".to_string())
}

/// What a program prints for an input that comes in pieces, with a wait behind each.
pub fn printed_piecewise<'a>(program: &str, pieces: impl Iterator<Item = &'a [u8]> + Send, wait: impl Fn() + Send) -> Result<String, String> {
    let mut child = started(program);
    let mut input = child.stdin.take().unwrap();
    let ran = std::thread::scope(|scope| {
        scope.spawn(move || {
            for piece in pieces {
                // a program stops reading once it has seen a fault, so a write that fails is none
                if input.write_all(piece).is_err() {
                    break;
                }
                wait();
            }
        });
        child.wait_with_output().unwrap()
    });
    text_of(ran)
}

/// What a program prints for an input.
pub fn printed(program: &str, input: &[u8]) -> Result<String, String> {
    printed_piecewise(program, [input].into_iter(), || ())
}

/// The listing program on data of the lengths that matter.
pub fn listing() -> Tried {
    let mut seeded = Seeded(1);
    let mut tried = Tried::default();
    for length in [0, 1, 6, 7, 8, 13, 14, 4101, 4102, 10_000] {
        let bytes: Vec<u8> = (0..length).map(|_| seeded.next() as u8).collect();
        let lines: String = record6250::written(&bytes)
            .chunks(9)
            .map(|words| words.iter().map(u16::to_string).collect::<Vec<_>>().join(" ") + "\n")
            .collect();
        let want = if length > 4101 { "refused 1 0\n".to_string() } else { lines };
        tried.expect(&format!("listing of {length} bytes"), printed("listing", &bytes) == Ok(want));
    }
    tried
}
