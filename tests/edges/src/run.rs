//! One run of a program.

use crate::hindrance::{self, Hindrance::*, Setting};
use std::fs::{self, File};
use std::io::{Read, Write};
use std::os::unix::process::CommandExt;
use std::process::{Command, Stdio};
use std::time::Duration;

/// The compiled shim. The path stays relative: the loader would take a space in it for its end.
pub const SHIM: &str = "target/edges/shim.so";

/// How a run ended, and what it wrote.
pub struct Ran {
    pub ended: String,
    pub output: Vec<u8>,
    pub said: String,
    /// In how many pieces the output came; of a socket that keeps write calls apart, one for each call.
    pub pieces: usize,
}

fn command(line: &str, setting: Setting) -> Command {
    let mut words = line.split(' ');
    let mut command = Command::new(format!("target/bin/{}", words.next().unwrap()));
    command.args(words).stderr(Stdio::piped());
    for hindrance in setting {
        if let Shim(failure) = hindrance {
            command.env("LD_PRELOAD", SHIM).env("EDGES_SHIM", failure);
        }
    }
    unsafe { command.pre_exec(move || hindrance::prepare(setting)) };
    command
}

/// All that comes, and in how many pieces. There is room for the longest packet, which a read must get whole.
fn drained(mut reader: File) -> (Vec<u8>, usize) {
    let mut room = vec![0; 128 * 1024];
    let (mut all, mut pieces) = (Vec::new(), 0);
    loop {
        let count = reader.read(&mut room).unwrap();
        if count == 0 {
            return (all, pieces);
        }
        all.extend_from_slice(&room[..count]);
        pieces += 1;
    }
}

pub fn run(line: &str, bytes: &[u8], setting: Setting) -> Ran {
    let (late, hasty) = (setting.contains(&Late), setting.contains(&Hasty));
    let there = if late || hasty {
        bytes.len() / 2
    } else {
        bytes.len()
    };
    let (first, rest) = bytes.split_at(there);
    let (input, mut writer) = hindrance::source(setting, first);
    let (output, reader) = hindrance::sink(setting);
    let mut command = command(line, setting);
    command.stdin(input).stdout(output);
    let child = command.spawn().expect("the programs are built");
    // the command holds the program's ends too, and while it does the output has no end
    drop(command);
    if late {
        std::thread::sleep(Duration::from_millis(300));
        writer.write_all(rest).unwrap();
    }
    // a program that does not wait ends while this end of its input is still open
    let open = hasty.then(|| writer);
    let (mut output, pieces) = reader.map(drained).unwrap_or_default();
    drop(open);
    let ended = child.wait_with_output().unwrap();
    if hindrance::is_limited(setting) {
        output = fs::read(hindrance::FILE).unwrap();
    }
    let said = String::from_utf8_lossy(&ended.stderr).into();
    let ended = ended.status.to_string();
    Ran {
        ended,
        output,
        said,
        pieces,
    }
}
