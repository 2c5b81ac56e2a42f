//! A record at 800 copied onto one at 6250, written for speed in Rust: every rule of document 02, request 2.6. The reading is
//! judged as `fast800` judges it, and its data are written as `fast6250` writes them, from an array between. It shares no table and no
//! code with the library.

use crate::{fast6250, fast800, Answer, Counts};

/// Data of up to so many bytes take a small array, which is cleared sooner.
const SHORT: usize = 256;

/// Corrects the data into an array and writes them from there.
#[inline(always)]
fn written<const BACKWARD: bool>(characters: &[u16], track: usize, data: &mut [u8], words: &mut [u16]) {
    fast800::correct::<BACKWARD>(characters, track, data);
    fast6250::write(data, words);
}

pub fn copy<const BACKWARD: bool>(characters: &[u16], words: &mut [u16], counts: &mut Counts) -> Answer {
    let [n, track, wrong] = match fast800::judged::<BACKWARD>(characters, |n| words.len() >= 9 * (n / 7 + 1)) {
        Ok(figures) => figures,
        Err(refusal) => return refusal,
    };
    if n <= SHORT {
        written::<BACKWARD>(characters, track, &mut [0; SHORT][..n], words);
    } else {
        written::<BACKWARD>(characters, track, &mut [0; fast800::MOST_DATA][..n], words);
    }
    *counts = fast800::counted(track, wrong);
    Answer::Delivered([n, track, wrong, n / 7 + 1])
}
