//! Head order again, from note 11's two rows and by search: it shares nothing with the library.

use crate::library::{Answer, Toward};

/// Note 11 of document 000: (algebraic, physical), P being 8.
const PAIRS: [(usize, usize); 9] = [(1, 1), (4, 2), (7, 3), (8, 4), (3, 5), (6, 6), (0, 7), (2, 8), (5, 9)];

/// The index in head order of an algebraic track.
fn head_index(algebraic: usize) -> usize {
    PAIRS.iter().find(|pair| pair.0 == algebraic).unwrap().1 - 1
}

pub fn words(toward: Toward, source: &[u16], target: &mut [u16]) -> Answer {
    if source.len() != 9 {
        return Answer::Refused(1, 0);
    }
    if target.len() < 9 {
        return Answer::Refused(2, 0);
    }
    if let Some(place) = source.iter().position(|&word| word >= 1 << 10) {
        return Answer::Refused(3, place);
    }
    for algebraic in 0..9 {
        let head = head_index(algebraic);
        match toward {
            Toward::Physical => target[head] = source[algebraic],
            Toward::Algebraic => target[algebraic] = source[head],
        }
    }
    Answer::Delivered(vec![])
}

pub fn map(toward: Toward, map: u16) -> Answer {
    if map >= 1 << 9 {
        return Answer::Refused(3, 0);
    }
    let moved: u64 = (0..9)
        .map(|algebraic| match toward {
            Toward::Physical => u64::from(map >> algebraic & 1) << head_index(algebraic),
            Toward::Algebraic => u64::from(map >> head_index(algebraic) & 1) << algebraic,
        })
        .sum();
    Answer::Delivered(vec![moved])
}
