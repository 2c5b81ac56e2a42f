//! The bench readings of document 01 that are not in the proved table, what its section on reading backward says of a
//! stray word, what becomes of records with the parity that they had before request 2.2 of document 02, and of groups with one
//! wrong track too many under its request 2.3; and what the readings at 800 are copied to by its request 2.6. The answers stand here as
//! the documents have them; the counts of groups that are taken for another are ours.

use crate::damage6250::make_even;
use crate::library::{self, only, Answer, Direction};
use crate::reading6250::turned;
use crate::record6250::{word, written};
use crate::{reading800, record800};
use crate::vectors::{From800, BEHIND, LENT, LENT_BYTE};
use crate::Tried;

/// The words of data 0x01.
const ONE: [u16; 9] = [850, 827, 818, 827, 825, 825, 825, 827, 750];

/// An output full of `lent` with a result at its front.
fn fronted<T: Copy>(result: &[T], lent: T, length: usize) -> Vec<T> {
    let mut output = result.to_vec();
    output.resize(length, lent);
    output
}

/// Whether groups without pointers are answered so in both directions, with these data in front of the output, which has the
/// least space.
pub fn reads(words: &[u16], want: Answer, data: &[u8]) -> bool {
    let maps = vec![0; words.len() / 9];
    let space = (7 * maps.len()).saturating_sub(1);
    let after = fronted(data, LENT_BYTE, space + BEHIND);
    let back = turned(words, &maps).0;
    let answers = |direction: Direction, words: &[u16]| {
        let mut output = vec![LENT_BYTE; space + BEHIND];
        library::read6250(direction, words, &maps, &mut output[..space]) == want && output == after
    };
    answers(Direction::Forward, words) && answers(Direction::Backward, &back)
}

/// Word 0 of the group of 0x01 made another one.
fn with_word_0(word: u16) -> [u16; 9] {
    let mut words = ONE;
    words[0] = word;
    words
}

fn written_whole(length: usize) -> bool {
    let data: Vec<u8> = (0..length).map(|k| (k % 251) as u8).collect();
    let mut words = vec![LENT; 9 * 587];
    let answer = library::write6250(&data, &mut words);
    let mut after = written(&data);
    after.resize(words.len(), LENT);
    answer == Answer::Delivered(vec![586]) && words == after && reads(&words[..9 * 586], Answer::counted(&[length as u64, 0], [0; 9]), &data)
}

fn refused_whole(length: usize) -> bool {
    let mut words = vec![LENT; 9 * 587];
    library::write6250(&vec![0; length], &mut words) == Answer::Refused(1, 0) && words.iter().all(|&word| word == LENT)
}

/// A record of even parity in track 8: one word of each group differs.
fn even_record(length: usize) -> bool {
    let data: Vec<u8> = (0..length).map(|k| (k % 251) as u8).collect();
    let mut words = written(&data);
    make_even(&mut words);
    let groups = words.len() as u64 / 9;
    reads(&words, Answer::counted(&[length as u64, groups], only(8, groups)), &data)
}

/// Two groups of even parity in track 8, and one more wrong track in the first: how many of the legal words that it can
/// have are refused by 5, and how many are delivered with other data.
fn even_and_one_more(data: [u8; 7]) -> [usize; 2] {
    let mut even = written(&data);
    make_even(&mut even);
    let mut counts = [0; 2];
    for (track, byte) in (0..8).flat_map(|track| (0..=255).map(move |byte| (track, byte))) {
        let mut words = even.clone();
        words[track] = word(byte);
        let mut output = [LENT_BYTE; 13];
        match library::read6250(Direction::Forward, &words, &[0, 0], &mut output) {
            Answer::Refused(5, 0) => counts[0] += 1,
            Answer::Delivered(_) if output[..7] != data => counts[1] += 1,
            _ => assert!(words == even, "neither refused by 5 nor delivered with other data: {words:?}"),
        }
    }
    counts
}

/// Two wrong tracks, of which the drive points at the first: how many of the pairs of legal words that they can have are refused
/// by 5, and how many are delivered with other data.
fn two_wrong_one_pointed(data: [u8; 7], pointed: usize, other: usize) -> [usize; 2] {
    let mut words = written(&data);
    let wrong = |right: u16| (0..=255).map(word).filter(move |&word| word != right);
    let (wrong_pointed, wrong_other) = (wrong(words[pointed]), wrong(words[other]));
    let mut counts = [0; 2];
    for first in wrong_pointed {
        for second in wrong_other.clone() {
            (words[pointed], words[other]) = (first, second);
            let mut output = [LENT_BYTE; 13];
            match library::read6250(Direction::Forward, &words, &[1 << pointed, 0], &mut output) {
                Answer::Refused(5, 0) => counts[0] += 1,
                Answer::Delivered(_) if output[..7] != data => counts[1] += 1,
                answer => panic!("neither refused by 5 nor delivered with other data: {answer:?}"),
            }
        }
    }
    counts
}

/// Whether characters are answered so in both directions, with this result in front of the output, which has space for it and more.
fn answers800<T: Copy + PartialEq>(call: From800<T>, lent: T, characters: &[u16], want: Answer, result: &[T]) -> bool {
    let after = fronted(result, lent, 9 * characters.len());
    let answers = |direction: Direction, characters: &[u16]| {
        let mut output = vec![lent; after.len()];
        call(direction, characters, &mut output) == want && output == after
    };
    answers(Direction::Forward, characters) && answers(Direction::Backward, &reading800::turned(characters))
}

fn reads800(characters: &[u16], want: Answer, data: &[u8]) -> bool {
    answers800(library::read800, LENT_BYTE, characters, want, data)
}

fn copies800(characters: &[u16], want: Answer, words: &[u16]) -> bool {
    answers800(library::copy800, LENT, characters, want, words)
}

fn writes_zero() -> bool {
    let mut characters = [LENT; 4];
    let answer = library::write800(&[0], &mut characters);
    answer == Answer::Delivered(vec![3]) && characters == [256, 430, 174, LENT] && reads800(&characters[..3], Answer::counted(&[1, 9, 0], [0; 9]), &[0])
}

/// Eight data bytes with track 0 wrong in the check character and in the characters of index 1, 2, 4, 6, 7 and 8.
/// Index 8 is the first character, index 1 the eighth, and the check character follows it.
fn wrong_at_g2(data: &[u8; 8]) -> Vec<u16> {
    let mut characters = record800::written(data);
    for place in [0, 1, 2, 4, 6, 7, 8] {
        characters[place] ^= 1;
    }
    characters
}

fn with_longitudinal_wrong(mut characters: Vec<u16>) -> Vec<u16> {
    characters[9] ^= 1;
    characters
}

const EIGHT_BYTES: [[u8; 8]; 3] = [[0; 8], [255; 8], [131, 212, 148, 248, 234, 1, 2, 3]];

pub fn readings800() -> Tried {
    let mut tried = Tried::default();
    tried.expect("one byte 0 is 256 430 174", writes_zero());
    for data in EIGHT_BYTES {
        let characters = wrong_at_g2(&data);
        tried.expect("n = 8, wrong at G2: delivered", reads800(&characters, Answer::counted(&[8, 0, 7], only(0, 7)), &data));
        let characters = with_longitudinal_wrong(characters);
        tried.expect("the longitudinal one wrong too: refusal 8", reads800(&characters, Answer::Refused(8, 0), &[]));
    }
    tried
}

pub fn copies() -> Tried {
    let mut tried = Tried::default();
    let one = record800::written(&[1]);
    tried.expect("one byte 1 becomes the words of 0x01", copies800(&one, Answer::copied(&[1, 9, 0], [0; 9], 1), &ONE));
    for data in EIGHT_BYTES {
        let characters = wrong_at_g2(&data);
        let copied = Answer::copied(&[8, 0, 7], only(0, 7), 2);
        tried.expect("n = 8, wrong at G2: copied", copies800(&characters, copied, &written(&data)));
        let characters = with_longitudinal_wrong(characters);
        tried.expect("the longitudinal one wrong too: refusal 8", copies800(&characters, Answer::Refused(8, 0), &[]));
    }
    tried
}

pub fn readings6250() -> Tried {
    let mut tried = Tried::default();
    tried.expect("word 0 made 1,024: refusal 3", reads(&with_word_0(1024), Answer::Refused(3, 0), &[]));
    tried.expect("word 0 made 1,023: no refusal 3", reads(&with_word_0(1023), Answer::counted(&[1, 1], only(0, 1)), &[1]));
    let stray_last = [ONE, ONE, with_word_0(1024)].concat();
    tried.expect("a stray word keeps its forward place", reads(&stray_last, Answer::Refused(3, 2), &[]));
    tried.expect("4,101 bytes are written", written_whole(4101));
    tried.expect("4,102 bytes are refused", refused_whole(4102));
    for length in [0, 1, 6, 7, 4101] {
        tried.expect("even parity in track 8: one changed in each group", even_record(length));
    }
    let counts = even_and_one_more([131, 212, 148, 248, 234, 1, 2]);
    tried.expect("even parity and one more wrong track: 1,984 refused by 5, 56 another group", counts == [1984, 56]);
    for (pointed, other) in [(0, 1), (5, 2), (3, 8), (8, 7)] {
        let counts = two_wrong_one_pointed([131, 212, 148, 248, 234, 1, 2], pointed, other);
        tried.expect("two wrong, one of them pointed: 63,240 refused by 5, 1,785 another group", counts == [63240, 1785]);
    }
    tried
}
