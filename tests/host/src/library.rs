//! The proved archive behind safe functions.

use crate::abi::*;

/// What a call answers: document 01's delivery, or its refusal with number and place.
#[derive(Clone, Debug, PartialEq, Eq)]
pub enum Answer {
    Delivered(Vec<u64>),
    Refused(u16, usize),
}

impl Answer {
    /// A delivery of a reader: its figures, and the nine counts behind them.
    pub fn counted(figures: &[u64], counts: [u64; 9]) -> Answer {
        Answer::Delivered([figures, &counts].concat())
    }

    /// A delivery of a copy: what the reading at 800 tells, and the groups behind it.
    pub fn copied(figures: &[u64], counts: [u64; 9], groups: u64) -> Answer {
        Answer::Delivered([figures, &counts, &[groups]].concat())
    }

    /// The refusal's number, or 0.
    pub fn number(&self) -> usize {
        match self {
            Answer::Delivered(_) => 0,
            Answer::Refused(number, _) => usize::from(*number),
        }
    }
}

/// The nine counts where one track alone was changed, in so many words or characters; by a track 9, none was.
pub fn only(track: usize, changes: u64) -> [u64; 9] {
    std::array::from_fn(|counted| if counted == track { changes } else { 0 })
}

#[derive(Clone, Copy, Debug)]
pub enum Toward {
    Physical,
    Algebraic,
}

impl Toward {
    /// The other way.
    pub fn back(self) -> Toward {
        match self {
            Toward::Physical => Toward::Algebraic,
            Toward::Algebraic => Toward::Physical,
        }
    }
}

#[derive(Clone, Copy, Debug)]
pub enum Direction {
    Forward,
    Backward,
}

pub fn words(toward: Toward, source: &[u16], target: &mut [u16]) -> Answer {
    let mut place = usize::MAX;
    let call = match toward {
        Toward::Physical => rindthok_words_to_physical,
        Toward::Algebraic => rindthok_words_to_algebraic,
    };
    let status = unsafe { call(source.as_ptr(), source.len(), target.as_mut_ptr(), target.len(), &mut place) };
    answer(status, place, || vec![])
}

pub fn map(toward: Toward, map: u16, moved: &mut u16) -> Answer {
    let mut place = usize::MAX;
    let call = match toward {
        Toward::Physical => rindthok_map_to_physical,
        Toward::Algebraic => rindthok_map_to_algebraic,
    };
    let status = unsafe { call(map, moved, &mut place) };
    answer(status, place, || vec![u64::from(*moved)])
}

pub fn card_words(toward: Toward, card: &[u8], source: &[u16], target: &mut [u16]) -> Answer {
    let mut place = usize::MAX;
    let call = match toward {
        Toward::Physical => rindthok_card_words_to_physical,
        Toward::Algebraic => rindthok_card_words_to_algebraic,
    };
    let (by, from, to) = (given(card), given(source), target.as_mut_ptr());
    let status = unsafe { call(by, card.len(), from, source.len(), to, target.len(), &mut place) };
    answer(status, place, || vec![])
}

pub fn card_map(toward: Toward, card: &[u8], map: u16, moved: &mut u16) -> Answer {
    let mut place = usize::MAX;
    let call = match toward {
        Toward::Physical => rindthok_card_map_to_physical,
        Toward::Algebraic => rindthok_card_map_to_algebraic,
    };
    let status = unsafe { call(given(card), card.len(), map, moved, &mut place) };
    answer(status, place, || vec![u64::from(*moved)])
}

/// A delivery has the inverse card's nine numbers, and tells nothing more.
pub fn inverse_card(card: &[u8], inverse: &mut [u8; 9]) -> Answer {
    let mut place = usize::MAX;
    let status = unsafe { rindthok_inverse_card(given(card), card.len(), inverse.as_mut_ptr(), &mut place) };
    answer(status, place, || vec![])
}

pub fn write6250(bytes: &[u8], words: &mut [u16]) -> Answer {
    let (mut groups, mut place) = (KEPT, usize::MAX);
    let status = unsafe { rindthok_write6250(bytes.as_ptr(), bytes.len(), words.as_mut_ptr(), words.len(), &mut groups, &mut place) };
    assert!(status == 0 || groups == KEPT, "a refusal stores no value");
    answer(status, place, || vec![groups as u64])
}

/// A delivery tells the data's length, the number of changed words, and how many of them each track has.
pub fn read6250(direction: Direction, words: &[u16], maps: &[u16], output: &mut [u8]) -> Answer {
    let (mut size, mut changes, mut counts, mut place) = (KEPT, KEPT, Counts::lent(), usize::MAX);
    let call = match direction {
        Direction::Forward => rindthok_read6250_forward,
        Direction::Backward => rindthok_read6250_backward,
    };
    let (from, pointers, to) = (words.as_ptr(), maps.as_ptr(), output.as_mut_ptr());
    let nine = counts.pointer();
    let status = unsafe { call(from, words.len(), pointers, maps.len(), to, output.len(), &mut size, &mut changes, nine, &mut place) };
    assert!(status == 0 || (size, changes) == (KEPT, KEPT) && counts.kept(), "a refusal stores no value");
    answer(status, place, || [&numbers([size, changes])[..], &counts.told()].concat())
}

/// An input as C hands it over: where it has no elements, NULL.
fn given<T>(input: &[T]) -> *const T {
    if input.is_empty() { std::ptr::null() } else { input.as_ptr() }
}

/// A delivery tells the log's length.
pub fn log6250(direction: Direction, words: &[u16], maps: &[u16], log: &mut [u8]) -> Answer {
    let (mut length, mut place) = (KEPT, usize::MAX);
    let call = match direction {
        Direction::Forward => rindthok_log6250_forward,
        Direction::Backward => rindthok_log6250_backward,
    };
    let (from, pointers, to) = (given(words), given(maps), log.as_mut_ptr());
    let status = unsafe { call(from, words.len(), pointers, maps.len(), to, log.len(), &mut length, &mut place) };
    assert!(status == 0 || length == KEPT, "a refusal stores no value");
    answer(status, place, || vec![length as u64])
}

/// A delivery has a map for each group, and tells how many of them have each track.
pub fn read_log(groups: usize, log: &[u8], maps: &mut [u16]) -> Answer {
    let (mut counts, mut place) = (Counts::lent(), usize::MAX);
    let (to, nine) = (maps.as_mut_ptr(), counts.pointer());
    let status = unsafe { rindthok_read_log(groups, given(log), log.len(), to, maps.len(), nine, &mut place) };
    assert!(status == 0 || counts.kept(), "a refusal stores no value");
    answer(status, place, || counts.told().to_vec())
}

/// A delivery tells the number of characters written.
pub fn write800(bytes: &[u8], characters: &mut [u16]) -> Answer {
    let (mut count, mut place) = (KEPT, usize::MAX);
    let (from, to) = (bytes.as_ptr(), characters.as_mut_ptr());
    let status = unsafe { rindthok_write800(from, bytes.len(), to, characters.len(), &mut count, &mut place) };
    assert!(status == 0 || count == KEPT, "a refusal stores no value");
    answer(status, place, || vec![count as u64])
}

/// A delivery tells the number of data bytes, the corrected track or 9, the number of changed characters, and how many of
/// them each track has.
pub fn read800(direction: Direction, characters: &[u16], output: &mut [u8]) -> Answer {
    let (mut size, mut track, mut changes, mut counts, mut place) = (KEPT, KEPT, KEPT, Counts::lent(), usize::MAX);
    let call = match direction {
        Direction::Forward => rindthok_read800_forward,
        Direction::Backward => rindthok_read800_backward,
    };
    let (from, to, nine) = (characters.as_ptr(), output.as_mut_ptr(), counts.pointer());
    let status = unsafe { call(from, characters.len(), to, output.len(), &mut size, &mut track, &mut changes, nine, &mut place) };
    let figures = [size, track, changes];
    assert!(status == 0 || figures == [KEPT; 3] && counts.kept(), "a refusal stores no value");
    answer(status, place, || [&numbers(figures)[..], &counts.told()].concat())
}

/// A delivery tells what a reading at 800 tells, and the number of groups written.
pub fn copy800(direction: Direction, characters: &[u16], words: &mut [u16]) -> Answer {
    let (mut size, mut track, mut changes, mut counts, mut groups, mut place) = (KEPT, KEPT, KEPT, Counts::lent(), KEPT, usize::MAX);
    let call = match direction {
        Direction::Forward => rindthok_copy800_forward,
        Direction::Backward => rindthok_copy800_backward,
    };
    let (from, to, nine) = (given(characters), words.as_mut_ptr(), counts.pointer());
    let status = unsafe { call(from, characters.len(), to, words.len(), &mut size, &mut track, &mut changes, nine, &mut groups, &mut place) };
    assert!(status == 0 || [size, track, changes, groups] == [KEPT; 4] && counts.kept(), "a refusal stores no value");
    answer(status, place, || [&numbers([size, track, changes])[..], &counts.told(), &numbers([groups])].concat())
}

/// What lies in a number before a call that may store a value there.
const KEPT: usize = 0x5A5A;

/// The nine counts that a call is lent, with a number on either side that no call may reach. Before the call each has a value of its
/// own, so that a store shows wherever it goes.
struct Counts([usize; 11]);

impl Counts {
    fn lent() -> Counts {
        Counts(std::array::from_fn(|place| KEPT + place))
    }

    fn pointer(&mut self) -> *mut usize {
        self.0[1..].as_mut_ptr()
    }

    fn kept(&self) -> bool {
        self.0 == Counts::lent().0
    }

    /// The counts that a delivery stored, track 0 first.
    fn told(&self) -> [u64; 9] {
        let [before, nine @ .., behind] = self.0;
        assert_eq!([before, behind], [KEPT, KEPT + 10], "a delivery stores nine counts and nothing beside them");
        numbers(nine)
    }
}

fn numbers<const COUNT: usize>(figures: [usize; COUNT]) -> [u64; COUNT] {
    figures.map(|figure| figure as u64)
}

fn answer(status: u16, place: usize, values: impl Fn() -> Vec<u64>) -> Answer {
    match status {
        0 => {
            assert_eq!(place, 0, "a delivery stores 0 for the place");
            Answer::Delivered(values())
        }
        number => Answer::Refused(number, place),
    }
}
