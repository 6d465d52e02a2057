//! Request (j) of document 02: whether a string is a volume, a cut one or a hopeless one, and how long the shortest beginning is
//! that no bytes complete into a volume. No rule here says which groups of a number are hopeless. A beginning can be completed
//! where some bytes after it make a string that the reader of volume.rs accepts, and such bytes are looked for by trying.
//!
//! It is enough to try these: all bytes that make the number in which the beginning ends one that the reader takes, each followed
//! by the smallest value for every number that is then missing. For suppose that some volume has this beginning. The numbers that
//! are whole in the beginning are the volume's, since a number ends with its first byte that announces no other. The number in
//! which the beginning ends has one to three bytes in the volume, and the reader takes them as this number, so they are among
//! those that are tried. No later number has a range that depends on another number; only how many numbers there are depends on
//! the count, which is then whole. So the volume remains one where each later number becomes the smallest of its range, and that
//! is a string that is tried.

use crate::random::Random;
use crate::volume;
use std::sync::OnceLock;

/// What a string is.
#[derive(Clone, Copy, PartialEq, Debug)]
pub enum Soundness {
    Sound,
    Cut,
    /// With the length of the shortest beginning that can't be completed.
    Hopeless(usize),
}

impl Soundness {
    /// The number of the answer and the length, as the C header has them.
    pub fn numbers(self) -> (u64, usize) {
        match self {
            Soundness::Sound => (0, 0),
            Soundness::Cut => (1, 0),
            Soundness::Hopeless(length) => (2, length),
        }
    }
}

/// Every beginning is tried of strings that have no more bytes than this.
const EACH_IS_TRIED: usize = 40;

/// The bytes of the smallest minutes, litres, ratio and product.
const SMALLEST: [u8; 4] = [0x00, 0x00, 0x00, 0x01];

/// What is tried where no byte is missing from the last number of a beginning.
static NOTHING: [Vec<u8>; 1] = [Vec::new()];

/// All strings that the reader takes as one number in this place, in the order of their bytes. A number has at most three groups,
/// and all but the last announce another, so no other strings have to be tried.
fn strings_of_number(place: usize) -> Vec<Vec<u8>> {
    let number = volume::number_at(place);
    let mut strings = Vec::new();
    let mut attempt = |string: &[u8]| {
        if volume::is_number(string, number) {
            strings.push(string.to_vec());
        }
    };
    for last in 0x00..=0x7F {
        attempt(&[last]);
        for first in 0x80..=0xFF {
            attempt(&[first, last]);
            for second in 0x80..=0xFF {
                attempt(&[first, second, last]);
            }
        }
    }
    strings.sort();
    strings
}

/// The strings that the reader takes as the number in this place and that begin with these bytes.
fn strings_that_begin(place: usize, bytes: &[u8]) -> &'static [Vec<u8>] {
    static STRINGS: OnceLock<[Vec<Vec<u8>>; 5]> = OnceLock::new();
    let strings = STRINGS.get_or_init(|| [0, 1, 2, 3, 4].map(strings_of_number));
    let strings = &strings[if place == 0 { 0 } else { 1 + (place - 1) % 4 }];
    let from = strings.partition_point(|string| string[..] < *bytes);
    let count = strings[from..].partition_point(|string| string.starts_with(bytes));
    &strings[from..from + count]
}

/// What is tried to complete a beginning.
struct Attempts<'b> {
    /// The beginning without the number in which it ends.
    start: &'b [u8],
    /// How many numbers that is.
    numbers: usize,
    /// The count, if it is among them.
    count: Option<u32>,
    /// The strings to try as the next number.
    strings: &'static [Vec<u8>],
}

impl Attempts<'_> {
    /// A beginning that ends with a number has no number to complete. One with bytes after the last entry has none either and is
    /// tried as it is.
    fn of(beginning: &[u8]) -> Attempts<'_> {
        let (numbers, left) = volume::numbers_before_fault(beginning);
        let is_complete = left.is_empty() || numbers.len() == volume::numbers_of_volume(&numbers);
        let (start, strings) = if is_complete {
            (beginning, &NOTHING[..])
        } else {
            (&beginning[..beginning.len() - left.len()], strings_that_begin(numbers.len(), left))
        };
        Attempts { start, numbers: numbers.len(), count: numbers.first().copied(), strings }
    }

    /// The start with one of the strings after it, followed by the smallest value for each number that is then missing. No entries
    /// is the smallest count.
    fn filled(&self, string: &[u8]) -> Vec<u8> {
        let mut filled = [self.start, string].concat();
        if filled.is_empty() {
            return vec![0x00];
        }
        let numbers = self.numbers + if string.is_empty() { 0 } else { 1 };
        let count = self.count.unwrap_or_else(|| volume::value_of(string)) as usize;
        filled.extend(SMALLEST.iter().cycle().take(4 * count).skip(numbers - 1));
        filled
    }
}

/// A volume that begins with these bytes, if there is one: the first of the tried strings that the reader accepts.
pub fn completed(beginning: &[u8]) -> Option<Vec<u8>> {
    let attempts = Attempts::of(beginning);
    let mut filled = attempts.strings.iter().map(|string| attempts.filled(string));
    filled.find(|filled| volume::entries_of(filled).is_ok())
}

/// Any of the tried strings, if the reader accepts it.
pub fn completed_at_random(random: &mut Random, beginning: &[u8]) -> Option<Vec<u8>> {
    let attempts = Attempts::of(beginning);
    if attempts.strings.is_empty() {
        return None;
    }
    let string = &attempts.strings[random.below(attempts.strings.len() as u64) as usize];
    Some(attempts.filled(string)).filter(|filled| volume::entries_of(filled).is_ok())
}

/// The length of the shortest beginning that can't be completed, the whole string included.
fn shortest_hopeless(string: &[u8]) -> Option<usize> {
    let can_be_completed = |length: usize| completed(&string[..length]).is_some();
    if string.len() <= EACH_IS_TRIED {
        let each: Vec<bool> = (0..=string.len()).map(can_be_completed).collect();
        let shortest = each.iter().position(|can| !can);
        // What completes a beginning completes, with bytes of the beginning before it, also every shorter one.
        assert!(each[shortest.unwrap_or(each.len())..].iter().all(|can| !can), "beginnings of {string:x?}: {each:?}");
        return shortest;
    }
    if can_be_completed(string.len()) {
        return None;
    }
    // For the same reason there is one length up to which beginnings can be completed. It is found by halving.
    assert!(can_be_completed(0));
    let (mut can, mut cannot) = (0, string.len());
    while cannot - can > 1 {
        let middle = (can + cannot) / 2;
        if can_be_completed(middle) {
            can = middle;
        } else {
            cannot = middle;
        }
    }
    Some(cannot)
}

/// Volume soundness.
pub fn of(string: &[u8]) -> Soundness {
    if volume::entries_of(string).is_ok() {
        return Soundness::Sound;
    }
    shortest_hopeless(string).map_or(Soundness::Cut, Soundness::Hopeless)
}
