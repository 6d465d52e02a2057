//! All beginnings of up to three bytes that volumes have from some place on. They are listed from the values of the numbers, each
//! value written as its bytes, and no string is split into numbers for it.

use crate::calls;
use crate::soundness::Soundness;

/// The most bytes of a listed beginning.
const MOST_BYTES: usize = 3;

/// The bytes with which the values of a number begin: for each length up to the most bytes, the different first bytes of the
/// values, and whether these are all bytes of the value. A value of fewer bytes is there with all it has.
pub struct FirstBytes {
    of_length: [Vec<(Vec<u8>, bool)>; MOST_BYTES + 1],
}

impl FirstBytes {
    /// Those of all values from the smallest to the largest.
    pub fn of(smallest: u64, largest: u64) -> FirstBytes {
        let values: Vec<Vec<u8>> = (smallest..=largest).map(calls::groups_of).collect();
        let of_length = [0, 1, 2, 3].map(|length| {
            let first = |bytes: &Vec<u8>| (bytes[..bytes.len().min(length)].to_vec(), bytes.len() <= length);
            let mut different: Vec<(Vec<u8>, bool)> = values.iter().map(first).collect();
            different.sort();
            different.dedup();
            different
        });
        FirstBytes { of_length }
    }
}

/// For each string of up to three bytes whether a volume goes on with it in some place, and whether the volume ends with it. The
/// place of a string in its list is its bytes read as one number.
pub struct Beginnings {
    begins: [Vec<bool>; MOST_BYTES + 1],
    ends: [Vec<bool>; MOST_BYTES + 1],
}

impl Beginnings {
    /// The beginnings where one of these lists of numbers follows, up to the end of the volume. In a list that is longer than the
    /// most bytes, later numbers do not matter, since each has at least one byte.
    pub fn of(lists: &[&[&FirstBytes]]) -> Beginnings {
        let none = || [0, 1, 2, 3].map(|length| vec![false; 1 << (8 * length)]);
        let mut beginnings = Beginnings { begins: none(), ends: none() };
        for numbers in lists {
            beginnings.add(0, 0, numbers);
        }
        beginnings
    }

    /// Adds the beginnings that go on from a string of this length with these numbers.
    fn add(&mut self, string: usize, length: usize, numbers: &[&FirstBytes]) {
        self.begins[length][string] = true;
        let Some(number) = numbers.first() else {
            self.ends[length][string] = true;
            return;
        };
        if length == MOST_BYTES {
            return;
        }
        for (bytes, is_all) in &number.of_length[MOST_BYTES - length] {
            let (mut string, mut length) = (string, length);
            for byte in bytes {
                string = string << 8 | *byte as usize;
                length += 1;
                self.begins[length][string] = true;
            }
            if *is_all {
                self.add(string, length, &numbers[1..]);
            }
        }
    }

    /// The soundness of a volume's start of so many bytes with this string of up to three bytes after it.
    pub fn soundness(&self, start: usize, string: &[u8]) -> Soundness {
        let mut place = 0;
        for (k, byte) in string.iter().enumerate() {
            place = place << 8 | *byte as usize;
            if !self.begins[k + 1][place] {
                return Soundness::Hopeless(start + k + 1);
            }
        }
        if self.ends[string.len()][place] {
            Soundness::Sound
        } else {
            Soundness::Cut
        }
    }
}
