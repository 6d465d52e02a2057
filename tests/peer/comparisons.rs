//! Cases made by hand about two recordings of one run, with the answer that request (k) of document 02 gives for each pair.

use crate::both::Both;
use crate::calls::Head;
use crate::comparison::{Part, Recording};
use crate::made::expect;
use crate::tally::Tally;
use crate::volumes::{bytes_of, faults, three_start, three_with, three_with_all, EXAMPLE_VOLUME, LARGEST, SMALLEST, THREE};
use Is::{Blenders, Gauges, Refused};

/// What is handed back for a pair.
#[derive(Clone, Copy, PartialEq, Debug)]
enum Is {
    /// The blender's recording from this byte to its end.
    Blenders(usize),
    /// The gauge's recording from this byte to its end.
    Gauges(usize),
    /// Nothing: the pair is refused with this number.
    Refused(u64),
}

impl Is {
    fn answer(self, blender: &[u8], gauge: &[u8]) -> Result<Part, u64> {
        match self {
            Blenders(from) => Ok(Part { recording: Recording::Blender, from, length: blender.len() - from }),
            Gauges(from) => Ok(Part { recording: Recording::Gauge, from, length: gauge.len() - from }),
            Refused(refusal) => Err(refusal),
        }
    }
}

/// Pairs with all their bytes, and what is handed back with its length. 127 is 0x7F, 128 is 0x80 0x01, 129 is 0x81 0x01, 256 is
/// 0x80 0x02, and 10,000 is 0x90 0x4E.
const EXAMPLES: [(&[u8], &[u8], Is, usize); 33] = [
    // The examples of the header.
    (&[0x01, 0x00, 0x64, 0x06, 0x01], &[0x01, 0x00, 0x64, 0x05, 0x01], Gauges(1), 4),
    (&[0x01, 0x00, 0x64, 0x05, 0x01], &[0x01, 0x00, 0x63, 0x05, 0x01], Blenders(1), 4),
    (&[0x00], &[0x01, 0x00, 0x64, 0x05, 0x01], Gauges(1), 4),
    // No entries in one of them or in both.
    (&[0x00], &[0x00], Blenders(1), 0),
    (&[0x00], &[0x01, 0x00, 0x00, 0x00, 0x01], Gauges(1), 4),
    (&[0x01, 0x00, 0x00, 0x00, 0x01], &[0x00], Blenders(1), 4),
    // The same, and one entry more.
    (&[0x01, 0x05, 0x64, 0x07, 0x02], &[0x01, 0x05, 0x64, 0x07, 0x02], Blenders(5), 0),
    (&[0x01, 0x05, 0x64, 0x07, 0x02], &[0x02, 0x05, 0x64, 0x07, 0x02, 0x05, 0x64, 0x07, 0x02], Gauges(5), 4),
    (&[0x02, 0x05, 0x64, 0x07, 0x02, 0x05, 0x64, 0x07, 0x02], &[0x01, 0x05, 0x64, 0x07, 0x02], Blenders(5), 4),
    (&[0x02, 0x05, 0x64, 0x07, 0x02, 0x00, 0x00, 0x00, 0x01], &[0x01, 0x05, 0x64, 0x07, 0x02], Blenders(5), 4),
    // Minutes, litres or product are different, and the ratios are equal.
    (&[0x01, 0x05, 0x64, 0x07, 0x02], &[0x01, 0x04, 0x64, 0x07, 0x02], Blenders(1), 4),
    (&[0x01, 0x04, 0x64, 0x07, 0x02], &[0x01, 0x05, 0x64, 0x07, 0x02], Blenders(1), 4),
    (&[0x01, 0x05, 0x64, 0x07, 0x02], &[0x01, 0x05, 0x63, 0x07, 0x02], Blenders(1), 4),
    (&[0x01, 0x05, 0x64, 0x07, 0x02], &[0x01, 0x05, 0x80, 0x01, 0x07, 0x02], Blenders(1), 4),
    (&[0x01, 0x05, 0x80, 0x01, 0x07, 0x02], &[0x01, 0x05, 0x64, 0x07, 0x02], Blenders(1), 5),
    (&[0x01, 0x05, 0x64, 0x07, 0x02], &[0x01, 0x05, 0x64, 0x07, 0x01], Blenders(1), 4),
    (&[0x01, 0x05, 0x64, 0x07, 0x01], &[0x01, 0x05, 0x64, 0x07, 0x02], Blenders(1), 4),
    // One of the ratios is smaller.
    (&[0x01, 0x05, 0x64, 0x07, 0x02], &[0x01, 0x05, 0x64, 0x06, 0x02], Gauges(1), 4),
    (&[0x01, 0x05, 0x64, 0x06, 0x02], &[0x01, 0x05, 0x64, 0x07, 0x02], Blenders(1), 4),
    (&[0x01, 0x05, 0x64, 0x7F, 0x02], &[0x01, 0x05, 0x64, 0x80, 0x01, 0x02], Blenders(1), 4),
    (&[0x01, 0x05, 0x64, 0x80, 0x01, 0x02], &[0x01, 0x05, 0x64, 0x7F, 0x02], Gauges(1), 4),
    (&[0x01, 0x05, 0x64, 0x81, 0x01, 0x02], &[0x01, 0x05, 0x64, 0x80, 0x02, 0x02], Blenders(1), 5),
    (&[0x01, 0x05, 0x64, 0x80, 0x02, 0x02], &[0x01, 0x05, 0x64, 0x81, 0x01, 0x02], Gauges(1), 5),
    (&[0x01, 0x05, 0x64, 0x00, 0x02], &[0x01, 0x05, 0x64, 0x90, 0x4E, 0x02], Blenders(1), 4),
    (&[0x01, 0x05, 0x64, 0x90, 0x4E, 0x02], &[0x01, 0x05, 0x64, 0x00, 0x02], Gauges(1), 4),
    // The other numbers are greater where the ratio is smaller.
    (&[0x01, 0x06, 0x65, 0x06, 0x03], &[0x01, 0x05, 0x64, 0x07, 0x02], Blenders(1), 4),
    (&[0x01, 0x05, 0x64, 0x07, 0x02], &[0x01, 0x06, 0x65, 0x06, 0x03], Gauges(1), 4),
    // The second entry is different, or the first one, with which one recording ends.
    (
        &[0x02, 0x05, 0x64, 0x07, 0x02, 0x01, 0x00, 0x00, 0x01],
        &[0x02, 0x05, 0x64, 0x07, 0x02, 0x00, 0x00, 0x00, 0x01],
        Blenders(5),
        4,
    ),
    (
        &[0x02, 0x05, 0x64, 0x07, 0x02, 0x00, 0x00, 0x01, 0x01],
        &[0x02, 0x05, 0x64, 0x07, 0x02, 0x00, 0x00, 0x00, 0x01],
        Gauges(5),
        4,
    ),
    (&[0x01, 0x05, 0x64, 0x07, 0x02], &[0x02, 0x05, 0x64, 0x07, 0x03, 0x00, 0x00, 0x00, 0x01], Blenders(1), 4),
    (&[0x02, 0x05, 0x64, 0x07, 0x03, 0x00, 0x00, 0x00, 0x01], &[0x01, 0x05, 0x64, 0x07, 0x02], Blenders(1), 8),
    (&[0x01, 0x05, 0x64, 0x07, 0x02], &[0x02, 0x05, 0x64, 0x06, 0x02, 0x00, 0x00, 0x00, 0x01], Gauges(1), 8),
    (&[0x02, 0x05, 0x64, 0x06, 0x02, 0x00, 0x00, 0x00, 0x01], &[0x01, 0x05, 0x64, 0x07, 0x02], Blenders(1), 8),
];

/// Entries by a letter, with their numbers and their bytes. The ratios of a, f, g, h and i are equal.
const LETTERS: [(char, [u32; 4], &[u8]); 10] = [
    ('a', [0, 1_000, 525, 4], &[0x00, 0xE8, 0x07, 0x8D, 0x04, 0x04]),
    ('b', [15, 20_000, 610, 2], &[0x0F, 0xA0, 0x9C, 0x01, 0xE2, 0x04, 0x02]),
    ('c', [1_440, 100_000, 10_000, 8], &[0xA0, 0x0B, 0xA0, 0x8D, 0x06, 0x90, 0x4E, 0x08]),
    ('d', [0, 0, 0, 1], &[0x00, 0x00, 0x00, 0x01]),
    ('e', [7, 9, 300, 3], &[0x07, 0x09, 0xAC, 0x02, 0x03]),
    ('f', [128, 1_000, 525, 4], &[0x80, 0x01, 0xE8, 0x07, 0x8D, 0x04, 0x04]),
    ('g', [0, 1_001, 525, 4], &[0x00, 0xE9, 0x07, 0x8D, 0x04, 0x04]),
    ('h', [0, 1_000, 525, 3], &[0x00, 0xE8, 0x07, 0x8D, 0x04, 0x03]),
    ('i', [0, 127, 525, 8], &[0x00, 0x7F, 0x8D, 0x04, 0x08]),
    ('j', [0, 1_000, 524, 4], &[0x00, 0xE8, 0x07, 0x8C, 0x04, 0x04]),
];

/// Recordings as the letters of their entries, and what is handed back. The entries a to j have 6, 7, 8, 4, 5, 7, 6, 6, 5 and 6
/// bytes and the ratios 525, 610, 10,000, 0, 300, 525, 525, 525, 525 and 524.
const SEQUENCES: [(&str, &str, Is); 66] = [
    // An entry is missing in one of them: what comes afterwards does not matter.
    ("abcd", "acd", Blenders(7)),
    ("acd", "abcd", Gauges(7)),
    ("abde", "ade", Gauges(7)),
    ("ade", "abde", Blenders(7)),
    ("bacde", "acde", Gauges(1)),
    ("acde", "bacde", Blenders(1)),
    ("dab", "ab", Blenders(1)),
    ("ab", "dab", Gauges(1)),
    ("abcde", "abce", Blenders(22)),
    ("abce", "abcde", Gauges(22)),
    ("abcde", "abcd", Blenders(26)),
    ("abcd", "abcde", Gauges(26)),
    ("aab", "ab", Blenders(7)),
    ("ab", "aab", Gauges(7)),
    ("aaaa", "aaa", Blenders(19)),
    ("aaa", "aaaa", Gauges(19)),
    // Two entries are missing, or some in each of them.
    ("abcde", "ade", Gauges(7)),
    ("ade", "abcde", Blenders(7)),
    ("abde", "acde", Blenders(7)),
    ("acde", "abde", Gauges(7)),
    // Another order.
    ("abc", "acb", Blenders(7)),
    ("acb", "abc", Gauges(7)),
    ("abcde", "edcba", Gauges(1)),
    ("edcba", "abcde", Blenders(1)),
    ("abcde", "bcdea", Blenders(1)),
    ("bcdea", "abcde", Gauges(1)),
    // The same entries once more.
    ("abcabc", "abc", Blenders(22)),
    ("abc", "abcabc", Gauges(22)),
    ("abcabc", "abcac", Blenders(28)),
    ("abcac", "abcabc", Gauges(28)),
    // Later ratios are the other way round.
    ("abdc", "aecd", Gauges(7)),
    ("aecd", "abdc", Blenders(7)),
    ("dccc", "addd", Blenders(1)),
    ("addd", "dccc", Gauges(1)),
    ("badc", "jcdc", Gauges(1)),
    // Equal ratios.
    ("abc", "fbc", Blenders(1)),
    ("fbc", "abc", Blenders(1)),
    ("abc", "gbc", Blenders(1)),
    ("gbc", "abc", Blenders(1)),
    ("abc", "hbc", Blenders(1)),
    ("hbc", "abc", Blenders(1)),
    ("abc", "ibc", Blenders(1)),
    ("ibc", "abc", Blenders(1)),
    ("bafa", "baab", Blenders(14)),
    ("baab", "bafa", Blenders(14)),
    ("agd", "afc", Blenders(7)),
    ("afc", "agd", Blenders(7)),
    // Equal ratios, and later ones that are not: the later ones do not matter.
    ("abcg", "abci", Blenders(22)),
    ("afc", "aad", Blenders(7)),
    ("aad", "afc", Blenders(7)),
    ("hc", "gd", Blenders(1)),
    ("gd", "hc", Blenders(1)),
    // A different entry, with which one recording ends.
    ("a", "fb", Blenders(1)),
    ("fb", "a", Blenders(1)),
    ("ba", "bfcc", Blenders(8)),
    ("bfcc", "ba", Blenders(8)),
    ("d", "abc", Blenders(1)),
    ("abc", "d", Gauges(1)),
    ("c", "dab", Gauges(1)),
    ("dab", "c", Blenders(1)),
    ("aj", "aabc", Blenders(7)),
    ("aabc", "aj", Gauges(7)),
    ("aa", "ajbc", Gauges(7)),
    ("ajbc", "aa", Blenders(7)),
    ("cccj", "ccca", Blenders(25)),
    ("ccca", "cccj", Gauges(25)),
];

/// Pairs of counts, in front of which the same entries follow at the same byte or not.
const COUNTS: [(usize, usize); 22] = [
    (1, 1),
    (1, 2),
    (2, 1),
    (3, 3),
    (3, 5),
    (5, 3),
    (126, 127),
    (127, 127),
    (127, 128),
    (128, 127),
    (128, 128),
    (129, 126),
    (5, 128),
    (128, 5),
    (300, 127),
    (127, 300),
    (1, 2_000),
    (2_000, 1),
    (2_000, 127),
    (1_999, 2_000),
    (2_000, 1_999),
    (2_000, 2_000),
];

/// Values of minutes, litres and product that are different.
const OTHERS: [(usize, u32, u32); 18] = [
    (0, 14, 15),
    (0, 0, 1_440),
    (0, 127, 128),
    (0, 128, 256),
    (0, 1_439, 1_440),
    (0, 5, 261),
    (1, 19_999, 20_000),
    (1, 0, 100_000),
    (1, 127, 128),
    (1, 129, 256),
    (1, 16_383, 16_384),
    (1, 16_385, 32_768),
    (1, 20, 65_556),
    (1, 99_999, 100_000),
    (3, 1, 2),
    (3, 1, 8),
    (3, 4, 5),
    (3, 7, 8),
];

/// Ratios with the smaller one first.
const RATIO_PAIRS: [(u32, u32); 12] = [
    (609, 610),
    (0, 1),
    (0, 10_000),
    (127, 128),
    (129, 256),
    (255, 256),
    (1, 256),
    (200, 300),
    (9_999, 10_000),
    (16, 10_000),
    (9_983, 9_984),
    (5, 133),
];

/// Ratios at the ends of the range, on both sides of where bytes or bits get more, and such whose bytes are in another order.
const RATIOS: [u32; 44] = [
    0, 1, 2, 3, 15, 16, 17, 63, 64, 126, 127, 128, 129, 130, 191, 192, 254, 255, 256, 257, 258, 383, 384, 511, 512, 513, 1_023,
    1_024, 2_047, 2_048, 4_095, 4_096, 4_224, 8_191, 8_192, 8_193, 8_320, 9_872, 9_983, 9_984, 9_985, 9_998, 9_999, 10_000,
];

/// The entry that stands before and after the different one: 15 minutes, 20,000 litres at 6.1 percent of product 2.
const FILLING: [u32; 4] = [15, 20_000, 610, 2];

/// How many bytes that is.
const FILLING_BYTES: usize = 7;

/// Recordings of more entries than this are compared in fewer ways.
const MANY: usize = 500;

/// The bytes of a recording of these entries.
fn recording(entries: &[[u32; 4]]) -> Vec<u8> {
    let numbers = [entries.len() as u32].into_iter().chain(entries.iter().flatten().copied());
    numbers.flat_map(bytes_of).collect()
}

/// How many bytes a count has.
fn bytes_of_count(count: usize) -> usize {
    if count < 128 {
        1
    } else {
        2
    }
}

/// The bytes of so many entries that are all alike.
fn alike(count: usize, entry: &[u8]) -> Vec<u8> {
    [bytes_of(count as u32), entry.repeat(count)].concat()
}

/// A recording of so many entries, of which one is not the filling.
fn filled(count: usize, place: usize, entry: [u32; 4]) -> Vec<u8> {
    let mut entries = vec![FILLING; count];
    entries[place] = entry;
    recording(&entries)
}

/// The filling with another value in one number.
fn with_value(number: usize, value: u32) -> [u32; 4] {
    let mut entry = FILLING;
    entry[number] = value;
    entry
}

/// The first place of so many entries, one in the middle and the last one.
fn places(count: usize) -> Vec<usize> {
    let mut places = vec![0, count / 2, count - 1];
    places.dedup();
    places
}

/// A pair whose strings lie apart from one another in memory.
fn compares(case: &str, both: &mut Both, blender: &[u8], gauge: &[u8], is: Is) -> Result<(), String> {
    expect(case, both.compare_recordings(blender, gauge), is.answer(blender, gauge))
}

/// A pair whose strings lie apart from one another in memory, or where the second one follows the first at once, whichever it is.
fn compares_anywhere(case: &str, both: &mut Both, blender: &[u8], gauge: &[u8], is: Is) -> Result<(), String> {
    compares(case, both, blender, gauge, is)?;
    let answer = is.answer(blender, gauge);
    let bytes = blender.len() + gauge.len();
    let answered = both.compare_recordings_in(&[blender, gauge].concat(), 0..blender.len(), blender.len()..bytes);
    expect(&format!("{case}, the gauge's right after the blender's"), answered, answer)?;
    let answered = both.compare_recordings_in(&[gauge, blender].concat(), gauge.len()..bytes, 0..gauge.len());
    expect(&format!("{case}, the blender's right after the gauge's"), answered, answer)
}

/// The pairs that are written out above.
fn examples(both: &mut Both) -> Result<(), String> {
    for (blender, gauge, is, length) in EXAMPLES {
        let case = format!("example {blender:x?} and {gauge:x?}");
        if is.answer(blender, gauge).map(|part| part.length) != Ok(length) {
            return Err(format!("{case}: the length {length} does not go to the end"));
        }
        compares_anywhere(&case, both, blender, gauge, is)?;
    }
    // The example of the header's shift, whose entries begin at 1 and 7, with 609 in the place of the last ratio, 610.
    let mut other = EXAMPLE_VOLUME;
    other[11] = 0xE1;
    compares_anywhere("example with a smaller ratio in the gauge's", both, &EXAMPLE_VOLUME, &other, Gauges(7))?;
    compares_anywhere("example with a smaller ratio in the blender's", both, &other, &EXAMPLE_VOLUME, Blenders(7))
}

/// A recording of entries that are given by their letters.
fn of_letters(letters: &str) -> Vec<u8> {
    let entry = |letter: char| LETTERS.iter().find(|(of, _, _)| *of == letter).unwrap().2;
    let entries: Vec<u8> = letters.chars().flat_map(|letter| entry(letter).to_vec()).collect();
    [bytes_of(letters.len() as u32), entries].concat()
}

/// The sequences that are written out above. After a long beginning that is the same in both, the answer is the same recording, so
/// many bytes later.
fn sequences(both: &mut Both) -> Result<(), String> {
    for (letter, numbers, bytes) in LETTERS {
        if numbers.into_iter().flat_map(bytes_of).collect::<Vec<u8>>() != bytes {
            return Err(format!("entry {letter} has other bytes than {bytes:x?}"));
        }
    }
    for (blender, gauge, is) in SEQUENCES {
        compares_anywhere(&format!("{blender} and {gauge}"), both, &of_letters(blender), &of_letters(gauge), is)?;
        for (letter, size, times) in [("e", 5, 1), ("d", 4, 122), ("a", 6, 123), ("c", 8, 125), ("b", 7, 130), ("c", 8, 1_990)] {
            let before = letter.repeat(times);
            let count_after = |letters: &str| bytes_of_count(times + letters.len()) - 1 + size * times;
            let is = match is {
                Blenders(from) => Blenders(from + count_after(blender)),
                Gauges(from) => Gauges(from + count_after(gauge)),
                Refused(refusal) => Refused(refusal),
            };
            let strings = [blender, gauge].map(|letters| of_letters(&(before.clone() + letters)));
            let case = format!("{blender} and {gauge} after {letter} {times} times");
            compares(&case, both, &strings[0], &strings[1], is)?;
        }
    }
    Ok(())
}

/// The same recording twice: the empty end of the blender's. Once the two are one buffer.
fn the_same(both: &mut Both) -> Result<(), String> {
    let three = three_with_all(&[]);
    let mut strings = vec![three, EXAMPLE_VOLUME.to_vec(), of_letters("abcdefghij")];
    for count in [0, 1, 2, 126, 127, 128, 129, 1_000, 1_999, 2_000] {
        strings.extend([&SMALLEST.1[..], LETTERS[1].2, &LARGEST.1].map(|entry| alike(count, entry)));
    }
    for string in strings {
        let (case, bytes) = (format!("the same {} bytes", string.len()), string.len());
        compares_anywhere(&case, both, &string, &string, Blenders(bytes))?;
        let answered = both.compare_recordings_in(&string, 0..bytes, 0..bytes);
        expect(&format!("{case} in one buffer"), answered, Blenders(bytes).answer(&string, &string))?;
    }
    Ok(())
}

/// One recording is a beginning of the other.
fn ended(both: &mut Both) -> Result<(), String> {
    let counts = [0, 1, 2, 126, 127, 128, 129, 1_000, 1_998, 1_999, 2_000];
    for (shorter, longer) in counts.into_iter().flat_map(|shorter| counts.map(|longer| (shorter, longer))) {
        if shorter >= longer {
            continue;
        }
        for entry in [&SMALLEST.1[..], LETTERS[1].2, &LARGEST.1] {
            let case = format!("{shorter} and {longer} entries of {} bytes", entry.len());
            let strings = [shorter, longer].map(|count| alike(count, entry));
            let from = bytes_of_count(longer) + shorter * entry.len();
            compares(&format!("{case}, the gauge's longer"), both, &strings[0], &strings[1], Gauges(from))?;
            compares(&format!("{case}, the blender's longer"), both, &strings[1], &strings[0], Blenders(from))?;
        }
    }
    for length in 0..10 {
        let letters = "abcdefghij";
        let strings = [&letters[..length], letters].map(of_letters);
        let from = 1 + LETTERS[..length].iter().map(|(_, _, bytes)| bytes.len()).sum::<usize>();
        compares_anywhere(&format!("{length} of ten entries in the blender's"), both, &strings[0], &strings[1], Gauges(from))?;
        compares_anywhere(&format!("{length} of ten entries in the gauge's"), both, &strings[1], &strings[0], Blenders(from))?;
    }
    Ok(())
}

/// One number is different in one entry: the first one, one in the middle or the last one of the shorter recording. Each recording
/// has each of the two values.
fn one_number(both: &mut Both) -> Result<(), String> {
    for (of_blender, of_gauge) in COUNTS {
        let is_long = of_blender.max(of_gauge) > MANY;
        let step = if is_long { 5 } else { 1 };
        for place in places(of_blender.min(of_gauge)) {
            let [from_blender, from_gauge] = [of_blender, of_gauge].map(|count| bytes_of_count(count) + place * FILLING_BYTES);
            let mut compare = |entry: [u32; 4], other: [u32; 4], is: Is| {
                let case = format!("{of_blender} and {of_gauge} entries, in place {place} {entry:?} and {other:?}");
                compares(&case, both, &filled(of_blender, place, entry), &filled(of_gauge, place, other), is)
            };
            for (number, value, other) in OTHERS.into_iter().step_by(step) {
                let [entry, other] = [value, other].map(|value| with_value(number, value));
                compare(entry, other, Blenders(from_blender))?;
                compare(other, entry, Blenders(from_blender))?;
            }
            for (smaller, greater) in RATIO_PAIRS.into_iter().step_by(step) {
                let [smaller, greater] = [smaller, greater].map(|value| with_value(2, value));
                compare(smaller, greater, Blenders(from_blender))?;
                compare(greater, smaller, Gauges(from_gauge))?;
            }
        }
    }
    Ok(())
}

/// One bit of one number is different.
fn one_bit(both: &mut Both) -> Result<(), String> {
    // How many bits a number has, and two values of which each bit can change, but for a product of 0.
    for (number, bits, bases) in [(0, 11, [0, 340]), (1, 17, [0, 20_000]), (2, 14, [0, 682]), (3, 3, [1, 2])] {
        for (bit, base) in (0..bits).flat_map(|bit| bases.map(|base| (bit, base))) {
            let other = base ^ 1 << bit;
            if number == 3 && other == 0 {
                continue;
            }
            let case = format!("{base} and {other} as number {number}");
            let strings = [base, other].map(|value| recording(&[with_value(number, value)]));
            let (is, swapped) = match number {
                2 if base < other => (Blenders(1), Gauges(1)),
                2 => (Gauges(1), Blenders(1)),
                _ => (Blenders(1), Blenders(1)),
            };
            compares_anywhere(&case, both, &strings[0], &strings[1], is)?;
            compares_anywhere(&case, both, &strings[1], &strings[0], swapped)?;
        }
    }
    Ok(())
}

/// Every two ratios of the list above, and every ratio with the next one, in both directions.
fn ratios(both: &mut Both) -> Result<(), String> {
    let of_one = |ratio: u32| recording(&[[0, 100, ratio, 1]]);
    for (ratio, other) in RATIOS.into_iter().flat_map(|ratio| RATIOS.map(|other| (ratio, other))) {
        let strings = [ratio, other].map(of_one);
        let is = if ratio < other {
            Blenders(1)
        } else if ratio > other {
            Gauges(1)
        } else {
            Blenders(strings[0].len())
        };
        compares_anywhere(&format!("ratios {ratio} and {other}"), both, &strings[0], &strings[1], is)?;
    }
    for ratio in 0..10_000 {
        let strings = [ratio, ratio + 1].map(of_one);
        compares(&format!("ratio {ratio} and one more"), both, &strings[0], &strings[1], Blenders(1))?;
        compares(&format!("ratio {ratio} and one less"), both, &strings[1], &strings[0], Gauges(1))?;
    }
    Ok(())
}

/// Each number of an entry is the same in both recordings, smaller in the blender's or smaller in the gauge's, in any combination.
/// The entry stands in each of three places. The entries after it are the same, or the ratio of each is smaller in the recording
/// that is not handed back.
fn directions(both: &mut Both) -> Result<(), String> {
    let values = [[(3, 200), (50, 20_000), (127, 128), (1, 8)], [(0, 1), (99_999, 100_000), (129, 256), (7, 8)]];
    for (combination, values) in (0..81).flat_map(|combination| values.map(|values| (combination, values))) {
        let directions = [1, 3, 9, 27].map(|power| combination / power % 3);
        let [mut entry, mut other] = [[0; 4]; 2];
        for number in 0..4 {
            let (smaller, greater) = values[number];
            (entry[number], other[number]) = [(smaller, smaller), (smaller, greater), (greater, smaller)][directions[number]];
        }
        let [smaller, greater] = [[0, 9, 0, 1], [0, 1, 9_000, 1]];
        for place in 0..3 {
            let from = 1 + place * FILLING_BYTES;
            let beginning = vec![FILLING; place];
            let is_different = entry != other;
            let is = if directions[2] == 2 { Gauges(from) } else { Blenders(from) };
            let after = if directions[2] == 2 { [smaller, greater] } else { [greater, smaller] };
            let case = format!("{entry:?} and {other:?} in place {place}");
            let mut compare = |after: &[[u32; 4]], other_after: &[[u32; 4]], is: Is| {
                let strings = [(entry, after), (other, other_after)]
                    .map(|(entry, after)| recording(&[&beginning[..], &[entry], after].concat()));
                let case = format!("{case}, {after:?} and {other_after:?} after it");
                compares(&case, both, &strings[0], &strings[1], is)
            };
            // Where the entries are the same, the next ones are compared.
            let bytes = entry.into_iter().flat_map(bytes_of).count();
            let next = |same: Is| if is_different { is } else { same };
            compare(&[], &[], next(Blenders(from + bytes)))?;
            compare(&[FILLING], &[], next(Blenders(from + bytes)))?;
            compare(&[], &[FILLING], next(Gauges(from + bytes)))?;
            compare(&[FILLING], &[FILLING], next(Blenders(from + bytes + FILLING_BYTES)))?;
            compare(&[after[0]; 2], &[after[1]; 2], next(Gauges(from + bytes)))?;
            compare(&[after[0]; 3], &[after[1]], next(Gauges(from + bytes)))?;
            compare(&[after[0]], &[after[1]; 3], next(Gauges(from + bytes)))?;
        }
    }
    Ok(())
}

/// Long recordings of entries that are all different, with one changed entry in places all along, or with one entry missing there.
fn all_along(both: &mut Both) -> Result<(), String> {
    let entries: Vec<[u32; 4]> = (0..2_000).map(|k| [k % 1_441, k * 37 % 100_001, k * 11 % 10_001, 1 + k % 8]).collect();
    let ends: Vec<usize> = (0..=2_000).map(|count| recording(&entries[..count]).len() - bytes_of_count(count)).collect();
    for place in (0..2_000).step_by(71).chain([1, 62, 63, 126, 127, 128, 255, 256, 257, 909, 1_024, 1_818, 1_998, 1_999]) {
        let [mut smaller, mut other_litres] = [entries[place]; 2];
        let mut without = entries.clone();
        without.remove(place);
        // In the first entry the ratio is 0 already, and only the products are different.
        smaller[2] = smaller[2].saturating_sub(1);
        smaller[3] = 9 - smaller[3];
        other_litres[1] ^= 1;
        let changed = |entry: [u32; 4], count: usize| {
            let mut entries = entries[..count].to_vec();
            entries[place] = entry;
            recording(&entries)
        };
        let (whole, case) = (recording(&entries), format!("place {place} of 2,000"));
        let from = 2 + ends[place];
        let count = (place + 1).max(100);
        let from_shorter = bytes_of_count(count) + ends[place];
        let is_smaller = smaller[2] < entries[place][2];
        let is = |of_gauge: usize| if is_smaller { Gauges(of_gauge) } else { Blenders(from) };
        compares(&format!("{case}, gauge's smaller"), both, &whole, &changed(smaller, 2_000), is(from))?;
        compares(&format!("{case}, blender's smaller"), both, &changed(smaller, 2_000), &whole, Blenders(from))?;
        compares(&format!("{case}, shorter"), both, &whole, &changed(smaller, count), is(from_shorter))?;
        compares(&format!("{case}, shorter"), both, &changed(smaller, count), &whole, Blenders(from_shorter))?;
        compares(&format!("{case}, litres"), both, &whole, &changed(other_litres, 2_000), Blenders(from))?;
        compares(&format!("{case}, litres"), both, &changed(other_litres, 2_000), &whole, Blenders(from))?;
        // The next entry is in the place of the missing one. Its ratio is greater, but for places 909 and 1,818, after which the
        // ratios begin again with 9 and 7; after the last place the recording has ended.
        let next_is_smaller = place == 909 || place == 1_818;
        let (is, swapped) = if next_is_smaller { (Gauges(from), Blenders(from)) } else { (Blenders(from), Gauges(from)) };
        let missing = recording(&without);
        compares(&format!("{case}, missing in the gauge's"), both, &whole, &missing, is)?;
        compares(&format!("{case}, missing in the blender's"), both, &missing, &whole, swapped)?;
    }
    Ok(())
}

/// Recordings of 16,002 bytes, the most that there are, with one number smaller in one entry of either.
fn longest(both: &mut Both) -> Result<(), String> {
    let whole = alike(2_000, &LARGEST.1);
    for (place, number) in [0, 1, 127, 128, 1_000, 1_998, 1_999].into_iter().flat_map(|place| [0, 1, 2, 3].map(|k| (place, k))) {
        let mut entries = vec![LARGEST.0; 2_000];
        entries[place][number] -= 1;
        let (other, from) = (recording(&entries), 2 + 8 * place);
        if whole.len() != 16_002 || other.len() != 16_002 {
            return Err(format!("the longest recordings have {} and {} bytes", whole.len(), other.len()));
        }
        let case = format!("number {number} of entry {place} of the longest recordings");
        let smaller_in_gauge = if number == 2 { Gauges(from) } else { Blenders(from) };
        compares(&format!("{case}, gauge's smaller"), both, &whole, &other, smaller_in_gauge)?;
        compares(&format!("{case}, blender's smaller"), both, &other, &whole, Blenders(from))?;
    }
    Ok(())
}

/// A pair of which one string is refused, in both orders.
fn one_is_refused(case: &str, both: &mut Both, string: &[u8], other: &[u8], refusal: u64) -> Result<(), String> {
    compares(&format!("{case} in the blender's"), both, string, other, Refused(refusal))?;
    compares(&format!("{case} in the gauge's"), both, other, string, Refused(refusal))
}

/// Faults in each number of the three entries, of one recording or of both. Of both, the blender's is refused, wherever it is.
fn refused(both: &mut Both) -> Result<(), String> {
    let three = three_with_all(&[]);
    // Recordings that have another entry in the first place, with the smaller ratio or the greater one, or in the last place.
    let others = [
        three.clone(),
        three_with(3, &[0x05]),
        three_with(3, &[0x90, 0x4E]),
        three_with(1, &[0x0E]),
        three_with(12, &[0x07]),
        three_with(11, &[0x05]),
        vec![0x00],
        EXAMPLE_VOLUME.to_vec(),
        alike(2_000, &SMALLEST.1),
    ];
    let all_faults: Vec<(usize, Vec<u8>, u64)> = (0..THREE.len())
        .flat_map(|place| faults(place).into_iter().map(move |(bytes, refusal)| (place, bytes, refusal)))
        .collect();
    for (place, bytes, refusal) in &all_faults {
        let case = format!("{bytes:x?} in place {place}");
        let string = three_with(*place, bytes);
        for other in &others {
            one_is_refused(&case, both, &string, other, *refusal)?;
        }
        for (other_place, other_bytes, _) in &all_faults {
            let case = format!("{case} of the blender's, {other_bytes:x?} in place {other_place} of the gauge's");
            compares(&case, both, &string, &three_with(*other_place, other_bytes), Refused(*refusal))?;
        }
        // The string ends with the number at fault: it is at fault all the same.
        let ended = &string[..three_start(*place) + bytes.len()];
        one_is_refused(&format!("{case} at the end"), both, ended, &three, *refusal)?;
        for cut in [&three[..1], &three[..8], &three[..21], &[]] {
            compares(&format!("{case} of the blender's, the gauge's cut"), both, &string, cut, Refused(*refusal))?;
            compares(&format!("{case} of the gauge's, the blender's cut"), both, cut, &string, Refused(16))?;
        }
    }
    // 14, 15 and 16, each in each recording.
    let strings = [(three_with(12, &[0x81, 0x00]), 14), (three_with(12, &[0x09]), 15), (three[..21].to_vec(), 16)];
    for ((blender, refusal), (gauge, other)) in strings.iter().flat_map(|pair| strings.iter().map(move |other| (pair, other))) {
        compares_anywhere(&format!("{refusal} and {other}"), both, blender, gauge, Refused(*refusal))?;
    }
    Ok(())
}

/// Recordings that end early or have bytes after their last entry: 16, also where the other one would be handed back.
fn ends(both: &mut Both) -> Result<(), String> {
    let three = three_with_all(&[]);
    let full = alike(2_000, &LARGEST.1);
    let others = [three.clone(), vec![0x00], three_with(3, &[0x05]), three_with(3, &[0x90, 0x4E]), three_with(12, &[0x01])];
    for other in &others {
        for length in 0..three.len() {
            one_is_refused(&format!("cut to {length}"), both, &three[..length], other, 16)?;
        }
        for after in [&[0x00][..], &[0x01], &[0x08], &[0x80], &[0x80, 0x80, 0x80], &SMALLEST.1, &LARGEST.1, &three] {
            one_is_refused(&format!("{after:x?} after it"), both, &[&three, after].concat(), other, 16)?;
            one_is_refused(&format!("{after:x?} after no entries"), both, &[&[0x00], after].concat(), other, 16)?;
        }
        // Lengths that are right when only their lowest 8 or 16 bits are looked at.
        for more in [256, 65_536] {
            one_is_refused(&format!("{more} bytes after it"), both, &[&three[..], &vec![0x00; more]].concat(), other, 16)?;
        }
        // One entry more or fewer than the count says.
        for count in [0x00, 0x01, 0x02, 0x04, 0x7F] {
            one_is_refused(&format!("count {count}"), both, &three_with(0, &[count]), other, 16)?;
        }
        for less in [1, 2, 7, 8, 9] {
            one_is_refused(&format!("full one, {less} bytes fewer"), both, &full[..full.len() - less], other, 16)?;
        }
        one_is_refused("full one with a byte more", both, &[&full[..], &[0x00]].concat(), other, 16)?;
        one_is_refused("2,001 entries", both, &[&[0xD1, 0x0F], &SMALLEST.1.repeat(2_001)[..]].concat(), other, 15)?;
    }
    // Two strings with the same fault are the same up to their ends.
    for string in [&[][..], &three[..21], &[&three[..], &[0x00]].concat(), &full[..16_001], &[&full[..], &[0x08]].concat()] {
        compares_anywhere("the same ends", both, string, string, Refused(16))?;
        let answered = both.compare_recordings_in(string, 0..string.len(), 0..string.len());
        expect("the same ends in one buffer", answered, Err(16))?;
    }
    // The last entry of 2,000 is at fault, and the others are the same.
    for (last, refusal) in [([0x00], 15), ([0x09], 15), ([0x88], 16)] {
        let string = [&full[..16_001], &last].concat();
        one_is_refused(&format!("{last:x?} at the end of a full one"), both, &string, &full, refusal)?;
        one_is_refused(&format!("{last:x?} at the end of a full one"), both, &string, &alike(1_999, &LARGEST.1), refusal)?;
        one_is_refused(&format!("{last:x?} at the end of a full one"), both, &string, &alike(2_000, &SMALLEST.1), refusal)?;
    }
    Ok(())
}

/// Recordings that share bytes in memory, with what is handed back.
fn overlapping(both: &mut Both) -> Result<(), String> {
    let mut within = |memory: &[u8], [from, to]: [usize; 2], [other_from, other_to]: [usize; 2], is: Is, swapped: Is| {
        let (string, other) = (&memory[from..to], &memory[other_from..other_to]);
        let case = format!("{string:x?} and {other:x?} in {memory:x?}");
        expect(&case, both.compare_recordings_in(memory, from..to, other_from..other_to), is.answer(string, other))?;
        let answered = both.compare_recordings_in(memory, other_from..other_to, from..to);
        expect(&format!("{case}, swapped"), answered, swapped.answer(other, string))
    };
    // Two entries of ratio 0; in them a recording with one entry of ratio 1.
    let memory = [0x02, 0x01, 0x00, 0x00, 0x01, 0x01, 0x00, 0x00, 0x01];
    within(&memory, [0, 9], [1, 6], Blenders(1), Gauges(1))?;
    // The first byte of an entry is a recording of no entries.
    let memory = [0x01, 0x00, 0x00, 0x00, 0x01];
    within(&memory, [0, 5], [1, 2], Blenders(1), Gauges(1))?;
    within(&memory, [1, 2], [3, 4], Blenders(1), Blenders(1))?;
    // The product of an entry of ratio 7 is the count of a recording with an entry of ratio 4.
    let memory = [0x01, 0x05, 0x06, 0x07, 0x01, 0x02, 0x03, 0x04, 0x05];
    within(&memory, [0, 5], [4, 9], Gauges(1), Blenders(1))?;
    // The same entry twice, of which the other recording has one: it begins in the first one and ends in the second.
    let memory = [0x02, 0x01, 0x01, 0x01, 0x01, 0x01, 0x01, 0x01, 0x01];
    within(&memory, [0, 9], [1, 6], Blenders(5), Gauges(5))?;
    within(&memory, [0, 9], [4, 9], Blenders(5), Gauges(5))?;
    within(&memory, [1, 6], [4, 9], Blenders(5), Blenders(5))?;
    // Equal ratios: the blender's, whichever it is.
    let memory = [0x02, 0x01, 0x02, 0x00, 0x01, 0x01, 0x00, 0x00, 0x08];
    within(&memory, [0, 9], [4, 9], Blenders(1), Blenders(1))?;
    // A part of the other that is cut, or that has a byte more.
    let memory = [0x02, 0x01, 0x01, 0x01, 0x01, 0x01, 0x01, 0x01, 0x01, 0x01];
    within(&memory, [0, 9], [1, 5], Refused(16), Refused(16))?;
    within(&memory, [0, 9], [1, 7], Refused(16), Refused(16))?;
    within(&memory, [0, 10], [1, 6], Refused(16), Refused(16))?;
    within(&memory, [0, 8], [0, 9], Refused(16), Refused(16))?;
    within(&memory, [0, 9], [0, 0], Refused(16), Refused(16))?;
    within(&memory, [0, 9], [9, 9], Refused(16), Refused(16))?;
    // A long recording and a short one in its end, both of the same entries.
    let memory = alike(2_000, &[0x05, 0x05, 0x05, 0x05]);
    within(&memory, [0, 8_002], [8_002 - 21, 8_002], Blenders(22), Gauges(22))
}

/// Bytes that lie in memory before and after the strings are not part of them.
fn bytes_beyond(both: &mut Both) -> Result<(), String> {
    let mut compare = |parts: [&[u8]; 5], is: Is| {
        let [before, string, between, other, after] = parts;
        let case = format!("{before:x?}, {string:x?}, {between:x?}, {other:x?}, {after:x?}");
        let memory = parts.concat();
        let start = before.len() + string.len() + between.len();
        let (first, second) = (before.len()..before.len() + string.len(), start..start + other.len());
        let answered = both.compare_recordings_in(&memory, first.clone(), second.clone());
        expect(&case, answered, is.answer(string, other))?;
        // The same with the strings in the other order in memory.
        let memory = [before, other, after, string, between].concat();
        let start = before.len() + other.len() + after.len();
        let (first, second) = (before.len()..before.len() + other.len(), start..start + string.len());
        let answered = both.compare_recordings_in(&memory, second, first);
        expect(&format!("{case}, the gauge's first"), answered, is.answer(string, other))
    };
    let three = three_with_all(&[]);
    // What is cut off follows.
    for length in 0..three.len() {
        let (cut, rest) = three.split_at(length);
        for other in [&three[..], &EXAMPLE_VOLUME, &[0x00]] {
            compare([&[], cut, rest, other, &[]], Refused(16))?;
            compare([&[], other, &[], cut, rest], Refused(16))?;
            compare([&[0x00], cut, rest, cut, rest], Refused(16))?;
        }
        compare([&[], cut, &[], rest, &[]], Refused(16))?;
    }
    // The other recording follows at once, and would complete the cut one: with its count as product, or with its entries.
    compare([&[], &[0x01, 0x05, 0x06, 0x07], &[], &[0x01, 0x00, 0x00, 0x00, 0x01], &[]], Refused(16))?;
    compare([&[], &[0x01, 0x00, 0x00, 0x00, 0x01], &[], &[0x01, 0x05, 0x06, 0x07], &[]], Refused(16))?;
    compare([&[], &[0x01, 0x00, 0x00, 0x00, 0x01], &[], &[0x01, 0x05, 0x06, 0x07], &[0x01]], Refused(16))?;
    compare([&[], &[0x02, 0x05, 0x06, 0x07, 0x08], &[], &[0x00], &[0x06, 0x07, 0x08]], Refused(16))?;
    // Something follows a recording or lies before it: bytes of any kind, or entries with which the other goes on.
    for around in [&[0x00][..], &[0x01], &[0x80], &[0xFF, 0xFF, 0xFF], &SMALLEST.1, &LARGEST.1, &three] {
        for (blender, gauge, is) in SEQUENCES {
            let (blender, gauge) = (of_letters(blender), of_letters(gauge));
            compare([around, &blender, around, &gauge, around], is)?;
        }
        compare([around, &three, around, &three, around], Blenders(22))?;
        compare([around, &[0x00], around, &[0x00], around], Blenders(1))?;
        compare([around, &[], around, &three, around], Refused(16))?;
        compare([around, &three, around, &[], around], Refused(16))?;
    }
    let [one, two, third] = [of_letters("ab"), of_letters("abc"), LETTERS[2].2.to_vec()];
    compare([&[], &one, &third, &two, &[]], Gauges(14))?;
    compare([&[], &one, &third, &two, &third], Gauges(14))?;
    compare([&[], &two, &third, &one, &third], Blenders(14))?;
    compare([&[], &one, &third, &one, &third], Blenders(14))?;
    compare([&[], &one, &third, &one, &SMALLEST.1], Blenders(14))
}

/// All made cases about two recordings; the result is the text of the first difference.
pub fn run(tally: &mut Tally) -> Result<(), String> {
    let mut both = Both::new(Head { code: 1, word: 0x1337_8421, position: 77, mark: 80 }, vec![0x5AA5_C33C; 16], tally);
    examples(&mut both)?;
    sequences(&mut both)?;
    the_same(&mut both)?;
    ended(&mut both)?;
    one_number(&mut both)?;
    one_bit(&mut both)?;
    ratios(&mut both)?;
    directions(&mut both)?;
    all_along(&mut both)?;
    longest(&mut both)?;
    refused(&mut both)?;
    ends(&mut both)?;
    overlapping(&mut both)?;
    bytes_beyond(&mut both)
}
