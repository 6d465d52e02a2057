//! Cases made by hand about the soundness of strings, with the answer that request (j) of document 02 gives for each.

use crate::archive;
use crate::beginnings::{Beginnings, FirstBytes};
use crate::both::Both;
use crate::calls::Head;
use crate::made::expect;
use crate::soundness::{self, Soundness};
use crate::tally::Tally;
use crate::volume;
use crate::volumes::{bytes_of, three_start, three_with, three_with_all, EXAMPLE_VOLUME, LARGEST, SMALLEST, THREE};
use Is::{Begun, Lost, Whole};
use Soundness::{Cut, Hopeless, Sound};

/// What bytes are in the place of a number.
#[derive(Clone, Copy, PartialEq, Debug)]
enum Is {
    /// A number in its range.
    Whole,
    /// The first groups of a number in its range, but not all of them.
    Begun,
    /// Neither of these from this byte on.
    Lost(usize),
}

/// What bytes are in the place of the count. 2,000 is 0xD0 0x0F.
const COUNTS: [(&[u8], Is); 30] = [
    (&[0x00], Whole),
    (&[0x01], Whole),
    (&[0x02], Whole),
    (&[0x03], Whole),
    (&[0x04], Whole),
    (&[0x7F], Whole),
    (&[0x80], Begun),
    (&[0xD0], Begun),
    (&[0xD1], Begun),
    (&[0xFF], Begun),
    (&[0x80, 0x00], Lost(2)),
    (&[0xFF, 0x00], Lost(2)),
    (&[0x80, 0x01], Whole),
    (&[0xFF, 0x0E], Whole),
    (&[0x80, 0x0F], Whole),
    (&[0xCF, 0x0F], Whole),
    (&[0xD0, 0x0F], Whole),
    (&[0xD1, 0x0F], Lost(2)),
    (&[0xFF, 0x0F], Lost(2)),
    (&[0x80, 0x10], Lost(2)),
    (&[0xFF, 0x7F], Lost(2)),
    (&[0x80, 0x80], Lost(2)),
    (&[0xD0, 0x8F], Lost(2)),
    (&[0xFF, 0xFF], Lost(2)),
    (&[0x80, 0x80, 0x00], Lost(2)),
    (&[0x80, 0x80, 0x01], Lost(2)),
    (&[0xD0, 0x8F, 0x00], Lost(2)),
    (&[0x80, 0x80, 0x80], Lost(2)),
    (&[0x83, 0x80, 0x80, 0x00], Lost(2)),
    (&[0xFF, 0xFF, 0xFF, 0xFF], Lost(2)),
];

/// What bytes are in the place of minutes. 1,440 is 0xA0 0x0B.
const MINUTES: [(&[u8], Is); 40] = [
    (&[0x00], Whole),
    (&[0x01], Whole),
    (&[0x7F], Whole),
    (&[0x80], Begun),
    (&[0x9F], Begun),
    (&[0xA0], Begun),
    (&[0xA1], Begun),
    (&[0xFF], Begun),
    (&[0x80, 0x00], Lost(2)),
    (&[0xA0, 0x00], Lost(2)),
    (&[0xFF, 0x00], Lost(2)),
    (&[0x80, 0x01], Whole),
    (&[0xFF, 0x01], Whole),
    (&[0x9F, 0x0A], Whole),
    (&[0xA0, 0x0A], Whole),
    (&[0xA1, 0x0A], Whole),
    (&[0xFF, 0x0A], Whole),
    (&[0x80, 0x0B], Whole),
    (&[0x9F, 0x0B], Whole),
    (&[0xA0, 0x0B], Whole),
    (&[0xA1, 0x0B], Lost(2)),
    (&[0xFF, 0x0B], Lost(2)),
    (&[0x80, 0x0C], Lost(2)),
    (&[0x9F, 0x0C], Lost(2)),
    (&[0xA0, 0x0C], Lost(2)),
    (&[0xA1, 0x0C], Lost(2)),
    (&[0xFF, 0x7F], Lost(2)),
    (&[0x80, 0x80], Lost(2)),
    (&[0x9F, 0x8A], Lost(2)),
    (&[0xA0, 0x8A], Lost(2)),
    (&[0xA1, 0x8B], Lost(2)),
    (&[0xA0, 0x8B], Lost(2)),
    (&[0x9F, 0x8C], Lost(2)),
    (&[0xFF, 0xFF], Lost(2)),
    (&[0x80, 0x80, 0x00], Lost(2)),
    (&[0xA0, 0x8B, 0x00], Lost(2)),
    (&[0x80, 0x80, 0x01], Lost(2)),
    (&[0xFF, 0xFF, 0x7F], Lost(2)),
    (&[0x80, 0x80, 0x80], Lost(2)),
    (&[0xA0, 0x8B, 0x80, 0x00], Lost(2)),
];

/// What bytes are in the place of litres. 100,000 is 0xA0 0x8D 0x06.
const LITRES: [(&[u8], Is); 60] = [
    (&[0x00], Whole),
    (&[0x01], Whole),
    (&[0x7F], Whole),
    (&[0x80], Begun),
    (&[0xA0], Begun),
    (&[0xFF], Begun),
    (&[0x80, 0x00], Lost(2)),
    (&[0xA0, 0x00], Lost(2)),
    (&[0xFF, 0x00], Lost(2)),
    (&[0x80, 0x01], Whole),
    (&[0xFF, 0x01], Whole),
    (&[0x80, 0x7F], Whole),
    (&[0xFF, 0x7F], Whole),
    (&[0x80, 0x80], Begun),
    (&[0xA0, 0x8D], Begun),
    (&[0xA1, 0x8D], Begun),
    (&[0xA0, 0x8E], Begun),
    (&[0x80, 0xFF], Begun),
    (&[0xFF, 0xFF], Begun),
    (&[0x80, 0x80, 0x00], Lost(3)),
    (&[0xA0, 0x8D, 0x00], Lost(3)),
    (&[0xFF, 0xFF, 0x00], Lost(3)),
    (&[0x80, 0x80, 0x01], Whole),
    (&[0xFF, 0xFF, 0x01], Whole),
    (&[0x9F, 0x8C, 0x05], Whole),
    (&[0xA0, 0x8D, 0x05], Whole),
    (&[0xA1, 0x8E, 0x05], Whole),
    (&[0xFF, 0xFF, 0x05], Whole),
    (&[0x80, 0x80, 0x06], Whole),
    (&[0x9F, 0x8C, 0x06], Whole),
    (&[0xA0, 0x8C, 0x06], Whole),
    (&[0xA1, 0x8C, 0x06], Whole),
    (&[0xFF, 0x8C, 0x06], Whole),
    (&[0x80, 0x8D, 0x06], Whole),
    (&[0x9F, 0x8D, 0x06], Whole),
    (&[0xA0, 0x8D, 0x06], Whole),
    (&[0xA1, 0x8D, 0x06], Lost(3)),
    (&[0xFF, 0x8D, 0x06], Lost(3)),
    (&[0x80, 0x8E, 0x06], Lost(3)),
    (&[0x9F, 0x8E, 0x06], Lost(3)),
    (&[0xA0, 0x8E, 0x06], Lost(3)),
    (&[0xA1, 0x8E, 0x06], Lost(3)),
    (&[0xFF, 0xFF, 0x06], Lost(3)),
    (&[0x80, 0x80, 0x07], Lost(3)),
    (&[0x9F, 0x8C, 0x07], Lost(3)),
    (&[0xA0, 0x8D, 0x07], Lost(3)),
    (&[0xA1, 0x8E, 0x07], Lost(3)),
    (&[0x80, 0x80, 0x08], Lost(3)),
    (&[0x80, 0x80, 0x7F], Lost(3)),
    (&[0xFF, 0xFF, 0x7F], Lost(3)),
    (&[0x80, 0x80, 0x80], Lost(3)),
    (&[0x80, 0x80, 0x81], Lost(3)),
    (&[0xA0, 0x8D, 0x85], Lost(3)),
    (&[0xA0, 0x8D, 0x86], Lost(3)),
    (&[0xA0, 0x8D, 0x87], Lost(3)),
    (&[0xFF, 0xFF, 0xFF], Lost(3)),
    (&[0x80, 0x80, 0x80, 0x00], Lost(3)),
    (&[0x80, 0x80, 0x80, 0x01], Lost(3)),
    (&[0xA0, 0x8D, 0x86, 0x00], Lost(3)),
    (&[0xFF, 0xFF, 0xFF, 0xFF], Lost(3)),
];

/// What bytes are in the place of a ratio. 10,000 is 0x90 0x4E.
const RATIOS: [(&[u8], Is); 40] = [
    (&[0x00], Whole),
    (&[0x01], Whole),
    (&[0x7F], Whole),
    (&[0x80], Begun),
    (&[0x8F], Begun),
    (&[0x90], Begun),
    (&[0x91], Begun),
    (&[0xFF], Begun),
    (&[0x80, 0x00], Lost(2)),
    (&[0x90, 0x00], Lost(2)),
    (&[0xFF, 0x00], Lost(2)),
    (&[0x80, 0x01], Whole),
    (&[0xFF, 0x01], Whole),
    (&[0x8F, 0x4D], Whole),
    (&[0x90, 0x4D], Whole),
    (&[0x91, 0x4D], Whole),
    (&[0xFF, 0x4D], Whole),
    (&[0x80, 0x4E], Whole),
    (&[0x8F, 0x4E], Whole),
    (&[0x90, 0x4E], Whole),
    (&[0x91, 0x4E], Lost(2)),
    (&[0xFF, 0x4E], Lost(2)),
    (&[0x80, 0x4F], Lost(2)),
    (&[0x8F, 0x4F], Lost(2)),
    (&[0x90, 0x4F], Lost(2)),
    (&[0x91, 0x4F], Lost(2)),
    (&[0xFF, 0x7F], Lost(2)),
    (&[0x80, 0x80], Lost(2)),
    (&[0x8F, 0xCD], Lost(2)),
    (&[0x90, 0xCD], Lost(2)),
    (&[0x90, 0xCE], Lost(2)),
    (&[0x91, 0xCE], Lost(2)),
    (&[0x8F, 0xCF], Lost(2)),
    (&[0xFF, 0xFF], Lost(2)),
    (&[0x80, 0x80, 0x00], Lost(2)),
    (&[0x90, 0xCE, 0x00], Lost(2)),
    (&[0x90, 0xCE, 0x01], Lost(2)),
    (&[0xFF, 0xFF, 0x7F], Lost(2)),
    (&[0x80, 0x80, 0x80], Lost(2)),
    (&[0x90, 0xCE, 0x80, 0x00], Lost(2)),
];

/// What bytes are in the place of a product.
const PRODUCTS: [(&[u8], Is); 24] = [
    (&[0x01], Whole),
    (&[0x02], Whole),
    (&[0x07], Whole),
    (&[0x08], Whole),
    (&[0x00], Lost(1)),
    (&[0x09], Lost(1)),
    (&[0x0A], Lost(1)),
    (&[0x10], Lost(1)),
    (&[0x7F], Lost(1)),
    (&[0x80], Lost(1)),
    (&[0x81], Lost(1)),
    (&[0x88], Lost(1)),
    (&[0xFF], Lost(1)),
    (&[0x80, 0x00], Lost(1)),
    (&[0x81, 0x00], Lost(1)),
    (&[0x88, 0x00], Lost(1)),
    (&[0x80, 0x01], Lost(1)),
    (&[0x81, 0x01], Lost(1)),
    (&[0x80, 0x80], Lost(1)),
    (&[0x81, 0x80, 0x00], Lost(1)),
    (&[0x81, 0x80, 0x01], Lost(1)),
    (&[0x80, 0x80, 0x80], Lost(1)),
    (&[0x81, 0x80, 0x80, 0x00], Lost(1)),
    (&[0xFF, 0xFF, 0xFF, 0xFF], Lost(1)),
];

/// What can follow a number that is lost.
const RESTS: [&[u8]; 8] =
    [&[0x00], &[0x01], &[0x7F], &[0x80], &[0x80, 0x00], &[0x80, 0x80, 0x80], &[0xFF; 5], &[0x00, 0x00, 0x00, 0x01]];

/// Damages of the largest entry, which is 0xA0 0x0B, 0xA0 0x8D 0x06, 0x90 0x4E, 0x08: the place of the byte, its other value, and
/// how many bytes of the entry are then the fewest that are hopeless, if any are. Some damages make other numbers of the bytes.
const DAMAGES: [(usize, u8, Option<usize>); 40] = [
    (0, 0x00, Some(4)),
    (0, 0x09, Some(4)),
    (0, 0x80, None),
    (0, 0xA1, Some(2)),
    (0, 0xFF, Some(2)),
    (1, 0x00, Some(2)),
    (1, 0x0A, None),
    (1, 0x0C, Some(2)),
    (1, 0x80, Some(2)),
    (1, 0x8B, Some(2)),
    (2, 0x00, Some(6)),
    (2, 0x20, Some(6)),
    (2, 0x80, None),
    (2, 0xA1, Some(5)),
    (2, 0xFF, Some(5)),
    (3, 0x00, Some(4)),
    (3, 0x0D, Some(6)),
    (3, 0x80, None),
    (3, 0x8E, Some(5)),
    (3, 0xFF, Some(5)),
    (4, 0x00, Some(5)),
    (4, 0x01, None),
    (4, 0x07, Some(5)),
    (4, 0x80, Some(5)),
    (4, 0x86, Some(5)),
    (5, 0x00, Some(7)),
    (5, 0x10, Some(7)),
    (5, 0x80, None),
    (5, 0x91, Some(7)),
    (5, 0xFF, Some(7)),
    (6, 0x00, Some(7)),
    (6, 0x4D, None),
    (6, 0x4F, Some(7)),
    (6, 0x80, Some(7)),
    (6, 0xCE, Some(7)),
    (7, 0x00, Some(8)),
    (7, 0x01, None),
    (7, 0x09, Some(8)),
    (7, 0x80, Some(8)),
    (7, 0x88, Some(8)),
];

/// Bytes that are at an edge in the place of some group.
pub const EDGES: [u8; 40] = [
    0x00, 0x01, 0x02, 0x05, 0x06, 0x07, 0x08, 0x09, 0x0A, 0x0B, 0x0C, 0x0E, 0x0F, 0x10, 0x4D, 0x4E, 0x4F, 0x7F, 0x80, 0x81, 0x82,
    0x8A, 0x8B, 0x8C, 0x8D, 0x8E, 0x8F, 0x90, 0x91, 0x9F, 0xA0, 0xA1, 0xCD, 0xCE, 0xCF, 0xD0, 0xD1, 0xD2, 0xFE, 0xFF,
];

/// Bytes at an edge in the third place of a number, or of the next one.
const THIRDS: [u8; 14] = [0x00, 0x01, 0x05, 0x06, 0x07, 0x08, 0x09, 0x0B, 0x4E, 0x7F, 0x80, 0x86, 0xCE, 0xFF];

/// The table above for the number in this place: 0 is the count, then there are four for each entry.
fn table_of(place: usize) -> &'static [(&'static [u8], Is)] {
    match place {
        0 => &COUNTS,
        _ => [&MINUTES[..], &LITRES, &RATIOS, &PRODUCTS][(place - 1) % 4],
    }
}

/// The soundness of a string whose beginning of so many bytes is followed by these, where the string ends with them.
fn at_end(start: usize, is: Is) -> Soundness {
    match is {
        Whole | Begun => Cut,
        Lost(byte) => Hopeless(start + byte),
    }
}

fn sound_as(case: &str, both: &mut Both, string: &[u8], expected: Soundness) -> Result<(), String> {
    expect(case, both.volume_soundness(string), Ok(expected))
}

/// The examples of the header and of request (j), the smallest volumes, counts alone, and the empty string.
fn examples(both: &mut Both) -> Result<(), String> {
    sound_as("first example", both, &[0x01, 0x00, 0x64, 0x90], Cut)?;
    sound_as("second example", both, &[0x01, 0x00, 0x64, 0x90, 0x4F], Hopeless(5))?;
    sound_as("third example", both, &[0x01, 0x00, 0x64, 0x90, 0xCE, 0x01], Hopeless(5))?;
    sound_as("example with its largest ratio", both, &[0x01, 0x00, 0x64, 0x90, 0x4E], Cut)?;
    sound_as("example as a volume", both, &[0x01, 0x00, 0x64, 0x90, 0x4E, 0x01], Sound)?;
    sound_as("second group of a ratio announces a third", both, &[0x01, 0x00, 0x64, 0x90, 0xCE], Hopeless(5))?;
    sound_as("empty string", both, &[], Cut)?;
    sound_as("no entries", both, &[0x00], Sound)?;
    sound_as("smallest entry", both, &[0x01, 0x00, 0x00, 0x00, 0x01], Sound)?;
    sound_as("example volume", both, &EXAMPLE_VOLUME, Sound)?;
    for byte in 0x01..=0xFF {
        sound_as(&format!("{byte:#x} alone"), both, &[byte], Cut)?;
    }
    for byte in 0x00..=0xFF {
        sound_as(&format!("{byte:#x} after no entries"), both, &[0x00, byte], Hopeless(2))?;
    }
    Ok(())
}

/// The soundness of the three entries with this count, which is in its range. The entries end at 8, 14 and 22 where the count has
/// one byte.
fn with_other_count(bytes: &[u8]) -> Soundness {
    match bytes {
        [0x00] => Hopeless(2),
        [0x01] => Hopeless(9),
        [0x02] => Hopeless(15),
        [0x03] => Sound,
        _ => Cut,
    }
}

/// These bytes in the place of a number of the three entries, where the string ends with them and where the other numbers follow.
fn in_place(both: &mut Both, place: usize, bytes: &[u8], is: Is) -> Result<(), String> {
    let start = three_start(place);
    let (ended, whole) = ([&three_with_all(&[])[..start], bytes].concat(), three_with(place, bytes));
    let case = format!("{bytes:x?} in place {place}");
    let is_all = is == Whole && (place + 1 == THREE.len() || ended == [0x00]);
    sound_as(&format!("{case} at the end"), both, &ended, if is_all { Sound } else { at_end(start, is) })?;
    match is {
        Whole if place == 0 => sound_as(&case, both, &whole, with_other_count(bytes)),
        Whole => sound_as(&case, both, &whole, Sound),
        Begun => Ok(()),
        Lost(byte) => sound_as(&case, both, &whole, Hopeless(start + byte)),
    }
}

/// The bytes of the tables in the place of each number of the three entries, also cut before and in them. Where they are lost, it
/// does not matter what follows.
fn numbers(both: &mut Both) -> Result<(), String> {
    for place in 0..THREE.len() {
        let start = three_start(place);
        for (bytes, is) in table_of(place) {
            in_place(both, place, bytes, *is)?;
            let string = three_with(place, bytes);
            for length in start..start + bytes.len() {
                let expected = match is {
                    Lost(byte) if start + byte <= length => Hopeless(start + byte),
                    _ => Cut,
                };
                sound_as(&format!("{bytes:x?} in place {place}, cut to {length}"), both, &string[..length], expected)?;
            }
            if let Lost(byte) = is {
                for rest in RESTS {
                    let case = format!("{bytes:x?} in place {place} before {rest:x?}");
                    let lost = &string[..start + bytes.len()];
                    sound_as(&case, both, &[lost, rest].concat(), Hopeless(start + byte))?;
                    sound_as(&format!("{case}, first"), both, &[&lost[..start + byte], rest].concat(), Hopeless(start + byte))?;
                }
            }
        }
    }
    Ok(())
}

/// Every first group of a count, minutes and a ratio with second groups around that of the largest value and at the ends, as the
/// last group and announcing a third. The largest values are 15 * 128 + 80, 11 * 128 + 32 and 78 * 128 + 16.
fn two_groups(both: &mut Both) -> Result<(), String> {
    for place in [0, 1, 3, 5, 7, 9, 11] {
        let number = volume::number_at(place).name;
        let seconds = match number {
            "count" => [0, 1, 14, 15, 16, 127],
            "minutes" => [0, 1, 10, 11, 12, 127],
            _ => [0, 1, 77, 78, 79, 127],
        };
        for first in 0..128 {
            in_place(both, place, &[0x80 | first], Begun)?;
            for second in seconds {
                let is = match (number, second, first) {
                    ("count", 1..=14, _) | ("count", 15, 0..=80) => Whole,
                    ("minutes", 1..=10, _) | ("minutes", 11, 0..=32) => Whole,
                    ("ratio", 1..=77, _) | ("ratio", 78, 0..=16) => Whole,
                    _ => Lost(2),
                };
                if place == 0 && is == Whole {
                    sound_as("count of two groups", both, &[0x80 | first, second], Cut)?;
                } else {
                    in_place(both, place, &[0x80 | first, second], is)?;
                }
                in_place(both, place, &[0x80 | first, 0x80 | second], Lost(2))?;
            }
        }
    }
    Ok(())
}

/// Every byte in the place of a product: 1 to 8 are one, and all others are hopeless.
fn products(both: &mut Both) -> Result<(), String> {
    for place in [4, 8, 12] {
        for byte in 0x00..=0xFF {
            in_place(both, place, &[byte], if (1..=8).contains(&byte) { Whole } else { Lost(1) })?;
        }
    }
    Ok(())
}

/// Groups of litres around those of 100,000, which are 32, 13 and 6. Every two groups that announce another can be completed: with
/// 1 as the third group they are at most 32,767 litres.
fn groups_of_litres(both: &mut Both) -> Result<(), String> {
    for place in [2, 6, 10] {
        for (first, second) in
            [0, 31, 32, 33, 127].into_iter().flat_map(|first| [0, 12, 13, 14, 127].map(|second| (first, second)))
        {
            let is = if second == 0 { Lost(2) } else { Whole };
            in_place(both, place, &[0x80 | first, second], is)?;
            in_place(both, place, &[0x80 | first, 0x80 | second], Begun)?;
            for third in [0, 1, 5, 6, 7, 127] {
                let is = match (third, second, first) {
                    (1..=5, _, _) | (6, 0..=12, _) | (6, 13, 0..=32) => Whole,
                    _ => Lost(3),
                };
                in_place(both, place, &[0x80 | first, 0x80 | second, third], is)?;
                in_place(both, place, &[0x80 | first, 0x80 | second, 0x80 | third], Lost(3))?;
            }
        }
    }
    for (first, second) in (0x80..=0xFF).flat_map(|first| (0x80..=0xFF).map(move |second| (first, second))) {
        sound_as("two groups of litres", both, &[0x01, 0x00, first, second], Cut)?;
        let third = (0x00..=0x7F).find(|third| volume::entries_of(&[0x01, 0x00, first, second, *third, 0x00, 0x01]).is_ok());
        if third != Some(0x01) {
            return Err(format!(
                "{first:#x} {second:#x} as groups of litres: the peer's reader takes {third:?} and not 1 after them"
            ));
        }
    }
    Ok(())
}

/// The largest entry so many times, and the smallest.
fn full_volumes(count: usize) -> [Vec<u8>; 2] {
    [&LARGEST.1[..], &SMALLEST.1].map(|entry| [bytes_of(count as u32), entry.repeat(count)].concat())
}

/// Volumes of one entry, of three, of many and of 2,000: sound, and cut at each shorter length. Of longer volumes some lengths are
/// taken.
fn cuts(both: &mut Both) -> Result<(), String> {
    let mut volumes = vec![three_with_all(&[]), EXAMPLE_VOLUME.to_vec()];
    for count in [1, 2, 3, 127, 128, 129, 1_999, 2_000] {
        volumes.extend(full_volumes(count));
    }
    for volume in volumes {
        let case = format!("volume of {} bytes", volume.len());
        sound_as(&case, both, &volume, Sound)?;
        let is_taken = |length: &usize| volume.len() < 300 || *length < 10 || length + 20 > volume.len() || length % 997 < 2;
        for length in (0..volume.len()).filter(is_taken) {
            sound_as(&format!("{case}, cut to {length}"), both, &volume[..length], Cut)?;
        }
    }
    Ok(())
}

/// Counts from 0 to 2,000 with just as many entries, with a byte fewer and with a byte more.
fn counts(both: &mut Both) -> Result<(), String> {
    for count in (0..=2_000).step_by(61).chain([126, 127, 128, 129, 255, 256, 257, 512, 1_024, 1_999, 2_000]) {
        let [_, volume] = full_volumes(count);
        let (case, length) = (format!("{count} entries"), volume.len());
        sound_as(&case, both, &volume, Sound)?;
        sound_as(&format!("{case}, a byte fewer"), both, &volume[..length - 1], Cut)?;
        sound_as(&format!("{case}, a byte more"), both, &[&volume[..], &[0x00]].concat(), Hopeless(length + 1))?;
    }
    Ok(())
}

/// Numbers at fault in the first entry, one in the middle and the last one of many.
fn many_entries(both: &mut Both) -> Result<(), String> {
    // Where the numbers of the largest entry begin.
    let starts = [0, 2, 5, 7];
    for count in [5, 127, 128, 2_000] {
        let [volume, _] = full_volumes(count);
        for (entry, field) in [0, count / 2, count - 1].into_iter().flat_map(|entry| [0, 1, 2, 3].map(|field| (entry, field))) {
            let start = bytes_of(count as u32).len() + 8 * entry + starts[field];
            let end = start + [2, 3, 2, 1][field];
            let is_last = entry + 1 == count && field == 3;
            for (bytes, is) in table_of(1 + field).iter().step_by(if count == 2_000 { 5 } else { 1 }) {
                let case = format!("{bytes:x?} as number {field} of entry {entry} of {count}");
                let ended = [&volume[..start], bytes].concat();
                let expected = if is_last && *is == Whole { Sound } else { at_end(start, *is) };
                sound_as(&format!("{case} at the end"), both, &ended, expected)?;
                if *is != Begun {
                    let expected = if *is == Whole { Sound } else { at_end(start, *is) };
                    sound_as(&case, both, &[&ended[..], &volume[end..]].concat(), expected)?;
                }
            }
        }
    }
    Ok(())
}

/// Bytes after the last entry: hopeless at the first of them, whatever they are. Some of the lengths are right when only their
/// lowest 8 or 16 bits are looked at.
fn bytes_after(both: &mut Both) -> Result<(), String> {
    let three = three_with_all(&[]);
    let [largest, smallest] = full_volumes(2_000);
    for volume in [&[0x00][..], &[0x01, 0x00, 0x00, 0x00, 0x01], &EXAMPLE_VOLUME, &three, &full_volumes(128)[0]] {
        for byte in 0x00..=0xFF {
            let case = format!("{byte:#x} after {} bytes", volume.len());
            sound_as(&case, both, &[volume, &[byte]].concat(), Hopeless(volume.len() + 1))?;
        }
    }
    for volume in [&[0x00][..], &[0x01, 0x00, 0x00, 0x00, 0x01], &EXAMPLE_VOLUME, &three, &smallest, &largest] {
        let mut rests = [&RESTS[..], &[&SMALLEST.1, &LARGEST.1, volume]].concat();
        let zeros = [0x00; 65_536];
        rests.extend([2, 3, 16, 255, 256, 16_002, 65_536 - volume.len(), 65_536].map(|more| &zeros[..more]));
        for rest in rests {
            let case = format!("{} bytes after {} bytes", rest.len(), volume.len());
            sound_as(&case, both, &[volume, rest].concat(), Hopeless(volume.len() + 1))?;
        }
    }
    for volume in [&smallest, &largest] {
        for byte in EDGES {
            let case = format!("{byte:#x} after {} bytes", volume.len());
            sound_as(&case, both, &[&volume[..], &[byte]].concat(), Hopeless(volume.len() + 1))?;
        }
    }
    Ok(())
}

/// The answers for all cuts of a string follow from the answer for the whole: from the hopeless length on it is the same, and
/// before it, or if there is none, the string is cut. Only without the bytes after its last entry is it sound.
fn each_cut(case: &str, both: &mut Both, string: &[u8]) -> Result<(), String> {
    let answer = both.volume_soundness(string).map_err(|text| format!("{case}, {text}"))?;
    for length in 0..string.len() {
        let cut = &string[..length];
        let expected = match answer {
            Ok(Hopeless(hopeless)) if hopeless <= length => Hopeless(hopeless),
            Ok(Hopeless(hopeless)) if hopeless == length + 1 && volume::entries_of(cut).is_ok() => Sound,
            _ => Cut,
        };
        sound_as(&format!("{case}, cut to {length}"), both, cut, expected)?;
    }
    Ok(())
}

/// Each byte of a volume in turn replaced by others, and the string cut at every length; and the damages above in the first entry,
/// in one in the middle and in the last one.
fn damaged(both: &mut Both) -> Result<(), String> {
    for volume in [three_with_all(&[]), EXAMPLE_VOLUME.to_vec(), full_volumes(1)[0].clone(), full_volumes(2)[1].clone()] {
        for place in 0..volume.len() {
            let own = volume[place];
            for byte in EDGES.into_iter().chain([own ^ 0x80, own.wrapping_add(1), own.wrapping_sub(1)]) {
                let mut string = volume.clone();
                string[place] = byte;
                each_cut(&format!("{byte:#x} in place {place} of {volume:x?}"), both, &string)?;
            }
        }
    }
    for count in [1, 2, 127, 128, 2_000] {
        let [volume, _] = full_volumes(count);
        let mut entries = vec![0, count / 2, count - 1];
        entries.dedup();
        for (entry, (place, byte, lost)) in entries.into_iter().flat_map(|entry| DAMAGES.map(|damage| (entry, damage))) {
            let start = bytes_of(count as u32).len() + 8 * entry;
            let mut string = volume.clone();
            string[start + place] = byte;
            let case = format!("{byte:#x} in place {place} of entry {entry} of {count}");
            let Some(lost) = lost.map(|bytes| start + bytes) else {
                sound_as(&case, both, &string, Sound)?;
                continue;
            };
            sound_as(&case, both, &string, Hopeless(lost))?;
            sound_as(&format!("{case}, cut to {lost}"), both, &string[..lost], Hopeless(lost))?;
            sound_as(&format!("{case}, cut to one less than {lost}"), both, &string[..lost - 1], Cut)?;
        }
    }
    Ok(())
}

/// Two numbers at fault, or one and bytes after the last entry or an end that is early: the first fault is the one that counts.
fn two_faults(both: &mut Both) -> Result<(), String> {
    let lost = |place: usize| {
        let of_number = table_of(place).iter().filter_map(|(bytes, is)| match is {
            Lost(byte) => Some((*bytes, *byte)),
            _ => None,
        });
        of_number.step_by(3)
    };
    for first in 0..THREE.len() {
        for (bytes, byte) in lost(first) {
            let expected = Hopeless(three_start(first) + byte);
            for second in first + 1..THREE.len() {
                for (other, _) in lost(second) {
                    let case = format!("{bytes:x?} in place {first}, {other:x?} in place {second}");
                    sound_as(&case, both, &three_with_all(&[(first, bytes), (second, other)]), expected)?;
                }
            }
            let string = three_with(first, bytes);
            for after in [&[0x00][..], &[0x80], &[0x80, 0x80, 0x80], &LARGEST.1] {
                let case = format!("{bytes:x?} in place {first}, {after:x?} after the last entry");
                sound_as(&case, both, &[&string[..], after].concat(), expected)?;
            }
            for length in three_start(first) + byte..string.len() {
                sound_as(&format!("{bytes:x?} in place {first}, cut to {length}"), both, &string[..length], expected)?;
            }
        }
    }
    Ok(())
}

/// Bytes that follow the string in memory are not part of it: they neither complete what is cut nor make hopeless what is cut or
/// sound.
fn bytes_beyond(both: &mut Both) -> Result<(), String> {
    let three = three_with_all(&[]);
    let mut before = |string: &[u8], after: &[u8], expected: Soundness| {
        let case = format!("{string:x?} before {after:x?}");
        expect(&case, both.volume_soundness_before(string, after), Ok(expected))
    };
    for byte in 0x00..=0xFF {
        before(&[], &[byte], Cut)?;
        before(&[0x00], &[byte], Sound)?;
        before(&EXAMPLE_VOLUME, &[byte], Sound)?;
        before(&three, &[byte, byte, byte], Sound)?;
    }
    for volume in [&[0x00][..], &[0x01, 0x00, 0x00, 0x00, 0x01], &EXAMPLE_VOLUME, &three, &full_volumes(3)[0]] {
        for length in 0..volume.len() {
            before(&volume[..length], &volume[length..], Cut)?;
            before(&volume[..length], &[0x80, 0x80, 0x80], Cut)?;
            before(&volume[..length], &[0xFF; 9], Cut)?;
            before(&volume[..length], &[0x00; 9], Cut)?;
        }
        for after in [volume, &SMALLEST.1, &[0x80; 9]] {
            before(volume, after, Sound)?;
        }
    }
    for place in 0..THREE.len() {
        for (bytes, is) in table_of(place) {
            let Lost(byte) = is else { continue };
            let string = three_with(place, bytes);
            let hopeless = three_start(place) + byte;
            before(&string[..hopeless - 1], &string[hopeless - 1..], Cut)?;
            before(&string[..hopeless], &string[hopeless..], Hopeless(hopeless))?;
        }
    }
    Ok(())
}

/// Every string of up to three bytes from the start of a volume on, and from each number of an entry and the end on, against the
/// listed beginnings. After two bytes that are no beginning and do not stand at the start of a volume, the third is at an edge.
fn every_three_bytes(both: &mut Both) -> Result<(), String> {
    let [none, some] = [(0, 0), (1, 2_000)].map(|(smallest, largest)| FirstBytes::of(smallest, largest));
    let [minutes, litres, ratio, product] =
        [(0, 1_440), (0, 100_000), (0, 10_000), (1, 8)].map(|(smallest, largest)| FirstBytes::of(smallest, largest));
    let entry = [&minutes, &litres, &ratio, &product];
    let next_entry = [&product, &minutes, &litres, &ratio, &product];
    // What a volume begins with, and the numbers that can follow up to its end.
    let places: [(&[u8], &[&[&FirstBytes]]); 7] = [
        (&[], &[&[&none], &[&some, &minutes, &litres, &ratio]]),
        (&[0x01], &[&entry]),
        (&[0x01, 0x00], &[&entry[1..]]),
        (&[0x01, 0x00, 0x00], &[&entry[2..]]),
        (&[0x01, 0x00, 0x00, 0x00], &[&entry[3..]]),
        (&[0x02, 0x00, 0x00, 0x00], &[&next_entry]),
        (&[0x01, 0x00, 0x00, 0x00, 0x01], &[&[]]),
    ];
    for (start, lists) in places {
        let beginnings = Beginnings::of(lists);
        archive_has(both, start, &beginnings)?;
        peer_has(start, &beginnings)?;
    }
    Ok(())
}

/// The archive's answers for strings of up to three bytes after a start. The string lies in memory filled with a pattern, and
/// after each call the memory is what it was.
fn archive_has(both: &mut Both, start: &[u8], beginnings: &Beginnings) -> Result<(), String> {
    let from = 32 + start.len();
    let mut memory = [&[0xA5; 32], start, &[0xA5; 32]].concat();
    let mut expected = memory.clone();
    let mut has = |bytes: &[u8], listed: Soundness| {
        memory[from..from + bytes.len()].copy_from_slice(bytes);
        expected[from..from + bytes.len()].copy_from_slice(bytes);
        let returned = unsafe { archive::hc_volume_soundness(memory[32..].as_mut_ptr(), start.len() + bytes.len()) };
        let returned = (returned.answer, returned.length);
        if returned == listed.numbers() && memory == expected {
            return Ok(());
        }
        let kept = if memory == expected { "kept" } else { "changed" };
        Err(format!("{start:x?} {bytes:x?}: archive {returned:?}, memory {kept}, listed beginnings {listed:?}"))
    };
    let all: Vec<u8> = (0x00..=0xFF).collect();
    let mut calls = 1;
    has(&[], beginnings.soundness(start.len(), &[]))?;
    for first in 0x00..=0xFF {
        has(&[first], beginnings.soundness(start.len(), &[first]))?;
        for second in 0x00..=0xFF {
            let of_two = beginnings.soundness(start.len(), &[first, second]);
            has(&[first, second], of_two)?;
            let is_hopeless = matches!(of_two, Hopeless(_));
            let thirds = if is_hopeless && !start.is_empty() { &EDGES[..] } else { &all };
            for third in thirds {
                has(&[first, second, *third], beginnings.soundness(start.len(), &[first, second, *third]))?;
            }
            calls += 1 + thirds.len() as u64;
        }
        calls += 1;
    }
    both.tally.calls += calls;
    Ok(())
}

/// The peer's answers for all strings of up to two bytes after a start, and for those of three bytes at the edges.
fn peer_has(start: &[u8], beginnings: &Beginnings) -> Result<(), String> {
    let has = |bytes: &[u8]| {
        let (peer, listed) = (soundness::of(&[start, bytes].concat()), beginnings.soundness(start.len(), bytes));
        if peer == listed {
            return Ok(());
        }
        Err(format!("{start:x?} {bytes:x?}: the peer has {peer:?}, the listed beginnings {listed:?}"))
    };
    has(&[])?;
    for first in 0x00..=0xFF {
        has(&[first])?;
        for second in 0x00..=0xFF {
            has(&[first, second])?;
            if EDGES.contains(&first) && EDGES.contains(&second) {
                for third in THIRDS {
                    has(&[first, second, third])?;
                }
            }
        }
    }
    Ok(())
}

/// All made cases about soundness; the result is the text of the first difference.
pub fn run(tally: &mut Tally) -> Result<(), String> {
    let mut both = Both::new(Head { code: 2, word: 0x4812_2184, position: 33, mark: 66 }, vec![0x3CC3_A55A; 16], tally);
    examples(&mut both)?;
    numbers(&mut both)?;
    two_groups(&mut both)?;
    products(&mut both)?;
    groups_of_litres(&mut both)?;
    cuts(&mut both)?;
    counts(&mut both)?;
    many_entries(&mut both)?;
    bytes_after(&mut both)?;
    damaged(&mut both)?;
    two_faults(&mut both)?;
    bytes_beyond(&mut both)?;
    every_three_bytes(&mut both)
}
