//! Cases made by hand about the shift volume, with the answer that request (d) of document 02 gives for each.

use crate::both::{short, Both};
use crate::calls::{self, Head, FRESH, LIMIT};
use crate::ciphers::{self, Cipher};
use crate::made::{expect, NO_CIPHER, POSITIONS};
use crate::random::Random;
use crate::tally::Tally;

/// Values with their bytes: on both sides of each end of a range and of each change in the number of groups, and some that are
/// in a range when only their lowest bits are looked at.
const VALUES: [(u32, &[u8]); 24] = [
    (0, &[0x00]),
    (1, &[0x01]),
    (7, &[0x07]),
    (8, &[0x08]),
    (9, &[0x09]),
    (127, &[0x7F]),
    (128, &[0x80, 0x01]),
    (129, &[0x81, 0x01]),
    (256, &[0x80, 0x02]),
    (257, &[0x81, 0x02]),
    (1_440, &[0xA0, 0x0B]),
    (1_441, &[0xA1, 0x0B]),
    (2_000, &[0xD0, 0x0F]),
    (2_001, &[0xD1, 0x0F]),
    (10_000, &[0x90, 0x4E]),
    (10_001, &[0x91, 0x4E]),
    (16_383, &[0xFF, 0x7F]),
    (16_384, &[0x80, 0x80, 0x01]),
    (16_385, &[0x81, 0x80, 0x01]),
    (65_536, &[0x80, 0x80, 0x04]),
    (65_537, &[0x81, 0x80, 0x04]),
    (100_000, &[0xA0, 0x8D, 0x06]),
    (100_001, &[0xA1, 0x8D, 0x06]),
    (2_097_151, &[0xFF, 0xFF, 0x7F]),
];

/// Values that three groups do not hold.
const LARGE_VALUES: [u32; 12] = [
    1 << 21,
    (1 << 21) + 1,
    (1 << 24) + 1,
    (1 << 28) - 1,
    1 << 28,
    (1 << 28) + 1,
    (1 << 31) - 1,
    1 << 31,
    (1 << 31) + 1,
    0xFFFF_FF01,
    u32::MAX - 1,
    u32::MAX,
];

/// The ends of the ranges of minutes, litres, ratio and product.
const RANGES: [(u32, u32); 4] = [(0, 1_440), (0, 100_000), (0, 10_000), (1, 8)];

/// The numbers of a volume of three entries with their bytes. The first is the count.
pub const THREE: [(u32, &[u8]); 13] = [
    (3, &[0x03]),
    (15, &[0x0F]),
    (20_000, &[0xA0, 0x9C, 0x01]),
    (610, &[0xE2, 0x04]),
    (2, &[0x02]),
    (0, &[0x00]),
    (1_000, &[0xE8, 0x07]),
    (525, &[0x8D, 0x04]),
    (4, &[0x04]),
    (1_440, &[0xA0, 0x0B]),
    (100_000, &[0xA0, 0x8D, 0x06]),
    (10_000, &[0x90, 0x4E]),
    (8, &[0x08]),
];

/// The length of that volume.
const THREE_BYTES: usize = 22;

/// The example of the C header: its entries and their volume of 14 bytes.
const EXAMPLE: [u32; 8] = [0, 1000, 525, 4, 15, 20000, 610, 2];
pub const EXAMPLE_VOLUME: [u8; 14] = [0x02, 0x00, 0xE8, 0x07, 0x8D, 0x04, 0x04, 0x0F, 0xA0, 0x9C, 0x01, 0xE2, 0x04, 0x02];

/// An entry of the smallest values and one of the largest, with their bytes.
pub const SMALLEST: ([u32; 4], [u8; 4]) = ([0, 0, 0, 1], [0x00, 0x00, 0x00, 0x01]);
pub const LARGEST: ([u32; 4], [u8; 8]) = ([1_440, 100_000, 10_000, 8], [0xA0, 0x0B, 0xA0, 0x8D, 0x06, 0x90, 0x4E, 0x08]);

/// Counts with their bytes, up to the largest.
const COUNTS: [(usize, &[u8]); 8] = [
    (0, &[0x00]),
    (1, &[0x01]),
    (2, &[0x02]),
    (127, &[0x7F]),
    (128, &[0x80, 0x01]),
    (129, &[0x81, 0x01]),
    (1_999, &[0xCF, 0x0F]),
    (2_000, &[0xD0, 0x0F]),
];

/// Whether a value is in the range of a number of an entry.
fn is_in_range(field: usize, value: u32) -> bool {
    RANGES[field].0 <= value && value <= RANGES[field].1
}

/// The three entries as one list.
fn three_list() -> Vec<u32> {
    THREE[1..].iter().map(|(value, _)| *value).collect()
}

/// The bytes of the three entries with other bytes in the place of one number.
pub fn three_with(place: usize, bytes: &[u8]) -> Vec<u8> {
    three_with_all(&[(place, bytes)])
}

/// The bytes of the three entries with other bytes in the place of some numbers.
pub fn three_with_all(others: &[(usize, &[u8])]) -> Vec<u8> {
    let mut parts = THREE.map(|(_, bytes)| bytes);
    for (place, bytes) in others {
        parts[*place] = bytes;
    }
    parts.concat()
}

/// The bytes of a value of up to three groups.
pub fn bytes_of(value: u32) -> Vec<u8> {
    let groups = [value % 128, value / 128 % 128, value / 16_384].map(|group| group as u8);
    match value {
        0..=127 => vec![groups[0]],
        128..=16_383 => vec![0x80 | groups[0], groups[1]],
        _ => vec![0x80 | groups[0], 0x80 | groups[1], groups[2]],
    }
}

/// Where the bytes of a number of the three entries begin.
pub fn three_start(place: usize) -> usize {
    THREE[..place].iter().map(|(_, bytes)| bytes.len()).sum()
}

/// A number with groups of 0 added to it.
pub fn longer(bytes: &[u8], more: usize) -> Vec<u8> {
    let mut groups = bytes.to_vec();
    for _ in 0..more {
        *groups.last_mut().unwrap() |= 0x80;
        groups.push(0);
    }
    groups
}

/// Bytes that are at fault in the place of a number, with the refusal that they get: 14 for a group of 0 too many, 14 for a third
/// group that announces another, 15 for a value out of range, and 14 for one out of range with a group of 0 too many.
pub fn faults(place: usize) -> Vec<(Vec<u8>, u64)> {
    let over: &[&[u8]] = match place {
        0 => &[&[0xD1, 0x0F]],
        _ => match (place - 1) % 4 {
            0 => &[&[0xA1, 0x0B]],
            1 => &[&[0xA1, 0x8D, 0x06]],
            2 => &[&[0x91, 0x4E]],
            _ => &[&[0x00], &[0x09]],
        },
    };
    let mut faults = vec![(longer(THREE[place].1, 1), 14), (vec![0x80, 0x80, 0x80], 14), (vec![0x81, 0xFF, 0xFF, 0x00], 14)];
    for bytes in over {
        faults.push((bytes.to_vec(), 15));
        faults.push((longer(bytes, 1), 14));
    }
    faults
}

/// Reading and enciphering of a string that is a volume of these entries. Reading is refused with 8 where the list is too short,
/// and leaves the later elements of a longer one. The duty on it is not refused; duties.rs has the cents of other volumes.
fn is_volume(case: &str, both: &mut Both, string: &[u8], entries: &[u32]) -> Result<(), String> {
    let count = entries.len() as u64 / 4;
    for room in [entries.len(), entries.len() + 1, entries.len() + 9] {
        let before: Vec<u32> = (0..room as u32).map(|k| 0x8000_0001 + k).collect();
        let after = [entries, &before[entries.len()..]].concat();
        expect(&format!("list of {room}, {case}"), both.read_volume(string, &before), Ok((count, after)))?;
    }
    let too_short = [1, 2, 3, 4, 5, entries.len()].into_iter().filter(|less| (1..=entries.len()).contains(less));
    for room in too_short.map(|less| entries.len() - less) {
        expect(&format!("list of {room}, {case}"), both.read_volume(string, &vec![7; room]), Err(8))?;
    }
    let owed = both.volume_duty(string).map_err(|text| format!("{case}, {text}"))?;
    if owed.is_err() {
        return Err(format!("duty, {case}: both sides say {owed:?}"));
    }
    enciphers_as_cipher(case, both, string, entries)
}

/// Enciphering of a volume is the cipher call: bytes, head and area. After a move back, a cipher call gives the volume again.
/// Head and area are then put back.
fn enciphers_as_cipher(case: &str, both: &mut Both, volume: &[u8], entries: &[u32]) -> Result<(), String> {
    let words = both.area.len();
    let (head, area) = (both.head, both.area.clone());
    let enciphered = both.encipher_volume(words, volume).map_err(|text| format!("{case}, {text}"))?;
    let Ok(enciphered) = enciphered else {
        return Err(format!("encipher, {case}: both sides say {enciphered:?}"));
    };
    let end = head.position + volume.len() as u64;
    if both.head.position != end || both.head.mark != head.mark.max(end) {
        return Err(format!("encipher, {case}: both sides are at {:?}, expected the end {end}", both.head));
    }
    expect(&format!("spent, {case}"), both.spent(), Ok(head.mark.max(end)))?;
    let (after_head, after_area) = (both.head, both.area.clone());
    both.put_head(head);
    both.put_area(&area);
    expect(&format!("cipher, {case}"), both.ciphered(words, volume), Ok(enciphered.clone()))?;
    if both.head != after_head || both.area != after_area {
        return Err(format!("{case}: both sides have another head or area after encipher volume than after cipher"));
    }
    expect(&format!("move back, {case}"), both.move_by(words, -(volume.len() as i64)), Ok(()))?;
    expect(&format!("decipher, {case}"), both.ciphered(words, &enciphered), Ok(volume.to_vec()))?;
    if both.head != after_head {
        return Err(format!("{case}: both sides have another head after deciphering than after enciphering"));
    }
    let read = both.read_volume(volume, &vec![7; entries.len()]);
    expect(&format!("read again, {case}"), read, Ok((entries.len() as u64 / 4, entries.to_vec())))?;
    both.put_head(head);
    both.put_area(&area);
    Ok(())
}

/// Reading and enciphering of a string that is refused, with lists of any length, and the duty on it.
fn is_refused(case: &str, both: &mut Both, string: &[u8], refusal: u64) -> Result<(), String> {
    for room in [0, 3, 12, 40] {
        expect(&format!("list of {room}, {case}"), both.read_volume(string, &vec![7; room]), Err(refusal))?;
    }
    expect(&format!("duty, {case}"), both.volume_duty(string), Err(refusal))?;
    let (head, area) = (both.head, both.area.clone());
    expect(&format!("encipher, {case}"), both.encipher_volume(area.len(), string), Err(refusal))?;
    if both.head != head || both.area != area {
        return Err(format!("{case}: both sides changed head or area"));
    }
    Ok(())
}

/// Writing of a list that has this volume: refused with 8 where too few bytes are lent, else it is read back as the same list.
fn is_written(case: &str, both: &mut Both, list: &[u32], volume: &[u8]) -> Result<(), String> {
    for lent in [volume.len(), volume.len() + 1, volume.len() + 50] {
        let written = both.write_volume(list, &vec![0xEE; lent]);
        expect(&format!("{lent} bytes lent, {case}"), written, Ok(volume.to_vec()))?;
    }
    for lent in [0, volume.len() / 2, volume.len() - 1] {
        expect(&format!("{lent} bytes lent, {case}"), both.write_volume(list, &vec![0xEE; lent]), Err(8))?;
    }
    let read = both.read_volume(volume, &vec![7; list.len()]);
    expect(&format!("read back, {case}"), read, Ok((list.len() as u64 / 4, list.to_vec())))
}

/// Writing of a list that is refused, with any number of bytes lent.
fn is_not_written(case: &str, both: &mut Both, list: &[u32], refusal: u64) -> Result<(), String> {
    for lent in [0, 1, THREE_BYTES, 16_002, 16_100] {
        expect(&format!("{lent} bytes lent, {case}"), both.write_volume(list, &vec![0xEE; lent]), Err(refusal))?;
    }
    Ok(())
}

/// The example of the header, the three entries, the empty volume and the empty string, written out by hand.
fn examples(both: &mut Both) -> Result<(), String> {
    is_written("example", both, &EXAMPLE, &EXAMPLE_VOLUME)?;
    is_volume("example", both, &EXAMPLE_VOLUME, &EXAMPLE)?;
    let three = three_with_all(&[]);
    if three.len() != THREE_BYTES {
        return Err(format!("three entries have {} bytes", three.len()));
    }
    is_written("three entries", both, &three_list(), &three)?;
    is_volume("three entries", both, &three, &three_list())?;
    is_written("no entries", both, &[], &[0x00])?;
    is_volume("no entries", both, &[0x00], &[])?;
    is_refused("empty string", both, &[], 16)
}

/// Every value of the table in every number of the three entries, read and written: in range or 15. With groups of 0 added it is
/// 14, also where it is out of range.
fn values(both: &mut Both) -> Result<(), String> {
    for (value, bytes) in VALUES {
        for place in 1..THREE.len() {
            let case = format!("{value} in place {place}");
            let string = three_with(place, bytes);
            let mut list = three_list();
            list[place - 1] = value;
            if is_in_range((place - 1) % 4, value) {
                is_volume(&case, both, &string, &list)?;
                is_written(&case, both, &list, &string)?;
            } else {
                is_refused(&case, both, &string, 15)?;
                is_not_written(&case, both, &list, 15)?;
            }
        }
        for place in 0..THREE.len() {
            for more in 1..=3 {
                let string = three_with(place, &longer(bytes, more));
                is_refused(&format!("{value} with {more} groups too many in place {place}"), both, &string, 14)?;
            }
        }
    }
    for value in LARGE_VALUES {
        for place in 0..12 {
            let mut list = three_list();
            list[place] = value;
            is_not_written(&format!("{value} in element {place}"), both, &list, 15)?;
        }
    }
    Ok(())
}

/// Counts at both ends of their range and where they get another group, read and written. Another count than there are entries is
/// refused with 16, and one out of range with 15, whatever follows.
fn counts(both: &mut Both) -> Result<(), String> {
    for (count, bytes) in COUNTS {
        for entry in [&THREE[1..5], &THREE[5..9], &THREE[9..13]] {
            let values: Vec<u32> = entry.iter().map(|(value, _)| *value).collect();
            let entry: Vec<u8> = entry.iter().flat_map(|(_, bytes)| bytes.to_vec()).collect();
            let case = format!("{count} entries of {values:?}");
            let (list, string) = (values.repeat(count), [bytes, &entry.repeat(count)].concat());
            is_written(&case, both, &list, &string)?;
            is_volume(&case, both, &string, &list)?;
            is_refused(&format!("one entry more, {case}"), both, &[&string[..], &entry].concat(), 16)?;
            if count > 0 {
                let shorter = &string[..string.len() - entry.len()];
                is_refused(&format!("one entry fewer, {case}"), both, shorter, 16)?;
                is_refused(&format!("one byte fewer, {case}"), both, &string[..string.len() - 1], 16)?;
                is_refused(&format!("count only, {case}"), both, bytes, 16)?;
            }
        }
    }
    let entries = SMALLEST.1.repeat(2_001);
    for (value, bytes) in VALUES.into_iter().filter(|(value, _)| *value > 2_000) {
        for rest in [&[][..], &[0x00], &[0x80], &[0x80, 0x00], &[0x80, 0x80, 0x80], &entries[..8_000], &entries] {
            let string = [bytes, rest].concat();
            is_refused(&format!("count {value} before {} bytes", rest.len()), both, &string, 15)?;
        }
    }
    for count in [2_001, 2_002, 4_096, 16_384, 65_536, 65_537, 67_536] {
        let list = LARGEST.0.repeat(count);
        is_not_written(&format!("{count} entries"), both, &list, 15)?;
    }
    let list = SMALLEST.0.repeat((1 << 21) + 1);
    expect("2^21 entries and one", both.write_volume(&list, &[7; 16_002]), Err(15))
}

/// Volumes of 2,000 entries of the largest and of the smallest values, 16,002 and 8,002 bytes, and with one number at fault.
fn full_volumes(both: &mut Both) -> Result<(), String> {
    let largest = [&[0xD0, 0x0F], &LARGEST.1.repeat(2_000)[..]].concat();
    let smallest = [&[0xD0, 0x0F], &SMALLEST.1.repeat(2_000)[..]].concat();
    if largest.len() != 16_002 || smallest.len() != 8_002 {
        return Err(format!("full volumes have {} and {} bytes", largest.len(), smallest.len()));
    }
    for (string, entry) in [(&largest, &LARGEST.0), (&smallest, &SMALLEST.0)] {
        let list = entry.repeat(2_000);
        let case = format!("2,000 entries of {entry:?}");
        is_written(&case, both, &list, string)?;
        is_volume(&case, both, string, &list)?;
        for after in [&[0x00][..], &[0x01], &[0x80], &SMALLEST.1] {
            is_refused(&format!("{after:x?} after {case}"), both, &[&string[..], after].concat(), 16)?;
        }
        for less in [1, 2, 3, 4, 8, 9] {
            is_refused(&format!("{less} bytes fewer, {case}"), both, &string[..string.len() - less], 16)?;
        }
        for place in [0, 1, 2, 3, 4, 3_999, 7_996, 7_997, 7_998, 7_999] {
            for value in [RANGES[place % 4].1 + 1, u32::MAX] {
                let mut changed = list.clone();
                changed[place] = value;
                is_not_written(&format!("{value} in element {place}, {case}"), both, &changed, 15)?;
            }
        }
        let last = string.len() - 1;
        for (bytes, refusal) in [(&[0x00][..], 15), (&[0x09], 15), (&[0x88, 0x00], 14), (&[0x80, 0x80, 0x80], 14), (&[0x88], 16)]
        {
            let changed = [&string[..last], bytes].concat();
            is_refused(&format!("last product {bytes:x?}, {case}"), both, &changed, refusal)?;
        }
    }
    Ok(())
}

/// Third groups that announce another in the place of every number: 14, also where the string ends there.
fn third_groups(both: &mut Both) -> Result<(), String> {
    for place in 0..THREE.len() {
        for groups in [[0x80, 0x80, 0x80], [0xFF, 0xFF, 0xFF], [0x81, 0x80, 0x80], [0x80, 0x80, 0xFF], [0x83, 0xFF, 0x81]] {
            let case = format!("{groups:x?} in place {place}");
            is_refused(&case, both, &three_with(place, &groups), 14)?;
            let start = &three_with_all(&[])[..three_start(place)];
            for rest in [&[][..], &[0x00], &[0x01], &[0x7F], &[0x80], &[0x80, 0x00], &[0xFF, 0xFF, 0xFF]] {
                is_refused(&format!("{case} before {rest:x?}"), both, &[start, &groups, rest].concat(), 14)?;
            }
            for count in 1..=2 {
                let string = [start, &groups[..count]].concat();
                is_refused(&format!("{count} bytes of {case}"), both, &string, 16)?;
            }
        }
    }
    Ok(())
}

/// The three entries cut after every byte: 16, or the refusal of a number that is at fault and has been read before the end.
fn cuts(both: &mut Both) -> Result<(), String> {
    for string in [three_with_all(&[]), EXAMPLE_VOLUME.to_vec()] {
        for length in 0..string.len() {
            is_refused(&format!("cut to {length} of {}", string.len()), both, &string[..length], 16)?;
        }
    }
    for place in 0..THREE.len() {
        for (bytes, refusal) in faults(place) {
            let string = three_with(place, &bytes);
            // A third group that announces another is a fault as soon as it is there.
            let known = three_start(place) + bytes.len().min(3);
            for length in 0..=string.len() {
                let expected = if length < known { 16 } else { refusal };
                is_refused(&format!("{bytes:x?} in place {place}, cut to {length}"), both, &string[..length], expected)?;
            }
        }
    }
    Ok(())
}

/// Bytes after the last entry: 16, and before 8, but after every fault of a number.
fn bytes_after(both: &mut Both) -> Result<(), String> {
    let three = three_with_all(&[]);
    for byte in 0..=255 {
        for volume in [&[0x00][..], &EXAMPLE_VOLUME, &three] {
            is_refused(&format!("{byte:#x} after {volume:x?}"), both, &[volume, &[byte]].concat(), 16)?;
        }
    }
    for after in [&[0x00, 0x00][..], &[0x80, 0x80, 0x80], &SMALLEST.1, &LARGEST.1, &three, &[0x00; 16_002]] {
        for volume in [&[0x00][..], &EXAMPLE_VOLUME, &three] {
            is_refused(&format!("{} bytes after {volume:x?}", after.len()), both, &[volume, after].concat(), 16)?;
        }
        for place in 0..THREE.len() {
            for (bytes, refusal) in faults(place) {
                let string = [&three_with(place, &bytes)[..], after].concat();
                is_refused(&format!("{} bytes after {bytes:x?} in place {place}", after.len()), both, &string, refusal)?;
            }
        }
    }
    Ok(())
}

/// Two numbers at fault: the first in reading order is refused, whatever the two faults are.
fn pairs_of_faults(both: &mut Both) -> Result<(), String> {
    for first in 0..THREE.len() {
        for second in first + 1..THREE.len() {
            for (first_bytes, refusal) in faults(first) {
                for (second_bytes, _) in faults(second) {
                    let case = format!("{first_bytes:x?} in place {first}, {second_bytes:x?} in place {second}");
                    let string = three_with_all(&[(first, &first_bytes), (second, &second_bytes)]);
                    is_refused(&case, both, &string, refusal)?;
                }
            }
        }
    }
    Ok(())
}

/// Lists of every length for the three entries, and every number of lent bytes.
fn rooms(both: &mut Both) -> Result<(), String> {
    let (three, list) = (three_with_all(&[]), three_list());
    for room in 0..=30 {
        let before: Vec<u32> = (0..room as u32).map(|k| !k).collect();
        let expected = if room < 12 { Err(8) } else { Ok((3, [&list[..], &before[12..]].concat())) };
        expect(&format!("list of {room}"), both.read_volume(&three, &before), expected)?;
    }
    for lent in 0..=40 {
        let expected = if lent < THREE_BYTES { Err(8) } else { Ok(three.clone()) };
        expect(&format!("{lent} bytes lent"), both.write_volume(&list, &vec![0xEE; lent]), expected)?;
    }
    Ok(())
}

/// Lists that are not whole entries: 16, before 15 for a value or for the count, and before 8.
fn not_whole(both: &mut Both) -> Result<(), String> {
    let list = SMALLEST.0.repeat(2_002);
    for length in [1, 2, 3, 5, 6, 7, 9, 10, 11, 509, 510, 511, 7_997, 7_998, 7_999, 8_001, 8_002, 8_003, 8_005, 8_006, 8_007] {
        is_not_written(&format!("{length} numbers"), both, &list[..length], 16)?;
        for place in [0, length / 2, length - 1] {
            for value in [100_001, u32::MAX] {
                let mut changed = list[..length].to_vec();
                changed[place] = value;
                is_not_written(&format!("{length} numbers, {value} in element {place}"), both, &changed, 16)?;
            }
        }
    }
    Ok(())
}

/// Every value of every range, written and read back, in lists of up to 2,000 entries.
fn every_value(both: &mut Both) -> Result<(), String> {
    for field in 0..4 {
        let values: Vec<u32> = (RANGES[field].0..=RANGES[field].1).collect();
        for values in values.chunks(2_000) {
            let mut list = SMALLEST.0.repeat(values.len());
            let mut volume = bytes_of(values.len() as u32);
            for (k, value) in values.iter().enumerate() {
                list[4 * k + field] = *value;
                let mut bytes = vec![vec![0], vec![0], vec![0], vec![1]];
                bytes[field] = bytes_of(*value);
                volume.extend(bytes.concat());
            }
            let case = format!("values {} to {} in number {field}", values[0], values[values.len() - 1]);
            expect(&case, both.write_volume(&list, &vec![0xEE; volume.len()]), Ok(volume.clone()))?;
            expect(&case, both.read_volume(&volume, &vec![7; list.len()]), Ok((values.len() as u64, list)))?;
        }
    }
    Ok(())
}

/// Every two bytes in the place of each number of one entry. Here both sides only have to agree.
fn every_two_bytes(both: &mut Both) -> Result<(), String> {
    let numbers: [&[u8]; 5] = [&[0x01], &[0x0F], &[0xE8, 0x07], &[0x8D, 0x04], &[0x04]];
    for place in 0..numbers.len() {
        let (start, rest) = (numbers[..place].concat(), numbers[place + 1..].concat());
        for two in 0..=u16::MAX {
            let string = [&start[..], &two.to_le_bytes(), &rest].concat();
            let _ = both.read_volume(&string, &[7; 8]).map_err(|text| format!("{string:x?}, {text}"))?;
            let _ = both.volume_duty(&string).map_err(|text| format!("{string:x?}, {text}"))?;
        }
    }
    Ok(())
}

/// An engine of a cipher with a random key and IV, its area being just as long as the cipher needs it.
fn set_up<'t>(random: &mut Random, cipher: Cipher, tally: &'t mut Tally) -> Result<Both<'t>, String> {
    let words = cipher.area_words();
    let mut both = Both::new(FRESH, random.words(words), tally);
    let (key, iv) = (random.bytes(cipher.key_bytes()), random.bytes(cipher.key_bytes()));
    expect("set up", both.set_up(words, cipher.code(), &key, &iv), Ok(()))?;
    Ok(both)
}

/// Volumes to encipher, with their entries: of 1, 14, 22, 1,026 and 16,002 bytes.
fn volumes() -> Vec<(Vec<u8>, Vec<u32>)> {
    vec![
        (vec![0x00], vec![]),
        (EXAMPLE_VOLUME.to_vec(), EXAMPLE.to_vec()),
        (three_with_all(&[]), three_list()),
        ([&[0x80, 0x01], &LARGEST.1.repeat(128)[..]].concat(), LARGEST.0.repeat(128)),
        ([&[0xD0, 0x0F], &LARGEST.1.repeat(2_000)[..]].concat(), LARGEST.0.repeat(2_000)),
    ]
}

/// Strings that are refused, with the refusal: an empty one, cut ones, one with a byte after it, one in a buffer of the largest
/// volume's size, and those with a number at fault.
fn refused_strings() -> Vec<(Vec<u8>, u64)> {
    let three = three_with_all(&[]);
    let mut strings = vec![(vec![], 16), (three[..1].to_vec(), 16), (three[..THREE_BYTES - 1].to_vec(), 16)];
    strings.push(([&three[..], &[0x00]].concat(), 16));
    strings.push(([&three[..], &[0x00; 16_002 - THREE_BYTES]].concat(), 16));
    for place in [0, 1, 6, 11, 12] {
        strings.extend(faults(place).into_iter().map(|(bytes, refusal)| (three_with(place, &bytes), refusal)));
    }
    strings
}

/// Enciphering at positions from 0 over several turns and inside words, with marks behind, at and beyond the end.
fn at_positions(random: &mut Random, cipher: Cipher, tally: &mut Tally) -> Result<(), String> {
    let words = cipher.area_words();
    let mut both = set_up(random, cipher, tally)?;
    for position in POSITIONS {
        let distance = position - both.head.position;
        expect("move", both.move_by(words, distance as i64), Ok(()))?;
        let head = both.head;
        for (volume, entries) in volumes() {
            let end = position + volume.len() as u64;
            for mark in [0, position, end - 1, end, end + 1, LIMIT, LIMIT + 1, u64::MAX] {
                let case = format!("{} bytes at {position}, mark {mark}", volume.len());
                both.put_head(Head { mark, ..head });
                enciphers_as_cipher(&case, &mut both, &volume, &entries)?;
            }
        }
        for (string, refusal) in refused_strings() {
            both.put_head(Head { mark: random.pick(&[0, position, LIMIT, u64::MAX]), ..head });
            is_refused(&format!("{} at {position}", short(&string)), &mut both, &string, refusal)?;
        }
        both.put_head(head);
    }
    Ok(())
}

/// Near the limit, with tables of any content: up to it and not past it.
fn near_the_limit(random: &mut Random, cipher: Cipher, tally: &mut Tally) -> Result<(), String> {
    let words = cipher.area_words();
    let mut both = Both::new(FRESH, random.words(words), tally);
    for (volume, entries) in volumes() {
        let length = volume.len() as u64;
        for position in [LIMIT - length - 1, LIMIT - length, LIMIT - length + 1, LIMIT - length / 2, LIMIT - 1, LIMIT] {
            for mark in [0, LIMIT, u64::MAX] {
                let case = format!("{length} bytes at {position}, mark {mark}");
                both.put_head(calls::head_at(cipher, position, mark, &both.area));
                if position + length <= LIMIT {
                    enciphers_as_cipher(&case, &mut both, &volume, &entries)?;
                    continue;
                }
                let (head, area) = (both.head, both.area.clone());
                expect(&case, both.encipher_volume(words, &volume), Err(6))?;
                if both.head != head || both.area != area {
                    return Err(format!("{case}: both sides changed head or area"));
                }
            }
        }
    }
    Ok(())
}

/// Which refusal comes first: those of the volume, then 1, 4, 5, 13 and 6, in every combination.
fn orders(random: &mut Random, cipher: Cipher, tally: &mut Tally) -> Result<(), String> {
    let words = cipher.area_words();
    let memory = random.words(words + 1);
    let mut both = Both::new(FRESH, memory.clone(), tally);
    let good = volumes().into_iter().take(3).map(|(volume, _)| (volume, None));
    let bad = refused_strings().into_iter().map(|(string, refusal)| (string, Some(refusal)));
    for (string, refusal) in good.chain(bad) {
        let length = string.len().max(1) as u64;
        for conditions in 0..32 {
            let [one, four, five, thirteen, six] = [1, 2, 4, 8, 16].map(|bit| conditions & bit != 0);
            let position = match (five, six) {
                (true, _) => random.pick(&[LIMIT + 1, (1 << 32) + 5, u64::MAX]),
                (false, true) => random.pick(&[LIMIT + 1 - length, LIMIT]),
                (false, false) => random.pick(&[0, 5, 2_047, LIMIT - length]),
            };
            let mut head = calls::head_at(cipher, position, random.next(), &memory);
            if one {
                head.code = random.pick(&NO_CIPHER);
            }
            if thirteen {
                head.word ^= 1 << random.below(32);
            }
            let lent_words = if four { random.pick(&[0, words - 1, words + 1]) } else { words };
            let of_cipher = [(one, 1), (four, 4), (five, 5), (thirteen, 13), (six, 6)];
            let of_cipher = of_cipher.into_iter().find(|(holds, _)| *holds).map(|(_, refusal)| refusal);
            let case = format!("conditions {conditions:#b}, {}", short(&string));
            both.put_head(head);
            both.put_area(&memory);
            let answer = both.encipher_volume(lent_words, &string).map_err(|text| format!("{case}, {text}"))?;
            if answer.clone().err() != refusal.or(of_cipher) {
                return Err(format!("{case}: both sides say {answer:?}, expected {:?}", refusal.or(of_cipher)));
            }
            if answer.is_err() && (both.head != head || both.area != memory) {
                return Err(format!("{case}: both sides changed head or area"));
            }
        }
    }
    Ok(())
}

/// A call of a list that is made by hand.
#[derive(Clone, Copy, Debug)]
enum Call {
    /// Enciphering of a volume of 14 bytes.
    Example,
    /// Enciphering of a volume of one byte.
    Empty,
    /// Enciphering of that volume with a byte after it and without its last byte, both refused with 16.
    Refused,
    Cipher(usize),
    Move(i64),
}

/// Calls one after the other, each with the position and the mark that it leaves. Both begin at 0.
const CALLS: [(Call, u64, u64); 28] = [
    (Call::Refused, 0, 0),
    (Call::Empty, 1, 1),
    (Call::Example, 15, 15),
    (Call::Move(-15), 0, 15),
    (Call::Cipher(0), 0, 15),
    (Call::Example, 14, 15),
    (Call::Empty, 15, 15),
    (Call::Empty, 16, 16),
    (Call::Move(-8), 8, 16),
    (Call::Example, 22, 22),
    (Call::Move(100), 122, 22),
    (Call::Cipher(0), 122, 22),
    (Call::Refused, 122, 22),
    (Call::Empty, 123, 123),
    (Call::Move(-100), 23, 123),
    (Call::Example, 37, 123),
    (Call::Cipher(86), 123, 123),
    (Call::Move(-14), 109, 123),
    (Call::Example, 123, 123),
    (Call::Cipher(1), 124, 124),
    (Call::Example, 138, 138),
    (Call::Move(-138), 0, 138),
    (Call::Empty, 1, 138),
    (Call::Refused, 1, 138),
    (Call::Move(2_040), 2_041, 138),
    (Call::Example, 2_055, 2_055),
    (Call::Move(-2_055), 0, 2_055),
    (Call::Example, 14, 2_055),
];

/// The calls of the list above from a set up and from loads; at a loaded position all its numbers count from there.
fn lists_of_calls(random: &mut Random, cipher: Cipher, tally: &mut Tally) -> Result<(), String> {
    let words = cipher.area_words();
    let mut both = set_up(random, cipher, tally)?;
    let tables = both.area.clone();
    let tables_at = |position: u64| {
        let mut area = tables.clone();
        ciphers::steps_forward(cipher, &mut area, 0, calls::steps_at(position));
        area
    };
    for from in [0, 0, 1, 5, 127, 4_090, 16_384] {
        if both.head.mark != 0 {
            let loaded = both.load(words, &calls::checkpoint(cipher, from, &tables_at(from)))?;
            loaded.map_err(|refusal| format!("load at {from} refused with {refusal}"))?;
        }
        for (number, (call, position, mark)) in CALLS.into_iter().enumerate() {
            let case = format!("from {from}, call {number}, {call:?}");
            match call {
                Call::Example => {
                    let enciphered = both.encipher_volume(words, &EXAMPLE_VOLUME)?;
                    enciphered.map_err(|refusal| format!("{case}: refused with {refusal}"))?;
                }
                Call::Empty => {
                    let enciphered = both.encipher_volume(words, &[0x00])?;
                    enciphered.map_err(|refusal| format!("{case}: refused with {refusal}"))?;
                }
                Call::Refused => {
                    for string in [&EXAMPLE_VOLUME[..13], &[&EXAMPLE_VOLUME[..], &[0x00]].concat()] {
                        expect(&case, both.encipher_volume(words, string), Err(16))?;
                    }
                }
                Call::Cipher(count) => expect(&case, both.cipher(words, &random.bytes(count)), Ok(()))?,
                Call::Move(distance) => expect(&case, both.move_by(words, distance), Ok(()))?,
            }
            if both.head != calls::head_at(cipher, from + position, from + mark, &tables_at(from + position)) {
                return Err(format!(
                    "{case}: both sides have {:?}, expected {} and mark {}",
                    both.head,
                    from + position,
                    from + mark
                ));
            }
            if both.area != tables_at(from + position) {
                return Err(format!("{case}: both sides have other tables than the key's at {}", from + position));
            }
            expect(&case, both.spent(), Ok(from + mark))?;
        }
    }
    Ok(())
}

/// A log: volumes written and enciphered one after the other from 0, with refused ones between them. A cipher call from 0 over the
/// whole log gives them all again.
fn log(random: &mut Random, cipher: Cipher, tally: &mut Tally) -> Result<(), String> {
    let words = cipher.area_words();
    let mut both = set_up(random, cipher, tally)?;
    let mut written = Vec::new();
    let mut enciphered = Vec::new();
    for round in 0..60 {
        let (volume, entries) = volumes().swap_remove(if round == 30 { 4 } else { random.below(4) as usize });
        let mut buffer = random.bytes(volume.len() + 5);
        let written_volume = both.write_volume(&entries, &buffer)?;
        if written_volume != Ok(volume.clone()) {
            return Err(format!("volume {round} of a log: both sides wrote {written_volume:?}"));
        }
        buffer[..volume.len()].copy_from_slice(&volume);
        buffer[volume.len()] = 0;
        expect("a byte too many", both.encipher_volume(words, &buffer[..volume.len() + 1]), Err(16))?;
        expect("a byte too few", both.encipher_volume(words, &buffer[..volume.len() - 1]), Err(16))?;
        let answer = both.encipher_volume(words, &volume)?;
        enciphered.extend(answer.map_err(|refusal| format!("volume {round} of a log refused with {refusal}"))?);
        written.extend(volume);
        expect("spent", both.spent(), Ok(written.len() as u64))?;
    }
    expect("move to 0", both.move_by(words, -(written.len() as i64)), Ok(()))?;
    expect("decipher the log", both.ciphered(words, &enciphered), Ok(written))
}

/// All made cases about volumes for one cipher; the result is the text of the first difference.
pub fn run(random: &mut Random, cipher: Cipher, tally: &mut Tally) -> Result<(), String> {
    let mut both = set_up(random, cipher, tally)?;
    let distance = random.pick(&POSITIONS) as i64 + 2;
    expect("move", both.move_by(cipher.area_words(), distance), Ok(()))?;
    examples(&mut both)?;
    values(&mut both)?;
    counts(&mut both)?;
    full_volumes(&mut both)?;
    third_groups(&mut both)?;
    cuts(&mut both)?;
    bytes_after(&mut both)?;
    pairs_of_faults(&mut both)?;
    rooms(&mut both)?;
    not_whole(&mut both)?;
    every_value(&mut both)?;
    if cipher == Cipher::Hc128 {
        every_two_bytes(&mut both)?;
    }
    at_positions(random, cipher, tally)?;
    near_the_limit(random, cipher, tally)?;
    orders(random, cipher, tally)?;
    lists_of_calls(random, cipher, tally)?;
    log(random, cipher, tally)
}
