//! The shift volume of request (d) of document 02: its writer, its reader, and the call that enciphers a written volume.

use crate::calls::{self, Head};

/// A number of a volume, with its range.
#[derive(PartialEq, Debug)]
pub struct Number {
    pub name: &'static str,
    pub smallest: u32,
    pub largest: u32,
}

/// The count of entries, with which a volume begins.
pub const COUNT: Number = Number { name: "count", smallest: 0, largest: 2_000 };

/// The four numbers of an entry, in their order.
pub const ENTRY: [Number; 4] = [
    Number { name: "minutes", smallest: 0, largest: 1_440 },
    Number { name: "litres", smallest: 0, largest: 100_000 },
    Number { name: "ratio", smallest: 0, largest: 10_000 },
    Number { name: "product", smallest: 1, largest: 8 },
];

/// The most groups of a number.
const MOST_GROUPS: usize = 3;

impl Number {
    /// Whether a value is in the range.
    pub fn has(&self, value: u32) -> bool {
        self.smallest <= value && value <= self.largest
    }
}

/// What is wrong with a string that is not a volume, at the first place in reading order.
#[derive(Clone, Copy, PartialEq, Debug)]
pub enum Fault {
    /// The string ends before the last group of this number.
    Ends(&'static Number),
    /// This number is not in shortest form.
    NotShortest(&'static Number),
    /// The third group of this number announces another.
    ThirdAnnounces(&'static Number),
    /// The value of this number is out of its range.
    OutOfRange(&'static Number),
    /// There are bytes after the last entry.
    BytesAfter,
}

impl Fault {
    /// The refusal that the fault gets.
    pub fn refusal(self) -> u64 {
        match self {
            Fault::NotShortest(_) | Fault::ThirdAnnounces(_) => 14,
            Fault::OutOfRange(_) => 15,
            Fault::Ends(_) | Fault::BytesAfter => 16,
        }
    }

    /// The refusal and what it is given for.
    pub fn kind(self) -> &'static str {
        match self {
            Fault::Ends(_) => "16 ends before the last group",
            Fault::NotShortest(_) => "14 not in shortest form",
            Fault::ThirdAnnounces(_) => "14 third group announces another",
            Fault::OutOfRange(_) => "15 out of range",
            Fault::BytesAfter => "16 bytes after the last entry",
        }
    }

    /// The number that is at fault, if the fault is in one.
    pub fn number(self) -> Option<&'static Number> {
        match self {
            Fault::Ends(number) | Fault::NotShortest(number) | Fault::ThirdAnnounces(number) | Fault::OutOfRange(number) => {
                Some(number)
            }
            Fault::BytesAfter => None,
        }
    }
}

/// The value that these groups have, the last of which announces no other.
pub fn value_of(groups: &[u8]) -> u32 {
    (0..groups.len()).map(|k| (groups[k] % 128) as u32 * 128u32.pow(k as u32)).sum()
}

/// The value of the number with which the string begins; its bytes are taken off the string. A fault of the form comes before
/// one of the range.
fn next(string: &mut &[u8], number: &'static Number) -> Result<u32, Fault> {
    let announces = |byte: &u8| *byte >= 0x80;
    if string.len() >= MOST_GROUPS && string[..MOST_GROUPS].iter().all(announces) {
        return Err(Fault::ThirdAnnounces(number));
    }
    if string.iter().all(announces) {
        return Err(Fault::Ends(number));
    }
    let groups = 1 + string.iter().position(|byte| !announces(byte)).unwrap();
    if groups >= 2 && string[groups - 1] == 0 {
        return Err(Fault::NotShortest(number));
    }
    let value = value_of(&string[..groups]);
    if !number.has(value) {
        return Err(Fault::OutOfRange(number));
    }
    *string = &string[groups..];
    Ok(value)
}

/// Whether the reader takes these bytes, all of them, as this number.
pub fn is_number(bytes: &[u8], number: &'static Number) -> bool {
    let mut left = bytes;
    next(&mut left, number).is_ok() && left.is_empty()
}

/// The number that a place of a string is for: the count in place 0, then four for each entry.
pub fn number_at(place: usize) -> &'static Number {
    match place {
        0 => &COUNT,
        _ => &ENTRY[(place - 1) % 4],
    }
}

/// How many numbers a volume has that begins with these: the count, and four for each entry where the count is known.
pub fn numbers_of_volume(numbers: &[u32]) -> usize {
    1 + 4 * numbers.first().map_or(0, |count| *count as usize)
}

/// The numbers of a string before its first fault, the count among them, and the bytes that follow them.
pub fn numbers_before_fault(string: &[u8]) -> (Vec<u32>, &[u8]) {
    let (mut numbers, mut left) = (Vec::new(), string);
    while numbers.len() < numbers_of_volume(&numbers) {
        match next(&mut left, number_at(numbers.len())) {
            Ok(value) => numbers.push(value),
            Err(_) => break,
        }
    }
    (numbers, left)
}

/// Adds the numbers of a volume's entries to a list, up to the first fault.
fn read_into(volume: &[u8], entries: &mut Vec<u32>) -> Result<(), Fault> {
    let mut left = volume;
    let count = next(&mut left, &COUNT)?;
    for _ in 0..count {
        for number in &ENTRY {
            entries.push(next(&mut left, number)?);
        }
    }
    if !left.is_empty() {
        return Err(Fault::BytesAfter);
    }
    Ok(())
}

/// The entries of a volume as one list, or the first fault.
pub fn entries_of(volume: &[u8]) -> Result<Vec<u32>, Fault> {
    let mut entries = Vec::new();
    read_into(volume, &mut entries)?;
    Ok(entries)
}

/// The whole entries before the first fault as one list.
pub fn entries_before_fault(volume: &[u8]) -> Vec<u32> {
    let mut entries = Vec::new();
    let _ = read_into(volume, &mut entries);
    entries.truncate(entries.len() / 4 * 4);
    entries
}

/// Read volume, which returns the count. Later elements of the list stay.
pub fn read(volume: &[u8], list: &mut [u32]) -> Result<u64, u64> {
    let entries = entries_of(volume).map_err(Fault::refusal)?;
    if list.len() < entries.len() {
        return Err(8);
    }
    list[..entries.len()].copy_from_slice(&entries);
    Ok(entries.len() as u64 / 4)
}

/// The first number whose value in a list of whole entries is out of range. The count leads.
pub fn out_of_range(list: &[u32]) -> Option<&'static Number> {
    if list.len() / 4 > COUNT.largest as usize {
        return Some(&COUNT);
    }
    (0..list.len()).find(|k| !ENTRY[k % 4].has(list[*k])).map(|k| &ENTRY[k % 4])
}

/// The volume of a list of whole entries.
pub fn volume_of(list: &[u32]) -> Vec<u8> {
    let count = list.len() as u64 / 4;
    [count].into_iter().chain(list.iter().map(|value| *value as u64)).flat_map(calls::groups_of).collect()
}

/// Write volume, which returns the length. Later bytes stay.
pub fn write(list: &[u32], lent: &mut [u8]) -> Result<usize, u64> {
    if list.len() % 4 != 0 {
        return Err(16);
    }
    if out_of_range(list).is_some() {
        return Err(15);
    }
    let volume = volume_of(list);
    if lent.len() < volume.len() {
        return Err(8);
    }
    lent[..volume.len()].copy_from_slice(&volume);
    Ok(volume.len())
}

/// Encipher volume: the refusals of reading without 8, then the cipher call.
pub fn encipher(head: &mut Head, area: &mut [u32], volume: &mut [u8]) -> Result<(), u64> {
    entries_of(volume).map_err(Fault::refusal)?;
    calls::cipher(head, area, volume)
}
