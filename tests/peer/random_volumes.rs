//! Random volumes, whole and damaged, and random lists of numbers to write.

use crate::both::Both;
use crate::calls::{self, FRESH};
use crate::duty;
use crate::random::Random;
use crate::rates;
use crate::tally::Tally;
use crate::volume::{self, Number, COUNT, ENTRY};
use crate::whole::must;

/// The streams of the seed from this number on are those of random volumes; the smaller ones are those of lists.
const FIRST_STREAM: u64 = 1 << 32;

/// Values on both sides of where a number gets another group.
const GROUP_EDGES: [u32; 4] = [127, 128, 16_383, 16_384];

/// A value in the range of a number: at one of its ends, where it gets another group, or any.
pub fn value(random: &mut Random, number: &Number) -> u32 {
    let edge = random.pick(&GROUP_EDGES);
    match random.below(6) {
        0 => number.smallest,
        1 => number.largest,
        2 if number.has(edge) => edge,
        3 => random.between(number.smallest as u64, number.largest.min(200) as u64) as u32,
        _ => random.between(number.smallest as u64, number.largest as u64) as u32,
    }
}

/// A value out of the range of a number: just beyond it, or one that is in it when some of its bits are cut off.
fn value_out_of_range(random: &mut Random, number: &Number) -> u32 {
    let inside = value(random, number);
    loop {
        let value = match random.below(8) {
            0..=2 => number.largest + 1,
            3 => number.smallest.wrapping_sub(1),
            4 => inside | 1 << random.between(7, 31),
            5 => random.pick(&[1 << 21, (1 << 21) + inside, (1 << 28) + inside, (1 << 31) + inside, u32::MAX]),
            6 => number.largest + random.between(1, 300) as u32,
            _ => (random.next() as u32) >> random.below(32),
        };
        if !number.has(value) {
            return value;
        }
    }
}

/// A count of entries, mostly a small one.
fn count(random: &mut Random) -> u64 {
    match random.below(64) {
        0..=7 => 0,
        8..=55 => random.between(1, 6),
        56..=60 => random.between(7, 40),
        61 => random.between(120, 135),
        62 => random.between(41, 2_000),
        _ => random.pick(&[1_999, 2_000, 2_000]),
    }
}

/// So many entries, sometimes all alike.
pub fn entries(random: &mut Random, count: u64) -> Vec<u32> {
    if random.once_in(4) {
        let entry: Vec<u32> = ENTRY.iter().map(|number| value(random, number)).collect();
        return entry.repeat(count as usize);
    }
    (0..4 * count as usize).map(|k| value(random, &ENTRY[k % 4])).collect()
}

/// A value of a number that has so many groups.
fn value_of_groups(random: &mut Random, number: &Number, groups: u32) -> u32 {
    let fewest = if groups == 1 { 0 } else { 128u32.pow(groups - 1) };
    let most = 128u32.pow(groups) - 1;
    random.between(number.smallest.max(fewest) as u64, number.largest.min(most) as u64) as u32
}

/// Entries whose volume has just this length, if there are any: none have 0, 2, 3, 4 or more than 16,002 bytes.
pub fn entries_of_length(random: &mut Random, length: u64) -> Option<Vec<u32>> {
    let start = |count: u64| if count < 128 { 1 } else { 2 };
    let counts: Vec<u64> =
        (0..=2_000).filter(|count| (start(*count) + 4 * count..=start(*count) + 8 * count).contains(&length)).collect();
    if counts.is_empty() {
        return None;
    }
    let count = random.pick(&counts);
    // Each number has one group. The others can be in minutes, twice in litres, and in ratio.
    let mut groups = vec![1; 4 * count as usize];
    let mut places: Vec<usize> = (0..count as usize).flat_map(|k| [4 * k, 4 * k + 1, 4 * k + 1, 4 * k + 2]).collect();
    for _ in 0..length - start(count) - 4 * count {
        let k = random.below(places.len() as u64) as usize;
        groups[places.swap_remove(k)] += 1;
    }
    Some((0..groups.len()).map(|k| value_of_groups(random, &ENTRY[k % 4], groups[k])).collect())
}

/// Entries of a small volume, or sometimes of a large one.
pub fn any_entries(random: &mut Random) -> Vec<u32> {
    let count = count(random);
    entries(random, count)
}

/// Where the numbers of a string begin, as far as top bits tell, and where the last one ends.
pub fn starts(string: &[u8]) -> Vec<usize> {
    [0].into_iter().chain((0..string.len()).filter(|k| string[*k] < 0x80).map(|k| k + 1)).collect()
}

/// The string with one damage, which may happen to leave a volume.
pub fn damaged(random: &mut Random, mut string: Vec<u8>) -> Vec<u8> {
    let starts = starts(&string);
    if string.is_empty() || starts.len() < 2 {
        return random.pick(&[&[][..], &[0x00], &[0x80], &[0x80, 0x80], &[0x80, 0x80, 0x80], &[0x80, 0x00]]).to_vec();
    }
    // The count is damaged more often than another number.
    let at = if random.once_in(6) { 0 } else { random.below(starts.len() as u64 - 1) as usize };
    let (start, end) = (starts[at], starts[at + 1]);
    let number = if at == 0 { &COUNT } else { &ENTRY[(at - 1) % 4] };
    let place = random.below(string.len() as u64) as usize;
    match random.below(16) {
        0 => string[place] = random.next() as u8,
        1 => string[place] ^= 1 << random.below(8),
        2 => string[place] ^= 0x80,
        3 => string.insert(place, random.next() as u8),
        4 => {
            string.remove(place);
        }
        5 => string.truncate(place),
        6 => string.truncate(random.between(start as u64, end as u64) as usize),
        7 => {
            let more = random.between(1, 9) as usize;
            string.extend(random.bytes(more));
        }
        8 => string.extend(random.pick(&[&[0x00][..], &[0x80], &[0, 0, 0, 1], &[0x80, 0x80, 0x80]])),
        9..=10 => {
            // A group of 0 too many, sometimes in a number that is out of range as well.
            let mut groups = calls::groups_of(value_of_any(random, number, &string[start..end]) as u64);
            *groups.last_mut().unwrap() |= 0x80;
            groups.push(0);
            string.splice(start..end, groups);
        }
        11 => {
            let groups = [0x80 | random.next() as u8, 0x80 | random.next() as u8, 0x80 | random.next() as u8];
            let rest = if random.once_in(2) { string.len() } else { end };
            string.splice(start..rest, groups);
        }
        12..=14 => {
            let value = value_out_of_range(random, number) % (1 << 21);
            string.splice(start..end, calls::groups_of(value as u64));
        }
        _ => {
            // Another count than there are entries.
            let count = volume::value_of(&string[..starts[1].min(3)]) as u64;
            let other = (count + random.below(3)).saturating_sub(1);
            string.splice(0..starts[1], calls::groups_of(other));
        }
    }
    string
}

/// The value that these groups have, or one that is out of the number's range.
fn value_of_any(random: &mut Random, number: &Number, groups: &[u8]) -> u32 {
    if groups.len() > 3 || random.once_in(3) {
        value_out_of_range(random, number) % (1 << 21)
    } else {
        volume::value_of(groups)
    }
}

/// How much to lend where a length is needed: mostly just that or one less.
fn near(random: &mut Random, length: usize) -> usize {
    match random.below(10) {
        0..=3 => length,
        4..=5 => length.saturating_sub(1),
        6 => length.saturating_sub(random.between(2, 5) as usize),
        7 => length + random.between(1, 20) as usize,
        8 => random.below(length as u64 + 1) as usize,
        _ => 0,
    }
}

/// A list of numbers to write: mostly whole entries in range.
fn list_to_write(random: &mut Random) -> Vec<u32> {
    let mut list = if random.once_in(100) {
        let count = random.pick(&[2_001, 2_002, 2_128, 4_096]);
        entries(random, count)
    } else {
        any_entries(random)
    };
    if !list.is_empty() && random.once_in(3) {
        for _ in 0..random.between(1, 2) {
            let place = random.below(list.len() as u64) as usize;
            list[place] = value_out_of_range(random, &ENTRY[place % 4]);
        }
    }
    if random.once_in(6) {
        for _ in 0..random.between(1, 3) {
            let more = value(random, &ENTRY[list.len() % 4]);
            list.push(more);
        }
    }
    list
}

/// Writes a list, takes the duty on what is written and reads it back.
fn write_and_read(random: &mut Random, both: &mut Both) -> Result<(), String> {
    let list = list_to_write(random);
    let length = near(random, volume::volume_of(&list).len());
    if let Ok(volume) = both.write_volume(&list, &random.bytes(length))? {
        let owed = both.volume_duty(&volume)?;
        must(owed == Ok(duty::of_entries(&both.rates, &list)), "the duty is the one on the written entries")?;
        let room = near(random, list.len()).max(list.len());
        let before = random.words(room);
        let expected = (list.len() as u64 / 4, [&list[..], &before[list.len()..]].concat());
        must(both.read_volume(&volume, &before)? == Ok(expected), "what is written is read back as the same entries")?;
    }
    Ok(())
}

/// Takes the duty on a volume, whole or damaged, reads it and writes it back.
fn read_and_write(random: &mut Random, both: &mut Both) -> Result<(), String> {
    let entries = any_entries(random);
    let mut string = volume::volume_of(&entries);
    for _ in 0..random.pick(&[0, 1, 1, 1, 1, 2, 3]) {
        string = damaged(random, string);
    }
    let room = near(random, entries.len());
    let owed = both.volume_duty(&string)?;
    let read = both.read_volume(&string, &random.words(room))?;
    let refusal_of_reading = read.as_ref().err().copied();
    if refusal_of_reading == Some(8) {
        both.tally.special("volume duty where read volume gets 8", None);
    }
    must(owed.err() == refusal_of_reading.filter(|refusal| *refusal != 8), "reading gives the refusal of the duty, or 8")?;
    if let Ok((count, list)) = read {
        let list = &list[..4 * count as usize];
        must(owed == Ok(duty::of_entries(&both.rates, list)), "the duty is the one on the entries read")?;
        let lent = near(random, string.len()).max(string.len());
        let written = both.write_volume(list, &random.bytes(lent))?;
        must(written == Ok(string), "what is read is written back as the same bytes")?;
    }
    Ok(())
}

/// Another ratio, mostly 1 to 5 hundredths away.
fn other_ratio(random: &mut Random, ratio: u32) -> u32 {
    loop {
        let hundredths = random.between(1, 5) as u32;
        let other = match random.below(3) {
            0 => ratio + hundredths,
            1 => ratio.wrapping_sub(hundredths),
            _ => value(random, &ENTRY[2]),
        };
        if other != ratio && ENTRY[2].has(other) {
            return other;
        }
    }
}

/// Takes the duty on a volume, and again after the ratio of one entry has changed. By request (f) the two differ by no more than
/// the bound. They also differ by no less than the same amount cut down, so that an amount that is too large is noticed.
pub fn change_ratio(random: &mut Random, both: &mut Both) -> Result<(), String> {
    let mut list = any_entries(random);
    if list.is_empty() {
        return Ok(());
    }
    let last = list.len() / 4 - 1;
    let place = random.between(0, last as u64) as usize;
    let entry = list[4 * place..4 * place + 4].to_vec();
    let (ratio, other) = (entry[2], other_ratio(random, entry[2]));
    let case = format!("entry {place} of {}, {entry:?}, ratio changed to {other}", last + 1);

    let refused = |refusal: u64| format!("{case}: refused with {refusal}");
    let before = both.volume_duty(&volume::volume_of(&list))?.map_err(refused)?;
    list[4 * place + 2] = other;
    let after = both.volume_duty(&volume::volume_of(&list))?.map_err(refused)?;
    let difference = before.abs_diff(after) as u128;
    let amount = duty::undivided_change(&both.rates, &entry, ratio.abs_diff(other));
    let bound = duty::most_change(&both.rates, &entry, ratio.abs_diff(other));
    must(difference <= bound, &format!("{case}: {difference} cents are no more than {bound}"))?;
    must(difference >= amount / 10_000, &format!("{case}: {difference} cents are no less than {amount} over 10,000, cut down"))?;

    let is_other_table = both.rates != rates::OURS;
    let mut special = |holds: bool, what: &str| {
        if holds {
            both.tally.special(&format!("changed ratio{what}"), None);
        }
    };
    let is_whole = amount % 10_000 == 0;
    special(!is_whole && difference == bound, ", difference is the bound rounded up");
    special(difference + 1 == bound, ", difference one less than the bound");
    special(is_whole && amount != 0, ", bound over 0 without rounding");
    special(other > ratio, " rises");
    special(other < ratio, " falls");
    special(last != 0 && place == 0, " in the first of several entries");
    special(last != 0 && place == last, " in the last of several entries");
    special(0 < place && place < last, " in an entry between two others");
    special(is_other_table, " under another table than ours");
    Ok(())
}

/// One random volume each way, and one with a changed ratio; the result is the text of the first difference.
pub fn run(seed: u64, number: u64, tally: &mut Tally) -> Result<(), String> {
    let mut random = Random::new(seed, FIRST_STREAM + number);
    let mut both = Both::new(FRESH, random.words(16), tally);
    write_and_read(&mut random, &mut both)?;
    read_and_write(&mut random, &mut both)?;
    change_ratio(&mut random, &mut both)
}
