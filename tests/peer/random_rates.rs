//! Random tables of rates, whole and damaged, loaded one after another, with duties on random volumes under the table in use.

use crate::both::Both;
use crate::calls::{self, FRESH};
use crate::duty;
use crate::random::Random;
use crate::random_volumes::{self, any_entries};
use crate::rates::{self, Rates, OURS};
use crate::tally::Tally;
use crate::volume;
use crate::whole::must;

/// The streams of the seed from this number on are those of tables of rates; the smaller ones are those of lists and volumes.
const FIRST_STREAM: u64 = 2 << 32;

/// Rates at the ends of their range and where they get another group.
const EDGES: [u32; 8] = [0, 1, 127, 128, 16_383, 16_384, 65_534, 65_535];

/// Values that are out of every range, or out of those of count and product; some are in range when bits are cut off.
const LARGE_VALUES: [u32; 14] = [9, 10, 127, 128, 129, 136, 256, 264, 16_384, 16_392, 65_536, 65_537, 65_544, 2_097_151];

/// A rate that loads.
fn rate(random: &mut Random) -> u32 {
    match random.below(5) {
        0..=1 => random.pick(&EDGES),
        2 => random.below(128) as u32,
        3 => random.below(16_384) as u32,
        _ => random.below(65_536) as u32,
    }
}

/// The pairs of a table: of all products, of none, or of any. Sometimes they are those of the table in use.
fn pairs(random: &mut Random, in_use: Rates) -> Vec<[u32; 2]> {
    if random.once_in(16) {
        return (1..).zip(in_use).filter(|(_, rate)| *rate > 0).map(|(product, rate)| [product, rate as u32]).collect();
    }
    let any = random.below(256);
    let set = random.pick(&[255, 255, 0, any, any, any, any, any]);
    let products: Vec<u32> = (1..=8).filter(|product| set >> (product - 1) & 1 == 1).collect();
    products.into_iter().map(|product| [product, rate(random)]).collect()
}

/// Pairs with one damage, which may happen to leave a table.
fn damaged_pairs(random: &mut Random, mut pairs: Vec<[u32; 2]>) -> Vec<[u32; 2]> {
    if pairs.is_empty() {
        return vec![[random.below(10) as u32, rate(random)]];
    }
    let place = random.below(pairs.len() as u64) as usize;
    let other = random.below(pairs.len() as u64) as usize;
    match random.below(6) {
        0 => pairs[place][0] = random.below(10) as u32,
        1 => pairs[place][0] = pairs[other][0],
        2 => pairs.swap(place, other),
        3 => pairs.insert(place, pairs[other]),
        4 => pairs.reverse(),
        _ => {
            let number = random.below(2) as usize;
            pairs[place][number] = random.pick(&LARGE_VALUES);
        }
    }
    pairs
}

/// The string with one damage, which may happen to leave a table.
fn damaged(random: &mut Random, mut string: Vec<u8>) -> Vec<u8> {
    let starts = random_volumes::starts(&string);
    if string.is_empty() || starts.len() < 2 {
        return random.pick(&[&[][..], &[0x00], &[0x80], &[0x80, 0x80], &[0x80, 0x80, 0x80], &[0x80, 0x00]]).to_vec();
    }
    // The count is damaged more often than another number.
    let at = if random.once_in(6) { 0 } else { random.below(starts.len() as u64 - 1) as usize };
    let (start, end) = (starts[at], starts[at + 1]);
    let place = random.below(string.len() as u64) as usize;
    match random.below(16) {
        0 => string[place] = random.next() as u8,
        1 => string[place] ^= 1 << random.below(8),
        2 => string[place] ^= 0x80,
        3 => {
            let small = random.below(10) as u8;
            let byte = random.next() as u8;
            string.insert(place, random.pick(&[small, byte]));
        }
        4 => {
            string.remove(place);
        }
        5 => string.truncate(place),
        6 => string.truncate(random.between(start as u64, end as u64) as usize),
        7 => {
            let more = random.pick(&[1, 2, 3, 5, 9, 40]);
            string.extend(random.bytes(more));
        }
        8 => string.extend(random.pick(&[&[0x00][..], &[0x80], &[0x08, 0x05], &[0x01, 0x05], &[0x80, 0x80, 0x80]])),
        9..=10 => {
            // A group of 0 too many, sometimes in a number that is out of range or not above the one before as well.
            let product = random.below(10) as u32;
            let large = random.pick(&LARGE_VALUES);
            let own = volume::value_of(&string[start..end.min(start + 3)]);
            let mut groups = calls::groups_of(random.pick(&[own, own, product, large]) as u64);
            *groups.last_mut().unwrap() |= 0x80;
            groups.push(0);
            string.splice(start..end, groups);
        }
        11 => {
            let groups = [0x80 | random.next() as u8, 0x80 | random.next() as u8, 0x80 | random.next() as u8];
            let rest = if random.once_in(2) { string.len() } else { end };
            string.splice(start..rest, groups);
        }
        12..=13 => {
            let value = random.pick(&LARGE_VALUES);
            string.splice(start..end, calls::groups_of(value as u64));
        }
        14 => {
            string.splice(start..end, []);
        }
        _ => {
            // Another count than there are pairs.
            string.splice(0..starts[1], calls::groups_of(random.below(10)));
        }
    }
    string
}

/// A short string of small numbers or of any bytes.
fn short_string(random: &mut Random) -> Vec<u8> {
    let length = random.below(12) as usize;
    let mut string = random.bytes(length);
    for byte in string.iter_mut() {
        if random.once_in(2) {
            *byte = random.pick(&[0, 1, 2, 3, 4, 5, 6, 7, 8, 9, 0x80, 0x81]);
        }
    }
    if length > 0 && random.once_in(2) {
        string[0] = random.below(5) as u8;
    }
    string
}

/// Loads a table, whole or damaged, or another string. A whole one is accepted and gives the rates of its pairs. What is refused
/// leaves the table in use.
fn load(random: &mut Random, both: &mut Both) -> Result<(), String> {
    let before = both.rates;
    let pairs = pairs(random, before);
    let whole = rates::string_of(&pairs);
    let mut string = whole.clone();
    match random.below(16) {
        0..=4 => {}
        5..=8 => string = rates::string_of(&damaged_pairs(random, pairs.clone())),
        9 => string = short_string(random),
        10..=14 => string = damaged(random, whole.clone()),
        _ => {
            for _ in 0..random.between(2, 4) {
                string = damaged(random, string);
            }
        }
    }
    // What is cut off sometimes follows in memory.
    let after = if random.once_in(2) { whole.get(string.len()..).unwrap_or(&[]) } else { &[] };
    let answer = both.load_rates_before(&string, after)?;
    if string == whole {
        let mut expected: Rates = [0; 8];
        for [product, rate] in pairs {
            expected[product as usize - 1] = rate as u16;
        }
        must(answer == Ok(()) && both.rates == expected, &format!("{string:x?} has the rates {expected:?}"))?;
    }
    must(answer.is_ok() || both.rates == before, &format!("{string:x?} is refused, and {before:?} stays"))
}

/// Takes the duty on a volume, which is whole or sometimes damaged.
fn take_duty(random: &mut Random, both: &mut Both) -> Result<(), String> {
    let entries = any_entries(random);
    let volume = volume::volume_of(&entries);
    if random.once_in(4) {
        return both.volume_duty(&random_volumes::damaged(random, volume)).map(|_| ());
    }
    let owed = both.volume_duty(&volume)?;
    must(owed == Ok(duty::of_entries(&both.rates, &entries)), "the duty is the one on the entries under the table in use")
}

/// Some loads from our rates on, with duties between them, sometimes under a table that the caller made up; the result is the text
/// of the first difference.
pub fn run(seed: u64, number: u64, tally: &mut Tally) -> Result<(), String> {
    let mut random = Random::new(seed, FIRST_STREAM + number);
    let mut both = Both::new(FRESH, random.words(16), tally);
    must(both.our_rates()? == Ok(OURS) && both.rates == OURS, "our rates are in use to begin with")?;
    for _ in 0..random.between(1, 11) {
        if random.once_in(16) {
            let any: Rates = [0; 8].map(|_| (random.next() >> random.between(48, 63)) as u16);
            both.put_rates(any);
        }
        load(&mut random, &mut both)?;
        match random.below(12) {
            0..=7 => {}
            8 => random_volumes::change_ratio(&mut random, &mut both)?,
            _ => take_duty(&mut random, &mut both)?,
        }
    }
    take_duty(&mut random, &mut both)
}
