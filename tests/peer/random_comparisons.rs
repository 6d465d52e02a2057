//! Random pairs of recordings, whole and damaged, each compared in both orders.

use crate::both::Both;
use crate::calls::FRESH;
use crate::comparison::{Part, Recording};
use crate::random::Random;
use crate::random_volumes::{any_entries, damaged, entries, value};
use crate::tally::Tally;
use crate::volume::{self, ENTRY};
use crate::whole::must;

/// The streams of the seed from this number on are those of pairs; the smaller ones are those of lists, volumes, tables of rates
/// and soundness.
const FIRST_STREAM: u64 = 4 << 32;

/// The most numbers of a recording's entries.
const MOST_NUMBERS: usize = 8_000;

/// Differences between two values of a number: by one, by a group, or by what is lost where bits are cut off.
const STEPS: [u32; 8] = [1, 1, 2, 127, 128, 256, 16_384, 65_536];

/// Entries of a recording, sometimes about as many as those whose count gets a second byte, and sometimes 2,000.
fn any_recording(random: &mut Random) -> Vec<u32> {
    let about_128 = random.between(122, 134);
    match random.below(48) {
        0..=5 => entries(random, about_128),
        6 => entries(random, 2_000),
        _ => any_entries(random),
    }
}

/// Another value of a number: some steps away, or any.
fn other_value(random: &mut Random, number: usize, own: u32) -> u32 {
    loop {
        let step = random.pick(&STEPS);
        let other = match random.below(3) {
            0 => own.wrapping_add(step),
            1 => own.wrapping_sub(step),
            _ => value(random, &ENTRY[number]),
        };
        if other != own && ENTRY[number].has(other) {
            return other;
        }
    }
}

/// The place of an entry in a list: often the first one or the last.
fn place(random: &mut Random, entries: &[u32]) -> usize {
    let last = entries.len() / 4 - 1;
    match random.below(4) {
        0 => 0,
        1 => last,
        _ => random.between(0, last as u64) as usize,
    }
}

/// The entries with other values in one entry: mostly in one number, sometimes in several.
fn with_other_values(random: &mut Random, mut entries: Vec<u32>) -> Vec<u32> {
    let place = place(random, &entries);
    for _ in 0..random.pick(&[1, 1, 1, 2, 3]) {
        let number = random.below(4) as usize;
        let own = entries[4 * place + number];
        entries[4 * place + number] = other_value(random, number, own);
    }
    entries
}

/// The entries of another recording of the same run: the same, with other values, with an entry more or fewer, in another order,
/// shorter or longer.
fn of_same_run(random: &mut Random, mut entries: Vec<u32>) -> Vec<u32> {
    if entries.is_empty() {
        return any_recording(random);
    }
    let place = place(random, &entries);
    match random.below(16) {
        0..=1 => {}
        2..=7 => return with_other_values(random, entries),
        8 => {
            entries.drain(4 * place..4 * place + 4);
        }
        9 => {
            let entry: Vec<u32> = ENTRY.iter().map(|number| value(random, number)).collect();
            entries.splice(4 * place..4 * place, entry);
        }
        10 => {
            let again = entries[4 * place..4 * place + 4].to_vec();
            entries.splice(4 * place..4 * place, again);
        }
        11 => {
            let next = 4 * place + 4;
            if next < entries.len() {
                entries[next - 4..next + 4].rotate_left(4);
            }
        }
        12..=13 => entries.truncate(4 * place),
        14 => entries.extend(any_entries(random)),
        _ => {
            entries.truncate(4 * place);
            entries.extend(any_entries(random));
        }
    }
    entries.truncate(MOST_NUMBERS);
    entries
}

/// Two strings of which one is damaged, or both are.
fn with_damage(random: &mut Random, [string, other]: [Vec<u8>; 2]) -> [Vec<u8>; 2] {
    match random.below(3) {
        0 => [damaged(random, string), other],
        1 => [string, damaged(random, other)],
        _ => [damaged(random, string), damaged(random, other)],
    }
}

/// Compares two strings that lie apart in memory, next to one another, or with other bytes around them.
fn compare(random: &mut Random, both: &mut Both, blender: &[u8], gauge: &[u8]) -> Result<Result<Part, u64>, String> {
    let around = match random.below(4) {
        0 => return both.compare_recordings(blender, gauge),
        1 => vec![],
        2 => vec![0x00, 0x00, 0x00, 0x01],
        _ => random.bytes(5),
    };
    let is_first = random.once_in(2);
    let [first, second] = if is_first { [blender, gauge] } else { [gauge, blender] };
    let memory = [&around, first, &around, second, &around].concat();
    let start = 2 * around.len() + first.len();
    let (first, second) = (around.len()..around.len() + first.len(), start..start + second.len());
    if is_first {
        both.compare_recordings_in(&memory, first, second)
    } else {
        both.compare_recordings_in(&memory, second, first)
    }
}

/// What the answer for a pair says about the answer for the same pair with the recordings exchanged. The part is of the same
/// string, but where the ratios are equal or both have ended. If only one string is refused, the number is the same.
fn fits_swapped(answer: Result<Part, u64>, swapped: Result<Part, u64>, is_refused: [bool; 2]) -> bool {
    match (answer, swapped) {
        (Ok(part), Ok(swapped)) => match (part.recording, swapped.recording) {
            (Recording::Blender, Recording::Blender) => (part.length == 0) == (swapped.length == 0),
            (Recording::Gauge, Recording::Gauge) => false,
            _ => part.from == swapped.from && part.length == swapped.length && part.length > 0,
        },
        (Err(refusal), Err(swapped)) => is_refused == [true, true] || (is_refused != [false, false] && refusal == swapped),
        _ => false,
    }
}

/// One pair in both orders; the result is the text of the first difference.
pub fn run(seed: u64, number: u64, tally: &mut Tally) -> Result<(), String> {
    let mut random = Random::new(seed, FIRST_STREAM + number);
    let mut both = Both::new(FRESH, random.words(16), tally);
    let entries = any_recording(&mut random);
    let mut others = if random.once_in(16) { any_recording(&mut random) } else { of_same_run(&mut random, entries.clone()) };
    if random.once_in(3) {
        others = of_same_run(&mut random, others);
    }
    let mut strings = [&entries, &others].map(|entries| volume::volume_of(entries));
    let is_whole = !random.once_in(3);
    if !is_whole {
        strings = with_damage(&mut random, strings);
    }
    let [string, other] = &strings;
    let answer = compare(&mut random, &mut both, string, other)?;
    let swapped = compare(&mut random, &mut both, other, string)?;
    must(!is_whole || answer.is_ok(), "two volumes are not refused")?;
    let is_refused = [string, other].map(|string| volume::entries_of(string).is_err());
    must(fits_swapped(answer, swapped, is_refused), &format!("{answer:?} and {swapped:?} for the exchanged recordings"))?;
    if random.once_in(4) {
        let answer = both.compare_recordings_in(string, 0..string.len(), 0..string.len())?;
        let end = Part { recording: Recording::Blender, from: string.len(), length: 0 };
        must(is_refused[0] || answer == Ok(end), "one buffer as both recordings gives its empty end")?;
        both.tally.special("recordings, one buffer as both", None);
    }
    Ok(())
}
