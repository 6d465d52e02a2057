//! Random strings of which the soundness is taken, with volumes that begin with them and with other strings that do.

use crate::both::Both;
use crate::calls::FRESH;
use crate::random::Random;
use crate::random_volumes::{any_entries, damaged, starts};
use crate::soundness::{self, Soundness};
use crate::soundnesses::EDGES;
use crate::tally::Tally;
use crate::volume;
use crate::whole::must;

/// The streams of the seed from this number on are those of soundness; the smaller ones are those of lists, volumes and tables of
/// rates.
const FIRST_STREAM: u64 = 3 << 32;

/// Strings longer than this get fewer calls.
const LONG: usize = 400;

/// Some bytes, of which about half are at an edge.
fn bytes(random: &mut Random, count: usize) -> Vec<u8> {
    (0..count).map(|_| if random.once_in(2) { random.pick(&EDGES) } else { random.next() as u8 }).collect()
}

/// A short string of any bytes or of bytes at the edges, often with a small count before it.
fn short_string(random: &mut Random) -> Vec<u8> {
    let length = random.below(14) as usize;
    let mut string = match random.below(3) {
        0 => random.bytes(length),
        1 => (0..length).map(|_| random.pick(&EDGES)).collect(),
        _ => bytes(random, length),
    };
    if length > 0 && random.once_in(2) {
        string[0] = random.between(1, 5) as u8;
    }
    string
}

/// The string with other bytes at the edges in the place of a number, which is often the last one.
fn with_other_number(random: &mut Random, mut string: Vec<u8>) -> Vec<u8> {
    let starts = starts(&string);
    if starts.len() < 2 {
        return string;
    }
    let at = if random.once_in(8) { 0 } else { random.below(starts.len() as u64 - 1) as usize };
    let first = (0..random.below(3)).map(|_| 0x80 | random.pick(&EDGES));
    let mut number: Vec<u8> = first.collect();
    number.push(random.pick(&EDGES));
    let end = if random.once_in(3) { string.len() } else { starts[at + 1] };
    string.splice(starts[at]..end, number);
    string
}

/// A string: whole, damaged, cut, lengthened, short or empty; and the volume from which it was made, if it was made from one.
fn string(random: &mut Random) -> (Vec<u8>, Option<Vec<u8>>) {
    if random.once_in(4) {
        return (short_string(random), None);
    }
    let volume = volume::volume_of(&any_entries(random));
    let mut string = volume.clone();
    match random.below(12) {
        0 => {}
        1..=2 => string.truncate(random.below(volume.len() as u64) as usize),
        3 => {
            let more = random.pick(&[1, 1, 2, 3, 9, 200]);
            string.extend(bytes(random, more));
        }
        4..=7 => string = with_other_number(random, string),
        8..=10 => string = damaged(random, string),
        _ => {
            for _ in 0..random.between(2, 4) {
                string = if random.once_in(2) { damaged(random, string) } else { with_other_number(random, string) };
            }
        }
    }
    (string, Some(volume))
}

/// A beginning that can be completed: with the bytes after it that are found by trying, the archive accepts it and says that it is
/// sound.
fn can_be_completed(random: &mut Random, both: &mut Both, beginning: &[u8]) -> Result<(), String> {
    let Some(volume) = soundness::completed_at_random(random, beginning) else {
        return Err(format!("{beginning:x?} can be completed, but not with each string that the peer takes for its last number"));
    };
    must(volume.starts_with(beginning), "what completes a beginning begins with it")?;
    let numbers = volume::numbers_before_fault(&volume).0.len() - 1;
    let read = both.read_volume(&volume, &vec![7; numbers])?;
    must(read.is_ok(), &format!("{beginning:x?} can be completed, and reading accepts it then"))?;
    let answer = both.volume_soundness(&volume)?;
    must(answer == Ok(Soundness::Sound), &format!("{beginning:x?} can be completed, and is sound then"))?;
    both.tally.special("soundness of a completed beginning", None);
    Ok(())
}

/// A beginning that can't be completed: whatever follows it, reading refuses it and the answer is the same.
fn stays_hopeless(random: &mut Random, both: &mut Both, beginning: &[u8]) -> Result<(), String> {
    let count = random.below(12) as usize;
    let after = match random.below(4) {
        0 => vec![],
        1 => random.bytes(count),
        2 => bytes(random, count),
        _ => vec![0x00, 0x00, 0x00, 0x01].repeat(count),
    };
    let string = [beginning, &after].concat();
    let room = string.len();
    let read = both.read_volume(&string, &vec![7; room])?;
    must(read.is_err(), &format!("{beginning:x?} is hopeless, and with {after:x?} reading refuses it"))?;
    let answer = both.volume_soundness(&string)?;
    let expected = Ok(Soundness::Hopeless(beginning.len()));
    must(answer == expected, &format!("{beginning:x?} is hopeless, and with {after:x?} it is so at the same length"))?;
    both.tally.special("soundness of a lengthened hopeless beginning", None);
    Ok(())
}

/// The soundness of one string, which decides on those of its beginnings and of what begins with it; the result is the text of the
/// first difference.
pub fn run(seed: u64, number: u64, tally: &mut Tally) -> Result<(), String> {
    let mut random = Random::new(seed, FIRST_STREAM + number);
    let mut both = Both::new(FRESH, random.words(16), tally);
    let (string, volume) = string(&mut random);
    let beyond = volume.as_ref().and_then(|volume| volume.get(string.len()..)).unwrap_or(&[]);
    // What is cut off sometimes follows in memory.
    let after = if random.once_in(2) { beyond } else { &[] };
    let Ok(answer) = both.volume_soundness_before(&string, after)? else {
        return Err("the soundness is refused".to_string());
    };
    if volume.as_ref().is_some_and(|volume| volume.starts_with(&string)) {
        let expected = if beyond.is_empty() { Soundness::Sound } else { Soundness::Cut };
        must(answer == expected, &format!("{expected:?} is what a volume is without its last {} bytes", beyond.len()))?;
    }

    let times = if string.len() > LONG { 1 } else { 3 };
    match answer {
        Soundness::Sound => {
            let length = random.below(string.len() as u64) as usize;
            let cut = both.volume_soundness_before(&string[..length], &string[length..])?;
            must(cut == Ok(Soundness::Cut), &format!("the first {length} bytes of {string:x?} are cut"))?;
            can_be_completed(&mut random, &mut both, &string[..length])?;
            let longer = [&string[..], &[random.pick(&EDGES)]].concat();
            stays_hopeless(&mut random, &mut both, &longer)?;
        }
        Soundness::Cut => {
            for _ in 0..times {
                can_be_completed(&mut random, &mut both, &string)?;
            }
        }
        Soundness::Hopeless(length) => {
            for _ in 0..times {
                stays_hopeless(&mut random, &mut both, &string[..length])?;
            }
            can_be_completed(&mut random, &mut both, &string[..length - 1])?;
            let shorter = random.below(length as u64) as usize;
            can_be_completed(&mut random, &mut both, &string[..shorter])?;
            let answer = both.volume_soundness_before(&string[..shorter], &string[shorter..])?;
            let is_hopeless = matches!(answer, Ok(Soundness::Hopeless(_)));
            must(!is_hopeless, &format!("{string:x?} is hopeless at {length} and not at {shorter}"))?;
        }
    }
    Ok(())
}
