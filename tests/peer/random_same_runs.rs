//! Random pairs of checkpoints, whole and damaged, of one run or of two, each in both orders.

use crate::both::Both;
use crate::calls::{self, FRESH, LIMIT};
use crate::ciphers::{self, Cipher};
use crate::random::Random;
use crate::same_run;
use crate::tally::Tally;
use crate::whole::must;

/// The streams of the seed from this number on are those of pairs of checkpoints; the smaller ones are those of lists, volumes,
/// tables of rates, soundness and recordings.
const FIRST_STREAM: u64 = 5 << 32;

/// One pair in so many is of one run and has a position of four bytes.
const FAR_PAIRS: u64 = 600;

/// The words of memory for areas, as many as the larger cipher needs.
const MEMORY_WORDS: usize = 2048;

/// A cipher with a key and an IV.
#[derive(Clone, PartialEq)]
struct Run {
    cipher: Cipher,
    key: Vec<u8>,
    iv: Vec<u8>,
}

/// Mostly any key and IV, sometimes all bytes of 0 or of 0xFF, or the same bytes as both.
fn any_run(random: &mut Random, cipher: Cipher) -> Run {
    let bytes = cipher.key_bytes();
    let (key, iv) = (random.bytes(bytes), random.bytes(bytes));
    match random.below(12) {
        0 => Run { cipher, key: vec![0; bytes], iv: vec![0; bytes] },
        1 => Run { cipher, key: vec![0xFF; bytes], iv },
        2 => Run { cipher, key: key.clone(), iv: key },
        _ => Run { cipher, key, iv },
    }
}

/// The bytes with one bit changed, or with the bytes of one word exchanged with those of the next.
fn changed(random: &mut Random, bytes: &[u8]) -> Vec<u8> {
    let mut changed = bytes.to_vec();
    if random.once_in(4) {
        let word = 4 * random.below(bytes.len() as u64 / 4 - 1) as usize;
        changed[word..word + 8].rotate_left(4);
    } else {
        let bit = random.below(8 * bytes.len() as u64) as usize;
        changed[bit / 8] ^= 1 << (bit % 8);
    }
    changed
}

/// Another key or IV of the same cipher, or both. The bytes may happen to be the same.
fn other_run(random: &mut Random, run: &Run) -> Run {
    let Run { cipher, key, iv } = run.clone();
    let any = random.bytes(key.len());
    match random.below(8) {
        0..=1 => Run { cipher, key: changed(random, &key), iv },
        2..=3 => Run { cipher, iv: changed(random, &iv), key },
        4 => Run { cipher, key: iv, iv: key },
        5 => Run { cipher, key: any, iv },
        6 => Run { cipher, key, iv: any },
        _ => any_run(random, cipher),
    }
}

/// A position at the start, around one at which a number gets another byte, around the end of a table's turn, or any of 30,000.
fn position(random: &mut Random) -> u64 {
    match random.below(6) {
        0 => random.pick(&[0, 0, 1, 2, 3, 4, 5, 8, 9]),
        1 => random.between(120, 136),
        2 => random.between(16_376, 16_392),
        3 => random.between(1, 9) * 2048 + random.below(14) - 7,
        4 => random.below(300),
        _ => random.below(30_000),
    }
}

/// A position for the second checkpoint: mostly any, else the same one, another one in the same word, or a near one.
fn other_position(random: &mut Random, of: u64) -> u64 {
    match random.below(8) {
        0 => of,
        1 if of > 0 => 4 * ((of - 1) / 4) + random.between(1, 4),
        2 => (of + random.below(17)).saturating_sub(8),
        _ => position(random),
    }
}

/// The checkpoint of a run at a position, from the peer's tables.
fn of_tables(run: &Run, position: u64) -> Vec<u8> {
    let mut area = ciphers::set_up(run.cipher, &ciphers::words_of_bytes(&run.key), &ciphers::words_of_bytes(&run.iv));
    ciphers::steps_forward(run.cipher, &mut area, 0, calls::steps_at(position));
    calls::checkpoint(run.cipher, position, &area)
}

/// The checkpoint of a run at a position, written after a set up, sometimes a cipher call, and moves that come there.
fn of_calls(random: &mut Random, both: &mut Both, run: &Run, position: u64) -> Result<Vec<u8>, String> {
    let words = run.cipher.area_words();
    both.set_up(words, run.cipher.code(), &run.key, &run.iv)?.map_err(|_| "set up refused")?;
    if random.once_in(2) {
        let bytes = random.below(2 * position.min(3_000) + 2) as usize;
        both.cipher(words, &random.bytes(bytes))?.map_err(|_| "cipher refused")?;
    }
    let beyond = if random.once_in(3) { position + random.below(5_000) } else { position };
    for end in [beyond.min(LIMIT), position] {
        let distance = end as i64 - both.head.position as i64;
        both.move_by(words, distance)?.map_err(|_| "move refused")?;
    }
    let length = calls::checkpoint_length(run.cipher.code(), position).map_err(|_| "no such position")?;
    Ok(both.write(words, &random.bytes(length))?.map_err(|_| "write refused")?)
}

/// The string with one damage, which may happen to leave a checkpoint. The other one has tables that it may get.
fn damaged(random: &mut Random, string: &[u8], other: &[u8]) -> Vec<u8> {
    let start = string.len() - 4 * same_run::area_words(string);
    let other_start = other.len() - 4 * same_run::area_words(other);
    let (code, number, tables) = (string[0], &string[1..start], &string[start..]);
    let announcing = |byte: u8| byte | 0x80;
    let with_number = |number: &[u8]| [&[code], number, tables].concat();
    match random.below(15) {
        0 => vec![],
        1..=2 => {
            let groups: Vec<u8> = random.bytes(3).into_iter().map(announcing).collect();
            [&[code], &groups[..random.below(4) as usize]].concat()
        }
        3..=4 => {
            let any = random.between(3, 255) as u8;
            let code = random.pick(&[0, 3, 4, code + 0x80, 255, any]);
            let after = if random.once_in(4) { random.between(1, 6) as usize } else { string.len() };
            [&[code], &string[1..after]].concat()
        }
        5 => {
            let groups: Vec<u8> = random.bytes(4).into_iter().map(announcing).collect();
            let after = if random.once_in(2) { 0 } else { tables.len() };
            [&[code], &groups[..], &tables[..after]].concat()
        }
        6 => {
            let mut longer: Vec<u8> = number.iter().map(|byte| announcing(*byte)).collect();
            longer.push(0);
            with_number(&longer)
        }
        7..=8 => {
            let any = random.between(LIMIT + 1, (1 << 28) - 1);
            let over = calls::groups_of(random.pick(&[LIMIT + 1, LIMIT + 5, (1 << 28) - 1, any]));
            let after = if random.once_in(4) { random.below(9) as usize } else { tables.len() };
            [&[code], &over[..], &tables[..after]].concat()
        }
        9 => string[..string.len() - random.pick(&[1, 1, 2, 4, tables.len() / 2])].to_vec(),
        10 => {
            let more = random.pick(&[1, 1, 2, 4, tables.len()]);
            [string, &random.bytes(more)].concat()
        }
        11..=12 => {
            let bit = random.below(8 * tables.len() as u64) as usize;
            let mut changed = string.to_vec();
            changed[start + bit / 8] ^= 1 << (bit % 8);
            changed
        }
        13 => [&string[..start], &other[other_start..]].concat(),
        _ => {
            let wrong = position(random);
            with_number(&calls::groups_of(wrong))
        }
    }
}

/// Two strings of which one is damaged, or both are.
fn with_damage(random: &mut Random, [first, second]: &[Vec<u8>; 2]) -> [Vec<u8>; 2] {
    let of_first = damaged(random, first, second);
    let of_second = damaged(random, second, first);
    match random.below(4) {
        0 => [of_first, second.clone()],
        1 => [first.clone(), of_second],
        _ => [of_first, of_second],
    }
}

/// Whether a pair is answered in both orders as it must be: alike where neither string is refused, else with the number of the
/// first one that is.
fn fits_swapped(answer: Result<bool, u64>, swapped: Result<bool, u64>, refusals: [Option<u64>; 2]) -> bool {
    match refusals {
        [None, None] => answer == swapped && answer.map_or_else(|refusal| refusal == 23, |_| true),
        [Some(refusal), None] | [None, Some(refusal)] => answer == Err(refusal) && swapped == Err(refusal),
        [Some(of_first), Some(of_second)] => answer == Err(of_first) && swapped == Err(of_second),
    }
}

/// One pair in both orders; the result is the text of the first difference.
pub fn run(seed: u64, number: u64, tally: &mut Tally) -> Result<(), String> {
    let mut random = Random::new(seed, FIRST_STREAM + number);
    let is_far = number % FAR_PAIRS == FAR_PAIRS / 2;
    let any = random.pick(&[Cipher::Hc128, Cipher::Hc256]);
    let cipher = if is_far { [Cipher::Hc128, Cipher::Hc256][(number / FAR_PAIRS % 2) as usize] } else { any };
    let run = any_run(&mut random, cipher);
    let other = match random.below(16) {
        0..=6 => run.clone(),
        _ if is_far => run.clone(),
        7..=11 => other_run(&mut random, &run),
        _ => {
            let of_other = if cipher == Cipher::Hc128 { Cipher::Hc256 } else { Cipher::Hc128 };
            any_run(&mut random, of_other)
        }
    };
    let p = if is_far { 2_097_152 + random.below(9) } else { position(&mut random) };
    let q = other_position(&mut random, p);
    let mut both = Both::new(FRESH, random.words(MEMORY_WORDS), tally);
    let mut strings = [vec![], vec![]];
    for ((run, position), string) in [(&run, p), (&other, q)].into_iter().zip(&mut strings) {
        let is_by_calls = random.once_in(3);
        *string = if is_by_calls { of_calls(&mut random, &mut both, run, position)? } else { of_tables(run, position) };
    }
    let is_whole = is_far || !random.once_in(3);
    if !is_whole {
        strings = with_damage(&mut random, &strings);
    }

    let [first, second] = &strings;
    let answer = both.same_run(first, second)?;
    let swapped = both.same_run(second, first)?;
    if is_whole {
        // The answer from what the two runs were made of.
        let expected = if run.cipher == other.cipher { Ok(run == other) } else { Err(23) };
        must(answer == expected && swapped == expected, &format!("{answer:?} and {swapped:?}, expected {expected:?}"))?;
    } else {
        let refusals = [first, second].map(|string| same_run::refusal_of(string));
        let fits = fits_swapped(answer, swapped, refusals);
        must(fits, &format!("{answer:?} and {swapped:?} in the other order, {refusals:?} alone"))?;
    }
    if random.once_in(4) {
        let string = if random.once_in(2) { first } else { second };
        let answer = both.same_run(string, string)?;
        let expected = same_run::refusal_of(string).map_or(Ok(true), Err);
        must(answer == expected, &format!("{answer:?} for one string twice, expected {expected:?}"))?;
    }
    Ok(())
}
