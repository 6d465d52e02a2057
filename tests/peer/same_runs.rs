//! Cases made by hand about two checkpoints, with the answer that request (m) of document 02 and the C header give for each pair.

use crate::both::Both;
use crate::calls::{self, Head, FRESH, LIMIT};
use crate::ciphers::{self, Cipher};
use crate::made::{expect, from_expanded};
use crate::tally::Tally;
use crate::volumes::EXAMPLE_VOLUME;
use crate::whole::must;
use Call::{CipherCall, Load, Move, SetUp, SetUpOther, Volume};
use Is::{No, Refused, Yes};

/// The answer for a pair.
#[derive(Clone, Copy, PartialEq, Debug)]
enum Is {
    Yes,
    No,
    Refused(u64),
}

impl Is {
    fn answer(self) -> Result<bool, u64> {
        match self {
            Yes => Ok(true),
            No => Ok(false),
            Refused(refusal) => Err(refusal),
        }
    }
}

/// A cipher with a key and an IV.
#[derive(Clone, PartialEq)]
pub struct Run {
    pub cipher: Cipher,
    pub key: Vec<u8>,
    pub iv: Vec<u8>,
}

/// Positions at the first words, on both sides of each change of a number's bytes and of the ends of turns, with their bytes.
const POSITIONS: [(u64, &[u8]); 22] = [
    (0, &[0x00]),
    (1, &[0x01]),
    (2, &[0x02]),
    (3, &[0x03]),
    (4, &[0x04]),
    (5, &[0x05]),
    (126, &[0x7E]),
    (127, &[0x7F]),
    (128, &[0x80, 0x01]),
    (129, &[0x81, 0x01]),
    (300, &[0xAC, 0x02]),
    (2_047, &[0xFF, 0x0F]),
    (2_048, &[0x80, 0x10]),
    (2_049, &[0x81, 0x10]),
    (4_096, &[0x80, 0x20]),
    (4_097, &[0x81, 0x20]),
    (8_192, &[0x80, 0x40]),
    (8_193, &[0x81, 0x40]),
    (16_383, &[0xFF, 0x7F]),
    (16_384, &[0x80, 0x80, 0x01]),
    (16_385, &[0x81, 0x80, 0x01]),
    (16_388, &[0x84, 0x80, 0x01]),
];

/// Positions around the first one of four bytes, with their bytes.
const FAR_POSITIONS: [(u64, &[u8]); 3] =
    [(2_097_151, &[0xFF, 0xFF, 0x7F]), (2_097_152, &[0x80, 0x80, 0x80, 0x01]), (2_097_153, &[0x81, 0x80, 0x80, 0x01])];

/// Positions at the limit and five bytes before it, with their bytes.
const LAST_POSITIONS: [(u64, &[u8]); 2] = [(67_108_859, &[0xFB, 0xFF, 0xFF, 0x1F]), (67_108_864, &[0x80, 0x80, 0x80, 0x20])];

/// Pairs of positions for runs of which the answer is the same at all positions.
const SOME_PAIRS: [(u64, u64); 8] = [(0, 0), (0, 5), (5, 0), (77, 77), (1, 4), (130, 3), (2_047, 2_049), (4_100, 90)];

/// A call of a list, which starts with a set up.
#[derive(Clone, Copy, Debug)]
enum Call {
    /// Cipher of so many bytes.
    CipherCall(usize),
    /// Move by this distance.
    Move(i64),
    /// Enciphering of the example volume, which has 14 bytes.
    Volume,
    /// Set up with the key and IV of the run once more.
    SetUp,
    /// Set up with another key and IV.
    SetUpOther,
    /// Write, and load of what was written.
    Load,
}

/// Lists of calls after a set up, with the positions at which they end.
const LISTS: [(&[Call], u64); 17] = [
    (&[], 0),
    (&[CipherCall(0)], 0),
    (&[CipherCall(1)], 1),
    (&[CipherCall(4)], 4),
    (&[Move(5)], 5),
    (&[CipherCall(3), CipherCall(2)], 5),
    (&[CipherCall(200), Move(-195)], 5),
    (&[CipherCall(3_000), Move(-3_000)], 0),
    (&[Move(4_096), CipherCall(33)], 4_129),
    (&[CipherCall(2_047), Move(2), Move(-1)], 2_048),
    (&[Volume], 14),
    (&[Volume, Move(-14), CipherCall(14), Volume], 28),
    (&[Move(16_383), CipherCall(1)], 16_384),
    (&[CipherCall(10), SetUp, CipherCall(7)], 7),
    (&[SetUpOther, CipherCall(9), SetUp, Move(12)], 12),
    (&[Move(130), Load, Move(-2)], 128),
    (&[CipherCall(9_000), Load, Move(-9_000), Load, CipherCall(127), Load], 127),
];

impl Run {
    /// The tables at a position.
    pub fn tables(&self, position: u64) -> Vec<u32> {
        let mut area = ciphers::set_up(self.cipher, &ciphers::words_of_bytes(&self.key), &ciphers::words_of_bytes(&self.iv));
        ciphers::steps_forward(self.cipher, &mut area, 0, calls::steps_at(position));
        area
    }

    /// The checkpoint at a position.
    pub fn at(&self, position: u64) -> Vec<u8> {
        calls::checkpoint(self.cipher, position, &self.tables(position))
    }

    /// Checkpoints at positions that stand in increasing order, each with its bytes.
    fn at_all(&self, positions: &[(u64, &[u8])]) -> Vec<(u64, Vec<u8>)> {
        let mut area = self.tables(0);
        let mut steps = 0;
        let mut strings = Vec::new();
        for (position, number) in positions {
            ciphers::steps_forward(self.cipher, &mut area, steps, calls::steps_at(*position));
            steps = calls::steps_at(*position);
            strings.push((*position, [&[self.cipher.code() as u8], *number, &ciphers::bytes_of_words(&area)].concat()));
        }
        strings
    }
}

/// A run of a cipher whose key bytes count up from one number, and whose IV bytes from another.
pub fn counting(cipher: Cipher, key: u8, iv: u8) -> Run {
    let bytes = cipher.key_bytes() as u8;
    Run { cipher, key: (key..key + bytes).collect(), iv: (iv..iv + bytes).collect() }
}

/// A run whose key bytes are all alike, and whose IV bytes are, too.
pub fn alike(cipher: Cipher, key: u8, iv: u8) -> Run {
    let bytes = cipher.key_bytes();
    Run { cipher, key: vec![key; bytes], iv: vec![iv; bytes] }
}

/// The other cipher.
pub fn other_cipher(cipher: Cipher) -> Cipher {
    match cipher {
        Cipher::Hc128 => Cipher::Hc256,
        Cipher::Hc256 => Cipher::Hc128,
    }
}

/// One pair.
fn answers(case: &str, both: &mut Both, first: &[u8], second: &[u8], is: Is) -> Result<(), String> {
    expect(case, both.same_run(first, second), is.answer())
}

/// One pair in both orders, with one answer.
fn answers_both(case: &str, both: &mut Both, first: &[u8], second: &[u8], is: Is) -> Result<(), String> {
    answers(case, both, first, second, is)?;
    answers(&format!("{case}, in the other order"), both, second, first, is)
}

/// One pair in both orders, where the strings lie apart in memory, or one right behind the other.
fn answers_anywhere(case: &str, both: &mut Both, first: &[u8], second: &[u8], is: Is, swapped: Is) -> Result<(), String> {
    let between = [0xA5; 40];
    for (one, other, is, swapped, order) in [(first, second, is, swapped, ""), (second, first, swapped, is, ", swapped")] {
        for (between, place) in [(&between[..], "apart"), (&[], "right behind")] {
            let memory = [one, between, other].concat();
            let (in_front, behind) = (0..one.len(), one.len() + between.len()..memory.len());
            let case = format!("{case}{order}, {place}");
            expect(&case, both.same_run_in(&memory, in_front.clone(), behind.clone()), is.answer())?;
            expect(&format!("{case}, lent the other way round"), both.same_run_in(&memory, behind, in_front), swapped.answer())?;
        }
    }
    Ok(())
}

/// Every two positions, of one run and of two, and the same string twice.
fn positions(both: &mut Both, cipher: Cipher) -> Result<(), String> {
    let run = counting(cipher, 0x10, 0x90);
    let other = counting(cipher, 0x10, 0x91);
    let [strings, others] = [&run, &other].map(|run| run.at_all(&POSITIONS));
    for (p, first) in &strings {
        for ((q, second), (_, of_other)) in strings.iter().zip(&others) {
            answers(&format!("one run at {p} and {q}"), both, first, second, Yes)?;
            answers(&format!("two runs at {p} and {q}"), both, first, of_other, No)?;
        }
        expect(&format!("one buffer at {p}"), both.same_run_in(first, 0..first.len(), 0..first.len()), Ok(true))?;
        answers_anywhere(&format!("the same string at {p}"), both, first, first, Yes, Yes)?;
        must(run.at(*p) == *first, &format!("the bytes of position {p}"))?;
    }
    Ok(())
}

/// Positions of four bytes.
fn far_positions(both: &mut Both, cipher: Cipher) -> Result<(), String> {
    let run = counting(cipher, 0x20, 0x80);
    let other = counting(cipher, 0x21, 0x80);
    let far = run.at_all(&FAR_POSITIONS);
    let of_other = &other.at_all(&FAR_POSITIONS[1..2])[0].1;
    for (p, string) in &far {
        answers_both(&format!("one run at {p} and 1"), both, string, &run.at(1), Yes)?;
        answers(&format!("one run at 16,384 and {p}"), both, &run.at(16_384), string, Yes)?;
        answers(&format!("one run at {p} and 2,097,152"), both, string, &far[1].1, Yes)?;
    }
    answers("two runs at 2,097,152", both, &far[1].1, of_other, No)?;
    answers_both("two runs at 2,097,152 and 0", both, of_other, &run.at(0), No)?;
    // The tables at 2,097,152 are those at 2,097,151, and those at 2,097,153 are others.
    let tables_at = |k: usize| &far[k].1[1 + FAR_POSITIONS[k].1.len()..];
    must(tables_at(0) == tables_at(1), "the tables at 2,097,151 are those at 2,097,152")?;
    let stated = [&far[2].1[..5], tables_at(1)].concat();
    answers_both("tables of 2,097,152 at 2,097,153", both, &stated, &far[1].1, Refused(12))?;
    let two = counting(other_cipher(cipher), 0x20, 0x80).at(7);
    answers_both("two ciphers at 2,097,152 and 7", both, &far[1].1, &two, Refused(23))?;
    answers(&format!("refused with 12, then two ciphers, at {}", far[2].0), both, &two, &stated, Refused(12))
}

/// Positions at the limit and near it, with a true key and IV.
fn last_positions(both: &mut Both, cipher: Cipher) -> Result<(), String> {
    let run = counting(cipher, 0x30, 0x70);
    let last = run.at_all(&LAST_POSITIONS);
    let [near, limit] = [&last[0].1, &last[1].1];
    answers("one run at 5 and at the limit", both, &run.at(5), limit, Yes)?;
    answers("one run at the limit and five bytes before", both, limit, near, Yes)?;
    answers("one run five bytes before the limit and at 5", both, near, &run.at(5), Yes)?;
    answers("two runs, five bytes before the limit and at 5", both, near, &counting(cipher, 0x30, 0x71).at(5), No)?;
    // One more is over the limit, and no byte of the tables is looked at.
    let over = [&[cipher.code() as u8, 0x81, 0x80, 0x80, 0x20], &limit[5..]].concat();
    answers_both("a byte over the limit", both, &over, &run.at(5), Refused(5))?;
    answers("no bytes, then a byte over the limit", both, &[], &over, Refused(9))
}

/// Two runs of which one bit of the key or of the IV is different: each bit in turn, and every ninth where both are 0.
fn one_bit(both: &mut Both, cipher: Cipher) -> Result<(), String> {
    for (run, step) in [(counting(cipher, 0x40, 0xC0), 1), (alike(cipher, 0x00, 0x00), 9)] {
        let strings = SOME_PAIRS.map(|(p, _)| run.at(p));
        for bit in (0..8 * cipher.key_bytes()).step_by(step) {
            for is_in_key in [true, false] {
                let mut other = run.clone();
                let changed = if is_in_key { &mut other.key } else { &mut other.iv };
                changed[bit / 8] ^= 1 << (bit % 8);
                let pair = (bit + bit / 8) % SOME_PAIRS.len();
                let (p, q) = SOME_PAIRS[pair];
                let case = format!("bit {bit} of the {} at {p} and {q}", if is_in_key { "key" } else { "IV" });
                answers_both(&case, both, &strings[pair], &other.at(q), No)?;
            }
        }
    }
    Ok(())
}

/// Other keys and IVs that have much in common.
fn in_common(both: &mut Both, cipher: Cipher) -> Result<(), String> {
    let run = counting(cipher, 0x40, 0xC0);
    let half = cipher.key_bytes() / 2;
    let with = |key: Vec<u8>, iv: Vec<u8>| Run { cipher, key, iv };
    let turned = |bytes: &[u8], by: usize| [&bytes[by..], &bytes[..by]].concat();
    let reversed = |bytes: &[u8]| bytes.iter().rev().copied().collect::<Vec<u8>>();
    let changed = |bytes: &[u8]| bytes.iter().enumerate().map(|(k, byte)| byte ^ (k == 3) as u8).collect::<Vec<u8>>();
    let others = [
        ("key and IV exchanged", with(run.iv.clone(), run.key.clone())),
        ("the key as both", with(run.key.clone(), run.key.clone())),
        ("the IV as both", with(run.iv.clone(), run.iv.clone())),
        ("another key", with(vec![7; 2 * half], run.iv.clone())),
        ("another IV", with(run.key.clone(), vec![7; 2 * half])),
        ("halves of the key exchanged", with(turned(&run.key, half), run.iv.clone())),
        ("halves of the IV exchanged", with(run.key.clone(), turned(&run.iv, half))),
        ("words of the key turned", with(turned(&run.key, 4), run.iv.clone())),
        ("words of the IV turned", with(run.key.clone(), turned(&run.iv, 4))),
        ("bytes of the key reversed", with(reversed(&run.key), run.iv.clone())),
        ("bytes of the IV reversed", with(run.key.clone(), reversed(&run.iv))),
        ("the same bit of both", with(changed(&run.key), changed(&run.iv))),
        ("second half of the IV", with(run.key.clone(), [&run.iv[..half], &run.key[half..]].concat())),
        ("first half of the IV", with(run.key.clone(), [&run.key[..half], &run.iv[half..]].concat())),
        ("second half of the key", with([&run.key[..half], &run.iv[half..]].concat(), run.iv.clone())),
        ("first half of the key", with([&run.iv[..half], &run.key[half..]].concat(), run.iv.clone())),
        ("key and IV 0", alike(cipher, 0, 0)),
        ("key 0 and IV of 0xFF", alike(cipher, 0, 0xFF)),
    ];
    for (p, q) in SOME_PAIRS {
        for (name, other) in &others {
            answers_both(&format!("{name} at {p} and {q}"), both, &run.at(p), &other.at(q), No)?;
            answers(&format!("{name}, twice, at {p} and {q}"), both, &other.at(p), &other.at(q), Yes)?;
        }
        for (k, (name, other)) in others.iter().enumerate() {
            let (next_name, next) = &others[(k + 1) % others.len()];
            answers_both(&format!("{name}, {next_name} at {p} and {q}"), both, &other.at(p), &next.at(q), No)?;
        }
        // Where key and IV are the same bytes, nothing is exchanged.
        let same = alike(cipher, 0x55, 0x55);
        let exchanged = with(same.iv.clone(), same.key.clone());
        answers_both(&format!("the same key and IV exchanged at {p} and {q}"), both, &same.at(p), &exchanged.at(q), Yes)?;
    }
    Ok(())
}

/// The four positions of a word have the same tables, and any of them belongs to the run. The tables of one word with a position
/// of another have no key and IV.
fn stated_positions(both: &mut Both, cipher: Cipher) -> Result<(), String> {
    let run = counting(cipher, 0x50, 0xB0);
    let other = counting(cipher, 0x51, 0xB0);
    let code = cipher.code() as u8;
    // The first position and the three others of some words.
    for word in [1, 5, 9, 97, 125, 2_045, 2_049, 4_093, 8_189, 8_193] {
        let tables = ciphers::bytes_of_words(&run.tables(word));
        let of_other = ciphers::bytes_of_words(&other.tables(word));
        let stated = |position: u64, tables: &[u8]| [&[code], &calls::groups_of(position)[..], tables].concat();
        for (p, q) in (word..word + 4).flat_map(|p| (word..word + 4).map(move |q| (p, q))) {
            must(stated(q, &tables) == run.at(q), &format!("the tables at {word} are those at {q}"))?;
            answers(&format!("the same tables at {p} and {q}"), both, &stated(p, &tables), &stated(q, &tables), Yes)?;
            answers(&format!("two tables at {p} and {q}"), both, &stated(p, &tables), &stated(q, &of_other), No)?;
        }
        for wrong in [0, word - 1, word + 4, word + 5, word + 8, word + 4 * cipher.area_words() as u64] {
            if wrong == word - 1 && wrong == 0 {
                continue;
            }
            let string = stated(wrong, &tables);
            for right in [stated(word, &tables), run.at(wrong), run.at(0), stated(word, &of_other)] {
                let case = format!("the tables of {word} at {wrong}");
                answers_both(&case, both, &string, &right, Refused(12))?;
            }
            answers(&format!("the tables of {word} at {wrong}, twice"), both, &string, &string, Refused(12))?;
            let of_0 = stated(word, &ciphers::bytes_of_words(&run.tables(0)));
            answers_both(&format!("the tables of {word} at {wrong} and those of 0"), both, &string, &of_0, Refused(12))?;
        }
    }
    Ok(())
}

/// Two ciphers: 23, also where the bytes of one key are the first of the other.
fn two_ciphers(both: &mut Both) -> Result<(), String> {
    let runs = [counting(Cipher::Hc128, 0x10, 0x90), alike(Cipher::Hc128, 0, 0), alike(Cipher::Hc128, 0xFF, 0x01)];
    let others = [counting(Cipher::Hc256, 0x10, 0x90), alike(Cipher::Hc256, 0, 0), alike(Cipher::Hc256, 0xFF, 0x01)];
    for (run, other) in runs.iter().flat_map(|run| others.iter().map(move |other| (run, other))) {
        for (p, q) in SOME_PAIRS {
            answers_both(&format!("two ciphers at {p} and {q}"), both, &run.at(p), &other.at(q), Refused(23))?;
        }
    }
    answers_anywhere("two ciphers", both, &runs[0].at(9), &others[0].at(9), Refused(23), Refused(23))
}

/// A checkpoint with one bit of its tables changed.
fn with_bit(string: &[u8], start: usize, byte: usize, bit: u32) -> Vec<u8> {
    let mut changed = string.to_vec();
    changed[start + byte] ^= 1 << bit;
    changed
}

/// Strings that load refuses, into an area of the right size, with the refusal, and whether the string is among those of which
/// each is paired with each.
fn refused_strings(cipher: Cipher) -> Vec<(Vec<u8>, u64, bool)> {
    let code = cipher.code() as u8;
    let run = counting(cipher, 0x60, 0xA0);
    let good = run.at(5);
    let tables = &good[2..];
    let end = tables.len();
    let of_other = ciphers::bytes_of_words(&counting(other_cipher(cipher), 0x60, 0xA0).tables(5));
    let with_code = |code: u8| [&[code], &good[1..]].concat();
    let with_number = |number: &[u8]| [&[code], number, tables].concat();
    let (one, other) = (true, false);
    vec![
        // The string ends before it has a code or the last group of the position.
        (vec![], 9, one),
        (vec![code], 9, one),
        (vec![code, 0x80], 9, other),
        (vec![code, 0xFF], 9, other),
        (vec![code, 0x85, 0x80], 9, other),
        (vec![code, 0x80, 0x80, 0x80], 9, one),
        (vec![code, 0xFF, 0xFF, 0xFF], 9, other),
        // The code names no cipher, whatever follows.
        (with_code(0), 1, one),
        (with_code(3), 1, one),
        (with_code(255), 1, other),
        (with_code(129), 1, other),
        (with_code(130), 1, other),
        (with_code(code + 4), 1, other),
        (vec![0], 1, other),
        (vec![3], 1, other),
        (vec![129, 0x80], 1, other),
        (vec![255, 0x80, 0x80, 0x80, 0x80], 1, other),
        (vec![0, 0x81, 0x80, 0x80, 0x20], 1, other),
        (vec![3, 0x80, 0x00], 1, other),
        // A fourth group announces another, also where the string ends there.
        (vec![code, 0x80, 0x80, 0x80, 0x80], 10, one),
        (vec![code, 0xFF, 0xFF, 0xFF, 0xFF], 10, other),
        (vec![code, 0x85, 0x80, 0x80, 0x80, 0x00], 10, other),
        (with_number(&[0x80, 0x80, 0x80, 0x80, 0x01]), 10, other),
        (with_number(&[0x85, 0x80, 0x80, 0x80, 0x80]), 10, other),
        (with_number(&[0xFF, 0xFF, 0xFF, 0xFF, 0x7F]), 10, other),
        // The last group is 0.
        (vec![code, 0x80, 0x00], 10, other),
        (vec![code, 0x85, 0x80, 0x80, 0x00], 10, other),
        (with_number(&[0x85, 0x00]), 10, one),
        (with_number(&[0x80, 0x00]), 10, other),
        (with_number(&[0x85, 0x80, 0x00]), 10, other),
        (with_number(&[0x85, 0x80, 0x80, 0x00]), 10, other),
        // The position is over the limit, also where there are no tables.
        (with_number(&[0x81, 0x80, 0x80, 0x20]), 5, one),
        (vec![code, 0x81, 0x80, 0x80, 0x20], 5, one),
        (with_number(&[0x85, 0x80, 0x80, 0x40]), 5, other),
        (with_number(&[0xFF, 0xFF, 0xFF, 0x7F]), 5, other),
        (with_number(&[0xFF, 0xFF, 0xFF, 0x20]), 5, other),
        // The bytes left are too few or too many.
        (good[..good.len() - 1].to_vec(), 11, one),
        ([&good[..], &[0x00]].concat(), 11, one),
        (good[..good.len() - 4].to_vec(), 11, other),
        ([&good[..], &[0, 0, 0, 0]].concat(), 11, other),
        ([&good[..], tables].concat(), 11, other),
        ([&good[..], &good].concat(), 11, other),
        ([&good[..], &[0; 256]].concat(), 11, other),
        ([&good[..], &[0; 65_536]].concat(), 11, other),
        (vec![code, 0x05], 11, other),
        (vec![code, 0x00], 11, other),
        (vec![code, 0x80, 0x80, 0x80, 0x20], 11, other),
        ([&[code, 0x80, 0x80, 0x80, 0x20], &tables[1..]].concat(), 11, other),
        ([&[code, 0x05], &of_other[..]].concat(), 11, other),
        // The tables have no key and IV.
        (with_bit(&good, 2, 0, 0), 12, one),
        (with_bit(&good, 2, end - 1, 7), 12, one),
        (with_bit(&good, 2, 3, 7), 12, other),
        (with_bit(&good, 2, end / 2 - 1, 7), 12, other),
        (with_bit(&good, 2, end / 2, 0), 12, other),
        (with_bit(&good, 2, end / 2 + 1, 3), 12, other),
        (with_bit(&good, 2, end / 4, 5), 12, other),
        (with_bit(&good, 2, end - 4, 0), 12, other),
        (with_number(&[0x04]), 12, other),
        (with_number(&[0x09]), 12, other),
        (with_number(&[0x00]), 12, other),
        // 4,101 and 8,197 are one turn of both tables away from 5.
        (with_number(&[0x85, 0x20]), 12, other),
        (with_number(&[0x85, 0x40]), 12, other),
        ([&[code, 0x05], &tables[end / 2..], &tables[..end / 2]].concat(), 12, other),
        ([&[code, 0x05], &vec![0x00; end][..]].concat(), 12, other),
        ([&[code, 0x00], &vec![0x00; end][..]].concat(), 12, other),
        ([&[code, 0x05], &vec![0xFF; end][..]].concat(), 12, other),
    ]
}

/// Each refused string as the first and as the second, with checkpoints of its run, of another one and of the other cipher.
fn one_refused(both: &mut Both, cipher: Cipher) -> Result<(), String> {
    let others = [
        ("its own checkpoint", counting(cipher, 0x60, 0xA0).at(5)),
        ("its own run", counting(cipher, 0x60, 0xA0).at(129)),
        ("another run", counting(cipher, 0x61, 0xA0).at(5)),
        ("the other cipher", counting(other_cipher(cipher), 0x60, 0xA0).at(5)),
        ("the other cipher at 0", alike(other_cipher(cipher), 0, 0).at(0)),
    ];
    for (string, refusal, _) in refused_strings(cipher) {
        for (name, other) in &others {
            let case = format!("{refusal} for {} bytes {:02x?}, {name}", string.len(), &string[..string.len().min(6)]);
            answers_both(&case, both, &string, other, Refused(refusal))?;
        }
        answers(&format!("{refusal} for {} bytes, twice", string.len()), both, &string, &string, Refused(refusal))?;
    }
    Ok(())
}

/// Two refused strings, of one cipher or of two: the number is the first one's.
fn both_refused(both: &mut Both) -> Result<(), String> {
    let strings: Vec<(Vec<u8>, u64, bool)> = [Cipher::Hc128, Cipher::Hc256].into_iter().flat_map(refused_strings).collect();
    let some: Vec<&(Vec<u8>, u64, bool)> = strings.iter().filter(|(_, _, is_one)| *is_one).collect();
    for number in [9, 1, 10, 5, 11, 12] {
        must(some.iter().any(|(_, refusal, _)| *refusal == number), &format!("some string is refused with {number}"))?;
    }
    for (first, refusal, _) in &some {
        for (second, after, _) in &some {
            answers(&format!("{refusal} first, {after} second"), both, first, second, Refused(*refusal))?;
        }
    }
    // Each other string once as the first and once as the second, with one of each number.
    for (string, refusal, _) in strings.iter().filter(|(_, _, is_one)| !*is_one) {
        for number in [9, 1, 10, 5, 11, 12] {
            let (other, _, _) = some.iter().find(|(_, of, _)| *of == number).unwrap();
            answers(&format!("{refusal} first, {number} second"), both, string, other, Refused(*refusal))?;
            answers(&format!("{number} first, {refusal} second"), both, other, string, Refused(number))?;
        }
    }
    Ok(())
}

/// Tables whose way back ends with the key and IV of a run, but of which one word of the expansion is not the one that they give,
/// or whose HC-128 words do not stand twice: 12 and not yes.
fn near_misses(both: &mut Both, cipher: Cipher) -> Result<(), String> {
    let run = counting(cipher, 0x70, 0x90);
    let [key, iv] = [&run.key, &run.iv].map(|bytes| ciphers::words_of_bytes(bytes));
    let first_words = ciphers::first_words(cipher, &key, &iv);
    let expanded = ciphers::tables_of_expansion(cipher, &ciphers::expand(cipher, &first_words));
    must(from_expanded(cipher, &expanded, 9) == run.tables(9), "the expanded tables are those of the run")?;
    let words = cipher.area_words();
    let mut misses = Vec::new();
    for (k, word) in
        [16, 17, 31, 255, words / 4, words / 2 - 1, words / 2, words - 16, words - 2, words - 1].into_iter().enumerate()
    {
        let mut changed = expanded.clone();
        changed[word] ^= 1 << (3 * k);
        misses.push((format!("word {word} of the expanded tables"), changed));
    }
    if cipher == Cipher::Hc128 {
        for word in 0..16 {
            let mut changed = first_words;
            changed[word] ^= 1 << (2 * word);
            misses.push((
                format!("W{word} differs from its other place"),
                ciphers::tables_of_expansion(cipher, &ciphers::expand(cipher, &changed)),
            ));
        }
    }
    for (name, expanded) in misses {
        for position in [0, 1, 9, 5_000] {
            let string = calls::checkpoint(cipher, position, &from_expanded(cipher, &expanded, position));
            for other in [run.at(position), run.at(77)] {
                answers_both(&format!("{name} at {position}"), both, &string, &other, Refused(12))?;
            }
            answers(&format!("{name} at {position}, twice"), both, &string, &string, Refused(12))?;
            let two = counting(other_cipher(cipher), 0x70, 0x90).at(4);
            answers_both(&format!("{name} at {position}, two ciphers"), both, &string, &two, Refused(12))?;
        }
    }
    Ok(())
}

/// The checkpoint that the archive writes after a set up and a list of calls.
fn written_after(run: &Run, list: &[Call], position: u64, tally: &mut Tally) -> Result<Vec<u8>, String> {
    let cipher = run.cipher;
    let words = cipher.area_words();
    let longest = calls::checkpoint_length(cipher.code(), LIMIT).unwrap();
    let mut both = Both::new(FRESH, vec![7; words], tally);
    let case = format!("{list:?}");
    expect(&case, both.set_up(words, cipher.code(), &run.key, &run.iv), Ok(()))?;
    for call in list {
        let answer = match call {
            CipherCall(bytes) => both.cipher(words, &vec![0x5A; *bytes])?,
            Move(distance) => both.move_by(words, *distance)?,
            Volume => both.encipher_volume(words, &EXAMPLE_VOLUME)?.map(|_| ()),
            SetUp => both.set_up(words, cipher.code(), &run.key, &run.iv)?,
            SetUpOther => both.set_up(words, cipher.code(), &run.iv, &run.key)?,
            Load => {
                let written = both.write(words, &vec![0; longest])?.map_err(|_| "write refused")?;
                both.load(words, &written)?.map(|_| ())
            }
        };
        must(answer == Ok(()), &format!("{call:?} of {case} is accepted"))?;
    }
    let string = both.write(words, &vec![9; longest])?.map_err(|_| "write refused")?;
    must(string == run.at(position), &format!("the position after {case} is {position}"))?;
    Ok(string)
}

/// Checkpoints that the archive writes after lists of calls, of one run and of others.
fn written_by_lists(cipher: Cipher, tally: &mut Tally) -> Result<(), String> {
    let mut strings = Vec::new();
    let runs = [counting(cipher, 0x18, 0x88), counting(cipher, 0x18, 0x89), counting(cipher, 0x19, 0x88)];
    for (k, run) in runs.iter().enumerate() {
        // Of the other runs some lists are enough.
        for (number, (list, position)) in LISTS.iter().enumerate().step_by(if k == 0 { 1 } else { 4 }) {
            strings.push((k, number, written_after(run, list, *position, tally)?));
        }
    }
    let mut both = Both::new(Head { code: 1, word: 0x2143_6587, position: 9, mark: 8 }, vec![0x1221_3443; 16], tally);
    for (run, list, first) in &strings {
        for (other, other_list, second) in &strings {
            let case = format!("run {run} after list {list}, run {other} after list {other_list}");
            answers(&case, &mut both, first, second, if run == other { Yes } else { No })?;
        }
    }
    Ok(())
}

/// A run whose tables end at a position with two bytes that are a code and the position of another checkpoint, and that position.
fn ends_like_a_start(cipher: Cipher, position: u64, code: u8) -> (Run, u64) {
    let mut run = counting(cipher, 0x22, 0x66);
    for k in 0u16.. {
        run.key[..2].copy_from_slice(&k.to_le_bytes());
        let bytes = ciphers::bytes_of_words(&run.tables(position));
        let [before, last] = [bytes[bytes.len() - 2], bytes[bytes.len() - 1]];
        if before == code && last < 0x80 {
            return (run, last as u64);
        }
    }
    unreachable!("one key in 512 has such tables")
}

/// Checkpoints that share bytes in memory: the last two of one are code and position of the other.
fn overlapping(both: &mut Both) -> Result<(), String> {
    for cipher in [Cipher::Hc128, Cipher::Hc256] {
        for (of_second, is_same, is) in [(cipher, true, Yes), (cipher, false, No), (other_cipher(cipher), false, Refused(23))] {
            let (run, q) = ends_like_a_start(cipher, 6, of_second.code() as u8);
            let first = run.at(6);
            let second = if is_same { run.at(q) } else { counting(of_second, 0x22, 0x66).at(q) };
            let memory = [&first[..], &second[2..]].concat();
            let (one, other) = (0..first.len(), first.len() - 2..memory.len());
            must(memory[other.clone()] == second, "the second begins with the last bytes of the first")?;
            let case = format!("{} and {q} overlapping, {is:?}", first[1]);
            expect(&case, both.same_run_in(&memory, one.clone(), other.clone()), is.answer())?;
            expect(&format!("{case}, swapped"), both.same_run_in(&memory, other, one), is.answer())?;
        }
        // A checkpoint, and the same bytes with one fewer or with more, which begin at the same byte or end at the same one.
        let good = counting(cipher, 0x22, 0x66).at(6);
        let bytes = good.len();
        let memory = [&good[..], &[0x06, cipher.code() as u8], &good].concat();
        for (range, refusal) in
            [(0..bytes - 1, 11), (0..bytes + 1, 11), (0..memory.len(), 11), (0..1, 9), (0..2, 11), (0..0, 9), (1..bytes, 1)]
        {
            // Without its code the string begins with its position, which is 6.
            expect("a part of the checkpoint first", both.same_run_in(&memory, range.clone(), 0..bytes), Err(refusal))?;
            expect("a part of the checkpoint second", both.same_run_in(&memory, 0..bytes, range), Err(refusal))?;
        }
        let last = bytes + 2..memory.len();
        expect("the same string twice in memory", both.same_run_in(&memory, 0..bytes, last.clone()), Ok(true))?;
        expect("the code before it", both.same_run_in(&memory, bytes + 1..memory.len(), last), Err(11))?;
    }
    Ok(())
}

/// Bytes that lie in memory around the strings would complete them or would make others of them, and must not be read.
fn bytes_beyond(both: &mut Both, cipher: Cipher) -> Result<(), String> {
    let run = counting(cipher, 0x33, 0x55);
    let [good, later] = [run.at(5), run.at(300)];
    let mut within = |parts: [&[u8]; 5], is: Is| {
        let memory = parts.concat();
        let start = parts[0].len();
        let first = start..start + parts[1].len();
        let start = first.end + parts[2].len();
        let second = start..start + parts[3].len();
        let case = format!("{} and {} bytes with others around them, {is:?}", first.len(), second.len());
        expect(&case, both.same_run_in(&memory, first, second), is.answer())
    };
    // What is cut off follows in memory.
    for cut in [0, 1, 2, 3, 6, good.len() / 2, good.len() - 4, good.len() - 1] {
        let (start, rest) = good.split_at(cut);
        let refusal = if cut < 2 { 9 } else { 11 };
        within([&[], start, rest, &good, &[]], Refused(refusal))?;
        within([&[], &good, &[], start, rest], Refused(refusal))?;
        within([&good, start, rest, start, rest], Refused(refusal))?;
        within([&[], start, &[], rest, &[]], Refused(refusal))?;
    }
    let groups = later.len() - 4 * cipher.area_words() - 1;
    must(groups == 2, "300 has two bytes")?;
    within([&[], &later[..2], &later[2..], &good, &[]], Refused(9))?;
    within([&[], &good, &[], &later[..2], &later[2..]], Refused(9))?;
    // Other bytes lie around whole checkpoints, or before a string that lacks its code.
    for around in [&[][..], &[0x00], &[0x01], &[0x02], &[0x80, 0x80], &[0xFF; 8], &good, &later] {
        within([around, &good, around, &later, around], Yes)?;
        within([around, &later, around, &good, around], Yes)?;
        within([around, &good, around, &good, around], Yes)?;
        within([around, &good, around, &counting(cipher, 0x33, 0x56).at(5), around], No)?;
        within([around, &good, around, &counting(other_cipher(cipher), 0x33, 0x55).at(5), around], Refused(23))?;
        within([around, &good, around, &[], around], Refused(9))?;
        within([around, &[], around, &good, around], Refused(9))?;
    }
    within([&good[..1], &good[1..], &[], &good, &[]], Refused(1))?;
    within([&[], &good, &good[..1], &good[1..], &[]], Refused(1))
}

/// All made cases about two checkpoints; the result is the text of the first difference.
pub fn run(tally: &mut Tally) -> Result<(), String> {
    for cipher in [Cipher::Hc128, Cipher::Hc256] {
        written_by_lists(cipher, tally)?;
    }
    let mut both = Both::new(Head { code: 2, word: 0x1337_8421, position: 177, mark: 180 }, vec![0x5AA5_C33C; 16], tally);
    for cipher in [Cipher::Hc128, Cipher::Hc256] {
        positions(&mut both, cipher)?;
        one_bit(&mut both, cipher)?;
        in_common(&mut both, cipher)?;
        stated_positions(&mut both, cipher)?;
        one_refused(&mut both, cipher)?;
        near_misses(&mut both, cipher)?;
        bytes_beyond(&mut both, cipher)?;
        far_positions(&mut both, cipher)?;
        last_positions(&mut both, cipher)?;
    }
    two_ciphers(&mut both)?;
    both_refused(&mut both)?;
    overlapping(&mut both)
}
