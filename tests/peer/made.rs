//! Cases made by hand, with the answer that document 01, request (a) or (g) of document 02 or the C header gives for each. Those
//! of request (b) are in marks.rs, those of (d) in volumes.rs, those of (e) in duties.rs, those of (f) in effects.rs, those of (h)
//! in test_loads.rs, those of (j) in soundnesses.rs, those of (k) in comparisons.rs, those of (m) in same_runs.rs and those of (n)
//! in rate_tables.rs and rate_duties.rs.

use crate::both::{Agreed, Both};
use crate::calls::{self, Head, FRESH, LIMIT};
use crate::ciphers::{self, Cipher};
use crate::comparisons;
use crate::duties;
use crate::effects;
use crate::marks;
use crate::random::Random;
use crate::rate_duties;
use crate::rate_tables;
use crate::same_runs;
use crate::soundnesses;
use crate::tally::Tally;
use crate::test_loads;
use crate::vectors;
use crate::volumes;
use std::fmt::Debug;

/// The agreed answer against the expected one.
pub fn expect<T: PartialEq + Debug>(case: &str, agreed: Agreed<T>, expected: Result<T, u64>) -> Result<(), String> {
    let answer = agreed.map_err(|text| format!("{case}, {text}"))?;
    if answer == expected {
        Ok(())
    } else {
        Err(format!("{case}: both sides say {answer:?}, expected {expected:?}"))
    }
}

/// Codes that name no cipher; most have the code of one in their lowest byte or in their lower half.
pub const NO_CIPHER: [u32; 18] = [
    0, 3, 255, 256, 257, 258, 0x0102, 0x0201, 0x8001, 0x10000, 0x10001, 0x20002, 0x1000001, 0x1000002, 0x1010101, 0x80000001,
    0x80000002, 0xFFFFFFFF,
];

/// Positions from 0 over several turns, and inside words.
pub const POSITIONS: [u64; 12] = [0, 1, 4, 5, 2044, 2045, 2048, 2049, 4096, 4097, 8192, 12_289];

/// Positions at which a number gets another group, with their bytes.
const NUMBERS: [(u64, &[u8]); 11] = [
    (0, &[0x00]),
    (1, &[0x01]),
    (127, &[0x7F]),
    (128, &[0x80, 0x01]),
    (300, &[0xAC, 0x02]),
    (16_383, &[0xFF, 0x7F]),
    (16_384, &[0x80, 0x80, 0x01]),
    (2_097_151, &[0xFF, 0xFF, 0x7F]),
    (2_097_152, &[0x80, 0x80, 0x80, 0x01]),
    (67_108_863, &[0xFF, 0xFF, 0xFF, 0x1F]),
    (67_108_864, &[0x80, 0x80, 0x80, 0x20]),
];

/// Positions on both sides of each change of a checkpoint's length and at the limit, with the lengths of HC-128 and HC-256.
const LENGTHS: [(u64, usize, usize); 8] = [
    (0, 4098, 8194),
    (127, 4098, 8194),
    (128, 4099, 8195),
    (16_383, 4099, 8195),
    (16_384, 4100, 8196),
    (2_097_151, 4100, 8196),
    (2_097_152, 4101, 8197),
    (67_108_864, 4101, 8197),
];

/// An engine of any tables, whose head has the word of these tables and, as after a load, its position as mark.
fn made_up(cipher: Cipher, position: u64, tables: Vec<u32>, tally: &mut Tally) -> Both<'_> {
    Both::new(calls::head_at(cipher, position, position, &tables), tables, tally)
}

/// The first words that a key and an IV give, with the key and IV that load returns for them.
fn random_first_words(random: &mut Random, cipher: Cipher) -> ([u32; 16], ([u32; 8], [u32; 8])) {
    let words = cipher.key_bytes() / 4;
    let key = random.words(words);
    let iv = random.words(words);
    let mut returned = ([0; 8], [0; 8]);
    returned.0[..words].copy_from_slice(&key);
    returned.1[..words].copy_from_slice(&iv);
    (ciphers::first_words(cipher, &key, &iv), returned)
}

/// The expanded tables taken through the last pass and the steps of a position.
pub fn from_expanded(cipher: Cipher, expanded: &[u32], position: u64) -> Vec<u32> {
    let mut tables = expanded.to_vec();
    ciphers::last_pass(cipher, &mut tables);
    ciphers::steps_forward(cipher, &mut tables, 0, calls::steps_at(position));
    tables
}

/// Load and recover on tables that have no key and IV; both must say 12.
fn has_no_key(case: &str, cipher: Cipher, position: u64, tables: Vec<u32>, tally: &mut Tally) -> Result<(), String> {
    let string = calls::checkpoint(cipher, position, &tables);
    let bytes = cipher.key_bytes();
    let mut loading = Both::new(FRESH, vec![7; cipher.area_words()], tally);
    expect(case, loading.load(cipher.area_words(), &string), Err(12))?;
    let mut recovering = made_up(cipher, position, tables, tally);
    expect(case, recovering.recover(cipher.area_words(), &vec![1; bytes], &vec![2; bytes]), Err(12))
}

/// Expanded tables with one word changed, for every word, so that the whole expansion must be compared.
fn changed_expansions(random: &mut Random, cipher: Cipher, tally: &mut Tally) -> Result<(), String> {
    let (first, returned) = random_first_words(random, cipher);
    let expanded = ciphers::tables_of_expansion(cipher, &ciphers::expand(cipher, &first));
    for position in POSITIONS.into_iter().chain(NUMBERS.map(|(number, _)| number)).filter(|position| *position < LIMIT - 1) {
        let string = calls::checkpoint(cipher, position, &from_expanded(cipher, &expanded, position));
        let mut both = Both::new(FRESH, vec![7; cipher.area_words()], tally);
        expect("expansion unchanged", both.load(cipher.area_words(), &string), Ok(returned))?;
    }
    for at in 0..cipher.area_words() {
        let position = random.pick(&POSITIONS);
        let mut changed = expanded.clone();
        changed[at] ^= 1 << random.below(32);
        let tables = from_expanded(cipher, &changed, position);
        has_no_key(&format!("word {at} of the expanded tables changed"), cipher, position, tables, tally)?;
    }
    Ok(())
}

/// HC-128 expansions whose key or IV words do not stand twice.
fn words_not_twice(random: &mut Random, tally: &mut Tally) -> Result<(), String> {
    let cipher = Cipher::Hc128;
    for position in POSITIONS {
        for at in [0, 1, 2, 3, 4, 5, 6, 7, 8, 9, 10, 11, 12, 13, 14, 15] {
            let (mut first, _) = random_first_words(random, cipher);
            first[at] ^= 1 << random.below(32);
            let expanded = ciphers::tables_of_expansion(cipher, &ciphers::expand(cipher, &first));
            let tables = from_expanded(cipher, &expanded, position);
            has_no_key(&format!("W{at} differs from its other place"), cipher, position, tables, tally)?;
        }
    }
    Ok(())
}

/// The last word of a table's turn, with tables in which its output reads the word that the next step changes.
fn last_words_of_turns(random: &mut Random, cipher: Cipher, tally: &mut Tally) -> Result<(), String> {
    let words = cipher.area_words();
    let table = cipher.table_words() as u64;
    for turn in 1..=8 {
        for byte in 0..=4 {
            for count in 0..=9 {
                let position = 4 * (turn * table - 1) + byte;
                let changing = if turn % 2 == 1 { 0 } else { cipher.table_words() };
                let mut area = random.words(words);
                area[changing + cipher.table_words() - 1 - 12] &= 0xFFFF_FF00;
                let mut both = made_up(cipher, position, area, tally);
                expect("cipher at the end of a turn", both.cipher(words, &random.bytes(count)), Ok(()))?;
                expect("move back from there", both.move_by(words, -(count as i64)), Ok(()))?;
                expect("cipher once more", both.cipher(words, &random.bytes(count)), Ok(()))?;
            }
        }
    }
    Ok(())
}

/// The examples of document 01 about calls, on tables of any content where that is enough.
fn examples(random: &mut Random, cipher: Cipher, tally: &mut Tally) -> Result<(), String> {
    let words = cipher.area_words();
    let code = cipher.code() as u8;

    let mut at_end = made_up(cipher, LIMIT - 1, random.words(words), tally);
    expect("two bytes at the limit less one", at_end.cipher(words, &[0; 2]), Err(6))?;
    expect("one byte at the limit less one", at_end.cipher(words, &[0]), Ok(()))?;
    expect("no bytes at the limit", at_end.cipher(words, &[]), Ok(()))?;
    expect("one byte at the limit", at_end.cipher(words, &[0]), Err(6))?;
    expect("move past the limit", at_end.move_by(words, 1), Err(6))?;
    expect("move by the greatest distance", at_end.move_by(words, i64::MAX), Err(6))?;
    expect("move by the least distance", at_end.move_by(words, i64::MIN), Err(7))?;
    expect("spent at the limit", at_end.spent(), Ok(LIMIT))?;

    let mut over = made_up(cipher, u64::MAX, random.words(words), tally);
    expect("no bytes over the limit", over.cipher(words, &[]), Err(5))?;
    expect("move back from over the limit", over.move_by(words, -1), Err(5))?;
    expect("spent over the limit", over.spent(), Err(5))?;

    let mut at_three = made_up(cipher, 3, random.words(words), tally);
    expect("move -4 at 3", at_three.move_by(words, -4), Err(7))?;
    expect("move -3 at 3", at_three.move_by(words, -3), Ok(()))?;
    expect("spent after move -3", at_three.spent(), Ok(3))?;

    let mut at_start = made_up(cipher, 1, random.words(words), tally);
    let more_than_left = vec![0x5A; LIMIT as usize];
    expect("one byte more than is left", at_start.cipher(words, &more_than_left), Err(6))?;
    at_start.put_head(Head { word: !at_start.head.word, ..at_start.head });
    expect("one byte more than is left, false word", at_start.cipher(words, &more_than_left), Err(13))?;

    for (position, number) in NUMBERS {
        let tables = random.words(words);
        let string = [&[code], number, &ciphers::bytes_of_words(&tables)].concat();
        let mut both = made_up(cipher, position, tables, tally);
        expect(&format!("write at {position}"), both.write(words, &vec![9; string.len()]), Ok(string))?;
    }

    let (first, returned) = random_first_words(random, cipher);
    let expanded = ciphers::tables_of_expansion(cipher, &ciphers::expand(cipher, &first));
    let tables = ciphers::bytes_of_words(&from_expanded(cipher, &expanded, 0));
    let numbers: [(&[u8], Result<([u32; 8], [u32; 8]), u64>); 10] = [
        (&[0x00], Ok(returned)),
        (&[0x80, 0x00], Err(10)),
        (&[0xff, 0x80, 0x00], Err(10)),
        (&[0x80, 0x80, 0x80, 0x00], Err(10)),
        (&[0x80, 0x80, 0x80, 0x80, 0x00], Err(10)),
        (&[0x80, 0x80, 0x80, 0x80, 0x01], Err(10)),
        (&[0x81, 0x80, 0x80, 0x20], Err(5)),
        (&[0xff, 0xff, 0xff, 0x7f], Err(5)),
        (&[0x01], Err(12)),
        (&[0x04], Err(12)),
    ];
    for (number, expected) in numbers {
        let string = [&[code], number, &tables].concat();
        let mut both = Both::new(FRESH, vec![7; words], tally);
        expect(&format!("load with position bytes {number:x?}"), both.load(words, &string), expected)?;
    }
    let strings: [(&[u8], u64); 10] = [
        (&[], 9),
        (&[code], 9),
        (&[code, 0x80], 9),
        (&[code, 0xff, 0xff, 0xff], 9),
        (&[code, 0x80, 0x80, 0x80, 0x80], 10),
        (&[code, 0xff, 0xff, 0xff, 0xff, 0x00], 10),
        (&[code, 0x80, 0x00], 10),
        (&[code, 0x81, 0x80, 0x80, 0x20], 5),
        (&[code, 0x80, 0x80, 0x80, 0x20], 11),
        (&[code, 0x00], 11),
    ];
    for (string, refusal) in strings {
        let mut both = Both::new(FRESH, vec![7; words], tally);
        expect(&format!("load of {string:x?}"), both.load(words, string), Err(refusal))?;
    }
    Ok(())
}

/// Writes of one key and IV into just enough bytes and into too few, at positions of every length up to the limit.
fn lengths(random: &mut Random, cipher: Cipher, tally: &mut Tally) -> Result<(), String> {
    let words = cipher.area_words();
    let code = cipher.code();
    let (key, iv) = (random.bytes(cipher.key_bytes()), random.bytes(cipher.key_bytes()));
    let mut both = Both::new(FRESH, random.words(words), tally);
    expect("set up", both.set_up(words, code, &key, &iv), Ok(()))?;
    for (position, length_128, length_256) in LENGTHS {
        let length = match cipher {
            Cipher::Hc128 => length_128,
            Cipher::Hc256 => length_256,
        };
        let distance = position - both.head.position;
        expect(&format!("move to {position}"), both.move_by(words, distance as i64), Ok(()))?;
        let string = calls::checkpoint(cipher, position, &both.area);
        if string.len() != length {
            return Err(format!("the peer's checkpoint at {position} has {} bytes, expected {length}", string.len()));
        }
        let case = |what: &str| format!("{what} at {position}");
        expect(&case("checkpoint length"), both.checkpoint_length(code, position), Ok(length))?;
        expect(&case("write into nothing"), both.write(words, &[]), Err(8))?;
        for missing in 1..=4 {
            expect(&case("write into too few bytes"), both.write(words, &random.bytes(length - missing)), Err(8))?;
        }
        for more in [0, 1, 100] {
            expect(&case("write into enough bytes"), both.write(words, &random.bytes(length + more)), Ok(string.clone()))?;
        }
        expect(&case("spent after moves only"), both.spent(), Ok(0))?;
    }
    for over in [LIMIT + 1, 1 << 28, 1 << 32, (1 << 32) + 127, u64::MAX] {
        expect(&format!("checkpoint length at {over}"), both.checkpoint_length(code, over), Err(5))?;
    }
    Ok(())
}

/// The example of request (g), and which refusal comes first where several conditions hold.
fn length_examples(random: &mut Random, tally: &mut Tally) -> Result<(), String> {
    let tables = random.words(1024);
    let string = [&[1, 0], &ciphers::bytes_of_words(&tables)[..]].concat();
    let mut at_start = made_up(Cipher::Hc128, 0, tables, tally);
    expect("HC-128 at 0 into 4,097 bytes", at_start.write(1024, &random.bytes(4097)), Err(8))?;
    expect("HC-128 at 0 into 4,098 bytes", at_start.write(1024, &random.bytes(4098)), Ok(string))?;
    expect("write into nothing with a short area", at_start.write(1023, &[]), Err(4))?;
    for code in NO_CIPHER {
        let mut no_cipher = Both::new(Head { code, word: 7, position: LIMIT + 1, mark: 9 }, random.words(1024), tally);
        expect("checkpoint length of no cipher at 0", no_cipher.checkpoint_length(code, 0), Err(1))?;
        expect("checkpoint length of no cipher over the limit", no_cipher.checkpoint_length(code, LIMIT + 1), Err(1))?;
        expect("write of no cipher into nothing", no_cipher.write(1024, &[]), Err(1))?;
    }
    let mut over = made_up(Cipher::Hc256, LIMIT + 1, random.words(2048), tally);
    expect("write over the limit into nothing", over.write(2048, &[]), Err(5))?;
    expect("write over the limit into enough bytes", over.write(2048, &random.bytes(8197)), Err(5))
}

/// The word of a head against the expected one.
fn expect_word(case: &str, both: &Both, expected: u32) -> Result<(), String> {
    let word = both.head.word;
    if word == expected {
        Ok(())
    } else {
        Err(format!("{case}: both sides have word {word:#x} at {}, expected {expected:#x}", both.head.position))
    }
}

/// Cipher, move, write and recover, right in everything else, give this refusal and change neither head nor area.
fn all_refuse(case: &str, cipher: Cipher, words: usize, both: &mut Both, refusal: u64) -> Result<(), String> {
    let (head, area) = (both.head, both.area.clone());
    for count in 0..=3 {
        expect(&format!("cipher, {case}"), both.cipher(words, &vec![0x5A; count]), Err(refusal))?;
    }
    for distance in [0, 1, -1] {
        expect(&format!("move, {case}"), both.move_by(words, distance), Err(refusal))?;
    }
    let buffer = vec![9; cipher.key_bytes()];
    expect(&format!("write, {case}"), both.write(words, &[9; 8197]), Err(refusal))?;
    expect(&format!("recover, {case}"), both.recover(words, &buffer, &buffer), Err(refusal))?;
    if both.head == head && both.area == area {
        Ok(())
    } else {
        Err(format!("{case}: both sides changed head or area"))
    }
}

/// The words at the first positions are the outputs that the papers print for key and IV 0, on the way there and back. The one
/// at 1, 2, 3 and 4 is the first output, and the one at 5 is the second.
fn first_words_of_heads(cipher: Cipher, tally: &mut Tally) -> Result<(), String> {
    let words = cipher.area_words();
    let zero = vec![0; cipher.key_bytes()];
    let outputs = match cipher {
        Cipher::Hc128 => vectors::HC_128[0],
        Cipher::Hc256 => vectors::HC_256[0],
    };
    let expected = |position: usize| if position == 0 { 0 } else { outputs[(position - 1) / 4] };
    let mut both = Both::new(Head { code: 3, word: 5, position: 9, mark: 11 }, vec![7; words], tally);
    expect("set up", both.set_up(words, cipher.code(), &zero, &zero), Ok(()))?;
    expect_word("after set up", &both, 0)?;
    for position in 1..=64 {
        expect("cipher of no bytes", both.cipher(words, &[]), Ok(()))?;
        expect_word("after a cipher call of no bytes", &both, expected(position - 1))?;
        expect("cipher of one byte", both.cipher(words, &[0]), Ok(()))?;
        expect_word("after a cipher call of one byte", &both, expected(position))?;
    }
    for position in (0..64).rev() {
        expect("move of no bytes", both.move_by(words, 0), Ok(()))?;
        expect_word("after a move of no bytes", &both, expected(position + 1))?;
        expect("move back by one byte", both.move_by(words, -1), Ok(()))?;
        expect_word("after a move back by one byte", &both, expected(position))?;
    }
    for position in 1..=64 {
        expect("move by one byte", both.move_by(words, 1), Ok(()))?;
        expect_word("after a move by one byte", &both, expected(position))?;
    }
    Ok(())
}

/// The words around the last and the first step of turns, left by load, cipher and move. The expected ones are worked out as the
/// steps are taken.
fn words_at_turn_ends(random: &mut Random, cipher: Cipher, tally: &mut Tally) -> Result<(), String> {
    let words = cipher.area_words();
    let key_words = cipher.key_bytes() / 4;
    let start = ciphers::set_up(cipher, &random.words(key_words), &random.words(key_words));
    let mut area = start.clone();
    let mut outputs = Vec::new();
    for i in 0..5_000 {
        ciphers::step(cipher, &mut area, i);
        outputs.push(ciphers::output(cipher, &area, i));
    }
    let expected = |position: i64| outputs[(position as usize - 1) / 4];
    for end in [1, 2, 3, 4, 5, 6, 7, 8].map(|k| 4 * 512 * k) {
        for position in end - 6..=end + 6 {
            let mut tables = start.clone();
            ciphers::steps_forward(cipher, &mut tables, 0, calls::steps_at(position as u64));
            let mut both = Both::new(Head { code: 3, word: 5, position: 9, mark: 11 }, random.words(words), tally);
            let loaded = both.load(words, &calls::checkpoint(cipher, position as u64, &tables))?;
            loaded.map_err(|refusal| format!("load at {position} refused with {refusal}"))?;
            expect_word("after load", &both, expected(position))?;
            for count in [1, 2, 3, 4, 5, 8, 13, 31, 64, 100] {
                expect("move back", both.move_by(words, -count), Ok(()))?;
                expect_word("after a move back", &both, expected(position - count))?;
                expect("cipher", both.cipher(words, &random.bytes(count as usize)), Ok(()))?;
                expect_word("after a cipher call", &both, expected(position))?;
                expect("move", both.move_by(words, count), Ok(()))?;
                expect_word("after a move", &both, expected(position + count))?;
                expect("move back again", both.move_by(words, -count), Ok(()))?;
                expect_word("after another move back", &both, expected(position))?;
            }
        }
    }
    Ok(())
}

/// Refusal 13 comes after 1, 4 and 5 and before all others; with the true word those others are given.
fn refusals_beside_13(random: &mut Random, cipher: Cipher, tally: &mut Tally) -> Result<(), String> {
    let words = cipher.area_words();
    let bytes = cipher.key_bytes();
    for position in [0, 1, 2, 3, 4, 5, 2047, 2048, 2049, 4096, 4097, 8192, LIMIT - 4, LIMIT - 3, LIMIT - 1, LIMIT] {
        let memory = random.words(words + 1);
        let good = calls::head_at(cipher, position, random.next(), &memory);
        let bad = Head { word: good.word ^ 1 << random.below(32), ..good };
        let length = calls::checkpoint_length(cipher.code(), position).unwrap();
        let left = LIMIT - position;
        let mut both = Both::new(good, memory, tally);
        for head in [good, bad] {
            let is_false = head == bad;
            let or_13 = |refusal: u64| if is_false { 13 } else { refusal };
            let case = |what: &str| format!("{what} at {position}, {} word", if is_false { "false" } else { "true" });
            both.put_head(head);
            if left < 10 {
                expect(&case("too many bytes"), both.cipher(words, &random.bytes(left as usize + 1)), Err(or_13(6)))?;
            }
            for distance in [-(position as i64) - 1, i64::MIN] {
                expect(&case("move before 0"), both.move_by(words, distance), Err(or_13(7)))?;
            }
            for distance in [left as i64 + 1, i64::MAX] {
                expect(&case("move past the limit"), both.move_by(words, distance), Err(or_13(6)))?;
            }
            for lent in [0, length - 1] {
                expect(&case("write into too few bytes"), both.write(words, &random.bytes(lent)), Err(or_13(8)))?;
            }
            for (key, iv, refusal) in [(bytes - 1, bytes, 2), (bytes, bytes + 1, 3), (0, 0, 2), (bytes + 1, bytes - 1, 2)] {
                expect(
                    &case("recover, lengths"),
                    both.recover(words, &random.bytes(key), &random.bytes(iv)),
                    Err(or_13(refusal)),
                )?;
            }
            if is_false || position < 10_000 {
                expect(
                    &case("recover, no key"),
                    both.recover(words, &random.bytes(bytes), &random.bytes(bytes)),
                    Err(or_13(12)),
                )?;
            }
            if is_false {
                all_refuse(&case("right in everything else"), cipher, words, &mut both, 13)?;
            }
            for wrong in [0, words - 1, words + 1] {
                all_refuse(&case("wrong area"), cipher, wrong, &mut both, 4)?;
            }
            for over in [LIMIT + 1, (1 << 32) + position, u64::MAX] {
                both.put_head(Head { position: over, ..head });
                all_refuse(&case("over the limit"), cipher, words, &mut both, 5)?;
                all_refuse(&case("over the limit, wrong area"), cipher, words - 1, &mut both, 4)?;
                both.put_head(Head { code: random.pick(&NO_CIPHER), position: over, ..head });
                all_refuse(&case("no cipher, over the limit, wrong area"), cipher, words - 1, &mut both, 1)?;
            }
            both.put_head(Head { code: random.pick(&NO_CIPHER), ..head });
            all_refuse(&case("no cipher"), cipher, words, &mut both, 1)?;
        }
    }
    Ok(())
}

/// False words with the tables of a key and IV: wrong in one bit, 0, or the output of another step. Then the true word is put
/// back and everything is accepted.
fn false_words(random: &mut Random, cipher: Cipher, tally: &mut Tally) -> Result<(), String> {
    let words = cipher.area_words();
    let bytes = cipher.key_bytes();
    for position in POSITIONS {
        let (key, iv) = (random.bytes(bytes), random.bytes(bytes));
        let mut both = Both::new(FRESH, random.words(words), tally);
        expect("set up", both.set_up(words, cipher.code(), &key, &iv), Ok(()))?;
        expect("move", both.move_by(words, position as i64), Ok(()))?;
        let head = both.head;
        let steps = calls::steps_at(position) + words as u64;
        let mut others: Vec<u32> = (0..32).map(|bit| head.word ^ 1 << bit).collect();
        others.extend([0, 1, !head.word, head.word.swap_bytes(), head.word.rotate_left(8)]);
        others.extend((steps - 14..steps + 2).map(|i| ciphers::output(cipher, &both.area, i)));
        for word in others.into_iter().filter(|word| *word != head.word) {
            both.put_head(Head { word, ..head });
            all_refuse(&format!("word {word:#x} at {position}"), cipher, words, &mut both, 13)?;
        }
        both.put_head(head);
        let string = calls::checkpoint(cipher, position, &both.area);
        expect("cipher of no bytes", both.cipher(words, &[]), Ok(()))?;
        expect("move of no bytes", both.move_by(words, 0), Ok(()))?;
        expect("write", both.write(words, &random.bytes(8197)), Ok(string))?;
        expect("recover", both.recover(words, &random.bytes(bytes), &random.bytes(bytes)), Ok((key, iv)))?;
        expect("cipher", both.cipher(words, &random.bytes(5)), Ok(()))?;
        expect("move back", both.move_by(words, -5), Ok(()))?;
        if both.head != (Head { mark: position + 5, ..head }) {
            return Err(format!(
                "a move back to {position} does not give the head that was there and the mark of the cipher call"
            ));
        }
    }
    Ok(())
}

/// Tables whose output is 0: there 0 is the true word after position 0 too, and any other is false.
fn words_of_zero(random: &mut Random, cipher: Cipher, tally: &mut Tally) -> Result<(), String> {
    let words = cipher.area_words();
    for position in POSITIONS.into_iter().filter(|position| *position != 0) {
        let mut tables = random.words(words);
        let step = calls::steps_at(position) - 1;
        tables[step as usize % words] ^= ciphers::output(cipher, &tables, step);
        let string = calls::checkpoint(cipher, position, &tables);
        let head = Head { code: cipher.code(), word: 0, position, mark: 0 };
        let mut both = Both::new(head, tables, tally);
        expect("write with word 0", both.write(words, &random.bytes(8197)), Ok(string))?;
        both.put_head(Head { word: 1 << random.below(32), ..head });
        all_refuse("another word than 0", cipher, words, &mut both, 13)?;
        both.put_head(head);
        expect("cipher with word 0", both.cipher(words, &random.bytes(3)), Ok(()))?;
    }
    Ok(())
}

/// Set up, load and spent do not look at the word. Refused, they leave it false; accepted, set up and load leave a true one.
fn calls_without_13(random: &mut Random, cipher: Cipher, tally: &mut Tally) -> Result<(), String> {
    let words = cipher.area_words();
    let code = cipher.code();
    let (first, returned) = random_first_words(random, cipher);
    let expanded = ciphers::tables_of_expansion(cipher, &ciphers::expand(cipher, &first));
    for position in POSITIONS {
        let (key, iv) = (random.bytes(cipher.key_bytes()), random.bytes(cipher.key_bytes()));
        let tables = from_expanded(cipher, &expanded, position);
        let string = calls::checkpoint(cipher, position, &tables);
        let mut both = made_up(cipher, position, random.words(words), tally);
        let bad = Head { word: !both.head.word, ..both.head };
        both.put_head(bad);
        expect("spent of a false word", both.spent(), Ok(position))?;
        expect("set up over a false word, key", both.set_up(words, code, &key[1..], &iv), Err(2))?;
        expect("set up over a false word, IV", both.set_up(words, code, &key, &iv[1..]), Err(3))?;
        expect("set up over a false word, area", both.set_up(words - 1, code, &key, &iv), Err(4))?;
        expect("load over a false word, no bytes", both.load(words, &[]), Err(9))?;
        expect("load over a false word, area", both.load(words - 1, &string), Err(4))?;
        expect("load over a false word, too short", both.load(words, &string[..string.len() - 1]), Err(11))?;
        let mut changed = string.clone();
        *changed.last_mut().unwrap() ^= 1;
        expect("load over a false word, no key", both.load(words, &changed), Err(12))?;
        if both.head != bad {
            return Err("both sides changed the head in a refused call".to_string());
        }
        expect("load over a false word", both.load(words, &string), Ok(returned))?;
        if both.head != calls::head_at(cipher, position, position, &tables) {
            return Err("the head after load has not the word of the tables and its position as mark".to_string());
        }
        both.put_head(bad);
        expect("set up over a false word", both.set_up(words, code, &key, &iv), Ok(()))?;
        if both.head != (Head { code, word: 0, position: 0, mark: 0 }) {
            return Err("the head after set up has not word 0 and mark 0 at position 0".to_string());
        }
        both.put_head(Head { word: 1, position: LIMIT + 1, ..bad });
        expect("spent over the limit, false word", both.spent(), Err(5))?;
    }
    Ok(())
}

/// Codes that name no cipher, with everything else right.
fn codes(random: &mut Random, cipher: Cipher, tally: &mut Tally) -> Result<(), String> {
    let words = cipher.area_words();
    let (key, iv) = (random.bytes(cipher.key_bytes()), random.bytes(cipher.key_bytes()));
    let mut both = Both::new(FRESH, random.words(words), tally);
    expect("set up", both.set_up(words, cipher.code(), &key, &iv), Ok(()))?;
    for position in [0, 5] {
        expect("cipher", both.cipher(words, &random.bytes(position)), Ok(()))?;
        let head = both.head;
        for code in NO_CIPHER {
            both.put_head(Head { code, ..head });
            all_refuse(&format!("code {code:#x}"), cipher, words, &mut both, 1)?;
            expect(&format!("spent, code {code:#x}"), both.spent(), Err(1))?;
            expect(&format!("set up, code {code:#x}"), both.set_up(words, code, &key, &iv), Err(1))?;
            expect(&format!("checkpoint length, code {code:#x}"), both.checkpoint_length(code, head.position), Err(1))?;
        }
        both.put_head(head);
        expect("spent", both.spent(), Ok(head.position))?;
    }
    Ok(())
}

/// The story of request (a). Where an area is copied, then two cipher calls of two or three bytes are made, and then the head is
/// copied, cipher, move, write and recover notice it. Where the head is copied first and the area last, write does not notice it
/// as long as both are of one turn and the head's step is not among its first twelve; the checkpoint that it gives cannot be
/// loaded.
fn copied_apart(random: &mut Random, cipher: Cipher, tally: &mut Tally) -> Result<(), String> {
    let words = cipher.area_words();
    let table = cipher.table_words() as u64;
    let turn = 4 * table;
    let (key, iv) = (random.bytes(cipher.key_bytes()), random.bytes(cipher.key_bytes()));
    let near_turn_end = [turn - 9, turn - 5, turn - 4, turn - 3, turn - 1, turn, turn + 1, 2 * turn - 2, 3 * turn + 48];
    for start in [0, 1, 2, 3, 4, 47, 48, 49, 100, 1000].into_iter().chain(near_turn_end) {
        for (first, second) in [(2, 2), (2, 3), (3, 2), (3, 3)] {
            let case = format!("{first} and {second} bytes from {start}");
            let mut both = Both::new(FRESH, random.words(words), tally);
            expect("set up", both.set_up(words, cipher.code(), &key, &iv), Ok(()))?;
            expect("move", both.move_by(words, start as i64), Ok(()))?;
            let (older_head, older_area) = (both.head, both.area.clone());
            expect("cipher", both.cipher(words, &random.bytes(first)), Ok(()))?;
            expect("cipher", both.cipher(words, &random.bytes(second)), Ok(()))?;
            let (newer_head, newer_area) = (both.head, both.area.clone());

            both.put_area(&older_area);
            all_refuse(&format!("older area, {case}"), cipher, words, &mut both, 13)?;

            both.put_area(&newer_area);
            let string = calls::checkpoint(cipher, newer_head.position, &newer_area);
            expect(&case, both.write(words, &random.bytes(8197)), Ok(string))?;

            both.put_head(older_head);
            let (older_steps, newer_steps) = (calls::steps_at(start), calls::steps_at(newer_head.position));
            let is_same_turn = start != 0 && (older_steps - 1) / table == (newer_steps - 1) / table;
            if start == 0 || is_same_turn && (older_steps - 1) % table >= 12 {
                let string = calls::checkpoint(cipher, start, &newer_area);
                expect(&format!("newer area, {case}"), both.write(words, &random.bytes(8197)), Ok(string.clone()))?;
                expect(&format!("load of that, {case}"), both.load(words, &string), Err(12))?;
            } else {
                let _ = both.write(words, &random.bytes(8197)).map_err(|text| format!("newer area, {case}, {text}"))?;
            }
        }
    }
    Ok(())
}

/// An area of later steps with an older head is accepted until a table word has changed of which the head's output is made. From
/// step 12 of a turn on, the rest of the turn changes none, and the next turn first changes the one that the lowest byte of
/// A[j-12] names. For the first twelve steps the turn itself changes A[j-12], at its end.
fn areas_of_later_steps(random: &mut Random, cipher: Cipher, tally: &mut Tally) -> Result<(), String> {
    let words = cipher.area_words();
    let table = cipher.table_words();
    for turn in 0..4 {
        for (j, byte) in [(0, 0), (11, 0), (12, 200), (13, 0), (table / 2, 255), (table - 2, 7), (table - 1, 0), (table - 1, 1)] {
            let mut area = random.words(words);
            let read = (turn % 2) * table + (j + table - 12) % table;
            area[read] = area[read] & 0xFFFF_FF00 | byte as u32;
            let position = (4 * (turn * table + j)) as u64 + random.between(1, 4);
            let mut both = made_up(cipher, position, area, tally);
            let (older, mut newer) = (both.head, both.head);
            let last_unnoticed = if j < 12 { table - 13 } else { table - 1 - j + byte };
            for steps in [0, 1, last_unnoticed - byte, last_unnoticed, last_unnoticed + 1] {
                let end = position + 4 * steps as u64;
                let case = format!("head at {position}, area {steps} steps later");
                both.put_head(newer);
                expect(&case, both.move_by(words, end as i64 - newer.position as i64), Ok(()))?;
                newer = both.head;
                both.put_head(older);
                if steps <= last_unnoticed {
                    let string = calls::checkpoint(cipher, position, &both.area);
                    expect(&case, both.write(words, &random.bytes(8197)), Ok(string))?;
                } else {
                    all_refuse(&case, cipher, words, &mut both, 13)?;
                }
            }
            // A move back takes steps back, so an area copied before it is one of later steps, too.
            both.put_head(newer);
            expect("move back by the steps that changed such a word", both.move_by(words, -4 * (byte as i64 + 1)), Ok(()))?;
            let area_copied = both.area.clone();
            let distance = both.head.position - position;
            expect("move back in the turn", both.move_by(words, -(distance as i64)), Ok(()))?;
            both.put_area(&area_copied);
            let string = calls::checkpoint(cipher, position, &area_copied);
            expect("area copied before a move back", both.write(words, &random.bytes(8197)), Ok(string))?;
        }
    }
    Ok(())
}

/// At position 0 with word 0 an area of any content is accepted; recover finds that it has no key.
fn any_area_at_0(random: &mut Random, cipher: Cipher, tally: &mut Tally) -> Result<(), String> {
    let words = cipher.area_words();
    let bytes = cipher.key_bytes();
    for area in [vec![0; words], vec![u32::MAX; words], random.words(words), random.words(words)] {
        let string = calls::checkpoint(cipher, 0, &area);
        let mut both = Both::new(Head { code: cipher.code(), word: 0, position: 0, mark: 0 }, area, tally);
        expect("write at 0", both.write(words, &random.bytes(8197)), Ok(string))?;
        expect("recover at 0", both.recover(words, &random.bytes(bytes), &random.bytes(bytes)), Err(12))?;
        expect("move at 0", both.move_by(words, 0), Ok(()))?;
        expect("cipher of no bytes at 0", both.cipher(words, &[]), Ok(()))?;
        expect("cipher at 0", both.cipher(words, &random.bytes(3)), Ok(()))?;
        expect("move back to 0", both.move_by(words, -3), Ok(()))?;
        expect_word("after a move back to 0", &both, 0)?;
    }
    Ok(())
}

/// All made cases; the result is the text of the first difference.
pub fn run(seed: u64, tally: &mut Tally) -> Result<(), String> {
    let mut random = Random::new(seed, u64::MAX);
    for cipher in [Cipher::Hc128, Cipher::Hc256] {
        examples(&mut random, cipher, tally)?;
        lengths(&mut random, cipher, tally)?;
        last_words_of_turns(&mut random, cipher, tally)?;
        changed_expansions(&mut random, cipher, tally)?;
        first_words_of_heads(cipher, tally)?;
        words_at_turn_ends(&mut random, cipher, tally)?;
        refusals_beside_13(&mut random, cipher, tally)?;
        false_words(&mut random, cipher, tally)?;
        words_of_zero(&mut random, cipher, tally)?;
        calls_without_13(&mut random, cipher, tally)?;
        codes(&mut random, cipher, tally)?;
        copied_apart(&mut random, cipher, tally)?;
        areas_of_later_steps(&mut random, cipher, tally)?;
        any_area_at_0(&mut random, cipher, tally)?;
        marks::run(&mut random, cipher, tally)?;
        volumes::run(&mut random, cipher, tally)?;
    }
    words_not_twice(&mut random, tally)?;
    length_examples(&mut random, tally)?;
    duties::run(tally)?;
    effects::run(tally)?;
    rate_tables::run(tally)?;
    rate_duties::run(tally)?;
    soundnesses::run(tally)?;
    comparisons::run(tally)?;
    same_runs::run(tally)?;
    test_loads::run(&mut random, tally)
}
