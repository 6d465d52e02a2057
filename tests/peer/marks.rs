//! Cases made by hand about the mark of a head, with the answer that request (b) of document 02 gives for each.

use crate::both::Both;
use crate::calls::{self, Head, FRESH, LIMIT};
use crate::ciphers::{self, Cipher};
use crate::made::{expect, NO_CIPHER, POSITIONS};
use crate::random::Random;
use crate::tally::Tally;

/// A cipher call over so many bytes, or a move by a distance.
#[derive(Clone, Copy, Debug)]
enum Call {
    Cipher(usize),
    Move(i64),
}

/// Calls one after the other, each with the position and the mark that it leaves. Both begin at 0.
const CALLS: [(Call, u64, u64); 41] = [
    (Call::Cipher(0), 0, 0),
    (Call::Move(0), 0, 0),
    (Call::Move(10), 10, 0),
    (Call::Cipher(0), 10, 0),
    (Call::Move(-10), 0, 0),
    (Call::Cipher(7), 7, 7),
    (Call::Move(-7), 0, 7),
    (Call::Cipher(0), 0, 7),
    (Call::Cipher(3), 3, 7),
    (Call::Cipher(3), 6, 7),
    (Call::Cipher(1), 7, 7),
    (Call::Cipher(0), 7, 7),
    (Call::Cipher(1), 8, 8),
    (Call::Move(-6), 2, 8),
    (Call::Cipher(6), 8, 8),
    (Call::Move(-1), 7, 8),
    (Call::Cipher(2), 9, 9),
    (Call::Move(1), 10, 9),
    (Call::Cipher(0), 10, 9),
    (Call::Cipher(1), 11, 11),
    (Call::Move(-11), 0, 11),
    (Call::Move(11), 11, 11),
    (Call::Move(-8), 3, 11),
    (Call::Cipher(2_100), 2_103, 2_103),
    (Call::Move(500), 2_603, 2_103),
    (Call::Cipher(0), 2_603, 2_103),
    (Call::Move(0), 2_603, 2_103),
    (Call::Cipher(1), 2_604, 2_604),
    (Call::Move(-2_000), 604, 2_604),
    (Call::Cipher(1_999), 2_603, 2_604),
    (Call::Move(10_000), 12_603, 2_604),
    (Call::Move(-12_603), 0, 2_604),
    (Call::Cipher(2_604), 2_604, 2_604),
    (Call::Cipher(8_192), 10_796, 10_796),
    (Call::Move(-1), 10_795, 10_796),
    (Call::Cipher(1), 10_796, 10_796),
    (Call::Move(-10_796), 0, 10_796),
    (Call::Cipher(10_795), 10_795, 10_796),
    (Call::Move(-10_795), 0, 10_796),
    (Call::Cipher(10_797), 10_797, 10_797),
    (Call::Move(-9_999), 798, 10_797),
];

/// Positions at which checkpoints are loaded.
const LOADED: [u64; 14] = [0, 1, 2, 3, 4, 5, 127, 128, 2_047, 2_048, 4_097, 16_383, 16_384, 50_001];

/// Marks at the edges of what a mark can be, of 32 bits and of 64.
pub const MARK_EDGES: [u64; 12] =
    [0, 1, 2, LIMIT - 1, LIMIT, LIMIT + 1, u32::MAX as u64, 1 << 32, (1 << 32) + 5, 1 << 63, u64::MAX - 1, u64::MAX];

/// Marks that a caller may make up for a head at a position: the edges and those around the position.
fn made_up_marks(position: u64) -> Vec<u64> {
    let mut marks = MARK_EDGES.to_vec();
    marks.extend((position.saturating_sub(3)..=position.saturating_add(6)).filter(|mark| *mark <= LIMIT + 6));
    marks.sort();
    marks.dedup();
    marks
}

/// A key and an IV with the tables that they have at position 0.
struct Keyed {
    cipher: Cipher,
    key: Vec<u8>,
    iv: Vec<u8>,
    tables: Vec<u32>,
}

impl Keyed {
    fn new(random: &mut Random, cipher: Cipher) -> Keyed {
        let (key, iv) = (random.bytes(cipher.key_bytes()), random.bytes(cipher.key_bytes()));
        let tables = ciphers::set_up(cipher, &ciphers::words_of_bytes(&key), &ciphers::words_of_bytes(&iv));
        Keyed { cipher, key, iv, tables }
    }

    fn tables_at(&self, position: u64) -> Vec<u32> {
        let mut tables = self.tables.clone();
        ciphers::steps_forward(self.cipher, &mut tables, 0, calls::steps_at(position));
        tables
    }

    fn checkpoint_at(&self, position: u64) -> Vec<u8> {
        calls::checkpoint(self.cipher, position, &self.tables_at(position))
    }

    fn set_up(&self, case: &str, both: &mut Both) -> Result<(), String> {
        expect(case, both.set_up(self.cipher.area_words(), self.cipher.code(), &self.key, &self.iv), Ok(()))
    }

    fn load(&self, case: &str, both: &mut Both, string: &[u8]) -> Result<(), String> {
        let mut returned = ([0; 8], [0; 8]);
        let words = self.cipher.key_bytes() / 4;
        returned.0[..words].copy_from_slice(&ciphers::words_of_bytes(&self.key));
        returned.1[..words].copy_from_slice(&ciphers::words_of_bytes(&self.iv));
        expect(case, both.load(self.cipher.area_words(), string), Ok(returned))
    }

    /// Calls that must leave the mark: spent, write, recover, and refused ones of every kind.
    fn all_leave(&self, case: &str, both: &mut Both, mark: u64) -> Result<(), String> {
        let words = self.cipher.area_words();
        let bytes = self.cipher.key_bytes();
        let head = both.head;
        let string = calls::checkpoint(self.cipher, head.position, &both.area);
        let before = -(head.position as i64) - 1;
        let past = (LIMIT - head.position) as i64 + 1;
        let (key, iv) = (self.key.clone(), self.iv.clone());
        expect_mark(case, both, mark)?;
        expect(&format!("checkpoint length, {case}"), both.checkpoint_length(head.code, head.position), Ok(string.len()))?;
        expect(&format!("write, {case}"), both.write(words, &vec![9; string.len()]), Ok(string.clone()))?;
        expect(&format!("write, 8, {case}"), both.write(words, &vec![9; string.len() - 1]), Err(8))?;
        expect(&format!("recover, {case}"), both.recover(words, &vec![9; bytes], &vec![9; bytes]), Ok((key, iv)))?;
        expect(&format!("recover, 2, {case}"), both.recover(words, &vec![9; bytes - 1], &vec![9; bytes]), Err(2))?;
        expect(&format!("recover, 3, {case}"), both.recover(words, &vec![9; bytes], &vec![9; bytes - 1]), Err(3))?;
        expect(&format!("cipher, 4, {case}"), both.cipher(words - 1, &[0; 5]), Err(4))?;
        expect(&format!("move, 4, {case}"), both.move_by(words - 1, 5), Err(4))?;
        expect(&format!("move, 7, {case}"), both.move_by(words, before), Err(7))?;
        expect(&format!("move, 6, {case}"), both.move_by(words, past), Err(6))?;
        self.refused_set_ups(case, both)?;
        let strings: [(&[u8], u64); 3] = [(&[], 9), (&[3], 1), (&string[..string.len() - 1], 11)];
        for (string, refusal) in strings {
            expect(&format!("load, {refusal}, {case}"), both.load(words, string), Err(refusal))?;
        }
        if both.head != head {
            return Err(format!("{case}: both sides changed the head"));
        }
        expect_mark(case, both, mark)
    }

    /// Set ups that each of their conditions refuses.
    fn refused_set_ups(&self, case: &str, both: &mut Both) -> Result<(), String> {
        let words = self.cipher.area_words();
        let code = self.cipher.code();
        let (key, iv) = (&self.key[..], &self.iv[..]);
        expect(&format!("set up, 1, {case}"), both.set_up(words, 256 + code, key, iv), Err(1))?;
        expect(&format!("set up, 2, {case}"), both.set_up(words, code, &key[1..], iv), Err(2))?;
        expect(&format!("set up, 3, {case}"), both.set_up(words, code, key, &iv[1..]), Err(3))?;
        expect(&format!("set up, 4, {case}"), both.set_up(words - 1, code, key, iv), Err(4))
    }

    /// Loads that each of their conditions refuses. The position of this checkpoint must be at least 128.
    fn refused_loads(&self, case: &str, both: &mut Both, string: &[u8]) -> Result<(), String> {
        let words = self.cipher.area_words();
        let code = self.cipher.code() as u8;
        let mut changed = string.to_vec();
        *changed.last_mut().unwrap() ^= 1;
        let other_position = [&[code, string[1] ^ 4], &string[2..]].concat();
        expect(&format!("load, 4, {case}"), both.load(words - 1, string), Err(4))?;
        let strings: [(&[u8], u64); 9] = [
            (&[], 9),
            (&[0, 0], 1),
            (&[code, 0x80, 0x80, 0x80, 0x80, 0x01], 10),
            (&[code, 0xFF, 0xFF], 9),
            (&[code, 0xFF, 0x00], 10),
            (&[code, 0x81, 0x80, 0x80, 0x20], 5),
            (&string[..string.len() - 1], 11),
            (&changed, 12),
            (&other_position, 12),
        ];
        for (string, refusal) in strings {
            expect(&format!("load, {refusal}, {case}"), both.load(words, string), Err(refusal))?;
        }
        Ok(())
    }
}

/// The mark of the head and what spent returns against the expected number.
fn expect_mark(case: &str, both: &mut Both, expected: u64) -> Result<(), String> {
    let (mark, position) = (both.head.mark, both.head.position);
    if mark != expected {
        return Err(format!("{case}: both sides have mark {mark} at {position}, expected {expected}"));
    }
    expect(&format!("spent, {case}"), both.spent(), Ok(expected))
}

/// The position of the head, and its mark as above.
fn expect_both(case: &str, both: &mut Both, position: u64, mark: u64) -> Result<(), String> {
    if both.head.position != position {
        return Err(format!("{case}: both sides are at {}, expected {position}", both.head.position));
    }
    expect_mark(case, both, mark)
}

/// The calls of the list above from a set up and from loads; at a loaded position all its numbers count from there.
fn lists_of_calls(random: &mut Random, cipher: Cipher, tally: &mut Tally) -> Result<(), String> {
    let words = cipher.area_words();
    let keyed = Keyed::new(random, cipher);
    let mut both = Both::new(FRESH, random.words(words), tally);
    for start in [None].into_iter().chain(LOADED.map(Some)) {
        let from = match start {
            None => {
                keyed.set_up("set up", &mut both)?;
                0
            }
            Some(position) => {
                keyed.load("load", &mut both, &keyed.checkpoint_at(position))?;
                position
            }
        };
        expect_both(&format!("start {start:?}"), &mut both, from, from)?;
        for (number, (call, position, mark)) in CALLS.into_iter().enumerate() {
            let case = format!("start {start:?}, call {number}, {call:?}");
            match call {
                Call::Cipher(count) => expect(&case, both.cipher(words, &random.bytes(count)), Ok(()))?,
                Call::Move(distance) => expect(&case, both.move_by(words, distance), Ok(()))?,
            }
            expect_both(&case, &mut both, from + position, from + mark)?;
            if both.area[..] != keyed.tables_at(from + position) {
                return Err(format!("{case}: both sides have other tables than the key's at {}", from + position));
            }
            keyed.all_leave(&case, &mut both, from + mark)?;
        }
    }
    Ok(())
}

/// After a load, moves to behind and beyond the loaded position leave it as the mark, and cipher calls raise it where they end
/// beyond it. The next load or set up lowers it.
fn around_a_load(random: &mut Random, cipher: Cipher, tally: &mut Tally) -> Result<(), String> {
    let words = cipher.area_words();
    let keyed = Keyed::new(random, cipher);
    let mut both = Both::new(FRESH, random.words(words), tally);
    for position in LOADED {
        let string = keyed.checkpoint_at(position);
        for back in [1, 2, 4, 5, position / 2, position].into_iter().filter(|back| (1..=position).contains(back)) {
            let case = |what: &str| format!("{what}, loaded at {position} and {back} back");
            keyed.load(&case("load"), &mut both, &string)?;
            expect_both(&case("load"), &mut both, position, position)?;
            expect(&case("move back"), both.move_by(words, -(back as i64)), Ok(()))?;
            expect_both(&case("move back"), &mut both, position - back, position)?;
            expect(&case("no bytes"), both.cipher(words, &[]), Ok(()))?;
            expect_both(&case("no bytes"), &mut both, position - back, position)?;
            expect(&case("all but one"), both.cipher(words, &random.bytes(back as usize - 1)), Ok(()))?;
            expect_both(&case("all but one"), &mut both, position - 1, position)?;
            expect(&case("up to it"), both.cipher(words, &[0]), Ok(()))?;
            expect_both(&case("up to it"), &mut both, position, position)?;
            expect(&case("move back again"), both.move_by(words, -(back as i64)), Ok(()))?;
            expect(&case("across"), both.cipher(words, &random.bytes(back as usize + 1)), Ok(()))?;
            expect_both(&case("across"), &mut both, position + 1, position + 1)?;
        }
        for forward in [1, 2, 4, 5, 1_000, 9_000] {
            let case = |what: &str| format!("{what}, loaded at {position} and {forward} forward");
            keyed.load(&case("load"), &mut both, &string)?;
            expect_both(&case("load"), &mut both, position, position)?;
            expect(&case("move"), both.move_by(words, forward as i64), Ok(()))?;
            expect_both(&case("move"), &mut both, position + forward, position)?;
            expect(&case("no bytes"), both.cipher(words, &[]), Ok(()))?;
            expect_both(&case("no bytes"), &mut both, position + forward, position)?;
            expect(&case("one byte"), both.cipher(words, &[0]), Ok(()))?;
            expect_both(&case("one byte"), &mut both, position + forward + 1, position + forward + 1)?;
            expect(&case("move back"), both.move_by(words, -(forward as i64)), Ok(()))?;
            expect_both(&case("move back"), &mut both, position + 1, position + forward + 1)?;
        }
        keyed.set_up("set up", &mut both)?;
        expect_both(&format!("set up after a load at {position}"), &mut both, 0, 0)?;
    }
    Ok(())
}

/// Set up and load on a head with any mark. Refused, they leave it; accepted, they leave 0 and the loaded position.
fn overwritten(random: &mut Random, cipher: Cipher, tally: &mut Tally) -> Result<(), String> {
    let words = cipher.area_words();
    let keyed = Keyed::new(random, cipher);
    let mut both = Both::new(FRESH, random.words(words), tally);
    for position in [128, 4_097, 16_384] {
        let string = keyed.checkpoint_at(position);
        for mark in made_up_marks(position) {
            for code in [0, 1, 2, 3, 257] {
                let case = format!("over code {code} and mark {mark}");
                let head_position = random.pick(&[0, 7, position, LIMIT, LIMIT + 1, u64::MAX]);
                let head = Head { code, word: random.next() as u32, position: head_position, mark };
                both.put_head(head);
                keyed.refused_set_ups(&case, &mut both)?;
                keyed.refused_loads(&case, &mut both, &string)?;
                if both.head != head {
                    return Err(format!("{case}: both sides changed the head in a refused call"));
                }
                keyed.set_up(&format!("set up {case}"), &mut both)?;
                expect_both(&format!("set up {case}"), &mut both, 0, 0)?;
                both.put_head(head);
                keyed.load(&format!("load {case}"), &mut both, &string)?;
                expect_both(&format!("load {case}"), &mut both, position, position)?;
            }
        }
    }
    Ok(())
}

/// Made-up marks are given back as they are and kept by every call but a cipher call that ends beyond them.
fn taken_as_given(random: &mut Random, cipher: Cipher, tally: &mut Tally) -> Result<(), String> {
    let words = cipher.area_words();
    let keyed = Keyed::new(random, cipher);
    let mut both = Both::new(FRESH, random.words(words), tally);
    for position in POSITIONS {
        let tables = keyed.tables_at(position);
        let string = keyed.checkpoint_at(position);
        for mark in made_up_marks(position) {
            let case = format!("mark {mark} at {position}");
            let head = calls::head_at(cipher, position, mark, &tables);
            both.put_head(head);
            both.put_area(&tables);
            keyed.all_leave(&case, &mut both, mark)?;
            expect(&format!("write, {case}"), both.write(words, &random.bytes(8197)), Ok(string.clone()))?;
            expect(&format!("cipher of no bytes, {case}"), both.cipher(words, &[]), Ok(()))?;
            expect_both(&format!("cipher of no bytes, {case}"), &mut both, position, mark)?;
            for distance in [0, 1, 4, 5, 5_000] {
                expect(&format!("move by {distance}, {case}"), both.move_by(words, distance), Ok(()))?;
                expect_both(&format!("move by {distance}, {case}"), &mut both, position + distance as u64, mark)?;
                expect(&format!("no bytes there, {case}"), both.cipher(words, &[]), Ok(()))?;
                expect_both(&format!("no bytes there, {case}"), &mut both, position + distance as u64, mark)?;
                expect(&format!("move back by {distance}, {case}"), both.move_by(words, -distance), Ok(()))?;
                expect_both(&format!("move back by {distance}, {case}"), &mut both, position, mark)?;
            }
            both.put_head(Head { word: !head.word, ..head });
            expect_mark(&format!("false word, {case}"), &mut both, mark)?;
            expect(&format!("cipher, false word, {case}"), both.cipher(words, &[0; 9]), Err(13))?;
            expect(&format!("move, false word, {case}"), both.move_by(words, 1), Err(13))?;
            expect_mark(&format!("after 13, {case}"), &mut both, mark)?;
            for count in [1, 2, 3, 4, 5, 6, 9, 700] {
                both.put_head(head);
                both.put_area(&tables);
                let end = position + count as u64;
                let larger = if mark > end { mark } else { end };
                expect(&format!("cipher of {count}, {case}"), both.cipher(words, &random.bytes(count)), Ok(()))?;
                expect_both(&format!("cipher of {count}, {case}"), &mut both, end, larger)?;
                expect(&format!("move to 0, {case}"), both.move_by(words, -(end as i64)), Ok(()))?;
                expect_both(&format!("move to 0, {case}"), &mut both, 0, larger)?;
            }
        }
    }
    Ok(())
}

/// Spent is refused for the code, then for the position, and never for the mark.
fn refusals_of_spent(random: &mut Random, cipher: Cipher, tally: &mut Tally) -> Result<(), String> {
    let mut both = Both::new(FRESH, random.words(cipher.area_words()), tally);
    let good = [0, 1, 5, LIMIT - 1, LIMIT];
    let over = [LIMIT + 1, LIMIT + 2, 1 << 32, (1 << 32) + 5, 1 << 63, u64::MAX];
    for position in good.into_iter().chain(over) {
        for mark in made_up_marks(position) {
            let case = format!("spent of mark {mark} at {position}");
            let word = random.next() as u32;
            for code in NO_CIPHER {
                both.put_head(Head { code, word, position, mark });
                expect(&format!("{case}, code {code:#x}"), both.spent(), Err(1))?;
            }
            both.put_head(Head { code: cipher.code(), word, position, mark });
            expect(&case, both.spent(), if position > LIMIT { Err(5) } else { Ok(mark) })?;
        }
    }
    Ok(())
}

/// Near the limit, with tables of any content: a cipher call that 6 refuses leaves the mark, and so does a move.
fn near_the_limit(random: &mut Random, cipher: Cipher, tally: &mut Tally) -> Result<(), String> {
    let words = cipher.area_words();
    let mut both = Both::new(FRESH, random.words(words), tally);
    for mark in made_up_marks(LIMIT) {
        both.put_area(&random.words(words));
        let head = calls::head_at(cipher, LIMIT - 9, mark, &both.area);
        both.put_head(head);
        let larger = |end: u64| if mark > end { mark } else { end };
        let case = |what: &str| format!("{what}, mark {mark}");
        for count in [10, 11, 5_000] {
            expect(&case("bytes past the limit"), both.cipher(words, &random.bytes(count)), Err(6))?;
        }
        expect(&case("move past the limit"), both.move_by(words, 10), Err(6))?;
        expect(&case("farthest move"), both.move_by(words, i64::MAX), Err(6))?;
        expect(&case("farthest move back"), both.move_by(words, i64::MIN), Err(7))?;
        expect_both(&case("refused calls"), &mut both, LIMIT - 9, mark)?;
        expect(&case("move to the limit"), both.move_by(words, 9), Ok(()))?;
        expect_both(&case("move to the limit"), &mut both, LIMIT, mark)?;
        expect(&case("no bytes at the limit"), both.cipher(words, &[]), Ok(()))?;
        expect_both(&case("no bytes at the limit"), &mut both, LIMIT, mark)?;
        expect(&case("a byte at the limit"), both.cipher(words, &[0]), Err(6))?;
        expect_both(&case("a byte at the limit"), &mut both, LIMIT, mark)?;
        expect(&case("move back"), both.move_by(words, -9), Ok(()))?;
        expect_both(&case("move back"), &mut both, LIMIT - 9, mark)?;
        expect(&case("eight bytes"), both.cipher(words, &[0; 8]), Ok(()))?;
        expect_both(&case("eight bytes"), &mut both, LIMIT - 1, larger(LIMIT - 1))?;
        expect(&case("two bytes more"), both.cipher(words, &[0; 2]), Err(6))?;
        expect_both(&case("two bytes more"), &mut both, LIMIT - 1, larger(LIMIT - 1))?;
        expect(&case("one byte more"), both.cipher(words, &[0]), Ok(()))?;
        expect_both(&case("one byte more"), &mut both, LIMIT, larger(LIMIT))?;
        expect(&case("move back a turn"), both.move_by(words, -8_200), Ok(()))?;
        expect_both(&case("move back a turn"), &mut both, LIMIT - 8_200, larger(LIMIT))?;
        expect(&case("to the limit again"), both.cipher(words, &random.bytes(8_200)), Ok(()))?;
        expect_both(&case("to the limit again"), &mut both, LIMIT, larger(LIMIT))?;
    }
    Ok(())
}

/// The checkpoint that is written, of just the length that is asked for.
fn written(case: &str, words: usize, both: &mut Both) -> Result<Vec<u8>, String> {
    let head = both.head;
    let length = both.checkpoint_length(head.code, head.position)?.map_err(|refusal| format!("{case}: length, {refusal}"))?;
    expect(case, both.write(words, &vec![9; length - 1]), Err(8))?;
    both.write(words, &vec![9; length])?.map_err(|refusal| format!("{case}: write, {refusal}"))
}

/// Lists that come to the same position with different marks write the same bytes, and a load of them gives the same head.
fn equal_checkpoints(random: &mut Random, cipher: Cipher, tally: &mut Tally) -> Result<(), String> {
    let words = cipher.area_words();
    let keyed = Keyed::new(random, cipher);
    let mut both = Both::new(FRESH, random.words(words), tally);
    for position in [0, 1, 4, 5, 127, 128, 2_048, 4_095, 16_383, 16_384, 70_001, 2_097_151, 2_097_152] {
        let string = keyed.checkpoint_at(position);
        let later = keyed.checkpoint_at(position + 77);
        let count = position as usize;
        for (number, mark) in
            [0, position, position + 50, position, position + 77, 1, LIMIT + 1, u64::MAX].into_iter().enumerate()
        {
            let case = format!("list {number} to {position}");
            both.put_area(&random.words(words));
            match number {
                0 => {
                    keyed.set_up(&case, &mut both)?;
                    expect(&case, both.move_by(words, position as i64), Ok(()))?;
                }
                1 => {
                    keyed.set_up(&case, &mut both)?;
                    expect(&case, both.cipher(words, &random.bytes(count)), Ok(()))?;
                }
                2 => {
                    keyed.set_up(&case, &mut both)?;
                    expect(&case, both.cipher(words, &random.bytes(count + 50)), Ok(()))?;
                    expect(&case, both.move_by(words, -50), Ok(()))?;
                }
                3 => keyed.load(&case, &mut both, &string)?,
                4 => {
                    keyed.load(&case, &mut both, &later)?;
                    expect(&case, both.move_by(words, -77), Ok(()))?;
                }
                _ => {
                    keyed.load(&case, &mut both, &string)?;
                    both.put_head(Head { mark, ..both.head });
                }
            }
            expect_both(&case, &mut both, position, mark)?;
            if written(&case, words, &mut both)? != string {
                return Err(format!("{case}: both sides wrote another checkpoint than with other marks"));
            }
            expect_both(&format!("write, {case}"), &mut both, position, mark)?;
        }
    }
    Ok(())
}

/// All made cases about the mark of one cipher; the result is the text of the first difference.
pub fn run(random: &mut Random, cipher: Cipher, tally: &mut Tally) -> Result<(), String> {
    lists_of_calls(random, cipher, tally)?;
    around_a_load(random, cipher, tally)?;
    overwritten(random, cipher, tally)?;
    taken_as_given(random, cipher, tally)?;
    refusals_of_spent(random, cipher, tally)?;
    near_the_limit(random, cipher, tally)?;
    equal_checkpoints(random, cipher, tally)
}
