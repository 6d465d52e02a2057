//! Random lists of calls with valid and damaged arguments.

use crate::both::{Agreed, Both};
use crate::calls::{self, Head, FRESH, LIMIT};
use crate::ciphers::{self, Cipher};
use crate::count::Count;
use crate::made::NO_CIPHER;
use crate::marks::MARK_EDGES;
use crate::random::Random;
use crate::random_volumes::{self, any_entries};
use crate::tally::Tally;
use crate::test_load;
use crate::volume;
use std::cmp::Ordering;

/// The words of memory for areas, more than the larger cipher needs.
const MEMORY_WORDS: usize = 2112;

/// The farthest way in bytes that a call may go without using up one of the list's far calls.
const NEAR: u64 = 400_000;

/// One list in so many has far calls, which take every step to the limit or back.
const FAR_LISTS: u64 = 200;

/// How many far calls such a list has.
const FAR_CALLS: u64 = 4;

/// The positions on both sides of each change of a checkpoint's length, the first one, and those on both sides of the limit.
const LENGTH_EDGES: [u64; 9] = [0, 127, 128, 16_383, 16_384, 2_097_151, 2_097_152, LIMIT, LIMIT + 1];

struct List<'t> {
    random: Random,
    both: Both<'t>,
    checkpoints: Vec<Vec<u8>>,
    /// Heads with the areas that belonged to them, from earlier in the list.
    copies: Vec<(Head, Vec<u32>)>,
    /// Kept where every call gets head and area as the last one left them, from a fresh head on; then no answer is 13.
    count: Option<Count>,
    far_calls: u64,
}

/// Makes the calls of one list; the result is the text of the first difference.
pub fn run(seed: u64, number: u64, tally: &mut Tally) -> Result<(), String> {
    let mut random = Random::new(seed, number);
    let is_far = number % FAR_LISTS == FAR_LISTS / 2;
    let area = if random.once_in(8) { vec![0; MEMORY_WORDS] } else { random.words(MEMORY_WORDS) };
    let head = if is_far { FRESH } else { first_head(&mut random, &area) };
    let count = if head == FRESH && random.once_in(2) { Some(Count::default()) } else { None };
    let copies = vec![(head, area.clone())];
    let checkpoints = vec![other_checkpoint(&mut random, Cipher::Hc128), other_checkpoint(&mut random, Cipher::Hc256)];
    let both = Both::new(head, area, tally);
    let far_calls = if is_far { FAR_CALLS } else { 0 };
    let mut list = List { random, both, checkpoints, copies, count, far_calls };
    if is_far {
        list.go_far()?;
    } else if head == FRESH && !list.random.once_in(4) {
        list.good_set_up()?;
    }
    let calls = list.random.between(10, 53);
    let large_cipher = list.random.below(calls);
    for number in 0..calls {
        if number == large_cipher {
            let length = list.random.between(10_000, 70_000) as usize;
            list.cipher(length)?;
        } else if list.count.is_some() {
            list.any_call()?;
        } else {
            list.disturbed_call()?;
        }
    }
    list.spent()
}

/// A fresh head or a made-up one, which mostly has the word of the tables. A made-up one has a made-up mark.
fn first_head(random: &mut Random, area: &[u32]) -> Head {
    let position = match random.below(16) {
        0..=7 => return FRESH,
        8 => random.below(20_000),
        9 => edge_position(random),
        10..=12 => LIMIT - random.below(9_000),
        13 => LIMIT - random.below(5),
        14 => random.pick(&[LIMIT + 1, LIMIT + 2, 2 * LIMIT, 1 << 32, 1 << 63, u64::MAX - 3, u64::MAX]),
        _ => {
            let any = random.next() as u32;
            let (code, word) = (any_code(random), random.pick(&[0, any]));
            let position = random.pick(&[0, 1, 5000, LIMIT, LIMIT + 1, u64::MAX]);
            return Head { code, word, position, mark: made_up_mark(random, position) };
        }
    };
    let mark = made_up_mark(random, position);
    let mut head = calls::head_at(random.pick(&[Cipher::Hc128, Cipher::Hc256]), position, mark, area);
    if random.once_in(8) {
        head.word ^= 1 << random.below(32);
    }
    head
}

/// A mark for a head at a position: near the position, at one of the edges, or any.
fn made_up_mark(random: &mut Random, position: u64) -> u64 {
    match random.below(4) {
        0 => position.wrapping_add(random.below(41)).wrapping_sub(20),
        1 => position.saturating_add(random.below(10_000)),
        2 => random.pick(&MARK_EDGES),
        _ => random.next() >> random.below(64),
    }
}

/// A code that names no cipher, or any at all.
fn any_code(random: &mut Random) -> u32 {
    let any = random.next() as u32;
    if random.once_in(8) {
        any
    } else {
        random.pick(&NO_CIPHER)
    }
}

/// A checkpoint of a random key and IV at a small position.
fn other_checkpoint(random: &mut Random, cipher: Cipher) -> Vec<u8> {
    let position = small_position(random);
    let words = cipher.key_bytes() / 4;
    let mut area = ciphers::set_up(cipher, &random.words(words), &random.words(words));
    ciphers::steps_forward(cipher, &mut area, 0, calls::steps_at(position));
    calls::checkpoint(cipher, position, &area)
}

/// A position near 0, near the end of some table's turn, or any within a few turns.
fn small_position(random: &mut Random) -> u64 {
    match random.below(3) {
        0 => random.below(20),
        1 => random.between(1, 9) * 2048 + random.below(14) - 7,
        _ => random.below(30_000),
    }
}

/// A position at or around one of the edges.
fn edge_position(random: &mut Random) -> u64 {
    let edge = random.pick(&LENGTH_EDGES);
    if random.once_in(2) {
        edge
    } else {
        (edge + random.below(9)).saturating_sub(4)
    }
}

/// The length of what load reads as code and position.
fn start_length(string: &[u8]) -> usize {
    let groups = string.iter().skip(1).take(4).take_while(|byte| **byte >= 0x80).count();
    (groups + 2).min(string.len())
}

impl List<'_> {
    /// Whether a way of so many bytes may be gone; a far one uses up a far call.
    fn may_go(&mut self, bytes: u64) -> bool {
        if bytes <= NEAR {
            return true;
        }
        if self.far_calls == 0 {
            return false;
        }
        self.far_calls -= 1;
        true
    }

    /// Mostly the area size of a code's cipher, else any.
    fn words(&mut self, code: u32) -> usize {
        match Cipher::of_code(code) {
            Some(cipher) if !self.random.once_in(14) => cipher.area_words(),
            _ => {
                let any = self.random.between(0, MEMORY_WORDS as u64) as usize;
                self.random.pick(&[0, 1, 512, 1023, 1024, 1025, 2047, 2048, 2049, any])
            }
        }
    }

    /// Mostly the key and IV length of a code's cipher, else any.
    fn key_length(&mut self, code: u32) -> usize {
        match Cipher::of_code(code) {
            Some(cipher) if !self.random.once_in(12) => cipher.key_bytes(),
            _ => self.random.pick(&[0, 1, 15, 16, 17, 31, 32, 33, 64]),
        }
    }

    fn good_set_up(&mut self) -> Result<(), String> {
        let code = self.random.pick(&[1, 2]);
        let cipher = Cipher::of_code(code).unwrap();
        let key = self.random.bytes(cipher.key_bytes());
        let iv = self.random.bytes(cipher.key_bytes());
        self.both.set_up(cipher.area_words(), code, &key, &iv)?.map_err(|_| "set up refused")?;
        if let Some(count) = &mut self.count {
            count.set_up();
        }
        Ok(())
    }

    /// Takes a true key and IV near the limit, so that later far calls find them there.
    fn go_far(&mut self) -> Result<(), String> {
        self.good_set_up()?;
        let words = Cipher::of_code(self.both.head.code).unwrap().area_words();
        let distance = (LIMIT - self.random.below(9_000)) as i64;
        self.far_calls -= 1;
        self.both.move_by(words, distance)?.map_err(|_| "move refused")?;
        if let Some(count) = &mut self.count {
            count.move_by(distance);
        }
        let checkpoint = self.both.write(words, &[0; 8200])?.map_err(|_| "write refused")?;
        self.checkpoints.push(checkpoint);
        Ok(())
    }

    /// A call that sometimes gets another head or area than the last one left. Mostly both are put back after it.
    fn disturbed_call(&mut self) -> Result<(), String> {
        self.set_right();
        if self.random.once_in(4) {
            self.copies.push((self.both.head, self.both.area.clone()));
        }
        if !self.random.once_in(8) {
            return self.any_call();
        }
        let (head, area) = (self.both.head, self.both.area.clone());
        self.disturb();
        let disturbed = self.both.head;
        self.any_call()?;
        let names_cipher = Cipher::of_code(disturbed.code).is_some();
        if self.both.head == disturbed && !(names_cipher && self.random.once_in(4)) {
            self.both.put_head(head);
            self.both.put_area(&area);
        }
        Ok(())
    }

    /// Gives a head with a false word the word of the tables, half of the times.
    fn set_right(&mut self) {
        let head = self.both.head;
        if let (Some(cipher), true) = (Cipher::of_code(head.code), self.random.once_in(2)) {
            self.both.put_head(calls::head_at(cipher, head.position, head.mark, &self.both.area));
        }
    }

    /// Puts a false word, a made-up mark or something from another moment in the place of what the last call left.
    fn disturb(&mut self) {
        let head = self.both.head;
        let copy = self.random.below(self.copies.len() as u64) as usize;
        let (copied_head, copied_area) = self.copies[copy].clone();
        match self.random.below(16) {
            0..=3 => self.both.put_head(Head { word: head.word ^ (1 << self.random.below(32)), ..head }),
            4..=5 => self.both.put_head(Head { word: copied_head.word, ..head }),
            6 => self.both.put_head(Head { word: 0, ..head }),
            7 => self.both.put_head(copied_head),
            8 => self.both.put_area(&copied_area),
            9 => {
                self.both.put_head(copied_head);
                self.both.put_area(&copied_area);
            }
            10 => {
                let cipher = self.random.pick(&[Cipher::Hc128, Cipher::Hc256]);
                let position = edge_position(&mut self.random);
                let mark = made_up_mark(&mut self.random, position);
                self.both.put_head(calls::head_at(cipher, position, mark, &self.both.area));
            }
            11..=14 => self.both.put_head(Head { mark: made_up_mark(&mut self.random, head.position), ..head }),
            _ => {
                let higher_bit = 1 << self.random.between(8, 31);
                let any = any_code(&mut self.random);
                let code = self.random.pick(&[head.code ^ higher_bit, any]);
                self.both.put_head(Head { code, ..head });
            }
        }
    }

    /// The end of a call. In a list that nobody disturbs, an answer of 13 is wrong.
    fn end<T>(&self, agreed: Agreed<T>) -> Agreed<T> {
        match agreed? {
            Err(13) if self.count.is_some() => Err("wrong on both sides: 13 in an undisturbed list".to_string()),
            answer => Ok(answer),
        }
    }

    fn any_call(&mut self) -> Result<(), String> {
        match self.random.below(150) {
            0..=9 => self.set_up(),
            10..=34 => {
                let length = self.cipher_length();
                self.cipher(length)
            }
            35..=56 => self.move_by(),
            57..=66 => self.write(),
            67..=74 => self.recover(),
            75..=94 => self.load(),
            95..=109 => self.spent(),
            110..=119 => self.checkpoint_length(),
            120..=135 => self.encipher_volume(),
            136..=139 => self.read_volume(),
            _ => self.test_load(),
        }
    }

    fn set_up(&mut self) -> Result<(), String> {
        let code = if self.random.once_in(8) { any_code(&mut self.random) } else { self.random.pick(&[1, 2]) };
        let key_length = self.key_length(code);
        let iv_length = self.key_length(code);
        let key = self.random.bytes(key_length);
        let iv = self.random.bytes(iv_length);
        let words = self.words(code);
        let answer = self.both.set_up(words, code, &key, &iv)?;
        if let (Ok(()), Some(count)) = (answer, &mut self.count) {
            count.set_up();
        }
        Ok(())
    }

    /// A seed, mostly any and sometimes 0 or at an edge.
    fn test_seed(&mut self) -> u32 {
        let any = self.random.next() as u32;
        match self.random.below(12) {
            0..=1 => 0,
            2 => self.random.pick(&[1, 2, 3, 1 << 31, u32::MAX]),
            3 => 1 << self.random.below(32),
            _ => any,
        }
    }

    /// A count of calls: mostly small, sometimes up to the most, and sometimes over it.
    fn test_count(&mut self) -> u64 {
        match self.random.below(24) {
            0..=1 => 0,
            2..=8 => self.random.between(1, 6),
            9..=15 => self.random.between(7, 60),
            16 => self.random.between(61, 998),
            17 => self.random.pick(&[999, 1_000]),
            18..=20 => 1_001,
            21..=22 => self.random.pick(&[1_002, 1 << 16, 1 << 32, (1 << 32) + 1, (1 << 32) + 1_000, 1 << 63, u64::MAX]),
            _ => 1_001 + (self.random.next() >> self.random.between(1, 63)),
        }
    }

    /// A test load, which is a set up and its calls for the list's own count.
    fn test_load(&mut self) -> Result<(), String> {
        let (seed, count) = (self.test_seed(), self.test_count());
        let code = if self.random.once_in(8) { any_code(&mut self.random) } else { self.random.pick(&[1, 2]) };
        let (key_length, iv_length) = (self.key_length(code), self.key_length(code));
        let (key, iv) = (self.random.bytes(key_length), self.random.bytes(iv_length));
        let words = self.words(code);
        let answer = self.both.test_load(words, seed, count, code, &key, &iv)?;
        if let (Ok(()), Some(own)) = (answer, &mut self.count) {
            own.test_load(&test_load::words(seed, count));
        }
        Ok(())
    }

    fn cipher_length(&mut self) -> usize {
        let left = LIMIT.saturating_sub(self.both.head.position);
        let turn = self.random.pick(&[2048, 4096, 8192]);
        let to_turn = turn - self.both.head.position % turn;
        let to_mark = self.both.head.mark.saturating_sub(self.both.head.position);
        let length = match self.random.below(20) {
            0 => 0,
            1..=6 => self.random.between(1, 16),
            7..=9 => self.random.between(17, 300),
            10..=11 => to_turn + self.random.below(10),
            12 => to_turn,
            13 => left.min(70_000),
            14 => (left + 1).min(70_000),
            15..=16 => to_mark.min(70_000),
            17..=18 => to_mark.min(70_000) + self.random.below(9),
            _ => self.random.between(300, 70_000),
        };
        length as usize
    }

    fn cipher(&mut self, length: usize) -> Result<(), String> {
        let words = self.words(self.both.head.code);
        let bytes = self.random.bytes(length);
        let agreed = self.both.cipher(words, &bytes);
        let answer = self.end(agreed)?;
        if let (Ok(()), Some(count)) = (answer, &mut self.count) {
            count.cipher(length);
        }
        Ok(())
    }

    /// Entries whose volume ends at the limit, beyond it, around the mark or at the end of a turn, or any. With a false word it
    /// mostly ends beyond the limit, so that 13 comes before 6.
    fn entries(&mut self) -> Vec<u32> {
        let position = self.both.head.position;
        let turn = self.random.pick(&[2048, 4096, 8192]);
        let to_mark = self.both.head.mark.saturating_sub(position);
        let left = LIMIT.saturating_sub(position);
        let length = match self.random.below(14) {
            _ if self.both.has_false_word() && !self.random.once_in(8) => left.saturating_add(1),
            0..=1 => left,
            2 => left.saturating_add(1),
            3 => left.saturating_add(self.random.between(2, 9)),
            4..=5 => to_mark,
            6 => to_mark.saturating_add(self.random.between(1, 9)),
            7 => turn - position % turn + self.random.below(10),
            8 => 1,
            _ => return any_entries(&mut self.random),
        };
        random_volumes::entries_of_length(&mut self.random, length).unwrap_or_else(|| any_entries(&mut self.random))
    }

    /// Writes a volume and enciphers it, whole or damaged, with the duty on the bytes before and after. What was enciphered is
    /// sometimes deciphered at the same position.
    fn encipher_volume(&mut self) -> Result<(), String> {
        let entries = self.entries();
        let length = volume::volume_of(&entries).len() + self.random.pick(&[0, 0, 1, 50]);
        let lent = self.random.bytes(length);
        let mut volume = self.both.write_volume(&entries, &lent)?.map_err(|_| "write volume refused")?;
        if self.random.once_in(3) {
            volume = random_volumes::damaged(&mut self.random, volume);
        }
        let _ = self.both.volume_duty(&volume)?;
        let words = self.words(self.both.head.code);
        let agreed = self.both.encipher_volume(words, &volume);
        let Ok(enciphered) = self.end(agreed)? else { return Ok(()) };
        let _ = self.both.volume_duty(&enciphered)?;
        if let Some(count) = &mut self.count {
            count.cipher(volume.len());
        }
        if self.random.once_in(4) {
            let back = -(volume.len() as i64);
            self.both.move_by(words, back)?.map_err(|_| "move refused")?;
            let deciphered = self.both.ciphered(words, &enciphered)?;
            if deciphered != Ok(volume) {
                return Err(format!("call {}: wrong on both sides: deciphering does not give the volume", self.both.calls));
            }
        }
        Ok(())
    }

    /// Reads a volume, whole or damaged, into a list that is long enough or one number too short, and takes the duty on it.
    fn read_volume(&mut self) -> Result<(), String> {
        let entries = any_entries(&mut self.random);
        let mut string = volume::volume_of(&entries);
        if self.random.once_in(2) {
            string = random_volumes::damaged(&mut self.random, string);
        }
        let room = (entries.len() + self.random.pick(&[0, 1, 2, 9])).saturating_sub(1);
        let list = self.random.words(room);
        let _ = self.both.read_volume(&string, &list)?;
        self.both.volume_duty(&string).map(|_| ())
    }

    fn distance(&mut self) -> i64 {
        let position = self.both.head.position as i128;
        let mark = self.both.head.mark as i128;
        let limit = LIMIT as i128;
        let turn = self.random.pick(&[2048, 4096, 8192]) as i128;
        let distance = match self.random.below(18) {
            0..=3 => self.random.below(41) as i128 - 20,
            4..=6 => (position / turn + self.random.below(5) as i128 - 2) * turn + self.random.below(11) as i128 - 5 - position,
            7..=8 => self.random.below(200_001) as i128 - 100_000,
            9 => -position,
            10 => -position - 1,
            11 => limit - position,
            12 => limit + 1 - position,
            13 => self.random.pick(&[i64::MIN, i64::MIN + 1, i64::MAX, i64::MAX - 1, 1, -1]) as i128,
            14 => self.random.next() as i64 as i128,
            15..=16 => mark - position + self.random.below(31) as i128 - 15,
            _ => self.random.below(2 * LIMIT) as i128 - limit,
        };
        distance.clamp(i64::MIN as i128, i64::MAX as i128) as i64
    }

    fn move_by(&mut self) -> Result<(), String> {
        let mut distance = self.distance();
        let end = self.both.head.position as i128 + distance as i128;
        if (0..=LIMIT as i128).contains(&end) && !self.may_go(distance.unsigned_abs()) {
            distance %= 9_000;
        }
        let words = self.words(self.both.head.code);
        let agreed = self.both.move_by(words, distance);
        let answer = self.end(agreed)?;
        if let (Ok(()), Some(count)) = (answer, &mut self.count) {
            count.move_by(distance);
        }
        Ok(())
    }

    fn checkpoint_length(&mut self) -> Result<(), String> {
        let head = self.both.head;
        if self.random.once_in(4) {
            return self.both.checkpoint_length(head.code, head.position).map(|_| ());
        }
        let code = if self.random.once_in(8) { any_code(&mut self.random) } else { self.random.pick(&[1, 2]) };
        let position = match self.random.below(8) {
            0..=3 => edge_position(&mut self.random),
            4..=5 => self.random.below(LIMIT + 1),
            6 => self.random.pick(&[2 * LIMIT, 1 << 28, 1 << 32, (1 << 32) + 127, 1 << 63, u64::MAX - 3, u64::MAX]),
            _ => self.random.next() >> self.random.below(64),
        };
        self.both.checkpoint_length(code, position).map(|_| ())
    }

    fn write(&mut self) -> Result<(), String> {
        let head = self.both.head;
        let longest = if head.code == 2 { 8197 } else { 4101 };
        let exact = calls::checkpoint_length(head.code, head.position).unwrap_or(longest);
        let length = match self.random.below(20) {
            0..=5 => exact,
            6..=8 => exact - 1,
            9 => exact - self.random.between(2, 4) as usize,
            10..=11 => longest,
            12..=13 => longest - 1,
            14..=16 => exact + self.random.between(1, 100) as usize,
            17 => self.random.pick(&[0, 1]),
            18 => self.random.pick(&[4097, 4098, 4100, 4101, 8193, 8194, 8196, 8197]),
            _ => self.random.below(10_000) as usize,
        };
        let lent = self.random.bytes(length);
        let words = self.words(self.both.head.code);
        let agreed = self.both.write(words, &lent);
        if let Ok(checkpoint) = self.end(agreed)? {
            self.checkpoints.push(checkpoint);
        }
        Ok(())
    }

    fn recover(&mut self) -> Result<(), String> {
        let head = self.both.head;
        let words = self.words(head.code);
        let engine = calls::engine_is_good(&head, &self.both.area[..words]);
        let mut key_length = self.key_length(head.code);
        let mut iv_length = self.key_length(head.code);
        if engine == Err(13) && self.random.once_in(2) {
            (key_length, iv_length) = self.random.pick(&[(key_length + 1, iv_length), (key_length, iv_length + 1)]);
        }
        let goes = engine.is_ok_and(|cipher| key_length == cipher.key_bytes() && iv_length == cipher.key_bytes());
        if goes && !self.may_go(head.position) {
            key_length -= 1;
        }
        let key = self.random.bytes(key_length);
        let iv = self.random.bytes(iv_length);
        let agreed = self.both.recover(words, &key, &iv);
        self.end(agreed).map(|_| ())
    }

    fn load(&mut self) -> Result<(), String> {
        let newest = self.random.once_in(2);
        let any = self.random.below(self.checkpoints.len() as u64) as usize;
        let mut string = self.checkpoints[if newest { self.checkpoints.len() - 1 } else { any }].clone();
        if !self.random.once_in(4) {
            string = self.damaged(string);
            if self.random.once_in(4) {
                string = self.damaged(string);
            }
        }
        let code = string.first().map_or(self.both.head.code, |byte| *byte as u32);
        let words = self.words(code);
        if let Ok((_, position, _)) = calls::parts(words, &string) {
            if !self.may_go(position) {
                string.pop();
            }
        }
        let answer = self.both.load(words, &string)?;
        if let (Ok(_), Some(count)) = (answer, &mut self.count) {
            count.load(&string);
        }
        Ok(())
    }

    /// Spent, whose answer must be the list's own count where that is kept.
    fn spent(&mut self) -> Result<(), String> {
        let answer = self.both.spent()?;
        if let (Ok(spent), Some(count), Some(cipher)) = (answer, &self.count, Cipher::of_code(self.both.head.code)) {
            if spent != count.farthest {
                let (call, reached) = (self.both.calls, count.farthest);
                return Err(format!("call {call}: wrong on both sides: spent is {spent}, the cipher calls reached {reached}"));
            }
            let compared = match count.farthest.cmp(&count.position) {
                Ordering::Greater => "spent, count larger than the position",
                Ordering::Equal => "spent, count equal to the position",
                Ordering::Less => "spent, count smaller than the position",
            };
            self.both.tally.special(compared, cipher);
        }
        Ok(())
    }

    /// The string with one damage, which may happen to leave a checkpoint.
    fn damaged(&mut self, mut string: Vec<u8>) -> Vec<u8> {
        if string.is_empty() {
            return string;
        }
        let start = start_length(&string);
        let length = string.len() as u64;
        match self.random.below(16) {
            0 => string.truncate(self.random.below(length) as usize),
            1 => string.truncate(self.random.below(7) as usize),
            2 => string.clear(),
            3 => {
                let count = self.random.between(1, 8) as usize;
                string.extend(self.random.bytes(count));
            }
            4 => {
                let bit = self.random.below(8 * length);
                string[(bit / 8) as usize] ^= 1 << (bit % 8);
            }
            5 => {
                let bit = self.random.below(8 * length.min(5));
                string[(bit / 8) as usize] ^= 1 << (bit % 8);
            }
            6 => string[0] = self.random.pick(&[0, 1, 2, 3, 255]),
            7..=8 => {
                let number = self.number(&string[1..start]);
                string.splice(1..start, number);
            }
            9 => {
                let number = self.number(&string[1..start]);
                string.truncate(1);
                string.extend(number);
            }
            10 => {
                let number = calls::groups_of(small_position(&mut self.random));
                string.splice(1..start, number);
            }
            11 => {
                let near = self.both.head.position.min(LIMIT) + self.random.below(9);
                string.splice(1..start, calls::groups_of(near.saturating_sub(4)));
            }
            12 => {
                let over = LIMIT + 1 + self.random.below((1 << 28) - 1 - LIMIT);
                let number = calls::groups_of(self.random.pick(&[LIMIT + 1, (1 << 28) - 1, over]));
                string.splice(1..start, number);
            }
            13..=14 => {
                let other = self.random.below(self.checkpoints.len() as u64) as usize;
                let other = &self.checkpoints[other][start_length(&self.checkpoints[other])..];
                let kept = if self.random.once_in(2) { start } else { start + other.len() / 2 };
                if other.len() == string.len() - start {
                    string.truncate(kept);
                    string.extend(&other[kept - start..]);
                }
            }
            _ => {
                let random = self.random.bytes(string.len() - start);
                string.truncate(start);
                string.extend(random);
            }
        }
        string
    }

    /// Bytes in the place of a position: not shortest, too long, or at the edges.
    fn number(&mut self, before: &[u8]) -> Vec<u8> {
        let mut longer = before.to_vec();
        if let Some(last) = longer.last_mut() {
            *last |= 0x80;
        }
        longer.push(0);
        let made: [&[u8]; 18] = [
            &longer,
            &[0x00],
            &[0x7f],
            &[0x80],
            &[0x80, 0x00],
            &[0xff, 0x00],
            &[0x80, 0x80],
            &[0xff, 0x80, 0x00],
            &[0x80, 0x80, 0x01],
            &[0x80, 0x80, 0x80],
            &[0x80, 0x80, 0x80, 0x00],
            &[0xff, 0xff, 0xff, 0x00],
            &[0x80, 0x80, 0x80, 0x20],
            &[0x81, 0x80, 0x80, 0x20],
            &[0x80, 0x80, 0x80, 0x80],
            &[0xff, 0xff, 0xff, 0xff],
            &[0x80, 0x80, 0x80, 0x80, 0x00],
            &[0xff, 0xff, 0xff, 0xff, 0x7f],
        ];
        self.random.pick(&made).to_vec()
    }
}
