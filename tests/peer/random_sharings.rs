//! Random sharings: openings, draws and closings on one engine, each with the share account, head and area as the last call left
//! them, where what each line can draw is tried after every call.

use crate::both::Both;
use crate::calls::{self, LIMIT};
use crate::ciphers::{self, Cipher};
use crate::drawn::Drawn;
use crate::random::Random;
use crate::sharing::{Account, CLOSED, LINES};
use crate::tally::Tally;
use crate::whole::must;

/// The streams of the seed from this number on are those of sharings; the smaller ones are those of lists, volumes, tables of
/// rates, soundness, recordings and checkpoints.
const FIRST_STREAM: u64 = 6 << 32;

/// The most bytes of a draw that is tried on a copy.
const MOST_TRIED: u64 = 3_000;

/// A number that is at an edge, near a power of 2, or any.
fn any_number(random: &mut Random) -> u64 {
    match random.below(6) {
        0 => 0,
        1 => u64::MAX - random.below(5),
        2 => (1 << random.between(31, 63)) + random.below(3) - 1,
        3..=4 => random.below(400),
        _ => random.next() >> random.below(64),
    }
}

/// An account that the caller made up, open.
pub fn any_account(random: &mut Random) -> Account {
    let any = any_number(random) | 1;
    let opened = random.pick(&[1, 1, 1, 2, 1 << 32, 1 << 63, u64::MAX, any]);
    let shares = [0; LINES].map(|_| any_number(random));
    match random.below(4) {
        0 => Account { opened, shares: [random.below(40); LINES], common: random.below(40) },
        1 => Account { opened, shares: [u64::MAX; LINES], common: u64::MAX },
        _ => Account { opened, shares, common: any_number(random) },
    }
}

/// Mostly one of the four lines.
pub fn any_line(random: &mut Random) -> u64 {
    if random.once_in(10) {
        let any = 4 + (random.next() >> random.between(1, 60));
        random.pick(&[4, 4, 5, 7, 8, 256, 1 << 32, (1 << 32) + 1, (1 << 32) + 3, 1 << 63, u64::MAX, any])
    } else {
        random.below(4)
    }
}

/// Four shares of so many bytes together. Three of them are small.
fn shares_of(random: &mut Random, sum: u64) -> [u64; LINES] {
    let most = random.pick(&[1, 5, 40, 400, 3_000]);
    let mut left = sum;
    let mut shares = [0; LINES].map(|_| {
        let share = random.below(most + 1).min(left);
        left -= share;
        share
    });
    shares[random.below(4) as usize] += left;
    shares
}

/// Shares for an opening where so many bytes are left of the stream: mostly no more than that.
pub fn any_shares(random: &mut Random, left: u64) -> [u64; LINES] {
    let most = random.pick(&[1, 9, 60, 1_000]);
    match random.below(16) {
        0 => [0; LINES],
        1..=4 => [0; LINES].map(|_| random.below(most + 1)),
        5 => shares_of(random, left),
        6 => shares_of(random, left.saturating_sub(1)),
        7..=12 => {
            let common = random.below(most + 1);
            shares_of(random, left.saturating_sub(common))
        }
        13 => shares_of(random, left.saturating_add(1)),
        14 => {
            // The sum is 2^64, or twice that, and some bytes that would fit.
            let some = random.below(left.min(1 << 32) + 1);
            let part = random.next();
            let mut shares = random.pick(&[
                [part, part.wrapping_neg(), some, 0],
                [part, 0, part.wrapping_neg(), some],
                [u64::MAX, 1, 0, some],
                [u64::MAX, u64::MAX, 2, some],
            ]);
            shares.rotate_left(random.below(4) as usize);
            shares
        }
        _ => [0; LINES].map(|_| any_number(random)),
    }
}

/// The length of a draw: what is left of the line's share, some bytes beyond that, all within reach or a byte more, or another
/// length.
pub fn reaching(random: &mut Random, account: &Account, line: u64, other: usize) -> usize {
    let share = account.shares.get(line as usize).copied().unwrap_or(0);
    let reach = account.reach(line).min(70_000) as u64;
    let length = match random.below(12) {
        0..=1 => share.min(70_000),
        2..=3 => share.min(69_900) + random.below(100),
        4..=5 => reach,
        6..=7 => reach + 1,
        8..=9 => random.below(40),
        _ => return other,
    };
    length as usize
}

/// What the sentence of request (i) says, tried for one line on a copy of the engine: the line can draw the rest of its share, and
/// that with the whole common part, but not a byte more. Draws of very many bytes are left out. Afterwards both sides have what
/// they had before.
pub fn reachable(random: &mut Random, both: &mut Both, drawn: &Drawn, line: u64) -> Result<(), String> {
    let (head, area, account) = (both.head, both.area.clone(), both.account);
    let Some(cipher) = Cipher::of_code(head.code) else { return Ok(()) };
    let words = cipher.area_words();
    let (rest, reach) = (drawn.rests()[line as usize] as i128, drawn.reach(line));
    let past = if reach + 1 > (LIMIT - drawn.end()) as i128 { Err(6) } else { Err(20) };
    for (bytes, expected) in [(rest, Ok(())), (reach, Ok(())), (reach + 1, past)] {
        if bytes > MOST_TRIED as i128 {
            continue;
        }
        let answer = both.draw(words, line, &random.bytes(bytes as usize))?;
        must(answer == expected, &format!("line {line} draws {bytes} bytes, {drawn:?}: {answer:?}"))?;
        both.put_head(head);
        both.put_area(&area);
        both.put_account(account);
    }
    both.tally.special("draws tried on a copy", cipher);
    Ok(())
}

/// One engine with its sharing, if that is open.
struct Shared<'t> {
    random: Random,
    both: Both<'t>,
    cipher: Cipher,
    drawn: Option<Drawn>,
    /// Where the calls lead, counted from their answers.
    position: u64,
}

impl Shared<'_> {
    fn left(&self) -> u64 {
        LIMIT - self.position
    }

    fn open(&mut self) -> Result<(), String> {
        let left = self.left();
        let shares = any_shares(&mut self.random, left);
        let is_open = self.drawn.is_some();
        let answer = self.both.open_sharing(self.cipher.area_words(), shares)?;
        let sum: u128 = shares.iter().map(|share| *share as u128).sum();
        let expected = match (is_open, sum > self.left() as u128) {
            (true, _) => Err(21),
            (false, true) => Err(20),
            (false, false) => Ok(()),
        };
        must(answer == expected, &format!("shares {shares:?} where {} bytes are left: {answer:?}", self.left()))?;
        if answer == Ok(()) {
            self.drawn = Some(Drawn::new(shares, self.position));
        }
        Ok(())
    }

    fn draw(&mut self) -> Result<(), String> {
        let line = any_line(&mut self.random);
        let small = self.random.below(9) as usize;
        let bytes = reaching(&mut self.random, &self.both.account, line, small).min(2 * MOST_TRIED as usize);
        self.draw_for(line, bytes).map(|_| ())
    }

    /// A draw, whose answer must be the one that follows from the totals.
    fn draw_for(&mut self, line: u64, bytes: usize) -> Result<Result<(), u64>, String> {
        let count = bytes as u64;
        let expected = match &self.drawn {
            None => Err(21),
            _ if count > self.left() => Err(6),
            _ if line > 3 => Err(19),
            Some(drawn) if count as i128 > drawn.reach(line) => Err(20),
            Some(_) => Ok(()),
        };
        let answer = self.both.draw(self.cipher.area_words(), line, &self.random.bytes(bytes))?;
        must(answer == expected, &format!("line {line} draws {bytes} bytes, {:?}: {answer:?}", self.drawn))?;
        if let (Ok(()), Some(drawn)) = (answer, &mut self.drawn) {
            drawn.draw(line, bytes);
            self.position += count;
        }
        Ok(answer)
    }

    fn close(&mut self) -> Result<(), String> {
        let expected = if self.drawn.is_some() { Ok(()) } else { Err(21) };
        let answer = self.both.close_sharing()?;
        must(answer == expected, &format!("closing, {:?}: {answer:?}", self.drawn))?;
        self.drawn = None;
        Ok(())
    }

    /// A cipher call or a move of some bytes, which are refused while sharing is open.
    fn other(&mut self) -> Result<(), String> {
        let words = self.cipher.area_words();
        let bytes = self.random.below(20).min(self.left());
        let answer = if self.random.once_in(2) {
            self.both.cipher(words, &self.random.bytes(bytes as usize))?
        } else {
            self.both.move_by(words, bytes as i64)?
        };
        let expected = if self.drawn.is_some() { Err(21) } else { Ok(()) };
        must(answer == expected, &format!("cipher or move of {bytes}, {:?}: {answer:?}", self.drawn))?;
        if answer == Ok(()) {
            self.position += bytes;
        }
        Ok(())
    }

    /// The account against the totals, and what each line can draw, for some lines or all.
    fn check(&mut self) -> Result<(), String> {
        must(self.both.head.position == self.position, "the position counted from the answers")?;
        let Some(drawn) = self.drawn else { return must(self.both.account == CLOSED, "a closed account is all 0") };
        must(drawn.end() == self.position, "the position that the draws lead to")?;
        if let Some(fault) = drawn.fault_of(&self.both.account) {
            return Err(format!("wrong on both sides: {fault}"));
        }
        let lines = if self.left() <= 60 { vec![0, 1, 2, 3] } else { vec![self.random.below(4)] };
        for line in lines {
            reachable(&mut self.random, &mut self.both, &drawn, line)?;
        }
        Ok(())
    }

    /// All lines draw what they can, in any order, one of them also the common part: together that is all of the stream.
    fn to_the_limit(&mut self) -> Result<(), String> {
        let Some(drawn) = self.drawn else { return Ok(()) };
        if self.left() > MOST_TRIED {
            return Ok(());
        }
        let first = self.random.below(4);
        let turn = self.random.pick(&[1, 3]);
        let greedy = self.random.below(4);
        for k in 0..4 {
            let line = (first + k * turn) % 4;
            let bytes = if line == greedy { drawn.reach(line) } else { drawn.rests()[line as usize] as i128 } as usize;
            must(self.draw_for(line, bytes)? == Ok(()), "each line draws what it can")?;
            self.check()?;
        }
        must(self.both.head.position == LIMIT, "all that the lines can draw is all of the stream")?;
        must(self.both.account == Account { opened: 1, ..CLOSED }, "nothing is left in the account")?;
        self.both.tally.special("all lines to the limit", self.cipher);
        Ok(())
    }
}

/// One engine with its calls; the result is the text of the first difference.
pub fn run(seed: u64, number: u64, tally: &mut Tally) -> Result<(), String> {
    let mut random = Random::new(seed, FIRST_STREAM + number);
    let cipher = random.pick(&[Cipher::Hc128, Cipher::Hc256]);
    let words = cipher.area_words();
    let (position, tables) = if random.once_in(4) {
        let key_words = cipher.key_bytes() / 4;
        let position = random.below(6_000);
        let mut tables = ciphers::set_up(cipher, &random.words(key_words), &random.words(key_words));
        ciphers::steps_forward(cipher, &mut tables, 0, calls::steps_at(position));
        (position, tables)
    } else {
        let most = random.pick(&[3, 20, 60, 300, 2_500]);
        (LIMIT - random.below(most + 1), random.words(words))
    };
    let mark = random.pick(&[0, position, LIMIT, u64::MAX]);
    let both = Both::new(calls::head_at(cipher, position, mark, &tables), tables, tally);
    let mut shared = Shared { random, both, cipher, drawn: None, position };
    for _ in 0..shared.random.between(4, 24) {
        let is_open = shared.drawn.is_some();
        match shared.random.below(24) {
            0 => shared.close()?,
            1 => shared.other()?,
            2 => shared.open()?,
            3..=20 if !is_open => shared.open()?,
            _ => shared.draw()?,
        }
        shared.check()?;
    }
    shared.to_the_limit()?;
    shared.close()?;
    shared.check()
}
