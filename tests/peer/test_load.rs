//! Request (h) of document 02: a test load. A seed gives words, each word gives one call, and the calls are made after a set up,
//! by the peer's own set up, move and cipher.

use crate::calls::{self, Head};

/// The most calls after the set up.
pub const MOST_CALLS: u64 = 1_000;

/// What a word gives.
#[derive(Clone, Copy, PartialEq, Debug)]
pub enum Call {
    /// A move to this byte.
    MoveTo(u64),
    /// A cipher call over so many zero bytes.
    Cipher(usize),
}

impl Call {
    pub fn of(word: u32) -> Call {
        if word & 1 == 0 {
            Call::MoveTo((word >> 1) as u64 % 4_096)
        } else {
            Call::Cipher((word >> 1) as usize % 257)
        }
    }
}

/// The word after this one. Each shift is of the word so far.
fn next(word: u32) -> u32 {
    let cut = |wide: u64| wide & 0xFFFF_FFFF;
    let first = word as u64 ^ cut((word as u64) << 13);
    let second = first ^ first >> 17;
    let third = second ^ cut(second << 5);
    third as u32
}

/// The words that give the calls. The seed itself gives none.
pub fn words(seed: u32, count: u64) -> Vec<u32> {
    let mut words = Vec::new();
    let mut word = seed;
    for _ in 0..count {
        word = next(word);
        words.push(word);
    }
    words
}

/// The distance of a move to a byte.
pub fn distance(from: u64, byte: u64) -> i64 {
    byte as i64 - from as i64
}

/// Test load. The text is about a call that is refused, which none may be.
pub fn run(
    head: &mut Head,
    seed: u32,
    count: u64,
    code: u32,
    key: &[u8],
    iv: &[u8],
    area: &mut [u32],
) -> Result<Result<(), u64>, String> {
    if seed == 0 {
        return Ok(Err(17));
    }
    if count > MOST_CALLS {
        return Ok(Err(18));
    }
    if let Err(refusal) = calls::set_up(head, code, key, iv, area) {
        return Ok(Err(refusal));
    }
    for (number, word) in words(seed, count).into_iter().enumerate() {
        let call = Call::of(word);
        let answer = match call {
            Call::MoveTo(byte) => calls::move_by(head, area, distance(head.position, byte)),
            Call::Cipher(bytes) => calls::cipher(head, area, &mut vec![0; bytes]),
        };
        answer.map_err(|refusal| format!("the peer refuses generated call {number}, {call:?}, with {refusal}"))?;
    }
    Ok(Ok(()))
}
