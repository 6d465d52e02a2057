//! One key and IV taken from 0 to the limit and back to 0 in pieces of odd sizes.

use crate::both::Both;
use crate::calls::{Head, FRESH, LIMIT};
use crate::ciphers::{self, Cipher};
use crate::random::Random;
use crate::tally::Tally;

/// The size of a piece, mostly some hundred thousand bytes and sometimes a few.
fn piece(random: &mut Random) -> u64 {
    if random.once_in(4) {
        random.below(8) * 2 + 1
    } else {
        random.below(400_000) * 2 + 1
    }
}

/// The text of a difference that the comparison of both sides cannot show.
pub fn must(holds: bool, what: &str) -> Result<(), String> {
    if holds {
        Ok(())
    } else {
        Err(format!("wrong on both sides: {what}"))
    }
}

/// The checkpoint that a write gives where just as many bytes are lent as it has.
fn write_exactly(both: &mut Both, random: &mut Random, words: usize) -> Result<Vec<u8>, String> {
    let head = both.head;
    let length = both.checkpoint_length(head.code, head.position)?.map_err(|_| "checkpoint length refused")?;
    let checkpoint = both.write(words, &random.bytes(length))?.map_err(|_| "write refused")?;
    must(checkpoint.len() == length, "the checkpoint has the length that was asked for")?;
    Ok(checkpoint)
}

/// The whole run of one cipher; the result is the number of checkpoints compared, or the text of the first difference.
pub fn run(seed: u64, cipher: Cipher, tally: &mut Tally) -> Result<usize, String> {
    let mut random = Random::new(seed, u64::MAX - cipher.code() as u64);
    let words = cipher.area_words();
    let bytes = cipher.key_bytes();
    let (key, iv) = (random.bytes(bytes), random.bytes(bytes));
    let key_and_iv = Ok((key.clone(), iv.clone()));
    let mut both = Both::new(FRESH, random.words(words), tally);
    both.set_up(words, cipher.code(), &key, &iv)?.map_err(|_| "set up refused")?;
    let (first_head, first_area) = (both.head, both.area.clone());
    let mut compared = 0;

    // The ends of the last call and of the last cipher call, counted from the sizes of the pieces.
    let (mut end, mut reached) = (0, 0);
    let mut passed = Vec::new();
    while end < LIMIT {
        let size = piece(&mut random).min(LIMIT - end);
        end += size;
        if random.once_in(2) {
            both.cipher(words, &random.bytes(size as usize))?.map_err(|_| "cipher refused")?;
            reached = end;
        } else {
            both.move_by(words, size as i64)?.map_err(|_| "move refused")?;
        }
        must(both.head.position == end && both.spent()? == Ok(reached), "spent is the end of the last cipher call")?;
        let checkpoint = write_exactly(&mut both, &mut random, words)?;
        compared += 1;
        passed.push((both.head, checkpoint));
    }

    must(both.cipher(words, &[])? == Ok(()), "no bytes at the limit are accepted")?;
    must(both.cipher(words, &[0])? == Err(6), "a byte at the limit gets 6")?;
    must(both.spent()? == Ok(reached), "neither of the two changes spent")?;
    must(both.recover(words, &vec![0; bytes], &vec![0; bytes])? == key_and_iv, "key and IV recovered at the limit")?;
    let (head_at_limit, at_limit) = passed.last().unwrap();
    let loaded = both.load(words, at_limit)?.map_err(|_| "load refused")?;
    let with_mark = |head: &Head| Head { mark: LIMIT, ..*head };
    must(both.head == with_mark(head_at_limit), "the head loaded at the limit is the one before with the limit as mark")?;
    let (key_words, iv_words) = (ciphers::words_of_bytes(&key), ciphers::words_of_bytes(&iv));
    must(loaded.0[..bytes / 4] == key_words && loaded.1[..bytes / 4] == iv_words, "key and IV loaded at the limit")?;

    for (head, checkpoint) in passed.iter().rev() {
        let left = both.head.position - head.position;
        if left > 2 {
            let part = random.below(left / 2) * 2 + 1;
            both.move_by(words, -(part as i64))?.map_err(|_| "move refused")?;
            write_exactly(&mut both, &mut random, words)?;
            compared += 1;
        }
        let left = both.head.position - head.position;
        both.move_by(words, -(left as i64))?.map_err(|_| "move refused")?;
        must(both.head == with_mark(head), "the head on the way back is that of the way there with the limit as mark")?;
        must(both.spent()? == Ok(LIMIT), "spent on the way back is the limit")?;
        let again = write_exactly(&mut both, &mut random, words)?;
        compared += 1;
        must(again == *checkpoint, "the checkpoint on the way back is that of the way there")?;
    }
    let left = both.head.position;
    both.move_by(words, -(left as i64))?.map_err(|_| "move refused")?;
    let is_first = both.head == with_mark(&first_head) && both.area == first_area;
    must(is_first, "head and tables at 0 are those of set-up with the limit as mark")?;
    must(both.recover(words, &vec![0; bytes], &vec![0; bytes])? == key_and_iv, "key and IV recovered at 0")?;
    Ok(compared)
}
