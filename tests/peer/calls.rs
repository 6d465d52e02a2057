//! The eight calls of an engine and its checkpoints: the refusals in their order, then what an accepted call does. Document 01
//! states seven of them, requests (a), (b) and (g) of document 02 change them, and the C header states the eighth, checkpoint
//! length. The three calls of request (d) are in volume.rs, the one of request (e) in duty.rs, the one of request (h) in
//! test_load.rs, the one of request (j) in soundness.rs, the two of request (k) in comparison.rs, the one of request (m) in
//! same_run.rs and the two of request (n) in rates.rs.

use crate::ciphers::{self, Cipher};

/// The stream limit in bytes.
pub const LIMIT: u64 = 67_108_864;

/// A head.
#[derive(Clone, Copy, PartialEq, Debug)]
pub struct Head {
    pub code: u32,
    pub word: u32,
    pub position: u64,
    pub mark: u64,
}

/// A fresh head.
pub const FRESH: Head = Head { code: 0, word: 0, position: 0, mark: 0 };

/// The steps that the tables have taken at a position.
pub fn steps_at(position: u64) -> u64 {
    if position % 4 == 0 {
        position / 4
    } else {
        position / 4 + 1
    }
}

/// The word of a head at a position: the output of the step last taken, worked out from the tables there, and 0 at position 0.
pub fn word_at(cipher: Cipher, position: u64, tables: &[u32]) -> u32 {
    if position == 0 {
        0
    } else {
        ciphers::output(cipher, tables, steps_at(position) - 1)
    }
}

/// The head of a cipher, a position and a mark that has the word of these tables.
pub fn head_at(cipher: Cipher, position: u64, mark: u64, tables: &[u32]) -> Head {
    Head { code: cipher.code(), word: word_at(cipher, position, tables), position, mark }
}

/// Refusal 1.
fn code_is_good(code: u32) -> Result<Cipher, u64> {
    Cipher::of_code(code).ok_or(1)
}

/// Refusals 2 and 3.
fn lengths_are_good(cipher: Cipher, key: &[u8], iv: &[u8]) -> Result<(), u64> {
    if key.len() != cipher.key_bytes() {
        return Err(2);
    }
    if iv.len() != cipher.key_bytes() {
        return Err(3);
    }
    Ok(())
}

/// Refusal 4.
fn area_is_good(cipher: Cipher, area_words: usize) -> Result<(), u64> {
    if area_words != cipher.area_words() {
        return Err(4);
    }
    Ok(())
}

/// Refusal 5.
fn position_is_good(position: u64) -> Result<(), u64> {
    if position > LIMIT {
        return Err(5);
    }
    Ok(())
}

/// Refusals 1, 4, 5 and 13, with which cipher, move, write and recover begin.
pub fn engine_is_good(head: &Head, area: &[u32]) -> Result<Cipher, u64> {
    let cipher = code_is_good(head.code)?;
    area_is_good(cipher, area.len())?;
    position_is_good(head.position)?;
    if head.word != word_at(cipher, head.position, area) {
        return Err(13);
    }
    Ok(cipher)
}

/// The refusals of set up.
pub fn set_up_is_good(code: u32, key: &[u8], iv: &[u8], area_words: usize) -> Result<Cipher, u64> {
    let cipher = code_is_good(code)?;
    lengths_are_good(cipher, key, iv)?;
    area_is_good(cipher, area_words)?;
    Ok(cipher)
}

/// Set up.
pub fn set_up(head: &mut Head, code: u32, key: &[u8], iv: &[u8], area: &mut [u32]) -> Result<(), u64> {
    let cipher = set_up_is_good(code, key, iv, area.len())?;
    area.copy_from_slice(&ciphers::set_up(cipher, &ciphers::words_of_bytes(key), &ciphers::words_of_bytes(iv)));
    *head = Head { code, word: 0, position: 0, mark: 0 };
    Ok(())
}

/// The refusals of cipher for so many bytes.
pub fn cipher_is_good(head: &Head, area: &[u32], bytes: usize) -> Result<Cipher, u64> {
    let cipher = engine_is_good(head, area)?;
    if head.position as u128 + bytes as u128 > LIMIT as u128 {
        return Err(6);
    }
    Ok(cipher)
}

/// Cipher, one byte at a time. A byte that ends beyond the mark takes the mark along.
pub fn cipher(head: &mut Head, area: &mut [u32], bytes: &mut [u8]) -> Result<(), u64> {
    let cipher = cipher_is_good(head, area, bytes.len())?;
    for byte in bytes {
        let number = head.position / 4;
        if head.position % 4 == 0 {
            ciphers::step(cipher, area, number);
        }
        *byte ^= ciphers::output(cipher, area, number).to_le_bytes()[(head.position % 4) as usize];
        head.position += 1;
        if head.mark < head.position {
            head.mark = head.position;
        }
    }
    head.word = word_at(cipher, head.position, area);
    Ok(())
}

/// Move, which leaves the mark.
pub fn move_by(head: &mut Head, area: &mut [u32], distance: i64) -> Result<(), u64> {
    let cipher = engine_is_good(head, area)?;
    let end = head.position as i128 + distance as i128;
    if end < 0 {
        return Err(7);
    }
    if end > LIMIT as i128 {
        return Err(6);
    }
    let end = end as u64;
    ciphers::steps_forward(cipher, area, steps_at(head.position), steps_at(end));
    ciphers::steps_back(cipher, area, steps_at(head.position), steps_at(end));
    *head = head_at(cipher, end, head.mark, area);
    Ok(())
}

/// A number as groups of seven bits, lowest first.
pub fn groups_of(number: u64) -> Vec<u8> {
    let mut groups = vec![(number % 128) as u8];
    let mut left = number / 128;
    while left != 0 {
        *groups.last_mut().unwrap() |= 0x80;
        groups.push((left % 128) as u8);
        left /= 128;
    }
    groups
}

/// The checkpoint of a cipher, a position and tables. It holds neither word nor mark.
pub fn checkpoint(cipher: Cipher, position: u64, tables: &[u32]) -> Vec<u8> {
    let mut string = vec![cipher.code() as u8];
    string.extend(groups_of(position));
    string.extend(ciphers::bytes_of_words(tables));
    string
}

/// The length of a checkpoint: a byte for the code, one for each group of the position, and four for each word of the area.
fn length_at(cipher: Cipher, position: u64) -> usize {
    1 + groups_of(position).len() + 4 * cipher.area_words()
}

/// Checkpoint length.
pub fn checkpoint_length(code: u32, position: u64) -> Result<usize, u64> {
    let cipher = code_is_good(code)?;
    position_is_good(position)?;
    Ok(length_at(cipher, position))
}

/// Write.
pub fn write(head: &Head, area: &[u32], lent: &mut [u8]) -> Result<usize, u64> {
    let cipher = engine_is_good(head, area)?;
    let length = length_at(cipher, head.position);
    if lent.len() < length {
        return Err(8);
    }
    lent[..length].copy_from_slice(&checkpoint(cipher, head.position, area));
    Ok(length)
}

/// The key and IV whose tables these are at this position, shown by set-up and all steps again, or refusal 12.
fn key_and_iv_of(cipher: Cipher, position: u64, tables: &[u32]) -> Result<(Vec<u32>, Vec<u32>), u64> {
    let steps = steps_at(position);
    let mut back = tables.to_vec();
    ciphers::steps_back(cipher, &mut back, steps, 0);
    ciphers::last_pass_back(cipher, &mut back);
    let first = ciphers::first_words_of_tables(cipher, &back);
    let (key, iv) = ciphers::key_and_iv_of_first_words(cipher, &first);
    let mut again = ciphers::set_up(cipher, &key, &iv);
    ciphers::steps_forward(cipher, &mut again, 0, steps);
    if again != tables {
        return Err(12);
    }
    Ok((key, iv))
}

/// Recover.
pub fn recover(head: &Head, area: &[u32], key: &mut [u8], iv: &mut [u8]) -> Result<(), u64> {
    let cipher = engine_is_good(head, area)?;
    lengths_are_good(cipher, key, iv)?;
    let (key_words, iv_words) = key_and_iv_of(cipher, head.position, area)?;
    key.copy_from_slice(&ciphers::bytes_of_words(&key_words));
    iv.copy_from_slice(&ciphers::bytes_of_words(&iv_words));
    Ok(())
}

/// The cipher, position and table bytes of a string that load refuses, if at all, with 12.
pub fn parts(area_words: usize, string: &[u8]) -> Result<(Cipher, u64, &[u8]), u64> {
    if string.is_empty() {
        return Err(9);
    }
    let cipher = code_is_good(string[0] as u32)?;
    area_is_good(cipher, area_words)?;
    let rest = &string[1..];
    let announces = |byte: &u8| *byte >= 0x80;
    if rest.len() >= 4 && rest[..4].iter().all(announces) {
        return Err(10);
    }
    if rest.iter().all(announces) {
        return Err(9);
    }
    let groups = 1 + rest.iter().position(|byte| !announces(byte)).unwrap();
    if groups >= 2 && rest[groups - 1] == 0 {
        return Err(10);
    }
    let position = (0..groups).map(|k| (rest[k] % 128) as u64 * 128u64.pow(k as u32)).sum();
    position_is_good(position)?;
    let tables = &rest[groups..];
    if tables.len() != 4 * cipher.area_words() {
        return Err(11);
    }
    Ok((cipher, position, tables))
}

/// Load, which returns the eight key words and the eight IV words. The mark becomes the loaded position.
pub fn load(head: &mut Head, area: &mut [u32], string: &[u8]) -> Result<([u32; 8], [u32; 8]), u64> {
    let (cipher, position, table_bytes) = parts(area.len(), string)?;
    let tables = ciphers::words_of_bytes(table_bytes);
    let (key, iv) = key_and_iv_of(cipher, position, &tables)?;
    let mut words = ([0; 8], [0; 8]);
    words.0[..key.len()].copy_from_slice(&key);
    words.1[..iv.len()].copy_from_slice(&iv);
    area.copy_from_slice(&tables);
    *head = head_at(cipher, position, position, &tables);
    Ok(words)
}

/// Spent, which returns the mark as it is.
pub fn spent(head: &Head) -> Result<u64, u64> {
    code_is_good(head.code)?;
    position_is_good(head.position)?;
    Ok(head.mark)
}
