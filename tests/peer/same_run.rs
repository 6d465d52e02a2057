//! Request (m) of document 02: whether two checkpoints belong to one run. No key is compared with another for the answer. The
//! first checkpoint is loaded, moved to the position of the second and written there, and the answer is yes where that gives the
//! second, byte for byte.

use crate::calls::{self, Head, FRESH};
use crate::ciphers::Cipher;

/// Eight key words and eight IV words, as load returns them.
pub type Words = ([u32; 8], [u32; 8]);

/// What load makes of a string.
struct Loaded {
    head: Head,
    area: Vec<u32>,
    words: Words,
}

/// The answer for a pair that is not refused.
pub enum Found {
    /// The first one, moved, is the second.
    Yes,
    /// It is not. These are the key and IV of each.
    No([Words; 2]),
}

/// Why a pair is refused.
#[derive(Clone, Copy, PartialEq, Debug)]
pub enum Refused {
    /// Load refuses the first string with this number.
    First(u64),
    /// Load accepts the first string and refuses the second one with this number.
    Second(u64),
    /// Load accepts both, and they are of two ciphers.
    TwoCiphers,
}

impl Refused {
    pub fn number(self) -> u64 {
        match self {
            Refused::First(number) | Refused::Second(number) => number,
            Refused::TwoCiphers => 23,
        }
    }
}

/// The cipher that the first byte of a string names.
pub fn cipher_of(string: &[u8]) -> Option<Cipher> {
    string.first().and_then(|code| Cipher::of_code(*code as u32))
}

/// The words of an area for which load does not refuse a string with 4. A string that names no cipher is refused before that.
pub fn area_words(string: &[u8]) -> usize {
    cipher_of(string).map_or(0, Cipher::area_words)
}

/// Cipher, position and table bytes of a string that load refuses, if at all, with 12.
pub fn parts(string: &[u8]) -> Result<(Cipher, u64, &[u8]), u64> {
    calls::parts(area_words(string), string)
}

/// Load into an area of the right size.
fn load(string: &[u8]) -> Result<Loaded, u64> {
    let (mut head, mut area) = (FRESH, vec![0; area_words(string)]);
    let words = calls::load(&mut head, &mut area, string)?;
    Ok(Loaded { head, area, words })
}

/// The number with which load refuses a string, or none.
pub fn refusal_of(string: &[u8]) -> Option<u64> {
    load(string).err()
}

/// The checkpoint that a loaded engine writes after a move to this position.
fn written_at(loaded: &Loaded, position: u64) -> Vec<u8> {
    let (mut head, mut area) = (loaded.head, loaded.area.clone());
    let distance = position as i64 - head.position as i64;
    calls::move_by(&mut head, &mut area, distance).expect("both positions are in the stream");
    let length = calls::checkpoint_length(head.code, position).expect("both positions are in the stream");
    let mut lent = vec![0; length];
    calls::write(&head, &area, &mut lent).expect("just enough bytes are lent");
    lent
}

/// Same run.
pub fn of(first: &[u8], second: &[u8]) -> Result<Found, Refused> {
    let loaded = load(first).map_err(Refused::First)?;
    let (cipher, position, _) = parts(second).map_err(Refused::Second)?;
    let is_one_cipher = loaded.head.code == cipher.code();
    // What an accepted engine writes is a checkpoint, so the second one need not be loaded where it is just that.
    if is_one_cipher && written_at(&loaded, position) == second {
        return Ok(Found::Yes);
    }
    let other = load(second).map_err(Refused::Second)?;
    if !is_one_cipher {
        return Err(Refused::TwoCiphers);
    }
    // The document says that the two ways to ask come to the same.
    assert!(loaded.words != other.words, "one key and IV, but the first checkpoint does not become the second");
    Ok(Found::No([loaded.words, other.words]))
}
