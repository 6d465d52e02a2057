//! One engine and one table of rates held twice, by the archive and by the peer; each call is made on both and everything is
//! compared.

use crate::archive::{self, HcCount, HcDuty, HcHead, HcLength, HcPart, HcRates, HcSoundness, HcWords, HcYesOrNo};
use crate::calls::{self, Head};
use crate::ciphers::{self, Cipher};
use crate::comparison::{self as recordings, Found, Part, Recording, Why};
use crate::count::Count;
use crate::duty;
use crate::lent::Lent;
use crate::rates::{self, Rates};
use crate::same_run::{self, Found as RunFound, Refused};
use crate::soundness::{self, Soundness};
use crate::tally::Tally;
use crate::test_load::{self, Call};
use crate::volume::{self, Fault};
use std::cmp::Ordering;
use std::fmt::{Debug, LowerHex};
use std::mem::transmute;
use std::ops::Range;

/// The answer on which both sides agree, or the text of a difference.
pub type Agreed<T> = Result<Result<T, u64>, String>;

const BYTE_GUARD: u8 = 0xA5;
const WORD_GUARD: u32 = 0xA5C3_965A;
const HEAD_GUARD: u64 = 0xA5C3_965A_3C69_F00F;
const RATE_GUARD: u16 = 0xA5C3;

pub struct Both<'t> {
    /// The archive's head as raw memory, in the midst of a pattern.
    archive_head: Lent<u64>,
    archive_area: Lent<u32>,
    /// The archive's table of rates in use.
    archive_rates: Lent<u16>,
    /// The peer's head.
    pub head: Head,
    /// The peer's memory for areas, of which each call is lent the first words.
    pub area: Vec<u32>,
    /// The peer's table of rates in use.
    pub rates: Rates,
    /// The calls made so far.
    pub calls: u64,
    pub tally: &'t mut Tally,
}

/// What is compared after one call.
struct Comparison {
    call: String,
    differences: Vec<String>,
}

impl Comparison {
    fn equal<T: PartialEq + Debug>(&mut self, what: &str, archive: T, peer: T) {
        if archive != peer {
            self.differences.push(format!("{what}: archive {archive:?}, peer {peer:?}"));
        }
    }

    fn equal_lists<T: PartialEq + LowerHex>(&mut self, what: &str, archive: &[T], peer: &[T]) {
        if archive != peer {
            let k = archive.iter().zip(peer).position(|(a, p)| a != p).unwrap();
            let count = archive.iter().zip(peer).filter(|(a, p)| a != p).count();
            let (a, p) = (&archive[k], &peer[k]);
            self.differences.push(format!("{what}: {count} differ, first at {k}: archive {a:#x}, peer {p:#x}"));
        }
    }

    /// Compares the bytes that a structure has in memory.
    fn equal_bytes(&mut self, what: &str, archive: &[u8], peer: &[u8]) {
        if archive != peer {
            self.differences.push(format!("bytes of the {what}: archive {archive:02x?}, peer {peer:02x?}"));
        }
    }

    fn guards<T: Copy + PartialEq>(&mut self, what: &str, lent: &Lent<T>) {
        if !lent.guards_kept() {
            self.differences.push(format!("{what}: the archive wrote outside"));
        }
    }

    /// Asks the archive for the soundness of a string that its reading has refused with this number, or has accepted into a list
    /// that is long enough.
    fn soundness_beside_reading(&mut self, refusal: u64, string: &[u8], lent: &mut Lent<u8>) {
        let returned = unsafe { archive::hc_volume_soundness(lent.pointer(), string.len()) };
        self.differences.extend(fault_beside_reading(refusal, string.len(), returned));
        self.equal_lists("string of soundness", lent.content(), string);
        self.guards("string of soundness", lent);
    }
}

/// The answer of an archive's call that returns only a refusal.
fn plain(refusal: u64) -> Result<(), u64> {
    if refusal == 0 {
        Ok(())
    } else {
        Err(refusal)
    }
}

/// The number that the archive must return for an answer.
fn number<T>(result: &Result<T, u64>) -> u64 {
    match result {
        Ok(_) => 0,
        Err(refusal) => *refusal,
    }
}

/// The bytes of a head in memory.
fn bytes_of_head(head: Head) -> Vec<u8> {
    [&head.code.to_le_bytes()[..], &head.word.to_le_bytes(), &head.position.to_le_bytes(), &head.mark.to_le_bytes()].concat()
}

/// The bytes of numbers of 64 bits in memory.
fn bytes_of_numbers(numbers: &[u64]) -> Vec<u8> {
    numbers.iter().flat_map(|number| number.to_le_bytes()).collect()
}

/// The bytes of numbers of 16 bits in memory.
fn bytes_of_rates(rates: &[u16]) -> Vec<u8> {
    rates.iter().flat_map(|rate| rate.to_le_bytes()).collect()
}

/// The word that the count has for a refusal or for none.
fn answer<T>(result: &Result<T, u64>) -> String {
    match result {
        Ok(_) => "accepted".to_string(),
        Err(refusal) => refusal.to_string(),
    }
}

/// The word that the count has for a string that load refuses.
fn answer_of_checkpoint(string: &[u8], refusal: u64) -> String {
    let fourth_announces = string.len() > 4 && string[1..5].iter().all(|byte| *byte >= 0x80);
    match refusal {
        9 if string.is_empty() => "9 no bytes".to_string(),
        9 => "9 ends before the last group".to_string(),
        10 if fourth_announces => "10 fourth group announces another".to_string(),
        10 => "10 last group is 0".to_string(),
        _ => refusal.to_string(),
    }
}

/// The word that the count has for a string that is not a volume: what is wrong with it, and in which number.
fn answer_of_fault(fault: Fault) -> String {
    match fault.number() {
        Some(number) => format!("{}, {}", fault.kind(), number.name),
        None => fault.kind().to_string(),
    }
}

/// The word that the count has for a soundness. A hopeless beginning ends with the byte that made it so: a group that announces
/// another, a last group that is 0 where there are several, or one with which the value is out of range.
fn answer_of_soundness(string: &[u8], soundness: Soundness) -> String {
    let beginning = match soundness {
        Soundness::Sound => return "sound".to_string(),
        Soundness::Cut if string.is_empty() => return "cut, empty string".to_string(),
        Soundness::Cut => string,
        Soundness::Hopeless(length) => &string[..length],
    };
    let (numbers, left) = volume::numbers_before_fault(beginning);
    let name = volume::number_at(numbers.len()).name;
    let group = ["", "first", "second", "third"][left.len().min(3)];
    match (soundness, left.last()) {
        (Soundness::Cut, None) => format!("cut before {name}"),
        (Soundness::Cut, Some(_)) => format!("cut in {name}"),
        _ if numbers.len() == volume::numbers_of_volume(&numbers) => "hopeless, bytes after the last entry".to_string(),
        (_, Some(0x80..)) => format!("hopeless, {group} group announces another, {name}"),
        (_, Some(0x00)) if left.len() > 1 => format!("hopeless, {group} group is 0, {name}"),
        _ => format!("hopeless, out of range, {name}"),
    }
}

/// What is wrong with the archive's answer for a string that reading refuses with this number, or accepts into a list that is long
/// enough. Only a string that reading accepts is sound, and only one that is refused with 16 can be cut.
fn fault_beside_reading(refusal: u64, bytes: usize, returned: HcSoundness) -> Option<String> {
    let is_right = match (returned.answer, returned.length) {
        (0, 0) => refusal == 0,
        (1, 0) => refusal == 16,
        (2, length) => refusal != 0 && (1..=bytes).contains(&length),
        _ => false,
    };
    let HcSoundness { answer, length } = returned;
    (!is_right).then(|| format!("archive: soundness says {answer} with length {length}, read volume {refusal}"))
}

/// What is wrong with the archive's two answers for a pair of recordings, one beside the other. Only a refused pair has the empty
/// beginning of the blender's buffer. Any other part goes to the end of its buffer, and it is empty just where the recordings have
/// the same bytes.
fn fault_beside_check(refusal: u64, returned: HcPart, blender: &[u8], gauge: &[u8]) -> Option<String> {
    let HcPart { recording, from, length } = returned;
    let is_of = |buffer: &[u8]| from > 0 && from.checked_add(length) == Some(buffer.len());
    let is_right = match recording {
        0 if refusal != 0 => from == 0 && length == 0,
        0 => is_of(blender) && (length == 0) == (blender == gauge),
        1 => refusal == 0 && is_of(gauge) && length > 0,
        _ => false,
    };
    (!is_right).then(|| format!("archive: check says {refusal}, compare {recording} with length {length} from {from}"))
}

/// An engine of the archive's alone, loaded from a string into an area of the right size, or the refusal.
fn loaded_by_archive(string: &[u8]) -> Result<(HcHead, Vec<u32>), u64> {
    let mut head = HcHead { code: 0, word: 0, position: 0, mark: 0 };
    let mut area = vec![0; same_run::area_words(string)];
    let returned = unsafe { archive::hc_load(&mut head, area.as_mut_ptr(), area.len(), string.as_ptr(), string.len()) };
    plain(returned.refusal).map(|_| (head, area))
}

/// What is wrong with the archive's answer for two checkpoints beside its load, move and write. It must refuse the pair as load
/// refuses the first string, else the second one, else with 23 where the first bytes differ. It must say yes just where load of
/// the first, move by the difference of the positions and write give the second.
fn fault_beside_load(returned: HcYesOrNo, [first, second]: [&[u8]; 2]) -> Option<String> {
    let loaded = loaded_by_archive(first).and_then(|of_first| Ok((of_first, loaded_by_archive(second)?)));
    let ((mut head, mut area), (other, _)) = match loaded {
        Ok(_) if first[0] != second[0] => {
            return (returned.refusal != 23).then(|| format!("archive: same run says {}, not 23", returned.refusal));
        }
        Ok(engines) => engines,
        Err(refusal) => {
            return (returned.refusal != refusal).then(|| format!("archive: same run says {}, load {refusal}", returned.refusal));
        }
    };
    let distance = other.position as i64 - head.position as i64;
    let mut lent = vec![0; 8197];
    let moved = unsafe { archive::hc_move(&mut head, area.as_mut_ptr(), area.len(), distance) };
    let written = unsafe { archive::hc_write(&mut head, area.as_ptr(), area.len(), lent.as_mut_ptr(), lent.len()) };
    let is_second = moved == 0 && written.refusal == 0 && lent.get(..written.length) == Some(second);
    let HcYesOrNo { refusal, yes } = returned;
    ((refusal, yes) != (0, is_second as u64))
        .then(|| format!("archive: same run says {refusal} and {yes}; load, move and write give the second: {is_second}"))
}

/// Head and area of an engine of the archive's alone after a set up and the calls of these words, made one by one, none of which
/// may be refused.
fn made_by_archive(words: &[u32], code: u32, key: &[u8], iv: &[u8], area_words: usize) -> Result<(Head, Vec<u32>), String> {
    let mut head = HcHead { code: 0, word: 0, position: 0, mark: 0 };
    let mut area = vec![0; area_words];
    let place = area.as_mut_ptr();
    let refusal =
        unsafe { archive::hc_set_up(&mut head, code, key.as_ptr(), key.len(), iv.as_ptr(), iv.len(), place, area_words) };
    plain(refusal).map_err(|refusal| format!("archive: test load accepts, set up refuses with {refusal}"))?;
    for (number, word) in words.iter().enumerate() {
        let call = Call::of(*word);
        let refusal = match call {
            Call::MoveTo(byte) => {
                let distance = test_load::distance(head.position, byte);
                unsafe { archive::hc_move(&mut head, place, area_words, distance) }
            }
            Call::Cipher(count) => {
                let mut zeros = vec![0; count];
                unsafe { archive::hc_cipher(&mut head, place, area_words, zeros.as_mut_ptr(), count) }
            }
        };
        plain(refusal).map_err(|refusal| format!("archive: generated call {number}, {call:?}, is refused with {refusal}"))?;
    }
    Ok((Head { code: head.code, word: head.word, position: head.position, mark: head.mark }, area))
}

/// How two parts of one memory lie.
fn how_they_lie(first: &Range<usize>, second: &Range<usize>) -> &'static str {
    let is_apart = |one: &Range<usize>, other: &Range<usize>| one.end < other.start;
    let is_before = |one: &Range<usize>, other: &Range<usize>| one.end == other.start;
    if first == second {
        "one buffer as both"
    } else if is_before(first, second) {
        "the second right behind the first"
    } else if is_before(second, first) {
        "the first right behind the second"
    } else if is_apart(first, second) || is_apart(second, first) {
        "apart"
    } else {
        "overlapping"
    }
}

/// Two strings in one memory where they share as many bytes as they can: all of the shorter one where the other begins with it,
/// else the end of the one that lies in front. Where they can share none, one lies right behind the other.
fn close_together(first: &[u8], second: &[u8]) -> (Vec<u8>, Range<usize>, Range<usize>) {
    let (longer, shorter) = if first.len() < second.len() { (second, first) } else { (first, second) };
    if longer.starts_with(shorter) {
        return (longer.to_vec(), 0..first.len(), 0..second.len());
    }
    let shared = (0..=shorter.len()).rev().find(|shared| first.ends_with(&second[..*shared])).unwrap();
    let start = first.len() - shared;
    ([first, &second[shared..]].concat(), 0..first.len(), start..start + second.len())
}

/// Whether a string is refused with 14 for its last byte, without which it ends early.
fn is_14_at_end(string: &[u8], fault: Fault) -> bool {
    fault.refusal() == 14 && matches!(volume::entries_of(&string[..string.len() - 1]), Err(Fault::Ends(_)))
}

/// The first numbers of a list and how many there are.
fn short_list(list: &[u32]) -> String {
    let first: Vec<String> = list.iter().take(8).map(|number| number.to_string()).collect();
    let more = if list.len() > 8 { ".." } else { "" };
    format!("{} numbers [{}{}]", list.len(), first.join(" "), more)
}

/// The first bytes in hexadecimal and the number of all.
pub fn short(bytes: &[u8]) -> String {
    let first: Vec<String> = bytes.iter().take(8).map(|byte| format!("{byte:02x}")).collect();
    let more = if bytes.len() > 8 { ".." } else { "" };
    format!("{} bytes [{}{}]", bytes.len(), first.join(" "), more)
}

/// All bytes in hexadecimal where they are no more than those of two tables of rates, else the first of them.
fn in_full(bytes: &[u8]) -> String {
    if bytes.len() > 66 {
        short(bytes)
    } else {
        format!("{bytes:02x?}")
    }
}

impl<'t> Both<'t> {
    /// Our rates are in use to begin with, on each side as it has them.
    pub fn new(head: Head, area: Vec<u32>, tally: &'t mut Tally) -> Both<'t> {
        let before = 1 + (tally.calls % 7) as usize;
        let mut both = Both {
            archive_head: Lent::new(&[HEAD_GUARD; 3], HEAD_GUARD, before),
            archive_area: Lent::new(&area, WORD_GUARD, before),
            archive_rates: Lent::new(&unsafe { archive::hc_our_rates() }.cents, RATE_GUARD, before),
            head,
            area,
            rates: rates::OURS,
            calls: 0,
            tally,
        };
        both.put_head(head);
        both
    }

    /// Puts a head of the caller's choice in the place of the present one, on both sides.
    pub fn put_head(&mut self, head: Head) {
        let place = self.head_pointer();
        unsafe { place.write(HcHead { code: head.code, word: head.word, position: head.position, mark: head.mark }) };
        self.head = head;
    }

    /// Puts an area of the caller's choice, as long as the present one, in its place, on both sides.
    pub fn put_area(&mut self, area: &[u32]) {
        self.archive_area.content_mut().copy_from_slice(area);
        self.area.copy_from_slice(area);
    }

    /// Puts a table of the caller's choice in the place of the one in use, on both sides.
    pub fn put_rates(&mut self, rates: Rates) {
        self.archive_rates.content_mut().copy_from_slice(&rates);
        self.rates = rates;
    }

    fn head_pointer(&mut self) -> *mut HcHead {
        self.archive_head.pointer().cast()
    }

    fn rates_pointer(&mut self) -> *mut HcRates {
        self.archive_rates.pointer().cast()
    }

    /// Whether the head names a cipher and a position and has another word than the tables.
    pub fn has_false_word(&self) -> bool {
        match Cipher::of_code(self.head.code) {
            Some(cipher) if cipher.area_words() <= self.area.len() => {
                calls::engine_is_good(&self.head, &self.area[..cipher.area_words()]) == Err(13)
            }
            _ => false,
        }
    }

    /// Lends bytes at an address that changes from call to call.
    fn lend(&self, bytes: &[u8]) -> Lent<u8> {
        Lent::new(bytes, BYTE_GUARD, 16 + (self.calls % 16) as usize)
    }

    /// Lends numbers at an address that changes from call to call.
    fn lend_list(&self, list: &[u32]) -> Lent<u32> {
        Lent::new(list, WORD_GUARD, 1 + (self.calls % 16) as usize)
    }

    fn begin(&mut self, call: String) -> Comparison {
        self.calls += 1;
        let head = self.head;
        let text = format!(
            "call {}: {call}, head code {:#x} word {:#010x} position {} mark {}",
            self.calls, head.code, head.word, head.position, head.mark
        );
        Comparison { call: text, differences: Vec::new() }
    }

    /// Compares heads, areas, tables of rates and guards, and gives the text of all differences of the call.
    fn end(&mut self, mut comparison: Comparison) -> Result<(), String> {
        comparison.equal_bytes("head", &bytes_of_numbers(self.archive_head.content()), &bytes_of_head(self.head));
        comparison.guards("head", &self.archive_head);
        comparison.equal_lists("area", self.archive_area.content(), &self.area);
        comparison.guards("area", &self.archive_area);
        comparison.equal_bytes("table of rates", &bytes_of_rates(self.archive_rates.content()), &bytes_of_rates(&self.rates));
        comparison.guards("table of rates", &self.archive_rates);
        if comparison.differences.is_empty() {
            Ok(())
        } else {
            Err(format!("{}\n  {}", comparison.call, comparison.differences.join("\n  ")))
        }
    }

    pub fn set_up(&mut self, words: usize, code: u32, key: &[u8], iv: &[u8]) -> Agreed<()> {
        let mut comparison =
            self.begin(format!("set up, code {code:#x}, key {}, IV {}, area {words} words", short(key), short(iv)));
        let mark = self.head.mark;
        let had_false_word = self.has_false_word();
        let mut lent_key = self.lend(key);
        let mut lent_iv = self.lend(iv);
        let head = self.head_pointer();
        let area = self.archive_area.pointer();
        let refusal =
            unsafe { archive::hc_set_up(head, code, lent_key.pointer(), key.len(), lent_iv.pointer(), iv.len(), area, words) };
        let result = calls::set_up(&mut self.head, code, key, iv, &mut self.area[..words]);
        comparison.equal("answer", plain(refusal), result);
        comparison.equal_lists("key", lent_key.content(), key);
        comparison.equal_lists("IV", lent_iv.content(), iv);
        comparison.guards("key", &lent_key);
        comparison.guards("IV", &lent_iv);
        self.end(comparison)?;
        let cipher = Cipher::of_code(code);
        self.tally.call("set up", &answer(&result), cipher);
        if let (Ok(()), Some(cipher)) = (result, cipher) {
            if had_false_word {
                self.tally.special("set up over a false word", cipher);
            }
            if mark != 0 {
                self.tally.special("set up over another mark than 0", cipher);
            }
        }
        Ok(result)
    }

    pub fn cipher(&mut self, words: usize, bytes: &[u8]) -> Agreed<()> {
        Ok(self.ciphered(words, bytes)?.map(|_| ()))
    }

    /// Cipher; what it returns is the lent bytes afterwards.
    pub fn ciphered(&mut self, words: usize, bytes: &[u8]) -> Agreed<Vec<u8>> {
        let mut comparison = self.begin(format!("cipher, {}, area {words} words", short(bytes)));
        let before = self.head;
        let mut lent = self.lend(bytes);
        let mut peer_bytes = bytes.to_vec();
        let head = self.head_pointer();
        let area = self.archive_area.pointer();
        let refusal = unsafe { archive::hc_cipher(head, area, words, lent.pointer(), bytes.len()) };
        let result = calls::cipher(&mut self.head, &mut self.area[..words], &mut peer_bytes);
        comparison.equal("answer", plain(refusal), result);
        comparison.equal_lists("ciphered bytes", lent.content(), &peer_bytes);
        comparison.guards("ciphered bytes", &lent);
        self.end(comparison)?;
        self.tally.call("cipher", &answer(&result), Cipher::of_code(self.head.code));
        self.count_cipher("cipher", before, bytes.len(), result);
        Ok(result.map(|_| peer_bytes))
    }

    /// Counts what is of special interest in a cipher call, or in the cipher call that an enciphering is.
    fn count_cipher(&mut self, call: &str, before: Head, bytes: usize, result: Result<(), u64>) {
        let Some(cipher) = Cipher::of_code(before.code) else { return };
        let mark = before.mark;
        let before = before.position;
        if result == Err(13) {
            if before == 0 {
                self.tally.special("13 at position 0", cipher);
            }
            if before % 4 != 0 {
                self.tally.special("13 inside a word", cipher);
            }
            if before as u128 + bytes as u128 > calls::LIMIT as u128 {
                self.tally.special(&format!("13 before 6 in {call}"), cipher);
            }
        }
        if result == Err(6) && mark < calls::LIMIT {
            self.tally.special(&format!("6 in {call}, mark below the limit"), cipher);
        }
        if result.is_err() {
            return;
        }
        let after = self.head.position;
        let table = |position: u64| calls::steps_at(position) / cipher.table_words() as u64;
        if bytes == 0 {
            self.tally.special(&format!("{call} of no bytes"), cipher);
            if before > mark {
                self.tally.special(&format!("{call} of no bytes beyond the mark"), cipher);
            }
            return;
        }
        if before % 4 != 0 {
            self.tally.special(&format!("{call} from inside a word"), cipher);
        }
        if table(before) != table(after) {
            self.tally.special(&format!("{call} past the last word of a table"), cipher);
        }
        if after == calls::LIMIT {
            self.tally.special(&format!("{call} to the limit"), cipher);
        }
        if before > mark {
            self.tally.special(&format!("{call} from beyond the mark"), cipher);
        }
        if before == mark {
            self.tally.special(&format!("{call} from the mark"), cipher);
        }
        if after < mark {
            self.tally.special(&format!("{call} behind the mark, which stays"), cipher);
        }
        if after == mark {
            self.tally.special(&format!("{call} that ends at the mark"), cipher);
        }
        if before < mark && after > mark {
            self.tally.special(&format!("{call} from behind the mark, which rises"), cipher);
        }
        if mark > calls::LIMIT {
            self.tally.special(&format!("{call} with a mark over the limit"), cipher);
        }
    }

    pub fn move_by(&mut self, words: usize, distance: i64) -> Agreed<()> {
        let mut comparison = self.begin(format!("move, distance {distance}, area {words} words"));
        let Head { position: before, mark, .. } = self.head;
        let head = self.head_pointer();
        let area = self.archive_area.pointer();
        let refusal = unsafe { archive::hc_move(head, area, words, distance) };
        let result = calls::move_by(&mut self.head, &mut self.area[..words], distance);
        comparison.equal("answer", plain(refusal), result);
        self.end(comparison)?;
        let cipher = Cipher::of_code(self.head.code);
        self.tally.call("move", &answer(&result), cipher);
        if let (Err(13), Some(cipher)) = (result, cipher) {
            let end = before as i128 + distance as i128;
            if end < 0 {
                self.tally.special("13 before 7 in move", cipher);
            }
            if end > calls::LIMIT as i128 {
                self.tally.special("13 before 6 in move", cipher);
            }
        }
        if let (Ok(()), Some(cipher)) = (result, cipher) {
            let table = |position: u64| calls::steps_at(position) / cipher.table_words() as u64;
            let after = self.head.position;
            if distance == 0 {
                self.tally.special("move of 0 bytes", cipher);
            }
            if table(before) > table(after) {
                self.tally.special("move back past the first word of a table", cipher);
            }
            if distance != 0 && before % 4 != 0 && after % 4 != 0 {
                self.tally.special("move from inside a word to inside a word", cipher);
            }
            if distance != 0 && after == 0 {
                self.tally.special("move to 0", cipher);
            }
            if distance != 0 && after == calls::LIMIT {
                self.tally.special("move to the limit", cipher);
            }
            if before >= mark && after < mark {
                self.tally.special("move back to behind the mark", cipher);
            }
            if before <= mark && after > mark {
                self.tally.special("move forward to beyond the mark", cipher);
            }
        }
        Ok(result)
    }

    /// Checkpoint length, which takes neither head nor area; both are compared all the same.
    pub fn checkpoint_length(&mut self, code: u32, position: u64) -> Agreed<usize> {
        let mut comparison = self.begin(format!("checkpoint length, code {code:#x}, position {position}"));
        let returned = unsafe { archive::hc_checkpoint_length(code, position) };
        let result = calls::checkpoint_length(code, position);
        comparison.equal("answer", plain(returned.refusal), result.map(|_| ()));
        comparison.equal("returned length", returned.length, result.unwrap_or(0));
        let returned_bytes = unsafe { transmute::<HcLength, [u8; 16]>(returned) };
        let expected_bytes = bytes_of_numbers(&[number(&result), result.unwrap_or(0) as u64]);
        comparison.equal_bytes("returned structure", &returned_bytes, &expected_bytes);
        self.end(comparison)?;
        self.tally.call("checkpoint length", &answer(&result), Cipher::of_code(code));
        Ok(result)
    }

    /// Write; what it returns is the lent bytes up to the returned length.
    pub fn write(&mut self, words: usize, lent_before: &[u8]) -> Agreed<Vec<u8>> {
        let mut comparison = self.begin(format!("write, {} lent, area {words} words", short(lent_before)));
        let mut lent = self.lend(lent_before);
        let mut peer_lent = lent_before.to_vec();
        let head = self.head_pointer();
        let area = self.archive_area.pointer();
        let returned = unsafe { archive::hc_write(head, area, words, lent.pointer(), lent_before.len()) };
        let result = calls::write(&self.head, &self.area[..words], &mut peer_lent);
        comparison.equal("answer", plain(returned.refusal), result.map(|_| ()));
        comparison.equal("returned length", returned.length, result.unwrap_or(0));
        let returned_bytes = unsafe { transmute::<HcLength, [u8; 16]>(returned) };
        let expected_bytes = bytes_of_numbers(&[number(&result), result.unwrap_or(0) as u64]);
        comparison.equal_bytes("returned structure", &returned_bytes, &expected_bytes);
        comparison.equal_lists("lent bytes", lent.content(), &peer_lent);
        comparison.guards("lent bytes", &lent);
        self.end(comparison)?;
        let cipher = Cipher::of_code(self.head.code);
        self.tally.call("write", &answer(&result), cipher);
        if let Some(cipher) = cipher {
            let groups = calls::groups_of(self.head.position).len();
            let length = calls::checkpoint_length(self.head.code, self.head.position);
            if result == Ok(lent_before.len()) {
                self.tally.special(&format!("write, groups {groups}, just enough lent"), cipher);
            }
            if result == Err(13) && length.is_ok_and(|length| lent_before.len() < length) {
                self.tally.special("13 before 8 in write", cipher);
            }
            if result == Err(8) && length == Ok(lent_before.len() + 1) {
                self.tally.special(&format!("write, groups {groups}, one byte too few lent"), cipher);
            }
        }
        Ok(result.map(|length| peer_lent[..length].to_vec()))
    }

    /// Recover; what it returns is the two buffers.
    pub fn recover(&mut self, words: usize, key_before: &[u8], iv_before: &[u8]) -> Agreed<(Vec<u8>, Vec<u8>)> {
        let lengths = format!("key {}, IV {}", short(key_before), short(iv_before));
        let mut comparison = self.begin(format!("recover, {lengths}, area {words} words"));
        let mut lent_key = self.lend(key_before);
        let mut lent_iv = self.lend(iv_before);
        let mut peer_key = key_before.to_vec();
        let mut peer_iv = iv_before.to_vec();
        let head = self.head_pointer();
        let area = self.archive_area.pointer();
        let refusal = unsafe {
            let (key, iv) = (lent_key.pointer(), lent_iv.pointer());
            archive::hc_recover(head, area, words, key, key_before.len(), iv, iv_before.len())
        };
        let result = calls::recover(&self.head, &self.area[..words], &mut peer_key, &mut peer_iv);
        comparison.equal("answer", plain(refusal), result);
        comparison.equal_lists("key", lent_key.content(), &peer_key);
        comparison.equal_lists("IV", lent_iv.content(), &peer_iv);
        comparison.guards("key", &lent_key);
        comparison.guards("IV", &lent_iv);
        self.end(comparison)?;
        let cipher = Cipher::of_code(self.head.code);
        self.tally.call("recover", &answer(&result), cipher);
        if let (Err(13), Some(cipher)) = (result, cipher) {
            if key_before.len() != cipher.key_bytes() {
                self.tally.special("13 before 2 in recover", cipher);
            } else if iv_before.len() != cipher.key_bytes() {
                self.tally.special("13 before 3 in recover", cipher);
            }
        }
        Ok(result.map(|_| (peer_key, peer_iv)))
    }

    pub fn load(&mut self, words: usize, string: &[u8]) -> Agreed<([u32; 8], [u32; 8])> {
        let mut comparison = self.begin(format!("load, {}, area {words} words", short(string)));
        let before = self.head;
        let had_false_word = self.has_false_word();
        let mut lent = self.lend(string);
        let head = self.head_pointer();
        let area = self.archive_area.pointer();
        let returned = unsafe { archive::hc_load(head, area, words, lent.pointer(), string.len()) };
        let result = calls::load(&mut self.head, &mut self.area[..words], string);
        comparison.equal("answer", plain(returned.refusal), result.map(|_| ()));
        let (key, iv) = result.unwrap_or_default();
        comparison.equal("returned key words", returned.key, key);
        comparison.equal("returned IV words", returned.iv, iv);
        let returned_bytes = unsafe { transmute::<HcWords, [u8; 72]>(returned) };
        let word_bytes = ciphers::bytes_of_words(&[key, iv].concat());
        let expected_bytes = [bytes_of_numbers(&[number(&result)]), word_bytes].concat();
        comparison.equal_bytes("returned structure", &returned_bytes, &expected_bytes);
        comparison.equal_lists("string", lent.content(), string);
        comparison.guards("string", &lent);
        self.end(comparison)?;
        let cipher = string.first().and_then(|code| Cipher::of_code(*code as u32));
        let answer = result.map_or_else(|refusal| answer_of_checkpoint(string, refusal), |_| answer(&result));
        self.tally.call("load", &answer, cipher);
        if let (Ok(_), Some(cipher)) = (result, cipher) {
            if Cipher::of_code(before.code).is_some_and(|had| had != cipher) {
                self.tally.special("load where the head had another cipher", cipher);
            }
            if had_false_word {
                self.tally.special("load over a false word", cipher);
            }
            if before.mark > self.head.position {
                self.tally.special("load over a larger mark", cipher);
            }
            if before.mark < self.head.position {
                self.tally.special("load over a smaller mark", cipher);
            }
        }
        Ok(result)
    }

    /// Test load. Where it is accepted, position and mark must be those counted from the words, and set up, moves and cipher calls
    /// that the archive makes one by one must leave the same head and area.
    pub fn test_load(&mut self, words: usize, seed: u32, count: u64, code: u32, key: &[u8], iv: &[u8]) -> Agreed<()> {
        let lent = format!("key {}, IV {}, area {words} words", short(key), short(iv));
        let mut comparison = self.begin(format!("test load, seed {seed:#x}, count {count}, code {code:#x}, {lent}"));
        let before = self.head;
        let had_false_word = self.has_false_word();
        let as_set_up = calls::set_up_is_good(code, key, iv, words);
        let mut lent_key = self.lend(key);
        let mut lent_iv = self.lend(iv);
        let head = self.head_pointer();
        let area = self.archive_area.pointer();
        let refusal = unsafe {
            let (key_pointer, iv_pointer) = (lent_key.pointer(), lent_iv.pointer());
            archive::hc_test_load(head, seed, count, code, key_pointer, key.len(), iv_pointer, iv.len(), area, words)
        };
        let result = test_load::run(&mut self.head, seed, count, code, key, iv, &mut self.area[..words])
            .map_err(|text| format!("{}\n  {text}", comparison.call))?;
        comparison.equal("answer", plain(refusal), result);
        comparison.equal_lists("key", lent_key.content(), key);
        comparison.equal_lists("IV", lent_iv.content(), iv);
        comparison.guards("key", &lent_key);
        comparison.guards("IV", &lent_iv);
        if result == Ok(()) {
            let generated = test_load::words(seed, count);
            let mut counted = Count::default();
            counted.test_load(&generated);
            let [_, position, mark] = self.archive_head.content() else { unreachable!("a head has 24 bytes") };
            comparison.equal("position counted from the words", *position, counted.position);
            comparison.equal("mark counted from the words", *mark, counted.farthest);
            match made_by_archive(&generated, code, key, iv, words) {
                Ok((head, area)) => {
                    let left = bytes_of_numbers(self.archive_head.content());
                    comparison.equal_bytes("head after the calls one by one", &left, &bytes_of_head(head));
                    comparison.equal_lists("area after the calls one by one", &self.archive_area.content()[..words], &area);
                }
                Err(text) => comparison.differences.push(text),
            }
        }
        self.end(comparison)?;
        self.count_test_load(before, had_false_word, (seed, count, code), as_set_up, result);
        Ok(result)
    }

    /// Counts a test load.
    fn count_test_load(
        &mut self,
        before: Head,
        had_false_word: bool,
        (seed, count, code): (u32, u64, u32),
        as_set_up: Result<Cipher, u64>,
        result: Result<(), u64>,
    ) {
        let cipher = Cipher::of_code(code);
        let after = match result {
            Err(17) if count > test_load::MOST_CALLS => Some(18),
            Err(17 | 18) => as_set_up.err(),
            _ => None,
        };
        let answer = match (result, after) {
            (Err(refusal), Some(after)) => format!("{refusal} before {after}"),
            (Err(refusal @ (17 | 18)), None) => format!("{refusal} alone"),
            _ => answer(&result),
        };
        self.tally.call("test load", &answer, cipher);
        let Head { position, mark, .. } = self.head;
        let mut special = |holds: bool, what: &str| {
            if holds {
                self.tally.special(&format!("test load{what}"), cipher);
            }
        };
        special(result == Err(18) && after.is_none() && count == test_load::MOST_CALLS + 1, ", one call too many");
        if result.is_err() {
            return;
        }
        special(had_false_word, " over a false word");
        special(before.mark != 0, " over another mark than 0");
        special(Cipher::of_code(before.code).is_some_and(|had| Some(had) != cipher), " where the head had another cipher");
        special(before.position > calls::LIMIT, " where the head was over the limit");
        special(count == 0, " of no calls");
        special(count == test_load::MOST_CALLS, " of 1,000 calls");
        let Some(last) = test_load::words(seed, count).pop() else { return };
        special(mark > position, ", mark larger than the position");
        special(mark == position, ", mark equal to the position");
        special(mark < position, ", mark smaller than the position");
        match Call::of(last) {
            Call::MoveTo(_) => special(true, " that ends with a move"),
            Call::Cipher(_) => special(true, " that ends with a cipher call"),
        }
    }

    pub fn spent(&mut self) -> Agreed<u64> {
        let mut comparison = self.begin("spent".to_string());
        let has_false_word = self.has_false_word();
        let head = self.head_pointer();
        let returned = unsafe { archive::hc_spent(head) };
        let result = calls::spent(&self.head);
        comparison.equal("answer", plain(returned.refusal), result.map(|_| ()));
        comparison.equal("returned count", returned.count, result.unwrap_or(0));
        let returned_bytes = unsafe { transmute::<HcCount, [u8; 16]>(returned) };
        let expected_bytes = bytes_of_numbers(&[number(&result), result.unwrap_or(0)]);
        comparison.equal_bytes("returned structure", &returned_bytes, &expected_bytes);
        self.end(comparison)?;
        let cipher = Cipher::of_code(self.head.code);
        self.tally.call("spent", &answer(&result), cipher);
        if let (Ok(_), Some(cipher)) = (result, cipher) {
            if has_false_word {
                self.tally.special("spent of a false word", cipher);
            }
            if self.head.mark > calls::LIMIT {
                self.tally.special("spent of a mark over the limit", cipher);
            }
        }
        if let (Err(5), Some(cipher), true) = (result, cipher, self.head.mark <= calls::LIMIT) {
            self.tally.special("5 in spent, mark not over the limit", cipher);
        }
        Ok(result)
    }

    /// Encipher volume; what it returns is the lent bytes afterwards.
    pub fn encipher_volume(&mut self, words: usize, bytes: &[u8]) -> Agreed<Vec<u8>> {
        let mut comparison = self.begin(format!("encipher volume, {}, area {words} words", short(bytes)));
        let before = self.head;
        let fault = volume::entries_of(bytes).err();
        let as_cipher = calls::cipher_is_good(&before, &self.area[..words], bytes.len());
        let mut lent = self.lend(bytes);
        let mut peer_bytes = bytes.to_vec();
        let head = self.head_pointer();
        let area = self.archive_area.pointer();
        let refusal = unsafe { archive::hc_encipher_volume(head, area, words, lent.pointer(), bytes.len()) };
        let result = volume::encipher(&mut self.head, &mut self.area[..words], &mut peer_bytes);
        comparison.equal("answer", plain(refusal), result);
        comparison.equal_lists("enciphered bytes", lent.content(), &peer_bytes);
        if result.is_err() {
            comparison.equal_lists("bytes of a refused call", lent.content(), bytes);
        }
        comparison.guards("enciphered bytes", &lent);
        self.end(comparison)?;
        let cipher = Cipher::of_code(before.code);
        let answer = fault.map_or(answer(&result), |fault| fault.kind().to_string());
        self.tally.call("encipher volume", &answer, cipher);
        if let (Some(_), Err(refusal)) = (fault, as_cipher) {
            self.tally.special(&format!("14, 15 or 16 before {refusal} in encipher volume"), cipher);
        }
        if result == Ok(()) && bytes == [0] {
            self.tally.special("encipher volume of no entries", cipher);
        }
        if fault.is_none() {
            self.count_cipher("encipher volume", before, bytes.len(), result);
        }
        Ok(result.map(|_| peer_bytes))
    }

    /// Write volume, which takes neither head nor area; both are compared all the same. What it returns is the lent bytes up to
    /// the returned length.
    pub fn write_volume(&mut self, list: &[u32], lent_before: &[u8]) -> Agreed<Vec<u8>> {
        let mut comparison = self.begin(format!("write volume, {}, {} lent", short_list(list), short(lent_before)));
        let mut lent_list = self.lend_list(list);
        let mut lent = self.lend(lent_before);
        let mut peer_lent = lent_before.to_vec();
        let returned = unsafe { archive::hc_write_volume(lent_list.pointer(), list.len(), lent.pointer(), lent_before.len()) };
        let result = volume::write(list, &mut peer_lent);
        comparison.equal("answer", plain(returned.refusal), result.map(|_| ()));
        comparison.equal("returned length", returned.length, result.unwrap_or(0));
        let returned_bytes = unsafe { transmute::<HcLength, [u8; 16]>(returned) };
        let expected_bytes = bytes_of_numbers(&[number(&result), result.unwrap_or(0) as u64]);
        comparison.equal_bytes("returned structure", &returned_bytes, &expected_bytes);
        comparison.equal_lists("lent bytes", lent.content(), &peer_lent);
        let written = result.unwrap_or(0);
        comparison.equal_lists("later bytes", &lent.content()[written..], &lent_before[written..]);
        comparison.equal_lists("list", lent_list.content(), list);
        comparison.guards("lent bytes", &lent);
        comparison.guards("list", &lent_list);
        self.end(comparison)?;
        self.count_write_volume(list, lent_before.len(), result);
        Ok(result.map(|length| peer_lent[..length].to_vec()))
    }

    /// Counts a write of a volume. Where a list is refused with 16 or 15, no lent bytes are surely too few.
    fn count_write_volume(&mut self, list: &[u32], lent: usize, result: Result<usize, u64>) {
        let out_of_range = volume::out_of_range(list);
        let answer = match (result, out_of_range) {
            (Err(15), Some(number)) => format!("15 out of range, {}", number.name),
            _ => answer(&result),
        };
        self.tally.call("write volume", &answer, None);
        let mut special = |holds: bool, what: &str| {
            if holds {
                self.tally.special(what, None);
            }
        };
        special(result == Err(16) && out_of_range.is_some(), "16 before 15 in write volume");
        special(result == Err(16) && lent == 0, "16 before 8 in write volume");
        special(result == Err(15) && lent == 0, "15 before 8 in write volume");
        special(result.is_ok() && list.is_empty(), "write volume of no entries");
        special(result.is_ok() && list.len() == 8_000, "write volume of 2,000 entries");
        special(result == Ok(lent), "write volume, just enough lent");
        special(result.is_ok_and(|length| length < lent), "write volume, more lent");
        special(result == Err(8) && lent + 1 == volume::volume_of(list).len(), "write volume, one byte too few lent");
    }

    /// Read volume, which takes neither head nor area; both are compared all the same. What it returns is the count and the whole
    /// list afterwards.
    pub fn read_volume(&mut self, string: &[u8], list_before: &[u32]) -> Agreed<(u64, Vec<u32>)> {
        let mut comparison = self.begin(format!("read volume, {}, list of {}", short(string), list_before.len()));
        let mut lent = self.lend(string);
        let mut lent_list = self.lend_list(list_before);
        let mut peer_list = list_before.to_vec();
        let returned = unsafe { archive::hc_read_volume(lent.pointer(), string.len(), lent_list.pointer(), list_before.len()) };
        let result = volume::read(string, &mut peer_list);
        comparison.equal("answer", plain(returned.refusal), result.map(|_| ()));
        comparison.equal("returned count", returned.count, result.unwrap_or(0));
        let returned_bytes = unsafe { transmute::<HcCount, [u8; 16]>(returned) };
        let expected_bytes = bytes_of_numbers(&[number(&result), result.unwrap_or(0)]);
        comparison.equal_bytes("returned structure", &returned_bytes, &expected_bytes);
        comparison.equal_lists("list", lent_list.content(), &peer_list);
        let read = 4 * result.unwrap_or(0) as usize;
        comparison.equal_lists("later elements", &lent_list.content()[read..], &list_before[read..]);
        comparison.equal_lists("volume", lent.content(), string);
        comparison.guards("list", &lent_list);
        comparison.guards("volume", &lent);
        // 8 is for the list alone.
        let refusal = if returned.refusal == 8 { 0 } else { returned.refusal };
        comparison.soundness_beside_reading(refusal, string, &mut lent);
        self.end(comparison)?;
        self.count_read_volume(string, list_before.len(), result);
        Ok(result.map(|count| (count, peer_list)))
    }

    /// Counts a read of a volume. Where a string is refused with 16, 15 or 14, its first byte may still be a count of less than
    /// 128 for which the list is too short.
    fn count_read_volume(&mut self, string: &[u8], list: usize, result: Result<u64, u64>) {
        let read = volume::entries_of(string);
        let answer = match read {
            Err(fault) => answer_of_fault(fault),
            Ok(_) => answer(&result),
        };
        self.tally.call("read volume", &answer, None);
        let mut special = |holds: bool, what: &str| {
            if holds {
                self.tally.special(what, None);
            }
        };
        if let Err(fault) = read {
            let is_short = string.first().is_some_and(|count| *count < 128 && list < 4 * *count as usize);
            special(is_short, &format!("{} before 8 in read volume", fault.refusal()));
            special(fault == Fault::BytesAfter && is_short, "16 for bytes after before 8 in read volume");
            special(is_14_at_end(string, fault), "14 at the end of the string in read volume");
        }
        if let Ok(entries) = read {
            special(result == Ok(0), "read volume of no entries");
            special(result == Ok(2_000), "read volume of 2,000 entries");
            special(result.is_ok() && list == entries.len(), "read volume, list just long enough");
            special(result.is_ok() && list > entries.len(), "read volume, longer list");
            special(result == Err(8) && list + 1 == entries.len(), "read volume, list one number short");
        }
    }

    /// Our rates, which takes nothing; what is held is compared all the same.
    pub fn our_rates(&mut self) -> Agreed<Rates> {
        let mut comparison = self.begin("our rates".to_string());
        let returned = unsafe { archive::hc_our_rates() };
        comparison.equal("returned rates", returned.cents, rates::OURS);
        let returned_bytes = unsafe { transmute::<HcRates, [u8; 16]>(returned) };
        comparison.equal_bytes("returned structure", &returned_bytes, &bytes_of_rates(&rates::OURS));
        self.end(comparison)?;
        self.tally.call("our rates", "accepted", None);
        Ok(Ok(rates::OURS))
    }

    /// Load rates, which replaces the table in use. It takes neither head nor area; both are compared all the same.
    pub fn load_rates(&mut self, string: &[u8]) -> Agreed<()> {
        self.load_rates_before(string, &[])
    }

    /// Load rates where other bytes follow in memory, which are not part of the string.
    pub fn load_rates_before(&mut self, string: &[u8], after: &[u8]) -> Agreed<()> {
        let before = self.rates;
        let mut comparison = self.begin(format!("load rates, {}, rates {before:?}", in_full(string)));
        let mut lent = self.lend(&[string, after].concat());
        let in_use = self.rates_pointer();
        let refusal = unsafe { archive::hc_load_rates(in_use, lent.pointer(), string.len()) };
        let result = rates::load(&mut self.rates, string);
        comparison.equal("answer", plain(refusal), result);
        if result.is_err() {
            let kept = bytes_of_rates(self.archive_rates.content());
            comparison.equal_bytes("table of rates of a refused call", &kept, &bytes_of_rates(&before));
        }
        comparison.equal_lists("string", &lent.content()[..string.len()], string);
        comparison.equal_lists("bytes after the string", &lent.content()[string.len()..], after);
        comparison.guards("string", &lent);
        self.end(comparison)?;
        self.count_load_rates(string, before, result);
        Ok(result)
    }

    /// Counts a load of rates.
    fn count_load_rates(&mut self, string: &[u8], before: Rates, result: Result<(), u64>) {
        let mut faults = rates::faults_of(string);
        faults.sort();
        let answer = match faults.first() {
            None => answer(&result),
            Some((_, fault @ (rates::Fault::BytesAfter | rates::Fault::NotAbove))) => fault.kind().to_string(),
            Some((place, fault)) => format!("{}, {}", fault.kind(), rates::number_at(*place).name),
        };
        self.tally.call("load rates", &answer, None);
        let after = self.rates;
        let mut special = |holds: bool, what: &str| {
            if holds {
                self.tally.special(what, None);
            }
        };
        if let Some((place, fault)) = faults.first() {
            let refusal = fault.refusal();
            let is_later = |of: u64| faults.iter().any(|(other, fault)| other > place && fault.refusal() == of);
            let table = if before == rates::OURS { "our rates" } else { "another table" };
            special(true, &format!("{refusal} in load rates over {table}"));
            special(refusal == 24 && is_later(25), "24 before 25 in load rates");
            special(refusal == 25 && is_later(24), "25 before 24 in load rates");
            special(refusal == 24 && faults.contains(&(*place, rates::Fault::NotAbove)), "24 where 25 is earned in load rates");
            let shorter = &string[..string.len().saturating_sub(1)];
            let is_at_end =
                *fault == rates::Fault::ThirdAnnounces && rates::table_of(shorter) == Err((*place, rates::Fault::Ends));
            special(is_at_end, "24 for a third group at the end in load rates");
            special(refusal == 25 && *place == 15, "25 in the eighth pair in load rates");
            return;
        }
        let pairs = string[0];
        special(pairs == 0, "load rates of no pairs");
        special(pairs == 8, "load rates of eight pairs");
        special(before != rates::OURS, "load rates over another table than ours");
        special(after.contains(&65_535), "load rates with the greatest rate");
        let is_lost = |product: usize| before[product - 1] > 0 && after[product - 1] == 0;
        special((1..=8).any(is_lost), "load rates that takes a rate to 0");
        special(pairs > 0 && after == before, "load rates that changes nothing");
    }

    /// Volume duty under the table in use. It takes neither head nor area; both are compared all the same. The archive must refuse
    /// just what its read volume refuses where the list is long enough, with the same number.
    pub fn volume_duty(&mut self, string: &[u8]) -> Agreed<u64> {
        let mut comparison = self.begin(format!("volume duty, {}, rates {:?}", short(string), self.rates));
        let mut lent = self.lend(string);
        let in_use = self.rates_pointer();
        let returned = unsafe { archive::hc_volume_duty(in_use, lent.pointer(), string.len()) };
        let result = duty::volume_duty(&self.rates, string);
        comparison.equal("answer", plain(returned.refusal), result.map(|_| ()));
        comparison.equal("returned cents", returned.cents, result.unwrap_or(0));
        let returned_bytes = unsafe { transmute::<HcDuty, [u8; 16]>(returned) };
        let expected_bytes = bytes_of_numbers(&[number(&result), result.unwrap_or(0)]);
        comparison.equal_bytes("returned structure", &returned_bytes, &expected_bytes);
        comparison.equal_lists("volume", lent.content(), string);
        comparison.guards("volume", &lent);
        // Each number has at least one byte, so as many numbers as there are bytes are enough.
        let mut list = self.lend_list(&vec![0; string.len()]);
        let read = unsafe { archive::hc_read_volume(lent.pointer(), string.len(), list.pointer(), string.len()) };
        if returned.refusal != read.refusal {
            comparison.differences.push(format!("archive: volume duty says {}, read volume {}", returned.refusal, read.refusal));
        }
        comparison.soundness_beside_reading(read.refusal, string, &mut lent);
        self.end(comparison)?;
        self.count_volume_duty(string, result);
        Ok(result)
    }

    /// Counts a volume duty.
    fn count_volume_duty(&mut self, string: &[u8], result: Result<u64, u64>) {
        let fault = volume::entries_of(string).err();
        self.tally.call("volume duty", &fault.map_or(answer(&result), answer_of_fault), None);
        let rates = self.rates;
        let mut special = |holds: bool, what: &str| {
            if holds {
                self.tally.special(what, None);
            }
        };
        let entries = volume::entries_before_fault(string);
        let cents = duty::of_entries(&rates, &entries);
        if let Some(fault) = fault {
            special(cents > 0, &format!("{} after entries with duty in volume duty", fault.refusal()));
            special(cents > 0 && fault == Fault::BytesAfter, "bytes after entries with duty in volume duty");
            special(is_14_at_end(string, fault), "14 at the end of the string in volume duty");
            return;
        }
        let undivided: Vec<u128> = entries.chunks(4).map(|entry| duty::undivided(&rates, entry)).collect();
        let has_part_of = |product: u32| entries.chunks(4).any(|entry| entry[3] == product && entry[1] > 0 && entry[2] > 0);
        special(entries.is_empty(), "volume duty of no entries");
        special(entries.len() == 8_000, "volume duty of 2,000 entries");
        special(!entries.is_empty() && cents == 0, "volume duty of 0 on entries");
        special((1..=8).all(has_part_of), "volume duty on all eight products");
        special(undivided.iter().any(|product| *product > u32::MAX as u128), "volume duty, product of more than 32 bits");
        special(undivided.iter().sum::<u128>() / 10_000 > cents as u128, "volume duty, less than the sum cut down");
        special(cents > u32::MAX as u64, "volume duty of more than 32 bits");
        let is_large = |product: &u128| product / 10_000 > u32::MAX as u128;
        special(undivided.iter().any(is_large), "volume duty, entry of more than 32 bits");
        special(cents > 24_000_000_000, "volume duty over the greatest under our rates");
        special(
            rates != rates::OURS && cents != duty::of_entries(&rates::OURS, &entries),
            "volume duty other than under our rates",
        );
    }

    /// Volume soundness, which takes neither head nor area; both are compared all the same.
    pub fn volume_soundness(&mut self, string: &[u8]) -> Agreed<Soundness> {
        self.volume_soundness_before(string, &[])
    }

    /// Volume soundness where other bytes follow in memory, which are not part of the string. The archive must say that the string
    /// is sound just where its read volume accepts it into a list that is long enough, and can say that it is cut only where that
    /// is refused with 16.
    pub fn volume_soundness_before(&mut self, string: &[u8], after: &[u8]) -> Agreed<Soundness> {
        let mut comparison = self.begin(format!("volume soundness, {}, {} after it", in_full(string), short(after)));
        let mut lent = self.lend(&[string, after].concat());
        let returned = unsafe { archive::hc_volume_soundness(lent.pointer(), string.len()) };
        let soundness = soundness::of(string);
        let (answer, length) = soundness.numbers();
        comparison.equal("answer and length", (returned.answer, returned.length), (answer, length));
        let returned_bytes = unsafe { transmute::<HcSoundness, [u8; 16]>(returned) };
        comparison.equal_bytes("returned structure", &returned_bytes, &bytes_of_numbers(&[answer, length as u64]));
        comparison.equal_lists("string", &lent.content()[..string.len()], string);
        comparison.equal_lists("bytes after the string", &lent.content()[string.len()..], after);
        comparison.guards("string", &lent);
        // Each number has at least one byte, so as many numbers as there are bytes are enough.
        let mut list = self.lend_list(&vec![0; string.len()]);
        let read = unsafe { archive::hc_read_volume(lent.pointer(), string.len(), list.pointer(), string.len()) };
        comparison.differences.extend(fault_beside_reading(read.refusal, string.len(), returned));
        self.end(comparison)?;
        self.count_volume_soundness(string, soundness, read.refusal);
        Ok(Ok(soundness))
    }

    /// Counts a volume soundness.
    fn count_volume_soundness(&mut self, string: &[u8], soundness: Soundness, refusal_of_reading: u64) {
        self.tally.call("volume soundness", &answer_of_soundness(string, soundness), None);
        let (numbers, left) = volume::numbers_before_fault(string);
        let entries = numbers.first().map_or(0, |count| *count as usize);
        let mut special = |holds: bool, what: &str| {
            if holds {
                self.tally.special(what, None);
            }
        };
        match soundness {
            Soundness::Sound => {
                special(entries == 0, "soundness of no entries, sound");
                special(entries == 2_000, "soundness of 2,000 entries, sound");
            }
            Soundness::Cut => {
                let is_litres = volume::number_at(numbers.len()).name == "litres";
                special(is_litres && left.len() == 2, "soundness, cut after two groups of litres");
                special(entries == 2_000, "soundness of 2,000 entries, cut");
            }
            Soundness::Hopeless(length) => {
                let is_whole = numbers.len() == volume::numbers_of_volume(&numbers);
                let entry = numbers.len().saturating_sub(1) / 4;
                let is_in_entry = !numbers.is_empty() && !is_whole;
                special(length == string.len(), "soundness, hopeless at the last byte");
                special(length < string.len(), "soundness, hopeless before the last byte");
                special(is_whole && length < string.len(), "soundness, several bytes after the last entry");
                // Reading refuses a number for its last group, for the third one or for the end of the string.
                let groups = length + left.len() - string.len();
                let is_earlier = !is_whole && groups < 3 && string[length - 1] >= 0x80;
                special(is_earlier, &format!("soundness, hopeless earlier than {refusal_of_reading} in reading"));
                special(is_in_entry && entries > 1 && entry == 0, "soundness, hopeless in the first of several");
                special(is_in_entry && entries > 1 && entry + 1 == entries, "soundness, hopeless in the last of several");
                let is_between = is_in_entry && 0 < entry && entry + 1 < entries;
                special(is_between, "soundness, hopeless between two other entries");
                special(is_in_entry && entries == 2_000, "soundness of 2,000 entries, hopeless");
            }
        }
    }

    /// Check recordings and compare recordings, where the two strings lie apart from one another in memory.
    pub fn compare_recordings(&mut self, blender: &[u8], gauge: &[u8]) -> Agreed<Part> {
        let between = vec![BYTE_GUARD; 32 + (self.calls / 16 % 16) as usize];
        let memory = [blender, &between, gauge].concat();
        let start = blender.len() + between.len();
        self.compare_recordings_in(&memory, 0..blender.len(), start..memory.len())
    }

    /// Check recordings and compare recordings, where the two strings are parts of one memory; they may overlap. The calls take
    /// neither head nor area; both are compared all the same. What is agreed on is the part of an accepted pair, or the refusal.
    pub fn compare_recordings_in(&mut self, memory: &[u8], blender: Range<usize>, gauge: Range<usize>) -> Agreed<Part> {
        let strings = [&memory[blender.clone()], &memory[gauge.clone()]];
        let texts = strings.map(in_full);
        let mut comparison = self.begin(format!("check and compare recordings, blender {}, gauge {}", texts[0], texts[1]));
        let mut lent = self.lend(memory);
        let memory_pointer = lent.pointer();
        let pointers = [&blender, &gauge].map(|string| unsafe { memory_pointer.add(string.start) });
        let [blender_bytes, gauge_bytes] = strings.map(|string| string.len());
        let check = || unsafe { archive::hc_check_recordings(pointers[0], blender_bytes, pointers[1], gauge_bytes) };
        let compare = || unsafe { archive::hc_compare_recordings(pointers[0], blender_bytes, pointers[1], gauge_bytes) };
        // Each of the two calls is the first one for every other pair.
        let (refusal, returned) = if self.calls % 2 == 0 {
            let refusal = check();
            (refusal, compare())
        } else {
            let returned = compare();
            (check(), returned)
        };
        let found = recordings::of(strings[0], strings[1]);
        let result = found.as_ref().map(|found| found.part).map_err(|fault| fault.refusal());
        let part = result.unwrap_or(recordings::OF_REFUSED);
        comparison.equal("answer", plain(refusal), result.map(|_| ()));
        let numbers = [returned.recording, returned.from as u64, returned.length as u64];
        comparison.equal("recording, from and length", numbers, part.numbers());
        let returned_bytes = unsafe { transmute::<HcPart, [u8; 24]>(returned) };
        comparison.equal_bytes("returned structure", &returned_bytes, &bytes_of_numbers(&part.numbers()));
        comparison.differences.extend(fault_beside_check(refusal, returned, strings[0], strings[1]));
        comparison.equal_lists("memory of the recordings", lent.content(), memory);
        comparison.guards("memory of the recordings", &lent);
        let read = strings.map(|string| self.read_by_archive(string));
        let of_reading = number(&read[0].as_ref().and(read[1].as_ref()).map_err(|refusal| *refusal));
        if refusal != of_reading {
            comparison.differences.push(format!("archive: check says {refusal}, read volume {of_reading}"));
        }
        if let ([Ok(blender), Ok(gauge)], true) = (&read, comparison.differences.is_empty()) {
            // The rest is a volume where the count of its entries is put in front of it.
            let (entries, string) = if returned.recording == 0 { (blender, strings[0]) } else { (gauge, strings[1]) };
            let rest = &entries[4 * recordings::first_difference(blender, gauge)..];
            let count = calls::groups_of(rest.len() as u64 / 4);
            let volume = [&count[..], &string[returned.from..returned.from + returned.length]].concat();
            comparison.equal("entries of the part", self.read_by_archive(&volume), Ok(rest.to_vec()));
        }
        self.end(comparison)?;
        self.count_recordings(strings, found);
        Ok(result)
    }

    /// The entries that the archive's read volume puts into a list that is long enough, or its refusal.
    fn read_by_archive(&self, string: &[u8]) -> Result<Vec<u32>, u64> {
        let mut lent = self.lend(string);
        // Each number has at least one byte, so as many numbers as there are bytes are enough.
        let mut list = self.lend_list(&vec![0; string.len()]);
        let read = unsafe { archive::hc_read_volume(lent.pointer(), string.len(), list.pointer(), string.len()) };
        plain(read.refusal).map(|_| list.content()[..4 * read.count as usize].to_vec())
    }

    /// Counts a pair of recordings, for which both calls were made.
    fn count_recordings(&mut self, strings: [&[u8]; 2], found: Result<Found, Fault>) {
        let refusals = strings.map(|string| volume::entries_of(string).err().map(Fault::refusal));
        let answer = match refusals {
            [None, None] => "accepted".to_string(),
            [Some(refusal), None] => format!("{refusal} for the blender's alone"),
            [None, Some(refusal)] => format!("{refusal} for the gauge's alone"),
            [Some(refusal), Some(other)] => format!("{refusal} for the blender's, {other} for the gauge's"),
        };
        self.tally.call("check recordings", &answer, None);
        let Ok(Found { blender, gauge, same, why, part }) = found else {
            self.tally.call("compare recordings", "refused", None);
            self.count_refused_recordings(strings);
            return;
        };
        let recording = if part.recording == Recording::Blender { "blender's" } else { "gauge's" };
        let answer = match why {
            Why::BothEnded => "both ended",
            Why::OtherEnded => "the other ended",
            Why::SmallerRatio => "smaller ratio",
            Why::EqualRatios => "equal ratios",
        };
        self.tally.call("compare recordings", &format!("{recording}, {answer}"), None);
        let mut special = |holds: bool, what: &str| {
            if holds {
                self.tally.special(&format!("recordings, {what}"), None);
            }
        };
        let [of_blender, of_gauge] = [&blender, &gauge].map(|entries| entries.len() / 4);
        let [in_blender, in_gauge] = [of_blender, of_gauge].map(|count| calls::groups_of(count as u64).len());
        let is_after_same = same > 0 && why != Why::BothEnded;
        special(is_after_same, &format!("counts of {in_blender} and {in_gauge} bytes, {recording}"));
        special(of_blender == 0 && of_gauge == 0, "no entries in both");
        special(of_blender == 0 && of_gauge > 0, "no entries in the blender's alone");
        special(of_gauge == 0 && of_blender > 0, "no entries in the gauge's alone");
        special(same == 2_000, "the same 2,000 entries");
        let there = (recordings::entry_at(&blender, same), recordings::entry_at(&gauge, same));
        let (Some(blenders), Some(gauges)) = there else { return };

        let different: Vec<usize> = (0..4).filter(|number| blenders[*number] != gauges[*number]).collect();
        let what = match different[..] {
            [number] => ["minutes differ", "litres differ", "ratio differs", "product differs"][number],
            _ => "several numbers differ",
        };
        special(true, &format!("{what}, {recording}"));
        let [fewest, most] = [of_blender.min(of_gauge), of_blender.max(of_gauge)];
        special(same == 0 && fewest > 1, &format!("first of several differs, {recording}"));
        special(0 < same && same + 1 < fewest, &format!("one between others differs, {recording}"));
        special(0 < same && same + 1 == most && fewest == most, &format!("last of several differs, {recording}"));
        let is_last = |count: usize, other: usize| same + 1 == count && count < other;
        special(is_last(of_blender, of_gauge), &format!("blender's alone ends there, {recording}"));
        special(is_last(of_gauge, of_blender), &format!("gauge's alone ends there, {recording}"));
        special(same == 1_999, "last of 2,000 differs");
        let [ratio, other] = [blenders, gauges].map(|entry| calls::groups_of(entry[2] as u64));
        special(blenders[2] < gauges[2] && ratio > other, "smaller ratio, greater bytes, blender's");
        special(gauges[2] < blenders[2] && other > ratio, "smaller ratio, greater bytes, gauge's");
        special(blenders[2] < gauges[2] && blenders[1] > gauges[1], "smaller ratio, more litres, blender's");
        special(gauges[2] < blenders[2] && gauges[1] > blenders[1], "smaller ratio, more litres, gauge's");
        let after = same + 1;
        let has_entry_more = |of: &[u32], other: &[u32]| after < of.len() / 4 && of[4 * after..] == other[4 * same..];
        special(has_entry_more(&gauge, &blender), "an entry missing in the blender's");
        special(has_entry_more(&blender, &gauge), "an entry missing in the gauge's");
        let is_same_after = fewest == most && after < fewest && blender[4 * after..] == gauge[4 * after..];
        special(is_same_after, "the same after a different entry");
    }

    /// Counts a refused pair of recordings: whether the entries before the faults are the same.
    fn count_refused_recordings(&mut self, strings: [&[u8]; 2]) {
        let [blender, gauge] = strings.map(volume::entries_before_fault);
        let same = recordings::first_difference(&blender, &gauge);
        let is_different = same < blender.len().min(gauge.len()) / 4;
        for (string, recording) in strings.into_iter().zip(["blender's", "gauge's"]) {
            if volume::entries_of(string).is_err() {
                let place = if is_different { "after a difference" } else { "before any difference" };
                self.tally.special(&format!("recordings, {recording} fault {place}"), None);
            }
        }
    }

    /// Same run, which takes neither head nor area; both are compared all the same. In half of the calls the two strings lie apart
    /// from one another in memory. In the others they lie as close as they can, with either of them in front.
    pub fn same_run(&mut self, first: &[u8], second: &[u8]) -> Agreed<bool> {
        // The number of bits that are 1 is even for half of the numbers, in an order that does not repeat itself.
        let turn = self.tally.calls;
        if turn.count_ones() % 2 == 0 {
            let between = vec![BYTE_GUARD; 32 + (turn % 16) as usize];
            let start = first.len() + between.len();
            let memory = [first, &between, second].concat();
            return self.same_run_in(&memory, 0..first.len(), start..memory.len());
        }
        if turn / 3 % 2 == 0 {
            let (memory, first, second) = close_together(first, second);
            self.same_run_in(&memory, first, second)
        } else {
            let (memory, second, first) = close_together(second, first);
            self.same_run_in(&memory, first, second)
        }
    }

    /// Same run, where the two strings are parts of one memory; they may overlap.
    pub fn same_run_in(&mut self, memory: &[u8], first: Range<usize>, second: Range<usize>) -> Agreed<bool> {
        let strings = [&memory[first.clone()], &memory[second.clone()]];
        let texts = strings.map(short);
        let mut comparison = self.begin(format!("same run, first {}, second {}", texts[0], texts[1]));
        let mut lent = self.lend(memory);
        let memory_pointer = lent.pointer();
        let pointers = [&first, &second].map(|string| unsafe { memory_pointer.add(string.start) });
        let returned = unsafe { archive::hc_same_run(pointers[0], strings[0].len(), pointers[1], strings[1].len()) };
        let found = same_run::of(strings[0], strings[1]);
        let result = found.as_ref().map(|found| matches!(found, RunFound::Yes)).map_err(|refused| refused.number());
        let yes = result.unwrap_or(false) as u64;
        comparison.equal("answer", plain(returned.refusal), result.map(|_| ()));
        comparison.equal("returned yes", returned.yes, yes);
        let returned_bytes = unsafe { transmute::<HcYesOrNo, [u8; 16]>(returned) };
        comparison.equal_bytes("returned structure", &returned_bytes, &bytes_of_numbers(&[number(&result), yes]));
        comparison.equal_lists("memory of the checkpoints", lent.content(), memory);
        comparison.guards("memory of the checkpoints", &lent);
        comparison.differences.extend(fault_beside_load(returned, strings));
        self.end(comparison)?;
        self.tally.special(&format!("same run, {}", how_they_lie(&first, &second)), None);
        match found {
            Ok(found) => self.count_same_run(strings, found),
            Err(refused) => self.count_refused_same_run(strings, refused),
        }
        Ok(result)
    }

    /// Counts a same run that is not refused.
    fn count_same_run(&mut self, strings: [&[u8]; 2], found: RunFound) {
        let cipher = same_run::cipher_of(strings[0]);
        let [p, q] = strings.map(|string| same_run::parts(string).map_or(0, |(_, position, _)| position));
        let order = match p.cmp(&q) {
            Ordering::Less => "the second later",
            Ordering::Equal => "one position",
            Ordering::Greater => "the first later",
        };
        let answer = if matches!(found, RunFound::Yes) { "yes" } else { "no" };
        self.tally.call("same run", answer, cipher);
        let mut special = |holds: bool, what: &str| {
            if holds {
                self.tally.special(&format!("same run, {answer}, {what}"), cipher);
            }
        };
        special(true, order);
        let RunFound::No([words, others]) = found else {
            let [in_first, in_second] = [p, q].map(|position| calls::groups_of(position).len());
            let is_near = in_first < 4 && in_second < 4;
            special(is_near && in_first != in_second, &format!("positions of {in_first} and {in_second} bytes"));
            special(in_first == 4, "the first at a position of 4 bytes");
            special(in_second == 4, "the second at a position of 4 bytes");
            special(p != q && calls::steps_at(p) == calls::steps_at(q), "two positions in one word");
            special(p == 0 && q > 0, "the first at 0");
            special(q == 0 && p > 0, "the second at 0");
            return;
        };
        let bits = |a: [u32; 8], b: [u32; 8]| a.iter().zip(b).map(|(a, b)| (a ^ b).count_ones()).sum::<u32>();
        let (in_key, in_iv) = (bits(words.0, others.0), bits(words.1, others.1));
        special(in_iv == 0, "another key alone");
        special(in_key == 0, "another IV alone");
        special(in_key > 0 && in_iv > 0, "another key and another IV");
        special(in_key + in_iv == 1, "one bit differs");
        special((words.1, words.0) == others, "key and IV exchanged");
    }

    /// Counts a refused same run.
    fn count_refused_same_run(&mut self, strings: [&[u8]; 2], refused: Refused) {
        let [cipher, other] = strings.map(same_run::cipher_of);
        let is_of_two = cipher.is_some() && other.is_some() && cipher != other;
        let [first, second] = strings;
        match refused {
            Refused::TwoCiphers => self.tally.call("same run", "23", cipher),
            Refused::Second(refusal) => {
                let answer = answer_of_checkpoint(second, refusal);
                self.tally.call("same run", &format!("{answer}, second alone"), other);
                if is_of_two {
                    self.tally.special(&format!("same run, {refusal} before 23, second alone"), None);
                }
            }
            Refused::First(refusal) => match same_run::refusal_of(second) {
                None => {
                    let answer = answer_of_checkpoint(first, refusal);
                    self.tally.call("same run", &format!("{answer}, first alone"), cipher);
                    if is_of_two {
                        self.tally.special(&format!("same run, {refusal} before 23, first alone"), None);
                    }
                }
                Some(after) => self.tally.call("same run", &format!("{refusal} in the first, {after} in the second"), None),
            },
        }
        let parts = strings.map(same_run::parts);
        if let [Ok((_, p, tables)), Ok((_, q, others))] = parts {
            if tables == others && calls::steps_at(p) != calls::steps_at(q) {
                self.tally.special("same run, 12 beside the same tables", cipher);
            }
        }
    }
}
