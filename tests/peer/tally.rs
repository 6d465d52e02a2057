//! The count of calls by kind, cipher and answer, and the answers that must occur.

use crate::ciphers::Cipher;
use std::collections::BTreeMap;
use Where::{All, Ciphers, Neither};

/// The columns of the count: the ciphers, and calls whose code names none or that take no code.
const COLUMNS: [&str; 3] = ["HC-128", "HC-256", "neither"];

/// In which columns an answer must occur; in the others it must not.
#[derive(Clone, Copy, PartialEq)]
enum Where {
    /// Where the code names a cipher, and for both ciphers.
    Ciphers,
    /// Where the code names none, or the call takes no code.
    Neither,
    /// In all three.
    All,
}

/// The answers for strings that are not volumes.
const NO_VOLUME: [(&str, Where); 21] = [
    ("16 ends before the last group, count", Neither),
    ("16 ends before the last group, minutes", Neither),
    ("16 ends before the last group, litres", Neither),
    ("16 ends before the last group, ratio", Neither),
    ("16 ends before the last group, product", Neither),
    ("14 not in shortest form, count", Neither),
    ("14 not in shortest form, minutes", Neither),
    ("14 not in shortest form, litres", Neither),
    ("14 not in shortest form, ratio", Neither),
    ("14 not in shortest form, product", Neither),
    ("14 third group announces another, count", Neither),
    ("14 third group announces another, minutes", Neither),
    ("14 third group announces another, litres", Neither),
    ("14 third group announces another, ratio", Neither),
    ("14 third group announces another, product", Neither),
    ("15 out of range, count", Neither),
    ("15 out of range, minutes", Neither),
    ("15 out of range, litres", Neither),
    ("15 out of range, ratio", Neither),
    ("15 out of range, product", Neither),
    ("16 bytes after the last entry", Neither),
];

/// The answers for strings that are not tables of rates.
const NO_RATES: [(&str, Where); 14] = [
    ("24 ends before the last group, count", Neither),
    ("24 ends before the last group, product", Neither),
    ("24 ends before the last group, rate", Neither),
    ("24 not in shortest form, count", Neither),
    ("24 not in shortest form, product", Neither),
    ("24 not in shortest form, rate", Neither),
    ("24 third group announces another, count", Neither),
    ("24 third group announces another, product", Neither),
    ("24 third group announces another, rate", Neither),
    ("24 out of range, count", Neither),
    ("24 out of range, product", Neither),
    ("24 out of range, rate", Neither),
    ("24 bytes after the last pair", Neither),
    ("25 not above the one before", Neither),
];

/// The answers about the soundness of strings. A product has one group: no string is cut in it, and a first group that announces
/// another is hopeless. Count, minutes and ratio have two groups at most. Two groups of litres that announce a third are not yet
/// hopeless.
const SOUNDNESS: [(&str, Where); 26] = [
    ("sound", Neither),
    ("cut, empty string", Neither),
    ("cut before minutes", Neither),
    ("cut before litres", Neither),
    ("cut before ratio", Neither),
    ("cut before product", Neither),
    ("cut in count", Neither),
    ("cut in minutes", Neither),
    ("cut in litres", Neither),
    ("cut in ratio", Neither),
    ("hopeless, out of range, count", Neither),
    ("hopeless, out of range, minutes", Neither),
    ("hopeless, out of range, litres", Neither),
    ("hopeless, out of range, ratio", Neither),
    ("hopeless, out of range, product", Neither),
    ("hopeless, second group is 0, count", Neither),
    ("hopeless, second group is 0, minutes", Neither),
    ("hopeless, second group is 0, litres", Neither),
    ("hopeless, third group is 0, litres", Neither),
    ("hopeless, second group is 0, ratio", Neither),
    ("hopeless, second group announces another, count", Neither),
    ("hopeless, second group announces another, minutes", Neither),
    ("hopeless, third group announces another, litres", Neither),
    ("hopeless, second group announces another, ratio", Neither),
    ("hopeless, first group announces another, product", Neither),
    ("hopeless, bytes after the last entry", Neither),
];

/// The answers of the check of two recordings: accepted, refused for one of them, and refused for the blender's where the gauge's
/// would be refused, too.
const RECORDINGS: [(&str, Where); 16] = [
    ("accepted", Neither),
    ("14 for the blender's alone", Neither),
    ("15 for the blender's alone", Neither),
    ("16 for the blender's alone", Neither),
    ("14 for the gauge's alone", Neither),
    ("15 for the gauge's alone", Neither),
    ("16 for the gauge's alone", Neither),
    ("14 for the blender's, 14 for the gauge's", Neither),
    ("14 for the blender's, 15 for the gauge's", Neither),
    ("14 for the blender's, 16 for the gauge's", Neither),
    ("15 for the blender's, 14 for the gauge's", Neither),
    ("15 for the blender's, 15 for the gauge's", Neither),
    ("15 for the blender's, 16 for the gauge's", Neither),
    ("16 for the blender's, 14 for the gauge's", Neither),
    ("16 for the blender's, 15 for the gauge's", Neither),
    ("16 for the blender's, 16 for the gauge's", Neither),
];

/// The parts that the comparison of two recordings hands back, and why.
const PARTS: [(&str, Where); 7] = [
    ("blender's, the other ended", Neither),
    ("gauge's, the other ended", Neither),
    ("blender's, smaller ratio", Neither),
    ("gauge's, smaller ratio", Neither),
    ("blender's, equal ratios", Neither),
    ("blender's, both ended", Neither),
    ("refused", Neither),
];

/// The answers for two checkpoints: yes or no, refused for one of them, refused for the first where the second would be refused,
/// too, and two ciphers.
const SAME_RUN: [(&str, Where); 55] = [
    ("yes", Ciphers),
    ("no", Ciphers),
    ("9 no bytes, first alone", Neither),
    ("1, first alone", Neither),
    ("10 fourth group announces another, first alone", Ciphers),
    ("9 ends before the last group, first alone", Ciphers),
    ("10 last group is 0, first alone", Ciphers),
    ("5, first alone", Ciphers),
    ("11, first alone", Ciphers),
    ("12, first alone", Ciphers),
    ("9 no bytes, second alone", Neither),
    ("1, second alone", Neither),
    ("10 fourth group announces another, second alone", Ciphers),
    ("9 ends before the last group, second alone", Ciphers),
    ("10 last group is 0, second alone", Ciphers),
    ("5, second alone", Ciphers),
    ("11, second alone", Ciphers),
    ("12, second alone", Ciphers),
    ("9 in the first, 9 in the second", Neither),
    ("9 in the first, 1 in the second", Neither),
    ("9 in the first, 10 in the second", Neither),
    ("9 in the first, 5 in the second", Neither),
    ("9 in the first, 11 in the second", Neither),
    ("9 in the first, 12 in the second", Neither),
    ("1 in the first, 9 in the second", Neither),
    ("1 in the first, 1 in the second", Neither),
    ("1 in the first, 10 in the second", Neither),
    ("1 in the first, 5 in the second", Neither),
    ("1 in the first, 11 in the second", Neither),
    ("1 in the first, 12 in the second", Neither),
    ("10 in the first, 9 in the second", Neither),
    ("10 in the first, 1 in the second", Neither),
    ("10 in the first, 10 in the second", Neither),
    ("10 in the first, 5 in the second", Neither),
    ("10 in the first, 11 in the second", Neither),
    ("10 in the first, 12 in the second", Neither),
    ("5 in the first, 9 in the second", Neither),
    ("5 in the first, 1 in the second", Neither),
    ("5 in the first, 10 in the second", Neither),
    ("5 in the first, 5 in the second", Neither),
    ("5 in the first, 11 in the second", Neither),
    ("5 in the first, 12 in the second", Neither),
    ("11 in the first, 9 in the second", Neither),
    ("11 in the first, 1 in the second", Neither),
    ("11 in the first, 10 in the second", Neither),
    ("11 in the first, 5 in the second", Neither),
    ("11 in the first, 11 in the second", Neither),
    ("11 in the first, 12 in the second", Neither),
    ("12 in the first, 9 in the second", Neither),
    ("12 in the first, 1 in the second", Neither),
    ("12 in the first, 10 in the second", Neither),
    ("12 in the first, 5 in the second", Neither),
    ("12 in the first, 11 in the second", Neither),
    ("12 in the first, 12 in the second", Neither),
    ("23", Ciphers),
];

/// The answers for a test load: accepted, refused by set up, and refused with 17 or 18, alone or where another refusal would have
/// followed.
const TEST_LOAD: [(&str, Where); 16] = [
    ("accepted", Ciphers),
    ("17 alone", Ciphers),
    ("17 before 18", All),
    ("17 before 1", Neither),
    ("17 before 2", Ciphers),
    ("17 before 3", Ciphers),
    ("17 before 4", Ciphers),
    ("18 alone", Ciphers),
    ("18 before 1", Neither),
    ("18 before 2", Ciphers),
    ("18 before 3", Ciphers),
    ("18 before 4", Ciphers),
    ("1", Neither),
    ("2", Ciphers),
    ("3", Ciphers),
    ("4", Ciphers),
];

/// For each call the answers that it must give.
const EXPECTED: [(&str, &[(&str, Where)]); 22] = [
    ("set up", &[("accepted", Ciphers), ("1", Neither), ("2", Ciphers), ("3", Ciphers), ("4", Ciphers)]),
    ("cipher", &[("accepted", Ciphers), ("1", Neither), ("4", Ciphers), ("5", Ciphers), ("13", Ciphers), ("6", Ciphers)]),
    (
        "move",
        &[("accepted", Ciphers), ("1", Neither), ("4", Ciphers), ("5", Ciphers), ("13", Ciphers), ("7", Ciphers), ("6", Ciphers)],
    ),
    ("checkpoint length", &[("accepted", Ciphers), ("1", Neither), ("5", Ciphers)]),
    ("write", &[("accepted", Ciphers), ("1", Neither), ("4", Ciphers), ("5", Ciphers), ("13", Ciphers), ("8", Ciphers)]),
    (
        "recover",
        &[
            ("accepted", Ciphers),
            ("1", Neither),
            ("4", Ciphers),
            ("5", Ciphers),
            ("13", Ciphers),
            ("2", Ciphers),
            ("3", Ciphers),
            ("12", Ciphers),
        ],
    ),
    (
        "load",
        &[
            ("accepted", Ciphers),
            ("9 no bytes", Neither),
            ("1", Neither),
            ("4", Ciphers),
            ("10 fourth group announces another", Ciphers),
            ("9 ends before the last group", Ciphers),
            ("10 last group is 0", Ciphers),
            ("5", Ciphers),
            ("11", Ciphers),
            ("12", Ciphers),
        ],
    ),
    ("test load", &TEST_LOAD),
    ("spent", &[("accepted", Ciphers), ("1", Neither), ("5", Ciphers)]),
    (
        "write volume",
        &[
            ("accepted", Neither),
            ("16", Neither),
            ("15 out of range, count", Neither),
            ("15 out of range, minutes", Neither),
            ("15 out of range, litres", Neither),
            ("15 out of range, ratio", Neither),
            ("15 out of range, product", Neither),
            ("8", Neither),
        ],
    ),
    ("read volume", &[("accepted", Neither), ("8", Neither)]),
    ("read volume", &NO_VOLUME),
    ("volume duty", &[("accepted", Neither)]),
    ("volume duty", &NO_VOLUME),
    ("our rates", &[("accepted", Neither)]),
    ("load rates", &[("accepted", Neither)]),
    ("load rates", &NO_RATES),
    ("volume soundness", &SOUNDNESS),
    ("check recordings", &RECORDINGS),
    ("compare recordings", &PARTS),
    ("same run", &SAME_RUN),
    (
        "encipher volume",
        &[
            ("accepted", Ciphers),
            ("16 ends before the last group", All),
            ("14 not in shortest form", All),
            ("14 third group announces another", All),
            ("15 out of range", All),
            ("16 bytes after the last entry", All),
            ("1", Neither),
            ("4", Ciphers),
            ("5", Ciphers),
            ("13", Ciphers),
            ("6", Ciphers),
        ],
    ),
];

/// Calls of special interest that must occur for both ciphers.
const SPECIAL: [&str; 98] = [
    "cipher of no bytes",
    "cipher from inside a word",
    "cipher past the last word of a table",
    "cipher to the limit",
    "move of 0 bytes",
    "move back past the first word of a table",
    "move from inside a word to inside a word",
    "move to 0",
    "move to the limit",
    "write, groups 1, just enough lent",
    "write, groups 1, one byte too few lent",
    "write, groups 2, just enough lent",
    "write, groups 2, one byte too few lent",
    "write, groups 3, just enough lent",
    "write, groups 3, one byte too few lent",
    "write, groups 4, just enough lent",
    "write, groups 4, one byte too few lent",
    "load where the head had another cipher",
    "13 at position 0",
    "13 inside a word",
    "13 before 6 in cipher",
    "13 before 7 in move",
    "13 before 6 in move",
    "13 before 8 in write",
    "13 before 2 in recover",
    "13 before 3 in recover",
    "set up over a false word",
    "load over a false word",
    "spent of a false word",
    "cipher of no bytes beyond the mark",
    "cipher from beyond the mark",
    "cipher from the mark",
    "cipher behind the mark, which stays",
    "cipher that ends at the mark",
    "cipher from behind the mark, which rises",
    "cipher with a mark over the limit",
    "6 in cipher, mark below the limit",
    "move back to behind the mark",
    "move forward to beyond the mark",
    "set up over another mark than 0",
    "load over a larger mark",
    "load over a smaller mark",
    "spent of a mark over the limit",
    "5 in spent, mark not over the limit",
    "spent, count larger than the position",
    "spent, count equal to the position",
    "spent, count smaller than the position",
    "encipher volume of no entries",
    "encipher volume from inside a word",
    "encipher volume past the last word of a table",
    "encipher volume to the limit",
    "14, 15 or 16 before 4 in encipher volume",
    "14, 15 or 16 before 5 in encipher volume",
    "14, 15 or 16 before 13 in encipher volume",
    "14, 15 or 16 before 6 in encipher volume",
    "13 before 6 in encipher volume",
    "6 in encipher volume, mark below the limit",
    "encipher volume from beyond the mark",
    "encipher volume from the mark",
    "encipher volume behind the mark, which stays",
    "encipher volume that ends at the mark",
    "encipher volume from behind the mark, which rises",
    "encipher volume with a mark over the limit",
    "test load of no calls",
    "test load of 1,000 calls",
    "test load, one call too many",
    "test load, mark larger than the position",
    "test load, mark equal to the position",
    "test load, mark smaller than the position",
    "test load that ends with a move",
    "test load that ends with a cipher call",
    "test load over a false word",
    "test load over another mark than 0",
    "test load where the head had another cipher",
    "test load where the head was over the limit",
    "same run, yes, one position",
    "same run, yes, the first later",
    "same run, yes, the second later",
    "same run, yes, positions of 1 and 2 bytes",
    "same run, yes, positions of 1 and 3 bytes",
    "same run, yes, positions of 2 and 1 bytes",
    "same run, yes, positions of 2 and 3 bytes",
    "same run, yes, positions of 3 and 1 bytes",
    "same run, yes, positions of 3 and 2 bytes",
    "same run, yes, the first at a position of 4 bytes",
    "same run, yes, the second at a position of 4 bytes",
    "same run, yes, two positions in one word",
    "same run, yes, the first at 0",
    "same run, yes, the second at 0",
    "same run, no, one position",
    "same run, no, the first later",
    "same run, no, the second later",
    "same run, no, another key alone",
    "same run, no, another IV alone",
    "same run, no, another key and another IV",
    "same run, no, one bit differs",
    "same run, no, key and IV exchanged",
    "same run, 12 beside the same tables",
];

/// Calls of special interest that must occur where the code names no cipher or the call takes none.
const SPECIAL_WITHOUT_CIPHER: [&str; 132] = [
    "14, 15 or 16 before 1 in encipher volume",
    "write volume of no entries",
    "write volume of 2,000 entries",
    "write volume, just enough lent",
    "write volume, one byte too few lent",
    "write volume, more lent",
    "16 before 15 in write volume",
    "16 before 8 in write volume",
    "15 before 8 in write volume",
    "read volume of no entries",
    "read volume of 2,000 entries",
    "read volume, list just long enough",
    "read volume, list one number short",
    "read volume, longer list",
    "14 before 8 in read volume",
    "15 before 8 in read volume",
    "16 before 8 in read volume",
    "16 for bytes after before 8 in read volume",
    "14 at the end of the string in read volume",
    "volume duty of no entries",
    "volume duty of 2,000 entries",
    "volume duty of 0 on entries",
    "volume duty on all eight products",
    "volume duty, product of more than 32 bits",
    "volume duty, less than the sum cut down",
    "volume duty of more than 32 bits",
    "volume duty where read volume gets 8",
    "14 after entries with duty in volume duty",
    "15 after entries with duty in volume duty",
    "16 after entries with duty in volume duty",
    "bytes after entries with duty in volume duty",
    "14 at the end of the string in volume duty",
    "changed ratio, difference is the bound rounded up",
    "changed ratio, difference one less than the bound",
    "changed ratio, bound over 0 without rounding",
    "changed ratio rises",
    "changed ratio falls",
    "changed ratio in the first of several entries",
    "changed ratio in the last of several entries",
    "changed ratio in an entry between two others",
    "load rates of no pairs",
    "load rates of eight pairs",
    "load rates over another table than ours",
    "load rates with the greatest rate",
    "load rates that takes a rate to 0",
    "load rates that changes nothing",
    "24 in load rates over our rates",
    "25 in load rates over our rates",
    "24 in load rates over another table",
    "25 in load rates over another table",
    "24 before 25 in load rates",
    "25 before 24 in load rates",
    "24 where 25 is earned in load rates",
    "24 for a third group at the end in load rates",
    "25 in the eighth pair in load rates",
    "volume duty, entry of more than 32 bits",
    "volume duty over the greatest under our rates",
    "volume duty other than under our rates",
    "changed ratio under another table than ours",
    "soundness of no entries, sound",
    "soundness of 2,000 entries, sound",
    "soundness of 2,000 entries, cut",
    "soundness of 2,000 entries, hopeless",
    "soundness, cut after two groups of litres",
    "soundness, hopeless at the last byte",
    "soundness, hopeless before the last byte",
    "soundness, several bytes after the last entry",
    "soundness, hopeless earlier than 14 in reading",
    "soundness, hopeless earlier than 15 in reading",
    "soundness, hopeless earlier than 16 in reading",
    "soundness, hopeless in the first of several",
    "soundness, hopeless in the last of several",
    "soundness, hopeless between two other entries",
    "soundness of a completed beginning",
    "soundness of a lengthened hopeless beginning",
    "recordings, counts of 1 and 1 bytes, blender's",
    "recordings, counts of 1 and 1 bytes, gauge's",
    "recordings, counts of 1 and 2 bytes, blender's",
    "recordings, counts of 1 and 2 bytes, gauge's",
    "recordings, counts of 2 and 1 bytes, blender's",
    "recordings, counts of 2 and 1 bytes, gauge's",
    "recordings, counts of 2 and 2 bytes, blender's",
    "recordings, counts of 2 and 2 bytes, gauge's",
    "recordings, no entries in both",
    "recordings, no entries in the blender's alone",
    "recordings, no entries in the gauge's alone",
    "recordings, the same 2,000 entries",
    "recordings, minutes differ, blender's",
    "recordings, litres differ, blender's",
    "recordings, ratio differs, blender's",
    "recordings, ratio differs, gauge's",
    "recordings, product differs, blender's",
    "recordings, several numbers differ, blender's",
    "recordings, several numbers differ, gauge's",
    "recordings, first of several differs, blender's",
    "recordings, first of several differs, gauge's",
    "recordings, one between others differs, blender's",
    "recordings, one between others differs, gauge's",
    "recordings, last of several differs, blender's",
    "recordings, last of several differs, gauge's",
    "recordings, blender's alone ends there, blender's",
    "recordings, blender's alone ends there, gauge's",
    "recordings, gauge's alone ends there, blender's",
    "recordings, gauge's alone ends there, gauge's",
    "recordings, last of 2,000 differs",
    "recordings, smaller ratio, greater bytes, blender's",
    "recordings, smaller ratio, greater bytes, gauge's",
    "recordings, smaller ratio, more litres, blender's",
    "recordings, smaller ratio, more litres, gauge's",
    "recordings, an entry missing in the blender's",
    "recordings, an entry missing in the gauge's",
    "recordings, the same after a different entry",
    "recordings, blender's fault after a difference",
    "recordings, blender's fault before any difference",
    "recordings, gauge's fault after a difference",
    "recordings, gauge's fault before any difference",
    "recordings, one buffer as both",
    "same run, 9 before 23, first alone",
    "same run, 10 before 23, first alone",
    "same run, 5 before 23, first alone",
    "same run, 11 before 23, first alone",
    "same run, 12 before 23, first alone",
    "same run, 9 before 23, second alone",
    "same run, 10 before 23, second alone",
    "same run, 5 before 23, second alone",
    "same run, 11 before 23, second alone",
    "same run, 12 before 23, second alone",
    "same run, apart",
    "same run, the second right behind the first",
    "same run, the first right behind the second",
    "same run, overlapping",
    "same run, one buffer as both",
];

#[derive(Default)]
pub struct Tally {
    counts: BTreeMap<(String, String), [u64; 3]>,
    pub calls: u64,
}

fn column(cipher: Option<Cipher>) -> usize {
    match cipher {
        Some(Cipher::Hc128) => 0,
        Some(Cipher::Hc256) => 1,
        None => 2,
    }
}

impl Tally {
    /// Counts one call and its answer.
    pub fn call(&mut self, call: &str, answer: &str, cipher: Option<Cipher>) {
        self.calls += 1;
        self.counts.entry((call.to_string(), answer.to_string())).or_default()[column(cipher)] += 1;
    }

    /// Counts one call of special interest.
    pub fn special(&mut self, what: &str, cipher: impl Into<Option<Cipher>>) {
        self.counts.entry(("special".to_string(), what.to_string())).or_default()[column(cipher.into())] += 1;
    }

    /// Prints the count and returns what is missing from it or has no place in it.
    pub fn print_and_check(&self) -> Vec<String> {
        let mut faults = Vec::new();
        let mut left = self.counts.clone();
        println!("{:<18} {:<51} {:>8} {:>8} {:>8}", "call", "answer", COLUMNS[0], COLUMNS[1], COLUMNS[2]);
        let of_ciphers = SPECIAL.iter().map(|what| (*what, Ciphers));
        let of_neither = SPECIAL_WITHOUT_CIPHER.iter().map(|what| (*what, Neither));
        let special: Vec<(&str, Where)> = of_ciphers.chain(of_neither).collect();
        let rows = EXPECTED.iter().copied().chain([("special", &special[..])]);
        for (call, answers) in rows {
            for (answer, place) in answers {
                let counts = left.remove(&(call.to_string(), answer.to_string())).unwrap_or_default();
                println!("{:<18} {:<51} {:>8} {:>8} {:>8}", call, answer, counts[0], counts[1], counts[2]);
                for k in 0..3 {
                    let expected = *place == All || (*place == Ciphers) == (k < 2);
                    if expected && counts[k] == 0 {
                        faults.push(format!("never occurred: {call}, {answer}, {}", COLUMNS[k]));
                    }
                    if !expected && counts[k] != 0 {
                        faults.push(format!("must not occur: {call}, {answer}, {}", COLUMNS[k]));
                    }
                }
            }
        }
        for (call, answer) in left.keys() {
            faults.push(format!("must not occur: {call}, {answer}"));
        }
        println!("{} calls", self.calls);
        faults
    }
}
