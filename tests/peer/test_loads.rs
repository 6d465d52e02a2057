//! Cases made by hand about test loads, with the answer that request (h) of document 02 and the C header give for each.

use crate::both::Both;
use crate::calls::{self, Head, FRESH, LIMIT};
use crate::ciphers::{self, Cipher};
use crate::count::Count;
use crate::made::{expect, NO_CIPHER};
use crate::marks::MARK_EDGES;
use crate::random::Random;
use crate::same_runs::{alike, counting, other_cipher, Run};
use crate::tally::Tally;
use crate::test_load::{self, Call};
use crate::whole::must;
use Call::{Cipher as CipherOver, MoveTo};

/// The words of memory for areas, more than the larger cipher needs.
const MEMORY_WORDS: usize = 2_112;

/// The words that the header gives for seed 1, with their calls, and the position and the mark after each.
const EXAMPLE: [(u32, Call, u64, u64); 6] = [
    (0x00042021, CipherOver(2), 2, 2),
    (0x04080601, CipherOver(256), 258, 258),
    (0x9DCCA8C5, CipherOver(166), 424, 424),
    (0x1255994F, CipherOver(253), 677, 677),
    (0x8EF917D1, CipherOver(146), 823, 823),
    (0x2C6F5BD0, MoveTo(3_560), 3_560, 823),
];

/// The counts of the table below.
const COUNTS: [u64; 6] = [1, 2, 3, 10, 999, 1_000];

/// Seeds with the position and the mark at the end of each of these counts, worked out apart from the peer.
const ENDS: [(u32, [(u64, u64); 6]); 15] = [
    (0x00000001, [(2, 2), (258, 258), (424, 424), (442, 3_771), (1_403, 4_812), (1_524, 4_812)]),
    (0x00000002, [(33, 0), (1_537, 0), (3_137, 0), (2_669, 2_669), (1_828, 5_000), (542, 5_000)]),
    (0x00000003, [(7, 7), (194, 194), (382, 382), (4_047, 4_047), (4_194, 4_812), (4_432, 4_812)]),
    (0x00000004, [(66, 0), (3_074, 0), (2_178, 0), (3_852, 3_852), (2_380, 4_685), (2_449, 4_685)]),
    (0x00001000, [(2_176, 0), (2_274, 2_274), (2_824, 2_274), (4_172, 4_172), (2_390, 4_725), (373, 4_725)]),
    (0x00010000, [(2_048, 0), (2_094, 2_094), (656, 2_094), (2_569, 2_569), (405, 4_694), (646, 4_694)]),
    (0x12345678, [(174, 174), (272, 272), (2_658, 272), (1_242, 1_242), (1_734, 4_943), (1_952, 4_943)]),
    (0x55555555, [(4_085, 0), (4_299, 4_299), (2_041, 4_299), (1_691, 4_299), (1_472, 4_861), (209, 4_861)]),
    (0x7FFFFFFF, [(5, 5), (83, 83), (275, 275), (3_080, 2_896), (885, 4_584), (1_431, 4_584)]),
    (0x80000000, [(0, 0), (578, 0), (164, 0), (1_465, 1_465), (2_058, 4_642), (2_106, 4_642)]),
    (0x80000001, [(167, 167), (226, 226), (327, 327), (3_236, 3_236), (3_441, 4_720), (662, 4_720)]),
    (0xAAAAAAAA, [(97, 97), (1_734, 97), (1_913, 1_913), (1_892, 2_722), (2_565, 5_607), (2_592, 5_607)]),
    (0xDEADBEEF, [(102, 102), (2_209, 102), (556, 102), (3_912, 3_912), (1_061, 4_672), (1_273, 4_672)]),
    (0xFFFFFFFE, [(31, 0), (3_583, 0), (2_115, 0), (2_078, 2_272), (3_072, 4_551), (1_793, 4_551)]),
    (0xFFFFFFFF, [(33, 33), (168, 168), (289, 289), (1_273, 4_195), (4_085, 4_609), (4_330, 4_609)]),
];

/// A load's last call: its seed and count, position and mark before the call, the call, and position and mark after it.
type LastCall = (u32, u64, (u64, u64), Call, (u64, u64));

/// Seeds that were searched for, each with a last call of some kind.
const LAST_CALLS: [LastCall; 44] = [
    // The first call is a cipher call over no bytes, over few and over the most.
    (438, 1, (0, 0), CipherOver(0), (0, 0)),
    (540, 1, (0, 0), CipherOver(1), (1, 1)),
    (316, 1, (0, 0), CipherOver(255), (255, 255)),
    (107, 1, (0, 0), CipherOver(256), (256, 256)),
    // The first call is a move, of no bytes or forward.
    (8_738, 1, (0, 0), MoveTo(0), (0, 0)),
    (2_254, 1, (0, 0), MoveTo(1), (1, 0)),
    (4_458, 1, (0, 0), MoveTo(4_094), (4_094, 0)),
    (6_564, 1, (0, 0), MoveTo(4_095), (4_095, 0)),
    // A move to the byte where the engine stands, after a move and after a cipher call.
    (531, 2, (569, 0), MoveTo(569), (569, 0)),
    (681, 3, (217, 217), MoveTo(217), (217, 217)),
    // Moves forward, also by a byte, to the mark and to the last byte.
    (1, 6, (823, 823), MoveTo(3_560), (3_560, 823)),
    (1_179, 3, (1_090, 0), MoveTo(1_091), (1_091, 0)),
    (4_675, 6, (7, 115), MoveTo(115), (115, 115)),
    (1_274, 5, (4_026, 465), MoveTo(4_095), (4_095, 465)),
    // Moves back, also by a byte, to byte 0, and from beyond the farthest byte of a move.
    (1, 7, (3_560, 823), MoveTo(2_445), (2_445, 823)),
    (2_312, 6, (2_257, 3_627), MoveTo(2_256), (2_256, 3_627)),
    (953, 5, (1_830, 2_765), MoveTo(0), (0, 2_765)),
    (16_543, 2, (2_859, 0), MoveTo(0), (0, 0)),
    (41, 8, (4_631, 4_631), MoveTo(2_005), (2_005, 4_631)),
    // A cipher call over no bytes right after a move beyond the mark, which stays, and after a move to behind it.
    (105, 5, (2_592, 140), CipherOver(0), (2_592, 140)),
    (290, 2, (920, 0), CipherOver(0), (920, 0)),
    (18, 5, (110, 288), CipherOver(0), (110, 288)),
    // Cipher calls over one byte or more from beyond the mark.
    (406, 3, (3_054, 242), CipherOver(1), (3_055, 3_055)),
    (1, 9, (3_673, 823), CipherOver(98), (3_771, 3_771)),
    // Cipher calls behind the mark, which end before it, at it and beyond it.
    (8, 8, (1_534, 2_118), CipherOver(11), (1_545, 2_118)),
    (3_900, 7, (2_987, 3_198), CipherOver(210), (3_197, 3_198)),
    (6_289, 4, (3_268, 3_429), CipherOver(161), (3_429, 3_429)),
    (3_706, 4, (62, 80), CipherOver(19), (81, 81)),
    (18, 8, (229, 288), CipherOver(213), (442, 442)),
    // Marks that are larger than the position at the end, equal to it and smaller.
    (1, 10, (3_771, 3_771), MoveTo(442), (442, 3_771)),
    (0xAAAAAAAA, 999, (3_740, 5_607), MoveTo(2_565), (2_565, 5_607)),
    (0xFFFFFFFF, 1_000, (4_085, 4_609), CipherOver(245), (4_330, 4_609)),
    (1, 5, (677, 677), CipherOver(146), (823, 823)),
    (0x7FFFFFFF, 10, (2_896, 2_896), MoveTo(3_080), (3_080, 2_896)),
    // No cipher call over one byte or more. The last one of these has a cipher call over none.
    (2, 1, (0, 0), MoveTo(33), (33, 0)),
    (2, 3, (1_537, 0), MoveTo(3_137), (3_137, 0)),
    (0xFFFFFFFE, 3, (3_583, 0), MoveTo(2_115), (2_115, 0)),
    (32, 3, (1_107, 0), MoveTo(2_772), (2_772, 0)),
    // The longest lists of moves alone and of cipher calls alone with which a load begins, and the calls after them.
    (0xD733508B, 31, (830, 0), MoveTo(1_499), (1_499, 0)),
    (0xD733508B, 32, (1_499, 0), CipherOver(92), (1_591, 1_591)),
    (0x1BA0EFB6, 32, (3_813, 3_813), CipherOver(249), (4_062, 4_062)),
    (0x1BA0EFB6, 33, (4_062, 4_062), MoveTo(1_391), (1_391, 4_062)),
    // The farthest position that any load comes to.
    (0x7F914513, 28, (8_389, 8_389), CipherOver(101), (8_490, 8_490)),
    (0x7F914513, 29, (8_490, 8_490), MoveTo(2_442), (2_442, 8_490)),
];

/// Counts over the most. The lower halves of some are not over it.
const TOO_MANY: [u64; 12] = [
    1_001,
    1_002,
    1_024,
    2_000,
    1 << 16,
    (1 << 16) + 1,
    1 << 32,
    (1 << 32) + 1,
    (1 << 32) + 1_000,
    1 << 63,
    (1 << 63) + 1,
    u64::MAX,
];

/// Position and mark counted from the words alone.
fn counted(seed: u32, count: u64) -> (u64, u64) {
    let mut own = Count::default();
    own.test_load(&test_load::words(seed, count));
    (own.position, own.farthest)
}

/// A made-up head.
fn made_up_head(random: &mut Random) -> Head {
    let codes = [0, 1, 2, 3, 257, 258, u32::MAX];
    let positions = [0, 1, 5, 4_095, LIMIT - 1, LIMIT, LIMIT + 1, 1 << 32, u64::MAX];
    Head {
        code: random.pick(&codes),
        word: random.next() as u32,
        position: random.pick(&positions),
        mark: random.pick(&MARK_EDGES),
    }
}

/// The key and IV of a run as load returns them.
fn words_of(run: &Run) -> ([u32; 8], [u32; 8]) {
    let mut words = ([0; 8], [0; 8]);
    let count = run.key.len() / 4;
    words.0[..count].copy_from_slice(&ciphers::words_of_bytes(&run.key));
    words.1[..count].copy_from_slice(&ciphers::words_of_bytes(&run.iv));
    words
}

/// The first keystream bytes of a run.
fn keystream(run: &Run, bytes: u64) -> Vec<u8> {
    let mut tables = run.tables(0);
    let mut stream = Vec::new();
    for step in 0..calls::steps_at(bytes) {
        ciphers::step(run.cipher, &mut tables, step);
        stream.extend(ciphers::output(run.cipher, &tables, step).to_le_bytes());
    }
    stream
}

/// A load that is accepted and leaves the tables and the word of the run at this position, and this mark. The memory after the
/// area stays.
fn leaves(case: &str, both: &mut Both, run: &Run, seed: u32, count: u64, end: (u64, u64)) -> Result<(), String> {
    let words = run.cipher.area_words();
    let after = both.area[words..].to_vec();
    let case = format!("{case}, seed {seed:#x}, count {count}");
    expect(&case, both.test_load(words, seed, count, run.cipher.code(), &run.key, &run.iv), Ok(()))?;
    let (position, mark) = end;
    let tables = run.tables(position);
    let head = calls::head_at(run.cipher, position, mark, &tables);
    must(both.head == head, &format!("{case}: the head is {:?} and not {head:?}", both.head))?;
    must(both.area == [tables, after].concat(), &format!("{case}: the area has the tables at {position}"))
}

/// A load that is refused and changes neither head nor area. The arguments are seed, count, code, key, IV and words of the area.
fn refused(case: &str, both: &mut Both, arguments: (u32, u64, u32, &[u8], &[u8], usize), refusal: u64) -> Result<(), String> {
    let (seed, count, code, key, iv, words) = arguments;
    let (head, area) = (both.head, both.area.clone());
    expect(case, both.test_load(words, seed, count, code, key, iv), Err(refusal))?;
    must(both.head == head && both.area == area, &format!("{case}: a refused load changes neither head nor area"))
}

/// One call of a load, made by itself.
fn make(case: &str, both: &mut Both, words: usize, call: Call) -> Result<(), String> {
    match call {
        MoveTo(byte) => expect(case, both.move_by(words, test_load::distance(both.head.position, byte)), Ok(())),
        CipherOver(bytes) => expect(case, both.cipher(words, &vec![0; bytes]), Ok(())),
    }
}

/// The example of the header.
fn example(both: &mut Both, run: &Run) -> Result<(), String> {
    leaves("the set up alone", both, run, 1, 0, (0, 0))?;
    let words = test_load::words(1, 6);
    for (k, (word, call, position, mark)) in EXAMPLE.into_iter().enumerate() {
        must(words[k] == word && Call::of(word) == call, &format!("word {k} of seed 1 is {word:#x} and gives {call:?}"))?;
        leaves("the example of the header", both, run, 1, k as u64 + 1, (position, mark))?;
    }
    Ok(())
}

/// The two tables above.
fn worked_out(both: &mut Both, run: &Run) -> Result<(), String> {
    for (seed, ends) in ENDS {
        for (count, end) in COUNTS.into_iter().zip(ends) {
            leaves("the end worked out", both, run, seed, count, end)?;
        }
    }
    for (seed, count, before, call, after) in LAST_CALLS {
        let word = test_load::words(seed, count)[count as usize - 1];
        must(Call::of(word) == call, &format!("call {count} of seed {seed:#x} is {call:?}"))?;
        leaves("before the last call", both, run, seed, count - 1, before)?;
        make("the last call by itself", both, run.cipher.area_words(), call)?;
        let by_itself = (both.head, both.area.clone());
        leaves("after the last call", both, run, seed, count, after)?;
        must((both.head, both.area.clone()) == by_itself, "the last call by itself leaves the same")?;
    }
    // Of the longest list of moves alone, each beginning leaves mark 0.
    for count in 0..=31 {
        let (position, mark) = counted(0xD733508B, count);
        must(mark == 0, "moves alone leave mark 0")?;
        leaves("moves alone", both, run, 0xD733508B, count, (position, 0))?;
    }
    Ok(())
}

/// Seeds that have a single bit, lack one, or are any, with counts from 0 to the most.
fn seeds(both: &mut Both, run: &Run, random: &mut Random) -> Result<(), String> {
    let mut seeds = vec![1, 2, 3, 5, 7, 0xFF, 0x100, 0xFFFF, 0x10000, 0x7FFFFFFF, 0xFFFFFFFF];
    seeds.extend((0..32).flat_map(|bit| [1 << bit, !(1 << bit)]));
    seeds.extend(random.words(60).into_iter().filter(|seed| *seed != 0));
    for (k, seed) in seeds.into_iter().enumerate() {
        let long = [999, 1_000, 100 + random.below(899)][k % 3];
        for count in [0, 1, 2, 3, 10, random.between(4, 60), long] {
            leaves("any seed", both, run, seed, count, counted(seed, count))?;
        }
    }
    Ok(())
}

/// Counts around the most, and those over it whose lower bits are not.
fn counts(both: &mut Both, run: &Run) -> Result<(), String> {
    let (words, code) = (run.cipher.area_words(), run.cipher.code());
    for seed in [1, 2, 0x80000000, 0xFFFFFFFF] {
        for count in [0, 1, 2, 3, 10, 127, 128, 255, 256, 512, 998, 999, 1_000] {
            leaves("a count that is accepted", both, run, seed, count, counted(seed, count))?;
        }
        for count in TOO_MANY {
            refused(&format!("count {count}"), both, (seed, count, code, &run.key, &run.iv, words), 18)?;
        }
    }
    for count in [0, 1, 2, 3, 10, 999, 1_000].into_iter().chain(TOO_MANY) {
        refused(&format!("seed 0, count {count}"), both, (0, count, code, &run.key, &run.iv, words), 17)?;
    }
    Ok(())
}

/// Every combination of right and wrong seeds, counts, codes, keys, IVs and areas. The number is that of the first that is wrong.
fn refusals(both: &mut Both, run: &Run) -> Result<(), String> {
    let (words, bytes, code) = (run.cipher.area_words(), run.cipher.key_bytes(), run.cipher.code());
    let other = other_cipher(run.cipher);
    let seeds = [77, 0];
    let counts = [4, 1_001, 1 << 16, 1 << 32, (1 << 32) + 1, 1 << 63, u64::MAX];
    let codes = [code, 0, 3, 257, u32::MAX];
    let lengths = [bytes, bytes - 1, bytes + 1, 0, other.key_bytes()];
    let areas = [words, words - 1, words + 1, 0, other.area_words()];
    let [long_key, long_iv] = [&run.key, &run.iv].map(|part| part.repeat(3));
    for number in 0..2 * 7 * 5 * 5 * 5 * 5 {
        let mut left = number;
        let mut place = |count: usize| {
            let place = left % count;
            left /= count;
            place
        };
        // The first of each list is right.
        let places = [2, 7, 5, 5, 5, 5].map(|count| place(count));
        let first_wrong = places.into_iter().zip([17, 18, 1, 2, 3, 4]).find(|(place, _)| *place != 0);
        let [seed, count, code, key, iv, area] = places;
        let (key, iv) = (&long_key[..lengths[key]], &long_iv[..lengths[iv]]);
        let arguments = (seeds[seed], counts[count], codes[code], key, iv, areas[area]);
        match first_wrong {
            Some((_, refusal)) => refused(&format!("places {places:?}"), both, arguments, refusal)?,
            None => {
                leaves("nothing is wrong", both, run, seeds[0], counts[0], counted(seeds[0], counts[0]))?;
                both.put_head(Head { code: 3, word: 0x1234_8765, position: LIMIT + 5, mark: 99 });
            }
        }
    }
    for code in NO_CIPHER {
        refused(&format!("code {code:#x}"), both, (9, 9, code, &run.key, &run.iv, words), 1)?;
        refused(&format!("count, then code {code:#x}"), both, (9, 1_001, code, &run.key, &run.iv, words), 18)?;
        refused(&format!("seed, then code {code:#x}"), both, (0, 9, code, &run.key, &run.iv, words), 17)?;
    }
    Ok(())
}

/// Any head and any area: accepted loads do not look at them, and refused ones leave them.
fn any_head_and_area(both: &mut Both, run: &Run, random: &mut Random) -> Result<(), String> {
    let cipher = run.cipher;
    let (words, code) = (cipher.area_words(), cipher.code());
    let (key, iv) = (&run.key[..], &run.iv[..]);
    let mut heads = vec![FRESH, Head { code, word: 0, position: 0, mark: 0 }];
    for position in [0, 5, 4_095, LIMIT, LIMIT + 1, u64::MAX] {
        heads.extend([0, 1, 2, 3, u32::MAX].map(|code| Head { code, word: 0x5EED_0001, position, mark: 9_000 }));
    }
    heads.extend(MARK_EDGES.map(|mark| Head { code, word: 7, position: 3, mark }));
    heads.extend((0..30).map(|_| made_up_head(random)));
    let own = run.tables(3_560);
    heads.push(calls::head_at(cipher, 3_560, 823, &own));
    let of_other = counting(other_cipher(cipher), 0x41, 0xC1).tables(77);
    let mut areas = [vec![0; MEMORY_WORDS], vec![u32::MAX; MEMORY_WORDS], random.words(MEMORY_WORDS), own, of_other];
    for area in &mut areas {
        area.resize(MEMORY_WORDS, 5);
    }
    for (k, head) in heads.into_iter().enumerate() {
        for area in &areas {
            both.put_head(head);
            both.put_area(area);
            let case = format!("over {head:?}");
            refused(&format!("17 {case}"), both, (0, 5, code, key, iv, words), 17)?;
            refused(&format!("18 {case}"), both, (5, 1_001, code, key, iv, words), 18)?;
            refused(&format!("1 {case}"), both, (5, 5, 256 + code, key, iv, words), 1)?;
            refused(&format!("2 {case}"), both, (5, 5, code, &key[1..], iv, words), 2)?;
            refused(&format!("3 {case}"), both, (5, 5, code, key, &iv[1..], words), 3)?;
            refused(&format!("4 {case}"), both, (5, 5, code, key, iv, words - 1), 4)?;
            let (seed, count) = [(1, 6), (2, 3), (105, 5), (1, 0), (438, 1)][k % 5];
            leaves(&case, both, run, seed, count, counted(seed, count))?;
        }
    }
    Ok(())
}

/// What the other calls make of an engine after a load.
fn afterwards(both: &mut Both, run: &Run, random: &mut Random) -> Result<(), String> {
    let cipher = run.cipher;
    let (words, bytes) = (cipher.area_words(), cipher.key_bytes());
    let stream = keystream(run, 10_000);
    expect("set up", both.set_up(words, cipher.code(), &run.key, &run.iv), Ok(()))?;
    let plain = both.write(words, &[9; 8_197])?.map_err(|_| "write refused")?;
    let another = counting(cipher, 0x11, 0x90).at(0);
    let of_other = counting(other_cipher(cipher), 0x10, 0x90).at(0);
    let others = [(plain, Ok(true)), (another, Ok(false)), (of_other, Err(23))];
    let mut loads: Vec<(u32, u64)> = LAST_CALLS.iter().map(|(seed, count, ..)| (*seed, *count)).collect();
    loads.extend([(1, 0), (1, 1_000), (2, 1_000), (0x80000000, 999)]);
    loads.extend((0..25).map(|_| (random.between(1, u32::MAX as u64) as u32, random.below(100))));
    for (seed, count) in loads {
        let case = |what: &str| format!("{what} after the load of seed {seed:#x} and count {count}");
        let (position, mark) = counted(seed, count);
        leaves(&case("head and area"), both, run, seed, count, (position, mark))?;
        let left = (both.head, both.area.clone());
        let string = run.at(position);
        expect(&case("spent"), both.spent(), Ok(mark))?;
        expect(&case("checkpoint length"), both.checkpoint_length(cipher.code(), position), Ok(string.len()))?;
        expect(&case("write into a byte too few"), both.write(words, &random.bytes(string.len() - 1)), Err(8))?;
        expect(&case("write"), both.write(words, &random.bytes(string.len())), Ok(string.clone()))?;
        let key_and_iv = (run.key.clone(), run.iv.clone());
        expect(&case("recover"), both.recover(words, &random.bytes(bytes), &random.bytes(bytes)), Ok(key_and_iv))?;
        for (other, same) in &others {
            expect(&case("same run"), both.same_run(&string, other), *same)?;
            expect(&case("same run, swapped"), both.same_run(other, &string), *same)?;
        }
        must((both.head, both.area.clone()) == left, &case("these calls leave head and area"))?;
        let length = random.pick(&[1, 4, 5, 300]);
        let text = random.bytes(length);
        let from = position as usize;
        let ciphered: Vec<u8> = text.iter().zip(&stream[from..]).map(|(byte, of_stream)| byte ^ of_stream).collect();
        let end = position + text.len() as u64;
        expect(&case("cipher"), both.ciphered(words, &text), Ok(ciphered))?;
        must((both.head.position, both.head.mark) == (end, mark.max(end)), &case("position and mark of a cipher call"))?;
        expect(&case("load of what was written"), both.load(words, &string), Ok(words_of(run)))?;
        let loaded = calls::head_at(cipher, position, position, &left.1[..words]);
        must((both.head, &both.area) == (loaded, &left.1), &case("the same area, and the position as mark, once loaded"))?;
        expect(&case("move to 0"), both.move_by(words, -(position as i64)), Ok(()))?;
        must(both.area[..words] == run.tables(0), &case("the tables of the set up at 0"))?;
    }
    Ok(())
}

/// Loads on two engines that have nothing in common, and on one engine twice, leave the same.
fn repeated(run: &Run, random: &mut Random, tally: &mut Tally) -> Result<(), String> {
    let words = run.cipher.area_words();
    let mut run_on = |head: Head, memory: Vec<u32>, seed: u32, count: u64| -> Result<(Head, Vec<u32>), String> {
        let mut both = Both::new(head, memory, tally);
        let mut left = Vec::new();
        for time in ["once", "twice"] {
            expect(time, both.test_load(words, seed, count, run.cipher.code(), &run.key, &run.iv), Ok(()))?;
            left.push((both.head, both.area[..words].to_vec()));
        }
        must(left[0] == left[1], &format!("the load of seed {seed:#x} and count {count} on one engine twice leaves the same"))?;
        Ok(left.remove(0))
    };
    for count in [0, 1, 2, 3, 10, 35, 60, 100, 1_000] {
        for seed in [1, 2, 0xFFFFFFFF, random.next() as u32 | 1] {
            let first = run_on(FRESH, vec![0; words], seed, count)?;
            let second = run_on(made_up_head(random), random.words(words + 9), seed, count)?;
            must(first == second, &format!("the load of seed {seed:#x} and count {count} on two engines leaves the same"))?;
        }
    }
    Ok(())
}

/// A load of m and n calls against one of m calls, from whose last word n more are made one by one. Where m is 0, a set up takes
/// the place of the shorter load, too.
fn gone_on(both: &mut Both, run: &Run, random: &mut Random) -> Result<(), String> {
    let (words, code) = (run.cipher.area_words(), run.cipher.code());
    for seed in [1, 2, 0x80000000, 0x7F914513, random.next() as u32 | 1] {
        for (m, n) in [(0, 0), (0, 1), (1, 0), (1, 1), (2, 3), (0, 10), (7, 33), (30, 5), (500, 500), (999, 1), (0, 1_000)] {
            let case = format!("{m} calls and {n} more from seed {seed:#x}");
            leaves(&case, both, run, seed, m + n, counted(seed, m + n))?;
            let whole = (both.head, both.area.clone());
            for by_set_up in [false, true].into_iter().take(if m == 0 { 2 } else { 1 }) {
                both.put_head(made_up_head(random));
                if by_set_up {
                    expect(&case, both.set_up(words, code, &run.key, &run.iv), Ok(()))?;
                } else {
                    leaves(&case, both, run, seed, m, counted(seed, m))?;
                }
                let last = test_load::words(seed, m).pop().unwrap_or(seed);
                for word in test_load::words(last, n) {
                    make(&case, both, words, Call::of(word))?;
                }
                must((both.head, &both.area) == (whole.0, &whole.1), &format!("{case} leave what the whole load leaves"))?;
            }
        }
    }
    Ok(())
}

/// All made cases about test loads; the result is the text of the first difference.
pub fn run(random: &mut Random, tally: &mut Tally) -> Result<(), String> {
    for cipher in [Cipher::Hc128, Cipher::Hc256] {
        let runs = [counting(cipher, 0x10, 0x90), alike(cipher, 0x00, 0x00)];
        let mut both = Both::new(made_up_head(random), random.words(MEMORY_WORDS), tally);
        for run in &runs {
            example(&mut both, run)?;
            worked_out(&mut both, run)?;
        }
        let run = &runs[0];
        seeds(&mut both, run, random)?;
        counts(&mut both, run)?;
        refusals(&mut both, run)?;
        any_head_and_area(&mut both, run, random)?;
        afterwards(&mut both, run, random)?;
        gone_on(&mut both, run, random)?;
        repeated(run, random, tally)?;
    }
    Ok(())
}
