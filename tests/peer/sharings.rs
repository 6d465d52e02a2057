//! Cases made by hand about four lines on one stream, with the answer that request (i) of document 02 and the C header give for
//! each.

use crate::both::Both;
use crate::calls::{self, Head, FRESH, LIMIT};
use crate::ciphers::Cipher;
use crate::made::{expect, NO_CIPHER};
use crate::random::Random;
use crate::same_runs::{counting, Run};
use crate::sharing::{Account, CLOSED, LINES};
use crate::tally::Tally;
use crate::test_loads::words_of;
use crate::vectors;
use crate::volumes::EXAMPLE_VOLUME;
use crate::whole::must;

/// The largest number of 64 bits.
const MAX: u64 = u64::MAX;

/// 2^32 and 2^63.
const HALF: u64 = 1 << 32;
const TOP: u64 = 1 << 63;

/// Positions up to this one are reached with a true key; beyond it the tables are any.
const NEAR: u64 = 100_000;

/// A position, shares, and the common part that an opening there leaves, or its refusal. The position is the first number, in
/// bytes before the limit where that is negative.
type Opening = (i64, [u64; LINES], Result<u64, u64>);

/// Openings. Each is made with the shares in every order.
const OPENINGS: [Opening; 56] = [
    // At 0, where 67,108,864 bytes are left.
    (0, [0, 0, 0, 0], Ok(67_108_864)),
    (0, [1_000, 1_000, 500, 0], Ok(67_106_364)),
    (0, [16_777_216, 16_777_216, 16_777_216, 16_777_216], Ok(0)),
    (0, [16_777_215, 16_777_216, 16_777_216, 16_777_216], Ok(1)),
    (0, [16_777_217, 16_777_216, 16_777_216, 16_777_216], Err(20)),
    (0, [67_108_864, 0, 0, 0], Ok(0)),
    (0, [67_108_863, 0, 0, 0], Ok(1)),
    (0, [67_108_863, 1, 0, 0], Ok(0)),
    (0, [67_108_863, 1, 1, 0], Err(20)),
    (0, [67_108_865, 0, 0, 0], Err(20)),
    (0, [67_108_864, 1, 0, 0], Err(20)),
    (0, [67_108_864, 0, 0, MAX], Err(20)),
    (0, [67_108_000, 800, 60, 4], Ok(0)),
    (0, [67_108_000, 800, 60, 3], Ok(1)),
    (0, [67_108_000, 800, 60, 5], Err(20)),
    // The sum does not fit 64 bits; cut to 64 it would be 0, small, or just what is left.
    (0, [TOP, TOP, 0, 0], Err(20)),
    (0, [TOP, TOP, 5, 6], Err(20)),
    (0, [TOP, TOP, 67_108_864, 0], Err(20)),
    (0, [TOP, TOP, 67_108_865, 0], Err(20)),
    (0, [MAX, 1, 0, 0], Err(20)),
    (0, [MAX, 1, 1_000, 0], Err(20)),
    (0, [MAX, 67_108_865, 0, 0], Err(20)),
    (0, [MAX, MAX, 2, 5], Err(20)),
    (0, [MAX, MAX, MAX, MAX], Err(20)),
    (0, [MAX, MAX, MAX, 3], Err(20)),
    (0, [TOP / 2, TOP / 2, TOP / 2, TOP / 2], Err(20)),
    (0, [TOP, TOP - 1, 1, 0], Err(20)),
    // It fits 64 bits, but not 32 or 63.
    (0, [HALF, 0, 0, 0], Err(20)),
    (0, [HALF + 7, 0, 0, 1], Err(20)),
    (0, [HALF - 1, 1, 0, 0], Err(20)),
    (0, [TOP, 0, 0, 0], Err(20)),
    (0, [TOP + 9, 0, 0, 1], Err(20)),
    (0, [MAX, 0, 0, 0], Err(20)),
    // Inside a word: 67,108,859 bytes are left at 5.
    (5, [0, 0, 0, 0], Ok(67_108_859)),
    (5, [1, 2, 3, 67_108_853], Ok(0)),
    (5, [1, 2, 3, 67_108_852], Ok(1)),
    (5, [1, 2, 3, 67_108_854], Err(20)),
    (5, [67_108_859, 0, 0, 0], Ok(0)),
    (5, [67_108_860, 0, 0, 0], Err(20)),
    // 67,104,767 bytes are left at 4,097.
    (4_097, [0, 4_767, 100_000, 67_000_000], Ok(0)),
    (4_097, [0, 4_768, 100_000, 67_000_000], Err(20)),
    (4_097, [0, 767, 100_000, 67_000_000], Ok(4_000)),
    // Ten bytes before the limit.
    (-10, [0, 0, 0, 0], Ok(10)),
    (-10, [1, 2, 3, 4], Ok(0)),
    (-10, [1, 2, 3, 3], Ok(1)),
    (-10, [1, 2, 3, 5], Err(20)),
    (-10, [11, 0, 0, 0], Err(20)),
    (-10, [TOP, TOP, 10, 0], Err(20)),
    // A byte before it.
    (-1, [0, 0, 0, 0], Ok(1)),
    (-1, [1, 0, 0, 0], Ok(0)),
    (-1, [1, 1, 0, 0], Err(20)),
    (-1, [MAX, 2, 0, 0], Err(20)),
    // At the limit only shares of 0 fit.
    (LIMIT as i64, [0, 0, 0, 0], Ok(0)),
    (LIMIT as i64, [1, 0, 0, 0], Err(20)),
    (LIMIT as i64, [TOP, TOP, 0, 0], Err(20)),
    (LIMIT as i64, [MAX, 1, 0, 0], Err(20)),
];

/// A draw: its line, its bytes, its refusal or 0, and the shares and the common part that are then left.
type Draw = (u64, usize, u64, [u64; LINES], u64);

/// A sharing: the position, as above, the shares, the common part, and draws one after the other.
type Sharing = (i64, [u64; LINES], u64, &'static [Draw]);

const SHARINGS: [Sharing; 14] = [
    // A line without a share takes all of the common part. The others can still draw all of theirs, to the limit with the last
    // byte.
    (
        -100,
        [10, 20, 30, 0],
        40,
        &[
            (3, 41, 20, [10, 20, 30, 0], 40),
            (3, 40, 0, [10, 20, 30, 0], 0),
            (3, 1, 20, [10, 20, 30, 0], 0),
            (3, 0, 0, [10, 20, 30, 0], 0),
            (0, 11, 20, [10, 20, 30, 0], 0),
            (0, 10, 0, [0, 20, 30, 0], 0),
            (0, 1, 20, [0, 20, 30, 0], 0),
            (0, 0, 0, [0, 20, 30, 0], 0),
            (1, 21, 20, [0, 20, 30, 0], 0),
            (1, 20, 0, [0, 0, 30, 0], 0),
            (2, 31, 6, [0, 0, 30, 0], 0),
            (2, 29, 0, [0, 0, 1, 0], 0),
            (1, 1, 20, [0, 0, 1, 0], 0),
            (2, 2, 6, [0, 0, 1, 0], 0),
            (2, 1, 0, [0, 0, 0, 0], 0),
            (0, 0, 0, [0, 0, 0, 0], 0),
            (1, 0, 0, [0, 0, 0, 0], 0),
            (2, 0, 0, [0, 0, 0, 0], 0),
            (3, 0, 0, [0, 0, 0, 0], 0),
            (4, 0, 19, [0, 0, 0, 0], 0),
            (0, 1, 6, [0, 0, 0, 0], 0),
            (3, 1, 6, [0, 0, 0, 0], 0),
            (4, 1, 6, [0, 0, 0, 0], 0),
        ],
    ),
    // A line with a share takes that and the whole common part in one draw.
    (
        -100,
        [10, 20, 30, 0],
        40,
        &[
            (0, 51, 20, [10, 20, 30, 0], 40),
            (0, 50, 0, [0, 20, 30, 0], 0),
            (0, 1, 20, [0, 20, 30, 0], 0),
            (3, 1, 20, [0, 20, 30, 0], 0),
            (3, 0, 0, [0, 20, 30, 0], 0),
            (1, 20, 0, [0, 0, 30, 0], 0),
            (2, 30, 0, [0, 0, 0, 0], 0),
            (2, 0, 0, [0, 0, 0, 0], 0),
        ],
    ),
    // The last line does.
    (
        -100,
        [10, 20, 0, 30],
        40,
        &[
            (3, 29, 0, [10, 20, 0, 1], 40),
            (3, 42, 20, [10, 20, 0, 1], 40),
            (3, 41, 0, [10, 20, 0, 0], 0),
            (2, 1, 20, [10, 20, 0, 0], 0),
            (1, 20, 0, [10, 0, 0, 0], 0),
            (0, 9, 0, [1, 0, 0, 0], 0),
            (1, 1, 20, [1, 0, 0, 0], 0),
            (0, 1, 0, [0, 0, 0, 0], 0),
        ],
    ),
    // One byte at a time.
    (
        -10,
        [3, 2, 1, 0],
        4,
        &[
            (3, 1, 0, [3, 2, 1, 0], 3),
            (0, 1, 0, [2, 2, 1, 0], 3),
            (1, 1, 0, [2, 1, 1, 0], 3),
            (2, 1, 0, [2, 1, 0, 0], 3),
            (2, 1, 0, [2, 1, 0, 0], 2),
            (1, 1, 0, [2, 0, 0, 0], 2),
            (1, 1, 0, [2, 0, 0, 0], 1),
            (3, 1, 0, [2, 0, 0, 0], 0),
            (3, 1, 20, [2, 0, 0, 0], 0),
            (2, 1, 20, [2, 0, 0, 0], 0),
            (1, 1, 20, [2, 0, 0, 0], 0),
            (0, 3, 6, [2, 0, 0, 0], 0),
            (0, 1, 0, [1, 0, 0, 0], 0),
            (1, 1, 20, [1, 0, 0, 0], 0),
            (0, 1, 0, [0, 0, 0, 0], 0),
            (0, 1, 6, [0, 0, 0, 0], 0),
        ],
    ),
    // One line has a share; a draw takes the rest of it and some of the common part.
    (
        -12,
        [5, 0, 0, 0],
        7,
        &[
            (0, 3, 0, [2, 0, 0, 0], 7),
            (0, 4, 0, [0, 0, 0, 0], 5),
            (0, 6, 6, [0, 0, 0, 0], 5),
            (1, 2, 0, [0, 0, 0, 0], 3),
            (0, 3, 0, [0, 0, 0, 0], 0),
        ],
    ),
    // No common part.
    (
        -100,
        [25, 25, 25, 25],
        0,
        &[
            (0, 26, 20, [25, 25, 25, 25], 0),
            (1, 26, 20, [25, 25, 25, 25], 0),
            (2, 26, 20, [25, 25, 25, 25], 0),
            (3, 26, 20, [25, 25, 25, 25], 0),
            (0, 100, 20, [25, 25, 25, 25], 0),
            (0, 101, 6, [25, 25, 25, 25], 0),
            (0, 25, 0, [0, 25, 25, 25], 0),
            (0, 1, 20, [0, 25, 25, 25], 0),
            (1, 24, 0, [0, 1, 25, 25], 0),
            (1, 2, 20, [0, 1, 25, 25], 0),
            (2, 25, 0, [0, 1, 0, 25], 0),
            (3, 25, 0, [0, 1, 0, 0], 0),
            (3, 1, 20, [0, 1, 0, 0], 0),
            (1, 1, 0, [0, 0, 0, 0], 0),
        ],
    ),
    // Nothing but a common part.
    (
        -100,
        [0, 0, 0, 0],
        100,
        &[
            (0, 101, 6, [0, 0, 0, 0], 100),
            (4, 100, 19, [0, 0, 0, 0], 100),
            (2, 60, 0, [0, 0, 0, 0], 40),
            (1, 41, 6, [0, 0, 0, 0], 40),
            (1, 40, 0, [0, 0, 0, 0], 0),
            (3, 0, 0, [0, 0, 0, 0], 0),
            (5, 0, 19, [0, 0, 0, 0], 0),
        ],
    ),
    // A line takes its share and the common part, and with that all of the stream.
    (-20, [0, 10, 0, 0], 10, &[(1, 21, 6, [0, 10, 0, 0], 10), (1, 20, 0, [0, 0, 0, 0], 0), (1, 0, 0, [0, 0, 0, 0], 0)]),
    // Several turns of the tables.
    (
        -9_000,
        [3_000, 3_000, 1_000, 0],
        2_000,
        &[
            (0, 5_001, 20, [3_000, 3_000, 1_000, 0], 2_000),
            (0, 4_000, 0, [0, 3_000, 1_000, 0], 1_000),
            (3, 1_001, 20, [0, 3_000, 1_000, 0], 1_000),
            (3, 1_000, 0, [0, 3_000, 1_000, 0], 0),
            (1, 3_000, 0, [0, 0, 1_000, 0], 0),
            (1, 1, 20, [0, 0, 1_000, 0], 0),
            (2, 1_001, 6, [0, 0, 1_000, 0], 0),
            (2, 1_000, 0, [0, 0, 0, 0], 0),
        ],
    ),
    // From 0, where all but five bytes belong to a line.
    (
        0,
        [4, 3, 2, 67_108_850],
        5,
        &[
            (0, 10, 20, [4, 3, 2, 67_108_850], 5),
            (0, 9, 0, [0, 3, 2, 67_108_850], 0),
            (1, 4, 20, [0, 3, 2, 67_108_850], 0),
            (1, 3, 0, [0, 0, 2, 67_108_850], 0),
            (2, 3, 20, [0, 0, 2, 67_108_850], 0),
            (2, 2, 0, [0, 0, 0, 67_108_850], 0),
            (3, 1_000, 0, [0, 0, 0, 67_107_850], 0),
            (0, 1, 20, [0, 0, 0, 67_107_850], 0),
            (0, 0, 0, [0, 0, 0, 67_107_850], 0),
            (3, 2_048, 0, [0, 0, 0, 67_105_802], 0),
            (1, 50_000, 20, [0, 0, 0, 67_105_802], 0),
        ],
    ),
    // From inside a word, with a byte for each line.
    (
        5,
        [1, 1, 1, 1],
        67_108_855,
        &[
            (0, 1, 0, [0, 1, 1, 1], 67_108_855),
            (0, 1, 0, [0, 1, 1, 1], 67_108_854),
            (1, 3, 0, [0, 0, 1, 1], 67_108_852),
            (2, 1, 0, [0, 0, 0, 1], 67_108_852),
            (3, 5_000, 0, [0, 0, 0, 0], 67_103_853),
            (2, 10, 0, [0, 0, 0, 0], 67_103_843),
        ],
    ),
    // The example of the header.
    (
        0,
        [1_000, 1_000, 500, 0],
        67_106_364,
        &[
            (2, 400, 0, [1_000, 1_000, 100, 0], 67_106_364),
            (2, 101, 0, [1_000, 1_000, 0, 0], 67_106_363),
            (3, 63, 0, [1_000, 1_000, 0, 0], 67_106_300),
            (0, 1_000, 0, [0, 1_000, 0, 0], 67_106_300),
            (1, 1_300, 0, [0, 0, 0, 0], 67_106_000),
        ],
    ),
    (
        -1,
        [0, 0, 0, 1],
        0,
        &[
            (0, 1, 20, [0, 0, 0, 1], 0),
            (1, 1, 20, [0, 0, 0, 1], 0),
            (2, 1, 20, [0, 0, 0, 1], 0),
            (3, 2, 6, [0, 0, 0, 1], 0),
            (3, 1, 0, [0, 0, 0, 0], 0),
        ],
    ),
    (
        LIMIT as i64,
        [0, 0, 0, 0],
        0,
        &[
            (0, 0, 0, [0, 0, 0, 0], 0),
            (1, 0, 0, [0, 0, 0, 0], 0),
            (2, 0, 0, [0, 0, 0, 0], 0),
            (3, 0, 0, [0, 0, 0, 0], 0),
            (4, 0, 19, [0, 0, 0, 0], 0),
            (0, 1, 6, [0, 0, 0, 0], 0),
            (4, 1, 6, [0, 0, 0, 0], 0),
        ],
    ),
];

/// Numbers in `opened` that mean open.
const OPEN: [u64; 12] = [1, 2, 3, 255, 256, 1 << 16, 1 << 31, HALF, HALF + 1, TOP, TOP + 1, MAX];

/// Made-up accounts with a draw at a position where many bytes are left: the share of the line, that of each other line, the
/// common part, the bytes, and then the share of the line and the common part, or the refusal.
type MadeUp = (u64, u64, u64, usize, Result<(u64, u64), u64>);

const MADE_UP: [MadeUp; 40] = [
    (MAX, MAX, MAX, 0, Ok((MAX, MAX))),
    (MAX, MAX, MAX, 5, Ok((MAX - 5, MAX))),
    (MAX, 0, 0, 5, Ok((MAX - 5, 0))),
    (0, 0, MAX, 5, Ok((0, MAX - 5))),
    (0, MAX, MAX, 5, Ok((0, MAX - 5))),
    // Share and common part do not fit 64 bits together; cut to 64 they would be 0, small or fewer than are drawn.
    (MAX, 0, 1, 1, Ok((MAX - 1, 1))),
    (MAX, 0, 1, 3, Ok((MAX - 3, 1))),
    (MAX, 0, 2, 2, Ok((MAX - 2, 2))),
    (MAX, 7, 3, 3, Ok((MAX - 3, 3))),
    (1, 0, MAX, 1, Ok((0, MAX))),
    (1, 0, MAX, 5, Ok((0, MAX - 4))),
    (3, 0, MAX, 2, Ok((1, MAX))),
    (3, 0, MAX, 3, Ok((0, MAX))),
    (3, 0, MAX, 4, Ok((0, MAX - 1))),
    (5, 0, MAX - 2, 5, Ok((0, MAX - 2))),
    (5, 0, MAX - 2, 6, Ok((0, MAX - 3))),
    (TOP, 0, TOP, 7, Ok((TOP - 7, TOP))),
    (TOP, TOP, TOP, 1, Ok((TOP - 1, TOP))),
    (TOP + 1, 9, TOP - 1, 2, Ok((TOP - 1, TOP - 1))),
    // They fit 64 bits, but not 32 or 63.
    (HALF, 0, 0, 3, Ok((HALF - 3, 0))),
    (0, 0, HALF, 3, Ok((0, HALF - 3))),
    (HALF + 1, 0, HALF, 2, Ok((HALF - 1, HALF))),
    (1, 0, HALF, 2, Ok((0, HALF - 1))),
    (HALF - 1, 0, 1, 5, Ok((HALF - 6, 1))),
    (TOP, 0, 0, 4, Ok((TOP - 4, 0))),
    (0, 0, TOP, 4, Ok((0, TOP - 4))),
    (TOP - 1, 0, 1, 4, Ok((TOP - 5, 1))),
    // Fewer than are left of the stream.
    (0, 0, 0, 0, Ok((0, 0))),
    (0, 0, 0, 1, Err(20)),
    (0, MAX, 0, 0, Ok((0, 0))),
    (0, MAX, 0, 1, Err(20)),
    (2, MAX, 1, 3, Ok((0, 0))),
    (2, MAX, 1, 4, Err(20)),
    (3, 0, 0, 3, Ok((0, 0))),
    (3, 0, 0, 4, Err(20)),
    (0, 0, 3, 3, Ok((0, 0))),
    (0, 0, 3, 4, Err(20)),
    (0, 5, 2, 3, Err(20)),
    (1, 5, 2, 2, Ok((0, 1))),
    (4, 5, 2, 2, Ok((2, 2))),
];

/// Lines over 3; the lowest bits of most name one.
const NO_LINE: [u64; 18] =
    [4, 5, 6, 7, 8, 255, 256, 257, 1 << 16, (1 << 16) + 1, HALF - 1, HALF, HALF + 1, HALF + 3, TOP, TOP + 2, MAX - 1, MAX];

/// Closed accounts whose other numbers are not 0.
const CLOSED_WITH_NUMBERS: [Account; 6] = [
    Account { opened: 0, shares: [1, 2, 3, 4], common: 5 },
    Account { opened: 0, shares: [MAX; LINES], common: MAX },
    Account { opened: 0, shares: [0; LINES], common: 1_000 },
    Account { opened: 0, shares: [1_000, 0, 0, 0], common: 0 },
    Account { opened: 0, shares: [0, 0, 0, HALF], common: TOP },
    Account { opened: 0, shares: [16_777_216; LINES], common: 0 },
];

/// Volumes that enciphering refuses, and one that it takes.
const VOLUMES: [(&[u8], u64); 7] = [
    (&EXAMPLE_VOLUME, 0),
    (&[], 16),
    (&[0x80, 0x00], 14),
    (&[0x01, 0x00, 0x80, 0x80, 0x80, 0x01], 14),
    (&[0x01, 0x00, 0x01, 0x01, 0x09], 15),
    (&[0x02, 0x00], 16),
    (&[0x00, 0x00], 16),
];

/// The position that a number of the tables above means.
fn position_of(number: i64) -> u64 {
    if number < 0 {
        (LIMIT as i64 + number) as u64
    } else {
        number as u64
    }
}

/// Every order of four numbers.
fn orders(numbers: [u64; LINES]) -> Vec<[u64; LINES]> {
    let mut orders = Vec::new();
    for a in 0..4 {
        for b in (0..4).filter(|b| *b != a) {
            for c in (0..4).filter(|c| *c != a && *c != b) {
                orders.push([a, b, c, 6 - a - b - c].map(|place| numbers[place]));
            }
        }
    }
    orders.sort();
    orders.dedup();
    orders
}

/// The engine of a run at a position with a mark: its head and its tables, which are any where the position is far.
fn engine(run: &Run, position: u64, mark: u64, random: &mut Random) -> (Head, Vec<u32>) {
    let tables = if position <= NEAR { run.tables(position) } else { random.words(run.cipher.area_words()) };
    (calls::head_at(run.cipher, position, mark, &tables), tables)
}

/// Both sides with that engine and one word of memory more than the area has, and no sharing.
fn both_at<'t>(run: &Run, position: u64, mark: u64, random: &mut Random, tally: &'t mut Tally) -> Both<'t> {
    let (head, tables) = engine(run, position, mark, random);
    Both::new(head, [tables, vec![random.next() as u32]].concat(), tally)
}

/// What a case must leave: the head, the area and the share account.
fn left_of(both: &Both) -> (Head, Vec<u32>, Account) {
    (both.head, both.area.clone(), both.account)
}

/// A call that is refused and leaves head, area and share account.
fn is_refused(
    case: &str,
    both: &mut Both,
    refusal: u64,
    call: impl FnOnce(&mut Both) -> Result<Result<(), u64>, String>,
) -> Result<(), String> {
    let before = left_of(both);
    expect(case, call(both), Err(refusal))?;
    must(left_of(both) == before, &format!("{case}: a refused call changes neither head nor area nor share account"))
}

/// The share account against the expected one.
fn expect_account(case: &str, both: &Both, expected: Account) -> Result<(), String> {
    must(both.account == expected, &format!("{case}: the share account is {:?} and not {expected:?}", both.account))
}

/// Each of the six calls and a second opening, right in everything else, is refused with 21.
fn six_refused(case: &str, both: &mut Both, run: &Run) -> Result<(), String> {
    let (words, code) = (run.cipher.area_words(), run.cipher.code());
    let (key, iv) = (&run.key[..], &run.iv[..]);
    is_refused(&format!("set up, {case}"), both, 21, |both| both.set_up(words, code, key, iv))?;
    for count in [0, 1, 9] {
        is_refused(&format!("cipher, {case}"), both, 21, |both| both.cipher(words, &vec![0x5A; count]))?;
    }
    for distance in [0, 1, -1, i64::MIN, i64::MAX] {
        is_refused(&format!("move, {case}"), both, 21, |both| both.move_by(words, distance))?;
    }
    let string = run.at(5);
    is_refused(&format!("load, {case}"), both, 21, |both| Ok(both.load(words, &string)?.map(|_| ())))?;
    for count in [0, 3] {
        is_refused(&format!("test load, {case}"), both, 21, |both| both.test_load(words, 1, count, code, key, iv))?;
    }
    is_refused(&format!("encipher volume, {case}"), both, 21, |both| {
        Ok(both.encipher_volume(words, &EXAMPLE_VOLUME)?.map(|_| ()))
    })?;
    for shares in [[0; LINES], [1, 2, 3, 4]] {
        is_refused(&format!("second opening, {case}"), both, 21, |both| both.open_sharing(words, shares))?;
    }
    Ok(())
}

/// Each of the six calls is accepted, at a position of at least 5 and a few bytes before the limit.
fn six_accepted(case: &str, both: &mut Both, run: &Run, account: Account) -> Result<(), String> {
    let (words, code) = (run.cipher.area_words(), run.cipher.code());
    both.put_account(account);
    expect(&format!("cipher, {case}"), both.cipher(words, &[1, 2, 3]), Ok(()))?;
    expect(&format!("move, {case}"), both.move_by(words, -3), Ok(()))?;
    expect(&format!("load, {case}"), both.load(words, &run.at(5)), Ok(words_of(run)))?;
    expect(&format!("encipher volume, {case}"), both.encipher_volume(words, &EXAMPLE_VOLUME).map(|a| a.map(|_| ())), Ok(()))?;
    expect(&format!("test load, {case}"), both.test_load(words, 1, 3, code, &run.key, &run.iv), Ok(()))?;
    expect(&format!("set up, {case}"), both.set_up(words, code, &run.key, &run.iv), Ok(()))?;
    expect_account(&format!("these calls leave the account, {case}"), both, account)
}

/// A draw and a closing are refused with 21, whatever else is wrong with the draw.
fn closed(case: &str, both: &mut Both, words: usize) -> Result<(), String> {
    for (line, count) in [(0, 0), (3, 0), (4, 0), (0, 1), (2, 5), (MAX, 1), (1, 5_000)] {
        is_refused(&format!("draw of {count} for {line}, {case}"), both, 21, |both| both.draw(words, line, &vec![0x5A; count]))?;
        is_refused(&format!("draw, wrong area, {case}"), both, 21, |both| both.draw(words - 1, line, &vec![0x5A; count]))?;
    }
    is_refused(&format!("closing, {case}"), both, 21, |both| both.close_sharing())
}

/// The openings above.
fn openings(run: &Run, random: &mut Random, tally: &mut Tally) -> Result<(), String> {
    let words = run.cipher.area_words();
    for (number, shares, expected) in OPENINGS {
        let position = position_of(number);
        let mark = random.pick(&[0, position, LIMIT, MAX]);
        let mut both = both_at(run, position, mark, random, tally);
        for (k, shares) in orders(shares).into_iter().enumerate() {
            let case = format!("shares {shares:?} at {position}");
            let before = left_of(&both);
            match expected {
                Err(refusal) => is_refused(&case, &mut both, refusal, |both| both.open_sharing(words, shares))?,
                Ok(common) => {
                    expect(&case, both.open_sharing(words, shares), Ok(()))?;
                    let opened = Account { opened: 1, shares, common };
                    must(left_of(&both) == (before.0, before.1.clone(), opened), &format!("{case}: only the account changes"))?;
                    if k == 0 {
                        six_refused(&case, &mut both, run)?;
                    }
                    expect(&format!("spent, {case}"), both.spent(), Ok(mark))?;
                    expect(&format!("closing, {case}"), both.close_sharing(), Ok(()))?;
                    must(left_of(&both) == before, &format!("{case}: a closing leaves what was there before the opening"))?;
                }
            }
            expect_account(&format!("afterwards, {case}"), &both, CLOSED)?;
            if k == 0 {
                closed(&case, &mut both, words)?;
            }
        }
    }
    Ok(())
}

/// The draws above, each with the account, position and mark that it leaves.
fn draws(run: &Run, random: &mut Random, tally: &mut Tally) -> Result<(), String> {
    let words = run.cipher.area_words();
    for (number, shares, common, list) in SHARINGS {
        let start = position_of(number);
        for mark in [0, start, start + 3, LIMIT, MAX] {
            let mut both = both_at(run, start, mark, random, tally);
            expect("opening", both.open_sharing(words, shares), Ok(()))?;
            expect_account("opening", &both, Account { opened: 1, shares, common })?;
            let (mut position, mut reached) = (start, mark);
            for (k, (line, count, refusal, shares, common)) in list.iter().enumerate() {
                let case = format!("draw {k} of those at {start}, {count} bytes for line {line}");
                let bytes = random.bytes(*count);
                if *refusal == 0 {
                    expect(&case, both.draw(words, *line, &bytes), Ok(()))?;
                    position += *count as u64;
                    if *count > 0 && position > reached {
                        reached = position;
                    }
                } else {
                    is_refused(&case, &mut both, *refusal, |both| both.draw(words, *line, &bytes))?;
                }
                expect_account(&case, &both, Account { opened: 1, shares: *shares, common: *common })?;
                let (at, mark) = (both.head.position, both.head.mark);
                must((at, mark) == (position, reached), &format!("{case}: position {position} and mark {reached}"))?;
                expect(&format!("spent, {case}"), both.spent(), Ok(reached))?;
                if start <= NEAR {
                    let string = run.at(position);
                    expect(&format!("write, {case}"), both.write(words, &random.bytes(string.len())), Ok(string))?;
                }
            }
            six_refused(&format!("after the draws at {start}"), &mut both, run)?;
            expect("closing", both.close_sharing(), Ok(()))?;
            expect_account("closing", &both, CLOSED)?;
            must((both.head.position, both.head.mark) == (position, reached), "a closing leaves position and mark")?;
        }
    }
    Ok(())
}

/// Lines over 3, also for no bytes, and the four lines beside them.
fn lines(run: &Run, random: &mut Random, tally: &mut Tally) -> Result<(), String> {
    let words = run.cipher.area_words();
    let of_all = [[9; LINES], [0; LINES], [MAX; LINES]];
    for position in [0, 5, 4_097, LIMIT - 9, LIMIT] {
        for (shares, common) in of_all.into_iter().zip([9, 0, MAX]) {
            let account = Account { opened: 1, shares, common };
            let mut both = both_at(run, position, position, random, tally);
            let before = left_of(&both);
            both.put_account(account);
            for line in NO_LINE {
                for count in [0, 1, 3, 9] {
                    let refusal = if position + count > LIMIT { 6 } else { 19 };
                    let case = format!("line {line}, {count} bytes at {position}");
                    is_refused(&case, &mut both, refusal, |both| both.draw(words, line, &vec![7; count as usize]))?;
                }
            }
            for line in 0..4 {
                expect(&format!("line {line}, no bytes at {position}"), both.draw(words, line, &[]), Ok(()))?;
                must(left_of(&both) == (before.0, before.1.clone(), account), "a draw of no bytes changes nothing")?;
            }
        }
    }
    Ok(())
}

/// Made-up accounts are taken as they are.
fn made_up(run: &Run, random: &mut Random, tally: &mut Tally) -> Result<(), String> {
    let words = run.cipher.area_words();
    for position in [4_097, LIMIT - 9] {
        let mut both = both_at(run, position, 0, random, tally);
        let (head, area, _) = left_of(&both);
        for (share, others, common, count, expected) in MADE_UP {
            for (k, opened) in OPEN.into_iter().enumerate() {
                let line = k % LINES;
                let mut shares = [others; LINES];
                shares[line] = share;
                let given = Account { opened, shares, common };
                let case = format!("{count} bytes for line {line} at {position} from {given:?}");
                both.put_head(head);
                both.put_area(&area);
                both.put_account(given);
                let bytes = random.bytes(count);
                match expected {
                    Err(refusal) => is_refused(&case, &mut both, refusal, |both| both.draw(words, line as u64, &bytes))?,
                    Ok((share, common)) => {
                        expect(&case, both.draw(words, line as u64, &bytes), Ok(()))?;
                        shares[line] = share;
                        expect_account(&case, &both, Account { opened, shares, common })?;
                        must(both.head.position == position + count as u64, &format!("{case}: the position"))?;
                    }
                }
                is_refused(&format!("second opening, {case}"), &mut both, 21, |both| both.open_sharing(words, [0; LINES]))?;
                expect(&format!("closing, {case}"), both.close_sharing(), Ok(()))?;
                expect_account(&case, &both, CLOSED)?;
            }
        }
        // Such an account may promise more than the stream has: then 6 comes first.
        if position != 4_097 {
            both.put_head(head);
            both.put_area(&area);
            for opened in OPEN {
                both.put_account(Account { opened, shares: [MAX; LINES], common: MAX });
                is_refused("ten bytes of nine", &mut both, 6, |both| both.draw(words, 2, &[0; 10]))?;
            }
        }
    }
    for opened in OPEN {
        for (shares, common) in [([0; LINES], 0), ([MAX; LINES], MAX), ([1, 2, 3, 4], 5)] {
            let mut both = both_at(run, 4_097, 0, random, tally);
            both.put_account(Account { opened, shares, common });
            six_refused(&format!("opened is {opened}"), &mut both, run)?;
            expect("closing", both.close_sharing(), Ok(()))?;
            expect_account("closing", &both, CLOSED)?;
        }
    }
    for account in CLOSED_WITH_NUMBERS {
        let mut both = both_at(run, 4_097, 0, random, tally);
        let case = format!("closed {account:?}");
        both.put_account(account);
        closed(&case, &mut both, words)?;
        is_refused(&format!("too large shares, {case}"), &mut both, 20, |both| both.open_sharing(words, [0, 0, 67_104_767, 1]))?;
        expect(&format!("opening, {case}"), both.open_sharing(words, [7, 0, 67_000_000, 60]), Ok(()))?;
        expect_account(&case, &both, Account { opened: 1, shares: [7, 0, 67_000_000, 60], common: 104_700 })?;
        six_accepted(&case, &mut both, run, account)?;
    }
    let mut both = both_at(run, 4_097, 0, random, tally);
    six_accepted("no sharing", &mut both, run, CLOSED)
}

/// Closing in the middle and opening again, with other calls between.
fn reopened(run: &Run, random: &mut Random, tally: &mut Tally) -> Result<(), String> {
    let (words, code) = (run.cipher.area_words(), run.cipher.code());
    let mut both = both_at(run, LIMIT - 100, 0, random, tally);
    let at = |both: &Both, left: u64, mark: u64| {
        let Head { position, mark: is, .. } = both.head;
        must((position, is) == (LIMIT - left, mark), &format!("position {position} and mark {is}, {left} bytes left"))
    };
    expect("opening", both.open_sharing(words, [10, 20, 30, 0]), Ok(()))?;
    expect("draw", both.draw(words, 0, &[0; 15]), Ok(()))?;
    expect_account("draw", &both, Account { opened: 1, shares: [0, 20, 30, 0], common: 35 })?;
    at(&both, 85, LIMIT - 85)?;
    expect("closing", both.close_sharing(), Ok(()))?;
    expect_account("closing", &both, CLOSED)?;
    closed("after a closing", &mut both, words)?;
    expect("cipher", both.cipher(words, &[0; 5]), Ok(()))?;
    at(&both, 80, LIMIT - 80)?;
    expect("all that is left", both.open_sharing(words, [80, 0, 0, 0]), Ok(()))?;
    expect_account("all that is left", &both, Account { opened: 1, shares: [80, 0, 0, 0], common: 0 })?;
    expect("closing", both.close_sharing(), Ok(()))?;
    is_refused("a byte more", &mut both, 20, |both| both.open_sharing(words, [0, 81, 0, 0]))?;
    expect("opening", both.open_sharing(words, [20, 20, 20, 20]), Ok(()))?;
    expect("draw", both.draw(words, 3, &[0; 20]), Ok(()))?;
    is_refused("draw", &mut both, 20, |both| both.draw(words, 3, &[0]))?;
    is_refused("second opening", &mut both, 21, |both| both.open_sharing(words, [0; LINES]))?;
    expect_account("refused calls", &both, Account { opened: 1, shares: [20, 20, 20, 0], common: 0 })?;
    expect("closing", both.close_sharing(), Ok(()))?;
    at(&both, 60, LIMIT - 60)?;
    expect("opening", both.open_sharing(words, [0, 0, 0, 1]), Ok(()))?;
    expect("draw", both.draw(words, 3, &[0; 20]), Ok(()))?;
    expect_account("draw", &both, Account { opened: 1, shares: [0; LINES], common: 40 })?;
    expect("closing", both.close_sharing(), Ok(()))?;
    expect("move back", both.move_by(words, -60), Ok(()))?;
    at(&both, 100, LIMIT - 40)?;
    expect("opening", both.open_sharing(words, [0, 0, 0, 100]), Ok(()))?;
    expect("draw", both.draw(words, 3, &[0; 59]), Ok(()))?;
    at(&both, 41, LIMIT - 40)?;
    expect("draw", both.draw(words, 3, &[0; 41]), Ok(()))?;
    at(&both, 0, LIMIT)?;
    expect("closing", both.close_sharing(), Ok(()))?;
    expect("opening at the limit", both.open_sharing(words, [0; LINES]), Ok(()))?;
    expect_account("opening at the limit", &both, Account { opened: 1, ..CLOSED })?;
    expect("closing", both.close_sharing(), Ok(()))?;
    expect("set up", both.set_up(words, code, &run.key, &run.iv), Ok(()))?;
    expect("opening", both.open_sharing(words, [67_108_864, 0, 0, 0]), Ok(()))?;
    expect("draw", both.draw(words, 0, &[0; 7]), Ok(()))?;
    is_refused("set up", &mut both, 21, |both| both.set_up(words, code, &run.key, &run.iv))?;
    expect_account("draw", &both, Account { opened: 1, shares: [67_108_857, 0, 0, 0], common: 0 })?;
    expect("closing", both.close_sharing(), Ok(()))?;
    expect("load", both.load(words, &run.at(4_096)), Ok(words_of(run)))?;
    expect("opening", both.open_sharing(words, [0, 67_104_768, 0, 0]), Ok(()))?;
    expect_account("opening", &both, Account { opened: 1, shares: [0, 67_104_768, 0, 0], common: 0 })
}

/// One call of the list below.
#[derive(Clone, Copy, Debug)]
enum Call {
    Open([u64; LINES]),
    Draw(u64, usize),
    Close,
    Cipher(usize),
    Move(i64),
}

/// Calls after a set up, each with the position and the mark that it leaves.
const MARKS: [(Call, u64, u64); 31] = [
    (Call::Move(10), 10, 0),
    (Call::Open([5, 5, 5, 5]), 10, 0),
    (Call::Draw(0, 0), 10, 0),
    (Call::Draw(1, 1), 11, 11),
    (Call::Draw(3, 0), 11, 11),
    (Call::Close, 11, 11),
    (Call::Move(-11), 0, 11),
    (Call::Open([0, 0, 0, 0]), 0, 11),
    (Call::Draw(2, 0), 0, 11),
    (Call::Draw(2, 3), 3, 11),
    (Call::Draw(0, 7), 10, 11),
    (Call::Draw(1, 1), 11, 11),
    (Call::Draw(1, 0), 11, 11),
    (Call::Draw(3, 1), 12, 12),
    (Call::Close, 12, 12),
    (Call::Move(-6), 6, 12),
    (Call::Open([1, 2, 3, 4]), 6, 12),
    (Call::Draw(3, 7), 13, 13),
    (Call::Close, 13, 13),
    (Call::Cipher(7), 20, 20),
    (Call::Move(-20), 0, 20),
    (Call::Open([67_108_864, 0, 0, 0]), 0, 20),
    (Call::Draw(0, 2_100), 2_100, 2_100),
    (Call::Close, 2_100, 2_100),
    (Call::Move(5_000), 7_100, 2_100),
    (Call::Open([0, 0, 0, 9]), 7_100, 2_100),
    (Call::Draw(0, 0), 7_100, 2_100),
    (Call::Draw(3, 1), 7_101, 7_101),
    (Call::Draw(2, 9_000), 16_101, 16_101),
    (Call::Close, 16_101, 16_101),
    (Call::Move(-16_000), 101, 16_101),
];

/// Draws count as cipher calls for position, mark, tables and checkpoint.
fn marks(run: &Run, random: &mut Random, tally: &mut Tally) -> Result<(), String> {
    let words = run.cipher.area_words();
    let bytes = run.cipher.key_bytes();
    let mut both = Both::new(FRESH, random.words(words), tally);
    expect("set up", both.set_up(words, run.cipher.code(), &run.key, &run.iv), Ok(()))?;
    for (k, (call, position, mark)) in MARKS.into_iter().enumerate() {
        let case = format!("call {k}, {call:?}");
        let answer = match call {
            Call::Open(shares) => both.open_sharing(words, shares),
            Call::Draw(line, count) => both.draw(words, line, &random.bytes(count)),
            Call::Close => both.close_sharing(),
            Call::Cipher(count) => both.cipher(words, &random.bytes(count)),
            Call::Move(distance) => both.move_by(words, distance),
        };
        expect(&case, answer, Ok(()))?;
        let tables = run.tables(position);
        must(both.area == tables, &format!("{case}: the tables at {position}"))?;
        must(both.head == calls::head_at(run.cipher, position, mark, &tables), &format!("{case}: head {:?}", both.head))?;
        // Open or not, these are as ever.
        let string = run.at(position);
        expect(&format!("spent, {case}"), both.spent(), Ok(mark))?;
        expect(&format!("write, {case}"), both.write(words, &random.bytes(string.len())), Ok(string.clone()))?;
        expect(&format!("write, 8, {case}"), both.write(words, &random.bytes(string.len() - 1)), Err(8))?;
        let key_and_iv = (run.key.clone(), run.iv.clone());
        expect(&format!("recover, {case}"), both.recover(words, &vec![9; bytes], &vec![9; bytes]), Ok(key_and_iv))?;
        expect(&format!("recover, 2, {case}"), both.recover(words, &vec![9; bytes - 1], &vec![9; bytes]), Err(2))?;
        expect(&format!("checkpoint length, {case}"), both.checkpoint_length(both.head.code, position), Ok(string.len()))?;
        expect(&format!("same run, {case}"), both.same_run(&string, &run.at(0)), Ok(true))?;
        let written = both.write_volume(&[0, 1000, 525, 4, 15, 20000, 610, 2], &[9; 14]);
        expect(&format!("write volume, {case}"), written, Ok(EXAMPLE_VOLUME.to_vec()))?;
        expect(&format!("volume duty, {case}"), both.volume_duty(&EXAMPLE_VOLUME), Ok(119_050))?;
    }
    Ok(())
}

/// The first 64 keystream bytes of key and IV 0, drawn by the lines in turn, are those that the papers print.
fn first_bytes(cipher: Cipher, tally: &mut Tally) -> Result<(), String> {
    let words = cipher.area_words();
    let zero = vec![0; cipher.key_bytes()];
    let outputs: Vec<u8> = match cipher {
        Cipher::Hc128 => vectors::HC_128[0].iter().flat_map(|word| word.to_le_bytes()).collect(),
        Cipher::Hc256 => vectors::HC_256[0].iter().flat_map(|word| word.to_le_bytes()).collect(),
    };
    for piece in [1, 2, 3, 4, 5, 7, 8, 16, 21, 63, 64] {
        let mut both = Both::new(FRESH, vec![7; words], tally);
        expect("set up", both.set_up(words, cipher.code(), &zero, &zero), Ok(()))?;
        expect("opening", both.open_sharing(words, [16, 0, 8, 30]), Ok(()))?;
        for (k, part) in outputs[..64].chunks(piece).enumerate() {
            let drawn = both.drawn(words, k as u64 % 4, &vec![0; part.len()]);
            expect(&format!("piece {k} of {piece} bytes"), drawn, Ok(part.to_vec()))?;
        }
    }
    Ok(())
}

/// The head of an engine with these faults, and the words of its area: another code, a wrong area, a position over the limit, a
/// false word.
fn faulty(good: Head, words: usize, faults: [bool; 4], random: &mut Random) -> (Head, usize) {
    let [code, area, position, word] = faults;
    let mut head = good;
    if word {
        head.word ^= 1 << random.below(32);
    }
    if position {
        head.position = random.pick(&[LIMIT + 1, HALF + 5, MAX]);
    }
    if code {
        head.code = random.pick(&NO_CIPHER);
    }
    (head, if area { random.pick(&[0, words - 1, words + 1]) } else { words })
}

/// The bits of a number.
fn bits<const COUNT: usize>(number: usize) -> [bool; COUNT] {
    let mut bits = [false; COUNT];
    for (k, bit) in bits.iter_mut().enumerate() {
        *bit = number >> k & 1 == 1;
    }
    bits
}

/// The first of these refusals whose condition holds.
fn first_of(refusals: &[u64], conditions: &[bool]) -> Result<(), u64> {
    match refusals.iter().zip(conditions).find(|(_, holds)| **holds) {
        Some((refusal, _)) => Err(*refusal),
        None => Ok(()),
    }
}

/// Every combination of the conditions for which an opening or a draw is refused. The number is that of the first that holds.
fn orders_of_refusals(run: &Run, random: &mut Random, tally: &mut Tally) -> Result<(), String> {
    let words = run.cipher.area_words();
    let mut both = both_at(run, LIMIT - 3, 0, random, tally);
    let (good, area, _) = left_of(&both);
    for number in 0..1 << 6 {
        for time in 0..3 {
            let conditions: [bool; 6] = bits(number);
            let [sharing, code, short, position, word, much] = conditions;
            let (head, lent_words) = faulty(good, words, [code, short, position, word], random);
            let account = match (sharing, time) {
                (true, _) => Account { opened: random.pick(&OPEN), shares: [1, 0, 1, 0], common: 1 },
                (false, 0) => CLOSED,
                (false, _) => random.pick(&CLOSED_WITH_NUMBERS),
            };
            let too_much = [[1, 1, 1, 1], [4, 0, 0, 0], [TOP, TOP, 0, 0], [MAX, 1, 0, 3]];
            let enough = [[1, 1, 1, 0], [0, 0, 0, 0], [0, 0, 0, 2]];
            let shares = if much { random.pick(&too_much) } else { random.pick(&enough) };
            both.put_head(head);
            both.put_area(&area);
            both.put_account(account);
            let before = left_of(&both);
            let expected = first_of(&[21, 1, 4, 5, 13, 20], &conditions);
            let case = format!("opening, conditions {conditions:?}");
            expect(&case, both.open_sharing(lent_words, shares), expected)?;
            if expected.is_err() {
                must(left_of(&both) == before, &format!("{case}: a refused call changes nothing"))?;
            }
        }
    }
    for number in 0..1 << 8 {
        for time in 0..3 {
            let conditions: [bool; 8] = bits(number);
            let [is_closed, code, short, position, word, past, line, much] = conditions;
            let (head, lent_words) = faulty(good, words, [code, short, position, word], random);
            let opened = match (is_closed, time) {
                (true, _) => 0,
                (false, 0) => 1,
                (false, _) => random.pick(&OPEN),
            };
            // Three bytes are left of the stream: two are drawn, or four.
            let count = if past { 4 } else { 2 };
            let account = match (much, time % 2) {
                (true, 0) => Account { opened, shares: [0; LINES], common: 1 },
                (true, _) => Account { opened, shares: [1; LINES], common: 0 },
                (false, 0) => Account { opened, shares: [MAX; LINES], common: MAX },
                (false, _) => Account { opened, shares: [1, 1, 1, 1], common: 5 },
            };
            let drawing = if line { random.pick(&NO_LINE) } else { random.below(4) };
            both.put_head(head);
            both.put_area(&area);
            both.put_account(account);
            let before = left_of(&both);
            let expected = first_of(&[21, 1, 4, 5, 13, 6, 19, 20], &conditions);
            let case = format!("draw for line {drawing}, conditions {conditions:?}");
            expect(&case, both.draw(lent_words, drawing, &random.bytes(count)), expected)?;
            if expected.is_err() {
                must(left_of(&both) == before, &format!("{case}: a refused call changes nothing"))?;
            }
        }
    }
    Ok(())
}

/// While sharing is open, each of the six calls is refused with 21, whatever else is wrong.
fn before_everything(run: &Run, random: &mut Random, tally: &mut Tally) -> Result<(), String> {
    let (words, bytes, code) = (run.cipher.area_words(), run.cipher.key_bytes(), run.cipher.code());
    let mut both = both_at(run, LIMIT - 3, 0, random, tally);
    let (good, ..) = left_of(&both);
    let string = run.at(300);
    let mut changed = string.clone();
    *changed.last_mut().unwrap() ^= 1;
    let of_code = code as u8;
    let strings: [&[u8]; 11] = [
        &string,
        &[],
        &[3],
        &[of_code],
        &[of_code, 0x80],
        &[of_code, 0x80, 0x80, 0x80, 0x80],
        &[of_code, 0x80, 0x00],
        &[of_code, 0x81, 0x80, 0x80, 0x20],
        &[of_code, 0x00],
        &string[..string.len() - 1],
        &changed,
    ];
    for (k, opened) in OPEN.into_iter().enumerate() {
        let account = match k % 3 {
            0 => Account { opened, shares: [0; LINES], common: 0 },
            1 => Account { opened, shares: [1, 1, 0, 1], common: 0 },
            _ => Account { opened, shares: [MAX; LINES], common: MAX },
        };
        both.put_account(account);
        both.put_head(good);
        for number in 0..1 << 4 {
            let [bad_code, key, iv, area]: [bool; 4] = bits(number);
            let code = if bad_code { random.pick(&NO_CIPHER) } else { code };
            let lent_words = if area { words - 1 } else { words };
            let (key, iv) = (&run.key[..bytes - key as usize], &run.iv[..bytes - iv as usize]);
            is_refused("set up", &mut both, 21, |both| both.set_up(lent_words, code, key, iv))?;
            for (seed, count) in [(1, 2), (0, 2), (1, 1_001), (0, 1_001)] {
                is_refused("test load", &mut both, 21, |both| both.test_load(lent_words, seed, count, code, key, iv))?;
            }
        }
        for string in strings {
            for lent_words in [words, words - 1] {
                is_refused("load", &mut both, 21, |both| Ok(both.load(lent_words, string)?.map(|_| ())))?;
            }
        }
        for number in 0..1 << 4 {
            let (head, lent_words) = faulty(good, words, bits(number), random);
            both.put_head(head);
            for count in [0, 3, 4] {
                is_refused("cipher", &mut both, 21, |both| both.cipher(lent_words, &random.bytes(count)))?;
            }
            for distance in [0, 3, 4, -(LIMIT as i64) + 2, i64::MIN, i64::MAX] {
                is_refused("move", &mut both, 21, |both| both.move_by(lent_words, distance))?;
            }
            for (volume, _) in VOLUMES {
                is_refused("encipher volume", &mut both, 21, |both| Ok(both.encipher_volume(lent_words, volume)?.map(|_| ())))?;
            }
            is_refused("encipher volume of no entries", &mut both, 21, |both| {
                Ok(both.encipher_volume(lent_words, &[0])?.map(|_| ()))
            })?;
        }
    }
    Ok(())
}

/// With a closed account, whatever its other numbers are, each of the six calls has the refusals that it has without sharing.
fn as_without_sharing(run: &Run, random: &mut Random, tally: &mut Tally) -> Result<(), String> {
    let (words, bytes, code) = (run.cipher.area_words(), run.cipher.key_bytes(), run.cipher.code());
    let mut both = both_at(run, LIMIT - 3, 0, random, tally);
    let (good, ..) = left_of(&both);
    let string = run.at(300);
    for account in CLOSED_WITH_NUMBERS {
        both.put_account(account);
        for number in 1..1 << 4 {
            let conditions: [bool; 4] = bits(number);
            let [bad_code, key, iv, area] = conditions;
            let refusal = first_of(&[1, 2, 3, 4], &conditions).unwrap_err();
            let code = if bad_code { random.pick(&NO_CIPHER) } else { code };
            let lent_words = if area { words - 1 } else { words };
            let (key, iv) = (&run.key[..bytes - key as usize], &run.iv[..bytes - iv as usize]);
            is_refused("set up", &mut both, refusal, |both| both.set_up(lent_words, code, key, iv))?;
            for (seed, count, refusal) in [(1, 2, refusal), (0, 2, 17), (1, 1_001, 18), (0, 1_001, 17)] {
                is_refused("test load", &mut both, refusal, |both| both.test_load(lent_words, seed, count, code, key, iv))?;
            }
        }
        is_refused("load", &mut both, 9, |both| Ok(both.load(words, &[])?.map(|_| ())))?;
        is_refused("load", &mut both, 4, |both| Ok(both.load(words - 1, &string)?.map(|_| ())))?;
        is_refused("load", &mut both, 11, |both| Ok(both.load(words, &string[..string.len() - 1])?.map(|_| ())))?;
        for number in 1..1 << 4 {
            let conditions: [bool; 4] = bits(number);
            let refusal = first_of(&[1, 4, 5, 13], &conditions).unwrap_err();
            let (head, lent_words) = faulty(good, words, conditions, random);
            both.put_head(head);
            is_refused("cipher", &mut both, refusal, |both| both.cipher(lent_words, &[1, 2, 3, 4]))?;
            is_refused("move", &mut both, refusal, |both| both.move_by(lent_words, 4))?;
            for (volume, fault) in VOLUMES {
                let refusal = if fault == 0 { refusal } else { fault };
                is_refused("encipher volume", &mut both, refusal, |both| {
                    Ok(both.encipher_volume(lent_words, volume)?.map(|_| ()))
                })?;
            }
        }
        both.put_head(good);
        is_refused("cipher", &mut both, 6, |both| both.cipher(words, &[1, 2, 3, 4]))?;
        is_refused("move", &mut both, 6, |both| both.move_by(words, 4))?;
        is_refused("move", &mut both, 7, |both| both.move_by(words, -(LIMIT as i64)))?;
        is_refused("encipher volume", &mut both, 6, |both| Ok(both.encipher_volume(words, &EXAMPLE_VOLUME)?.map(|_| ())))?;
    }
    Ok(())
}

/// Draws of one byte more than is left of the line's share and of the common part, at 0, where others have shares left.
fn very_many(run: &Run, random: &mut Random, tally: &mut Tally) -> Result<(), String> {
    let words = run.cipher.area_words();
    let mut both = both_at(run, 0, 0, random, tally);
    expect("opening", both.open_sharing(words, [1_000, 1_000, 500, 0]), Ok(()))?;
    let (line, count) = match run.cipher {
        Cipher::Hc128 => (3, 67_106_365),
        Cipher::Hc256 => (2, 67_106_865),
    };
    is_refused("very many bytes", &mut both, 20, |both| both.draw(words, line, &vec![0x5A; count]))
}

/// All made cases about sharing; the result is the text of the first difference.
pub fn run(random: &mut Random, tally: &mut Tally) -> Result<(), String> {
    for cipher in [Cipher::Hc128, Cipher::Hc256] {
        let run = counting(cipher, 0x30, 0xA0);
        openings(&run, random, tally)?;
        draws(&run, random, tally)?;
        lines(&run, random, tally)?;
        made_up(&run, random, tally)?;
        reopened(&run, random, tally)?;
        marks(&run, random, tally)?;
        first_bytes(cipher, tally)?;
        orders_of_refusals(&run, random, tally)?;
        before_everything(&run, random, tally)?;
        as_without_sharing(&run, random, tally)?;
        very_many(&run, random, tally)?;
    }
    Ok(())
}
