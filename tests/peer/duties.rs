//! Cases made by hand about the duty on a volume, with the cents or the refusal that request (e) of document 02 gives for each.

use crate::both::Both;
use crate::calls::Head;
use crate::made::expect;
use crate::tally::Tally;
use crate::volumes::bytes_of;

/// An entry: minutes, litres, ratio and product.
pub type Entry = [u32; 4];

/// The example of request (e) and its volume; it owes 3,150 cents.
pub const EXAMPLE: Entry = [0, 1_000, 525, 4];
const EXAMPLE_VOLUME: [u8; 7] = [0x01, 0x00, 0xE8, 0x07, 0x8D, 0x04, 0x04];

/// For products 1 to 8 the cents that are owed by 1 litre at 10,000, 100,000 litres at 10,000, 1 litre at 9,999 and 99,999 litres
/// at 9,999. The last two are not whole cents before they are cut down.
const PRODUCTS: [[u64; 4]; 8] = [
    [120, 12_000_000, 119, 11_998_680],
    [95, 9_500_000, 94, 9_498_955],
    [95, 9_500_000, 94, 9_498_955],
    [60, 6_000_000, 59, 5_999_340],
    [40, 4_000_000, 39, 3_999_560],
    [40, 4_000_000, 39, 3_999_560],
    [15, 1_500_000, 14, 1_499_835],
    [0, 0, 0, 0],
];

/// For each product with a rate over 0 the greatest product of litres and ratio that owes 0 cents, the least that owes 1, the
/// greatest that owes 1 and the least that owes 2.
const FIRST_CENTS: [(u32, [u32; 4]); 7] = [
    (1, [83, 84, 166, 167]),
    (2, [105, 106, 210, 211]),
    (3, [105, 106, 210, 211]),
    (4, [166, 167, 333, 334]),
    (5, [249, 250, 499, 500]),
    (6, [249, 250, 499, 500]),
    (7, [666, 667, 1_333, 1_334]),
];

/// Litres, ratio and product of entries with their cents.
const ENTRIES: [(u32, u32, u32, u64); 62] = [
    // Nothing is owed.
    (0, 0, 1, 0),
    (0, 1, 1, 0),
    (0, 10_000, 1, 0),
    (0, 10_000, 7, 0),
    (1, 0, 1, 0),
    (100_000, 0, 1, 0),
    (100_000, 0, 7, 0),
    (1, 1, 1, 0),
    (1, 1, 7, 0),
    (100_000, 1, 8, 0),
    (1, 10_000, 8, 0),
    // Several ways to 84, the least that owes 1 cent for product 1, and to 250, which owes just 1 for products 5 and 6.
    (12, 7, 1, 1),
    (7, 12, 1, 1),
    (42, 2, 1, 1),
    (2, 42, 1, 1),
    (25, 10, 5, 1),
    (2, 125, 6, 1),
    // Just half a cent is cut off.
    (1, 125, 1, 1),
    (3, 125, 1, 4),
    (1_000, 1, 2, 9),
    (1, 1_000, 3, 9),
    (250, 1, 4, 1),
    (125, 1, 5, 0),
    (1, 125, 6, 0),
    (375, 1, 5, 1),
    (3, 125, 6, 1),
    (1_000, 1, 7, 1),
    (1, 1_000, 7, 1),
    // Almost a whole cent is cut off large duties.
    (99_917, 9_999, 1, 11_988_840),
    (99_731, 9_991, 2, 9_465_917),
    (99_579, 9_999, 3, 9_459_058),
    (99_963, 9_991, 4, 5_992_381),
    (99_917, 9_997, 5, 3_995_480),
    (99_893, 9_993, 6, 3_992_922),
    (99_957, 9_969, 7, 1_494_706),
    // Litres times ratio times rate is just below 2^31, just above it, just below 2^32 and just above it.
    (14_351, 1_247, 1, 214_748),
    (7_894, 2_267, 1, 214_748),
    (28_702, 1_247, 1, 429_496),
    (64_489, 555, 1, 429_496),
    (62_445, 362, 2, 214_748),
    (22_315, 1_013, 2, 214_748),
    (65_522, 690, 3, 429_496),
    (17_571, 2_573, 3, 429_496),
    (28_702, 1_247, 4, 214_748),
    (64_489, 555, 4, 214_748),
    (57_404, 1_247, 4, 429_496),
    (16_999, 4_211, 4, 429_496),
    (43_053, 1_247, 5, 214_748),
    (85_489, 628, 5, 214_748),
    (86_106, 1_247, 6, 429_496),
    (56_483, 1_901, 6, 429_496),
    (57_404, 2_494, 7, 214_748),
    (16_999, 8_422, 7, 214_748),
    (65_537, 4_369, 7, 429_496),
    (65_899, 4_345, 7, 429_496),
    // Litres on both sides of another group and of 16 bits.
    (127, 10_000, 1, 15_240),
    (128, 10_000, 1, 15_360),
    (16_383, 10_000, 2, 1_556_385),
    (16_384, 10_000, 2, 1_556_480),
    (65_535, 10_000, 4, 3_932_100),
    (65_536, 10_000, 4, 3_932_160),
    (65_537, 10_000, 4, 3_932_220),
];

/// An entry of the greatest duty, 12,000,000 cents, with the most bytes, and its numbers as bytes.
pub const GREATEST: Entry = [1_440, 100_000, 10_000, 1];
const GREATEST_NUMBERS: [&[u8]; 4] = [&[0xA0, 0x0B], &[0xA0, 0x8D, 0x06], &[0x90, 0x4E], &[0x01]];

/// Bytes that are at fault in the place of minutes, litres, ratio and product, with the refusal that they get.
const FAULTS: [&[(&[u8], u64)]; 4] = [
    &[
        (&[0xA1, 0x0B], 15),
        (&[0xFF, 0xFF, 0x7F], 15),
        (&[0x80, 0x00], 14),
        (&[0xA0, 0x8B, 0x00], 14),
        (&[0xA1, 0x8B, 0x00], 14),
        (&[0x80, 0x80, 0x80], 14),
        (&[0xA0, 0x8B, 0x80, 0x00], 14),
    ],
    &[
        (&[0xA1, 0x8D, 0x06], 15),
        (&[0xFF, 0xFF, 0x7F], 15),
        (&[0x80, 0x00], 14),
        (&[0xFF, 0x80, 0x00], 14),
        (&[0x80, 0x80, 0x80], 14),
        (&[0xA0, 0x8D, 0x86, 0x00], 14),
        (&[0xA1, 0x8D, 0x86, 0x00], 14),
    ],
    &[
        (&[0x91, 0x4E], 15),
        (&[0xFF, 0xFF, 0x7F], 15),
        (&[0x80, 0x00], 14),
        (&[0x90, 0xCE, 0x00], 14),
        (&[0x91, 0xCE, 0x00], 14),
        (&[0x80, 0x80, 0x80], 14),
        (&[0x90, 0xCE, 0x80, 0x00], 14),
    ],
    &[
        (&[0x00], 15),
        (&[0x09], 15),
        (&[0x81, 0x02], 15),
        (&[0xFF, 0xFF, 0x7F], 15),
        (&[0x80, 0x00], 14),
        (&[0x81, 0x00], 14),
        (&[0x89, 0x00], 14),
        (&[0x80, 0x80, 0x80], 14),
        (&[0x81, 0x80, 0x80, 0x00], 14),
    ],
];

/// The volume of these entries.
pub fn volume_of(entries: &[Entry]) -> Vec<u8> {
    let mut volume = bytes_of(entries.len() as u32);
    volume.extend(entries.iter().flatten().flat_map(|number| bytes_of(*number)));
    volume
}

/// The duty on the volume of these entries. The writer writes that volume, and reading it into a list that is too short is refused
/// with 8.
fn owe(case: &str, both: &mut Both, entries: &[Entry], cents: u64) -> Result<(), String> {
    let (volume, list) = (volume_of(entries), entries.concat());
    expect(&format!("write, {case}"), both.write_volume(&list, &vec![0xEE; volume.len()]), Ok(volume.clone()))?;
    expect(&format!("duty, {case}"), both.volume_duty(&volume), Ok(cents))?;
    if let Some(short) = list.len().checked_sub(1) {
        for room in [0, short] {
            expect(&format!("list of {room}, {case}"), both.read_volume(&volume, &vec![7; room]), Err(8))?;
        }
        expect(&format!("duty again, {case}"), both.volume_duty(&volume), Ok(cents))?;
    }
    Ok(())
}

/// The duty on one entry: alone, twice, 2,000 times, and between two others that owe 3,150 and 115,900 cents. Minutes change
/// nothing.
fn owes(both: &mut Both, litres: u32, ratio: u32, product: u32, cents: u64) -> Result<(), String> {
    let case = format!("{litres} litres at {ratio} of product {product}");
    let entry = [0, litres, ratio, product];
    for minutes in [0, 1, 128, 1_440] {
        owe(&format!("{minutes} minutes, {case}"), both, &[[minutes, litres, ratio, product]], cents)?;
    }
    owe(&format!("twice, {case}"), both, &[entry; 2], 2 * cents)?;
    owe(&format!("2,000 times, {case}"), both, &[entry; 2_000], 2_000 * cents)?;
    owe(&format!("between two others, {case}"), both, &[EXAMPLE, entry, [15, 20_000, 610, 2]], 3_150 + cents + 115_900)
}

/// The duty on a string that is refused; the cents beside the refusal are 0, as both sides are compared in them.
fn is_refused(case: &str, both: &mut Both, string: &[u8], refusal: u64) -> Result<(), String> {
    expect(&format!("duty, {case}"), both.volume_duty(string), Err(refusal))
}

/// The example of request (e), the two entries of the header's example, and no entries.
fn examples(both: &mut Both) -> Result<(), String> {
    expect("example", both.volume_duty(&EXAMPLE_VOLUME), Ok(3_150))?;
    owe("example", both, &[EXAMPLE], 3_150)?;
    owe("example of the header", both, &[EXAMPLE, [15, 20_000, 610, 2]], 3_150 + 115_900)?;
    expect("no entries", both.volume_duty(&[0x00]), Ok(0))?;
    owe("no entries", both, &[], 0)
}

/// One entry in several volumes, with every rate, on both sides of the first cents, and as in the table above.
fn single_entries(both: &mut Both) -> Result<(), String> {
    for (product, cents) in (1..).zip(PRODUCTS) {
        owes(both, 1, 10_000, product, cents[0])?;
        owes(both, 100_000, 10_000, product, cents[1])?;
        owes(both, 1, 9_999, product, cents[2])?;
        owes(both, 99_999, 9_999, product, cents[3])?;
        // 10,000 litres at 1 owe as many cents as 1 litre at 10,000.
        owes(both, 10_000, 1, product, cents[0])?;
    }
    for (product, numbers) in FIRST_CENTS {
        for (number, cents) in numbers.into_iter().zip([0, 1, 1, 2]) {
            owes(both, number, 1, product, cents)?;
            owes(both, 1, number, product, cents)?;
        }
    }
    for (litres, ratio, product, cents) in ENTRIES {
        owes(both, litres, ratio, product, cents)?;
    }
    Ok(())
}

/// Sums of different entries, in every order of three, and with entries that owe nothing among them.
fn sums(both: &mut Both) -> Result<(), String> {
    let all = |litres: u32, ratio: u32| (1..=8).map(move |product| [3, litres, ratio, product]);
    let at_10_000: Vec<Entry> = all(1, 10_000).collect();
    owe("all products", both, &at_10_000, 465)?;
    owe("all products backwards", both, &all(1, 10_000).rev().collect::<Vec<Entry>>(), 465)?;
    owe("all products 250 times", both, &at_10_000.repeat(250), 250 * 465)?;
    // The sum of all eight, cut down once, would be 464.
    owe("all products at 9,999", both, &all(1, 9_999).collect::<Vec<Entry>>(), 458)?;
    // The sum of these, cut down once, would be 1,201.
    owe("100 entries of 12.012 cents", both, &[[0, 1, 1_001, 1]; 100], 1_200)?;

    // 1 cent, 100 cents and 10,000 cents.
    let three: [(Entry, u64); 3] = [([0, 84, 1, 1], 1), ([9, 25, 1_000, 6], 100), ([60, 2_500, 1_000, 5], 10_000)];
    for order in [[0, 1, 2], [0, 2, 1], [1, 0, 2], [1, 2, 0], [2, 0, 1], [2, 1, 0]] {
        let entries = order.map(|k| three[k].0);
        let first_two = three[order[0]].1 + three[order[1]].1;
        owe(&format!("order {order:?}"), both, &entries, 10_101)?;
        owe(&format!("order {order:?}, first two"), both, &entries[..2], first_two)?;
        for nothing in [[0, 0, 10_000, 1], [0, 100_000, 0, 1], [1_440, 100_000, 10_000, 8], [0, 83, 1, 1]] {
            for place in 0..=3 {
                let mut more = entries.to_vec();
                more.insert(place, nothing);
                owe(&format!("order {order:?}, {nothing:?} in place {place}"), both, &more, 10_101)?;
            }
        }
    }

    // One entry of 2,000 has a duty.
    for place in [0, 1, 2, 126, 127, 128, 129, 255, 256, 999, 1_000, 1_023, 1_024, 1_997, 1_998, 1_999] {
        let mut entries = [[0, 100_000, 10_000, 8]; 2_000];
        entries[place] = EXAMPLE;
        owe(&format!("duty in place {place}"), both, &entries, 3_150)?;
    }
    Ok(())
}

/// Counts of one byte and of two, up to the greatest volume; the greatest duty is 24,000,000,000 cents.
fn counts(both: &mut Both) -> Result<(), String> {
    for count in [1, 2, 3, 126, 127, 128, 129, 255, 256, 257, 357, 358, 715, 716, 1_431, 1_432, 1_999, 2_000] {
        for (product, cents) in (1..).zip(PRODUCTS) {
            let small = vec![[0, 1, 10_000, product]; count];
            owe(&format!("{count} of product {product}"), both, &small, count as u64 * cents[0])?;
            let large = vec![[1_440, 100_000, 10_000, product]; count];
            owe(&format!("{count} large ones of product {product}"), both, &large, count as u64 * cents[1])?;
        }
    }
    let greatest = [&[0xD0, 0x0F], &GREATEST_NUMBERS.concat().repeat(2_000)[..]].concat();
    if greatest.len() != 16_002 || greatest != volume_of(&[GREATEST; 2_000]) {
        return Err(format!("the greatest volume has {} bytes", greatest.len()));
    }
    expect("the greatest volume", both.volume_duty(&greatest), Ok(24_000_000_000))
}

/// Sums on both sides of 2^31 and of 2^32 cents.
fn edges_of_sums(both: &mut Both) -> Result<(), String> {
    // 178 of 12,000,000 cents and 11,483,640 cents are 8 less than 2^31.
    let mut entries = vec![GREATEST; 178];
    entries.push([0, 95_697, 10_000, 1]);
    owe("8 less than 2^31", both, &entries, 2_147_483_640)?;
    for (litres, cents) in [(584, 2_147_483_647), (672, 2_147_483_648), (754, 2_147_483_649)] {
        let last = [[0, litres, 1, 1]];
        owe(&format!("{cents} cents"), both, &[&entries[..], &last].concat(), cents)?;
        owe(&format!("{cents} cents, last entry first"), both, &[&last[..], &entries].concat(), cents)?;
    }
    // 357 of 12,000,000 cents and 10,967,280 cents are 16 less than 2^32; 1 litre of product 7 owes 15 of them.
    let mut entries = vec![GREATEST; 357];
    entries.push([0, 91_394, 10_000, 1]);
    owe("16 less than 2^32", both, &entries, 4_294_967_280)?;
    entries.push([0, 1, 10_000, 7]);
    for cents in 4_294_967_295u64..=4_294_967_300 {
        owe(&format!("{cents} cents"), both, &entries, cents)?;
        let backwards: Vec<Entry> = entries.iter().rev().copied().collect();
        owe(&format!("{cents} cents, backwards"), both, &backwards, cents)?;
        entries.push([0, 84, 1, 1]);
    }
    Ok(())
}

/// Every ratio and every number of litres, in volumes of up to 2,000 entries. The numbers of a volume follow one another, so their
/// sum is the first and the last together, times half of how many there are.
fn every_number(both: &mut Both) -> Result<(), String> {
    let chunk = |first: u32, most: u32| (first, (first + 1_999).min(most));
    let sum = |first: u32, last: u32| (first as u64 + last as u64) * (last as u64 - first as u64 + 1) / 2;
    for (product, cents) in (1..).zip(PRODUCTS) {
        // At 10,000 litres each hundredth of a percent owes the rate.
        for (first, last) in (0..=10_000).step_by(2_000).map(|first| chunk(first, 10_000)) {
            let entries: Vec<Entry> = (first..=last).map(|ratio| [0, 10_000, ratio, product]).collect();
            let case = format!("ratios {first} to {last} of product {product}");
            expect(&case, both.volume_duty(&volume_of(&entries)), Ok(cents[0] * sum(first, last)))?;
        }
        // At 10,000 each litre owes the rate.
        for (first, last) in (0..=100_000).step_by(2_000).map(|first| chunk(first, 100_000)) {
            let entries: Vec<Entry> = (first..=last).map(|litres| [0, litres, 10_000, product]).collect();
            let case = format!("litres {first} to {last} of product {product}");
            expect(&case, both.volume_duty(&volume_of(&entries)), Ok(cents[0] * sum(first, last)))?;
        }
    }
    // At 125 each litre of products 5 and 6 owes half a cent, which is cut off where the litres are odd. So each whole number of
    // cents is owed by two numbers of litres, beginning with an even one.
    for product in [5, 6] {
        for first in (0..100_000).step_by(2_000) {
            let entries: Vec<Entry> = (first..first + 2_000).map(|litres| [0, litres, 125, product]).collect();
            let case = format!("2,000 litres from {first} at 125 of product {product}");
            let cents = 2 * sum(first / 2, first / 2 + 999);
            expect(&case, both.volume_duty(&volume_of(&entries)), Ok(cents))?;
        }
    }
    Ok(())
}

/// The greatest entry so many times, with other bytes in the place of some numbers. Place 0 is the count.
fn greatest_with(count: usize, others: &[(usize, &[u8])]) -> Vec<u8> {
    let count_bytes = bytes_of(count as u32);
    let mut parts = vec![&count_bytes[..]];
    parts.extend(GREATEST_NUMBERS.repeat(count));
    for (place, bytes) in others {
        parts[*place] = bytes;
    }
    parts.concat()
}

/// Where a number begins in the volume of the greatest entry so many times.
fn start_of(count: usize, place: usize) -> usize {
    bytes_of(count as u32).len() + GREATEST_NUMBERS.repeat(count)[..place - 1].concat().len()
}

/// Volumes of 1, 3 and 2,000 entries of the greatest duty with each fault in each number of the first entry, one in the middle and
/// the last one, with bytes after it, and cut there. Of two faults, the first is refused.
fn faults(both: &mut Both) -> Result<(), String> {
    for count in [1, 3, 2_000] {
        let fault_of_count: [(&[u8], u64); 5] = [
            (&[0xD1, 0x0F], 15),
            (&[0x80, 0x00], 14),
            (&[0xD0, 0x8F, 0x00], 14),
            (&[0xD1, 0x8F, 0x00], 14),
            (&[0x83, 0x80, 0x80], 14),
        ];
        for (bytes, refusal) in fault_of_count {
            is_refused(&format!("{bytes:x?} for the count {count}"), both, &greatest_with(count, &[(0, bytes)]), refusal)?;
        }
        let mut entries = vec![0, count / 2, count - 1];
        entries.dedup();
        for (entry, field) in entries.into_iter().flat_map(|entry| (0..4).map(move |field| (entry, field))) {
            let place = 1 + 4 * entry + field;
            for (bytes, refusal) in FAULTS[field].iter().copied() {
                let case = format!("{bytes:x?} in place {place}, {count} entries");
                let string = greatest_with(count, &[(place, bytes)]);
                is_refused(&case, both, &string, refusal)?;
                is_refused(&format!("{case}, byte after"), both, &[&string[..], &[0x00]].concat(), refusal)?;
                // A third group that announces another is a fault as soon as it is there.
                let known = start_of(count, place) + bytes.len().min(3);
                is_refused(&format!("{case}, cut after it"), both, &string[..known], refusal)?;
                is_refused(&format!("{case}, cut in it"), both, &string[..known - 1], 16)?;
                // The last product is 0, which is refused with 15, or in two groups, which is refused with 14.
                for last in [&[0x00][..], &[0x81, 0x00]] {
                    let string = greatest_with(count, &[(4 * count, last), (place, bytes)]);
                    is_refused(&format!("{case}, last product {last:x?}"), both, &string, refusal)?;
                }
            }
        }
    }
    Ok(())
}

/// Volumes cut after every byte or with bytes after the last entry, one entry more or fewer than the count says, and the empty
/// string: 16.
fn ends(both: &mut Both) -> Result<(), String> {
    is_refused("empty string", both, &[], 16)?;
    for byte in 0..=255 {
        is_refused(&format!("{byte:#x} after no entries"), both, &[0x00, byte], 16)?;
        is_refused(&format!("{byte:#x} after the example"), both, &[&EXAMPLE_VOLUME[..], &[byte]].concat(), 16)?;
    }
    for length in 0..EXAMPLE_VOLUME.len() {
        is_refused(&format!("example cut to {length}"), both, &EXAMPLE_VOLUME[..length], 16)?;
    }
    let entry = GREATEST_NUMBERS.concat();
    for count in [1, 2, 3, 127, 128, 1_999, 2_000] {
        let volume = greatest_with(count, &[]);
        let more = [&volume[..], &entry].concat();
        for length in volume.len() + 1..=more.len() {
            is_refused(&format!("{count} entries, {length} bytes"), both, &more[..length], 16)?;
        }
        for length in volume.len().saturating_sub(30)..volume.len() {
            is_refused(&format!("{count} entries, cut to {length}"), both, &volume[..length], 16)?;
        }
        for after in [&[0x80, 0x00][..], &[0x80, 0x80, 0x80], &EXAMPLE_VOLUME, &[0x00; 16_002]] {
            is_refused(&format!("{} bytes after {count} entries", after.len()), both, &[&volume[..], after].concat(), 16)?;
        }
    }
    Ok(())
}

/// All made cases about duties; the result is the text of the first difference.
pub fn run(tally: &mut Tally) -> Result<(), String> {
    let mut both = Both::new(Head { code: 1, word: 0x8421_1248, position: 77, mark: 99 }, vec![0x5AA5_C33C; 16], tally);
    examples(&mut both)?;
    single_entries(&mut both)?;
    sums(&mut both)?;
    counts(&mut both)?;
    edges_of_sums(&mut both)?;
    every_number(&mut both)?;
    faults(&mut both)?;
    ends(&mut both)
}
