//! Cases made by hand about duties under other tables of rates than ours, loaded ones and made-up ones, with the cents and bounds
//! that request (n) of document 02 gives for them with requests (e) and (f).

use crate::both::Both;
use crate::calls::Head;
use crate::duties::{volume_of, Entry, EXAMPLE, GREATEST};
use crate::effects::change;
use crate::made::expect;
use crate::rate_tables::{duties_show, expect_rates, string_of};
use crate::rates::Rates;
use crate::tally::Tally;

/// The greatest duty of any volume under any table.
const MOST_OWN_DUTY: u64 = 13_107_000_000_000;

/// The rate of an entry's product, its litres and its ratio, and its cents.
const ENTRIES: [(u16, u32, u32, u64); 42] = [
    // Nothing is owed.
    (0, 100_000, 10_000, 0),
    (65_535, 0, 10_000, 0),
    (65_535, 100_000, 0, 0),
    (1, 1, 9_999, 0),
    (1, 9_999, 1, 0),
    (6_000, 1, 1, 0),
    (9_999, 1, 1, 0),
    // The first cents.
    (1, 1, 10_000, 1),
    (1, 10_000, 1, 1),
    (10_000, 1, 1, 1),
    (19_999, 1, 1, 1),
    (20_000, 1, 1, 2),
    (5_000, 3, 1, 1),
    (65_535, 1, 1, 6),
    (65_535, 1, 2, 13),
    // Rates on both sides of 8 bits, of another group and of 15 bits, and the greatest.
    (127, 1, 10_000, 127),
    (128, 1, 10_000, 128),
    (255, 1, 10_000, 255),
    (256, 1, 10_000, 256),
    (16_383, 1, 10_000, 16_383),
    (16_384, 1, 10_000, 16_384),
    (32_767, 1, 10_000, 32_767),
    (32_768, 1, 10_000, 32_768),
    (65_535, 1, 10_000, 65_535),
    (65_535, 1, 9_999, 65_528),
    (65_535, 100_000, 1, 655_350),
    (65_535, 99_999, 9_999, 6_552_779_121),
    (65_535, 99_999, 10_000, 6_553_434_465),
    (65_535, 100_000, 9_999, 6_552_844_650),
    (65_535, 100_000, 10_000, 6_553_500_000),
    // Litres times ratio times rate is 2^32 - 1, 2^32, and just beyond what 32 bits hold.
    (65_535, 65_537, 1, 429_496),
    (32_768, 65_536, 2, 429_496),
    (65_535, 65_538, 1, 429_503),
    // The cents are on both sides of 2^31, and of 2^32 as litres times rate are.
    (65_534, 32_769, 10_000, 2_147_483_646),
    (32_768, 65_536, 10_000, 2_147_483_648),
    (49_999, 47_559, 9_031, 2_147_483_694),
    (65_534, 65_538, 10_000, 4_294_967_292),
    (65_535, 65_537, 10_000, 4_294_967_295),
    (50_000, 89_209, 9_629, 4_294_967_305),
    (65_535, 65_538, 10_000, 4_295_032_830),
    // Rates that are far from those of the other entries.
    (12_345, 6_789, 4_321, 36_214_389),
    (54_321, 98_765, 1_234, 662_042_673),
];

/// The rate and the litres of an entry, its ratio before and after, the cents that it owes before and after, and the bound.
type Change = (u16, u32, [u32; 2], [u64; 2], u64);

const CHANGES: [Change; 37] = [
    // Litres times rate times d over 10,000 is a whole number, and the cents change by just that.
    (10_000, 1, [525, 526], [525, 526], 1),
    (10_000, 1, [525, 520], [525, 520], 5),
    (65_535, 100_000, [9_999, 10_000], [6_552_844_650, 6_553_500_000], 655_350),
    (65_535, 100_000, [10_000, 0], [6_553_500_000, 0], 6_553_500_000),
    (65_535, 1, [0, 10_000], [0, 65_535], 65_535),
    (1, 10_000, [0, 1], [0, 1], 1),
    (1, 100_000, [10_000, 9_990], [100_000, 99_900], 100),
    (1, 1, [0, 10_000], [0, 1], 1),
    (127, 10_000, [1, 2], [127, 254], 127),
    (16_384, 625, [10, 11], [10_240, 11_264], 1_024),
    // The rate or the litres are 0, or d is.
    (0, 100_000, [0, 10_000], [0, 0], 0),
    (0, 100_000, [127, 128], [0, 0], 0),
    (65_535, 0, [0, 10_000], [0, 0], 0),
    (65_535, 1, [525, 525], [3_440, 3_440], 0),
    // Litres times rate times d over 10,000 is not a whole number, and the cents change by the next larger one.
    (65_535, 1, [1, 2], [6, 13], 7),
    (65_535, 1, [2, 1], [13, 6], 7),
    (65_535, 1, [9_999, 10_000], [65_528, 65_535], 7),
    (1, 1, [9_999, 10_000], [0, 1], 1),
    (1, 1, [10_000, 9_999], [1, 0], 1),
    (1, 9_999, [1, 2], [0, 1], 1),
    (128, 78, [1, 2], [0, 1], 1),
    (16_384, 7, [127, 128], [1_456, 1_468], 12),
    (16_384, 7, [128, 127], [1_468, 1_456], 12),
    (32_768, 65_537, [9_999, 10_000], [2_147_301_664, 2_147_516_416], 214_752),
    (65_535, 65_537, [10_000, 9_999], [4_294_967_295, 4_294_537_798], 429_497),
    (65_535, 65_538, [9_999, 10_000], [4_294_603_326, 4_295_032_830], 429_504),
    // It is not a whole number either, but the cents change by the next smaller one, which is one less than the bound.
    (65_535, 1, [0, 1], [0, 6], 7),
    (65_535, 99_999, [9_998, 9_999], [6_552_123_778, 6_552_779_121], 655_344),
    (65_535, 99_999, [0, 9_999], [0, 6_552_779_121], 6_552_779_122),
    (65_535, 65_545, [9_998, 9_999], [4_294_632_476, 4_295_062_025], 429_550),
    (1, 1, [0, 9_999], [0, 0], 1),
    (1, 9_999, [0, 1], [0, 0], 1),
    (127, 79, [1, 0], [1, 0], 2),
    (16_383, 61, [1, 0], [99, 0], 100),
    (12_345, 6_789, [4_321, 4_326], [36_214_389, 36_256_294], 41_906),
    (12_345, 6_789, [4_324, 4_321], [36_239_532, 36_214_389], 25_144),
    (54_321, 98_765, [1_234, 1_237], [662_042_673, 663_652_177], 1_609_505),
];

/// The product after another one, and product 1 after product 8.
fn next(product: u32) -> u32 {
    product % 8 + 1
}

/// A table in which a product and the next one have these rates, and the others have none.
fn table(product: u32, rate: u16, rate_of_next: u16) -> Rates {
    let mut rates = [0; 8];
    rates[product as usize - 1] = rate;
    rates[next(product) as usize - 1] = rate_of_next;
    rates
}

/// Loads such a table.
fn load(both: &mut Both, product: u32, rate: u16, rate_of_next: u16) -> Result<(), String> {
    let mut pairs = [(product, rate as u32), (next(product), rate_of_next as u32)];
    pairs.sort();
    let case = format!("load {pairs:?}");
    expect(&case, both.load_rates(&string_of(2, &pairs)), Ok(()))?;
    expect_rates(&case, both, table(product, rate, rate_of_next))
}

/// The example of the header: its table and its volume, before the load, after it, after a refused one and after another one.
fn examples(both: &mut Both) -> Result<(), String> {
    let volume = volume_of(&[EXAMPLE, [15, 20_000, 610, 2]]);
    let own = [0x02, 0x02, 0xC8, 0x01, 0x04, 0x46];
    expect("example under our rates", both.volume_duty(&volume), Ok(3_150 + 115_900))?;
    expect("example is loaded", both.load_rates(&own), Ok(()))?;
    expect("example under its rates", both.volume_duty(&volume), Ok(3_675 + 244_000))?;
    for (refused, refusal) in [(&own[..5], 24), (&[0x01, 0x02, 0xC8, 0x01, 0x04, 0x46], 24), (&[0x02, 0x04, 0x46, 0x02], 25)] {
        expect("refused load after the example", both.load_rates(refused), Err(refusal))?;
        expect("example after a refused load", both.volume_duty(&volume), Ok(3_675 + 244_000))?;
    }
    expect("product 2 alone is loaded", both.load_rates(&[0x01, 0x02, 0x64]), Ok(()))?;
    expect("example without product 4", both.volume_duty(&volume), Ok(122_000))?;
    expect("no pairs are loaded", both.load_rates(&[0x00]), Ok(()))?;
    expect("example without rates", both.volume_duty(&volume), Ok(0))?;
    expect("no rates", both.volume_duty(&volume_of(&[GREATEST; 2_000])), Ok(0))
}

/// Each entry of the list above with each product, alone, twice, 2,000 times, and beside entries of the next product. The table
/// of rates is loaded, and then put there without a load.
fn entries(both: &mut Both) -> Result<(), String> {
    for (rate, litres, ratio, cents) in ENTRIES {
        for product in 1..=8 {
            let case = format!("{litres} litres at {ratio} of product {product} at rate {rate}");
            let entry = [60, litres, ratio, product];
            let other = [5, 2, 10_000, next(product)];
            let volumes: [(Vec<Entry>, u64); 4] = [
                (vec![entry], cents),
                (vec![entry; 2], 2 * cents),
                (vec![other, entry, other], cents + 4 * 1_009),
                (vec![entry, other, entry], 2 * cents + 2 * 1_009),
            ];
            load(both, product, rate, 1_009)?;
            for (entries, cents) in &volumes {
                expect(&case, both.volume_duty(&volume_of(entries)), Ok(*cents))?;
            }
            expect(&case, both.volume_duty(&volume_of(&[entry; 2_000])), Ok(2_000 * cents))?;
            both.put_rates([1_009; 8]);
            both.put_rates(table(product, rate, 1_009));
            for (entries, cents) in volumes {
                expect(&format!("{case}, made up"), both.volume_duty(&volume_of(&entries)), Ok(cents))?;
            }
        }
    }
    Ok(())
}

/// Made-up tables are taken as they are: each bit of each rate alone and all others, and the same rate for all products.
fn made_up(both: &mut Both) -> Result<(), String> {
    for product in 0..8 {
        for bit in 0..16 {
            let mut rates = [0; 8];
            rates[product] = 1 << bit;
            for rates in [rates, rates.map(|rate: u16| !rate), rates.map(|rate| rate.wrapping_sub(1))] {
                both.put_rates(rates);
                duties_show(&format!("{rates:?}"), both, rates)?;
                let entries: Vec<Entry> = (1..=8).map(|product| [0, 100_000, 10_000, product]).collect();
                let cents = rates.iter().map(|rate| 100_000 * *rate as u64).sum();
                expect(&format!("large duty, {rates:?}"), both.volume_duty(&volume_of(&entries)), Ok(cents))?;
                expect_rates(&format!("after duties, {rates:?}"), both, rates)?;
            }
        }
    }
    for rate in [0, 1, 119, 120, 121, 255, 256, 32_767, 32_768, 65_534, 65_535] {
        both.put_rates([rate; 8]);
        duties_show(&format!("every rate is {rate}"), both, [rate; 8])?;
    }
    Ok(())
}

/// The greatest duty, 13,107,000,000,000 cents, of each product, under tables loaded and made up, in which the others have the
/// same rate or none. Where only the others have it, nothing is owed.
fn greatest(both: &mut Both) -> Result<(), String> {
    for product in 1..=8 {
        let volume = volume_of(&[[1_440, 100_000, 10_000, product]; 2_000]);
        let mut only: Rates = [0; 8];
        only[product as usize - 1] = 65_535;
        let all_others = only.map(|rate| 65_535 - rate);
        for (rates, cents) in [(only, MOST_OWN_DUTY), ([65_535; 8], MOST_OWN_DUTY), (all_others, 0)] {
            let case = format!("the greatest volume of product {product} under {rates:?}");
            both.put_rates(rates);
            expect(&format!("{case}, made up"), both.volume_duty(&volume), Ok(cents))?;
            let products = (1..=8u32).filter(|product| rates[*product as usize - 1] > 0);
            let pairs: Vec<(u32, u32)> = products.map(|product| (product, 65_535)).collect();
            for before in [0, 8] {
                let pairs_before: Vec<(u32, u32)> = (1..=before).map(|product| (product, 65_535)).collect();
                expect(&case, both.load_rates(&string_of(before, &pairs_before)), Ok(()))?;
                expect(&case, both.load_rates(&string_of(pairs.len() as u32, &pairs)), Ok(()))?;
                expect(&case, both.volume_duty(&volume), Ok(cents))?;
            }
        }
    }
    both.put_rates([65_535; 8]);
    let mixed: Vec<Entry> = (0..2_000).map(|k| [1_440, 100_000, 10_000, k % 8 + 1]).collect();
    expect("the greatest duty of all products", both.volume_duty(&volume_of(&mixed)), Ok(MOST_OWN_DUTY))?;
    expect("one entry fewer", both.volume_duty(&volume_of(&mixed[1..])), Ok(MOST_OWN_DUTY - 6_553_500_000))
}

/// Sums on both sides of 2^32, 2^40 and 2^43 cents, of few entries and of many.
fn sums(both: &mut Both) -> Result<(), String> {
    // 65,537 litres at 10,000 owe 2^32 - 1 cents, and a litre of the next product owes 1.
    load(both, 4, 65_535, 1)?;
    let (large, cent) = ([0, 65_537, 10_000, 4], [0, 1, 10_000, 5]);
    for (entries, cents) in [
        (vec![large], 4_294_967_295),
        (vec![large, cent], 4_294_967_296),
        (vec![cent, large], 4_294_967_296),
        (vec![cent, large, cent], 4_294_967_297),
        (vec![large, large], 8_589_934_590),
        (vec![large, large, cent, cent], 8_589_934_592),
    ] {
        expect(&format!("{cents} cents"), both.volume_duty(&volume_of(&entries)), Ok(cents))?;
    }
    // 256 of them owe 256 less than 2^40.
    let mut entries = vec![large; 256];
    entries.extend([cent; 255]);
    for cents in 1_099_511_627_775u64..=1_099_511_627_778 {
        expect(&format!("{cents} cents"), both.volume_duty(&volume_of(&entries)), Ok(cents))?;
        entries.insert(0, cent);
    }
    // 1,342 of 6,553,500,000 cents and 1,296,022,208 more are 2^43: 19,775 litres owe 1,295,954,625, one owes 65,535, and the last
    // 2,048 are those of 2,048 litres of the next product.
    let mut entries = vec![[0, 100_000, 10_000, 4]; 1_342];
    entries.extend([[0, 19_775, 10_000, 4], [0, 1, 10_000, 4], [0, 2_047, 10_000, 5]]);
    for cents in 8_796_093_022_207u64..=8_796_093_022_209 {
        expect(&format!("{cents} cents"), both.volume_duty(&volume_of(&entries)), Ok(cents))?;
        entries.push(cent);
    }
    Ok(())
}

/// Volumes that are refused under every table with the same number, also where all rates are 0.
fn refused_volumes(both: &mut Both) -> Result<(), String> {
    let greatest = volume_of(&[GREATEST; 3]);
    let last = greatest.len() - 1;
    for rates in [[0; 8], [65_535; 8], [1, 2, 3, 4, 5, 6, 7, 8]] {
        both.put_rates(rates);
        for (string, refusal) in [
            (vec![], 16),
            (greatest[..last].to_vec(), 16),
            ([&greatest[..], &[0x00]].concat(), 16),
            ([&greatest[..last], &[0x00]].concat(), 15),
            ([&greatest[..last], &[0x09]].concat(), 15),
            ([&greatest[..last], &[0x81, 0x00]].concat(), 14),
            ([&greatest[..last], &[0x80, 0x80, 0x80]].concat(), 14),
        ] {
            expect(&format!("{string:x?} under {rates:?}"), both.volume_duty(&string), Err(refusal))?;
        }
    }
    Ok(())
}

/// The bound of request (f) under loaded tables. The changed entry of each product stands alone, in each place of three and in
/// several of 2,000; the others are of the next product, whose rate is the greatest.
fn effects(both: &mut Both) -> Result<(), String> {
    for product in 1..=8 {
        let other = [1_440, 100_000, 10_000, next(product)];
        for (rate, litres, ratios, cents, bound) in CHANGES {
            load(both, product, rate, 65_535)?;
            let of_entry = (litres, product, ratios, cents, bound);
            change(both, &[], 0, 0, of_entry)?;
            for place in 0..3 {
                change(both, &[other; 2], 2 * 6_553_500_000, place, of_entry)?;
            }
            let place = [0, 127, 128, 1_000, 1_999][(product % 5) as usize];
            change(both, &[other; 1_999], 1_999 * 6_553_500_000, place, of_entry)?;
        }
    }
    Ok(())
}

/// All made cases about duties under other tables than ours; the result is the text of the first difference.
pub fn run(tally: &mut Tally) -> Result<(), String> {
    let mut both = Both::new(Head { code: 2, word: 0x4812_2184, position: 88, mark: 55 }, vec![0x3CC3_A55A; 16], tally);
    examples(&mut both)?;
    entries(&mut both)?;
    made_up(&mut both)?;
    greatest(&mut both)?;
    sums(&mut both)?;
    refused_volumes(&mut both)?;
    effects(&mut both)
}
