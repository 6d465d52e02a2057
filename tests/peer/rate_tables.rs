//! Cases made by hand about loading tables of rates, with the table or the refusal that request (n) of document 02 gives for each.

use crate::both::Both;
use crate::calls::Head;
use crate::duties::{volume_of, Entry};
use crate::made::expect;
use crate::rates::Rates;
use crate::tally::Tally;
use crate::volumes::{bytes_of, longer};

/// Our rates, as request (e) gives them.
const OURS: Rates = [120, 95, 95, 60, 40, 40, 15, 0];

/// A table that the caller made up.
const MADE_UP: Rates = [65_535, 1, 0, 40_000, 255, 256, 32_768, 65_534];

/// Tables of no pairs, one, four and eight: the bytes of their numbers, of which the first is the count, and their rates. That of
/// eight pairs has rates over 0 only, and numbers of one group, two and three.
const NONE: ([&[u8]; 1], Rates) = ([&[0x00]], [0; 8]);
const ONE: ([&[u8]; 3], Rates) = ([&[0x01], &[0x03], &[0xFF, 0x7F]], [0, 0, 16_383, 0, 0, 0, 0, 0]);
const FOUR: ([&[u8]; 9], Rates) = (
    [&[0x04], &[0x02], &[0x78], &[0x03], &[0xAC, 0x02], &[0x05], &[0x00], &[0x08], &[0xFF, 0xFF, 0x03]],
    [0, 120, 300, 0, 0, 0, 0, 65_535],
);
const EIGHT: ([&[u8]; 17], Rates) = (
    [
        &[0x08],
        &[0x01],
        &[0x01],
        &[0x02],
        &[0x7F],
        &[0x03],
        &[0x80, 0x01],
        &[0x04],
        &[0xAC, 0x02],
        &[0x05],
        &[0xFF, 0x7F],
        &[0x06],
        &[0x80, 0x80, 0x01],
        &[0x07],
        &[0xFE, 0xFF, 0x03],
        &[0x08],
        &[0xFF, 0xFF, 0x03],
    ],
    [1, 127, 128, 300, 16_383, 16_384, 65_534, 65_535],
);

/// The four tables.
const TABLES: [(&[&[u8]], Rates); 4] = [(&NONE.0, NONE.1), (&ONE.0, ONE.1), (&FOUR.0, FOUR.1), (&EIGHT.0, EIGHT.1)];

/// Rates that load, with their bytes.
const RATES: [(u16, &[u8]); 14] = [
    (0, &[0x00]),
    (1, &[0x01]),
    (120, &[0x78]),
    (127, &[0x7F]),
    (128, &[0x80, 0x01]),
    (129, &[0x81, 0x01]),
    (255, &[0xFF, 0x01]),
    (256, &[0x80, 0x02]),
    (16_383, &[0xFF, 0x7F]),
    (16_384, &[0x80, 0x80, 0x01]),
    (32_767, &[0xFF, 0xFF, 0x01]),
    (32_768, &[0x80, 0x80, 0x02]),
    (65_534, &[0xFE, 0xFF, 0x03]),
    (65_535, &[0xFF, 0xFF, 0x03]),
];

/// The bytes of rates that are out of range: 65,536, 65,537, 65,656, 131,071, 131,072, 196,608 and 2,097,151. Some are in range
/// when only their lowest 16 bits are looked at.
const LARGE_RATES: [&[u8]; 7] = [
    &[0x80, 0x80, 0x04],
    &[0x81, 0x80, 0x04],
    &[0xF8, 0x80, 0x04],
    &[0xFF, 0xFF, 0x07],
    &[0x80, 0x80, 0x08],
    &[0x80, 0x80, 0x0C],
    &[0xFF, 0xFF, 0x7F],
];

/// Values that neither a product nor a count may have. Many are in range when only their lowest 7, 8, 14 or 16 bits are looked at.
const LARGE_VALUES: [u32; 24] = [
    9, 10, 15, 16, 24, 63, 64, 127, 128, 129, 130, 136, 255, 256, 257, 264, 16_383, 16_384, 16_385, 16_392, 65_536, 65_537,
    65_544, 2_097_151,
];

/// The string of these numbers with other bytes in the place of some of them.
fn with(numbers: &[&[u8]], others: &[(usize, &[u8])]) -> Vec<u8> {
    let mut parts = numbers.to_vec();
    for (place, bytes) in others {
        parts[*place] = bytes;
    }
    parts.concat()
}

/// The string of a count and pairs of product and rate.
pub fn string_of(count: u32, pairs: &[(u32, u32)]) -> Vec<u8> {
    let mut string = bytes_of(count);
    string.extend(pairs.iter().flat_map(|(product, rate)| [bytes_of(*product), bytes_of(*rate)].concat()));
    string
}

/// Pairs of the products 1 to this one.
fn first_pairs(last: u32) -> Vec<(u32, u32)> {
    (1..=last).map(|product| (product, 700 * product)).collect()
}

/// The table of pairs whose products rise.
fn table_of(pairs: &[(u32, u32)]) -> Rates {
    let mut rates = [0; 8];
    for (product, rate) in pairs {
        rates[*product as usize - 1] = *rate as u16;
    }
    rates
}

/// The table in use on both sides, which have been compared already.
pub fn expect_rates(case: &str, both: &Both, expected: Rates) -> Result<(), String> {
    if both.rates == expected {
        Ok(())
    } else {
        Err(format!("{case}: both sides have the rates {:?}, expected {expected:?}", both.rates))
    }
}

/// The duty on a litre at 10,000 of each product is its rate, and that on all eight is the sum.
pub fn duties_show(case: &str, both: &mut Both, rates: Rates) -> Result<(), String> {
    let litres: Vec<Entry> = (1..=8).map(|product| [0, 1, 10_000, product]).collect();
    for (litre, rate) in litres.iter().zip(rates) {
        expect(&format!("duty, {case}"), both.volume_duty(&volume_of(&[*litre])), Ok(rate as u64))?;
    }
    let sum = rates.iter().map(|rate| *rate as u64).sum();
    expect(&format!("duty on all, {case}"), both.volume_duty(&volume_of(&litres)), Ok(sum))
}

/// Takes one of three tables into use: ours, a loaded one or a made-up one.
fn use_table(both: &mut Both, which: usize) -> Result<Rates, String> {
    let rates = [OURS, EIGHT.1, MADE_UP][which];
    both.put_rates(rates);
    if which == 1 {
        both.put_rates([7; 8]);
        expect("load before", both.load_rates(&EIGHT.0.concat()), Ok(()))?;
    }
    Ok(rates)
}

/// Loading of a string that has these rates, over each of the three tables.
fn is_table(case: &str, both: &mut Both, string: &[u8], rates: Rates) -> Result<(), String> {
    for which in 0..3 {
        use_table(both, which)?;
        expect(case, both.load_rates(string), Ok(()))?;
        expect_rates(case, both, rates)?;
        duties_show(case, both, rates)?;
    }
    Ok(())
}

/// Loading of a string that is refused. Each of the three tables stays in use.
fn is_refused(case: &str, both: &mut Both, string: &[u8], refusal: u64) -> Result<(), String> {
    for which in 0..3 {
        let rates = use_table(both, which)?;
        expect(case, both.load_rates(string), Err(refusal))?;
        expect_rates(case, both, rates)?;
        duties_show(case, both, rates)?;
    }
    Ok(())
}

/// Bytes that are at fault in the place of a number, with the refusal that they get: 24 for a group of 0 too many, for a third
/// group that announces another and for a value out of range; 25 for a product not above the one before, and 24 for such a one
/// with a group of 0 too many.
fn faults(numbers: &[&[u8]], place: usize) -> Vec<(Vec<u8>, u64)> {
    let is_product = place % 2 == 1;
    let over: &[&[u8]] = match place {
        0 => &[&[0x09], &[0x7F], &[0x84, 0x01], &[0xFF, 0xFF, 0x7F]],
        _ if is_product => &[&[0x00], &[0x09], &[0x88, 0x01], &[0xFF, 0xFF, 0x7F]],
        _ => &[&[0x80, 0x80, 0x04], &[0xFF, 0xFF, 0x7F]],
    };
    let mut faults = vec![(longer(numbers[place], 1), 24), (vec![0x80, 0x80, 0x80], 24), (vec![0x81, 0xFF, 0xFF, 0x00], 24)];
    for bytes in over {
        faults.push((bytes.to_vec(), 24));
        faults.push((longer(bytes, 1), 24));
    }
    if is_product && place > 1 {
        for product in [&[0x01], numbers[place - 2]] {
            faults.push((product.to_vec(), 25));
            faults.push((longer(product, 1), 24));
        }
    }
    faults
}

/// Our rates, the example of the header, the four tables, and tables that have our own rates.
fn examples(both: &mut Both) -> Result<(), String> {
    expect_rates("to begin with", both, OURS)?;
    duties_show("to begin with", both, OURS)?;
    expect("our rates", both.our_rates(), Ok(OURS))?;
    is_table("example of the header", both, &[0x02, 0x02, 0xC8, 0x01, 0x04, 0x46], [0, 200, 0, 70, 0, 0, 0, 0])?;
    for (numbers, rates) in TABLES {
        is_table(&format!("{numbers:x?}"), both, &numbers.concat(), rates)?;
    }
    let seven = [0x01, 0x78, 0x02, 0x5F, 0x03, 0x5F, 0x04, 0x3C, 0x05, 0x28, 0x06, 0x28, 0x07, 0x0F];
    is_table("our rates in seven pairs", both, &[&[0x07], &seven[..]].concat(), OURS)?;
    is_table("our rates in eight pairs", both, &[&[0x08], &seven[..], &[0x08, 0x00]].concat(), OURS)?;
    let zeros = [0x08, 1, 0, 2, 0, 3, 0, 4, 0, 5, 0, 6, 0, 7, 0, 8, 0];
    is_table("eight rates of 0", both, &zeros, [0; 8])?;
    both.put_rates(MADE_UP);
    expect("our rates beside another table", both.our_rates(), Ok(OURS))?;
    expect_rates("our rates beside another table", both, MADE_UP)?;
    is_refused("empty string", both, &[], 24)
}

/// Tables of every set of products, each product with a rate of its own, also after a table of all other products and after those
/// of the sets before: a load replaces all eight rates.
fn sets_of_products(both: &mut Both) -> Result<(), String> {
    let pairs_of = |set: u32, rate: fn(u32, u32) -> u32| -> Vec<(u32, u32)> {
        let products = (1..=8).filter(|product| set >> (product - 1) & 1 == 1);
        products.map(|product| (product, rate(product, set))).collect()
    };
    for set in 0..256 {
        for rate in [|product, set| 8_000 * product + set, |product, _| 10 * product, |product, set| 65_535 - 31 * set - product]
        {
            let pairs = pairs_of(set, rate);
            let string = string_of(pairs.len() as u32, &pairs);
            is_table(&format!("{pairs:?}"), both, &string, table_of(&pairs))?;
            let others = pairs_of(255 - set, rate);
            for pairs in [&others, &pairs, &others] {
                let case = format!("{pairs:?} after another load");
                expect(&case, both.load_rates(&string_of(pairs.len() as u32, pairs)), Ok(()))?;
                expect_rates(&case, both, table_of(pairs))?;
            }
        }
    }
    let mut all: Vec<(Vec<u8>, Rates)> = Vec::new();
    for set in 0..256 {
        let pairs = pairs_of(set, |product, set| 257 * product + set);
        all.push((string_of(pairs.len() as u32, &pairs), table_of(&pairs)));
    }
    for step in [1, 85, 127, 129, 255] {
        for k in 0..256 {
            let (string, rates) = &all[step * k % 256];
            expect("one set after another", both.load_rates(string), Ok(()))?;
            expect_rates("one set after another", both, *rates)?;
        }
    }
    Ok(())
}

/// The refusal of these products, if any: that of the first one that is out of range (24) or not above the one before (25).
fn refusal_of_products(products: &[u32]) -> Option<u64> {
    let mut before = 0;
    for product in products {
        if !(1..=8).contains(product) {
            return Some(24);
        }
        if *product <= before {
            return Some(25);
        }
        before = *product;
    }
    None
}

/// Every list of up to four products from 0 to 9, and in a table of eight pairs every product from 0 to 9 in each place.
fn lists_of_products(both: &mut Both) -> Result<(), String> {
    let mut lists: Vec<Vec<u32>> = Vec::new();
    for count in 1..=4 {
        lists.extend((0..10u32.pow(count)).map(|number| (0..count).map(|k| number / 10u32.pow(k) % 10).collect()));
    }
    for place in 0..8 {
        for product in 0..10 {
            let mut products: Vec<u32> = (1..=8).collect();
            products[place] = product;
            lists.push(products);
        }
    }
    for (number, products) in lists.iter().enumerate() {
        let case = format!("products {products:?}");
        let pairs: Vec<(u32, u32)> = (1..).map(|k| 11 * k).zip(products).map(|(rate, product)| (*product, rate)).collect();
        let string = string_of(pairs.len() as u32, &pairs);
        let before = use_table(both, number % 3)?;
        match refusal_of_products(products) {
            None => {
                expect(&case, both.load_rates(&string), Ok(()))?;
                expect_rates(&case, both, table_of(&pairs))?;
            }
            Some(refusal) => {
                expect(&case, both.load_rates(&string), Err(refusal))?;
                expect_rates(&case, both, before)?;
            }
        }
    }
    Ok(())
}

/// Products that are equal to the one before or below it, in each pair of tables of two to eight pairs: 25. The tables have the
/// lowest products and the highest ones, below which there are others.
fn not_above(both: &mut Both) -> Result<(), String> {
    for count in 2..=8 {
        for lowest in [1, 9 - count] {
            let pairs: Vec<(u32, u32)> = (lowest..lowest + count).map(|product| (product, 300 + product)).collect();
            for place in 1..pairs.len() {
                for product in 1..=pairs[place - 1].0 {
                    let mut changed = pairs.clone();
                    changed[place].0 = product;
                    let string = string_of(count, &changed);
                    is_refused(&format!("{changed:?}"), both, &string, 25)?;
                    // It is known with the product alone, whatever follows.
                    let known = string_of(count, &changed[..place]).len() + 1;
                    is_refused(&format!("{changed:?}, cut after the product"), both, &string[..known], 25)?;
                    is_refused(&format!("{changed:?}, cut before the product"), both, &string[..known - 1], 24)?;
                    for rest in [&[0x80][..], &[0x80, 0x00], &[0x80, 0x80, 0x80], &[0x80, 0x80, 0x04], &[0x00; 40]] {
                        is_refused(&format!("{changed:?} before {rest:x?}"), both, &[&string[..known], rest].concat(), 25)?;
                    }
                }
            }
        }
    }
    Ok(())
}

/// Products out of range in every pair: 24, also where the product is not above the one before.
fn products_out_of_range(both: &mut Both) -> Result<(), String> {
    for count in 1..=8 {
        for place in 0..count as usize {
            for product in LARGE_VALUES.into_iter().chain([0]) {
                let mut pairs = first_pairs(count);
                pairs[place].0 = product;
                is_refused(&format!("{pairs:?}"), both, &string_of(count, &pairs), 24)?;
            }
        }
    }
    // The product before is 8, so that none is above it.
    for product in LARGE_VALUES.into_iter().chain([0]) {
        for pairs in [vec![(8, 5), (product, 5)], vec![(2, 9), (8, 5), (product, 5)], vec![(2, 9), (8, 5), (product, 5), (8, 5)]]
        {
            is_refused(&format!("{pairs:?}"), both, &string_of(pairs.len() as u32, &pairs), 24)?;
        }
    }
    Ok(())
}

/// Rates at both ends of their range and where they get another group, in every pair; those beyond the range are 24.
fn values_of_rates(both: &mut Both) -> Result<(), String> {
    for (numbers, rates) in [(&ONE.0[..], ONE.1), (&FOUR.0, FOUR.1), (&EIGHT.0, EIGHT.1)] {
        for place in (2..numbers.len()).step_by(2) {
            for (rate, bytes) in RATES {
                let mut changed = rates;
                changed[numbers[place - 1][0] as usize - 1] = rate;
                is_table(&format!("rate {rate} in place {place}"), both, &with(numbers, &[(place, bytes)]), changed)?;
            }
            for bytes in LARGE_RATES {
                is_refused(&format!("rate {bytes:x?} in place {place}"), both, &with(numbers, &[(place, bytes)]), 24)?;
            }
        }
    }
    Ok(())
}

/// Every rate from 0 to 65,535, eight in a table, and many beyond.
fn every_rate(both: &mut Both) -> Result<(), String> {
    for first in (0..=65_535).step_by(8) {
        let pairs: Vec<(u32, u32)> = (1..=8).map(|product| (product, first + product - 1)).collect();
        let case = format!("rates from {first}");
        expect(&case, both.load_rates(&string_of(8, &pairs)), Ok(()))?;
        expect_rates(&case, both, table_of(&pairs))?;
        let litres: Vec<Entry> = (1..=8).map(|product| [0, 1, 10_000, product]).collect();
        expect(&case, both.volume_duty(&volume_of(&litres)), Ok(8 * first as u64 + 28))?;
    }
    let in_use = both.rates;
    for rate in (65_536..2_097_152).step_by(509).chain((16..21).map(|bit| 1 << bit)) {
        for pairs in [&[(4, rate)][..], &[(4, 77), (5, rate)], &[(4, rate), (5, 77)], &[(4, rate), (4, 77)]] {
            let case = format!("{pairs:?}");
            expect(&case, both.load_rates(&string_of(pairs.len() as u32, pairs)), Err(24))?;
            expect_rates(&case, both, in_use)?;
        }
    }
    Ok(())
}

/// Counts from 0 to 8 with just as many pairs, one fewer and one more. A count over 8 is 24, whatever follows.
fn counts(both: &mut Both) -> Result<(), String> {
    for count in 0..=8 {
        let pairs = first_pairs(count);
        is_table(&format!("count {count}"), both, &string_of(count, &pairs), table_of(&pairs))?;
        is_refused(&format!("count {count}, a pair more"), both, &string_of(count, &first_pairs(count + 1)), 24)?;
        if count > 0 {
            is_refused(&format!("count {count}, a pair fewer"), both, &string_of(count, &first_pairs(count - 1)), 24)?;
            is_refused(&format!("count {count} alone"), both, &[count as u8], 24)?;
        }
    }
    let eight = first_pairs(8);
    let nine = [&eight[..], &[(8, 5)]].concat();
    let not_above = [(2, 5), (2, 5), (1, 5)];
    for count in LARGE_VALUES {
        for pairs in [&[][..], &[(1, 5)], &[(0, 5)], &[(9, 5)], &not_above, &eight[..7], &eight, &nine, &nine.repeat(30)] {
            let case = format!("count {count} before {} pairs", pairs.len());
            is_refused(&case, both, &string_of(count, pairs), 24)?;
        }
        for rest in [&[0x00][..], &[0x80], &[0x80, 0x00], &[0x80, 0x80, 0x80], &[0x00; 300]] {
            is_refused(&format!("count {count} before {rest:x?}"), both, &[&bytes_of(count)[..], rest].concat(), 24)?;
        }
    }
    Ok(())
}

/// Each number of each table with groups of 0 added, and with third groups that announce another, also where the string ends there
/// or in them: 24.
fn forms(both: &mut Both) -> Result<(), String> {
    for (numbers, _) in TABLES {
        for place in 0..numbers.len() {
            let start = numbers[..place].concat();
            for more in 1..=3 {
                let bytes = longer(numbers[place], more);
                let case = format!("{bytes:x?} in place {place} of {}", numbers.len());
                is_refused(&case, both, &with(numbers, &[(place, &bytes)]), 24)?;
                is_refused(&format!("{case}, cut after it"), both, &[&start[..], &bytes].concat(), 24)?;
            }
            for groups in [[0x80, 0x80, 0x80], [0xFF, 0xFF, 0xFF], [0x81, 0x80, 0x80], [0x80, 0x80, 0xFF], [0x88, 0xFF, 0x81]] {
                let case = format!("{groups:x?} in place {place} of {}", numbers.len());
                is_refused(&case, both, &with(numbers, &[(place, &groups)]), 24)?;
                for rest in [&[][..], &[0x00], &[0x01], &[0x7F], &[0x80], &[0x80, 0x00], &[0xFF, 0xFF, 0xFF]] {
                    is_refused(&format!("{case} before {rest:x?}"), both, &[&start[..], &groups, rest].concat(), 24)?;
                }
                for count in 1..=2 {
                    let string = [&start[..], &groups[..count]].concat();
                    is_refused(&format!("{count} bytes of {case}"), both, &string, 24)?;
                }
            }
        }
    }
    Ok(())
}

/// The tables cut after every byte: 24. With a number at fault, the refusal is that of the number from its last byte on.
fn cuts(both: &mut Both) -> Result<(), String> {
    for (numbers, _) in TABLES {
        let string = numbers.concat();
        for length in 0..string.len() {
            is_refused(&format!("cut to {length} of {}", string.len()), both, &string[..length], 24)?;
        }
    }
    for (numbers, place) in (0..9).map(|place| (&FOUR.0[..], place)).chain((0..17).map(|place| (&EIGHT.0[..], place))) {
        for (bytes, refusal) in faults(numbers, place) {
            let string = with(numbers, &[(place, &bytes)]);
            let known = numbers[..place].concat().len() + bytes.len();
            for length in 0..=string.len() {
                let expected = if length < known { 24 } else { refusal };
                is_refused(&format!("{bytes:x?} in place {place}, cut to {length}"), both, &string[..length], expected)?;
            }
        }
    }
    Ok(())
}

/// Bytes after the last pair: 24, but after every fault of a number. Some would be another pair.
fn bytes_after(both: &mut Both) -> Result<(), String> {
    for count in 0..=8 {
        let string = string_of(count, &first_pairs(count));
        for byte in 0..=255 {
            is_refused(&format!("{byte:#x} after {count} pairs"), both, &[&string[..], &[byte]].concat(), 24)?;
        }
        for product in 0..=9 {
            for rate in [&[0x00][..], &[0x05], &[0xC8, 0x01], &[0xFF, 0xFF, 0x03]] {
                let more = [&string[..], &[product], rate].concat();
                is_refused(&format!("product {product} with {rate:x?} after {count} pairs"), both, &more, 24)?;
            }
        }
        // Some of these lengths are right when only their lowest 8 or 16 bits are looked at.
        for more in [2, 3, 33, 255, 256, 257, 512, 65_536] {
            for byte in [0x00, 0x08, 0x80, 0xFF] {
                let case = format!("{more} bytes {byte:#x} after {count} pairs");
                is_refused(&case, both, &[&string[..], &vec![byte; more]].concat(), 24)?;
            }
        }
        is_refused(&format!("{count} pairs twice"), both, &string.repeat(2), 24)?;
    }
    for place in 0..FOUR.0.len() {
        for (bytes, refusal) in faults(&FOUR.0, place) {
            for after in [&[0x00][..], &[0x09], &[0x80], &[0x08, 0x05], &[0x01, 0x05], &[0x80, 0x80, 0x80], &[0x00; 300]] {
                let string = [&with(&FOUR.0, &[(place, &bytes)])[..], after].concat();
                is_refused(&format!("{} bytes after {bytes:x?} in place {place}", after.len()), both, &string, refusal)?;
            }
        }
    }
    Ok(())
}

/// Bytes that follow the string in memory are not part of it: they neither complete what is cut nor count as left over.
fn bytes_beyond(both: &mut Both) -> Result<(), String> {
    for (numbers, rates) in TABLES {
        let string = numbers.concat();
        for length in 0..string.len() {
            let before = use_table(both, length % 3)?;
            let case = format!("{length} bytes of {string:x?}");
            expect(&case, both.load_rates_before(&string[..length], &string[length..]), Err(24))?;
            expect_rates(&case, both, before)?;
        }
        for after in [&[0x00][..], &[0x01], &[0x08, 0x05], &[0x80], &[0x80, 0x80, 0x80], &[0x00; 40], &string] {
            use_table(both, after.len() % 3)?;
            let case = format!("{string:x?} before {after:x?}");
            expect(&case, both.load_rates_before(&string, after), Ok(()))?;
            expect_rates(&case, both, rates)?;
        }
    }
    Ok(())
}

/// Two numbers at fault: the first in reading order is refused, whatever the two faults are. In the table of four pairs these are
/// any two, in that of eight two neighbours.
fn pairs_of_faults(both: &mut Both) -> Result<(), String> {
    let any = (0..9).flat_map(|first| (first + 1..9).map(move |second| (&FOUR.0[..], first, second)));
    let neighbours = (0..16).map(|first| (&EIGHT.0[..], first, first + 1));
    for (numbers, first, second) in any.chain(neighbours) {
        for (first_bytes, refusal) in faults(numbers, first) {
            for (second_bytes, _) in faults(numbers, second) {
                let case = format!("{first_bytes:x?} in place {first}, {second_bytes:x?} in place {second}");
                let string = with(numbers, &[(first, &first_bytes), (second, &second_bytes)]);
                is_refused(&case, both, &string, refusal)?;
            }
        }
    }
    Ok(())
}

/// Counts that promise more pairs than there are: 24, but 25 for a product before the end that is not above the one before.
fn promises(both: &mut Both) -> Result<(), String> {
    for (count, present) in (1..=8).flat_map(|count| (0..count).map(move |present| (count, present))) {
        let pairs = first_pairs(present);
        let string = string_of(count, &pairs);
        is_refused(&format!("{present} of {count} pairs"), both, &string, 24)?;
        for place in 1..pairs.len() {
            for (product, refusal) in [(place as u32, 25), (1, 25), (0, 24), (9, 24)] {
                let mut changed = pairs.clone();
                changed[place].0 = product;
                is_refused(&format!("{changed:?} of {count} pairs"), both, &string_of(count, &changed), refusal)?;
            }
            let mut changed = pairs.clone();
            changed[place].0 = place as u32;
            changed[place - 1].1 = 65_536;
            is_refused(&format!("{changed:?} of {count} pairs"), both, &string_of(count, &changed), 24)?;
        }
        // A last product without its rate.
        let last = present as u8;
        let not_above = if present == 0 { 24 } else { 25 };
        for (bytes, refusal) in [(&[last + 1][..], 24), (&[last], not_above), (&[0x80 | last], 24), (&[0x00], 24), (&[0x09], 24)]
        {
            let string = [&string[..], bytes].concat();
            is_refused(&format!("{bytes:x?} after {present} of {count} pairs"), both, &string, refusal)?;
        }
    }
    Ok(())
}

/// Every two bytes in the place of each number of a table of two pairs, every string of up to two bytes, and those of three that
/// begin with a small count. Here both sides only have to agree.
fn every_two_bytes(both: &mut Both) -> Result<(), String> {
    let numbers: [&[u8]; 5] = [&[0x02], &[0x03], &[0xC8, 0x01], &[0x05], &[0x46]];
    let mut ends = vec![(vec![], vec![]), (vec![0x00], vec![]), (vec![0x01], vec![]), (vec![0x02], vec![])];
    ends.extend((0..5).map(|place| (numbers[..place].concat(), numbers[place + 1..].concat())));
    for (start, rest) in ends {
        for two in 0..=u16::MAX {
            let string = [&start[..], &two.to_le_bytes(), &rest].concat();
            let _ = both.load_rates(&string)?;
        }
    }
    for byte in 0..=255 {
        let _ = both.load_rates(&[byte])?;
    }
    Ok(())
}

/// All made cases about loading tables of rates; the result is the text of the first difference.
pub fn run(tally: &mut Tally) -> Result<(), String> {
    let mut both = Both::new(Head { code: 1, word: 0x2184_4812, position: 55, mark: 88 }, vec![0xA55A_3CC3; 16], tally);
    examples(&mut both)?;
    sets_of_products(&mut both)?;
    lists_of_products(&mut both)?;
    not_above(&mut both)?;
    products_out_of_range(&mut both)?;
    values_of_rates(&mut both)?;
    every_rate(&mut both)?;
    counts(&mut both)?;
    forms(&mut both)?;
    cuts(&mut both)?;
    bytes_after(&mut both)?;
    bytes_beyond(&mut both)?;
    pairs_of_faults(&mut both)?;
    promises(&mut both)?;
    every_two_bytes(&mut both)
}
