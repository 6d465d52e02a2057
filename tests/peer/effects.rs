//! Cases made by hand about two volumes that differ in the ratio of one entry, with the cents of both and the bound that request
//! (f) of document 02 gives for each.

use crate::both::Both;
use crate::calls::Head;
use crate::duties::{volume_of, Entry, EXAMPLE, GREATEST};
use crate::duty;
use crate::made::expect;
use crate::tally::Tally;
use crate::whole::must;

/// Litres and product of an entry, its ratio before and after, the cents that it owes before and after, and the bound.
pub type Change = (u32, u32, [u32; 2], [u64; 2], u64);

const CHANGES: [Change; 44] = [
    // Litres times rate times d over 10,000 is a whole number, and the cents change by just that.
    (1_000, 4, [525, 526], [3_150, 3_156], 6),
    (1_000, 4, [525, 520], [3_150, 3_120], 30),
    (100_000, 1, [9_999, 10_000], [11_998_800, 12_000_000], 1_200),
    (1, 5, [249, 499], [0, 1], 1),
    (1, 7, [2_001, 1], [3, 0], 3),
    // d is 10,000.
    (1, 1, [0, 10_000], [0, 120], 120),
    (1, 2, [10_000, 0], [95, 0], 95),
    (1, 3, [0, 10_000], [0, 95], 95),
    (1, 4, [10_000, 0], [60, 0], 60),
    (1, 5, [0, 10_000], [0, 40], 40),
    (1, 6, [10_000, 0], [40, 0], 40),
    (1, 7, [0, 10_000], [0, 15], 15),
    (1, 8, [10_000, 0], [0, 0], 0),
    (100_000, 1, [10_000, 0], [12_000_000, 0], 12_000_000),
    (100_000, 8, [0, 10_000], [0, 0], 0),
    // Litres times rate times d over 10,000 is not a whole number, and the cents change by the next larger one.
    (1, 1, [83, 84], [0, 1], 1),
    (1, 2, [106, 105], [1, 0], 1),
    (1, 3, [105, 106], [0, 1], 1),
    (1, 4, [167, 166], [1, 0], 1),
    (1, 5, [249, 250], [0, 1], 1),
    (125, 6, [4, 1], [2, 0], 2),
    (1, 7, [666, 667], [0, 1], 1),
    (1, 7, [1_334, 666], [2, 0], 2),
    (1_234, 2, [614, 617], [7_197, 7_233], 36),
    (99_999, 1, [9_999, 10_000], [11_998_680, 11_999_880], 1_200),
    // The same, and litres times ratio times rate is below 2^32 before and above it after.
    (64_489, 1, [554, 555], [428_722, 429_496], 774),
    // It is not a whole number either, but the cents change by the next smaller one, which is one less than the bound.
    (1, 1, [85, 84], [1, 1], 1),
    (99_999, 1, [0, 1], [0, 1_199], 1_200),
    (99_999, 1, [9_999, 0], [11_998_680, 0], 11_998_681),
    (1_234, 2, [610, 613], [7_151, 7_186], 36),
    (16_383, 3, [9_998, 9_993], [1_556_073, 1_555_295], 779),
    (777, 4, [1_000, 1_002], [4_662, 4_671], 10),
    (125, 5, [2, 3], [1, 1], 1),
    (125, 6, [5, 2], [2, 1], 2),
    (1, 7, [667, 668], [1, 1], 1),
    // The ratio gets another byte or loses one.
    (1_000, 4, [127, 128], [762, 768], 6),
    (58, 1, [127, 128], [88, 89], 1),
    (333, 2, [128, 127], [404, 401], 4),
    (100_000, 8, [127, 128], [0, 0], 0),
    // There are no litres.
    (0, 1, [0, 10_000], [0, 0], 0),
    (0, 7, [128, 127], [0, 0], 0),
    // d is 0.
    (1, 7, [666, 666], [0, 0], 0),
    (1_000, 4, [525, 525], [3_150, 3_150], 0),
    (99_999, 1, [9_999, 9_999], [11_998_680, 11_998_680], 0),
];

/// Changes among entries that owe 16 cents less than 2^32.
const AROUND_2_32: [Change; 6] = [
    (1, 1, [1_333, 1_334], [15, 16], 1),
    (1, 1, [1_417, 1_416], [17, 16], 1),
    (1, 1, [1_333, 1_417], [15, 17], 2),
    (1, 1, [1_333, 1_250], [15, 15], 1),
    (1, 1, [1_334, 1_416], [16, 16], 1),
    (100_000, 1, [10_000, 0], [12_000_000, 0], 12_000_000),
];

/// One change in this place among others that owe so many cents together, under the table of rates in use.
pub fn change(both: &mut Both, others: &[Entry], owed: u64, place: usize, change: Change) -> Result<(), String> {
    let (litres, product, ratios, cents, bound) = change;
    let duties = cents.map(|cents| owed + cents);
    for (ratio, duty) in ratios.into_iter().zip(duties) {
        let mut entries = others.to_vec();
        entries.insert(place, [9, litres, ratio, product]);
        let case = format!("{change:?} in place {place} of {}, ratio {ratio}", entries.len());
        expect(&case, both.volume_duty(&volume_of(&entries)), Ok(duty))?;
    }
    must(duties[0].abs_diff(duties[1]) <= bound, &format!("{change:?}, the duty changes by no more than the bound"))?;
    // The random volumes are compared with the bound that the peer works out.
    let own_bound = duty::most_change(&both.rates, &[9, litres, ratios[0], product], ratios[0].abs_diff(ratios[1]));
    must(own_bound == bound as u128, &format!("{change:?}, the peer works out the same bound and not {own_bound}"))
}

/// All made cases about changed ratios; the result is the text of the first difference.
pub fn run(tally: &mut Tally) -> Result<(), String> {
    let mut both = Both::new(Head { code: 2, word: 0x1248_8421, position: 99, mark: 77 }, vec![0xC33C_5AA5; 16], tally);
    for of_entry in CHANGES {
        change(&mut both, &[], 0, 0, of_entry)?;
        for place in 0..3 {
            change(&mut both, &[EXAMPLE, [15, 20_000, 610, 2]], 119_050, place, of_entry)?;
        }
        for place in [0, 127, 128, 1_000, 1_999] {
            change(&mut both, &[GREATEST; 1_999], 23_988_000_000, place, of_entry)?;
        }
    }
    let mut others = vec![GREATEST; 357];
    others.push([0, 91_394, 10_000, 1]);
    for of_entry in AROUND_2_32 {
        for place in [0, 179, 358] {
            change(&mut both, &others, 4_294_967_280, place, of_entry)?;
        }
    }
    Ok(())
}
