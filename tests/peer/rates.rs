//! Tables of rates: ours of request (e) of document 02, and what request (n) makes of a string that a refinery loads. The string
//! is split into numbers before any of them is judged; then all that is wrong with it is listed, and the first of that counts.

use crate::calls;
use crate::volume::{value_of, Number};

/// A table: the rates in cents per litre of products 1 to 8.
pub type Rates = [u16; 8];

/// Our rates.
pub const OURS: Rates = [120, 95, 95, 60, 40, 40, 15, 0];

/// The count of pairs, with which a string begins.
pub const COUNT: Number = Number { name: "count", smallest: 0, largest: 8 };

/// The two numbers of a pair, in their order.
pub const PAIR: [Number; 2] =
    [Number { name: "product", smallest: 1, largest: 8 }, Number { name: "rate", smallest: 0, largest: 65_535 }];

/// The most groups of a number.
const MOST_GROUPS: usize = 3;

/// What is wrong with a string in some place. A number that earns 24 and 25 gets 24, so 25 is the last one here.
#[derive(Clone, Copy, PartialEq, Eq, PartialOrd, Ord, Debug)]
pub enum Fault {
    /// The string ends before the last group of the number.
    Ends,
    /// The third group of the number announces another.
    ThirdAnnounces,
    /// The number is not in shortest form.
    NotShortest,
    /// The value of the number is out of its range.
    OutOfRange,
    /// There are bytes after the last pair.
    BytesAfter,
    /// The number is a product and not above the one before.
    NotAbove,
}

impl Fault {
    /// The refusal that the fault gets.
    pub fn refusal(self) -> u64 {
        match self {
            Fault::NotAbove => 25,
            _ => 24,
        }
    }

    /// The refusal and what it is given for.
    pub fn kind(self) -> &'static str {
        match self {
            Fault::Ends => "24 ends before the last group",
            Fault::ThirdAnnounces => "24 third group announces another",
            Fault::NotShortest => "24 not in shortest form",
            Fault::OutOfRange => "24 out of range",
            Fault::BytesAfter => "24 bytes after the last pair",
            Fault::NotAbove => "25 not above the one before",
        }
    }
}

/// The number that a place of a string is for: the count in place 0, then a product and a rate for each pair.
pub fn number_at(place: usize) -> &'static Number {
    match place {
        0 => &COUNT,
        _ => &PAIR[(place - 1) % 2],
    }
}

/// The numbers of a string, each as its groups. A number ends with a group that announces no other, but with its third at the
/// latest, or with the string.
fn numbers_of(string: &[u8]) -> Vec<&[u8]> {
    string.split_inclusive(|byte| *byte < 0x80).flat_map(|groups| groups.chunks(MOST_GROUPS)).collect()
}

/// All faults of a string with their places, those after the first fault being of no account. The place after the last number is
/// that of a missing number and of bytes left over.
pub fn faults_of(string: &[u8]) -> Vec<(usize, Fault)> {
    let numbers = numbers_of(string);
    let values: Vec<u32> = numbers.iter().map(|groups| value_of(groups)).collect();
    let expected = 1 + 2 * values.first().map_or(0, |count| *count as usize);
    let mut faults = Vec::new();
    for (place, groups) in numbers.iter().enumerate().take(expected) {
        let last = groups[groups.len() - 1];
        let is_later_product = place >= 3 && place % 2 == 1;
        let mut fault = |holds: bool, fault: Fault| {
            if holds {
                faults.push((place, fault));
            }
        };
        fault(last >= 0x80 && groups.len() < MOST_GROUPS, Fault::Ends);
        fault(last >= 0x80 && groups.len() == MOST_GROUPS, Fault::ThirdAnnounces);
        fault(last == 0 && groups.len() > 1, Fault::NotShortest);
        fault(!number_at(place).has(values[place]), Fault::OutOfRange);
        fault(is_later_product && values[place] <= values[place - 2], Fault::NotAbove);
    }
    if numbers.len() < expected {
        faults.push((numbers.len(), Fault::Ends));
    }
    if numbers.len() > expected {
        faults.push((expected, Fault::BytesAfter));
    }
    faults
}

/// The table of a string, or its first fault in reading order.
pub fn table_of(string: &[u8]) -> Result<Rates, (usize, Fault)> {
    if let Some(first) = faults_of(string).into_iter().min() {
        return Err(first);
    }
    let values: Vec<u32> = numbers_of(string).into_iter().map(value_of).collect();
    let rate_of = |product: u32| values[1..].chunks(2).find(|pair| pair[0] == product).map_or(0, |pair| pair[1]);
    Ok([1, 2, 3, 4, 5, 6, 7, 8].map(|product| rate_of(product) as u16))
}

/// Load rates. Where the string is refused, the table in use stays.
pub fn load(in_use: &mut Rates, string: &[u8]) -> Result<(), u64> {
    *in_use = table_of(string).map_err(|(_, fault)| fault.refusal())?;
    Ok(())
}

/// The string of a list of pairs.
pub fn string_of(pairs: &[[u32; 2]]) -> Vec<u8> {
    let count = pairs.len() as u64;
    [count].into_iter().chain(pairs.iter().flatten().map(|value| *value as u64)).flat_map(calls::groups_of).collect()
}
