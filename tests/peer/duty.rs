//! The component duty of request (e) of document 02 on a shift volume under a table of rates, and the bound of request (f) on its
//! change.

use crate::rates::Rates;
use crate::volume::{self, Fault};

/// The rate in cents per litre of the product of an entry.
fn rate(rates: &Rates, entry: &[u32]) -> u128 {
    rates[entry[3] as usize - 1] as u128
}

/// The litres of an entry times its ratio times the rate of its product.
pub fn undivided(rates: &Rates, entry: &[u32]) -> u128 {
    let [litres, ratio] = [entry[1], entry[2]].map(u128::from);
    litres * ratio * rate(rates, entry)
}

/// The duty on a list of whole entries: each entry's is cut down to whole cents before the sum is taken.
pub fn of_entries(rates: &Rates, list: &[u32]) -> u64 {
    let cents: u128 = list.chunks(4).map(|entry| undivided(rates, entry) / 10_000).sum();
    u64::try_from(cents).unwrap()
}

/// The litres of an entry times the rate of its product times the hundredths by which its ratio changes.
pub fn undivided_change(rates: &Rates, entry: &[u32], hundredths: u32) -> u128 {
    entry[1] as u128 * rate(rates, entry) * hundredths as u128
}

/// The most by which the duty on a volume changes then, if nothing else changes: that over 10,000, rounded up.
pub fn most_change(rates: &Rates, entry: &[u32], hundredths: u32) -> u128 {
    undivided_change(rates, entry, hundredths).div_ceil(10_000)
}

/// Volume duty, which returns the cents: the refusals of reading without 8, then the duty on the entries.
pub fn volume_duty(rates: &Rates, volume: &[u8]) -> Result<u64, u64> {
    let entries = volume::entries_of(volume).map_err(Fault::refusal)?;
    Ok(of_entries(rates, &entries))
}
