//! Request (i) of document 02: four lines on one stream. The share account, refusal 21 of the calls that take it, and the calls
//! that open a sharing, draw for a line and close the sharing. Sums are made in 128 bits, where none of them wraps.

use crate::calls::{self, Head, LIMIT};

/// The lines are 0 up to, but not including, this number.
pub const LINES: usize = 4;

/// A share account.
#[derive(Clone, Copy, PartialEq, Debug)]
pub struct Account {
    /// Any number but 0 means open.
    pub opened: u64,
    /// What is left of the share of each line.
    pub shares: [u64; LINES],
    /// What is left of the common part.
    pub common: u64,
}

/// The account with which everything begins, and which a closing leaves.
pub const CLOSED: Account = Account { opened: 0, shares: [0; LINES], common: 0 };

impl Account {
    /// Whether sharing is open.
    pub fn is_open(&self) -> bool {
        self.opened != 0
    }

    /// The numbers of the account in their order in memory.
    pub fn numbers(&self) -> [u64; 6] {
        let [first, second, third, fourth] = self.shares;
        [first, second, third, fourth, self.common, self.opened]
    }

    /// What is left of the share of a line and of the common part together. A line over 3 has no share.
    pub fn reach(&self, line: u64) -> u128 {
        let share = usize::try_from(line).ok().and_then(|line| self.shares.get(line)).copied().unwrap_or(0);
        share as u128 + self.common as u128
    }
}

/// The sum of shares.
pub fn sum(shares: [u64; LINES]) -> u128 {
    shares.iter().map(|share| *share as u128).sum()
}

/// Refusal 21 of set up, load, move, test load, enciphering, cipher and an opening.
pub fn must_be_closed(account: &Account) -> Result<(), u64> {
    if account.is_open() {
        return Err(21);
    }
    Ok(())
}

/// Refusal 21 of a draw and a closing.
fn must_be_open(account: &Account) -> Result<(), u64> {
    if !account.is_open() {
        return Err(21);
    }
    Ok(())
}

/// Open sharing.
pub fn open(head: &Head, account: &mut Account, area: &[u32], shares: [u64; LINES]) -> Result<(), u64> {
    must_be_closed(account)?;
    calls::cipher_is_good(head, area, 0)?;
    let left = (LIMIT - head.position) as u128;
    if sum(shares) > left {
        return Err(20);
    }
    *account = Account { opened: 1, shares, common: (left - sum(shares)) as u64 };
    Ok(())
}

/// Draw. Each byte comes from the share of the line as long as something is left of that, and else from the common part.
pub fn draw(head: &mut Head, account: &mut Account, area: &mut [u32], line: u64, bytes: &mut [u8]) -> Result<(), u64> {
    must_be_open(account)?;
    calls::cipher_is_good(head, area, bytes.len())?;
    if line >= LINES as u64 {
        return Err(19);
    }
    if bytes.len() as u128 > account.reach(line) {
        return Err(20);
    }
    calls::cipher(head, area, bytes)?;
    for _ in 0..bytes.len() {
        let share = &mut account.shares[line as usize];
        let from = if *share > 0 { share } else { &mut account.common };
        *from -= 1;
    }
    Ok(())
}

/// Close sharing.
pub fn close(account: &mut Account) -> Result<(), u64> {
    must_be_open(account)?;
    *account = CLOSED;
    Ok(())
}
