//! What each line has drawn since an opening, counted from the calls and their answers alone, without the share account. What is
//! left of each share and of the common part follows from these totals.

use crate::calls::LIMIT;
use crate::sharing::{Account, LINES};

#[derive(Clone, Copy, Debug)]
pub struct Drawn {
    /// The shares of the opening.
    shares: [u64; LINES],
    /// Where the sharing was opened.
    start: u64,
    /// The bytes of all accepted draws of each line since then.
    totals: [u64; LINES],
}

impl Drawn {
    /// An accepted opening at a position.
    pub fn new(shares: [u64; LINES], start: u64) -> Drawn {
        Drawn { shares, start, totals: [0; LINES] }
    }

    /// An accepted draw.
    pub fn draw(&mut self, line: u64, bytes: usize) {
        self.totals[line as usize] += bytes as u64;
    }

    /// What each line has not yet drawn of its share: the share less the total, cut at 0.
    pub fn rests(&self) -> [u64; LINES] {
        [0, 1, 2, 3].map(|line| self.shares[line].saturating_sub(self.totals[line]))
    }

    /// What is left of the common part: what the shares left of the stream, less what each line drew beyond its share. It is below
    /// 0 where more was accepted than may be.
    pub fn common(&self) -> i128 {
        let of_shares: i128 = self.shares.iter().map(|share| *share as i128).sum();
        let beyond: i128 = (0..LINES).map(|line| self.totals[line].saturating_sub(self.shares[line]) as i128).sum();
        LIMIT as i128 - self.start as i128 - of_shares - beyond
    }

    /// What a line can draw: the rest of its share and the common part.
    pub fn reach(&self, line: u64) -> i128 {
        self.rests()[line as usize] as i128 + self.common()
    }

    /// The position that draws alone lead to.
    pub fn end(&self) -> u64 {
        self.start + self.totals.iter().sum::<u64>()
    }

    /// What an account differs in from these totals.
    pub fn fault_of(&self, account: &Account) -> Option<String> {
        let (rests, common) = (self.rests(), self.common());
        if account.opened != 1 || account.shares != rests || account.common as i128 != common {
            return Some(format!("the account is {account:?}, from the totals come {rests:?} and {common}"));
        }
        let parts = rests.iter().map(|rest| *rest as i128).sum::<i128>() + common;
        let left = LIMIT as i128 - self.end() as i128;
        (parts != left).then(|| format!("the rests and the common part are {parts} bytes, the stream has {left} left"))
    }
}
