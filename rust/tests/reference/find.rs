//! The first row from a place on that meets wishes: down the generating tree, past every sublist none of whose rows can meet them. Whether some row
//! can is read off the wishes as a graph, its arrows followed.

use super::{calls, Reference, Sigma, MOST};
use std::mem::replace;

impl Sigma {
    /// Whether the product γ·σ meets the wishes for some permutation γ of n with k cycles. γ is to carry the value that stands at a position by now to
    /// the value wished there; values above n it leaves.
    fn can_meet(&self, n: usize, k: usize, pattern: &[u8]) -> bool {
        let mut to = [0; MOST + 1];
        let mut taken = [false; MOST + 1];
        for (&stands, &entry) in self.value[1..].iter().zip(pattern).filter(|(_, &entry)| entry != 0) {
            let (stands, entry) = (usize::from(stands), usize::from(entry));
            let twice = replace(&mut taken[entry], true);
            if twice || (stands.max(entry) > n && stands != entry) {
                return false;
            }
            to[stands] = entry;
        }
        let mut met = [false; MOST + 1];
        let (mut closed, mut free) = (0, 0);
        for from in 1..=n {
            free += usize::from(to[from] == 0);
            if met[from] {
                continue;
            }
            let mut at = from;
            while at != 0 && !met[at] {
                met[at] = true;
                at = to[at];
            }
            closed += usize::from(at == from);
        }
        // a free value ends a path of arrows, and the paths are joined to cycles at will: to one at least, and at the most to one each
        if free == 0 {
            return k == closed;
        }
        closed < k && k <= closed + free
    }
}

impl Reference {
    /// The first row of a sublist, at or after its row `start`, that meets the wishes: how many rows stand before it, and the row itself in σ.
    fn first(&self, sigma: &mut Sigma, n: usize, k: usize, up: bool, start: u64, pattern: &[u8]) -> Option<u64> {
        if start >= self.c[n][k] || !sigma.can_meet(n, k, pattern) {
            return None;
        }
        if n == k {
            return Some(0);
        }
        let instructions = calls(n, k);
        let (mut before, mut at) = (0, 0);
        while let Some(call) = instructions.get(at, up) {
            sigma.left(call.j, n);
            let rest = start.saturating_sub(before);
            if let Some(found) = self.first(sigma, n - 1, call.k, call.up, rest, pattern) {
                return Some(before + found);
            }
            sigma.left(call.j, n);
            before += self.c[n - 1][call.k];
            at += 1;
        }
        None
    }

    pub fn find(&self, n: u64, k: u64, place: u64, pattern: &[u8], out: &mut [u8]) -> Result<u64, u8> {
        let (n, k) = self.numbers(n, k)?;
        if place >= self.c[n][k] {
            return Err(3);
        }
        if pattern.len() != n || out.len() != n {
            return Err(5);
        }
        if pattern.iter().any(|&entry| usize::from(entry) > n) {
            return Err(6);
        }
        let mut sigma = Sigma::identity();
        let found = self.first(&mut sigma, n, k, true, place, pattern).ok_or(14)?;
        out.copy_from_slice(&sigma.value[1..=n]);
        Ok(found)
    }
}
