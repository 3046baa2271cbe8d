//! The calls of document 02, l), taken literally: what stands where is kept, each move is made in it, and a value that is
//! wanted is looked for. No cycle is followed and no number is counted before it is met.

use super::{Reference, MOST};
use std::array::from_fn;

/// The most moves: ten cycles of two.
const MOST_MOVES: usize = 30;

/// What stands at each of the positions from 0 on.
#[derive(PartialEq)]
struct Standing([Option<u8>; MOST + 1]);

impl Standing {
    /// Each value at its own position, and position 0 empty.
    fn identity(n: usize) -> Standing {
        Standing(from_fn(|position| (1..=n).contains(&position).then_some(position as u8)))
    }

    /// A permutation at the positions from 1 on, and position 0 empty.
    fn of(s: &[u8]) -> Standing {
        Standing(from_fn(|position| position.checked_sub(1).and_then(|i| s.get(i).copied())))
    }

    /// Where a value stands.
    fn position(&self, value: u8) -> u8 {
        self.0.iter().position(|&other| other == Some(value)).expect("each value stands somewhere") as u8
    }

    /// Makes a move if it finds its first position occupied and its second empty, and tells whether it did.
    fn makes(&mut self, [from, to]: [u8; 2]) -> bool {
        let [from, to] = [from, to].map(usize::from);
        let found = self.0[from].is_some() && self.0[to].is_none();
        if found {
            self.0[to] = self.0[from].take();
        }
        found
    }
}

impl Reference {
    /// The number of moves. A cycle whose moves are made has every value where `s` has it, as has a cycle of one, so that
    /// the first position without its value is the least of its cycle.
    pub fn moves(&self, s: &[u8], out: &mut [u8]) -> Result<u64, u8> {
        if s.len() > MOST {
            return Err(1);
        }
        Self::permutation(s)?;
        let mut standing = Standing::identity(s.len());
        let mut moves = [[0; 2]; MOST_MOVES];
        let mut count = 0;
        let mut make = |standing: &mut Standing, from, to| {
            assert!(standing.makes([from, to]), "from {from} to {to}");
            moves[count] = [from, to];
            count += 1;
        };
        for (a, &wanted) in (1..).zip(s) {
            if standing.0[usize::from(a)] == Some(wanted) {
                continue;
            }
            make(&mut standing, a, 0);
            let mut empty = a;
            while standing.0[0].is_some() {
                let from = standing.position(s[usize::from(empty) - 1]);
                make(&mut standing, from, empty);
                empty = from;
            }
        }
        let bytes = moves[..count].as_flattened();
        out.get_mut(..bytes.len()).ok_or(5)?.copy_from_slice(bytes);
        Ok(count as u64)
    }

    /// Whether the moves lead from the identity to `s`.
    pub fn check_moves(&self, s: &[u8], moves: &[u8]) -> Result<bool, u8> {
        if s.len() > MOST {
            return Err(1);
        }
        if moves.len() % 2 != 0 {
            return Err(5);
        }
        if moves.iter().any(|&position| usize::from(position) > s.len()) {
            return Err(6);
        }
        Self::permutation(s)?;
        let mut standing = Standing::identity(s.len());
        let made = moves.chunks_exact(2).all(|one| standing.makes([one[0], one[1]]));
        Ok(made && standing == Standing::of(s))
    }
}
