//! The lists of document 02, j) and k), in two ways that share nothing with the library. Its sentence taken literally,
//! by any rule that says which positions l may be exchanged: the tree walked, climbed and compared by paths, no row
//! counted before it is met. And the three calls up to twenty: what stands below a permutation is counted by the cycles
//! that the positions above can join or be, and passed over at once.

use super::{shuffled, Random, Reference, MOST};
use std::{array::from_fn, iter::successors};

pub type Row = Vec<u8>;

/// Whether position l of a permutation may be exchanged for a child.
pub type Rule = fn(&[u8], usize) -> bool;

/// Whether a permutation is in a list.
pub type Kind = fn(&[u8]) -> bool;

/// j): a position that has its own value.
pub fn own(s: &[u8], position: usize) -> bool {
    usize::from(s[position - 1]) == position
}

/// k): a position that is least in its cycle.
pub fn least(s: &[u8], position: usize) -> bool {
    cycle(s, position).all(|other| other >= position)
}

/// Every l < j: all permutations.
pub fn every(_: &[u8], _: usize) -> bool {
    true
}

/// The cycle of a position, followed from there until it closes.
pub fn cycle(s: &[u8], from: usize) -> impl Iterator<Item = usize> + '_ {
    successors(Some(from), move |&at| Some(usize::from(s[at - 1])).filter(|&to| to != from))
}

/// The identity.
pub fn identity(n: usize) -> Row {
    (1..=n as u8).collect()
}

/// The highest position whose value is away, looked for from the top; 1 if none.
fn highest(s: &[u8]) -> usize {
    (1..=s.len()).rev().find(|&position| !own(s, position)).unwrap_or(1)
}

pub fn exchanged(s: &[u8], l: usize, j: usize) -> Row {
    let mut made = s.to_vec();
    made.swap(l - 1, j - 1);
    made
}

/// The positions l and j that are exchanged for each child, the first child's first.
fn exchanges(rule: Rule, s: &[u8]) -> impl Iterator<Item = (usize, usize)> + '_ {
    (highest(s) + 1..=s.len()).flat_map(move |j| (1..j).filter(move |&l| rule(s, l)).map(move |l| (l, j)))
}

/// A permutation of the list, and the one that has it among its children.
pub struct Met {
    pub row: Row,
    pub parent: Option<Row>,
}

/// A permutation, then its children, each with all its own children before the next.
fn meet(rule: Rule, row: Row, parent: Option<Row>, rows: &mut Vec<Met>) {
    rows.push(Met { row: row.clone(), parent });
    for (l, j) in exchanges(rule, &row) {
        meet(rule, exchanged(&row, l, j), Some(row.clone()), rows);
    }
}

/// Every permutation of the list of n, in order.
pub fn walk(rule: Rule, n: usize) -> Vec<Met> {
    let mut rows = Vec::new();
    meet(rule, identity(n), None, &mut rows);
    rows
}

/// The same without the parents.
pub fn list(rule: Rule, n: usize) -> Vec<Row> {
    walk(rule, n).into_iter().map(|met| met.row).collect()
}

/// The positions l and j whose exchange leads back to the parent: the highest position whose value is away, and the one
/// where that value stands. The identity has no parent.
pub fn back(s: &[u8]) -> Option<(usize, usize)> {
    let j = highest(s);
    let stands = s.iter().position(|&value| usize::from(value) == j)? + 1;
    Some((stands, j)).filter(|_| stands != j)
}

/// The permutation that has this one among its children, and the child's number from 0.
fn parent(rule: Rule, s: &[u8]) -> Option<(Row, usize)> {
    let (l, j) = back(s)?;
    let above = exchanged(s, l, j);
    let number = exchanges(rule, &above).position(|pair| pair == (l, j))?;
    Some((above, number))
}

/// The numbers of the children that lead from the identity to a permutation. Of two permutations the one with the lesser
/// path comes first, and a path is less than one that goes on from it.
pub fn path(rule: Rule, s: &[u8]) -> Vec<usize> {
    let Some((above, number)) = parent(rule, s) else {
        assert_eq!(s, identity(s.len()), "not in the list");
        return Vec::new();
    };
    let mut path = path(rule, &above);
    path.push(number);
    path
}

/// The row after a permutation: its first child, or else the next child above.
pub fn next(rule: Rule, s: &[u8]) -> Option<Row> {
    let child = |s: &[u8], number| exchanges(rule, s).nth(number).map(|(l, j)| exchanged(s, l, j));
    let mut after = child(s, 0);
    let mut at = s.to_vec();
    while after.is_none() {
        let (above, number) = parent(rule, &at)?;
        after = child(&above, number + 1);
        at = above;
    }
    after
}

/// The cycles, each written from its highest number.
fn cycles(s: &[u8]) -> impl Iterator<Item = Vec<usize>> + '_ {
    let highest = |&from: &usize| cycle(s, from).all(|other| other <= from);
    (1..=s.len()).filter(highest).map(|from| cycle(s, from).collect())
}

/// Whether no cycle is longer than two.
pub fn in_pairs(s: &[u8]) -> bool {
    cycles(s).all(|cycle| cycle.len() <= 2)
}

/// Whether each cycle falls from its highest number to its lowest.
pub fn falling(s: &[u8]) -> bool {
    cycles(s).all(|cycle| cycle.windows(2).all(|two| two[0] > two[1]))
}

/// Makes one cycle of positions that have their own value, each with the next as its value.
pub fn join(s: &mut [u8], cycle: &[usize]) {
    cycle.iter().zip(cycle.iter().cycle().skip(1)).for_each(|(&from, &to)| s[from - 1] = to as u8);
}

/// An involution with any number of pairs.
pub fn paired(random: &mut Random, n: usize) -> Row {
    let pairs = random.below(n as u64 / 2 + 1) as usize;
    let mut s = identity(n);
    for pair in shuffled(random, n).chunks_exact(2).take(pairs) {
        s.swap(usize::from(pair[0]) - 1, usize::from(pair[1]) - 1);
    }
    s
}

/// A Bell permutation with any number of cycles: each number in one of so many sets, and each set a falling cycle.
pub fn parted(random: &mut Random, n: usize) -> Row {
    let mut sets = vec![Vec::new(); random.below(n as u64 + 1) as usize + 1];
    for number in (1..=n).rev() {
        let set = random.below(sets.len() as u64) as usize;
        sets[set].push(number);
    }
    let mut s = identity(n);
    sets.iter().for_each(|set| join(&mut s, set));
    s
}

/// The ways to choose so many of n.
fn choose(n: usize, many: usize) -> u64 {
    (0..many).fold(1, |ways, i| ways * (n - i) as u64 / (i as u64 + 1))
}

/// The three calls of a list with their refusals.
pub struct Tree {
    /// How many rows a permutation and all below it are, by two numbers: of the positions up to the highest exchanged,
    /// those that may be exchanged; and the positions above.
    rows: [[u64; MOST + 1]; MOST + 1],
    /// Whether a position may be exchanged with a higher one a single time.
    once: bool,
    kind: Kind,
    refusal: u8,
}

impl Tree {
    /// Each position's value leads back to the position.
    pub fn involutions() -> Tree {
        let kind = |s: &[u8]| (1..).zip(s).all(|(position, &value)| s[usize::from(value) - 1] == position);
        Tree { rows: Tree::rows(true), once: true, kind, refusal: 15 }
    }

    /// Each cycle goes up, or stays, one time at least: at its least position. It falls if it does so no second time.
    pub fn bell() -> Tree {
        let kind = |s: &[u8]| (1..).zip(s).filter(|&(at, &to)| to >= at).count() == Reference::cycles(s);
        Tree { rows: Tree::rows(false), once: false, kind, refusal: 16 }
    }

    /// No two of the lower positions come into one cycle. So some of the upper positions join the cycle of a lower one
    /// each, and those that are left have any permutation of the kind of their own.
    fn rows(once: bool) -> [[u64; MOST + 1]; MOST + 1] {
        // those of their own: the last one's cycle takes any so many of the others, and the rest have theirs again
        let mut alone = [1; MOST + 1];
        for others in 1..MOST {
            let taken = 0..=if once { 1 } else { others };
            alone[others + 1] = taken.map(|taken| choose(others, taken) * alone[others - taken]).sum();
        }
        let join = |lower: usize, upper: usize| -> u64 {
            (0..upper).map(|joined| lower.saturating_sub(if once { joined } else { 0 }) as u64).product()
        };
        let rows = |lower: usize, upper: usize| {
            if lower + upper > MOST {
                return 0;
            }
            (0..=upper).map(|joining| choose(upper, joining) * join(lower, joining) * alone[upper - joining]).sum()
        };
        from_fn(|lower| from_fn(|upper| rows(lower, upper)))
    }

    /// The rows from each child on that exchanges position j with one of so many below it: j may not be exchanged any
    /// more, and the other perhaps.
    fn each(&self, n: usize, j: usize, below: usize) -> u64 {
        below.checked_sub(usize::from(self.once)).map_or(0, |left| self.rows[left][n - j])
    }

    pub fn count(&self, n: u64) -> Result<u64, u8> {
        if n > MOST as u64 {
            return Err(1);
        }
        Ok(self.rows[0][n as usize])
    }

    pub fn unrank(&self, n: u64, place: u64, out: &mut [u8]) -> Result<(), u8> {
        if place >= self.count(n)? {
            return Err(3);
        }
        let n = n as usize;
        if out.len() != n {
            return Err(5);
        }
        out.copy_from_slice(&identity(n));
        // the rows before the one looked for, from the permutation at hand on, which is itself the first of them
        let mut left = place;
        let mut below = Vec::with_capacity(MOST);
        for j in 1..=n {
            if left == 0 {
                break;
            }
            let each = self.each(n, j, below.len());
            let children = each * below.len() as u64;
            if left <= children {
                let passed = ((left - 1) / each) as usize;
                left = (left - 1) % each;
                out.swap(below[passed] - 1, j - 1);
                self.leave(&mut below, passed);
            } else {
                left -= children;
                below.push(j);
            }
        }
        Ok(())
    }

    pub fn rank(&self, s: &[u8]) -> Result<u64, u8> {
        if s.len() > MOST {
            return Err(1);
        }
        Reference::permutation(s)?;
        if !(self.kind)(s) {
            return Err(self.refusal);
        }
        let mut place = 0;
        let mut below = Vec::with_capacity(MOST);
        for j in (1..=s.len()).take(highest(s)) {
            let each = self.each(s.len(), j, below.len());
            // a position is exchanged with the least of its cycle, if it is not that itself
            let lowest = cycle(s, j).min();
            if let Some(passed) = below.iter().position(|&other| Some(other) == lowest) {
                place += 1 + each * passed as u64;
                self.leave(&mut below, passed);
            } else {
                place += each * below.len() as u64;
                below.push(j);
            }
        }
        Ok(place)
    }

    /// Takes the position that was exchanged from those that may be, if it may not again.
    fn leave(&self, below: &mut Vec<usize>, passed: usize) {
        if self.once {
            below.remove(passed);
        }
    }
}
