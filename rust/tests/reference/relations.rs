//! Relations (a) to (e) as document 01 writes them, each list really made and joined row by row, and the explanation of a place as document 02, b),
//! has it, read off these lists: a block holds a permutation if it stands among the block's rows, and what stands before a block is counted in the
//! list as it is read. For small n; shares nothing with the library, nor with the procedure beside it.

use osierdrum::Level;

pub type Row = Vec<u8>;

/// A block of a relation at n and k, in document 01's words.
pub enum Block {
    /// A row that is written out.
    Written(Row),
    /// I(i,[S(n-1,k)]e).
    I { i: usize, e: usize },
    /// E([S(n-1,k-1)]e).
    E { e: usize },
}

/// The letter of the relation for S(n,k), 1 ≤ k ≤ n, and its blocks in written order.
pub fn relation(n: usize, k: usize) -> (u8, Vec<Block>) {
    let written = |row: &[u8]| Block::Written(row.to_vec());
    let i = |i, e| Block::I { i, e };
    let e = |e| Block::E { e };
    let mut blocks = Vec::new();
    let letter = if k == 1 {
        match n {
            1 => blocks.push(written(&[1])),
            2 => blocks.push(written(&[2, 1])),
            3 => blocks.extend([written(&[3, 1, 2]), written(&[2, 3, 1])]),
            4 => blocks.extend([i(1, 0), i(2, 1), i(3, 1)]),
            _ => {
                blocks.push(i(1, 0));
                blocks.extend((4..=n - 1).rev().map(|at| i(at, at + 1)));
                blocks.extend([i(2, 0), i(3, 1)]);
            }
        }
        b'a'
    } else if k == n {
        blocks.push(Block::Written((1..=n as u8).collect()));
        b'b'
    } else if k == n - 1 {
        if n == 3 {
            blocks.extend([i(1, 0), i(2, 0), e(0)]);
        } else {
            blocks.push(i(1, 0));
            blocks.extend((2..=n - 1).rev().filter(|&at| at != n - 2).map(|at| i(at, 0)));
            blocks.extend([i(n - 2, 0), e(1)]);
        }
        b'c'
    } else if k == n - 2 {
        blocks.push(i(1, 0));
        blocks.extend((3..=n - 1).map(|at| i(at, at)));
        blocks.extend([e(0), i(2, 1)]);
        b'd'
    } else {
        blocks.push(i(1, 0));
        blocks.extend((k + 1..=n - 1).rev().map(|at| i(at, at)));
        blocks.push(e(k));
        blocks.extend((2..=k).rev().map(|at| i(at, at - 1)));
        b'e'
    };
    (letter, blocks)
}

/// I(i,γ): position i gets value n, position n gets γ(i).
fn inserted(i: usize, row: &[u8]) -> Row {
    let mut made = row.to_vec();
    made.push(row[i - 1]);
    made[i - 1] = made.len() as u8;
    made
}

/// E(γ): γ with value n added at position n.
fn extended(row: &[u8]) -> Row {
    let mut made = row.to_vec();
    made.push(row.len() as u8 + 1);
    made
}

/// The permutation that levels lead to, their blocks followed downward from n and k.
pub fn followed(n: usize, k: usize, levels: &[Level]) -> Row {
    if n == 0 {
        return Row::new();
    }
    match relation(n, k).1.swap_remove(levels[0].block as usize) {
        Block::Written(row) => row,
        Block::I { i, .. } => inserted(i, &followed(n - 1, k, &levels[1..])),
        Block::E { .. } => extended(&followed(n - 1, k - 1, &levels[1..])),
    }
}

/// The rows that a block gives, each beside the row of S(n-1,k) that it is made from.
struct Part {
    rows: Vec<Row>,
    from: Vec<Row>,
    k: usize,
    turned: bool,
}

struct List {
    letter: u8,
    parts: Vec<Part>,
}

/// Every S(n,k) up to some n, by n and k.
pub struct Lists(Vec<Vec<List>>);

impl Lists {
    pub fn up_to(most: usize) -> Lists {
        let nothing = Part { rows: vec![Row::new()], from: Vec::new(), k: 0, turned: false };
        let mut lists = Lists(vec![vec![List { letter: 0, parts: vec![nothing] }]]);
        for n in 1..=most {
            let none = List { letter: 0, parts: Vec::new() };
            let made = (1..=n).map(|k| lists.joined(n, k));
            let made = std::iter::once(none).chain(made).collect();
            lists.0.push(made);
        }
        lists
    }

    /// S(n,k) from the lists for n - 1. Below a row that is written out stands the one row of its shorter list.
    fn joined(&self, n: usize, k: usize) -> List {
        let (letter, blocks) = relation(n, k);
        let part = |block: &Block| {
            let (shorter, e) = match block {
                Block::Written(_) => (if k == n { k - 1 } else { k }, 0),
                Block::I { e, .. } => (k, *e),
                Block::E { e } => (k - 1, *e),
            };
            let turned = e % 2 == 1;
            let mut from: Vec<Row> = self.rows(n - 1, shorter).cloned().collect();
            if turned {
                from.reverse();
            }
            let made = |row: &Row| match block {
                Block::Written(written) => written.clone(),
                Block::I { i, .. } => inserted(*i, row),
                Block::E { .. } => extended(row),
            };
            Part { rows: from.iter().map(made).collect(), from, k: shorter, turned }
        };
        List { letter, parts: blocks.iter().map(part).collect() }
    }

    /// S(n,k).
    pub fn rows(&self, n: usize, k: usize) -> impl Iterator<Item = &Row> {
        self.0[n][k].parts.iter().flat_map(|part| &part.rows)
    }

    /// The k, the place and the levels of a permutation.
    pub fn explained(&self, s: &[u8]) -> (u64, u64, Vec<Level>) {
        let n = s.len();
        let place_in = |k| self.rows(n, k).position(|row| row == s);
        let (cycles, place) = (0..=n).find_map(|k| Some((k, place_in(k)?))).expect("a permutation is in one list");
        let (mut row, mut k, mut backward) = (s.to_vec(), cycles, false);
        let mut levels = Vec::new();
        for m in (1..=n).rev() {
            let List { letter, parts } = &self.0[m][k];
            let block = parts.iter().position(|part| part.rows.contains(&row)).expect("a block holds the row");
            // each row of the list as it is read, by the block that it stands in
            let mut read: Vec<usize> = (0..parts.len()).flat_map(|j| parts[j].rows.iter().map(move |_| j)).collect();
            if backward {
                read.reverse();
            }
            let before = read.iter().position(|&j| j == block).expect("the block is in its list");
            levels.push(Level { letter: *letter, backward, block: block as u64, before: before as u64 });
            let part = &parts[block];
            let at = part.rows.iter().position(|other| *other == row).expect("the block holds the row");
            row = part.from[at].clone();
            (k, backward) = (part.k, backward != part.turned);
        }
        (cycles as u64, place as u64, levels)
    }
}
