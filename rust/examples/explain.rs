//! What made it place 38: a place followed by hand, down through the blocks that hold the permutation and up again.
//! `cargo run --example explain`

use osierdrum::{explain, Level, Refusal};

/// The position where a block puts value m, in the relation that gives S(m,k); it is m where the block extends.
fn position(m: u64, k: u64, level: &Level) -> u64 {
    let down = |from: u64, to: u64| (to..=from).rev();
    let blocks: Vec<u64> = match level.letter {
        b'a' if m < 4 => vec![1, 2],
        b'a' => [1].into_iter().chain(down(m - 1, 4)).chain([2, 3]).collect(),
        b'b' => vec![m],
        b'c' if m == 3 => vec![1, 2, 3],
        b'c' => [1, m - 1].into_iter().chain(down(m - 3, 2)).chain([m - 2, m]).collect(),
        b'd' => [1].into_iter().chain(3..m).chain([m, 2]).collect(),
        _ => [1].into_iter().chain(down(m - 1, k + 1)).chain([m]).chain(down(k, 2)).collect(),
    };
    blocks[level.block as usize]
}

/// The values with spaces between.
fn row(s: &[u8]) -> String {
    s.iter().map(u8::to_string).collect::<Vec<_>>().join(" ")
}

/// The explanation of a permutation's place as text: the sum downward from n, then the permutation upward from size 1.
pub fn story(s: &[u8]) -> Result<String, Refusal> {
    let why = explain(s)?;
    let n = s.len() as u64;
    let mut text = format!("{} stands at place {} of S({n},{}).\n", row(s), why.place, why.k);

    text += "\nDown: the block that holds it at each size, and how many stand before that block.\n";
    let (mut k, mut sum) = (why.k, 0);
    let mut blocks = Vec::new();
    for (level, m) in why.levels.iter().zip((1..=n).rev()) {
        let Level { block, before, .. } = level;
        let letter = char::from(level.letter);
        let reading = if level.backward { "backward" } else { "forward" };
        sum += before;
        text += &format!("S({m},{k}) by ({letter}), block {block}, read {reading}: {before} before, {sum} in all\n");
        let i = position(m, k, level);
        blocks.push((m, k, block, i));
        k -= u64::from(i == m); // a block that extends is made from a list with one cycle less
    }

    text += "\nUp: each block puts the next value at its position, and what stood there goes to the end.\n";
    let mut made = Vec::new();
    for (m, k, block, i) in blocks.into_iter().rev() {
        made.push(m as u8);
        made.swap(i as usize - 1, m as usize - 1);
        text += &format!("S({m},{k}) block {block} puts {m} at position {i}: {}\n", row(&made));
    }
    Ok(text)
}

#[allow(dead_code)] // the tests include this file for its story
fn main() -> Result<(), Refusal> {
    print!("{}", story(&[3, 1, 4, 2, 5])?);
    Ok(())
}
