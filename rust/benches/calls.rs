//! Nanoseconds a call through the C boundary, beside the independent Rust implementation of the same contract, in one run: `cargo bench` in rust/.
//! Both are built for release; the inputs are the same random places; buffers are not cleared between calls. At the end the worst time that one call of
//! `find` takes at n = 20, over wishes of many kinds and then over changes to the worst of them.

#[path = "../tests/reference/mod.rs"]
mod reference;

use osierdrum::{
    bell_count, bell_rank, bell_unrank, involution_count, involution_rank, involution_unrank, Level, Refusal,
};
use reference::{shuffled, tree::Tree, Random, Reference};
use std::{hint::black_box, iter::successors, time::Instant};

const PLACES: usize = 256;

/// The least time of several runs over all inputs, in nanoseconds a call.
fn nanoseconds(mut call: impl FnMut(usize)) -> f64 {
    let mut least = f64::INFINITY;
    for _ in 0..15 {
        let start = Instant::now();
        for i in 0..PLACES {
            call(i);
        }
        least = least.min(start.elapsed().as_nanos() as f64 / PLACES as f64);
    }
    least
}

fn line(name: &str, n: u64, ours: f64, theirs: f64) {
    println!("{name:<17} {n:>2} {ours:>12.1} {theirs:>12.1} {:>7.2}", ours / theirs);
}

/// A row with positions freed at random, each with a chance of so many in twenty.
fn freed(random: &mut Random, row: &[u8], in_twenty: u64) -> Vec<u8> {
    row.iter().map(|&value| if random.below(20) < in_twenty { 0 } else { value }).collect()
}

/// A search at n = 20.
#[derive(Clone)]
struct Search {
    k: u64,
    place: u64,
    pattern: Vec<u8>,
}

impl Search {
    /// The least time of many runs, so that what else the machine does is not counted; no more runs once it is not above a time that is known.
    fn nanoseconds(&self, known: f64) -> f64 {
        let mut out = [0; 20];
        let mut least = f64::INFINITY;
        for _ in 0..300 {
            let start = Instant::now();
            let _ = black_box(osierdrum::find(20, self.k, self.place, black_box(&self.pattern), &mut out));
            least = least.min(start.elapsed().as_nanos() as f64);
            if least <= known {
                break;
            }
        }
        least
    }

    /// A search near this one: another wish, another k, or another place, such as the one after some row that meets the wishes.
    fn changed(&self, random: &mut Random) -> Search {
        let Search { mut k, mut place, mut pattern } = self.clone();
        let (one, other) = (random.below(20) as usize, random.below(20) as usize);
        match random.below(5) {
            0 => pattern[one] = 0,
            1 => pattern[one] = other as u8 + 1,
            2 => pattern.swap(one, other),
            3 => k = one as u64 + 1,
            _ => {}
        }
        let rows = osierdrum::count(20, k).expect("1 to 20");
        let from = random.below(rows);
        match random.below(3) {
            0 => place = from,
            1 => place = osierdrum::find(20, k, from, &pattern, &mut [0; 20]).map_or(place, |met| met + 1),
            _ => {}
        }
        Search { k, place: place % rows, pattern }
    }
}

/// The slowest of many searches, and its time.
struct Worst {
    search: Search,
    nanoseconds: f64,
}

impl Worst {
    fn none() -> Worst {
        Worst { search: Search { k: 1, place: 0, pattern: vec![0; 20] }, nanoseconds: 0.0 }
    }

    fn add(&mut self, search: Search) {
        let nanoseconds = search.nanoseconds(self.nanoseconds);
        if nanoseconds > self.nanoseconds {
            *self = Worst { search, nanoseconds };
        }
    }

    /// Times it once more: a time that was too long would stay the worst.
    fn again(&mut self) {
        self.nanoseconds = self.nanoseconds.min(self.search.nanoseconds(0.0));
    }

    fn line(&self, name: &str) {
        println!("{name:<40} {:>2} {:>2} {:>6.1}", 20, self.search.k, self.nanoseconds / 1000.0);
    }
}

/// Makes wishes from a row, by turns.
type Make = fn(&mut Random, &[u8], usize) -> Vec<u8>;

const KINDS: [(&str, Make); 10] = [
    ("none", |_, _, _| vec![0; 20]),
    ("each value at each position alone", |_, _, turn| {
        let mut pattern = vec![0; 20];
        pattern[turn % 20] = (turn / 20 % 20) as u8 + 1;
        pattern
    }),
    ("values 1 and 2", |random, _, _| {
        let other = shuffled(random, 20);
        let mut pattern = vec![0; 20];
        other.iter().zip(1..).take(2).for_each(|(&position, value)| pattern[usize::from(position) - 1] = value);
        pattern
    }),
    ("value 20 at each position, half a row", |random, row, turn| {
        let mut pattern = freed(random, row, 10);
        pattern.iter_mut().filter(|entry| **entry == 20).for_each(|entry| *entry = 0);
        pattern[turn % 20] = 20;
        pattern
    }),
    ("a whole row", |_, row, _| row.to_vec()),
    ("some of a row", |random, row, turn| freed(random, row, turn as u64 % 20)),
    ("some values of a row that are not fixed", |random, row, turn| {
        let moved = |(position, &value)| if value == position { 0 } else { value };
        freed(random, &(1..).zip(row).map(moved).collect::<Vec<u8>>(), turn as u64 % 20)
    }),
    ("some of any permutation", |random, _, turn| {
        let other = shuffled(random, 20);
        freed(random, &other, turn as u64 % 20)
    }),
    ("some fixed points", |random, _, turn| freed(random, &(1..=20).collect::<Vec<u8>>(), turn as u64 % 20)),
    ("a path through all positions", |random, _, _| {
        let mut pattern = vec![0; 20];
        shuffled(random, 20).windows(2).for_each(|two| pattern[usize::from(two[0]) - 1] = two[1]);
        pattern
    }),
];

/// The worst time of one search, for each kind of wishes over every k, from places at, beside and far from the row that the wishes are made from, and at
/// times after each row that meets them; and then what the worst of all comes to when it is changed again and again.
fn worst_search() {
    println!("\n{:<40} {:>2} {:>2} {:>6}", "find: wishes", "n", "k", "µs");
    let mut random = Random(20);
    let mut worst = Worst::none();
    for (name, make) in KINDS {
        let mut of_kind = Worst::none();
        for k in 1..=20 {
            let rows = osierdrum::count(20, k).expect("1 to 20");
            for turn in 0..400 {
                let from = random.below(rows);
                let mut row = [0; 20];
                osierdrum::unrank(20, k, from, &mut row).expect("a place of the list");
                let pattern = make(&mut random, &row, turn);
                let next = |&place: &u64| osierdrum::find(20, k, place, &pattern, &mut [0; 20]).ok().map(|met| met + 1);
                let going_on = successors(Some(0), next).take(if turn % 39 == 0 { 160 } else { 0 });
                for place in [from, (from + 1) % rows, random.below(rows), 0, rows - 1].into_iter().chain(going_on) {
                    of_kind.add(Search { k, place, pattern: pattern.clone() });
                }
            }
            of_kind.again();
        }
        of_kind.line(name);
        if of_kind.nanoseconds > worst.nanoseconds {
            worst = of_kind;
        }
    }
    for step in 0..20_000 {
        worst.add(worst.search.changed(&mut random));
        if step % 200 == 0 {
            worst.again();
        }
    }
    worst.again();
    worst.line("the worst, changed for the worse");
    println!("which is {:?} from place {}", worst.search.pattern, worst.search.place);
}

/// The lines of a list that is a tree: its calls in the library, by their names, beside the reference's.
fn tree_lines(
    names: [&str; 3],
    n: u64,
    random: &mut Random,
    reference: &Tree,
    count: impl Fn(u64) -> Result<u64, Refusal>,
    unrank: impl Fn(u64, u64, &mut [u8]) -> Result<(), Refusal>,
    rank: impl Fn(&[u8]) -> Result<u64, Refusal>,
) {
    let rows = count(n).expect("1 to 20");
    let places: Vec<u64> = (0..PLACES).map(|_| random.below(rows)).collect();
    let mut out = vec![0u8; n as usize];
    let made: Vec<Vec<u8>> = places
        .iter()
        .map(|&place| {
            unrank(n, place, &mut out).expect("a place of the list");
            out.clone()
        })
        .collect();

    let ours = nanoseconds(|_| _ = black_box(count(black_box(n))));
    let theirs = nanoseconds(|_| _ = black_box(reference.count(black_box(n))));
    line(names[0], n, ours, theirs);

    let ours = nanoseconds(|i| _ = black_box(unrank(n, black_box(places[i]), &mut out)));
    let theirs = nanoseconds(|i| _ = black_box(reference.unrank(n, black_box(places[i]), &mut out)));
    line(names[1], n, ours, theirs);

    let ours = nanoseconds(|i| _ = black_box(rank(black_box(&made[i]))));
    let theirs = nanoseconds(|i| _ = black_box(reference.rank(black_box(&made[i]))));
    line(names[2], n, ours, theirs);
}

fn main() {
    let reference = Reference::new();
    let (involutions, bell) = (Tree::involutions(), Tree::bell());
    println!("{:<17} {:>2} {:>12} {:>12} {:>7}", "call", "n", "library ns", "Rust ns", "ratio");
    for n in [5u64, 10, 15, 20] {
        let k = n / 3 + 1;
        let size = n as usize;
        let count = osierdrum::count(n, k).expect("1 to 20");
        let mut random = Random(n);
        let places: Vec<u64> = (0..PLACES).map(|_| random.below(count)).collect();
        let mut out = vec![0u8; size];
        let made: Vec<Vec<u8>> = places
            .iter()
            .map(|&place| {
                osierdrum::unrank(n, k, place, &mut out).expect("a place of the list");
                out.clone()
            })
            .collect();
        let arrays: Vec<Vec<u8>> = made
            .iter()
            .map(|row| {
                osierdrum::to_array(row, &mut out).expect("a permutation");
                out.clone()
            })
            .collect();

        let ours = nanoseconds(|i| _ = black_box(osierdrum::unrank(n, k, black_box(places[i]), &mut out)));
        let theirs = nanoseconds(|i| _ = black_box(reference.unrank(n, k, black_box(places[i]), &mut out)));
        line("unrank", n, ours, theirs);

        let ours = nanoseconds(|i| _ = black_box(osierdrum::rank(black_box(&made[i]))));
        let theirs = nanoseconds(|i| _ = black_box(reference.rank(black_box(&made[i]))));
        line("rank", n, ours, theirs);

        let mut levels = [Level::default(); 20];
        let ours = nanoseconds(|i| _ = black_box(osierdrum::explain_into(black_box(&made[i]), &mut levels)));
        let theirs = nanoseconds(|i| _ = black_box(reference.explain(black_box(&made[i]), &mut levels)));
        line("explain_into", n, ours, theirs);

        let mut pairs = [0u8; 38];
        let to = |i: usize| black_box(&made[(i + 1) % PLACES]);
        let ours = nanoseconds(|i| _ = black_box(osierdrum::exchanges_into(black_box(&made[i]), to(i), &mut pairs)));
        let theirs = nanoseconds(|i| _ = black_box(reference.exchanges(black_box(&made[i]), to(i), &mut pairs)));
        line("exchanges_into", n, ours, theirs);

        let mut bytes = [0u8; 60];
        let ours = nanoseconds(|i| _ = black_box(osierdrum::moves_into(black_box(&made[i]), &mut bytes)));
        let theirs = nanoseconds(|i| _ = black_box(reference.moves(black_box(&made[i]), &mut bytes)));
        line("moves_into", n, ours, theirs);

        let short: Vec<Vec<u8>> =
            made.iter().map(|row| osierdrum::moves(row).expect("a permutation").concat()).collect();
        // 1,000 moves of a value to position 0 and back before them
        let long: Vec<Vec<u8>> = short.iter().map(|list| [&[1, 0, 0, 1].repeat(500), &list[..]].concat()).collect();
        for (name, lists) in [("check_moves", short), ("check_moves, long", long)] {
            let list = |i: usize| black_box(&lists[i]);
            let ours = nanoseconds(|i| _ = black_box(osierdrum::check_moves(black_box(&made[i]), list(i))));
            let theirs = nanoseconds(|i| _ = black_box(reference.check_moves(black_box(&made[i]), list(i))));
            line(name, n, ours, theirs);
        }

        let m = count.min(1000);
        let mut page = vec![0u8; m as usize * size];
        let first: Vec<u64> = places.iter().map(|&place| place.min(count - m)).collect();
        let ours = nanoseconds(|i| _ = black_box(osierdrum::rows(n, k, black_box(first[i]), m, 0, &mut page)));
        let theirs = nanoseconds(|i| _ = black_box(reference.rows(n, k, black_box(first[i]), m, 0, &mut page)));
        line(&format!("rows of {m}"), n, ours, theirs);

        let ours = nanoseconds(|i| _ = black_box(osierdrum::to_array(black_box(&made[i]), &mut out)));
        let theirs = nanoseconds(|i| _ = black_box(reference.to_array(black_box(&made[i]), &mut out)));
        line("to_array", n, ours, theirs);

        let ours = nanoseconds(|i| _ = black_box(osierdrum::from_array(black_box(&arrays[i]), &mut out)));
        let theirs = nanoseconds(|i| _ = black_box(reference.from_array(black_box(&arrays[i]), &mut out)));
        line("from_array", n, ours, theirs);

        let ours = nanoseconds(|i| _ = black_box(osierdrum::to_inversions(black_box(&made[i]), &mut out)));
        let theirs = nanoseconds(|i| _ = black_box(reference.to_inversions(black_box(&made[i]), &mut out)));
        line("to_inversions", n, ours, theirs);

        let ours = nanoseconds(|i| _ = black_box(osierdrum::from_inversions(black_box(&arrays[i]), &mut out)));
        let theirs = nanoseconds(|i| _ = black_box(reference.from_inversions(black_box(&arrays[i]), &mut out)));
        line("from_inversions", n, ours, theirs);

        let pattern: Vec<Vec<u8>> = (0..PLACES).map(|i| freed(&mut random, &made[(i + 1) % PLACES], 10)).collect();
        let entry = |i: usize| black_box(&pattern[i]);
        let ours = nanoseconds(|i| _ = black_box(osierdrum::find(n, k, black_box(places[i]), entry(i), &mut out)));
        let theirs = nanoseconds(|i| _ = black_box(reference.find(n, k, black_box(places[i]), entry(i), &mut out)));
        line("find", n, ours, theirs);

        let names = ["involution_count", "involution_unrank", "involution_rank"];
        tree_lines(names, n, &mut random, &involutions, involution_count, involution_unrank, involution_rank);
        let names = ["bell_count", "bell_unrank", "bell_rank"];
        tree_lines(names, n, &mut random, &bell, bell_count, bell_unrank, bell_rank);
    }
    worst_search();
}
