//! Inversion tables and sequences, as document 02, f), has it: against stored vectors of another author, by the definition for every table and every
//! sequence up to seven, against an independent implementation up to twenty, and over whole lists: the arrays of S(n,k) give the sequences with k
//! record lows, each one time. Damaged slices, with guard bytes, stand in `damaged.rs`, and n = 0 in `empty.rs`.

mod reference;

use osierdrum::{count, from_inversions, rows, to_array, to_inversions, Refusal};
use reference::{list, shuffled, Random, Reference};
use std::collections::HashSet;

/// The entry that the definition gives for the element at an index: one more than the number of earlier elements that are higher.
fn entry(s: &[u8], i: usize) -> u8 {
    1 + s[..i].iter().filter(|&&earlier| earlier > s[i]).count() as u8
}

/// The elements that are below all before them.
fn record_lows(s: &[u8]) -> usize {
    (0..s.len()).filter(|&i| s[..i].iter().all(|&earlier| s[i] < earlier)).count()
}

/// The i with p(i) = i.
fn fixed_entries(a: &[u8]) -> usize {
    a.iter().zip(1..).filter(|&(&p, i)| p == i).count()
}

/// The call's bytes, where it serves.
fn written(call: impl Fn(&[u8], &mut [u8]) -> Result<(), Refusal>, read: &[u8]) -> Vec<u8> {
    // no value and no entry, so that an unwritten byte shows
    let mut out = vec![99; read.len()];
    assert_eq!(call(read, &mut out), Ok(()), "{read:?}");
    out
}

/// Both calls on a table and its sequence, and what the definition says of them.
fn hold(table: &[u8], sequence: &[u8]) {
    assert_eq!(written(from_inversions, table), sequence, "{table:?}");
    assert_eq!(written(to_inversions, sequence), table, "{sequence:?}");
    assert!((0..table.len()).all(|i| table[i] == entry(sequence, i)), "{table:?} of {sequence:?}");
    assert_eq!(record_lows(sequence), fixed_entries(table), "{table:?} of {sequence:?}");
    let mut values = sequence.to_vec();
    values.sort_unstable();
    assert!(values.iter().zip(1..).all(|(&value, i)| value == i), "{sequence:?}");
}

/// Every table of n entries.
fn tables(n: u8) -> Vec<Vec<u8>> {
    (1..=n).fold(vec![vec![]], |shorter, i| {
        let longer = |table: Vec<u8>| (1..=i).map(move |entry| [&table[..], &[entry]].concat());
        shorter.into_iter().flat_map(longer).collect()
    })
}

#[test]
fn as_stored() {
    let stored = include_str!("vectors/f-inversions.txt");
    assert_eq!(stored.lines().count(), 333);
    let bytes = |part: &str| -> Vec<u8> { part.split(' ').map(|value| value.parse().unwrap()).collect() };
    for line in stored.lines() {
        let parts: Vec<&str> = line.split(" | ").collect();
        let (table, sequence) = (bytes(parts[0]), bytes(parts[1]));
        hold(&table, &sequence);
        assert_eq!(record_lows(&sequence).to_string(), parts[2], "{line}");
    }
}

#[test]
fn every_table_up_to_seven() {
    let mut factorial = 1;
    for n in 0..=7 {
        factorial *= usize::from(n).max(1);
        let mut met = HashSet::new();
        for table in tables(n) {
            let sequence = written(from_inversions, &table);
            hold(&table, &sequence);
            met.insert(sequence);
        }
        assert_eq!(met.len(), factorial, "no two tables of {n} have one sequence");
    }
}

#[test]
fn every_sequence_up_to_seven() {
    for n in 0..=7 {
        let mut met = HashSet::new();
        let mut sequences = 0;
        for sequence in (n.min(1)..=n).flat_map(|k| list(n, k)) {
            let table = written(to_inversions, &sequence);
            hold(&table, &sequence);
            met.insert(table);
            sequences += 1;
        }
        assert_eq!(met.len(), sequences, "no two sequences of {n} have one table");
    }
}

/// The rows of S(n,k) as the library writes them, their arrays read as tables: every sequence of n with k record lows, each one time.
#[test]
fn the_sequences_of_a_list() {
    for n in 0..=7u64 {
        let by_lows = |k: u64| {
            let all = (n.min(1)..=n).flat_map(|cycles| list(n as usize, cycles as usize));
            all.filter(move |sequence| record_lows(sequence) as u64 == k).collect::<HashSet<_>>()
        };
        for k in n.min(1)..=n {
            let size = count(n, k).unwrap();
            let mut met = HashSet::new();
            for place in 0..size {
                let (mut row, mut array) = (vec![0; n as usize], vec![0; n as usize]);
                rows(n, k, place, 1, 0, &mut row).unwrap();
                to_array(&row, &mut array).unwrap();
                assert!(met.insert(written(from_inversions, &array)), "{row:?} of S({n},{k})");
            }
            assert_eq!(met, by_lows(k), "S({n},{k})");
        }
    }
}

#[test]
fn random_tables_and_sequences_up_to_twenty() {
    let reference = Reference::new();
    let mut random = Random(29);
    for n in 0..=20usize {
        for _ in 0..2_000 {
            let table: Vec<u8> = (1..=n as u64).map(|i| 1 + random.below(i) as u8).collect();
            let mut sequence = vec![0; n];
            assert_eq!(reference.from_inversions(&table, &mut sequence), Ok(()));
            hold(&table, &sequence);
            let sequence = shuffled(&mut random, n);
            let mut table = vec![0; n];
            assert_eq!(reference.to_inversions(&sequence, &mut table), Ok(()));
            hold(&table, &sequence);
        }
    }
}

#[test]
fn longest_and_plainest() {
    for n in 0..=20u8 {
        let rising: Vec<u8> = (1..=n).collect();
        let falling: Vec<u8> = (1..=n).rev().collect();
        hold(&vec![1; n.into()], &rising);
        hold(&rising, &falling);
        // the lowest comes last, and all before it are higher
        let mut last = rising.clone();
        last.rotate_left(usize::from(n > 0));
        let table: Vec<u8> = (1..=n).map(|i| if i == n { n } else { 1 }).collect();
        hold(&table, &last);
    }
}

#[test]
fn refusals_in_order() {
    let straight: Vec<u8> = (1..=21).collect();
    for size in [0, 20, 21, 22] {
        assert_eq!(from_inversions(&straight, &mut vec![0; size]), Err(Refusal::Size));
        assert_eq!(to_inversions(&straight, &mut vec![0; size]), Err(Refusal::Size));
    }
    // an entry above its position is no table, be it a value of 1 to n
    assert_eq!(from_inversions(&[2, 1], &mut [0; 2]), Err(Refusal::Value));
    assert_eq!(from_inversions(&[1, 2, 3, 0], &mut [0; 4]), Err(Refusal::Value));
    assert_eq!(from_inversions(&[1, 2, 3, 0], &mut [0; 3]), Err(Refusal::Lent));
    // a table may have an entry twice, a sequence no element
    assert_eq!(from_inversions(&[1, 1], &mut [0; 2]), Ok(()));
    assert_eq!(to_inversions(&[1, 1], &mut [0; 2]), Err(Refusal::Twice));
    // a value out of range, before and after one that stands twice
    for wrong in [[3, 1, 1], [0, 1, 1], [1, 1, 0], [1, 1, 4], [4, 1, 1], [1, 255, 1]] {
        let right = if wrong == [3, 1, 1] { Refusal::Twice } else { Refusal::Value };
        assert_eq!(to_inversions(&wrong, &mut [0; 3]), Err(right), "{wrong:?}");
    }
}
