//! The library's rows, places and arrays against an independent generator and against stored vectors of another author.

mod reference;

use osierdrum::{count, from_array, rank, rows, to_array, unrank, Rank};
use reference::{list, Random, Reference};

/// A row, its place and its array agree in every call.
fn agrees(n: u64, k: u64, place: u64, row: &[u8]) {
    let size = n as usize;
    let mut out = [0; 20];
    assert_eq!(unrank(n, k, place, &mut out[..size]), Ok(()));
    assert_eq!(&out[..size], row, "row {place} of S({n},{k})");
    let fixed = Reference::fixed(row);
    assert_eq!(rank(row), Ok(Rank { k, place, fixed }), "place of {row:?}");
    let mut array = [0; 20];
    assert_eq!(to_array(row, &mut array[..size]), Ok(fixed));
    assert!(array[..size].iter().zip(1..).all(|(&p, i)| 1 <= p && p <= i), "array {array:?} of {row:?}");
    assert_eq!(array[..size].iter().zip(1..).filter(|(&p, i)| p == *i).count() as u64, k);
    let mut back = [0; 20];
    assert_eq!(Reference::new().from_array(&array[..size], &mut back[..size]), Ok(()));
    assert_eq!(&back[..size], row, "product of {array:?}");
    assert_eq!(from_array(&array[..size], &mut out[..size]), Ok(()));
    assert_eq!(&out[..size], row);
}

#[test]
fn every_row_up_to_eight() {
    for n in 0..=8u64 {
        for k in n.min(1)..=n {
            let expected = list(n as usize, k as usize);
            assert_eq!(count(n, k), Ok(expected.len() as u64));
            for (place, row) in expected.iter().enumerate() {
                agrees(n, k, place as u64, row);
            }
            for (page, part) in expected.chunks(1000).enumerate() {
                let mut buf = vec![0; part.len() * n as usize];
                assert_eq!(rows(n, k, page as u64 * 1000, part.len() as u64, 0, &mut buf), Ok(()));
                assert_eq!(buf, part.concat());
            }
        }
    }
}

#[test]
fn random_places_up_to_twenty() {
    let reference = Reference::new();
    let mut random = Random(1);
    for n in 0..=20u64 {
        for k in n.min(1)..=n {
            let most = count(n, k).unwrap();
            assert_eq!(reference.count(n, k), Ok(most));
            for place in [0, most / 2, most - 1].into_iter().chain((0..200).map(|_| random.below(most))) {
                let mut row = vec![0; n as usize];
                assert_eq!(reference.unrank(n, k, place, &mut row), Ok(()));
                assert_eq!(reference.rank(&row), Ok((k, place, Reference::fixed(&row))));
                agrees(n, k, place, &row);
            }
        }
    }
}

#[test]
fn counts_as_stored() {
    for (n, line) in include_str!("vectors/counts.txt").lines().enumerate() {
        for (k, stored) in line.split(' ').enumerate().skip(n.min(1)) {
            assert_eq!(count(n as u64, k as u64), Ok(stored.parse().unwrap()));
        }
    }
}

fn bytes(text: &str) -> Vec<u8> {
    text.split_whitespace().map(|word| word.parse().unwrap()).collect()
}

/// A line `n k place | permutation | array | i j l`: the row and its array, and the step to the next row.
fn as_stored(line: &str) {
    let parts: Vec<&str> = line.split('|').collect();
    let head: Vec<u64> = parts[0].split_whitespace().map(|word| word.parse().unwrap()).collect();
    let (n, k, place) = (head[0], head[1], head[2]);
    let (row, stored, step) = (bytes(parts[1]), bytes(parts[2]), bytes(parts[3]));
    agrees(n, k, place, &row);
    let mut array = vec![0; row.len()];
    assert_eq!(to_array(&row, &mut array), Ok(Reference::fixed(&row)));
    assert_eq!(array, stored);
    if step == [0, 0, 0] {
        assert_eq!(Ok(place + 1), count(n, k));
        return;
    }
    let [i, j, l] = [step[0], step[1], step[2]].map(|position| usize::from(position) - 1);
    let mut turned = row.clone();
    (turned[i], turned[j], turned[l]) = (row[j], row[l], row[i]);
    let mut next = vec![0; row.len()];
    assert_eq!(unrank(n, k, place + 1, &mut next), Ok(()));
    assert_eq!(next, turned, "{line}");
}

#[test]
fn lists_as_stored() {
    let stored = include_str!("vectors/lists-1-to-7.txt");
    assert_eq!(stored.lines().count(), (1..=7u64).map(|n| (1..=n).product::<u64>()).sum::<u64>() as usize);
    stored.lines().for_each(as_stored);
}

#[test]
fn samples_as_stored() {
    include_str!("vectors/samples-8-to-20.txt").lines().for_each(as_stored);
}
