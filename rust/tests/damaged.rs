//! Numbers, slices and offsets that nobody should hand in, in every call, with guard bytes around what is lent: the refusal is document 01's, and
//! no other byte changes. The same for `explain` stands in `explain.rs`, and for `exchanges` in `exchanges.rs`; more for `find` stands in `find.rs`.
//! More for the involutions and the Bell permutations stands in `trees.rs`, and for the moves in `moves.rs`.

mod reference;

use osierdrum::{
    bell_count, bell_rank, bell_unrank, check_moves, count, find, from_array, from_inversions, involution_count,
    involution_rank, involution_unrank, moves, moves_into, rank, rows, to_array, to_inversions, unrank, Refusal,
};
use reference::{
    damaged, short_slices,
    tree::{paired, parted, Row, Tree},
    Random, Reference,
};
use std::fmt::Debug;

/// Numbers at and beside every bound of document 01, and at the ends of the machine's words.
const NUMBERS: [u64; 22] = [
    0,
    1,
    2,
    3,
    5,
    19,
    20,
    21,
    49,
    50,
    255,
    256,
    999,
    1000,
    1001,
    1 << 32,
    (1 << 63) - 1,
    1 << 63,
    (1 << 63) + 1,
    u64::MAX / 20,
    u64::MAX - 1,
    u64::MAX,
];

/// Runs a call on a part of a larger buffer, and the reference on a copy: same result, same bytes, guards included. Gives the refusal.
fn same<T: PartialEq + Debug>(
    size: usize,
    call: impl Fn(&mut [u8]) -> Result<T, Refusal>,
    expected: impl Fn(&mut [u8]) -> Result<T, u8>,
) -> u8 {
    const GUARD: usize = 32;
    let before: Vec<u8> = (0..size + 2 * GUARD).map(|i| (i * 37 + 11) as u8).collect();
    let (mut ours, mut theirs) = (before.clone(), before.clone());
    let given = call(&mut ours[GUARD..GUARD + size]).map_err(|refusal| refusal as u8);
    let right = expected(&mut theirs[GUARD..GUARD + size]);
    assert_eq!(given, right);
    assert_eq!(ours, theirs);
    if given.is_err() {
        assert_eq!(ours, before);
    }
    given.err().unwrap_or(0)
}

/// The place of a permutation, as the reference has it.
fn ranked(s: &[u8]) -> Result<(u64, u64, u64), u8> {
    rank(s).map(|stands| (stands.k, stands.place, stands.fixed)).map_err(|refusal| refusal as u8)
}

/// The calls of a list that is a tree.
type Count = fn(u64) -> Result<u64, Refusal>;
type Unrank = fn(u64, u64, &mut [u8]) -> Result<(), Refusal>;
type Rank = fn(&[u8]) -> Result<u64, Refusal>;

/// A permutation of such a list has the place, or the slice the refusal, that the reference has. Gives the refusal.
fn ranked_in(reference: &Tree, rank: Rank, s: &[u8]) -> u8 {
    let given = rank(s).map_err(|refusal| refusal as u8);
    assert_eq!(given, reference.rank(s), "{s:?}");
    given.err().unwrap_or(0)
}

/// A list of moves to a slice is valid or not, or refused, as the reference has it. Gives the refusal.
fn listed(reference: &Reference, s: &[u8], list: &[u8]) -> u8 {
    let given = check_moves(s, list).map_err(|refusal| refusal as u8);
    assert_eq!(given, reference.check_moves(s, list), "{s:?} by {list:?}");
    given.err().unwrap_or(0)
}

#[test]
fn numbers_in_count_and_unrank() {
    let reference = Reference::new();
    let mut met = [0u32; 8];
    for n in NUMBERS {
        for k in NUMBERS {
            assert_eq!(count(n, k).map_err(|refusal| refusal as u8), reference.count(n, k));
            for place in NUMBERS {
                for size in [0, 1, 2, 3, 5, 19, 20, 21, 64] {
                    let refusal =
                        same(size, |out| unrank(n, k, place, out), |out| reference.unrank(n, k, place, out));
                    met[usize::from(refusal)] += 1;
                }
            }
        }
    }
    assert!([0, 1, 2, 3, 5].iter().all(|&refusal| met[refusal] > 0), "{met:?}");
}

#[test]
fn numbers_in_rows() {
    let reference = Reference::new();
    let mut met = [0u32; 8];
    for n in NUMBERS {
        for k in NUMBERS {
            for place in [0, 1, 49, 50, 1 << 63, u64::MAX] {
                for m in NUMBERS {
                    for o in NUMBERS {
                        for size in [0, 5, 60, 300] {
                            let refusal = same(
                                size,
                                |buf| rows(n, k, place, m, o, buf),
                                |buf| reference.rows(n, k, place, m, o, buf),
                            );
                            met[usize::from(refusal)] += 1;
                        }
                    }
                }
            }
        }
    }
    assert!([0, 1, 2, 3, 4, 5].iter().all(|&refusal| met[refusal] > 0), "{met:?}");
}

#[test]
fn numbers_in_find() {
    let reference = Reference::new();
    let mut met = [0u32; 15];
    let sizes = || [0, 5, 20, 21].into_iter();
    // free, wished twice, and out of range
    let slices: Vec<Vec<u8>> = sizes().flat_map(|length| [0, 1, 21].map(|entry| vec![entry; length])).collect();
    for n in NUMBERS {
        for k in NUMBERS {
            for place in NUMBERS {
                for (s, size) in slices.iter().flat_map(|s| sizes().map(move |size| (s, size))) {
                    let refusal =
                        same(size, |out| find(n, k, place, s, out), |out| reference.find(n, k, place, s, out));
                    met[usize::from(refusal)] += 1;
                }
            }
        }
    }
    assert!([0, 1, 2, 3, 5, 6, 14].iter().all(|&refusal| met[refusal] > 0), "{met:?}");
}

fn numbers_in_a_tree(reference: &Tree, count: Count, unrank: Unrank) {
    let mut met = [0u32; 8];
    for n in NUMBERS.into_iter().chain(0..=22) {
        let rows = reference.count(n);
        assert_eq!(count(n).map_err(|refusal| refusal as u8), rows);
        let end = rows.unwrap_or(1);
        for place in NUMBERS.into_iter().chain([end - 1, end, end + 1, (1 << 32) + end - 1]) {
            for size in (0..=22).chain([64]) {
                let refusal = same(size, |out| unrank(n, place, out), |out| reference.unrank(n, place, out));
                met[usize::from(refusal)] += 1;
            }
        }
    }
    assert!([0, 1, 3, 5].iter().all(|&refusal| met[refusal] > 0), "{met:?}");
}

#[test]
fn numbers_in_involutions() {
    numbers_in_a_tree(&Tree::involutions(), involution_count, involution_unrank);
}

#[test]
fn numbers_in_bell_permutations() {
    numbers_in_a_tree(&Tree::bell(), bell_count, bell_unrank);
}

/// Slices near some permutation of the list; `kind` is the refusal of one that is not in it.
fn slices_in_a_tree(reference: &Tree, rank: Rank, any: fn(&mut Random, usize) -> Row, kind: Refusal) {
    let mut random = Random(97);
    let mut met = [0u32; 17];
    for _ in 0..60_000 {
        let n = random.below(22);
        let mut s = any(&mut random, n as usize);
        // none to three changes
        for _ in 0..random.below(4) * n.min(1) {
            let (one, other) = (random.below(n) as usize, random.below(n) as usize);
            match random.below(8) {
                0 => s[one] = random.next() as u8,
                1 => s[one] = random.below(n + 2) as u8,
                2 => s[one] = s[other],
                _ => s.swap(one, other),
            }
        }
        met[usize::from(ranked_in(reference, rank, &s))] += 1;
    }
    assert!([0, 1, 6, 7, kind as usize].iter().all(|&refusal| met[refusal] > 1_000), "{met:?}");
}

#[test]
fn slices_in_involution_rank() {
    slices_in_a_tree(&Tree::involutions(), involution_rank, paired, Refusal::Long);
}

#[test]
fn slices_in_bell_rank() {
    slices_in_a_tree(&Tree::bell(), bell_rank, parted, Refusal::Rising);
}

#[test]
fn offsets_in_rows() {
    let reference = Reference::new();
    for (n, k, place, m) in [(5, 2, 0, 50), (5, 2, 49, 1), (20, 10, 12345, 3), (1, 1, 0, 1), (0, 0, 0, 1)] {
        for size in 0..=260 {
            for o in (0..=size as u64 + 2).step_by(3).chain([size as u64, size as u64 + 1, u64::MAX]) {
                same(size, |buf| rows(n, k, place, m, o, buf), |buf| reference.rows(n, k, place, m, o, buf));
            }
        }
    }
}

#[test]
fn slices_in_rank_arrays_and_inversions() {
    let reference = Reference::new();
    let mut random = Random(7);
    let mut met = [[0u32; 8]; 5];
    for _ in 0..60_000 {
        let n = random.below(24) as usize;
        let s = damaged(&mut random, n);
        let size = if random.below(4) == 0 { random.below(24) as usize } else { n };
        let given = ranked(&s);
        assert_eq!(given, reference.rank(&s), "{s:?}");
        met[0][usize::from(given.err().unwrap_or(0))] += 1;
        met[1][usize::from(same(size, |out| to_array(&s, out), |out| reference.to_array(&s, out)))] += 1;
        met[2][usize::from(same(size, |out| from_array(&s, out), |out| reference.from_array(&s, out)))] += 1;
        met[3][usize::from(same(size, |out| to_inversions(&s, out), |out| reference.to_inversions(&s, out)))] += 1;
        met[4][usize::from(same(size, |out| from_inversions(&s, out), |out| reference.from_inversions(&s, out)))] += 1;
    }
    assert!([0, 1, 6, 7].iter().all(|&refusal| met[0][refusal] > 0), "{met:?}");
    for call in [1, 3] {
        assert!([0, 1, 5, 6, 7].iter().all(|&refusal| met[call][refusal] > 0), "{met:?}");
    }
    for call in [2, 4] {
        assert!([0, 1, 5, 6].iter().all(|&refusal| met[call][refusal] > 0), "{met:?}");
    }
}

/// Slices near a permutation, and for each a list near that of the moves to it, or any bytes.
#[test]
fn slices_in_moves() {
    let reference = Reference::new();
    let mut random = Random(139);
    let mut met = [[0u32; 8]; 2];
    for _ in 0..60_000 {
        let n = random.below(22);
        let s = damaged(&mut random, n as usize);
        let size = random.below(64) as usize;
        met[0][usize::from(same(size, |out| moves_into(&s, out), |out| reference.moves(&s, out)))] += 1;
        let any = |random: &mut Random| (0..size).map(|_| random.below(n + 2) as u8).collect();
        let mut list: Vec<u8> = moves(&s).map_or_else(|_| any(&mut random), |made| made.concat());
        for _ in 0..random.below(3) {
            let at = random.below(list.len() as u64 + 1) as usize;
            match random.below(4) {
                0 => list.insert(at, random.below(n + 1) as u8),
                1 => list.truncate(at),
                2 => list.extend([0, random.below(n + 1) as u8]),
                _ => list.extend(random.next().to_le_bytes()),
            }
        }
        met[1][usize::from(listed(&reference, &s, &list))] += 1;
    }
    assert!(met.iter().all(|call| [0, 1, 5, 6, 7].iter().all(|&refusal| call[refusal] > 1_000)), "{met:?}");
}

#[test]
fn every_two_short_slices_in_check_moves() {
    let reference = Reference::new();
    for s in short_slices().filter(|s| s.len() <= 3) {
        for list in short_slices() {
            listed(&reference, &s, &list);
        }
    }
}

#[test]
fn every_short_slice() {
    let reference = Reference::new();
    let (involutions, bell) = (Tree::involutions(), Tree::bell());
    for s in short_slices() {
        assert_eq!(ranked(&s), reference.rank(&s));
        ranked_in(&involutions, involution_rank, &s);
        ranked_in(&bell, bell_rank, &s);
        same(s.len(), |out| to_array(&s, out), |out| reference.to_array(&s, out));
        same(s.len(), |out| from_array(&s, out), |out| reference.from_array(&s, out));
        same(s.len(), |out| to_inversions(&s, out), |out| reference.to_inversions(&s, out));
        same(s.len(), |out| from_inversions(&s, out), |out| reference.from_inversions(&s, out));
        for size in 0..=12 {
            same(size, |out| moves_into(&s, out), |out| reference.moves(&s, out));
        }
        let n = s.len() as u64;
        for (k, place) in (0..=n + 1).flat_map(|k| (0..12).map(move |place| (k, place))) {
            same(s.len(), |out| find(n, k, place, &s, out), |out| reference.find(n, k, place, &s, out));
        }
    }
}

#[test]
fn all_values_before_any_repetition() {
    assert_eq!(rank(&[1, 1, 9]), Err(Refusal::Value));
    assert_eq!(to_array(&[2, 2, 0], &mut [0; 3]), Err(Refusal::Value));
    assert_eq!(to_array(&[2, 2, 0], &mut [0; 4]), Err(Refusal::Lent));
    assert_eq!(to_array(&[2, 2, 1], &mut [0; 3]), Err(Refusal::Twice));
    assert_eq!(to_inversions(&[2, 2, 0], &mut [0; 3]), Err(Refusal::Value));
    assert_eq!(to_inversions(&[2, 2, 0], &mut [0; 4]), Err(Refusal::Lent));
    assert_eq!(to_inversions(&[2, 2, 1], &mut [0; 3]), Err(Refusal::Twice));
    for size in [0, 1, 60] {
        assert_eq!(moves_into(&[2, 2, 0], &mut vec![0; size]), Err(Refusal::Value));
        assert_eq!(moves_into(&[2, 2, 1], &mut vec![0; size]), Err(Refusal::Twice));
    }
    assert_eq!(check_moves(&[2, 2, 0], &[1, 0]), Err(Refusal::Value));
    assert_eq!(check_moves(&[2, 2, 0], &[1, 0, 9]), Err(Refusal::Lent));
    assert_eq!(check_moves(&[2, 2, 1], &[1, 4]), Err(Refusal::Value));
    assert_eq!(check_moves(&[2, 2, 1], &[1, 3]), Err(Refusal::Twice));
    for rank in [involution_rank, bell_rank] {
        assert_eq!(rank(&[1, 1, 9]), Err(Refusal::Value));
        assert_eq!(rank(&[2, 2, 0]), Err(Refusal::Value));
        assert_eq!(rank(&[2, 2, 1]), Err(Refusal::Twice));
    }
}

#[test]
fn all_repetitions_before_any_cycle() {
    let lists: [(Rank, Refusal); 2] = [(involution_rank, Refusal::Long), (bell_rank, Refusal::Rising)];
    for (rank, kind) in lists {
        // 1, 2 and 3 are a cycle of three that does not fall
        assert_eq!(rank(&[2, 3, 1, 0, 4]), Err(Refusal::Value));
        assert_eq!(rank(&[2, 3, 1, 5, 5]), Err(Refusal::Twice));
        assert_eq!(rank(&[2, 3, 1, 5, 4]), Err(kind));
        assert_eq!(rank(&[2, 3, 1]), Err(kind));
        // and a cycle of two falls
        assert_eq!(rank(&[2, 1]), Ok(1));
    }
    assert_eq!(involution_rank(&[2, 1, 3, 5, 4]), Ok(4));
    assert_eq!(bell_rank(&[2, 1, 3, 5, 4]), Ok(15));
    // 3, 2 and 1 are a cycle of three that falls
    assert_eq!(involution_rank(&[3, 1, 2]), Err(Refusal::Long));
    assert_eq!(bell_rank(&[3, 1, 2]), Ok(2));
}
