//! How many values stand at their own position, as document 02, e), has it: as written, against another author's shows, against the numbers of
//! permutations with a given number of fixed points, and the whole results of the two calls as the library hands them back, zeros on a refusal.

mod reference;

/// The calls as the library has them: the safe ones drop what stands beside a refusal.
#[path = "../src/ffi.rs"]
#[allow(dead_code)]
mod ffi;

use osierdrum::{rank, to_array, Level, Rank};
use reference::{beside, list, short_slices, Reference};

/// The number that both calls report, and the fixed entries of the array.
fn reported(s: &[u8]) -> (u64, u64) {
    let mut array = vec![0; s.len()];
    let fixed = to_array(s, &mut array).unwrap();
    let stands = rank(s).unwrap();
    assert_eq!(stands.fixed, fixed, "{s:?}");
    let entries = array.iter().zip(1..).filter(|&(&entry, i)| entry == i).count() as u64;
    assert_eq!(stands.k, entries, "{s:?}");
    (fixed, entries)
}

#[test]
fn fixed_points_are_not_fixed_entries() {
    assert_eq!(reported(&[3, 1, 4, 2, 5]), (1, 2));
    assert_eq!(reported(&[2, 1, 3, 4]), (2, 3));
    assert_eq!(reported(&[2, 1]), (0, 1));
    assert_eq!(reported(&[4, 2, 1, 3]), (1, 2));
    assert_eq!(rank(&[2, 1, 3, 4]), Ok(Rank { k: 3, place: 3, fixed: 2 }));
    for n in 0..=20 {
        let identity: Vec<u8> = (1..=n).collect();
        assert_eq!(reported(&identity), (n.into(), n.into()));
        let round: Vec<u8> = identity.iter().map(|i| i % n + 1).collect();
        assert_eq!(reported(&round), (u64::from(n == 1), n.min(1).into()));
    }
}

/// The number that a show of another author's plain machine hands out, for the permutation beside it.
#[test]
fn as_shown() {
    let stored = include_str!("../../crates/calls/stdout");
    let mut shows = 0;
    for line in stored.lines().filter(|line| line.starts_with("show")) {
        let parts: Vec<&str> = line.split(" | ").collect();
        let n: usize = parts[1].split(' ').next().unwrap().parse().unwrap();
        let answer: Vec<&str> = parts[2].split(' ').collect();
        assert_eq!(answer[0], "0");
        let row: Vec<u8> = answer[6].split('.').take(n).map(|value| value.parse().unwrap()).collect();
        assert_eq!(reported(&row).0, answer[8].parse().unwrap(), "{line}");
        shows += 1;
    }
    assert_eq!(shows, 148);
}

/// n over f, times the permutations of n - f without a fixed point, have f of them.
#[test]
fn as_many_permutations_as_there_are() {
    let mut without = vec![1u64, 0]; // permutations of n without a fixed point
    for n in 2..=8u64 {
        let last = without.len() - 1;
        without.push((n - 1) * (without[last] + without[last - 1]));
    }
    for n in 0..=8usize {
        let mut met = vec![0u64; n + 1];
        for k in n.min(1)..=n {
            for row in list(n, k) {
                let (fixed, _) = reported(&row);
                met[fixed as usize] += 1;
            }
        }
        let mut over = 1;
        for (f, &met) in met.iter().enumerate() {
            assert_eq!(met, over * without[n - f], "{f} of {n}");
            over = over * (n - f) as u64 / (f as u64 + 1);
        }
    }
}

#[test]
fn zeros_beside_a_refusal() {
    let reference = Reference::new();
    let mut met = [[0u32; 8]; 2];
    for s in short_slices().chain([vec![1; 21], (1..=21).collect()]) {
        // SAFETY: the pointer and the length are those of one slice.
        let given = unsafe { ffi::osierdrum_rank(s.as_ptr(), s.len()) };
        let (refusal, (k, place, fixed)) = beside(reference.rank(&s));
        assert_eq!((given.refusal, given.k, given.place, given.fixed), (refusal, k, place, fixed), "{s:?}");
        met[0][usize::from(refusal)] += 1;
        for size in [s.len(), s.len() + 1] {
            let mut out = vec![99; size];
            // SAFETY: each pointer and length are those of one slice, and the written one is ours alone.
            let given = unsafe { ffi::osierdrum_to_array(s.as_ptr(), s.len(), out.as_mut_ptr(), out.len()) };
            let (refusal, fixed) = beside(reference.to_array(&s, &mut vec![0; size]));
            assert_eq!((given.refusal, given.fixed), (refusal, fixed), "{s:?} into {size}");
            met[1][usize::from(refusal)] += 1;
        }
    }
    assert!([0, 1, 6, 7].iter().all(|&refusal| met[0][refusal] > 0), "{met:?}");
    assert!([0, 1, 5, 6, 7].iter().all(|&refusal| met[1][refusal] > 0), "{met:?}");
}
