//! The exchanges from one permutation to another, as document 02, c), has it: against stored vectors of another author, against a search through all
//! lists of pairs, against the array of a carrying permutation that is known, and with damaged permutations and too short or too long a buffer.

mod reference;

use osierdrum::{exchanges, exchanges_into, Exchanges, Refusal};
use reference::{damaged, list, short_slices, shuffled, Random, Reference};
use std::collections::{HashMap, VecDeque};

/// Runs the call on `size` bytes of a longer buffer, and the reference on a copy: same result, same bytes, those beside the lent ones too.
fn same(reference: &Reference, from: &[u8], to: &[u8], size: usize) -> u8 {
    const GUARD: usize = 8;
    // no call writes such a byte
    let before: Vec<u8> = (0..size + 2 * GUARD).map(|i| 50 + (i % 200) as u8).collect();
    let (mut ours, mut theirs) = (before.clone(), before.clone());
    let given = exchanges_into(from, to, &mut ours[GUARD..GUARD + size]).map_err(|refusal| refusal as u8);
    let right = reference.exchanges(from, to, &mut theirs[GUARD..GUARD + size]);
    assert_eq!(given.map(|made| (made.count, made.written)), right, "{from:?} to {to:?} with {size}");
    assert_eq!(ours, theirs, "{from:?} to {to:?} with {size}");
    let written = given.map_or(0, |made| 2 * made.count as usize);
    assert_eq!(ours[..GUARD], before[..GUARD]);
    assert_eq!(ours[GUARD + written..], before[GUARD + written..], "{from:?} to {to:?} with {size}");
    given.err().unwrap_or(0)
}

/// The permutation u that carries one to the other: `from` has at position u(i) what `to` has at i.
fn carrying(from: &[u8], to: &[u8]) -> Vec<u8> {
    let stands = |value: &u8| from.iter().position(|other| other == value).expect("both hold the same values");
    let u: Vec<u8> = to.iter().map(|value| stands(value) as u8 + 1).collect();
    assert!((0..to.len()).all(|i| from[usize::from(u[i]) - 1] == to[i]), "{from:?} to {to:?}");
    u
}

/// The cycles of a permutation, each counted at its least position: the cycle comes back there and passes none before it.
fn cycles(u: &[u8]) -> usize {
    let least = |&i: &usize| {
        let mut at = usize::from(u[i]) - 1;
        while at > i {
            at = usize::from(u[at]) - 1;
        }
        at == i
    };
    (0..u.len()).filter(least).count()
}

/// What document 02 asks of every list of pairs. No other list has p(i) < i, i rising, and the effect, since a permutation has just one array.
fn holds(from: &[u8], to: &[u8], pairs: &[[u8; 2]]) {
    let n = from.len();
    assert!(pairs.iter().all(|&[p, i]| 1 <= p && p < i && usize::from(i) <= n), "{pairs:?}");
    assert!(pairs.windows(2).all(|two| two[0][1] < two[1][1]), "{pairs:?}");
    let mut row = from.to_vec();
    for &[p, i] in pairs {
        row.swap(usize::from(p) - 1, usize::from(i) - 1);
    }
    assert_eq!(row, to, "{from:?} by {pairs:?}");
    assert_eq!(pairs.len(), n - cycles(&carrying(from, to)), "{from:?} to {to:?}");
}

/// How many exchanges of any two positions lead from a permutation to each other one, the nearest met first.
fn distances(from: &[u8]) -> HashMap<Vec<u8>, usize> {
    let mut away = HashMap::from([(from.to_vec(), 0)]);
    let mut met = VecDeque::from([from.to_vec()]);
    while let Some(row) = met.pop_front() {
        let further = away[&row] + 1;
        for (a, b) in (0..row.len()).flat_map(|b| (0..b).map(move |a| (a, b))) {
            let mut next = row.clone();
            next.swap(a, b);
            if !away.contains_key(&next) {
                away.insert(next.clone(), further);
                met.push_back(next);
            }
        }
    }
    away
}

/// Two permutations of n, and between them the permutation of k cycles that carries the first to the second.
fn carried(reference: &Reference, random: &mut Random, n: u64, k: u64) -> [Vec<u8>; 3] {
    let place = random.below(reference.count(n, k).unwrap());
    let mut u = vec![0; n as usize];
    assert_eq!(reference.unrank(n, k, place, &mut u), Ok(()));
    let from = shuffled(random, u.len());
    let to = u.iter().map(|&i| from[usize::from(i) - 1]).collect();
    [from, u, to]
}

#[test]
fn as_stored() {
    let stored = include_str!("vectors/c-exchanges.txt");
    assert_eq!(stored.lines().count(), 358);
    let bytes = |row: &str| -> Vec<u8> { row.split(' ').map(|value| value.parse().unwrap()).collect() };
    for line in stored.lines() {
        let (first, rest) = line.split_once(" | ").unwrap();
        let (second, _) = rest.split_once(" | ").unwrap();
        let (from, to) = (bytes(first), bytes(second));
        let pairs = exchanges(&from, &to).unwrap();
        let text: Vec<String> = pairs.iter().map(|[p, i]| format!("{p} {i}")).collect();
        assert_eq!(format!("{first} | {second} | {}", text.join("; ")), line);
        holds(&from, &to, &pairs);
    }
}

#[test]
fn every_two_up_to_five() {
    let reference = Reference::new();
    let mut met = 0;
    for n in 0..=5 {
        for from in (n.min(1)..=n).flat_map(|k| list(n, k)) {
            for (to, least) in distances(&from) {
                let pairs = exchanges(&from, &to).unwrap();
                assert_eq!(pairs.len(), least, "{from:?} to {to:?}");
                holds(&from, &to, &pairs);
                assert_eq!(same(&reference, &from, &to, 2 * least), 0);
                met += 1;
            }
        }
    }
    assert_eq!(met, 1 + 1 + 2 * 2 + 6 * 6 + 24 * 24 + 120 * 120);
}

#[test]
fn random_pairs_up_to_twenty() {
    let reference = Reference::new();
    let mut random = Random(13);
    for n in 0..=20u64 {
        for k in (n.min(1)..=n).flat_map(|k| [k; 100]) {
            let [from, u, to] = carried(&reference, &mut random, n, k);
            let mut array = vec![0; u.len()];
            assert_eq!(reference.to_array(&u, &mut array), Ok(Reference::fixed(&u)));
            let right: Vec<[u8; 2]> = array.into_iter().zip(1..).map(<[u8; 2]>::from).filter(|[p, i]| p != i).collect();
            assert_eq!(right.len() as u64, n - k);
            assert_eq!(exchanges(&from, &to).as_ref(), Ok(&right), "{from:?} to {to:?}");
            holds(&from, &to, &right);
            assert_eq!(same(&reference, &from, &to, 2 * right.len()), 0);
        }
    }
}

#[test]
fn bytes_lent() {
    let reference = Reference::new();
    let mut random = Random(17);
    for n in 0..=20u64 {
        for k in n.min(1)..=n {
            let [from, _, to] = carried(&reference, &mut random, n, k);
            let needed = 2 * (n - k) as usize;
            for size in (0..=needed + 3).chain([64, 255, 256, 1000]) {
                let right = if size < needed { 5 } else { 0 };
                assert_eq!(same(&reference, &from, &to, size), right, "{from:?} to {to:?} with {size}");
            }
        }
    }
}

#[test]
fn equal_permutations_give_none() {
    let mut random = Random(19);
    for n in 0..=20 {
        let s = shuffled(&mut random, n);
        let mut lent = [7; 40];
        for to in [&s, &s.clone()] {
            assert_eq!(exchanges(&s, to), Ok(vec![]), "{s:?}");
            assert_eq!(exchanges_into(&s, to, &mut []), Ok(Exchanges { count: 0, written: 0 }), "{s:?}");
            assert_eq!(exchanges_into(&s, to, &mut lent), Ok(Exchanges { count: 0, written: 0 }), "{s:?}");
        }
        assert_eq!(lent, [7; 40]);
    }
}

/// A call with either as the first is refused this, be the buffer too short or long enough for any pairs.
fn refused(refusal: u8, one: &[u8], other: &[u8]) {
    let reference = Reference::new();
    for size in [0, 1, 2, 3, 8, 38, 300] {
        assert_eq!(same(&reference, one, other, size), refusal, "{one:?} to {other:?} with {size}");
        assert_eq!(same(&reference, other, one, size), refusal, "{other:?} to {one:?} with {size}");
    }
}

#[test]
fn longer_than_twenty_before_all() {
    let straight: Vec<u8> = (1..=300).map(|i| i as u8).collect();
    for n in [21, 22, 64, 255, 256, 276] {
        let zeros = vec![0; n];
        for long in [&straight[..n], &zeros] {
            for other in [&[][..], &[1], &[0, 0], &straight[..20], &straight[..n], &zeros, &straight] {
                refused(1, long, other);
            }
        }
    }
}

#[test]
fn unequal_lengths_before_values() {
    for (one, other) in [
        (&[][..], &[1][..]),
        (&[1], &[1, 2]),
        (&[3, 1, 2], &[2, 1]),
        (&[3, 1, 2], &[1, 1]),
        (&[3, 1, 2], &[0, 3]),
        (&[3, 3, 3], &[2, 1]),
        (&[0, 4, 255], &[2, 2]),
        (&[0; 20], &[21; 19]),
    ] {
        refused(5, one, other);
    }
}

#[test]
fn values_before_any_repetition() {
    let good = [3, 1, 4, 2, 5];
    for wrong in [[3, 1, 4, 2, 0], [0, 1, 4, 2, 5], [3, 1, 6, 2, 5], [255, 1, 4, 2, 5], [1, 1, 1, 1, 6], [0; 5]] {
        for other in [good, [3, 1, 4, 2, 4], [5; 5], [0; 5]] {
            refused(6, &wrong, &other);
        }
    }
    for twice in [[3, 1, 4, 2, 4], [3, 3, 4, 2, 5], [5; 5], [1, 2, 3, 4, 1]] {
        for other in [good, [1, 2, 3, 3, 5], [5; 5]] {
            refused(7, &twice, &other);
        }
    }
}

#[test]
fn refusals_by_name() {
    assert_eq!(exchanges(&[0; 21], &[]), Err(Refusal::Size));
    assert_eq!(exchanges(&[3, 1, 2], &[2, 1]), Err(Refusal::Lent));
    assert_eq!(exchanges(&[3, 1, 2], &[2, 1, 4]), Err(Refusal::Value));
    assert_eq!(exchanges(&[3, 1, 2], &[2, 1, 2]), Err(Refusal::Twice));
    assert_eq!(exchanges_into(&[3, 1, 2], &[2, 3, 1], &mut [0; 3]), Err(Refusal::Lent));
    let why = "refused 5: a lent slice has not the length that is asked for, two permutations differ in length, or a \
               list of moves has an odd length";
    assert_eq!(Refusal::Lent.to_string(), why);
}

#[test]
fn damaged_at_random() {
    let reference = Reference::new();
    let mut random = Random(23);
    let (mut met, mut too_short) = ([0u32; 8], 0u32);
    for _ in 0..40_000 {
        let n = random.below(22) as usize;
        let from = damaged(&mut random, n);
        let m = if random.below(8) == 0 { random.below(22) as usize } else { n };
        let to = damaged(&mut random, m);
        let size = random.below(42) as usize;
        let refusal = same(&reference, &from, &to, size);
        met[usize::from(refusal)] += 1;
        // a call that lends its own bytes never lends too few
        match exchanges(&from, &to) {
            Ok(pairs) if 2 * pairs.len() <= size => assert_eq!(refusal, 0, "{from:?} to {to:?}"),
            Ok(_) => {
                assert_eq!(refusal, 5, "{from:?} to {to:?} with {size}");
                too_short += 1;
            }
            Err(own) => assert_eq!(own as u8, refusal, "{from:?} to {to:?}"),
        }
    }
    let unequal = met[5] - too_short;
    let often = [met[0], met[1], unequal, met[6], met[7], too_short].iter().all(|&times| times > 100);
    assert!(often, "{met:?} {too_short}");
}

#[test]
fn every_two_slices_up_to_three() {
    let reference = Reference::new();
    let slices: Vec<Vec<u8>> = short_slices().filter(|s| s.len() <= 3).collect();
    for from in &slices {
        for to in &slices {
            for size in [0, 1, 2, 3, 4, 5] {
                same(&reference, from, to, size);
            }
        }
    }
}
