//! The explanation of a place, as document 02, b), has it: against stored vectors of another author, against lists that are made and joined from the
//! relations, against a rule that counts, and with damaged permutations and too few or too many levels lent.

mod reference;

#[path = "../examples/explain.rs"]
mod example;

use osierdrum::{explain, explain_into, rank, Explanation, Level, Rank, Refusal};
use reference::{
    damaged,
    relations::{followed, Lists},
    short_slices, Random, Reference,
};
use std::collections::HashSet;

/// What stands in a level before it is lent, another at each index; no call writes such a block.
fn unwritten(i: usize) -> Level {
    Level { letter: i as u8, backward: i % 3 == 0, block: u64::MAX - i as u64, before: 1 << 40 | i as u64 }
}

/// Runs the call on `size` levels of a longer list, and the reference on a copy: same result, same levels, those beside the lent ones too.
fn same(reference: &Reference, s: &[u8], size: usize) -> u8 {
    const GUARD: usize = 3;
    let before: Vec<Level> = (0..size + 2 * GUARD).map(unwritten).collect();
    let (mut ours, mut theirs) = (before.clone(), before.clone());
    let given = explain_into(s, &mut ours[GUARD..GUARD + size]).map_err(|refusal| refusal as u8);
    let right = reference.explain(s, &mut theirs[GUARD..GUARD + size]);
    assert_eq!(given.map(|stands| (stands.k, stands.place)), right, "{s:?} with {size}");
    assert_eq!(ours, theirs, "{s:?} with {size}");
    let written = if given.is_ok() { s.len() } else { 0 };
    assert_eq!(ours[..GUARD], before[..GUARD]);
    assert_eq!(ours[GUARD + written..], before[GUARD + written..], "{s:?} with {size}");
    given.err().unwrap_or(0)
}

/// The permutation at a place, by the reference.
fn row(reference: &Reference, n: u64, k: u64, place: u64) -> Vec<u8> {
    let mut s = vec![0; n as usize];
    assert_eq!(reference.unrank(n, k, place, &mut s), Ok(()));
    s
}

/// What document 02 asks of every explanation.
fn holds(s: &[u8], why: &Explanation) {
    let Explanation { k, place, levels } = why;
    assert_eq!(levels.len(), s.len());
    assert_eq!(rank(s), Ok(Rank { k: *k, place: *place, fixed: Reference::fixed(s) }), "{s:?}");
    assert_eq!(levels.iter().map(|level| level.before).sum::<u64>(), *place, "{s:?}");
    assert_eq!(followed(s.len(), *k as usize, levels), s, "{levels:?}");
}

#[test]
fn as_stored() {
    let stored = include_str!("vectors/b-explain.txt");
    assert_eq!(stored.lines().count(), 333);
    for line in stored.lines() {
        let row = line.split(" | ").next().unwrap();
        let s: Vec<u8> = row.split(' ').map(|value| value.parse().unwrap()).collect();
        let why = explain(&s).unwrap();
        let levels: Vec<String> = why.levels.iter().map(Level::to_string).collect();
        assert_eq!(format!("{row} | {} {} | {}", why.k, why.place, levels.join("; ")), line);
        holds(&s, &why);
    }
}

#[test]
fn every_permutation_up_to_seven() {
    let lists = Lists::up_to(7);
    let reference = Reference::new();
    let mut met = 0;
    for n in 0..=7 {
        for k in n.min(1)..=n {
            let mut different = HashSet::new();
            for (place, s) in lists.rows(n, k).enumerate() {
                let (cycles, at, levels) = lists.explained(s);
                assert_eq!((cycles, at), (k as u64, place as u64), "{s:?}");
                let why = explain(s).unwrap();
                assert_eq!(why, Explanation { k: cycles, place: at, levels }, "{s:?}");
                holds(s, &why);
                assert_eq!(same(&reference, s, n), 0);
                assert!(different.insert(why.levels), "{s:?} and another have the same levels");
                met += 1;
            }
        }
    }
    assert_eq!(met, 1 + 1 + 2 + 6 + 24 + 120 + 720 + 5040);
}

#[test]
fn random_permutations_up_to_twenty() {
    let reference = Reference::new();
    let mut random = Random(2);
    for n in 0..=20u64 {
        for k in n.min(1)..=n {
            let most = reference.count(n, k).unwrap();
            for place in [0, most / 2, most - 1].into_iter().chain((0..100).map(|_| random.below(most))) {
                let s = row(&reference, n, k, place);
                assert_eq!(same(&reference, &s, s.len()), 0);
                let why = explain(&s).unwrap();
                assert_eq!((why.k, why.place), (k, place));
                holds(&s, &why);
            }
        }
    }
}

#[test]
fn levels_lent() {
    let reference = Reference::new();
    let mut random = Random(3);
    for n in 0..=20u64 {
        for k in n.min(1)..=n {
            let s = row(&reference, n, k, random.below(reference.count(n, k).unwrap()));
            for size in 0..=24 {
                assert_eq!(same(&reference, &s, size), if size < s.len() { 12 } else { 0 }, "{s:?} with {size}");
            }
        }
    }
}

#[test]
fn refusals_in_order() {
    let reference = Reference::new();
    let straight: Vec<u8> = (1..=255).collect();
    for size in [0, 1, 4, 5, 20, 21, 255, 300] {
        for n in [21, 22, 64, 255] {
            assert_eq!(same(&reference, &straight[..n], size), 1);
            assert_eq!(same(&reference, &vec![0; n], size), 1);
        }
        for s in
            [[3, 1, 4, 2, 0], [0, 1, 4, 2, 5], [3, 1, 6, 2, 5], [255, 1, 4, 2, 5], [1, 1, 1, 1, 6], [0, 0, 5, 5, 5]]
        {
            assert_eq!(same(&reference, &s, size), 6, "{s:?}");
        }
        for s in [[3, 1, 4, 2, 4], [3, 3, 4, 2, 5], [5, 5, 5, 5, 5], [1, 2, 3, 4, 1]] {
            assert_eq!(same(&reference, &s, size), 7, "{s:?}");
        }
        assert_eq!(same(&reference, &[3, 1, 4, 2, 5], size), if size < 5 { 12 } else { 0 });
        assert_eq!(same(&reference, &straight[..20], size), if size < 20 { 12 } else { 0 });
    }
    assert_eq!(explain(&straight), Err(Refusal::Size));
    assert_eq!(explain(&[3, 1, 4, 2, 6]), Err(Refusal::Value));
    assert_eq!(explain(&[3, 1, 4, 2, 4]), Err(Refusal::Twice));
    assert_eq!(explain_into(&[3, 1, 4, 2, 5], &mut [Level::default(); 4]), Err(Refusal::Levels));
    assert_eq!(Refusal::Levels as u8, 12);
    assert_eq!(Refusal::Levels.to_string(), "refused 12: fewer levels were lent than the permutation has values");
}

#[test]
fn damaged_at_random() {
    let reference = Reference::new();
    let mut random = Random(5);
    let mut met = [0u32; 13];
    for _ in 0..20_000 {
        let n = random.below(24) as usize;
        let s = damaged(&mut random, n);
        let size = if random.below(2) == 0 { random.below(26) as usize } else { n };
        let refusal = same(&reference, &s, size);
        met[usize::from(refusal)] += 1;
        // a call that lends its own levels never lends too few
        match explain(&s) {
            Ok(_) => assert!(refusal == 0 || refusal == 12, "{s:?}"),
            Err(own) => assert_eq!(own as u8, refusal, "{s:?}"),
        }
    }
    assert!([0, 1, 6, 7, 12].iter().all(|&refusal| met[refusal] > 100), "{met:?}");
}

#[test]
fn every_short_slice() {
    let reference = Reference::new();
    for s in short_slices() {
        for size in 0..=s.len() + 1 {
            same(&reference, &s, size);
        }
    }
}

#[test]
fn story_of_place_38() {
    let right = "\
3 1 4 2 5 stands at place 38 of S(5,2).

Down: the block that holds it at each size, and how many stand before that block.
S(5,2) by (e), block 3, read forward: 33 before, 33 in all
S(4,1) by (a), block 2, read forward: 4 before, 37 in all
S(3,1) by (a), block 0, read backward: 1 before, 38 in all
S(2,1) by (a), block 0, read backward: 0 before, 38 in all
S(1,1) by (a), block 0, read backward: 0 before, 38 in all

Up: each block puts the next value at its position, and what stood there goes to the end.
S(1,1) block 0 puts 1 at position 1: 1
S(2,1) block 0 puts 2 at position 1: 2 1
S(3,1) block 0 puts 3 at position 1: 3 1 2
S(4,1) block 2 puts 4 at position 3: 3 1 4 2
S(5,2) block 3 puts 5 at position 5: 3 1 4 2 5
";
    assert_eq!(example::story(&[3, 1, 4, 2, 5]).as_deref(), Ok(right));
}

#[test]
fn every_story_up_to_six_ends_with_its_permutation() {
    let lists = Lists::up_to(6);
    for n in 1..=6 {
        for s in (1..=n).flat_map(|k| lists.rows(n, k)) {
            let text = example::story(s).unwrap();
            let row: Vec<String> = s.iter().map(u8::to_string).collect();
            assert!(text.starts_with(&format!("{} stands at", row.join(" "))), "{text}");
            assert!(text.ends_with(&format!(": {}\n", row.join(" "))), "{text}");
            let place = rank(s).unwrap().place;
            assert!(text.contains(&format!(", {place} in all\n\nUp:")), "{text}");
        }
    }
}
