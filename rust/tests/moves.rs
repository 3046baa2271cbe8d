//! The moves from the identity to a permutation with a position to spare, and the check of a list of moves, as document
//! 02, l), has them. The moves that are written: against stored vectors of another author, against an independent
//! implementation and by the cycles up to twenty, and against a search for the shortest way up to seven. The check: every
//! short list up to four, the lists that are written and others, also very long ones, each move and each byte of them
//! damaged. Both with damaged slices and lengths, with guard bytes around what is lent. n = 0 stands in `empty.rs` too, and
//! more damage in `damaged.rs`.

mod reference;

/// The calls as the library has them: the safe ones drop what stands beside a refusal.
#[path = "../src/ffi.rs"]
#[allow(dead_code)]
mod ffi;

use osierdrum::{check_moves, moves, moves_into, Level, Refusal};
use reference::{beside, each_set, permutations, shuffled, tree, Fault, Random, Reference};
use std::{
    collections::{HashMap, VecDeque},
    iter::once,
};

/// From a position to another.
type Move = [u8; 2];

/// Writes the moves to `size` bytes of a longer buffer: the library, the safe function and the reference, with the same
/// result, zero beside a refusal, and the same bytes; none changed but those of the moves, and none by a refused call.
fn written(reference: &Reference, s: &[u8], size: usize) -> Result<Vec<Move>, u8> {
    const GUARD: usize = 8;
    // no call writes such a byte
    let before: Vec<u8> = (0..size + 2 * GUARD).map(|i| 50 + (i % 200) as u8).collect();
    let [mut ours, mut again, mut theirs] = [(); 3].map(|()| before.clone());
    let lent = &mut ours[GUARD..GUARD + size];
    // SAFETY: each pointer and length are those of one slice, and the written one is ours alone.
    let given = unsafe { ffi::osierdrum_moves(s.as_ptr(), s.len(), lent.as_mut_ptr(), lent.len()) };
    let safe = moves_into(s, &mut again[GUARD..GUARD + size]).map_err(|refusal| refusal as u8);
    let right = reference.moves(s, &mut theirs[GUARD..GUARD + size]);
    assert_eq!((given.refusal, given.count), beside(right), "{s:?} with {size}");
    assert_eq!(safe, right, "{s:?} with {size}");
    assert_eq!(ours, theirs, "{s:?} with {size}");
    assert_eq!(again, theirs, "{s:?} with {size}");
    let end = GUARD + 2 * right.unwrap_or(0) as usize;
    assert_eq!(ours[..GUARD], before[..GUARD], "{s:?} with {size}");
    assert_eq!(ours[end..], before[end..], "{s:?} with {size}");
    right.map(|_| ours[GUARD..end].chunks_exact(2).map(|one| [one[0], one[1]]).collect())
}

/// Checks a list of moves: the library, the safe function and the reference, with the same result, zero beside a refusal.
fn checked(reference: &Reference, s: &[u8], list: &[u8]) -> Result<bool, u8> {
    // SAFETY: each pointer and length are those of one slice.
    let given = unsafe { ffi::osierdrum_check_moves(s.as_ptr(), s.len(), list.as_ptr(), list.len()) };
    let safe = check_moves(s, list).map_err(|refusal| refusal as u8);
    let right = reference.check_moves(s, list);
    let first = &list[..list.len().min(100)];
    assert_eq!((given.refusal, given.valid), beside(right.map(u8::from)), "{s:?} by {} {first:?}", list.len());
    assert_eq!(safe, right, "{s:?} by {} {first:?}", list.len());
    right
}

/// Whether a position is the least of a cycle of two or more.
fn begins(s: &[u8], position: usize) -> bool {
    tree::least(s, position) && !tree::own(s, position)
}

/// The moves as document 02 has them, by the cycles: along each from its least position, the value at a position has come
/// from its own, and the one that closes the cycle from position 0.
fn by_cycles(s: &[u8]) -> Vec<Move> {
    let around = |a: usize| {
        let taken = move |to: usize| {
            let value = usize::from(s[to - 1]);
            [if value == a { 0 } else { value }, to]
        };
        once([a, 0]).chain(tree::cycle(s, a).map(taken))
    };
    let all = (1..=s.len()).filter(|&a| begins(s, a)).flat_map(around);
    all.map(|made| made.map(|position| position as u8)).collect()
}

/// What stands at the positions 0 to n, 0 for nothing: a permutation, and position 0 empty.
fn placed(s: &[u8]) -> Vec<u8> {
    [&[0], s].concat()
}

/// What stands where after moves from the identity, if each finds its first position occupied and its second empty.
fn after(n: usize, list: &[Move]) -> Option<Vec<u8>> {
    let mut standing = placed(&tree::identity(n));
    for [from, to] in list.iter().map(|made| made.map(usize::from)) {
        if standing[from] == 0 || standing[to] != 0 {
            return None;
        }
        standing.swap(from, to);
    }
    Some(standing)
}

/// Lends so many bytes for the moves to a permutation, which are written or do not fit.
fn lent(reference: &Reference, s: &[u8], made: &[Move], size: usize) {
    let right = if size < 2 * made.len() { Err(5) } else { Ok(made.to_vec()) };
    assert_eq!(written(reference, s, size), right, "{s:?} with {size}");
}

/// The moves to a permutation, and what document 02 asks of them, whatever is lent; and they are valid.
fn hold(reference: &Reference, s: &[u8]) -> Vec<Move> {
    let made = moves(s).unwrap();
    assert_eq!(made, by_cycles(s), "{s:?}");
    assert_eq!(after(s.len(), &made), Some(placed(s)), "{made:?}");
    let positions = || 1..=s.len();
    let away = positions().filter(|&position| !tree::own(s, position)).count();
    assert_eq!(made.len(), away + positions().filter(|&position| begins(s, position)).count(), "{s:?}");
    assert!(made.len() <= 30, "{s:?}");
    let needed = 2 * made.len();
    for size in [0, needed.saturating_sub(2), needed.saturating_sub(1), needed, needed + 1, needed + 2, 60, 300] {
        lent(reference, s, &made, size);
    }
    assert_eq!(checked(reference, s, made.as_flattened()), Ok(true), "{s:?}");
    made
}

#[test]
fn as_stored() {
    let reference = Reference::new();
    let stored = include_str!("vectors/l-moves.txt");
    let mut lines = [0; 21];
    for line in stored.lines() {
        let (row, list) = line.split_once(" | ").unwrap();
        let s: Vec<u8> = row.split(' ').map(|value| value.parse().unwrap()).collect();
        let text: Vec<String> = hold(&reference, &s).iter().map(|[from, to]| format!("{from} {to}")).collect();
        assert_eq!(text.join("; "), list, "{row}");
        lines[s.len()] += 1;
    }
    assert_eq!(lines, [0, 1, 2, 6, 24, 12, 12, 12, 12, 12, 12, 12, 12, 12, 12, 12, 12, 12, 12, 12, 12]);
}

#[test]
fn every_permutation_up_to_seven() {
    let reference = Reference::new();
    let met = (0..=7).flat_map(permutations).map(|s| hold(&reference, &s)).count();
    assert_eq!(met, 1 + 1 + 2 + 6 + 24 + 120 + 720 + 5040);
}

/// By their cycles too: in pairs, with fixed points beside them, and with any number of cycles.
#[test]
fn random_permutations_up_to_twenty() {
    let reference = Reference::new();
    let mut random = Random(103);
    for n in 0..=20 {
        for any in [shuffled, tree::paired, tree::parted] {
            for _ in 0..300 {
                hold(&reference, &any(&mut random, n));
            }
        }
    }
}

#[test]
fn none_to_the_identity_and_thirty_at_the_most() {
    let reference = Reference::new();
    for n in 0..=20 {
        assert!(hold(&reference, &tree::identity(n)).is_empty());
    }
    // one cycle of all: one move more than it has values
    for n in 2..=20 {
        let mut s = tree::identity(n);
        s.rotate_left(1);
        assert_eq!(hold(&reference, &s).len(), n + 1);
    }
    // ten pairs: neighbours, the first and the last and so on, and any
    let mut random = Random(107);
    let neighbours: Vec<u8> = (1..=10).flat_map(|i| [2 * i, 2 * i - 1]).collect();
    let pairs = |s: &[u8]| {
        let mut made = tree::identity(20);
        s.chunks_exact(2).for_each(|pair| made.swap(usize::from(pair[0]) - 1, usize::from(pair[1]) - 1));
        made
    };
    let any: Vec<Vec<u8>> = (0..100).map(|_| pairs(&shuffled(&mut random, 20))).collect();
    for s in [neighbours, (1..=20).rev().collect()].iter().chain(&any) {
        assert_eq!(hold(&reference, s).len(), 30, "{s:?}");
    }
}

/// How many moves lead from the identity to whatever stands where, the nearest met first.
fn distances(n: usize) -> HashMap<Vec<u8>, usize> {
    let first = placed(&tree::identity(n));
    let mut away = HashMap::from([(first.clone(), 0)]);
    let mut met = VecDeque::from([first]);
    while let Some(standing) = met.pop_front() {
        let further = away[&standing] + 1;
        let empty = standing.iter().position(|&value| value == 0).expect("one position to spare");
        for from in (0..=n).filter(|&from| from != empty) {
            let mut next = standing.clone();
            next.swap(from, empty);
            if !away.contains_key(&next) {
                away.insert(next.clone(), further);
                met.push_back(next);
            }
        }
    }
    away
}

#[test]
fn no_list_of_moves_is_shorter() {
    for n in 0..=7 {
        let away = distances(n);
        assert_eq!(away.len(), (1..=n + 1).product());
        for s in permutations(n) {
            assert_eq!(moves(&s).unwrap().len(), away[&placed(&s)], "{s:?}");
        }
    }
}

#[test]
fn bytes_lent() {
    let reference = Reference::new();
    let mut random = Random(109);
    for s in (0..=20).flat_map(|n| [n; 10]).map(|n| shuffled(&mut random, n)) {
        let made = by_cycles(&s);
        let needed = 2 * made.len();
        for size in (0..=needed + 3).chain([64, 255, 256, 256 + needed, 1000]) {
            lent(&reference, &s, &made, size);
        }
    }
}

/// Every list of so many moves between the positions 0 to n.
fn lists(n: usize, count: u32) -> impl Iterator<Item = Vec<u8>> {
    let list = move |code: usize| (0..2 * count).map(|i| (code / (n + 1).pow(i) % (n + 1)) as u8).collect();
    (0..(n + 1).pow(2 * count)).map(list)
}

#[test]
fn every_short_list() {
    let reference = Reference::new();
    for (n, most) in [(0, 6), (1, 6), (2, 6), (3, 4), (4, 3)] {
        let mut shortest: Vec<(Vec<u8>, Option<usize>)> = permutations(n).map(|s| (s, None)).collect();
        for count in 0..=most {
            let mut valid = 0;
            for list in lists(n, count) {
                for (s, least) in &mut shortest {
                    if checked(&reference, s, &list).unwrap() {
                        valid += 1;
                        least.get_or_insert(count as usize);
                    }
                }
            }
            // the empty position goes to any of n others at each move, and the last leads it back to 0
            let (others, sign) = (n as i64, if count % 2 == 0 { 1 } else { -1 });
            assert_eq!(valid, (others.pow(count) + others * sign) / (others + 1), "{count} moves of {n}");
        }
        for (s, least) in shortest {
            let needed = moves(&s).unwrap().len();
            assert_eq!(least, Some(needed).filter(|&needed| needed <= most as usize), "{s:?}");
        }
    }
}

#[test]
fn yes_and_no() {
    let check = |s: &[u8], list: &[Move]| check_moves(s, list.as_flattened()).unwrap();
    assert!(check(&[2, 1], &[[1, 0], [2, 1], [0, 2]]));
    // lists that are not written: another position first, a way about, two cycles at once
    assert!(check(&[2, 1], &[[2, 0], [1, 2], [0, 1]]));
    assert!(check(&[2, 1, 3], &[[3, 0], [2, 3], [1, 2], [3, 1], [0, 3]]));
    assert!(check(&[2, 1, 4, 3], &[[1, 0], [2, 1], [4, 2], [3, 4], [2, 3], [0, 2]]));
    assert!(check(&[1, 2], &[[2, 0], [0, 2], [1, 0], [0, 1]]));
    // onto an occupied position, from an empty one, and from a position to itself, be it either
    assert!(!check(&[2, 1], &[[1, 2]]));
    assert!(!check(&[1, 2], &[[1, 2], [2, 1]]));
    assert!(!check(&[1, 2], &[[0, 1]]));
    assert!(!check(&[1, 2], &[[0, 1], [1, 0]]));
    assert!(!check(&[1, 2], &[[0, 0]]));
    assert!(!check(&[1, 2], &[[1, 1]]));
    // an end that is not the permutation: another, or one with a value still at position 0
    assert!(!check(&[1, 2], &[[1, 0], [2, 1], [0, 2]]));
    assert!(!check(&[3, 1, 2], &[[1, 0], [2, 1], [3, 2], [0, 3]]));
    assert!(!check(&[2, 1], &[[1, 0], [2, 1]]));
    assert!(!check(&[1, 2], &[[2, 0]]));
    // no moves
    assert!(check(&[1, 2, 3], &[]));
    assert!(!check(&[2, 1, 3], &[]));
}

/// A valid list of another author: the empty position goes anywhere at each move, and then back to 0. With it the
/// permutation that it leads to.
fn wandering(random: &mut Random, n: usize, count: u64) -> (Vec<u8>, Vec<Move>) {
    let mut list = Vec::new();
    let mut empty = 0;
    for _ in 0..if n == 0 { 0 } else { count } {
        let from = (empty + 1 + random.below(n as u64) as usize) % (n + 1);
        list.push([from as u8, empty as u8]);
        empty = from;
    }
    if empty != 0 {
        list.push([0, empty as u8]);
    }
    let standing = after(n, &list).expect("each to the empty position");
    (standing[1..].to_vec(), list)
}

/// A list with another move put in at an index.
fn with(list: &[Move], at: usize, one: Move) -> Vec<u8> {
    [&list[..at], &[one], &list[at..]].concat().concat()
}

#[test]
fn valid_lists_of_others() {
    let reference = Reference::new();
    let mut random = Random(113);
    for n in 0..=20 {
        for _ in 0..100 {
            let count = random.below(70);
            let (s, list) = wandering(&mut random, n, count);
            let check = |s: &[u8], list: &[Move]| checked(&reference, s, list.as_flattened()).unwrap();
            assert!(check(&s, &list), "{s:?} by {list:?}");
            // and then the same is undone: the moves from the last to the first, each back
            let undone: Vec<Move> = list.iter().rev().map(|&[from, to]| [to, from]).collect();
            assert!(check(&tree::identity(n), &[&list[..], &undone].concat()), "{list:?} and back");
            // it leads to no other permutation
            let other = shuffled(&mut random, n);
            assert_eq!(check(&other, &list), other == s, "{other:?} by {list:?}");
            for (one, other) in (0..n).flat_map(|other| (0..other).map(move |one| (one, other))) {
                assert!(!check(&tree::exchanged(&s, one + 1, other + 1), &list), "{s:?} by {list:?}");
            }
        }
    }
}

/// Only one position is empty at any time, so that every move tells where the next goes: no list stays valid if one of its
/// moves is another, is left out, comes twice or comes in another's turn, or if one is put in.
#[test]
fn one_change_to_a_list() {
    let reference = Reference::new();
    let mut random = Random(127);
    for n in 1..=20u8 {
        let others = wandering(&mut random, n.into(), 12);
        let s = shuffled(&mut random, n.into());
        let made = by_cycles(&s);
        for (s, list) in [others, (s, made), (tree::identity(n.into()), vec![])] {
            let check = |list: &[u8]| checked(&reference, &s, list);
            let bytes = list.concat();
            assert_eq!(check(&bytes), Ok(true), "{s:?} by {list:?}");
            for at in 0..bytes.len() {
                for byte in 0..=255 {
                    let mut changed = bytes.clone();
                    changed[at] = byte;
                    let right = if byte > n { Err(6) } else { Ok(byte == bytes[at]) };
                    assert_eq!(check(&changed), right, "{s:?} by {changed:?}");
                }
                assert_eq!(check(&[&bytes[..at], &bytes[at + 1..]].concat()), Err(5));
                assert_eq!(check(&bytes[..at]).err(), (at % 2 == 1).then_some(5));
            }
            for at in 0..list.len() {
                let without = [&list[..at], &list[at + 1..]].concat();
                assert_eq!(check(without.as_flattened()), Ok(false), "{list:?} without {at}");
                assert_eq!(check(&with(&list, at, list[at])), Ok(false), "{list:?} with {at} twice");
                for other in 0..at {
                    let mut changed = list.clone();
                    changed.swap(at, other);
                    assert_eq!(check(&changed.concat()), Ok(changed == list), "{s:?} by {changed:?}");
                }
            }
            for at in 0..=list.len() {
                for one in (0..=n).flat_map(|from| (0..=n).map(move |to| [from, to])) {
                    assert_eq!(check(&with(&list, at, one)), Ok(false), "{list:?} with {one:?} at {at}");
                }
                for outside in [[n + 1, 0], [0, n + 1], [255, 0], [1, 255], [n + 1, n + 1]] {
                    assert_eq!(check(&with(&list, at, outside)), Err(6), "{list:?} with {outside:?} at {at}");
                }
            }
        }
    }
}

#[test]
fn very_long_lists() {
    let reference = Reference::new();
    let mut random = Random(131);
    for n in [1, 2, 5, 20] {
        let s = shuffled(&mut random, n.into());
        let check = |list: &[u8]| checked(&reference, &s, list);
        // 70,000 moves of a value to position 0 and back, and then those that lead there
        let about = [[n, 0], [0, n]].repeat(35_000);
        let list = [about, by_cycles(&s)].concat();
        assert_eq!(check(&list.concat()), Ok(true), "{s:?}");
        let places = [0, 1, 127, 128, 255, 256, 257, 999, 1000, 32_767, 32_768, 50_000, 65_535, 65_536, 69_999, 70_000];
        for at in places.into_iter().chain([list.len() - 1, list.len()]) {
            // to itself, whether it is occupied or not, and one that another's turn takes
            for one in [[0, 0], [n, n], [1, 0], [0, 1]] {
                assert_eq!(check(&with(&list, at, one)), Ok(false), "{s:?} with {one:?} at {at}");
            }
            assert_eq!(check(&with(&list, at, [n, n + 1])), Err(6), "{s:?} at {at}");
            let mut odd = list.concat();
            odd.insert(2 * at, n + 1);
            assert_eq!(check(&odd), Err(5), "{s:?} at {at}");
        }
        let (s, list) = wandering(&mut random, n.into(), 100_000);
        assert_eq!(checked(&reference, &s, &list.concat()), Ok(true), "{s:?}");
        assert_eq!(checked(&reference, &s, &with(&list, list.len(), [1, 0])), Ok(false), "{s:?}");
    }
}

/// A call for the moves: the permutation and the number of bytes lent.
#[derive(Clone, Debug)]
struct Asked {
    s: Vec<u8>,
    size: usize,
}

/// A call for the check.
#[derive(Clone, Debug)]
struct Listed {
    s: Vec<u8>,
    list: Vec<u8>,
}

#[test]
fn each_refusal_before_the_later_ones() {
    let reference = Reference::new();
    let s = vec![2, 1, 4, 3, 5];
    let list = by_cycles(&s).concat();
    let faults: [Fault<Asked>; 11] = [
        (5, &|asked| asked.size = 11),
        (5, &|asked| asked.size = 1),
        (5, &|asked| asked.size = 0),
        (7, &|asked| asked.s[0] = asked.s[1]),
        (7, &|asked| asked.s[4] = asked.s[2]),
        (6, &|asked| asked.s[1] = 0),
        (6, &|asked| asked.s[3] = 6),
        (6, &|asked| asked.s[4] = 255),
        (1, &|asked| asked.s.resize(21, 21)),
        (1, &|asked| asked.s.resize(256, 1)),
        (1, &|asked| asked.s.resize(256 + 5, 0)),
    ];
    each_set(&Asked { s: s.clone(), size: list.len() }, &faults, |asked, right| {
        assert_eq!(beside(written(&reference, &asked.s, asked.size)).0, right, "{asked:?}");
    });
    let faults: [Fault<Listed>; 16] = [
        // no fault, but a move that is impossible: the answer is no
        (0, &|listed| listed.list[0] = 0),
        (0, &|listed| listed.list[11] = 1),
        (7, &|listed| listed.s[0] = listed.s[1]),
        (7, &|listed| listed.s[4] = listed.s[2]),
        (6, &|listed| listed.s[1] = 0),
        (6, &|listed| listed.s[3] = 6),
        (6, &|listed| listed.s[4] = 255),
        (6, &|listed| listed.list[0] = 6),
        (6, &|listed| listed.list[7] = 255),
        (6, &|listed| listed.list.extend([5, 6])),
        (5, &|listed| listed.list.truncate(11)),
        (5, &|listed| listed.list.resize(1, 0)),
        (5, &|listed| listed.list.resize(301, 21)),
        (1, &|listed| listed.s.resize(21, 21)),
        (1, &|listed| listed.s.resize(256, 1)),
        (1, &|listed| listed.s.resize(256 + 5, 0)),
    ];
    each_set(&Listed { s, list: list.clone() }, &faults, |listed, right| {
        let given = beside(checked(&reference, &listed.s, &listed.list));
        assert_eq!(given, (right, right == 0 && listed.list == list), "{listed:?}");
    });
}

#[test]
fn lengths_read() {
    let reference = Reference::new();
    for length in (0..=23).chain([64, 255, 256, 257, 276, 1000]) {
        for byte in [0, 1] {
            // the identity as far as it goes
            let s: Vec<u8> = (1..=length).map(|i| if i <= 20 { i as u8 } else { byte }).collect();
            let refused = length > 20;
            for size in [0, 1, 60] {
                assert_eq!(written(&reference, &s, size), if refused { Err(1) } else { Ok(vec![]) }, "{s:?}");
            }
            assert_eq!(checked(&reference, &s, &[]), if refused { Err(1) } else { Ok(true) }, "{s:?}");
            assert_eq!(checked(&reference, &s, &[0]), Err(if refused { 1 } else { 5 }), "{s:?}");
        }
    }
}

#[test]
fn refusals_by_name() {
    assert_eq!(moves(&[0; 21]), Err(Refusal::Size));
    assert_eq!(moves(&[2, 2, 4]), Err(Refusal::Value));
    assert_eq!(moves(&[2, 2, 3]), Err(Refusal::Twice));
    assert_eq!(moves_into(&[2, 2, 3], &mut []), Err(Refusal::Twice));
    assert_eq!(moves_into(&[2, 1, 3], &mut [0; 5]), Err(Refusal::Lent));
    assert_eq!(check_moves(&[0; 21], &[0]), Err(Refusal::Size));
    assert_eq!(check_moves(&[2, 2, 4], &[4]), Err(Refusal::Lent));
    assert_eq!(check_moves(&[2, 2, 4], &[]), Err(Refusal::Value));
    assert_eq!(check_moves(&[2, 2, 3], &[4, 0]), Err(Refusal::Value));
    assert_eq!(check_moves(&[2, 2, 3], &[3, 0]), Err(Refusal::Twice));
    assert_eq!(Refusal::Value.to_string(), "refused 6: a value, an entry or a position is out of range");
}

/// A valid list with none to three changes, of which some leave it valid: moves there and back, put in or taken out.
#[test]
fn damaged_at_random() {
    let reference = Reference::new();
    let mut random = Random(137);
    let mut met = [[0u32; 8]; 2];
    for _ in 0..100_000 {
        let n = random.below(21) as usize;
        let count = random.below(12);
        let (s, mut list) = wandering(&mut random, n, count);
        let bound = n as u64 + if random.below(8) == 0 { 2 } else { 1 };
        for _ in 0..random.below(4) {
            let at = random.below(list.len() as u64 + 1) as usize;
            let [from, to] = [(); 2].map(|()| random.below(bound) as u8);
            match random.below(5) {
                0 => list.insert(at, [from, to]),
                1 => drop(list.splice(at..at, [[from, to], [to, from]])),
                2 => list.truncate(at),
                3 if at < list.len() => list[at] = [from, to],
                _ => drop(list.drain(at..(at + 2).min(list.len()))),
            }
        }
        let (refusal, valid) = beside(checked(&reference, &s, &list.concat()));
        met[usize::from(valid)][usize::from(refusal)] += 1;
    }
    assert!(met[0][0] > 10_000 && met[0][6] > 1_000 && met[1][0] > 10_000, "{met:?}");
}
