//! The lists that are trees, the involutions and the Bell permutations, as document 02, j) and k), has them. Each list
//! against stored vectors of another author, against a literal walk of the tree up to ten, and up to twenty by the paths
//! from the identity, by the step from a row to the next, and against an independent count of what is passed over; every
//! permutation up to seven, refused for its cycles or not; and with damaged numbers, lengths and slices, with guard bytes
//! around what is lent. Then what holds of the walk by any rule, and of the two lists beside each other. n = 0 stands in
//! `empty.rs` too, and more damage in `damaged.rs`.

mod reference;

/// The calls as the library has them: the safe ones drop what stands beside a refusal.
#[path = "../src/ffi.rs"]
#[allow(dead_code)]
mod ffi;

use osierdrum::{
    bell_count, bell_rank, bell_unrank, involution_count, involution_rank, involution_unrank, Level, Refusal,
};
use reference::{
    beside, each_set, permutations, shuffled,
    tree::{self, Kind, Row, Rule, Tree},
    Fault, Random,
};
use std::collections::HashSet;

/// A list: its calls as the library has them and the safe ones, and what they are held to.
struct List {
    library_count: unsafe extern "C" fn(u64) -> ffi::Count,
    library_unrank: unsafe extern "C" fn(u64, u64, *mut u8, usize) -> u8,
    library_rank: unsafe extern "C" fn(*const u8, usize) -> ffi::Place,
    count: fn(u64) -> Result<u64, Refusal>,
    unrank: fn(u64, u64, &mut [u8]) -> Result<(), Refusal>,
    rank: fn(&[u8]) -> Result<u64, Refusal>,
    /// How a permutation is refused that is not in the list, and what that refusal says.
    refusal: Refusal,
    says: &'static str,
    reference: fn() -> Tree,
    rule: Rule,
    kind: Kind,
    /// Whether it may have a cycle, by its length and whether it falls.
    cycle: fn(usize, bool) -> bool,
    /// A permutation of the list, at random by its cycles.
    any: fn(&mut Random, usize) -> Row,
    /// The list for four, as the papers write it.
    four: &'static [u16],
    /// Vectors, and how many there are for each n.
    stored: &'static str,
    lines: [usize; 21],
    counts: &'static str,
}

const INVOLUTIONS: List = List {
    library_count: ffi::osierdrum_involution_count,
    library_unrank: ffi::osierdrum_involution_unrank,
    library_rank: ffi::osierdrum_involution_rank,
    count: involution_count,
    unrank: involution_unrank,
    rank: involution_rank,
    refusal: Refusal::Long,
    says: "refused 15: a cycle is longer than two",
    reference: Tree::involutions,
    rule: tree::own,
    kind: tree::in_pairs,
    cycle: |length, _| length <= 2,
    any: tree::paired,
    four: &[1234, 2134, 2143, 3214, 3412, 1324, 4321, 4231, 1432, 1243],
    stored: include_str!("vectors/j-involutions.txt"),
    lines: [1, 1, 2, 4, 10, 26, 76, 27, 28, 28, 28, 28, 28, 28, 28, 28, 28, 28, 28, 28, 28],
    counts: include_str!("vectors/j-involutions-counts.txt"),
};

const BELL: List = List {
    library_count: ffi::osierdrum_bell_count,
    library_unrank: ffi::osierdrum_bell_unrank,
    library_rank: ffi::osierdrum_bell_rank,
    count: bell_count,
    unrank: bell_unrank,
    rank: bell_rank,
    refusal: Refusal::Rising,
    says: "refused 16: a cycle does not fall from its highest number to its lowest",
    reference: Tree::bell,
    rule: tree::least,
    kind: tree::falling,
    cycle: |_, falls| falls,
    any: tree::parted,
    four: &[1234, 2134, 3124, 4123, 4132, 2143, 3214, 4213, 3412, 1324, 4321, 1423, 4231, 1432, 1243],
    stored: include_str!("vectors/k-bell.txt"),
    lines: [1, 1, 2, 5, 15, 52, 203, 28, 28, 28, 28, 28, 28, 28, 28, 28, 28, 28, 28, 28, 28],
    counts: include_str!("vectors/k-bell-counts.txt"),
};

/// Each of these tests for each list.
macro_rules! for_each_list {
    ($($test:ident)*) => {
        mod involutions {
            $(#[test] fn $test() { super::$test(&super::INVOLUTIONS) })*
        }
        mod bell {
            $(#[test] fn $test() { super::$test(&super::BELL) })*
        }
    };
}

for_each_list! {
    as_written
    as_stored
    counts_as_stored
    every_row_up_to_ten
    every_permutation_up_to_seven
    random_places_up_to_twenty
    random_cycles_up_to_twenty
    places_rise_with_the_paths
    neighbours_up_to_twenty
    cycles_of_every_length
    each_refusal_before_the_later_ones
    bytes_lent
    lengths_read
    refusals_by_name
}

impl List {
    /// The length of the list, from the library and by the safe function: same result, zero beside a refusal.
    fn counted(&self, n: u64) -> Result<u64, u8> {
        // SAFETY: the call takes and returns plain numbers.
        let given = unsafe { (self.library_count)(n) };
        let safe = (self.count)(n).map_err(|refusal| refusal as u8);
        assert_eq!((given.refusal, given.count), beside(safe), "{n}");
        safe
    }

    /// The row at a place, in `size` bytes of a longer buffer, from the library and by the safe function: same result,
    /// and no byte changed beside the lent ones, nor any by a refused call.
    fn unranked(&self, n: u64, place: u64, size: usize) -> Result<Row, u8> {
        const GUARD: usize = 8;
        // no call writes such a byte
        let before: Vec<u8> = (0..size + 2 * GUARD).map(|i| 50 + (i % 200) as u8).collect();
        let (mut ours, mut again) = (before.clone(), before.clone());
        let lent = &mut ours[GUARD..GUARD + size];
        // SAFETY: the pointer and the length are those of one slice that is ours to write.
        let given = unsafe { (self.library_unrank)(n, place, lent.as_mut_ptr(), lent.len()) };
        let safe = (self.unrank)(n, place, &mut again[GUARD..GUARD + size]).map_err(|refusal| refusal as u8);
        assert_eq!(given, safe.err().unwrap_or(0), "place {place} of {n} with {size}");
        assert_eq!(ours, again, "place {place} of {n} with {size}");
        let written = if safe.is_ok() { size } else { 0 };
        assert_eq!(ours[..GUARD], before[..GUARD], "place {place} of {n} with {size}");
        assert_eq!(ours[GUARD + written..], before[GUARD + written..], "place {place} of {n} with {size}");
        safe.map(|()| ours[GUARD..GUARD + size].to_vec())
    }

    /// The place of a slice, from the library and by the safe function: same result, zero beside a refusal.
    fn ranked(&self, s: &[u8]) -> Result<u64, u8> {
        // SAFETY: the pointer and the length are those of one slice.
        let given = unsafe { (self.library_rank)(s.as_ptr(), s.len()) };
        let safe = (self.rank)(s).map_err(|refusal| refusal as u8);
        assert_eq!((given.refusal, given.place), beside(safe), "{s:?}");
        safe
    }

    /// The row at a place of the list, which is a permutation: the cycles of anything else might not close.
    fn row(&self, n: usize, place: u64) -> Row {
        let s = self.unranked(n as u64, place, n).unwrap();
        let mut sorted = s.clone();
        sorted.sort_unstable();
        assert_eq!(sorted, tree::identity(n), "place {place} of {n}: {s:?}");
        s
    }

    /// A row and its place, from either.
    fn agree(&self, place: u64, s: &[u8]) {
        assert_eq!(self.unranked(s.len() as u64, place, s.len()).as_deref(), Ok(s), "place {place}");
        assert_eq!(self.ranked(s), Ok(place), "{s:?}");
    }

    /// The first place and the last of the list of n, and others at random.
    fn places(&self, random: &mut Random, n: usize, others: usize) -> Vec<u64> {
        let rows = self.counted(n as u64).unwrap();
        [0, rows - 1].into_iter().chain((0..others).map(|_| random.below(rows))).collect()
    }
}

/// The digits of a permutation of four.
fn digits(number: u16) -> Row {
    [1000, 100, 10, 1].map(|unit| (number / unit % 10) as u8).to_vec()
}

fn as_written(list: &List) {
    assert_eq!(list.counted(4), Ok(list.four.len() as u64));
    for (place, &number) in (0..).zip(list.four) {
        list.agree(place, &digits(number));
    }
    for n in 0..=20usize {
        let identity = tree::identity(n);
        list.agree(0, &identity);
        if n >= 2 {
            list.agree(1, &tree::exchanged(&identity, 1, 2));
            list.agree(list.counted(n as u64).unwrap() - 1, &tree::exchanged(&identity, n - 1, n));
        }
    }
}

fn as_stored(list: &List) {
    let mut lines = [0; 21];
    for line in list.stored.lines() {
        let (head, tail) = line.split_once(" |").unwrap();
        let (n, place) = head.split_once(' ').unwrap();
        let s: Row = tail.split_whitespace().map(|value| value.parse().unwrap()).collect();
        assert_eq!(s.len().to_string(), n, "{line}");
        list.agree(place.parse().unwrap(), &s);
        lines[s.len()] += 1;
    }
    assert_eq!(lines, list.lines);
}

fn counts_as_stored(list: &List) {
    assert_eq!(list.counts.lines().count(), 21);
    for (n, line) in (0..).zip(list.counts.lines()) {
        assert_eq!(format!("{n} {}", list.counted(n).unwrap()), line);
    }
    for n in [21, 22, 255, 256, 256 + 5, 1 << 32, (1 << 32) + 5, 1 << 63, u64::MAX] {
        assert_eq!(list.counted(n), Err(1));
    }
}

/// Also that the other ways, which the tests above ten rest on, go by the same tree.
fn every_row_up_to_ten(list: &List) {
    let reference = (list.reference)();
    for n in 0..=10usize {
        let rows = tree::list(list.rule, n);
        assert_eq!(list.counted(n as u64), Ok(rows.len() as u64));
        assert_eq!(list.unranked(n as u64, rows.len() as u64, n), Err(3));
        let mut before = None;
        for (at, s) in rows.iter().enumerate() {
            list.agree(at as u64, s);
            assert_eq!(reference.rank(s), Ok(at as u64), "{s:?}");
            assert_eq!(tree::next(list.rule, s).as_ref(), rows.get(at + 1), "{s:?}");
            let path = Some(tree::path(list.rule, s));
            assert!(before < path, "{s:?}");
            before = path;
        }
    }
}

fn every_permutation_up_to_seven(list: &List) {
    let mut factorial = 1;
    for n in 0..=7usize {
        factorial *= n.max(1);
        let rows = list.counted(n as u64).unwrap() as usize;
        let mut met = vec![0; rows];
        let mut refused = 0;
        for s in permutations(n) {
            let given = list.ranked(&s);
            assert_eq!(given.is_ok(), (list.kind)(&s), "{s:?}");
            match given {
                Ok(place) => met[place as usize] += 1,
                Err(refusal) => {
                    assert_eq!(refusal, list.refusal as u8, "{s:?}");
                    refused += 1;
                }
            }
        }
        assert!(met.iter().all(|&times| times == 1), "{n}");
        assert_eq!(refused, factorial - rows, "{n}");
    }
}

fn random_places_up_to_twenty(list: &List) {
    let reference = (list.reference)();
    let mut random = Random(67);
    for n in 0..=20usize {
        assert_eq!(list.counted(n as u64), reference.count(n as u64));
        for place in list.places(&mut random, n, 2_000) {
            let s = list.row(n, place);
            assert!((list.kind)(&s), "{s:?}");
            let mut right = vec![0; n];
            assert_eq!(reference.unrank(n as u64, place, &mut right), Ok(()));
            assert_eq!(s, right, "place {place}");
            assert_eq!(list.ranked(&s), Ok(place), "{s:?}");
        }
    }
}

/// Those with few pairs, or with few or many cycles, too, which few places have.
fn random_cycles_up_to_twenty(list: &List) {
    let reference = (list.reference)();
    let mut random = Random(71);
    for n in 0..=20 {
        for _ in 0..2_000 {
            let s = (list.any)(&mut random, n);
            list.agree(reference.rank(&s).unwrap(), &s);
        }
    }
}

/// Which of two rows comes first, by their paths from the identity.
fn places_rise_with_the_paths(list: &List) {
    let mut random = Random(73);
    let mut below = 0;
    for n in 2..=20usize {
        let rows = list.counted(n as u64).unwrap();
        for turn in 0..600 {
            // none to three positions above, so that many have children
            let part = n - random.below(n.min(4) as u64) as usize;
            let mut one = (list.any)(&mut random, part);
            one.extend(part as u8 + 1..=n as u8);
            let place = list.ranked(&one).unwrap();
            let other = match turn % 3 {
                0 => (list.any)(&mut random, n),
                1 => list.row(n, random.below(rows)),
                // a row nearby, which may stand below the first
                _ => list.row(n, place + random.below((rows - place).min(20))),
            };
            let (path, others) = (tree::path(list.rule, &one), tree::path(list.rule, &other));
            assert_eq!(place.cmp(&list.ranked(&other).unwrap()), path.cmp(&others), "{one:?} {other:?}");
            below += u32::from(path != others && others.starts_with(&path));
        }
    }
    assert!(below > 1_000, "{below}");
}

/// Each row's next is its first child, or else the next child above.
fn neighbours_up_to_twenty(list: &List) {
    let mut random = Random(79);
    // to a child, to the next child of the parent, or to the next after the parent: a last child exchanges position n,
    // and a parent does not, so that no step goes further up
    let mut met = [0u32; 3];
    for n in 0..=20usize {
        let rows = list.counted(n as u64).unwrap();
        for from in list.places(&mut random, n, 100) {
            for place in from..(from + 20).min(rows) {
                let s = list.row(n, place);
                let next = tree::next(list.rule, &s);
                if place == rows - 1 {
                    assert_eq!(next, None, "{s:?}");
                    assert_eq!(list.unranked(n as u64, place + 1, n), Err(3));
                    continue;
                }
                let next = next.unwrap();
                list.agree(place + 1, &next);
                met[tree::path(list.rule, &s).len() + 1 - tree::path(list.rule, &next).len()] += 1;
            }
        }
    }
    assert!(met.iter().all(|&times| times > 1_000), "{met:?}");
}

/// One cycle of a given length, at any positions, beside pairs and fixed points: one that falls, one with two neighbours
/// exchanged, and one in any order.
fn cycles_of_every_length(list: &List) {
    let mut random = Random(83);
    for n in 1..=20usize {
        for (length, turn) in (1..=n).flat_map(|length| (0..30).map(move |turn| (length, turn))) {
            let mut at: Vec<usize> = shuffled(&mut random, n).into_iter().map(usize::from).collect();
            let (cycle, rest) = at.split_at_mut(length);
            if turn % 3 < 2 {
                cycle.sort_unstable_by(|one, other| other.cmp(one));
            }
            if turn % 3 == 1 && length > 1 {
                let one = random.below(length as u64 - 1) as usize;
                cycle.swap(one, one + 1);
            }
            let mut s = tree::identity(n);
            tree::join(&mut s, cycle);
            let pairs = random.below(rest.len() as u64 + 1) as usize / 2;
            rest.chunks_exact(2).take(pairs).for_each(|pair| s.swap(pair[0] - 1, pair[1] - 1));
            let falls = tree::falling(&s);
            if turn % 3 < 2 {
                assert_eq!(falls, turn % 3 == 0 || length <= 2, "{s:?}");
            }
            let right = if (list.cycle)(length, falls) { 0 } else { list.refusal as u8 };
            assert_eq!(beside(list.ranked(&s)).0, right, "{s:?}");
        }
    }
}

/// A call for a row: n, the place and the number of bytes lent.
#[derive(Clone, Copy, Debug)]
struct Asked {
    n: u64,
    place: u64,
    size: usize,
}

fn each_refusal_before_the_later_ones(list: &List) {
    let rows = list.counted(5).unwrap();
    let faults: [Fault<Asked>; 10] = [
        (5, &|asked| asked.size = 4),
        (5, &|asked| asked.size = 6),
        (5, &|asked| asked.size = 0),
        (3, &|asked| asked.place = rows),
        (3, &|asked| asked.place = (1 << 32) + 12),
        (3, &|asked| asked.place = u64::MAX),
        (1, &|asked| asked.n = 21),
        (1, &|asked| asked.n = 256 + 5),
        (1, &|asked| asked.n = (1 << 32) + 5),
        (1, &|asked| asked.n = u64::MAX),
    ];
    each_set(&Asked { n: 5, place: 12, size: 5 }, &faults, |asked, right| {
        let given = list.unranked(asked.n, asked.place, asked.size);
        assert_eq!(given.err().unwrap_or(0), right, "{asked:?}");
    });
    // two cycles of two become one of four, or a cycle of three, and none of them falls
    let kind = list.refusal as u8;
    let faults: [Fault<Row>; 10] = [
        (kind, &|s| s.swap(0, 3)),
        (kind, &|s| s.swap(3, 4)),
        (7, &|s| s[0] = s[1]),
        (7, &|s| s[4] = s[2]),
        (6, &|s| s[1] = 0),
        (6, &|s| s[3] = 6),
        (6, &|s| s[4] = 255),
        (1, &|s| s.resize(21, 21)),
        (1, &|s| s.resize(256, 1)),
        (1, &|s| s.resize(256 + 5, 0)),
    ];
    each_set(&vec![2, 1, 4, 3, 5], &faults, |s, right| {
        assert_eq!(beside(list.ranked(s)).0, right, "{s:?}");
    });
}

fn bytes_lent(list: &List) {
    let mut random = Random(89);
    for n in 0..=20usize {
        for place in list.places(&mut random, n, 3) {
            for size in (0..=n + 2).chain([64, 255, 256, 256 + n, 1000]) {
                let given = list.unranked(n as u64, place, size).map(|s| s.len());
                assert_eq!(given, if size == n { Ok(n) } else { Err(5) }, "{n} with {size}");
            }
        }
    }
}

fn lengths_read(list: &List) {
    for length in (0..=23).chain([64, 255, 256, 257, 260, 276, 1000]) {
        for byte in [0, 1] {
            // the identity as far as it goes
            let s: Row = (1..=length).map(|i| if i <= 20 { i as u8 } else { byte }).collect();
            assert_eq!(list.ranked(&s), if length <= 20 { Ok(0) } else { Err(1) }, "{s:?}");
        }
    }
}

fn refusals_by_name(list: &List) {
    let List { count, unrank, rank, refusal, .. } = list;
    let end = list.four.len() as u64;
    let row = &mut [0; 4];
    assert_eq!(count(21), Err(Refusal::Size));
    assert_eq!(unrank(21, 0, row), Err(Refusal::Size));
    assert_eq!(unrank(4, end, row), Err(Refusal::Place));
    assert_eq!(unrank(4, end - 1, &mut row[1..]), Err(Refusal::Lent));
    assert_eq!(*row, [0; 4]);
    assert_eq!(rank(&[1; 21]), Err(Refusal::Size));
    assert_eq!(rank(&[2, 3, 1, 5]), Err(Refusal::Value));
    assert_eq!(rank(&[2, 3, 1, 1]), Err(Refusal::Twice));
    assert_eq!(rank(&[2, 3, 1, 4]), Err(*refusal));
    assert_eq!(refusal.to_string(), list.says);
}

/// The rules, each with what its list holds, the one with every l < j too.
const RULES: [(Rule, Kind); 3] = [(tree::own, tree::in_pairs), (tree::least, tree::falling), (tree::every, |_| true)];

/// No permutation is met twice, and exchanging the highest position whose value is away with the one where that value
/// stands gives the parent.
#[test]
fn the_walk_by_any_rule() {
    for (rule, kind) in RULES {
        for n in 0..=7 {
            let rows = tree::walk(rule, n);
            let met: HashSet<Row> = rows.iter().map(|met| met.row.clone()).collect();
            assert_eq!(met.len(), rows.len(), "{n}");
            // and all of the kind are there: all n! permutations, where the rule has every l < j
            assert_eq!(met, permutations(n).filter(|s| kind(s)).collect(), "{n}");
            for tree::Met { row, parent } in &rows {
                let above = tree::back(row).map(|(l, j)| tree::exchanged(row, l, j));
                assert_eq!(above, *parent, "{row:?}");
            }
        }
    }
}

/// Table 1 of source document 000, which has the three lists for four.
#[test]
fn the_walk_of_every_permutation_of_four() {
    let all = [
        1234, 2134, 3124, 4123, 3421, 3142, 2314, 4312, 2413, 2341, 4132, 2431, 2143, 3214, 4213, 3412, 3241, 1324,
        4321, 1423, 1342, 4231, 1432, 1243,
    ];
    assert_eq!(tree::list(tree::every, 4), all.map(digits));
}

/// Each list has its permutations in the order in which the one with every l < j has them.
#[test]
fn one_order_for_all() {
    for n in 0..=7 {
        let all = tree::list(tree::every, n);
        for list in [INVOLUTIONS, BELL] {
            for (place, s) in (0..).zip(all.iter().filter(|s| (list.kind)(s))) {
                list.agree(place, s);
            }
        }
    }
    let mut random = Random(101);
    for n in 0..=20 {
        for _ in 0..300 {
            let [one, other] = [(); 2].map(|()| tree::paired(&mut random, n));
            let [involutions, bell] = [INVOLUTIONS, BELL].map(|list| [&one, &other].map(|s| list.ranked(s).unwrap()));
            assert_eq!(involutions[0].cmp(&involutions[1]), bell[0].cmp(&bell[1]), "{one:?} {other:?}");
        }
    }
}

/// A permutation that is refused 15 may be a Bell permutation, and one that is refused 16 is no involution.
#[test]
fn one_kind_beside_the_other() {
    let both = |s: &[u8]| [INVOLUTIONS, BELL].map(|list| list.ranked(s));
    assert_eq!(both(&[3, 1, 2]), [Err(15), Ok(2)]);
    assert_eq!(both(&[2, 3, 1]), [Err(15), Err(16)]);
    assert_eq!(both(&[4, 1, 2, 3, 5]), [Err(15), Ok(3)]);
    assert_eq!(both(&[2, 1, 4, 3, 5]), [Ok(2), Ok(10)]);
    assert_eq!(both(&[1, 3, 2, 5, 4]), [Ok(12), Ok(35)]);
    let mut met = [0; 3];
    for s in (0..=7).flat_map(permutations) {
        match both(&s) {
            [Ok(_), Ok(_)] => met[0] += 1,
            [Err(15), Ok(_)] => met[1] += 1,
            [Err(15), Err(16)] => met[2] += 1,
            others => panic!("{s:?}: {others:?}"),
        }
    }
    // the sums, up to seven, of the numbers of involutions, of Bell permutations and of all
    assert_eq!(met, [352, 1156 - 352, 5914 - 1156]);
}
