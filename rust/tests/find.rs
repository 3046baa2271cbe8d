//! The first permutation from a place on that meets wishes, as document 02, i), has it: against stored vectors of another author, against a scan of
//! the whole list up to seven, against an independent search up to twenty, and with damaged wishes, numbers and lengths, with guard bytes around what
//! is lent. n = 0 stands in `empty.rs` too, and numbers at the ends of the machine's words in `damaged.rs`.

mod reference;

/// The calls as the library has them: the safe ones drop what stands beside a refusal.
#[path = "../src/ffi.rs"]
#[allow(dead_code)]
mod ffi;

use osierdrum::{find, Level, Refusal};
use reference::{counts, list, shuffled, Random, Reference};

/// What a search is asked.
#[derive(Clone, Debug)]
struct Asked {
    n: u64,
    k: u64,
    place: u64,
    pattern: Vec<u8>,
}

/// Where a search ended: the place and the row, or the refusal.
type Ended = Result<(u64, Vec<u8>), u8>;

/// Runs the call on `size` bytes of a longer buffer, as the library has it and by the safe function: same result, zero beside a refusal, and no byte
/// changed beside the lent ones, nor any by a refused call.
fn called(asked: &Asked, size: usize) -> Ended {
    const GUARD: usize = 8;
    let &Asked { n, k, place, ref pattern } = asked;
    // no call writes such a byte
    let before: Vec<u8> = (0..size + 2 * GUARD).map(|i| 50 + (i % 200) as u8).collect();
    let (mut ours, mut again) = (before.clone(), before.clone());
    let lent = &mut ours[GUARD..GUARD + size];
    // SAFETY: each pointer and length are those of one slice, and the written one is ours alone.
    let given =
        unsafe { ffi::osierdrum_find(n, k, place, pattern.as_ptr(), pattern.len(), lent.as_mut_ptr(), lent.len()) };
    let safe = find(n, k, place, pattern, &mut again[GUARD..GUARD + size]).map_err(|refusal| refusal as u8);
    let beside = safe.map_or_else(|refusal| (refusal, 0), |place| (0, place));
    assert_eq!((given.refusal, given.place), beside, "{asked:?} with {size}");
    assert_eq!(ours, again, "{asked:?} with {size}");
    let written = if safe.is_ok() { size } else { 0 };
    assert_eq!(ours[..GUARD], before[..GUARD], "{asked:?} with {size}");
    assert_eq!(ours[GUARD + written..], before[GUARD + written..], "{asked:?} with {size}");
    safe.map(|place| (place, ours[GUARD..GUARD + size].to_vec()))
}

/// As `called`, and the reference ends the same.
fn same(reference: &Reference, asked: &Asked, size: usize) -> Ended {
    let ended = called(asked, size);
    let mut row = vec![99; size];
    let right = reference.find(asked.n, asked.k, asked.place, &asked.pattern, &mut row).map(|place| (place, row));
    assert_eq!(ended, right, "{asked:?} with {size}");
    ended
}

/// The refusal, 0 for none.
fn refusal(ended: Ended) -> u8 {
    ended.err().unwrap_or(0)
}

fn meets(row: &[u8], pattern: &[u8]) -> bool {
    row.iter().zip(pattern).all(|(value, entry)| *entry == 0 || value == entry)
}

/// The call ends where a scan of the whole list does, and its answer is as document 02 says.
fn as_scanned(rows: &[Vec<u8>], asked: &Asked) {
    let Asked { n, place, pattern, .. } = asked;
    let ended = called(asked, *n as usize);
    let scanned = (0..).zip(rows).find(|(at, row)| at >= place && meets(row, pattern));
    assert_eq!(ended, scanned.map(|(at, row)| (at, row.clone())).ok_or(14), "{asked:?}");
    let from = &rows[*place as usize..];
    match ended {
        Ok((found, row)) => {
            assert!(found >= *place && meets(&row, pattern), "{asked:?}");
            let (between, rest) = from.split_at((found - place) as usize);
            assert!(!between.iter().any(|row| meets(row, pattern)), "{asked:?}");
            assert_eq!(rest[0], row, "{asked:?}");
        }
        Err(_) => assert!(!from.iter().any(|row| meets(row, pattern)), "{asked:?}"),
    }
}

/// The places that the call meets, asked again from the place after each.
fn going_on(n: u64, k: u64, pattern: &[u8]) -> Vec<u64> {
    let rows = osierdrum::count(n, k).unwrap();
    let mut met = Vec::new();
    let mut asked = Asked { n, k, place: 0, pattern: pattern.to_vec() };
    while asked.place < rows {
        match called(&asked, n as usize) {
            Ok((found, _)) => {
                assert!(found >= asked.place, "{asked:?}");
                met.push(found);
                asked.place = found + 1;
            }
            Err(refusal) => {
                assert_eq!(refusal, 14, "{asked:?}");
                break;
            }
        }
    }
    met
}

/// Every wish at every one of n positions.
fn all_patterns(n: u8) -> Vec<Vec<u8>> {
    (0..n).fold(vec![vec![]], |shorter, _| {
        let longer = |pattern: Vec<u8>| (0..=n).map(move |entry| [&pattern[..], &[entry]].concat());
        shorter.into_iter().flat_map(longer).collect()
    })
}

/// How wishes are made from a row.
#[derive(Clone, Copy, Debug, PartialEq)]
enum Kind {
    /// Some of its values.
    Some,
    /// All of its values.
    All,
    /// Some of its cycles, whole.
    Cycles,
    /// Some of its values, and one of them at another position too.
    Twice,
    /// Some of the values of another permutation, which may have another number of cycles.
    Other,
}

const KINDS: [Kind; 5] = [Kind::Some, Kind::All, Kind::Cycles, Kind::Twice, Kind::Other];

/// Any number of the values of a row, the other positions free.
fn some(random: &mut Random, row: &[u8]) -> Vec<u8> {
    let n = row.len() as u64;
    let kept = random.below(n + 1);
    row.iter().map(|&value| if random.below(n) < kept { value } else { 0 }).collect()
}

/// Some of the values of any permutation.
fn any(random: &mut Random, n: usize) -> Vec<u8> {
    let row = shuffled(random, n);
    some(random, &row)
}

fn made_from(random: &mut Random, row: &[u8], kind: Kind) -> Vec<u8> {
    match kind {
        Kind::Some => some(random, row),
        Kind::All => row.to_vec(),
        Kind::Cycles => {
            let mut pattern = vec![0; row.len()];
            for first in 0..row.len() {
                let keep = pattern[first] == 0 && random.below(3) == 0;
                let mut at = first;
                while keep && pattern[at] == 0 {
                    pattern[at] = row[at];
                    at = usize::from(row[at]) - 1;
                }
            }
            pattern
        }
        Kind::Twice => {
            let mut pattern = some(random, row);
            let one = random.below(row.len() as u64) as usize;
            let other = (one + 1 + random.below(row.len() as u64 - 1) as usize) % row.len();
            (pattern[one], pattern[other]) = (row[one], row[one]);
            pattern
        }
        Kind::Other => any(random, row.len()),
    }
}

/// Wishes made from any row of a list.
fn made_from_any(random: &mut Random, rows: &[Vec<u8>], kind: Kind) -> Vec<u8> {
    let row = &rows[random.below(rows.len() as u64) as usize];
    made_from(random, row, kind)
}

#[test]
fn as_stored() {
    let stored = include_str!("vectors/i-find.txt");
    assert_eq!(stored.lines().count(), 1200);
    let reference = Reference::new();
    let mut refused = 0;
    for line in stored.lines() {
        let parts: Vec<&str> = line.split(" | ").collect();
        let head: Vec<u64> = parts[0].split(' ').map(|number| number.parse().unwrap()).collect();
        let pattern = parts[1].split(' ').map(|entry| entry.parse().unwrap()).collect();
        let asked = Asked { n: head[0], k: head[1], place: head[2], pattern };
        let text = match same(&reference, &asked, head[0] as usize) {
            Ok((found, row)) => format!("{found} | {}", row.iter().map(u8::to_string).collect::<Vec<_>>().join(" ")),
            Err(refusal) => {
                refused += 1;
                format!("refused {refusal}")
            }
        };
        assert_eq!(text, parts[2..].join(" | "), "{line}");
    }
    assert_eq!(refused, 273);
}

#[test]
fn every_search_up_to_five() {
    let mut searches = 0;
    for n in 0..=5u8 {
        for k in n.min(1)..=n {
            let rows = list(n.into(), k.into());
            for pattern in all_patterns(n) {
                for place in 0..rows.len() as u64 {
                    let asked = Asked { n: n.into(), k: k.into(), place, pattern: pattern.clone() };
                    as_scanned(&rows, &asked);
                    searches += 1;
                }
            }
        }
    }
    assert_eq!(searches, 1 + 2 + 2 * 9 + 6 * 64 + 24 * 625 + 120 * 7776);
}

#[test]
fn every_place_of_six_and_seven() {
    let mut random = Random(31);
    for n in 6..=7u64 {
        for k in 1..=n {
            let rows = list(n as usize, k as usize);
            for at in 0..rows.len() {
                // wishes from a row before the place, at it and after it
                let before = random.below(at as u64 + 1) as usize;
                let after = at + random.below((rows.len() - at) as u64) as usize;
                for row in [before, at, after].map(|from| &rows[from]) {
                    for kind in KINDS {
                        let pattern = made_from(&mut random, row, kind);
                        as_scanned(&rows, &Asked { n, k, place: at as u64, pattern });
                    }
                }
                // and of no row: any value at any position
                let pattern = (0..n).map(|_| random.below(n + 1) as u8).collect();
                as_scanned(&rows, &Asked { n, k, place: at as u64, pattern });
            }
        }
    }
}

/// Where a search begins, seen from the row that its wishes are made from.
#[derive(Clone, Copy, Debug, PartialEq)]
enum Start {
    /// At place 0.
    First,
    /// Before it, or with it.
    Before,
    /// With it.
    At,
    /// With it, or after it.
    After,
    /// At the last place.
    Last,
}

const STARTS: [Start; 5] = [Start::First, Start::Before, Start::At, Start::After, Start::Last];

#[test]
fn random_searches_up_to_twenty() {
    let reference = Reference::new();
    let mut random = Random(37);
    let pairs = || KINDS.into_iter().flat_map(|kind| STARTS.map(|start| (kind, start)));
    // by kind and start: met at the place itself, met later, not met
    let mut met = [[[0u32; 3]; STARTS.len()]; KINDS.len()];
    for n in 2..=20u64 {
        for k in (1..=n).flat_map(|k| [k; 4]) {
            let rows = reference.count(n, k).unwrap();
            for (kind, start) in pairs() {
                let from = random.below(rows);
                let place = match start {
                    Start::First => 0,
                    Start::Before => random.below(from + 1),
                    Start::At => from,
                    Start::After => from + random.below(rows - from),
                    Start::Last => rows - 1,
                };
                let mut row = vec![0; n as usize];
                assert_eq!(reference.unrank(n, k, from, &mut row), Ok(()));
                let asked = Asked { n, k, place, pattern: made_from(&mut random, &row, kind) };
                let ended = same(&reference, &asked, row.len());
                match (kind, &ended) {
                    (Kind::Twice, _) => assert_eq!(ended, Err(14), "{asked:?}"),
                    (Kind::All, _) if place > from => assert_eq!(ended, Err(14), "{asked:?}"),
                    (Kind::All, _) => assert_eq!(ended, Ok((from, row)), "{asked:?}"),
                    (Kind::Some | Kind::Cycles, Err(_)) => assert!(place > from, "{asked:?}"),
                    (Kind::Some | Kind::Cycles, Ok((found, _))) => assert!(place > from || *found <= from, "{asked:?}"),
                    (Kind::Other, _) => {}
                }
                let outcome = ended.map_or(2, |(found, _)| usize::from(found != place));
                met[kind as usize][start as usize][outcome] += 1;
            }
        }
    }
    for (kind, start) in pairs() {
        let own = matches!(kind, Kind::Some | Kind::All | Kind::Cycles);
        let past = matches!(start, Start::After | Start::Last);
        let later = match start {
            Start::First | Start::Before => true,
            Start::At => !own,
            Start::After => kind != Kind::All,
            Start::Last => false,
        };
        let possible = [kind != Kind::Twice, kind != Kind::Twice && later, !own || past];
        for (times, possible) in met[kind as usize][start as usize].into_iter().zip(possible) {
            assert_eq!(times > 50, possible, "{kind:?} {start:?} {met:?}");
            assert_eq!(times > 0, possible, "{kind:?} {start:?} {met:?}");
        }
    }
}

#[test]
fn free_positions_are_met_at_the_place() {
    let reference = Reference::new();
    let mut random = Random(41);
    for n in 0..=20u64 {
        for k in n.min(1)..=n {
            let rows = reference.count(n, k).unwrap();
            for place in [0, rows - 1].into_iter().chain((0..20).map(|_| random.below(rows))) {
                let asked = Asked { n, k, place, pattern: vec![0; n as usize] };
                let mut row = vec![0; n as usize];
                assert_eq!(reference.unrank(n, k, place, &mut row), Ok(()));
                assert_eq!(called(&asked, row.len()), Ok((place, row)), "{asked:?}");
            }
        }
    }
}

/// The places of the rows that meet the wishes.
fn places(rows: &[Vec<u8>], pattern: &[u8]) -> Vec<u64> {
    (0..).zip(rows).filter(|(_, row)| meets(row, pattern)).map(|(place, _)| place).collect()
}

#[test]
fn going_on_meets_each_once_in_order() {
    let mut random = Random(43);
    for n in 0..=6u64 {
        for k in n.min(1)..=n {
            let rows = list(n as usize, k as usize);
            let pattern: Vec<Vec<u8>> = if n <= 4 {
                all_patterns(n as u8)
            } else {
                let kinds = KINDS.into_iter().flat_map(|kind| [kind; 40]);
                kinds.map(|kind| made_from_any(&mut random, &rows, kind)).collect()
            };
            for pattern in pattern {
                assert_eq!(going_on(n, k, &pattern), places(&rows, &pattern), "{pattern:?} in S({n},{k})");
            }
        }
    }
}

/// The cycles that wishes close, each counted at its least position: the wishes lead back there and pass none before it. No value is wished twice.
fn closed(pattern: &[u8]) -> usize {
    let least = |&i: &usize| {
        let mut at = i;
        while pattern[at] != 0 {
            at = usize::from(pattern[at]) - 1;
            if at <= i {
                return at == i;
            }
        }
        false
    };
    (0..pattern.len()).filter(least).count()
}

/// The wishes that close no cycle are paths, one to each free position, and a permutation of the paths joins them: m free positions and q closed cycles
/// are met by c(m,k-q) rows.
#[test]
fn met_by_as_many_as_permutations_of_the_free_positions() {
    let c = counts();
    let mut random = Random(47);
    let mut met = [0u32; 3];
    for n in 0..=7usize {
        for k in n.min(1)..=n {
            let rows = list(n, k);
            for kind in [Kind::Some, Kind::All, Kind::Cycles, Kind::Other].into_iter().flat_map(|kind| [kind; 25]) {
                let pattern = made_from_any(&mut random, &rows, kind);
                let (free, closed) = (pattern.iter().filter(|&&entry| entry == 0).count(), closed(&pattern));
                let right = k.checked_sub(closed).map_or(0, |left| c[free][left]);
                let places = places(&rows, &pattern);
                assert_eq!(places.len() as u64, right, "{pattern:?} in S({n},{k})");
                assert_eq!(going_on(n as u64, k as u64, &pattern), places, "{pattern:?} in S({n},{k})");
                met[right.min(2) as usize] += 1;
            }
        }
    }
    assert!(met.iter().all(|&times| times > 200), "{met:?}");
}

/// A change to a call and its number of bytes lent, and how the call is refused then.
type Fault = (u8, fn(&mut Asked, &mut usize));

/// From the last refusal to the first, so that a change that undoes another comes before it in the order of refusals.
const FAULTS: [Fault; 16] = [
    (14, |asked, _| asked.pattern[3] = 3),
    (14, |asked, _| asked.place = 45),
    (6, |asked, _| asked.pattern[1] = 6),
    (6, |asked, _| asked.pattern[4] = 255),
    (5, |asked, _| asked.pattern.truncate(4)),
    (5, |asked, _| asked.pattern.resize(6, 0)),
    (5, |_, size| *size = 4),
    (5, |_, size| *size = 6),
    (3, |asked, _| asked.place = 50),
    (3, |asked, _| asked.place = u64::MAX),
    (2, |asked, _| asked.k = 0),
    (2, |asked, _| asked.k = 6),
    (2, |asked, _| asked.k = u64::MAX),
    (1, |asked, _| asked.n = 21),
    (1, |asked, _| asked.n = 256 + 5),
    (1, |asked, _| asked.n = u64::MAX),
];

/// Every set of faults, made one after another, is refused for the last made.
#[test]
fn each_refusal_before_the_later_ones() {
    let reference = Reference::new();
    let good = Asked { n: 5, k: 2, place: 38, pattern: vec![3, 0, 4, 0, 0] };
    assert_eq!(called(&good, 5), Ok((38, vec![3, 1, 4, 2, 5])));
    for set in 0..1 << FAULTS.len() {
        let (mut asked, mut size) = (good.clone(), 5);
        let mut right = 0;
        for (refusal, damage) in (0..).zip(FAULTS).filter(|(i, _)| set >> i & 1 == 1).map(|(_, fault)| fault) {
            damage(&mut asked, &mut size);
            right = refusal;
        }
        assert_eq!(refusal(same(&reference, &asked, size)), right, "{asked:?} with {size}");
    }
}

#[test]
fn values_up_to_n() {
    let reference = Reference::new();
    let mut random = Random(53);
    for n in 1..=20u8 {
        for position in 0..usize::from(n) {
            for (entry, refused) in [(n, false), (n + 1, true), (255, true)] {
                let (n, k) = (u64::from(n), 1 + random.below(n.into()));
                let mut pattern = any(&mut random, n as usize);
                pattern[position] = entry;
                let asked = Asked { n, k, place: random.below(reference.count(n, k).unwrap()), pattern };
                assert_eq!(refusal(same(&reference, &asked, n as usize)) == 6, refused, "{asked:?}");
            }
        }
    }
}

#[test]
fn bytes_lent() {
    let reference = Reference::new();
    let mut random = Random(59);
    for n in 0..=20usize {
        let lengths = || (0..=n + 2).chain([64, 255, 256, 256 + n, 1000]);
        for (length, size) in lengths().flat_map(|length| lengths().map(move |size| (length, size))) {
            let k = n.min(1) as u64;
            // with values above n, which are refused later
            let pattern = if length == n { vec![0; n] } else { (0..length).map(|_| random.next() as u8).collect() };
            let right = if length == n && size == n { 0 } else { 5 };
            let asked = Asked { n: n as u64, k, place: 0, pattern };
            assert_eq!(refusal(same(&reference, &asked, size)), right, "{asked:?} with {size}");
        }
    }
}

#[test]
fn refusals_by_name() {
    let row = &mut [0; 5];
    assert_eq!(find(21, 2, 0, &[0; 21], row), Err(Refusal::Size));
    assert_eq!(find(5, 6, 0, &[0; 5], row), Err(Refusal::Cycles));
    assert_eq!(find(5, 2, 50, &[0; 5], row), Err(Refusal::Place));
    assert_eq!(find(5, 2, 0, &[0; 4], row), Err(Refusal::Lent));
    assert_eq!(find(5, 2, 0, &[0; 5], &mut row[1..]), Err(Refusal::Lent));
    assert_eq!(find(5, 2, 0, &[0, 0, 6, 0, 0], row), Err(Refusal::Value));
    assert_eq!(find(5, 2, 0, &[0, 1, 0, 1, 0], row), Err(Refusal::Unmet));
    assert_eq!(*row, [0; 5]);
    assert_eq!(Refusal::Unmet as u8, 14);
    let why = "refused 14: no permutation from the place to the end meets the wishes";
    assert_eq!(Refusal::Unmet.to_string(), why);
}

#[test]
fn damaged_at_random() {
    let reference = Reference::new();
    let mut random = Random(61);
    let mut met = [0u32; 15];
    for _ in 0..40_000 {
        let n = random.below(22);
        let k = random.below(n + 2);
        let rows = reference.count(n, k).unwrap_or(1);
        let place = random.below(rows + rows / 8 + 1);
        let mut pattern = any(&mut random, n as usize);
        match random.below(8) {
            0 => pattern.resize(random.below(24) as usize, 0),
            1 if n > 0 => pattern[random.below(n) as usize] = random.next() as u8,
            2 if n > 0 => pattern[random.below(n) as usize] = random.below(n + 2) as u8,
            _ => {}
        }
        let size = if random.below(8) == 0 { random.below(24) } else { n };
        let asked = Asked { n, k, place, pattern };
        met[usize::from(refusal(same(&reference, &asked, size as usize)))] += 1;
    }
    assert!([0, 1, 2, 3, 5, 6, 14].iter().all(|&refusal| met[refusal] > 1_000), "{met:?}");
}
