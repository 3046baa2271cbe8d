//! In how many entries the arrays of neighbouring rows differ, as document 02, n), has it: at most three, the last row and the first too, and three at as many steps as
//! another author counts. The walk that reports the number is not exported: the proved programs `calls` and `threes` hold it to the same author's numbers.

use osierdrum::{count, to_array, unrank};

/// The array of the row at a place.
fn array(n: u64, k: u64, place: u64) -> Vec<u8> {
    let mut row = vec![0; n as usize];
    let mut array = vec![0; n as usize];
    unrank(n, k, place, &mut row).unwrap();
    to_array(&row, &mut array).unwrap();
    array
}

/// The entries in which the arrays of the rows at two places differ.
fn changed(n: u64, k: u64, place: u64, other: u64) -> usize {
    array(n, k, place).iter().zip(array(n, k, other)).filter(|&(&old, new)| old != new).count()
}

/// Another author's numbers of neighbours whose arrays differ in three entries: a line for each n up to 20, a number for each k up to n.
fn threes() -> Vec<Vec<u64>> {
    let stored = include_str!("vectors/n-threes.txt");
    stored.lines().map(|line| line.split(' ').map(|number| number.parse().unwrap()).collect()).collect()
}

/// Document 02's t(n,k), from the line before.
fn t(n: usize, k: usize, before: &[u64]) -> u64 {
    if n <= 4 || k == 0 {
        return 0;
    }
    let at = |k: usize| before.get(k).copied().unwrap_or(0);
    (n as u64 - 1) * at(k) + at(k - 1) + u64::from(k == 2)
}

#[test]
fn as_many_threes_as_counted() {
    for (n, line) in threes().iter().enumerate().take(9) {
        assert_eq!(line.len(), n + 1);
        for k in n.min(1)..=n {
            let (n, k) = (n as u64, k as u64);
            let last = count(n, k).unwrap() - 1;
            let steps: Vec<usize> = (0..last).map(|place| changed(n, k, place, place + 1)).collect();
            assert!(steps.iter().all(|step| (1..=3).contains(step)), "S({n},{k})");
            assert_eq!(steps.iter().filter(|&&step| step == 3).count() as u64, line[k as usize], "S({n},{k})");
        }
    }
}

#[test]
fn t_is_that_of_the_papers() {
    let threes = threes();
    assert_eq!(threes.len(), 21);
    assert_eq!(threes[6][2], 6);
    for n in 1..threes.len() {
        let expected: Vec<u64> = (0..=n).map(|k| t(n, k, &threes[n - 1])).collect();
        assert_eq!(threes[n], expected, "{n}");
    }
}

#[test]
fn at_most_three_up_to_twenty() {
    let mut seen = [0u64; 4];
    for n in 2..=20u64 {
        for k in 1..=n {
            let count = count(n, k).unwrap();
            let from = [0, count / 7, count / 2, count.saturating_sub(60)];
            for place in from.into_iter().flat_map(|first| first..first.saturating_add(60).min(count)).filter(|_| count > 1) {
                seen[changed(n, k, place, (place + 1) % count)] += 1;
            }
        }
    }
    // every two neighbours differ, and among so many every number of entries is met
    assert_eq!(seen[0], 0);
    assert!(seen[1..].iter().all(|&met| met > 0), "{seen:?}");
}

#[test]
fn last_and_first() {
    for n in 3..=20u64 {
        for k in 1..n {
            // a list that ends with E, k = n - 1, starts and ends two entries apart; every other one has another last entry only
            let expected = if k == n - 1 { 2 } else { 1 };
            assert_eq!(changed(n, k, count(n, k).unwrap() - 1, 0), expected, "S({n},{k})");
        }
    }
}
