//! The empty list: every call with n = 0, or with a slice of no bytes, as document 02, a), has it. The values stand here as written, not from the
//! reference; the other tests compare n = 0 with the reference among the rest.

use osierdrum::{
    bell_count, bell_rank, bell_unrank, check_moves, count, exchanges, exchanges_into, explain, explain_into, find,
    from_array, from_inversions, involution_count, involution_rank, involution_unrank, moves, moves_into, rank, rows,
    to_array, to_inversions, unrank, Exchanges, Explained, Explanation, Level, Rank, Refusal,
};

/// A call on a lent slice of `size` bytes, with guards: its result. No byte changes, whether it is served or refused.
fn lent<T>(size: usize, call: impl Fn(&mut [u8]) -> Result<T, Refusal>) -> Result<T, Refusal> {
    let mut buffer = [7u8; 12];
    let result = call(&mut buffer[5..5 + size]);
    assert_eq!(buffer, [7; 12]);
    result
}

#[test]
fn counts() {
    assert_eq!(count(0, 0), Ok(1));
    for k in [1, 2, 20, 21, 1 << 63, u64::MAX] {
        assert_eq!(count(0, k), Err(Refusal::Cycles));
    }
    assert_eq!(count(1, 0), Err(Refusal::Cycles));
    assert_eq!(count(21, 0), Err(Refusal::Size));
}

#[test]
fn permutation_at_a_place() {
    assert_eq!(lent(0, |out| unrank(0, 0, 0, out)), Ok(()));
    assert_eq!(lent(1, |out| unrank(0, 0, 0, out)), Err(Refusal::Lent));
    for size in [0, 1] {
        for place in [1, 2, u64::MAX] {
            assert_eq!(lent(size, |out| unrank(0, 0, place, out)), Err(Refusal::Place));
            assert_eq!(lent(size, |out| unrank(0, 1, place, out)), Err(Refusal::Cycles));
        }
        assert_eq!(lent(size, |out| unrank(0, 1, 0, out)), Err(Refusal::Cycles));
        assert_eq!(lent(size, |out| unrank(1, 0, 0, out)), Err(Refusal::Cycles));
    }
}

#[test]
fn place_of_a_permutation() {
    assert_eq!(rank(&[]), Ok(Rank { k: 0, place: 0, fixed: 0 }));
    assert_eq!(rank(&[1]), Ok(Rank { k: 1, place: 0, fixed: 1 }));
    assert_eq!(rank(&[0]), Err(Refusal::Value));
    assert_eq!(rank(&[0; 21]), Err(Refusal::Size));
}

#[test]
fn explanation_of_a_place() {
    assert_eq!(explain(&[]), Ok(Explanation { k: 0, place: 0, levels: vec![] }));
    assert_eq!(explain(&[0]), Err(Refusal::Value));
    assert_eq!(explain(&[0; 21]), Err(Refusal::Size));
    let lent = Level { letter: b'x', backward: true, block: 7, before: 7 };
    let mut levels = [lent; 3];
    for size in [0, 1] {
        assert_eq!(explain_into(&[], &mut levels[1..1 + size]), Ok(Explained { k: 0, place: 0 }));
        assert_eq!(explain_into(&[0], &mut levels[1..1 + size]), Err(Refusal::Value));
    }
    assert_eq!(explain_into(&[1], &mut levels[1..1]), Err(Refusal::Levels));
    assert_eq!(levels, [lent; 3]);
}

#[test]
fn fixed_points_of_an_array() {
    assert_eq!(lent(0, |out| to_array(&[], out)), Ok(0));
    assert_eq!(to_array(&[1], &mut [7]), Ok(1));
}

#[test]
fn arrays_and_inversions() {
    let unnumbered = |s: &[u8], out: &mut [u8]| to_array(s, out).map(|_| ());
    for call in [unnumbered, from_array, from_inversions, to_inversions] {
        assert_eq!(lent(0, |out| call(&[], out)), Ok(()));
        assert_eq!(lent(1, |out| call(&[], out)), Err(Refusal::Lent));
        assert_eq!(lent(0, |out| call(&[1], out)), Err(Refusal::Lent));
        assert_eq!(lent(1, |out| call(&[0], out)), Err(Refusal::Value));
        let mut out = [7];
        assert_eq!(call(&[1], &mut out), Ok(()));
        assert_eq!(out, [1]);
    }
}

#[test]
fn pairs_from_nothing_to_nothing() {
    assert_eq!(exchanges(&[], &[]), Ok(vec![]));
    for size in [0, 1, 2] {
        for s in [&[][..], &[1]] {
            assert_eq!(lent(size, |out| exchanges_into(s, s, out)), Ok(Exchanges { count: 0, written: 0 }));
        }
        for s in [[0], [1], [2]] {
            assert_eq!(lent(size, |out| exchanges_into(&[], &s, out)), Err(Refusal::Lent));
            assert_eq!(lent(size, |out| exchanges_into(&s, &[], out)), Err(Refusal::Lent));
        }
        assert_eq!(lent(size, |out| exchanges_into(&[], &[0; 21], out)), Err(Refusal::Size));
        assert_eq!(lent(size, |out| exchanges_into(&[0; 21], &[], out)), Err(Refusal::Size));
        assert_eq!(lent(size, |out| exchanges_into(&[1], &[0], out)), Err(Refusal::Value));
    }
}

#[test]
fn search_without_positions() {
    assert_eq!(lent(0, |out| find(0, 0, 0, &[], out)), Ok(0));
    assert_eq!(lent(1, |out| find(0, 0, 0, &[], out)), Err(Refusal::Lent));
    for size in [0, 1] {
        for pattern in [&[][..], &[0], &[1]] {
            for place in [1, 2, u64::MAX] {
                assert_eq!(lent(size, |out| find(0, 0, place, pattern, out)), Err(Refusal::Place));
                assert_eq!(lent(size, |out| find(0, 1, place, pattern, out)), Err(Refusal::Cycles));
            }
            assert_eq!(lent(size, |out| find(1, 0, 0, pattern, out)), Err(Refusal::Cycles));
            assert_eq!(lent(size, |out| find(21, 0, 0, pattern, out)), Err(Refusal::Size));
        }
        // too long wishes come before one that is above n
        for pattern in [[0], [1], [255]] {
            assert_eq!(lent(size, |out| find(0, 0, 0, &pattern, out)), Err(Refusal::Lent));
        }
    }
    assert_eq!(lent(1, |out| find(1, 1, 0, &[2], out)), Err(Refusal::Value));
    for entry in [0, 1] {
        let mut out = [7];
        assert_eq!(find(1, 1, 0, &[entry], &mut out), Ok(0));
        assert_eq!(out, [1]);
    }
}

/// The calls of a list that is a tree: its length, the row at a place, the place of a row.
fn a_tree_of_nothing(
    count: fn(u64) -> Result<u64, Refusal>,
    unrank: fn(u64, u64, &mut [u8]) -> Result<(), Refusal>,
    rank: fn(&[u8]) -> Result<u64, Refusal>,
) {
    assert_eq!(count(0), Ok(1));
    assert_eq!(count(1), Ok(1));
    assert_eq!(lent(0, |out| unrank(0, 0, out)), Ok(()));
    assert_eq!(lent(1, |out| unrank(0, 0, out)), Err(Refusal::Lent));
    assert_eq!(lent(0, |out| unrank(1, 0, out)), Err(Refusal::Lent));
    for size in [0, 1] {
        for place in [1, 2, 1 << 32, u64::MAX] {
            assert_eq!(lent(size, |out| unrank(0, place, out)), Err(Refusal::Place));
            assert_eq!(lent(size, |out| unrank(1, place, out)), Err(Refusal::Place));
            assert_eq!(lent(size, |out| unrank(21, place, out)), Err(Refusal::Size));
        }
    }
    let mut out = [7];
    assert_eq!(unrank(1, 0, &mut out), Ok(()));
    assert_eq!(out, [1]);
    assert_eq!(rank(&[]), Ok(0));
    assert_eq!(rank(&[1]), Ok(0));
    for value in [0, 2, 255] {
        assert_eq!(rank(&[value]), Err(Refusal::Value));
    }
    assert_eq!(rank(&[0; 21]), Err(Refusal::Size));
}

#[test]
fn the_involution_of_nothing() {
    a_tree_of_nothing(involution_count, involution_unrank, involution_rank);
}

#[test]
fn the_bell_permutation_of_nothing() {
    a_tree_of_nothing(bell_count, bell_unrank, bell_rank);
}

#[test]
fn moves_to_nothing() {
    assert_eq!(moves(&[]), Ok(vec![]));
    for size in [0, 1, 2] {
        for s in [&[][..], &[1]] {
            assert_eq!(lent(size, |out| moves_into(s, out)), Ok(0));
        }
        for value in [0, 2, 255] {
            assert_eq!(lent(size, |out| moves_into(&[value], out)), Err(Refusal::Value));
        }
        assert_eq!(lent(size, |out| moves_into(&[0; 21], out)), Err(Refusal::Size));
    }
}

#[test]
fn moves_of_nothing() {
    assert_eq!(check_moves(&[], &[]), Ok(true));
    // position 0 is there, and empty
    for count in 1..=3 {
        assert_eq!(check_moves(&[], &vec![0; 2 * count]), Ok(false));
    }
    for list in [[0, 1], [1, 0], [1, 1], [0, 255]] {
        assert_eq!(check_moves(&[], &list), Err(Refusal::Value));
    }
    for list in [&[0][..], &[1], &[0; 3], &[255; 301]] {
        assert_eq!(check_moves(&[], list), Err(Refusal::Lent));
        assert_eq!(check_moves(&[0], list), Err(Refusal::Lent));
        assert_eq!(check_moves(&[0; 21], list), Err(Refusal::Size));
    }
    assert_eq!(check_moves(&[0], &[]), Err(Refusal::Value));
    assert_eq!(check_moves(&[1], &[]), Ok(true));
    assert_eq!(check_moves(&[1], &[1, 0]), Ok(false));
    assert_eq!(check_moves(&[1], &[1, 0, 0, 1]), Ok(true));
    assert_eq!(check_moves(&[1], &[0, 1, 1, 0]), Ok(false));
    assert_eq!(check_moves(&[1], &[1, 2]), Err(Refusal::Value));
}

#[test]
fn rows_of_no_bytes() {
    for size in [0, 1] {
        for o in 0..=size as u64 {
            assert_eq!(lent(size, |buf| rows(0, 0, 0, 1, o, buf)), Ok(()));
        }
        for o in [size as u64 + 1, u64::MAX] {
            assert_eq!(lent(size, |buf| rows(0, 0, 0, 1, o, buf)), Err(Refusal::Lent));
            assert_eq!(lent(size, |buf| rows(0, 0, 0, 2, o, buf)), Err(Refusal::Rows));
        }
        for m in [0, 2, 1000, 1001, u64::MAX] {
            assert_eq!(lent(size, |buf| rows(0, 0, 0, m, 0, buf)), Err(Refusal::Rows));
            assert_eq!(lent(size, |buf| rows(0, 0, 1, m, 0, buf)), Err(Refusal::Place));
            assert_eq!(lent(size, |buf| rows(0, 1, 0, m, 0, buf)), Err(Refusal::Cycles));
        }
    }
}
