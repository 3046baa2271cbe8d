//! Every permutation of n with exactly k cycles, in Baril's Gray-code order, by place.
//!
//! S(n,k) is the list of all permutations of n with exactly k cycles, for n from 0 to 20; neighbours in it, last and
//! first too, differ on three positions. A permutation is n bytes, the value at each position; values, positions and
//! cycles count from 1, places from 0. With n = 0, k is 0, and the list holds the one permutation of nothing, no bytes
//! at place 0; with n from 1 on, k is 1 to n.
//!
//! The involutions of n, which have no cycle longer than two, stand in a list of their own, without a k: see
//! [`involution_unrank`]. So do the Bell permutations of n, each of whose cycles falls from its highest number to its
//! lowest: see [`bell_unrank`].
//!
//! The moves that lead from the identity to a permutation, each of one value to an empty position, with one position to
//! spare, are written by [`moves`]; a list of moves, whoever drew it up, is checked by [`check_moves`].
//!
//! The work is done by `libosierdrum.a`, whose every function is proved to meet its contract for all inputs. Nothing
//! that is handed in can make a call read or write outside its slices or fail to return; what a call cannot serve it
//! refuses with a [`Refusal`], and then nothing in a lent slice has changed.
//!
//! ```
//! // the eleven permutations of 4 with 2 cycles, and the last of them
//! let rows = osierdrum::count(4, 2)?;
//! assert_eq!(rows, 11);
//! let mut row = [0; 4];
//! osierdrum::unrank(4, 2, rows - 1, &mut row)?;
//! assert_eq!(row, [3, 4, 1, 2]);
//! assert_eq!(osierdrum::rank(&row)?, osierdrum::Rank { k: 2, place: 10, fixed: 0 });
//! # Ok::<(), osierdrum::Refusal>(())
//! ```

#![warn(missing_docs)]

mod ffi;

use std::{error::Error, fmt};

/// Why a call was refused, with document 01's number.
///
/// ```
/// use osierdrum::Refusal;
/// assert_eq!(osierdrum::count(21, 1), Err(Refusal::Size));
/// assert_eq!(Refusal::Size as u8, 1);
/// ```
#[derive(Clone, Copy, Debug, PartialEq, Eq, Hash, PartialOrd, Ord)]
#[repr(u8)]
pub enum Refusal {
    /// 1: n, or a read slice's length as n, is more than 20.
    Size = 1,
    /// 2: k is not 1 to n, or with n = 0 not 0.
    Cycles = 2,
    /// 3: the place is c(n,k) or more, or in the list of involutions or of Bell permutations their number or more.
    Place = 3,
    /// 4: the number of rows is not 1 to 1,000, or more than are left from the place on.
    Rows = 4,
    /// 5: a written slice has not the length that is asked for, the rows do not fit behind the offset, two permutations
    /// have unequal lengths, the pairs or the moves do not fit, the wishes are not n long, or a list of moves has an odd
    /// length.
    Lent = 5,
    /// 6: a value is not 1 to n, entry i of an array is not 1 to i, or a wish or a position of a move is above n.
    Value = 6,
    /// 7: a value occurs twice.
    Twice = 7,
    /// 12: fewer levels were lent than the permutation has values.
    Levels = 12,
    /// 14: no permutation from the place to the end meets the wishes.
    Unmet = 14,
    /// 15: a cycle is longer than two.
    Long = 15,
    /// 16: a cycle does not fall from its highest number to its lowest.
    Rising = 16,
}

impl Refusal {
    /// The library's refusal number as a result: 0 is none. The library's contracts give no number but these.
    fn checked(number: u8) -> Result<(), Refusal> {
        match number {
            0 => Ok(()),
            1 => Err(Refusal::Size),
            2 => Err(Refusal::Cycles),
            3 => Err(Refusal::Place),
            4 => Err(Refusal::Rows),
            5 => Err(Refusal::Lent),
            6 => Err(Refusal::Value),
            7 => Err(Refusal::Twice),
            12 => Err(Refusal::Levels),
            14 => Err(Refusal::Unmet),
            15 => Err(Refusal::Long),
            16 => Err(Refusal::Rising),
            _ => unreachable!("no call refuses {number}"),
        }
    }
}

impl fmt::Display for Refusal {
    fn fmt(&self, f: &mut fmt::Formatter<'_>) -> fmt::Result {
        let why = match self {
            Refusal::Size => "n is more than 20",
            Refusal::Cycles => "k is not 1 to n, or with n = 0 not 0",
            Refusal::Place => "the place is past the end of the list",
            Refusal::Rows => "the number of rows is not 1 to 1000, or more than are left",
            Refusal::Lent => {
                "a lent slice has not the length that is asked for, two permutations differ in length, or a list of \
                 moves has an odd length"
            }
            Refusal::Value => "a value, an entry or a position is out of range",
            Refusal::Twice => "a value occurs twice",
            Refusal::Levels => "fewer levels were lent than the permutation has values",
            Refusal::Unmet => "no permutation from the place to the end meets the wishes",
            Refusal::Long => "a cycle is longer than two",
            Refusal::Rising => "a cycle does not fall from its highest number to its lowest",
        };
        write!(f, "refused {}: {why}", *self as u8)
    }
}

impl Error for Refusal {}

/// Where a permutation stands: in S(n,k), n its length, at a place; and how many of its values stand at their own
/// position.
///
/// ```
/// let stands = osierdrum::rank(&[3, 1, 4, 2, 5])?;
/// assert_eq!((stands.k, stands.place, stands.fixed), (2, 38, 1));
/// # Ok::<(), osierdrum::Refusal>(())
/// ```
#[derive(Clone, Copy, Debug, PartialEq, Eq, Hash)]
pub struct Rank {
    /// Its number of cycles.
    pub k: u64,
    /// Its place in S(n,k), from 0.
    pub place: u64,
    /// Its number of fixed points: the i with s(i) = i.
    pub fixed: u64,
}

/// One size's part of an explanation: where the block that holds the permutation stands in the list at that size.
///
/// The list at a size is joined from blocks by one of document 01's relations (a) to (e). The two permutations that (a)
/// writes out at size 3 are blocks 0 and 1; a list of one permutation is block 0.
///
/// ```
/// let level = osierdrum::Level { letter: b'e', backward: false, block: 3, before: 33 };
/// assert_eq!(level.to_string(), "e 3 forward 33");
/// ```
#[repr(C)]
#[derive(Clone, Copy, Debug, PartialEq, Eq, Hash, Default)]
pub struct Level {
    /// The letter of the relation that gives the list, `b'a'` to `b'e'`.
    pub letter: u8,
    /// Whether the list is read backward.
    pub backward: bool,
    /// The block's number from 0, in written order.
    pub block: u64,
    /// How many permutations of the list stand before the block in that reading.
    pub before: u64,
}

impl fmt::Display for Level {
    fn fmt(&self, f: &mut fmt::Formatter<'_>) -> fmt::Result {
        let reading = if self.backward { "backward" } else { "forward" };
        write!(f, "{} {} {reading} {}", char::from(self.letter), self.block, self.before)
    }
}

/// What makes a permutation's place that place: a level for each size from n down to 1, n its length.
///
/// ```
/// let why = osierdrum::explain(&[3, 1, 4, 2, 5])?;
/// assert_eq!((why.k, why.place, why.levels.len()), (2, 38, 5));
/// # Ok::<(), osierdrum::Refusal>(())
/// ```
#[derive(Clone, Debug, PartialEq, Eq, Hash)]
pub struct Explanation {
    /// The permutation's number of cycles.
    pub k: u64,
    /// Its place in S(n,k), from 0; the levels' numbers before add up to it.
    pub place: u64,
    /// The levels, size n first; the blocks, followed downward from n and k, lead to this permutation and no other.
    pub levels: Vec<Level>,
}

/// What [`explain_into`] answers beside the levels that it writes.
///
/// ```
/// let mut levels = [osierdrum::Level::default(); 20]; // room for every size
/// let why = osierdrum::explain_into(&[3, 1, 4, 2, 5], &mut levels)?;
/// assert_eq!((why.k, why.place), (2, 38));
/// # Ok::<(), osierdrum::Refusal>(())
/// ```
#[derive(Clone, Copy, Debug, PartialEq, Eq, Hash)]
pub struct Explained {
    /// The permutation's number of cycles.
    pub k: u64,
    /// Its place in S(n,k), from 0; the levels' numbers before add up to it.
    pub place: u64,
}

/// How many pairs [`exchanges_into`] found, and the bytes that they take.
///
/// ```
/// let mut pairs = [0; 38]; // room for every n
/// let made = osierdrum::exchanges_into(&[3, 1, 4, 2, 5], &[3, 5, 1, 2, 4], &mut pairs)?;
/// assert_eq!((made.count, made.written), (2, 4));
/// # Ok::<(), osierdrum::Refusal>(())
/// ```
#[derive(Clone, Copy, Debug, PartialEq, Eq, Hash)]
pub struct Exchanges {
    /// The number of pairs: n less the cycles of the permutation that carries the first to the second.
    pub count: u64,
    /// The number of bytes written, two a pair.
    pub written: u64,
}

/// c(n,k): how many permutations of n have exactly k cycles, which is the length of S(n,k).
///
/// Refusals, in this order: [`Refusal::Size`], [`Refusal::Cycles`].
///
/// ```
/// assert_eq!(osierdrum::count(5, 2), Ok(50));
/// assert_eq!(osierdrum::count(0, 0), Ok(1)); // the one permutation of nothing
/// ```
pub fn count(n: u64, k: u64) -> Result<u64, Refusal> {
    // SAFETY: the call takes and returns plain numbers.
    let answer = unsafe { ffi::osierdrum_count(n, k) };
    Refusal::checked(answer.refusal).map(|()| answer.count)
}

/// Writes the permutation at a place of S(n,k) to `out`, which is n bytes long.
///
/// Refusals, in this order: [`Refusal::Size`], [`Refusal::Cycles`], [`Refusal::Place`], [`Refusal::Lent`].
///
/// ```
/// let mut row = [0; 5];
/// osierdrum::unrank(5, 2, 38, &mut row)?;
/// assert_eq!(row, [3, 1, 4, 2, 5]);
/// # Ok::<(), osierdrum::Refusal>(())
/// ```
pub fn unrank(n: u64, k: u64, place: u64, out: &mut [u8]) -> Result<(), Refusal> {
    // SAFETY: the pointer and the length are those of one slice that is ours to write.
    Refusal::checked(unsafe { ffi::osierdrum_unrank(n, k, place, out.as_mut_ptr(), out.len()) })
}

/// The number of cycles of a permutation, its place and its number of fixed points; n is the slice's length. An empty
/// slice is the permutation of nothing: no cycle, place 0, no fixed point.
///
/// Refusals, in this order: [`Refusal::Size`], [`Refusal::Value`], [`Refusal::Twice`].
///
/// ```
/// use osierdrum::{rank, Rank, Refusal};
/// assert_eq!(rank(&[4, 2, 1, 3]), Ok(Rank { k: 2, place: 0, fixed: 1 }));
/// assert_eq!(rank(&[]), Ok(Rank { k: 0, place: 0, fixed: 0 }));
/// assert_eq!(rank(&[1, 1]), Err(Refusal::Twice));
/// ```
pub fn rank(s: &[u8]) -> Result<Rank, Refusal> {
    // SAFETY: the pointer and the length are those of one slice.
    let answer = unsafe { ffi::osierdrum_rank(s.as_ptr(), s.len()) };
    Refusal::checked(answer.refusal).map(|()| Rank { k: answer.k, place: answer.place, fixed: answer.fixed })
}

/// Writes the transposition array of the permutation `s` to `out`, which is as long: the one p with 1 ≤ p(i) ≤ i and
/// s = ⟨p(1),1⟩·⟨p(2),2⟩·…·⟨p(n),n⟩. The result is the number of fixed points of `s`, the i with s(i) = i; the i with
/// p(i) = i are another number, that of the cycles.
///
/// Refusals, in this order: [`Refusal::Size`], [`Refusal::Lent`], [`Refusal::Value`], [`Refusal::Twice`].
///
/// ```
/// let mut array = [0; 4];
/// assert_eq!(osierdrum::to_array(&[4, 2, 1, 3], &mut array), Ok(1)); // 2 stands at position 2
/// assert_eq!(array, [1, 2, 1, 1]);
/// ```
pub fn to_array(s: &[u8], out: &mut [u8]) -> Result<u64, Refusal> {
    // SAFETY: each pointer and length are those of one slice, and the written one is ours alone.
    let answer = unsafe { ffi::osierdrum_to_array(s.as_ptr(), s.len(), out.as_mut_ptr(), out.len()) };
    Refusal::checked(answer.refusal).map(|()| answer.fixed)
}

/// Writes the permutation of the transposition array `a` to `out`, which is as long.
///
/// Refusals, in this order: [`Refusal::Size`], [`Refusal::Lent`], [`Refusal::Value`].
///
/// ```
/// let mut s = [0; 4];
/// osierdrum::from_array(&[1, 2, 1, 1], &mut s)?;
/// assert_eq!(s, [4, 2, 1, 3]);
/// # Ok::<(), osierdrum::Refusal>(())
/// ```
pub fn from_array(a: &[u8], out: &mut [u8]) -> Result<(), Refusal> {
    // SAFETY: each pointer and length are those of one slice, and the written one is ours alone.
    Refusal::checked(unsafe { ffi::osierdrum_from_array(a.as_ptr(), a.len(), out.as_mut_ptr(), out.len()) })
}

/// Writes `m` permutations of S(n,k) from a place on, one after another, into `buf` from byte `offset` on; the bytes
/// before `offset` and after `offset + m * n` stay.
///
/// Refusals, in this order: [`Refusal::Size`], [`Refusal::Cycles`], [`Refusal::Place`], [`Refusal::Rows`],
/// [`Refusal::Lent`].
///
/// ```
/// let mut page = [9; 10];
/// osierdrum::rows(4, 2, 5, 2, 1, &mut page)?;
/// assert_eq!(page, [9, 3, 2, 4, 1, 3, 1, 2, 4, 9]);
/// # Ok::<(), osierdrum::Refusal>(())
/// ```
pub fn rows(n: u64, k: u64, place: u64, m: u64, offset: u64, buf: &mut [u8]) -> Result<(), Refusal> {
    // SAFETY: the pointer and the length are those of one slice that is ours to write.
    Refusal::checked(unsafe { ffi::osierdrum_rows(n, k, place, m, offset, buf.as_mut_ptr(), buf.len()) })
}

/// What makes a permutation's place that place, to be followed by hand; n is the slice's length. The list at size n is
/// read forward, and the reading turns below a block that its relation takes reversed.
///
/// Refusals, in this order: [`Refusal::Size`], [`Refusal::Value`], [`Refusal::Twice`].
///
/// ```
/// let why = osierdrum::explain(&[3, 1, 4, 2, 5])?;
/// assert_eq!((why.k, why.place), (2, 38));
/// let levels: Vec<String> = why.levels.iter().map(ToString::to_string).collect();
/// assert_eq!(levels, ["e 3 forward 33", "a 2 forward 4", "a 0 backward 1", "a 0 backward 0", "a 0 backward 0"]);
/// assert_eq!(why.levels.iter().map(|level| level.before).sum::<u64>(), 38);
/// # Ok::<(), osierdrum::Refusal>(())
/// ```
pub fn explain(s: &[u8]) -> Result<Explanation, Refusal> {
    // a longer slice is refused before its levels are counted
    let mut levels = vec![Level::default(); s.len().min(20)];
    explain_into(s, &mut levels).map(|Explained { k, place }| Explanation { k, place, levels })
}

/// As [`explain`], with the levels written to the first n of `levels`; those after them stay.
///
/// Refusals, in this order: [`Refusal::Size`], [`Refusal::Value`], [`Refusal::Twice`], [`Refusal::Levels`].
///
/// ```
/// use osierdrum::{explain_into, Explained, Level, Refusal};
/// let mut levels = [Level::default(); 20]; // room for every size
/// assert_eq!(explain_into(&[2, 3, 1], &mut levels), Ok(Explained { k: 1, place: 1 }));
/// assert_eq!(levels[0], Level { letter: b'a', backward: false, block: 1, before: 1 });
/// assert_eq!(levels[3], Level::default()); // as it was
/// assert_eq!(explain_into(&[2, 3, 1], &mut levels[..2]), Err(Refusal::Levels));
/// ```
pub fn explain_into(s: &[u8], levels: &mut [Level]) -> Result<Explained, Refusal> {
    // SAFETY: each pointer and length are those of one slice, the written one is ours alone, and a level has the library's
    // layout.
    let answer = unsafe { ffi::osierdrum_explain(s.as_ptr(), s.len(), levels.as_mut_ptr(), levels.len()) };
    Refusal::checked(answer.refusal).map(|()| Explained { k: answer.k, place: answer.place })
}

/// The exchanges that turn the permutation `from` into the permutation `to`: pairs of positions whose values are
/// exchanged, one pair after another; n is the length of either. No other list of pairs with that effect is shorter, and
/// equal permutations give none.
///
/// The permutation u that, as a product on the right, carries the first to the second has from(u(i)) = to(i) for each i.
/// With p its transposition array, as [`to_array`] writes it, the pairs are p(i), i for each i, rising, where p(i) ≠ i.
/// Their number is n less the cycles of u, and so at most 19.
///
/// Refusals, in this order: [`Refusal::Size`] for either, [`Refusal::Lent`] for unequal lengths, [`Refusal::Value`] for
/// either, [`Refusal::Twice`] for either.
///
/// ```
/// let (from, to) = ([3, 1, 4, 2, 5], [5, 4, 3, 2, 1]);
/// let pairs = osierdrum::exchanges(&from, &to)?;
/// assert_eq!(pairs, [[1, 2], [2, 3], [1, 5]]);
/// let mut row = from;
/// for [a, b] in pairs {
///     row.swap(usize::from(a) - 1, usize::from(b) - 1);
/// }
/// assert_eq!(row, to);
/// # Ok::<(), osierdrum::Refusal>(())
/// ```
pub fn exchanges(from: &[u8], to: &[u8]) -> Result<Vec<[u8; 2]>, Refusal> {
    // room for 19 pairs, so that it never is too short
    let mut bytes = [0; 2 * 19];
    let Exchanges { written, .. } = exchanges_into(from, to, &mut bytes)?;
    Ok(bytes[..written as usize].chunks_exact(2).map(|pair| [pair[0], pair[1]]).collect())
}

/// As [`exchanges`], with the pairs written to the front of `out`, two bytes a pair; the bytes after them stay.
///
/// Refusals, in this order: [`Refusal::Size`] for either, [`Refusal::Lent`] for unequal lengths, [`Refusal::Value`] for
/// either, [`Refusal::Twice`] for either, [`Refusal::Lent`] for an `out` that is shorter than the pairs.
///
/// ```
/// use osierdrum::{exchanges_into, Exchanges, Refusal};
/// let mut bytes = [0; 5];
/// assert_eq!(exchanges_into(&[3, 1, 2], &[1, 2, 3], &mut bytes), Ok(Exchanges { count: 2, written: 4 }));
/// assert_eq!(bytes, [1, 2, 2, 3, 0]); // the last as it was
/// assert_eq!(exchanges_into(&[3, 1, 2], &[1, 2, 3], &mut bytes[..3]), Err(Refusal::Lent));
/// assert_eq!(exchanges_into(&[3, 1, 2], &[1, 2], &mut bytes), Err(Refusal::Lent));
/// ```
pub fn exchanges_into(from: &[u8], to: &[u8], out: &mut [u8]) -> Result<Exchanges, Refusal> {
    // SAFETY: each pointer and length are those of one slice, and the written one is ours alone.
    let answer = unsafe {
        ffi::osierdrum_exchanges(from.as_ptr(), from.len(), to.as_ptr(), to.len(), out.as_mut_ptr(), out.len())
    };
    Refusal::checked(answer.refusal).map(|()| Exchanges { count: answer.count, written: answer.written })
}

/// Writes the sequence of the inversion table `a` to `out`, which is as long: the values 1 to n in the one order in which,
/// for each i, one more than the number of earlier elements that are higher than the i-th is `a`'s entry i.
///
/// An inversion table is read from the same arrays as [`from_array`] reads: 1 ≤ a(i) ≤ i. An element is a record low if it
/// is below all before it; the sequence has as many as there are i with a(i) = i. So the arrays of the permutations of n
/// with k cycles, as [`to_array`] writes them, give the sequences of n with exactly k record lows, each one time.
///
/// Refusals, in this order: [`Refusal::Size`], [`Refusal::Lent`], [`Refusal::Value`].
///
/// ```
/// let mut sequence = [0; 5];
/// osierdrum::from_inversions(&[1, 1, 1, 3, 5], &mut sequence)?; // the array of the permutation 3 1 4 2 5, of two cycles
/// assert_eq!(sequence, [2, 4, 5, 3, 1]); // its record lows are 2 and 1
/// # Ok::<(), osierdrum::Refusal>(())
/// ```
pub fn from_inversions(a: &[u8], out: &mut [u8]) -> Result<(), Refusal> {
    // SAFETY: each pointer and length are those of one slice, and the written one is ours alone.
    Refusal::checked(unsafe { ffi::osierdrum_from_inversions(a.as_ptr(), a.len(), out.as_mut_ptr(), out.len()) })
}

/// Writes the inversion table of the sequence `s` to `out`, which is as long: entry i is one more than the number of
/// elements before the i-th that are higher than it. The sequence is a permutation: the values 1 to n, each once.
///
/// Refusals, in this order: [`Refusal::Size`], [`Refusal::Lent`], [`Refusal::Value`], [`Refusal::Twice`].
///
/// ```
/// let mut table = [0; 5];
/// osierdrum::to_inversions(&[2, 4, 5, 3, 1], &mut table)?;
/// assert_eq!(table, [1, 1, 1, 3, 5]); // before 3 stand 4 and 5, and all four before 1 are higher
/// let mut row = [0; 5];
/// osierdrum::from_array(&table, &mut row)?; // the permutation whose array it is
/// assert_eq!(row, [3, 1, 4, 2, 5]);
/// # Ok::<(), osierdrum::Refusal>(())
/// ```
pub fn to_inversions(s: &[u8], out: &mut [u8]) -> Result<(), Refusal> {
    // SAFETY: each pointer and length are those of one slice, and the written one is ours alone.
    Refusal::checked(unsafe { ffi::osierdrum_to_inversions(s.as_ptr(), s.len(), out.as_mut_ptr(), out.len()) })
}

/// The place of the first permutation of S(n,k), at or after a place, that has the wished value at each position with a
/// wish; the permutation is written to `out`. `wishes` and `out` are n bytes long, and a wish of 0 leaves its position
/// free. A value that is wished at two positions is never met.
///
/// Asked again from the place after, it finds the next permutation that meets the wishes. If the list ended with the one
/// found, there is no such place, and the refusal is [`Refusal::Place`].
///
/// Refusals, in this order: [`Refusal::Size`], [`Refusal::Cycles`], [`Refusal::Place`], [`Refusal::Lent`] for the wishes
/// or `out`, [`Refusal::Value`] for a wish above n, [`Refusal::Unmet`].
///
/// ```
/// use osierdrum::{find, Refusal};
/// let wishes = [3, 0, 4, 0, 0]; // 3 at position 1 and 4 at position 3
/// let mut row = [0; 5];
/// let place = find(5, 2, 20, &wishes, &mut row)?;
/// assert_eq!((place, row), (38, [3, 1, 4, 2, 5]));
/// let next = find(5, 2, place + 1, &wishes, &mut row)?;
/// assert_eq!((next, row), (44, [3, 5, 4, 1, 2]));
/// assert_eq!(find(5, 2, next + 1, &wishes, &mut row), Err(Refusal::Unmet));
/// assert_eq!(row, [3, 5, 4, 1, 2]); // as it was
/// # Ok::<(), osierdrum::Refusal>(())
/// ```
pub fn find(n: u64, k: u64, place: u64, wishes: &[u8], out: &mut [u8]) -> Result<u64, Refusal> {
    // SAFETY: each pointer and length are those of one slice, and the written one is ours alone.
    let answer =
        unsafe { ffi::osierdrum_find(n, k, place, wishes.as_ptr(), wishes.len(), out.as_mut_ptr(), out.len()) };
    Refusal::checked(answer.refusal).map(|()| answer.place)
}

/// How many involutions of n there are: permutations with no cycle longer than two. It is the length of the list that
/// [`involution_unrank`] tells of.
///
/// Refusals: [`Refusal::Size`].
///
/// ```
/// assert_eq!(osierdrum::involution_count(4), Ok(10));
/// assert_eq!(osierdrum::involution_count(20), Ok(23_758_664_096));
/// assert_eq!(osierdrum::involution_count(0), Ok(1)); // the one permutation of nothing
/// ```
pub fn involution_count(n: u64) -> Result<u64, Refusal> {
    // SAFETY: the call takes and returns plain numbers.
    let answer = unsafe { ffi::osierdrum_involution_count(n) };
    Refusal::checked(answer.refusal).map(|()| answer.count)
}

/// Writes the involution of n at a place to `out`, which is n bytes long.
///
/// The list is a tree, the identity first: a permutation, then its children, each with all its own children before the
/// next. A child exchanges the values at positions l < j, where j lies above the highest position that has not its own
/// value (above 1 if there is none), j rising, and for each j, l rising over the positions that have their own value.
///
/// Refusals, in this order: [`Refusal::Size`], [`Refusal::Place`], [`Refusal::Lent`].
///
/// ```
/// let mut rows = [[0; 4]; 10];
/// for (place, row) in (0..).zip(&mut rows) {
///     osierdrum::involution_unrank(4, place, row)?;
/// }
/// assert_eq!(rows[0], [1, 2, 3, 4]);
/// assert_eq!(rows[1..3], [[2, 1, 3, 4], [2, 1, 4, 3]]); // a child of the identity, and its only child
/// assert_eq!(rows[3..6], [[3, 2, 1, 4], [3, 4, 1, 2], [1, 3, 2, 4]]);
/// assert_eq!(rows[6..], [[4, 3, 2, 1], [4, 2, 3, 1], [1, 4, 3, 2], [1, 2, 4, 3]]);
/// # Ok::<(), osierdrum::Refusal>(())
/// ```
pub fn involution_unrank(n: u64, place: u64, out: &mut [u8]) -> Result<(), Refusal> {
    // SAFETY: the pointer and the length are those of one slice that is ours to write.
    Refusal::checked(unsafe { ffi::osierdrum_involution_unrank(n, place, out.as_mut_ptr(), out.len()) })
}

/// The place of an involution in the list that [`involution_unrank`] tells of; n is the slice's length. An empty slice
/// is the permutation of nothing, at place 0.
///
/// Refusals, in this order: [`Refusal::Size`], [`Refusal::Value`], [`Refusal::Twice`], [`Refusal::Long`].
///
/// ```
/// use osierdrum::{involution_rank, Refusal};
/// assert_eq!(involution_rank(&[3, 4, 1, 2]), Ok(4));
/// assert_eq!(involution_rank(&[]), Ok(0));
/// assert_eq!(involution_rank(&[3, 1, 2, 4]), Err(Refusal::Long)); // 1, 3 and 2 are one cycle
/// ```
pub fn involution_rank(s: &[u8]) -> Result<u64, Refusal> {
    // SAFETY: the pointer and the length are those of one slice.
    let answer = unsafe { ffi::osierdrum_involution_rank(s.as_ptr(), s.len()) };
    Refusal::checked(answer.refusal).map(|()| answer.place)
}

/// How many Bell permutations of n there are: permutations each of whose cycles falls from its highest number to its
/// lowest, one for each way to part 1 to n into sets. It is the length of the list that [`bell_unrank`] tells of.
///
/// Refusals: [`Refusal::Size`].
///
/// ```
/// assert_eq!(osierdrum::bell_count(4), Ok(15));
/// assert_eq!(osierdrum::bell_count(20), Ok(51_724_158_235_372));
/// assert_eq!(osierdrum::bell_count(0), Ok(1)); // the one permutation of nothing
/// ```
pub fn bell_count(n: u64) -> Result<u64, Refusal> {
    // SAFETY: the call takes and returns plain numbers.
    let answer = unsafe { ffi::osierdrum_bell_count(n) };
    Refusal::checked(answer.refusal).map(|()| answer.count)
}

/// Writes the Bell permutation of n at a place to `out`, which is n bytes long.
///
/// A Bell permutation is one each of whose cycles falls from its highest number to its lowest: followed from its highest
/// number, it goes to a lower one at each step until its lowest, which leads back to the highest. Every involution is
/// one.
///
/// The list is a tree like that of [`involution_unrank`], where for each j, l rises over the positions that are least in
/// their cycle.
///
/// Refusals, in this order: [`Refusal::Size`], [`Refusal::Place`], [`Refusal::Lent`].
///
/// ```
/// let mut rows = [[0; 4]; 15];
/// for (place, row) in (0..).zip(&mut rows) {
///     osierdrum::bell_unrank(4, place, row)?;
/// }
/// assert_eq!(rows[0], [1, 2, 3, 4]);
/// assert_eq!(rows[1..3], [[2, 1, 3, 4], [3, 1, 2, 4]]); // a child of the identity, and its first child
/// assert_eq!(rows[3], [4, 1, 2, 3]); // the only child of that one: 4, 3, 2, 1 are one cycle
/// assert_eq!(rows[4..6], [[4, 1, 3, 2], [2, 1, 4, 3]]); // the other children of 2 1 3 4
/// assert_eq!(rows[6..10], [[3, 2, 1, 4], [4, 2, 1, 3], [3, 4, 1, 2], [1, 3, 2, 4]]);
/// assert_eq!(rows[10..], [[4, 3, 2, 1], [1, 4, 2, 3], [4, 2, 3, 1], [1, 4, 3, 2], [1, 2, 4, 3]]);
/// # Ok::<(), osierdrum::Refusal>(())
/// ```
pub fn bell_unrank(n: u64, place: u64, out: &mut [u8]) -> Result<(), Refusal> {
    // SAFETY: the pointer and the length are those of one slice that is ours to write.
    Refusal::checked(unsafe { ffi::osierdrum_bell_unrank(n, place, out.as_mut_ptr(), out.len()) })
}

/// The place of a Bell permutation in the list that [`bell_unrank`] tells of; n is the slice's length. An empty slice is
/// the permutation of nothing, at place 0.
///
/// Refusals, in this order: [`Refusal::Size`], [`Refusal::Value`], [`Refusal::Twice`], [`Refusal::Rising`].
///
/// ```
/// use osierdrum::{bell_rank, Refusal};
/// assert_eq!(bell_rank(&[3, 1, 2, 4]), Ok(2)); // from 3 to 2 to 1
/// assert_eq!(bell_rank(&[]), Ok(0));
/// assert_eq!(bell_rank(&[2, 3, 1, 4]), Err(Refusal::Rising)); // from 3 to 1 to 2
/// ```
pub fn bell_rank(s: &[u8]) -> Result<u64, Refusal> {
    // SAFETY: the pointer and the length are those of one slice.
    let answer = unsafe { ffi::osierdrum_bell_rank(s.as_ptr(), s.len()) };
    Refusal::checked(answer.refusal).map(|()| answer.place)
}

/// The moves that lead from the identity to the permutation `s`, each from a position to another; n is the slice's length.
/// The positions are 1 to n, where value i stands at position i, and position 0, which is empty before and after. A move
/// takes a value from an occupied position to an empty one.
///
/// The moves go cycle by cycle, for each cycle of two or more, rising by its least position a. First the value at a goes
/// to position 0; then the empty position always takes the value that `s` has there, until the value at position 0 has
/// left it. That is one move more than the cycle has values. So the number of moves is that of the values away from their
/// own position plus that of such cycles, at most 30; the identity has none. No valid list of moves from the identity to
/// `s` is shorter.
///
/// Refusals, in this order: [`Refusal::Size`], [`Refusal::Value`], [`Refusal::Twice`].
///
/// ```
/// let s = [3, 4, 1, 2];
/// let list = osierdrum::moves(&s)?;
/// assert_eq!(list, [[1, 0], [3, 1], [0, 3], [2, 0], [4, 2], [0, 4]]);
/// let mut standing = [0, 1, 2, 3, 4]; // position 0 is empty
/// for [from, to] in list {
///     standing.swap(usize::from(from), usize::from(to));
/// }
/// assert_eq!(standing, [0, 3, 4, 1, 2]);
/// # Ok::<(), osierdrum::Refusal>(())
/// ```
pub fn moves(s: &[u8]) -> Result<Vec<[u8; 2]>, Refusal> {
    // room for 30 moves, so that it never is too short
    let mut bytes = [0; 2 * 30];
    let count = moves_into(s, &mut bytes)?;
    Ok(bytes.chunks_exact(2).take(count as usize).map(|made| [made[0], made[1]]).collect())
}

/// As [`moves`], with the moves written to the front of `out`, two bytes a move, and their number as the result; the bytes
/// after them stay.
///
/// Refusals, in this order: [`Refusal::Size`], [`Refusal::Value`], [`Refusal::Twice`], [`Refusal::Lent`] for an `out` that
/// is shorter than the moves.
///
/// ```
/// use osierdrum::{moves_into, Refusal};
/// let mut bytes = [9; 7];
/// assert_eq!(moves_into(&[2, 1], &mut bytes), Ok(3));
/// assert_eq!(bytes, [1, 0, 2, 1, 0, 2, 9]); // the last as it was
/// assert_eq!(moves_into(&[2, 1], &mut bytes[..5]), Err(Refusal::Lent));
/// assert_eq!(moves_into(&[1, 2], &mut []), Ok(0));
/// ```
pub fn moves_into(s: &[u8], out: &mut [u8]) -> Result<u64, Refusal> {
    // SAFETY: each pointer and length are those of one slice, and the written one is ours alone.
    let answer = unsafe { ffi::osierdrum_moves(s.as_ptr(), s.len(), out.as_mut_ptr(), out.len()) };
    Refusal::checked(answer.refusal).map(|()| answer.count)
}

/// Whether a list of moves, whoever drew it up, leads from the identity to the permutation `s`: every move finds its first
/// position occupied and its second empty, and at the end `s` stands at the positions 1 to n and position 0 is empty. n is
/// the length of `s`; a move is two bytes, as [`moves_into`] writes it, and there may be any number of them.
///
/// Refusals, in this order: [`Refusal::Size`], [`Refusal::Lent`] for a list of moves of odd length, [`Refusal::Value`] for
/// a value of `s` or for a position above n in the list, [`Refusal::Twice`].
///
/// ```
/// use osierdrum::{check_moves, Refusal};
/// assert_eq!(check_moves(&[2, 1], &[1, 0, 2, 1, 0, 2]), Ok(true));
/// assert_eq!(check_moves(&[2, 1], &[2, 0, 1, 2, 0, 1]), Ok(true)); // another way, not the one that is written
/// assert_eq!(check_moves(&[2, 1], &[1, 2, 2, 1, 0, 2]), Ok(false)); // position 2 is occupied
/// assert_eq!(check_moves(&[2, 1], &[1, 0, 2, 1]), Ok(false)); // 1 still stands at position 0
/// assert_eq!(check_moves(&[1, 2], &[]), Ok(true)); // no moves, to the identity
/// assert_eq!(check_moves(&[2, 1], &[1, 0, 2]), Err(Refusal::Lent));
/// assert_eq!(check_moves(&[2, 1], &[1, 3]), Err(Refusal::Value));
/// ```
pub fn check_moves(s: &[u8], moves: &[u8]) -> Result<bool, Refusal> {
    // SAFETY: each pointer and length are those of one slice.
    let answer = unsafe { ffi::osierdrum_check_moves(s.as_ptr(), s.len(), moves.as_ptr(), moves.len()) };
    Refusal::checked(answer.refusal).map(|()| answer.valid == 1)
}
