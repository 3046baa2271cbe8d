//! An implementation of document 01's calls that shares nothing with the library: written from the procedure `gen_up` in the appendix of source
//! document 004 (products on the left, the inverse kept beside the permutation), with the sense of each sublist as relations (a) to (e) give it.
//! The tests and the benchmark compare the library with it. Its levels have the wrapper's type, to be lent the same.

#![allow(dead_code)]

mod find;
pub mod moves;
pub mod relations;
pub mod tree;

use osierdrum::Level;

pub const MOST: usize = 20;

/// c(n,k), row by row from the recurrence.
pub fn counts() -> [[u64; MOST + 1]; MOST + 1] {
    let mut c = [[0u64; MOST + 1]; MOST + 1];
    c[0][0] = 1;
    for n in 1..=MOST {
        for k in 1..=n {
            c[n][k] = (n as u64 - 1) * c[n - 1][k] + c[n - 1][k - 1];
        }
    }
    c
}

/// One instruction of `gen_up(n,k)`: multiply by ⟨j,n⟩ on the left, then generate S(n-1,k) upward or downward.
#[derive(Clone, Copy)]
pub struct Call {
    pub j: usize,
    pub k: usize,
    pub up: bool,
}

pub struct Calls {
    list: [Call; MOST],
    len: usize,
}

impl Calls {
    fn push(&mut self, j: usize, k: usize, up: bool) {
        self.list[self.len] = Call { j, k, up };
        self.len += 1;
    }

    /// The instruction at a number, counted in the order of `gen_up` or, for `gen_down`, in the inverse order and each turned.
    fn get(&self, at: usize, up: bool) -> Option<Call> {
        if at >= self.len {
            return None;
        }
        if up {
            return Some(self.list[at]);
        }
        let call = self.list[self.len - 1 - at];
        Some(Call { up: !call.up, ..call })
    }
}

/// The instructions of `gen_up(n,k)` for 1 ≤ k < n, in the appendix's order.
pub fn calls(n: usize, k: usize) -> Calls {
    let even = |e: usize| e % 2 == 0;
    let mut out = Calls { list: [Call { j: 0, k: 0, up: true }; MOST], len: 0 };
    if n == 4 && k == 1 {
        out.push(1, k, true);
        out.push(2, k, false);
        out.push(3, k, false);
    } else if k == n - 1 {
        out.push(1, k, true);
        if n - 1 > 1 {
            out.push(n - 1, k, true);
        }
        for j in (2..=n.saturating_sub(3)).rev() {
            out.push(j, k, true);
        }
        if n - 2 > 1 {
            out.push(n - 2, k, true);
        }
        if k >= 2 {
            out.push(n, k - 1, false);
        }
    } else if k == n - 2 {
        out.push(1, k, true);
        for j in 3..n {
            out.push(j, k, even(j));
        }
        if k >= 2 {
            out.push(n, k - 1, true);
        }
        out.push(2, k, false);
    } else if k == 1 {
        out.push(1, k, true);
        for j in (4..n).rev() {
            out.push(j, k, even(j + 1));
        }
        out.push(2, k, true);
        out.push(3, k, false);
    } else {
        out.push(1, k, true);
        for j in (k + 1..n).rev() {
            out.push(j, k, even(j));
        }
        out.push(n, k - 1, even(k));
        for j in (2..=k).rev() {
            out.push(j, k, even(j - 1));
        }
    }
    out
}

/// A permutation with its inverse; index 0 is unused.
pub struct Sigma {
    value: [u8; MOST + 1],
    inverse: [u8; MOST + 1],
}

impl Sigma {
    fn identity() -> Sigma {
        let mut value = [0; MOST + 1];
        for (i, v) in value.iter_mut().enumerate() {
            *v = i as u8;
        }
        Sigma { value, inverse: value }
    }

    /// The product ⟨x,y⟩·σ: the values x and y change places.
    fn left(&mut self, x: usize, y: usize) {
        let (a, b) = (usize::from(self.inverse[x]), usize::from(self.inverse[y]));
        self.value.swap(a, b);
        self.inverse.swap(x, y);
    }

    fn generate(&mut self, size: usize, n: usize, k: usize, up: bool, print: &mut impl FnMut(&[u8])) {
        if n == k {
            print(&self.value[1..=size]);
            return;
        }
        let instructions = calls(n, k);
        let mut at = 0;
        while let Some(call) = instructions.get(at, up) {
            self.left(call.j, n);
            self.generate(size, n - 1, call.k, call.up, print);
            self.left(call.j, n);
            at += 1;
        }
    }
}

/// Every row of S(n,k), in order.
pub fn list(n: usize, k: usize) -> Vec<Vec<u8>> {
    let mut rows = Vec::new();
    Sigma::identity().generate(n, n, k, true, &mut |row| rows.push(row.to_vec()));
    rows
}

/// Every permutation of n.
pub fn permutations(n: usize) -> impl Iterator<Item = Vec<u8>> {
    (n.min(1)..=n).flat_map(move |k| list(n, k))
}

/// The calls with document 01's refusals.
pub struct Reference {
    c: [[u64; MOST + 1]; MOST + 1],
}

impl Reference {
    pub fn new() -> Reference {
        Reference { c: counts() }
    }

    fn numbers(&self, n: u64, k: u64) -> Result<(usize, usize), u8> {
        if n > 20 {
            return Err(1);
        }
        let taken = if n == 0 { 0..=0 } else { 1..=n };
        if !taken.contains(&k) {
            return Err(2);
        }
        Ok((n as usize, k as usize))
    }

    pub fn count(&self, n: u64, k: u64) -> Result<u64, u8> {
        let (n, k) = self.numbers(n, k)?;
        Ok(self.c[n][k])
    }

    /// The row at a place, by going down the generating tree and passing over what stands before it.
    fn row(&self, size: usize, k: usize, place: u64, out: &mut [u8]) {
        let mut sigma = Sigma::identity();
        let (mut n, mut k, mut up, mut left) = (size, k, true, place);
        while n != k {
            let instructions = calls(n, k);
            let mut at = 0;
            while let Some(call) = instructions.get(at, up) {
                let rows = self.c[n - 1][call.k];
                if left < rows {
                    sigma.left(call.j, n);
                    (n, k, up) = (n - 1, call.k, call.up);
                    break;
                }
                left -= rows;
                at += 1;
            }
        }
        out.copy_from_slice(&sigma.value[1..=size]);
    }

    pub fn unrank(&self, n: u64, k: u64, place: u64, out: &mut [u8]) -> Result<(), u8> {
        let (n, k) = self.numbers(n, k)?;
        if place >= self.c[n][k] {
            return Err(3);
        }
        if out.len() != n {
            return Err(5);
        }
        self.row(n, k, place, out);
        Ok(())
    }

    fn permutation(s: &[u8]) -> Result<(), u8> {
        let n = s.len();
        if s.iter().any(|&v| v == 0 || usize::from(v) > n) {
            return Err(6);
        }
        let mut seen = [false; MOST + 1];
        for &v in s {
            if std::mem::replace(&mut seen[usize::from(v)], true) {
                return Err(7);
            }
        }
        Ok(())
    }

    /// The cycles of a permutation, each followed until it closes.
    fn cycles(s: &[u8]) -> usize {
        let mut met = [false; MOST + 1];
        let mut cycles = 0;
        for i in 0..s.len() {
            if met[i] {
                continue;
            }
            cycles += 1;
            let mut at = i;
            while !met[at] {
                met[at] = true;
                at = usize::from(s[at]) - 1;
            }
        }
        cycles
    }

    /// The i with s(i) = i.
    pub fn fixed(s: &[u8]) -> u64 {
        s.iter().zip(1..).filter(|&(&value, position)| value == position).count() as u64
    }

    fn array(s: &[u8], out: &mut [u8]) {
        let mut value = [0u8; MOST + 1];
        let mut inverse = [0u8; MOST + 1];
        for (i, &v) in s.iter().enumerate() {
            value[i + 1] = v;
            inverse[usize::from(v)] = i as u8 + 1;
        }
        for m in (1..=s.len()).rev() {
            let i = usize::from(inverse[m]);
            out[m - 1] = i as u8;
            let moved = value[m];
            value[i] = moved;
            inverse[usize::from(moved)] = i as u8;
        }
    }

    /// The cycles, the place and the fixed points.
    pub fn rank(&self, s: &[u8]) -> Result<(u64, u64, u64), u8> {
        if s.len() > MOST {
            return Err(1);
        }
        Self::permutation(s)?;
        let mut array = [0; MOST];
        Self::array(s, &mut array[..s.len()]);
        let cycles = Self::cycles(s);
        let (mut n, mut k, mut up, mut place) = (s.len(), cycles, true, 0);
        while n != k {
            let j = usize::from(array[n - 1]);
            let instructions = calls(n, k);
            let mut at = 0;
            while let Some(call) = instructions.get(at, up) {
                if call.j == j {
                    (n, k, up) = (n - 1, call.k, call.up);
                    break;
                }
                place += self.c[n - 1][call.k];
                at += 1;
            }
        }
        Ok((cycles as u64, place, Self::fixed(s)))
    }

    /// The letter of the relation that gives S(n,k).
    fn letter(n: usize, k: usize) -> u8 {
        match n - k {
            _ if k == 1 => b'a',
            0 => b'b',
            1 => b'c',
            2 => b'd',
            _ => b'e',
        }
    }

    /// As `rank`, with a level written at each size. Two things are the papers' and not `gen_up`'s: it goes on where n = k; and below 3, where each
    /// list has one row and `gen_up` may turn it either way, the reading passes down unchanged.
    pub fn explain(&self, s: &[u8], levels: &mut [Level]) -> Result<(u64, u64), u8> {
        if s.len() > MOST {
            return Err(1);
        }
        Self::permutation(s)?;
        if levels.len() < s.len() {
            return Err(12);
        }
        let mut array = [0; MOST];
        Self::array(s, &mut array[..s.len()]);
        let cycles = Self::cycles(s);
        let (mut k, mut up, mut place) = (cycles, true, 0);
        for (level, n) in levels.iter_mut().zip((1..=s.len()).rev()) {
            *level = Level { letter: Self::letter(n, k), backward: !up, block: 0, before: 0 };
            if n == k {
                k -= 1;
                continue;
            }
            let instructions = calls(n, k);
            let mut at = 0;
            while let Some(call) = instructions.get(at, up) {
                if call.j == usize::from(array[n - 1]) {
                    level.block = (if up { at } else { instructions.len - 1 - at }) as u64;
                    (k, up) = (call.k, if n > 3 { call.up } else { up });
                    break;
                }
                level.before += self.c[n - 1][call.k];
                at += 1;
            }
            place += level.before;
        }
        Ok((cycles as u64, place))
    }

    /// The fixed points.
    pub fn to_array(&self, s: &[u8], out: &mut [u8]) -> Result<u64, u8> {
        if s.len() > MOST {
            return Err(1);
        }
        if out.len() != s.len() {
            return Err(5);
        }
        Self::permutation(s)?;
        Self::array(s, out);
        Ok(Self::fixed(s))
    }

    /// The checks on an array and on the bytes lent for what it gives.
    fn entries(a: &[u8], out: &[u8]) -> Result<(), u8> {
        if a.len() > MOST {
            return Err(1);
        }
        if out.len() != a.len() {
            return Err(5);
        }
        if a.iter().enumerate().any(|(i, &p)| p == 0 || usize::from(p) > i + 1) {
            return Err(6);
        }
        Ok(())
    }

    /// The product ⟨p1,1⟩·⟨p2,2⟩·…·⟨pn,n⟩, multiplied out from the left.
    pub fn from_array(&self, a: &[u8], out: &mut [u8]) -> Result<(), u8> {
        Self::entries(a, out)?;
        for (i, v) in out.iter_mut().enumerate() {
            *v = i as u8 + 1;
        }
        for (i, &p) in a.iter().enumerate() {
            out.swap(usize::from(p) - 1, i);
        }
        Ok(())
    }

    /// The values n down to 1, in front of zeros.
    fn falling(n: usize) -> [u8; MOST] {
        std::array::from_fn(|i| n.saturating_sub(i) as u8)
    }

    /// The sequence of an inversion table, from its end: entry i tells which of the values that are left, from the highest down, stands at i.
    pub fn from_inversions(&self, a: &[u8], out: &mut [u8]) -> Result<(), u8> {
        Self::entries(a, out)?;
        let mut left = Self::falling(a.len());
        for (i, &p) in a.iter().enumerate().rev() {
            let at = usize::from(p) - 1;
            out[i] = left[at];
            left.copy_within(at + 1..=i, at);
        }
        Ok(())
    }

    /// The inversion table of a sequence, from its end too: entry i is where the element at i stands among those that are left, from the highest down.
    pub fn to_inversions(&self, s: &[u8], out: &mut [u8]) -> Result<(), u8> {
        if s.len() > MOST {
            return Err(1);
        }
        if out.len() != s.len() {
            return Err(5);
        }
        Self::permutation(s)?;
        let mut left = Self::falling(s.len());
        for (i, value) in s.iter().enumerate().rev() {
            let at = left.iter().position(|other| other == value).expect("each value once");
            left.copy_within(at + 1..=i, at);
            out[i] = at as u8 + 1;
        }
        Ok(())
    }

    /// The number of pairs and of bytes. Neither the carrying permutation nor its array is made: `to` is turned back into `from`, from the last
    /// position down, each value fetched from where it stands by then, which is no later position. The same pairs, rising, turn `from` into `to`.
    pub fn exchanges(&self, from: &[u8], to: &[u8], out: &mut [u8]) -> Result<(u64, u64), u8> {
        if from.len().max(to.len()) > MOST {
            return Err(1);
        }
        if from.len() != to.len() {
            return Err(5);
        }
        // 6 of either comes before 7 of either
        let refusals = [from, to].into_iter().filter_map(|s| Self::permutation(s).err());
        if let Some(refusal) = refusals.min() {
            return Err(refusal);
        }
        let mut row = [0; MOST];
        row[..to.len()].copy_from_slice(to);
        let mut pairs = [[0; 2]; MOST];
        let mut left = MOST;
        for (i, value) in from.iter().enumerate().rev() {
            let stands = row.iter().position(|other| other == value).expect("both hold the same values");
            if stands != i {
                row.swap(stands, i);
                left -= 1;
                pairs[left] = [stands as u8 + 1, i as u8 + 1];
            }
        }
        let bytes = pairs[left..].as_flattened();
        out.get_mut(..bytes.len()).ok_or(5)?.copy_from_slice(bytes);
        Ok(((MOST - left) as u64, bytes.len() as u64))
    }

    pub fn rows(&self, n: u64, k: u64, place: u64, m: u64, o: u64, buf: &mut [u8]) -> Result<(), u8> {
        let (n, k) = self.numbers(n, k)?;
        if place >= self.c[n][k] {
            return Err(3);
        }
        if !(1..=1000).contains(&m) || m > self.c[n][k] - place {
            return Err(4);
        }
        let size = buf.len() as u64;
        if o > size || size - o < m * n as u64 {
            return Err(5);
        }
        let part = &mut buf[o as usize..][..m as usize * n];
        for i in 0..m as usize {
            self.row(n, k, place + i as u64, &mut part[i * n..][..n]);
        }
        Ok(())
    }
}

/// SplitMix64: numbers that are the same in each run.
pub struct Random(pub u64);

impl Random {
    pub fn next(&mut self) -> u64 {
        self.0 = self.0.wrapping_add(0x9e37_79b9_7f4a_7c15);
        let mut z = self.0;
        z = (z ^ (z >> 30)).wrapping_mul(0xbf58_476d_1ce4_e5b9);
        z = (z ^ (z >> 27)).wrapping_mul(0x94d0_49bb_1331_11eb);
        z ^ (z >> 31)
    }

    /// A number below a bound.
    pub fn below(&mut self, bound: u64) -> u64 {
        self.next() % bound
    }
}

/// A permutation.
pub fn shuffled(random: &mut Random, n: usize) -> Vec<u8> {
    let mut s: Vec<u8> = (1..=n).map(|i| i as u8).collect();
    for i in (1..n).rev() {
        s.swap(i, random.below(i as u64 + 1) as usize);
    }
    s
}

/// A list of bytes that is near a permutation, an array, or neither.
pub fn damaged(random: &mut Random, n: usize) -> Vec<u8> {
    let mut s = shuffled(random, n);
    match random.below(4) {
        0 => {}
        1 if n > 0 => s[random.below(n as u64) as usize] = random.next() as u8,
        2 if n > 0 => s[random.below(n as u64) as usize] = random.below(n as u64 + 2) as u8,
        _ => s.iter_mut().enumerate().for_each(|(i, p)| *p = random.below(i as u64 + 2) as u8),
    }
    s
}

/// Every slice of up to four bytes with values 0 to 5.
pub fn short_slices() -> impl Iterator<Item = Vec<u8>> {
    let slice = |n, code: u32| (0..n).map(|i| (code / 6u32.pow(i) % 6) as u8).collect();
    (0..=4u32).flat_map(move |n| (0..6u32.pow(n)).map(move |code| slice(n, code)))
}

/// The refusal, 0 for none, and the rest of the result, zeros beside a refusal.
pub fn beside<T: Default>(result: Result<T, u8>) -> (u8, T) {
    result.map_or_else(|refusal| (refusal, T::default()), |rest| (0, rest))
}

/// A change to what is handed in, and how the call is refused then.
pub type Fault<'a, T> = (u8, &'a dyn Fn(&mut T));

/// Every set of faults, made one after another in what is good, and the refusal of the last made. The faults go from the
/// last refusal to the first, so that a change that undoes another comes before it in the order of refusals.
pub fn each_set<T: Clone>(good: &T, faults: &[Fault<T>], check: impl Fn(&T, u8)) {
    for set in 0..1 << faults.len() {
        let mut made = good.clone();
        let mut right = 0;
        for (number, damage) in (0..).zip(faults).filter(|(i, _)| set >> i & 1 == 1).map(|(_, fault)| fault) {
            damage(&mut made);
            right = *number;
        }
        check(&made, right);
    }
}
