//! The same as plain loops, for rustc to make the best of.

#[inline(never)]
pub fn hits(a: &[u64], b: &[u64]) -> bool {
    a.iter().zip(b).any(|(x, y)| x & y != 0)
}

#[inline(never)]
pub fn met(a: &[u64], b: &[u64]) -> bool {
    a.iter().zip(b).any(|(x, y)| *x != 0 && x & !y == 0)
}

#[inline(never)]
pub fn within(a: &[u64], b: &[u64]) -> bool {
    a.iter().zip(b).all(|(x, y)| x & !y == 0)
}

#[inline(never)]
pub fn same(a: &[u64], b: &[u64]) -> bool {
    a.iter().zip(b).all(|(x, y)| x == y)
}

#[inline(never)]
pub fn or_into(a: &mut [u64], b: &[u64]) {
    for (x, y) in a.iter_mut().zip(b) {
        *x |= y;
    }
}

#[inline(never)]
pub fn and_into(a: &mut [u64], b: &[u64]) {
    for (x, y) in a.iter_mut().zip(b) {
        *x &= y;
    }
}

#[inline(never)]
pub fn take_out(a: &mut [u64], b: &[u64]) {
    for (x, y) in a.iter_mut().zip(b) {
        *x &= !y;
    }
}
