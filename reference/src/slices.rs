//! A slice's first or last numbers as an array, and the rest of it. The standard
//! library has these too, in releases later than `rust-version` of Cargo.toml.

/// The first N elements and those after them; none where there are fewer.
pub fn split_first<const N: usize, T>(slice: &[T]) -> Option<(&[T; N], &[T])> {
    let first = slice.get(..N)?.try_into().ok()?;
    Some((first, &slice[N..]))
}

/// The elements before the last N, and those; none where there are fewer.
pub fn split_last<const N: usize, T>(slice: &[T]) -> Option<(&[T], &[T; N])> {
    let before = slice.len().checked_sub(N)?;
    let last = slice[before..].try_into().ok()?;
    Some((&slice[..before], last))
}
