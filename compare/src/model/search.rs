//! The search (docs/FORMAT.md, 3).

/// The last entry that the search passes by, if it passes one, and the entries probed.
pub fn search(entries: u32, sought: u32, key: impl Fn(u32) -> u32) -> (Option<u32>, u8) {
    let (mut lo, mut hi, mut probes) = (0, entries, 0);
    while lo < hi {
        let mid = lo + (hi - lo) / 2;
        probes += 1;
        if key(mid) <= sought {
            lo = mid + 1;
        } else {
            hi = mid;
        }
    }
    (lo.checked_sub(1), probes)
}

/// Whether the keys of a list rise strictly.
pub fn rise(entries: u32, key: impl Fn(u32) -> u64) -> bool {
    (1..entries).all(|i| key(i - 1) < key(i))
}
