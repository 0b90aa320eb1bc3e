//! Document 02, [2]: why a status changed, read beside the original's own change of
//! it. Which test made a change follows from the kind and the two statuses alone,
//! since each pair of statuses has one test in valve.rs.

/// 0 none, 1 reverse flow, 2 inlet too low, 3 outlet too high, 4 reopened; the
/// statuses as the original's `Debug` writes them.
pub fn cause(kind: u8, from: &str, to: &str) -> usize {
    const PRV: u8 = 1;
    const PSV: u8 = 2;
    match (kind, from, to) {
        (_, "Closed" | "TempClosed" | "Xhead", _) => 4,
        (PRV | PSV, _, "Closed") => 1,
        (PRV, "Active", "Open") | (PSV, "Open", "Active") => 2,
        (PRV, "Open", "Active") | (PSV, "Active", "Open") => 3,
        _ => panic!("the original changes no link of kind {kind} from {from} to {to}"),
    }
}

/// The number of an `ST` or `OK` entry: the lowest link changed plus 1 in the low
/// byte, the cause in the high one; 0 for none.
pub fn number(first: Option<(usize, usize)>) -> usize {
    first.map_or(0, |(link, cause)| link + 1 + 256 * cause)
}

#[cfg(test)]
mod tests {
    use super::*;

    #[test]
    fn causes() {
        assert_eq!(cause(0, "TempClosed", "Open"), 4);
        assert_eq!(cause(1, "Closed", "Active"), 4);
        assert_eq!(cause(1, "XPressure", "Closed"), 1);
        assert_eq!(cause(1, "Active", "Open"), 2);
        assert_eq!(cause(2, "Active", "Open"), 3);
        assert_eq!(number(Some((2, 3))), 771);
        assert_eq!(number(None), 0);
    }
}
