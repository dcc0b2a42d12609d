//! Faults that are found out.

/// Each fault makes a difference, and its words name the input.
pub fn each<F>(
    faults: impl IntoIterator<Item = F>,
    input: &str,
    difference: impl Fn(F) -> Option<String>,
) {
    for (n, fault) in faults.into_iter().enumerate() {
        let difference = difference(fault).unwrap_or_else(|| panic!("fault {n}"));
        assert!(difference.contains(input), "{difference}");
    }
}
