//! Comparing what is expected with what was found.

/// Says what differs.
pub type Checked = Result<(), String>;

pub fn same<T: PartialEq + std::fmt::Debug>(what: &str, expected: T, found: T) -> Checked {
    if expected == found {
        return Ok(());
    }
    Err(format!("{what}: expected {expected:?}, found {found:?}"))
}

pub fn same_bytes(what: &str, expected: &[u8], found: &[u8]) -> Checked {
    if expected == found {
        return Ok(());
    }
    match expected.iter().zip(found).position(|(a, b)| a != b) {
        None => same(what, expected.len(), found.len()),
        Some(k) => Err(format!(
            "{what}, byte {k}: expected {:02x}, found {:02x}",
            expected[k], found[k]
        )),
    }
}
