//! The register for which the builder forms the most products.

/// The most choices.
const MAX_CHOICES: i64 = 32;

/// The fewest choices of a term.
const LEAST_DEGREE: i64 = 3;

/// The bytes of the register of m terms that name d choices each, a choice in no two of them; `None` where the shape is out of range.
pub fn bytes(m: u32, d: u32) -> Option<Vec<u8>> {
    let (m, d) = (m as i64, d as i64);
    if m == 0 || !(LEAST_DEGREE..=MAX_CHOICES).contains(&d) || m * d > MAX_CHOICES {
        return None;
    }
    let mut bytes = vec![0x10, 0, 0, 0, 0];
    for minute in 0..m * d {
        bytes.extend([0x11, 1, 0, minute as u8, 0]);
    }
    for t in 0..m {
        let mask: u32 = (t * d..t * d + d).map(|choice| 1 << choice).sum();
        bytes.push(0x12);
        bytes.extend(mask.to_le_bytes());
        bytes.extend([1, 0, 0, 0]);
    }
    bytes.push(0x1F);
    Some(bytes)
}
