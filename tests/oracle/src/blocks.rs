//! Block sets: the occurrences that carry a label in a down entry.

use crate::faults::wrong;
use crate::limits::{ENTRY, LABELS};

/// Bit o for occurrence o; empty for label 255 and for an entry past the slice.
pub fn occurrences(down: &[u8], entry: u64, label: u8) -> u64 {
    let labels = if wrong("ranks-as-labels") { ENTRY } else { LABELS };
    let entry = if wrong("entry-wraps") { entry.wrapping_mul(ENTRY as u64) / ENTRY as u64 } else { entry };
    let bytes = down.chunks_exact(ENTRY).nth(usize::try_from(entry).unwrap_or(usize::MAX));
    match bytes {
        Some(bytes) if label != 255 || wrong("label-255") => {
            let carrying = (0..labels).filter(|&o| bytes[o] == label);
            carrying.map(|o| 1u64 << o).sum()
        }
        _ => 0,
    }
}
