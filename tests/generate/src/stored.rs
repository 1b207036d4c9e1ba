//! The end of the run that is stored beside the program `trial`, behind the rows of tests/rows.txt: requests that are none.

use crate::requests::{framed, request};
use oracle::book::FIG_1;
use oracle::limits::{ENTRY, MEMBERS};
use oracle::trial::room;

/// Nothing, a call without its argument, no such call, a byte left over, one missing, a book over its room, an argument too
/// few, and elements that are not whole.
fn malformed() -> Vec<Vec<u8>> {
    let whole = request(1, &[&FIG_1]);
    let sets = [0; 4 * 3 * MEMBERS];
    vec![
        Vec::new(),
        vec![1],
        request(9, &[&FIG_1]),
        [&whole[..], &[0]].concat(),
        whole[..whole.len() - 1].to_vec(),
        request(1, &[&[0; room::BOOK + 1]]),
        request(2, &[&FIG_1]),
        request(3, &[&FIG_1, &sets[1..], &[0; 3], &sets, &[0; 3], &[0; 9], &[0; ENTRY]]),
        request(5, &[&[0; ENTRY], &[0; 7], &[0]]),
        request(5, &[&[0; ENTRY], &[0; 8], &[]]),
    ]
}

/// The last of them is cut off by the end of the run.
pub fn run() -> Vec<u8> {
    let mut run = framed(&malformed());
    run.extend([9, 0, 0, 0, 1, 0]);
    run
}
