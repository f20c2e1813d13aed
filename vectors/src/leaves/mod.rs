//! The vectors of the leaf crates.

pub mod keywords;
pub mod numbers;
pub mod records;
pub mod spans;
pub mod strings;
pub mod text;

use crate::sheet::Sheet;

/// Places far past the end of any byte string, where a narrower count would come round.
pub(crate) const FAR: [usize; 3] = [4_294_967_295, 4_294_967_296, 1_000_000_000_000_000_000];

/// Lines that are no vectors: an unknown letter, a field too few, too many or out of its form, a
/// table or a buffer too large.
const NO_VECTORS: [&str; 17] = [
    "",
    " ",
    "q 1",
    "x",
    "x 6g",
    "x 616",
    "x 61 ",
    "k 616e64 0",
    "n 31",
    "v 1",
    "v 1  2",
    "v 1 2 3",
    "v a 1",
    "l 9 1",
    "t 65 0",
    "d 2222 0 257",
    "u 2",
];

/// All vectors and answers.
pub fn add(sheet: &mut Sheet) {
    keywords::add(sheet);
    text::add(sheet);
    numbers::add(sheet);
    spans::add(sheet);
    strings::add(sheet);
    records::add(sheet);
    for line in NO_VECTORS {
        sheet.add_unknown(line);
    }
}
