//! The numbers of the documents that are the same for every stored form, each with one name. What a form decides is in
//! [`crate::form`].

/// Twelve 32-bit numbers.
pub const HEADER_BYTES: usize = 48;

pub const TEXT_MOST_BYTES: usize = 32_768;
pub const TEXT_MOST_VERTICES: usize = 512;
pub const TEXT_MOST_EDGES: usize = 2_000;
pub const TEXT_MOST_ORDERS: usize = 5;

/// Build work memory, in 32-bit words.
pub fn work_words(n: usize, edges: usize) -> usize {
    16 * n + 4 * edges + 64
}
