//! A refusal: its number in the document's table, and its extra number.

use std::fmt;

#[derive(Clone, Copy, Debug, PartialEq, Eq)]
pub struct Refusal {
    pub number: u32,
    pub extra: u32,
}

/// The refusal with this number and extra number, as the result of a call.
pub fn refuse<T>(number: u32, extra: usize) -> Result<T, Refusal> {
    Err(Refusal {
        number,
        extra: extra as u32,
    })
}

/// As the text program prints it.
impl fmt::Display for Refusal {
    fn fmt(&self, f: &mut fmt::Formatter) -> fmt::Result {
        write!(f, "refused {} {}", self.number, self.extra)
    }
}
