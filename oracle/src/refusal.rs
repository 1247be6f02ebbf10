//! A refused call.

/// The number of the first check that failed, of document 01's twelve (there: questions), and why the check is made
/// where the Rust would go on.
#[derive(Debug, Clone, Copy, PartialEq, Eq)]
pub struct Refusal {
    pub number: u8,
    pub reason: &'static str,
}

impl Refusal {
    pub const fn new(number: u8, reason: &'static str) -> Self {
        Self { number, reason }
    }

    /// The refusal as an error, unless its check held.
    pub fn unless(self, held: bool) -> Result<(), Self> {
        if held { Ok(()) } else { Err(self) }
    }
}
