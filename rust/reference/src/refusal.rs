//! Refusals: what a call turns down.

/// The number of a refusal (document 01: turned down) and, for 15, 17 to 20, 35 and 36, the length the slice needs
/// in its own elements; 0 otherwise.
#[derive(Clone, Copy, PartialEq, Eq, Debug)]
pub struct Refusal {
    pub number: u8,
    pub needed: usize,
}

impl Refusal {
    /// A refusal without a needed length.
    pub fn of(number: u8) -> Refusal {
        Refusal { number, needed: 0 }
    }

    /// The refusal of a slice that is too short.
    pub fn too_short(number: u8, needed: usize) -> Refusal {
        Refusal { number, needed }
    }
}
