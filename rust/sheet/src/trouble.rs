//! What ends the program early, and how it is told.

use std::fmt;

#[derive(Debug, PartialEq)]
pub enum Trouble {
    /// An option that cannot be read, or options that do not fit together.
    Asked(String),
    /// A job that the library refuses: what is wrong with it, and the refusal's number.
    Refused { told: String, number: usize },
    /// Something that this machine does not give: memory, or a file.
    Machine(String),
}

impl Trouble {
    pub fn asked(told: impl Into<String>) -> Trouble {
        Trouble::Asked(told.into())
    }

    /// 2 for what the caller can mend, 1 for the rest.
    pub fn status(&self) -> u8 {
        match self {
            Trouble::Asked(_) | Trouble::Refused { .. } => 2,
            Trouble::Machine(_) => 1,
        }
    }
}

impl fmt::Display for Trouble {
    fn fmt(&self, f: &mut fmt::Formatter<'_>) -> fmt::Result {
        match self {
            Trouble::Asked(told) | Trouble::Machine(told) => write!(f, "{told}"),
            Trouble::Refused { told, number } => write!(f, "{told} (refusal {number})"),
        }
    }
}
