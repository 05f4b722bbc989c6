//! What encloses the solutions of a system.

use crate::refusal::Refusal;
use crate::system::{Row, System};

/// Encloses each component of the solution over all numbers in the entries.
pub trait Method {
    fn enclose(&self, system: &System) -> Result<Row, Refusal>;
}
