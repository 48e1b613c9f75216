//! The lent table of a search.

use std::fmt;

/// The bytes of a table.
#[derive(Clone, PartialEq, Eq, Default)]
pub struct Table(pub Vec<u8>);

/// Runs of the same byte that are shown of a table.
const SHOWN: usize = 8;

/// The first runs of bytes: a table is long, and what matters of one left behind is which bytes are
/// not 0.
impl fmt::Debug for Table {
    fn fmt(&self, out: &mut fmt::Formatter) -> fmt::Result {
        write!(out, "{} bytes:", self.0.len())?;
        let mut runs = self.0.chunk_by(|byte, next| byte == next);
        for run in runs.by_ref().take(SHOWN) {
            write!(out, " {} x {}", run.len(), run[0])?;
        }
        if runs.next().is_some() {
            write!(out, " ..")?;
        }
        Ok(())
    }
}
