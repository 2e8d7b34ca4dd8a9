//! A text that grows where there is memory.

use crate::fault::Fault;
use std::fmt;

/// A text. What is added for which there is no memory is an error, and leaves the text as it was before that piece.
#[derive(Debug, Default)]
pub(crate) struct Text(String);

impl fmt::Write for Text {
    fn write_str(&mut self, piece: &str) -> fmt::Result {
        self.0.try_reserve(piece.len()).map_err(|_| fmt::Error)?;
        self.0.push_str(piece);
        Ok(())
    }
}

impl Text {
    /// Has this written in the place of what stood there.
    ///
    /// # Errors
    /// [`Memory`](Fault::Memory), the only reason for which a text can't be written.
    pub(crate) fn rewrite(&mut self, write: impl FnOnce(&mut Text) -> fmt::Result) -> Result<&str, Fault> {
        self.0.clear();
        write(self).map_err(|_| Fault::Memory)?;
        Ok(&self.0)
    }

    pub(crate) fn into_bytes(self) -> Vec<u8> {
        self.0.into_bytes()
    }
}
