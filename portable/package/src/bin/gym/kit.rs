//! Rattle's std, as far as the program asks it for the words that it was given.

pub mod env {
    /// Why there is no word, or not all of it.
    #[derive(Clone, Copy)]
    pub enum FillError {
        NotPresent,
        /// Longer than the buffer.
        TooLong,
    }
}

pub mod rt {
    use super::env::FillError;
    use std::env::args_os;

    pub trait Env {
        /// Puts argument i at the front of the buffer, the program's own name being argument 0. Returns its length. Of one
        /// that is too long the first bytes are put.
        fn arg(&self, i: usize, buffer: &mut [u8]) -> Result<usize, FillError>;
    }

    /// The machine that the program runs on.
    pub struct HostRuntime;

    impl Env for HostRuntime {
        fn arg(&self, i: usize, buffer: &mut [u8]) -> Result<usize, FillError> {
            let word = args_os().nth(i).ok_or(FillError::NotPresent)?.into_encoded_bytes();
            let size = word.len().min(buffer.len());
            buffer[..size].copy_from_slice(&word[..size]);
            if size < word.len() {
                Err(FillError::TooLong)
            } else {
                Ok(size)
            }
        }
    }
}
