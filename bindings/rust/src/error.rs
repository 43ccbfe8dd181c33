use std::{fmt, io};

/// Why a table or a text can't be made.
#[derive(Clone, Copy, Debug, PartialEq, Eq)]
#[non_exhaustive]
pub enum Error {
    /// An allocation of the library failed.
    Memory,
    /// A length or a total is out of range.
    Range,
    /// There are more alignments than columns.
    Alignments,
    /// An error that this crate doesn't know, by its number.
    Unknown(isize),
}

impl Error {
    /// Returns a result that isn't negative.
    pub(crate) fn check(result: isize) -> Result<usize, Error> {
        match result {
            -1 => Err(Error::Memory),
            -2 => Err(Error::Range),
            -7 => Err(Error::Alignments),
            other => usize::try_from(other).map_err(|_| Error::Unknown(other)),
        }
    }
}

impl fmt::Display for Error {
    fn fmt(&self, f: &mut fmt::Formatter<'_>) -> fmt::Result {
        match self {
            Error::Memory => f.write_str("an allocation failed"),
            Error::Range => f.write_str("a length or a total is out of range"),
            Error::Alignments => f.write_str("there are more alignments than columns"),
            Error::Unknown(number) => write!(f, "error {number} of the library"),
        }
    }
}

impl std::error::Error for Error {}

impl From<Error> for io::Error {
    fn from(error: Error) -> io::Error {
        io::Error::new(io::ErrorKind::Other, error)
    }
}
