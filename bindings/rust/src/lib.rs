#![doc = include_str!("../README.md")]
#![deny(missing_docs, unsafe_code)]

mod cell;
mod error;
#[allow(unsafe_code)]
mod ffi;
mod options;

pub use cell::Cell;
pub use error::Error;
pub use options::{Align, Fit, Options, Order, Style};

use std::io::{self, Write};

/// The texts of all cells, the end of each, and the counts.
struct Cells {
    text: String,
    ends: Vec<usize>,
    rows: usize,
    columns: usize,
}

impl Cells {
    /// Joins rows. Short ones are filled up with cells without a value.
    fn new<R: AsRef<[S]>, S: Cell>(rows: &[R]) -> Cells {
        let columns = rows.iter().map(|row| row.as_ref().len()).max().unwrap_or(0);
        let rows_with_cells = if columns == 0 { &[] } else { rows };
        let mut text = String::new();
        let mut ends = Vec::with_capacity(rows_with_cells.len() * columns);
        for row in rows_with_cells {
            for cell in row.as_ref() {
                text.push_str(cell.text().unwrap_or_default());
                ends.push(cell.text().map_or(ffi::NULL, |_| text.len()));
            }
            ends.resize(ends.len() + columns - row.as_ref().len(), ffi::NULL);
        }
        Cells {
            text,
            ends,
            rows: rows_with_cells.len(),
            columns,
        }
    }

    /// A number of bytes that most tables don't pass.
    fn guess(&self) -> usize {
        2 * self.text.len() + 16 * self.ends.len() + 4096
    }
}

/// Returns the table of some rows. Short rows are filled up with cells without a value.
///
/// # Errors
///
/// [`Error::Memory`] if an allocation of the library fails, [`Error::Range`] if the table is too large
/// for any memory, and [`Error::Alignments`] if there are more alignments than columns.
///
/// ```
/// use fanlightnard::{table, Options, Style};
///
/// let rows = [vec!["Name", "Note"], vec!["Ada", "first program"]];
/// let options = Options::new().style(Style::Modern).width(18);
/// let picture = "\
/// ┌──────┬─────────┐
/// │ Name │ Note    │
/// ├──────┼─────────┤
/// │ Ada  │ first   │
/// │      │ program │
/// └──────┴─────────┘";
/// assert_eq!(table(&rows, &options)?, picture);
/// # Ok::<(), fanlightnard::Error>(())
/// ```
pub fn table<R: AsRef<[S]>, S: Cell>(rows: &[R], options: &Options) -> Result<String, Error> {
    let cells = Cells::new(rows);
    filled(cells.guess(), |buffer| ffi::format(&cells, options, buffer))
}

/// Writes the table of some rows to a writer, in blocks of at most 64 KiB. The table is complete in
/// memory before the first block.
///
/// # Errors
///
/// The first error of the writer. Errors of [`table`] come as [`io::ErrorKind::Other`], and then nothing
/// is written.
///
/// ```
/// use fanlightnard::{write_table, Options, Style};
///
/// let mut out = Vec::new();
/// write_table(&mut out, &[["a", "b"]], &Options::new().style(Style::Psql).header(false))?;
/// assert_eq!(out, b" a | b ");
/// # Ok::<(), std::io::Error>(())
/// ```
pub fn write_table<W: Write, R: AsRef<[S]>, S: Cell>(
    writer: &mut W,
    rows: &[R],
    options: &Options,
) -> io::Result<()> {
    ffi::write(&Cells::new(rows), options, &mut |block| writer.write_all(block))
}

/// Returns the number of columns that a text takes in a terminal: those of its widest line.
///
/// # Errors
///
/// [`Error::Range`] if the number is greater than `isize::MAX`.
///
/// ```
/// assert_eq!(fanlightnard::width("北京\nabc"), Ok(4));
/// ```
pub fn width(text: &str) -> Result<usize, Error> {
    Error::check(ffi::measure(text))
}

/// Returns the longest beginning of a text that takes at most `columns` columns. U+FFFD fills a column
/// that half of a wide character would take.
///
/// # Errors
///
/// [`Error::Memory`] if an allocation of the library fails.
///
/// ```
/// assert_eq!(fanlightnard::truncate("北京x", 3).unwrap(), "北\u{fffd}");
/// ```
pub fn truncate(text: &str, columns: usize) -> Result<String, Error> {
    filled(text.len() + 4, |buffer| ffi::truncate(text, columns, buffer))
}

/// Returns a text in lines of at most `columns` columns. With `words`, lines are broken between words
/// where possible. No other breaking has fewer lines.
///
/// # Errors
///
/// [`Error::Memory`] if an allocation of the library fails.
///
/// ```
/// assert_eq!(fanlightnard::wrap("one two", 4, true).unwrap(), "one \ntwo");
/// ```
pub fn wrap(text: &str, columns: usize, words: bool) -> Result<String, Error> {
    filled(2 * text.len() + 1, |buffer| {
        ffi::wrap(text, columns, words, buffer)
    })
}

/// Calls with a buffer, and again with one of the length that the first call returned if that is longer.
fn filled(guess: usize, call: impl Fn(&mut [u8]) -> isize) -> Result<String, Error> {
    let mut buffer = vec![0; guess];
    let needed = Error::check(call(&mut buffer))?;
    if needed > guess {
        buffer.resize(needed, 0);
        Error::check(call(&mut buffer))?;
    }
    buffer.truncate(needed);
    Ok(String::from_utf8(buffer).expect("the library returns UTF-8"))
}
