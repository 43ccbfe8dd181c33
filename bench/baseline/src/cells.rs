//! The cells of a table.

use crate::measuring::text_columns;

/// What a column takes around its texts: one space on each side.
pub const PADDING: usize = 2;

#[derive(Clone, Copy)]
pub struct Cell<'a> {
    pub text: &'a str,
    pub columns: usize,
}

const EMPTY: Cell = Cell {
    text: "",
    columns: 0,
};

/// Rows of equally many cells.
pub struct Cells<'a> {
    pub cells: Vec<Cell<'a>>,
    /// The columns of each column, with the padding.
    pub widths: Vec<usize>,
}

impl<'a> Cells<'a> {
    /// Lines are rows, and tabs end cells. Short rows get empty cells.
    pub fn of_text(text: &'a str) -> Self {
        let (mut cells, mut widths, mut row_ends) = (Vec::new(), Vec::new(), Vec::new());
        for row in text.split_terminator('\n') {
            push_row(&mut cells, &mut widths, row);
            row_ends.push(cells.len());
        }
        if cells.len() < row_ends.len() * widths.len() {
            cells = padded(&cells, &row_ends, widths.len());
        }
        Cells { cells, widths }
    }

    pub fn rows(&self) -> impl ExactSizeIterator<Item = &[Cell<'a>]> {
        self.cells.chunks_exact(self.widths.len().max(1))
    }

    /// The columns of a line, without its line feed.
    pub fn total_width(&self) -> usize {
        self.widths.iter().sum::<usize>() + self.widths.len() + 1
    }
}

/// Pushes the cells of a row, and widens the columns to them.
fn push_row<'a>(cells: &mut Vec<Cell<'a>>, widths: &mut Vec<usize>, mut row: &'a str) {
    for column in 0.. {
        let end = tab_in(row);
        let text = &row[..end.unwrap_or(row.len())];
        let columns = text_columns(text);
        cells.push(Cell { text, columns });
        match widths.get_mut(column) {
            Some(width) => *width = (columns + PADDING).max(*width),
            None => widths.push(columns + PADDING),
        }
        let Some(end) = end else { return };
        row = &row[end + 1..];
    }
}

/// Where the first tab is. Most are near, and a loop over a few bytes finds them before `find`, which
/// searches word by word, has begun.
fn tab_in(row: &str) -> Option<usize> {
    let near = &row.as_bytes()[..row.len().min(16)];
    match near.iter().position(|byte| *byte == b'\t') {
        None if near.len() < row.len() => row.find('\t'),
        found => found,
    }
}

/// Rows that are filled up with empty cells.
fn padded<'a>(cells: &[Cell<'a>], row_ends: &[usize], columns: usize) -> Vec<Cell<'a>> {
    let mut padded = Vec::with_capacity(row_ends.len() * columns);
    let mut start = 0;
    for (row, end) in (1..).zip(row_ends) {
        padded.extend_from_slice(&cells[start..*end]);
        padded.resize(row * columns, EMPTY);
        start = *end;
    }
    padded
}
