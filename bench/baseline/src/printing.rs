//! The table with a line between all rows.

use std::borrow::Cow;
use std::iter;

use crate::cells::{Cells, PADDING};
use crate::measuring::text_columns;
use crate::narrowing::narrowed;
use crate::options::Way;

/// The table of cells that fit their columns.
pub fn print(cells: &Cells) -> Vec<u8> {
    let Some(border) = border(cells) else {
        return Vec::new();
    };
    // All lines take the same columns; some of them take more bytes.
    let more: usize = cells
        .cells
        .iter()
        .map(|cell| cell.text.len() - cell.columns)
        .sum();
    let mut out = Vec::with_capacity((2 * cells.rows().len() + 1) * border.len() + more);
    for row in cells.rows() {
        out.extend_from_slice(&border);
        for (cell, width) in row.iter().zip(&cells.widths) {
            push_cell(&mut out, cell.text, cell.columns, *width);
        }
        out.extend_from_slice(b"|\n");
    }
    out.extend_from_slice(&border);
    out
}

/// The table of cells of which some are wider than their columns.
pub fn print_narrowed(cells: &Cells, way: Way) -> Vec<u8> {
    let Some(border) = border(cells) else {
        return Vec::new();
    };
    let mut out = Vec::with_capacity((2 * cells.rows().len() + 1) * border.len());
    let mut texts = Vec::with_capacity(cells.widths.len());
    for row in cells.rows() {
        out.extend_from_slice(&border);
        texts.clear();
        texts.extend(
            iter::zip(row, &cells.widths).map(|(cell, width)| narrowed(cell, width - PADDING, way)),
        );
        push_lines(&mut out, &texts, &cells.widths);
    }
    out.extend_from_slice(&border);
    out
}

/// The line between two rows, if there is one.
fn border(cells: &Cells) -> Option<Vec<u8>> {
    if cells.cells.is_empty() {
        return None;
    }
    let mut border = Vec::with_capacity(cells.total_width() + 1);
    for width in &cells.widths {
        border.push(b'+');
        border.resize(border.len() + width, b'-');
    }
    border.extend_from_slice(b"+\n");
    Some(border)
}

/// The lines of a row. What comes after a text's last line is blank.
fn push_lines(out: &mut Vec<u8>, texts: &[Cow<str>], widths: &[usize]) {
    let mut lines: Vec<_> = texts.iter().map(|text| text.split('\n')).collect();
    let height = texts
        .iter()
        .map(|text| text.split('\n').count())
        .max()
        .unwrap_or(0);
    for _ in 0..height {
        for (lines, width) in lines.iter_mut().zip(widths) {
            let line = lines.next().unwrap_or("");
            push_cell(out, line, text_columns(line), *width);
        }
        out.extend_from_slice(b"|\n");
    }
}

/// A bar, a space, the text and spaces up to the next bar.
fn push_cell(out: &mut Vec<u8>, text: &str, columns: usize, width: usize) {
    out.extend_from_slice(b"| ");
    out.extend_from_slice(text.as_bytes());
    out.resize(out.len() + width - 1 - columns, b' ');
}
