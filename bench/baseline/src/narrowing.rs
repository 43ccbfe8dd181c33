//! Texts that are cut or wrapped to a number of columns.

use std::borrow::Cow;

use crate::cells::Cell;
use crate::measuring::{char_columns, text_columns};
use crate::options::Way;

/// What fills the columns that are too few for a character.
const MARK: char = '\u{fffd}';

/// The text of a cell, with line feeds between its lines.
pub fn narrowed<'a>(cell: &Cell<'a>, width: usize, way: Way) -> Cow<'a, str> {
    if cell.columns <= width {
        return Cow::Borrowed(cell.text);
    }
    if width == 0 {
        return Cow::Borrowed("");
    }
    Cow::Owned(match way {
        Way::Cut => cut(cell.text, width),
        Way::Wrap => Wrapping::new(cell, width).characters(cell.text).text,
        Way::WrapWords => Wrapping::new(cell, width).words(cell.text).text,
    })
}

/// The longest beginning that fits, with marks in the columns that a cut character leaves.
fn cut(text: &str, width: usize) -> String {
    let mut kept = String::with_capacity(text.len());
    let mut left = width;
    for character in text.chars() {
        let columns = char_columns(character).max(1);
        if columns > left {
            kept.extend(std::iter::repeat(MARK).take(left));
            break;
        }
        kept.push(character);
        left -= columns;
    }
    kept
}

/// A text whose lines are as full as they can be.
struct Wrapping {
    width: usize,
    text: String,
    /// The columns that are left in the last line.
    left: usize,
}

impl Wrapping {
    fn new(cell: &Cell, width: usize) -> Self {
        let text = String::with_capacity(cell.text.len() + cell.columns / width);
        Wrapping {
            width,
            text,
            left: width,
        }
    }

    fn characters(mut self, text: &str) -> Self {
        self.place_characters(text);
        self
    }

    /// Breaks lines between words and spaces, and in words that are wider than a line.
    fn words(mut self, text: &str) -> Self {
        for (number, word) in text.split(' ').enumerate() {
            if number > 0 {
                self.place_characters(" ");
            }
            let columns = text_columns(word);
            if columns > self.width {
                self.place_characters(word);
                continue;
            }
            if columns > self.left {
                self.begin_line();
            }
            self.left -= columns;
            self.text.push_str(word);
        }
        self
    }

    fn place_characters(&mut self, text: &str) {
        for character in text.chars() {
            let columns = char_columns(character).max(1);
            if columns > self.width {
                self.place_marks();
                continue;
            }
            if columns > self.left {
                self.begin_line();
            }
            self.left -= columns;
            self.text.push(character);
        }
    }

    /// Fills the line, or a new one if it is full, in place of a character that is too wide.
    fn place_marks(&mut self) {
        if self.left == 0 {
            self.begin_line();
        }
        self.text.extend(std::iter::repeat(MARK).take(self.left));
        self.left = 0;
    }

    fn begin_line(&mut self) {
        self.text.push('\n');
        self.left = self.width;
    }
}
