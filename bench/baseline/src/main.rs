//! Prints tab-separated rows from standard input as a table: the job of `tabprint`, by hand.
//!
//!     baseline [--wrap N [--words] | --cut N] [--priority none|min|max|left|right]
//!
//! It reads all, splits and measures once, fills one buffer and writes once. It is a measure of speed:
//! it panics on bad input and on a failed write.

mod cells;
mod measuring;
mod narrowing;
mod options;
mod printing;
mod shrinking;
mod widths;

use std::io::{self, Write};

use cells::Cells;
use options::Options;

fn main() {
    let options = Options::from_arguments(std::env::args().skip(1));
    let input = io::read_to_string(io::stdin()).expect("UTF-8 on standard input");
    let printed = table(&input, &options);
    io::stdout()
        .write_all(&printed)
        .expect("a writable standard output");
}

/// The table of a text, with a line feed behind its last line.
fn table(input: &str, options: &Options) -> Vec<u8> {
    let mut cells = Cells::of_text(input);
    let Some(narrowing) = &options.narrowing else {
        return printing::print(&cells);
    };
    let excess = cells.total_width().saturating_sub(narrowing.width);
    if excess == 0 {
        return printing::print(&cells);
    }
    shrinking::shrink(&mut cells.widths, excess, options.priority);
    printing::print_narrowed(&cells, narrowing.way)
}
