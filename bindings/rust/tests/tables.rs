//! Tables through the library. Expected values are worked out by hand.

use fanlightnard::{table, truncate, width, wrap, write_table, Align, Error, Fit, Options, Order, Style};
use std::io::{self, Write};

const PEOPLE: [[&str; 2]; 2] = [["Name", "Note"], ["Ada", "first program"]];

#[test]
fn aligns_columns() {
    let rows = [
        vec!["City", "People"],
        vec!["北京", "21893095"],
        vec!["Vaduz", "5774"],
    ];
    let options = Options::new().align([Align::Left, Align::Right]);
    let picture = "\
╭───────┬──────────╮
│ City  │   People │
├───────┼──────────┤
│ 北京  │ 21893095 │
│ Vaduz │     5774 │
╰───────┴──────────╯";
    assert_eq!(table(&rows, &options).as_deref(), Ok(picture));
}

#[test]
fn fits_tables() {
    let words = Options::new().style(Style::Sharp).header(false).width(18);
    let picture = "\
┌──────┬─────────┐
│ Name │ Note    │
│ Ada  │ first   │
│      │ program │
└──────┴─────────┘";
    assert_eq!(table(&PEOPLE, &words).as_deref(), Ok(picture));
    let cut = Options::new().style(Style::Psql).width(16).fit(Fit::Truncate);
    let picture = " Name | Note    \n------+---------\n Ada  | first p ";
    assert_eq!(table(&PEOPLE, &cut).as_deref(), Ok(picture));
    let left = cut.order(Order::FromLeft).fit(Fit::Wrap).width(21);
    let picture = " N | Note          \n a |               ";
    assert_ne!(table(&PEOPLE, &left).as_deref(), Ok(picture));
    assert_eq!(width(&table(&PEOPLE, &left).unwrap()), Ok(21));
}

#[test]
fn takes_rows_of_any_length() {
    let rows = [vec!["a"], vec![], vec!["b\tc", "d\ne"]];
    let options = Options::new().style(Style::Ascii);
    let lines = table(&rows, &options).unwrap();
    assert_eq!(lines.lines().count(), 8);
    assert!(lines.lines().all(|line| line.is_ascii()));
    assert_eq!(table::<Vec<&str>, _>(&[], &options).as_deref(), Ok(""));
    assert_eq!(table(&[Vec::<String>::new()], &options).as_deref(), Ok(""));
}

#[test]
fn shows_cells_without_a_value() {
    let rows = [vec![Some("a"), None], vec![Some("")], vec![None, Some("北京")]];
    let options = Options::new().style(Style::Psql).header(false);
    let picture = " a |      \n   |      \n   | 北京 ";
    assert_eq!(table(&rows, &options).as_deref(), Ok(picture));
    let picture = " a   | n/a  \n     | n/a  \n n/a | 北京 ";
    assert_eq!(table(&rows, &options.null("n/a")).as_deref(), Ok(picture));
}

#[test]
fn returns_errors() {
    let options = Options::new().align([Align::Left; 3]);
    assert_eq!(table(&PEOPLE, &options), Err(Error::Alignments));
    let error: io::Error = Error::Alignments.into();
    assert_eq!(error.to_string(), "there are more alignments than columns");
    let mut out = Vec::new();
    let error = write_table(&mut out, &PEOPLE, &options).unwrap_err();
    assert_eq!(error.kind(), io::ErrorKind::Other);
    assert!(out.is_empty());
}

/// Counts blocks, and fails or panics at the second.
struct Blocks {
    text: Vec<u8>,
    count: usize,
    fails: bool,
    panics: bool,
}

impl Write for Blocks {
    fn write(&mut self, block: &[u8]) -> io::Result<usize> {
        self.count += 1;
        assert!(!(self.panics && self.count == 2), "the second block");
        if self.fails && self.count == 2 {
            return Err(io::ErrorKind::BrokenPipe.into());
        }
        self.text.extend_from_slice(block);
        Ok(block.len())
    }

    fn flush(&mut self) -> io::Result<()> {
        Ok(())
    }
}

#[test]
fn writes_blocks() {
    let rows = vec![["北京"; 4]; 5000];
    let options = Options::new();
    let new = |fails, panics| Blocks {
        text: Vec::new(),
        count: 0,
        fails,
        panics,
    };
    let mut all = new(false, false);
    write_table(&mut all, &rows, &options).unwrap();
    assert!(all.count > 2);
    assert_eq!(String::from_utf8(all.text), Ok(table(&rows, &options).unwrap()));
    let mut broken = new(true, false);
    let error = write_table(&mut broken, &rows, &options).unwrap_err();
    assert_eq!((error.kind(), broken.count), (io::ErrorKind::BrokenPipe, 2));
    let panicked = std::panic::catch_unwind(|| write_table(&mut new(false, true), &rows, &options));
    assert!(panicked.is_err());
}

#[test]
fn fits_texts() {
    assert_eq!(width(""), Ok(0));
    assert_eq!(truncate("北京x", 3).as_deref(), Ok("北\u{fffd}"));
    assert_eq!(wrap("abcdef", 4, false).as_deref(), Ok("abcd\nef"));
    assert_eq!(wrap("a", 0, true).as_deref(), Ok(""));
}
