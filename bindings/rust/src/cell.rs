use std::borrow::Cow;

/// A cell: a text, or an `Option` of one, which may have no value.
///
/// ```
/// use fanlightnard::{table, Options, Style};
///
/// let rows = [[Some("a"), None], [None, Some("b")]];
/// let options = Options::new().style(Style::Psql).header(false).null("-");
/// assert_eq!(table(&rows, &options)?, " a | - \n - | b ");
/// # Ok::<(), fanlightnard::Error>(())
/// ```
pub trait Cell {
    /// Returns the text, or `None` for a cell without a value.
    fn text(&self) -> Option<&str>;
}

impl Cell for str {
    fn text(&self) -> Option<&str> {
        Some(self)
    }
}

impl Cell for String {
    fn text(&self) -> Option<&str> {
        Some(self)
    }
}

impl Cell for Box<str> {
    fn text(&self) -> Option<&str> {
        Some(self)
    }
}

impl Cell for Cow<'_, str> {
    fn text(&self) -> Option<&str> {
        Some(self)
    }
}

impl<T: Cell> Cell for Option<T> {
    fn text(&self) -> Option<&str> {
        self.as_ref().and_then(Cell::text)
    }
}

impl<T: Cell + ?Sized> Cell for &T {
    fn text(&self) -> Option<&str> {
        (**self).text()
    }
}
