/// The borders of a table.
#[derive(Clone, Copy, Debug, Default, PartialEq, Eq, Hash)]
pub enum Style {
    /// `+ - |` with lines between all rows.
    Ascii = 0,
    /// `┌ ─ │` with lines between all rows.
    Modern = 1,
    /// `┌ ─ │` with a line below the header.
    Sharp = 2,
    /// `╭ ─ │` with a line below the header.
    #[default]
    Rounded = 3,
    /// `╭ ─ │` with lines between all rows.
    ModernRounded = 4,
    /// `. - |` with no line between rows.
    AsciiRounded = 5,
    /// `╔ ═ ║` with lines between all rows.
    Extended = 6,
    /// A table of Markdown.
    Markdown = 7,
    /// As `psql` draws them.
    Psql = 8,
    /// A simple table of reStructuredText.
    ReStructuredText = 9,
    /// Spaces between columns.
    Blank = 10,
    /// Nothing.
    Empty = 11,
}

/// Which columns shrink first.
#[derive(Clone, Copy, Debug, Default, PartialEq, Eq, Hash)]
pub enum Order {
    /// Each in turn, by one column at a time.
    EachInTurn = 0,
    /// The narrowest.
    NarrowestFirst = 1,
    /// The widest.
    #[default]
    WidestFirst = 2,
    /// From the left.
    FromLeft = 3,
    /// From the right.
    FromRight = 4,
}

/// Where the text of a cell is placed.
#[derive(Clone, Copy, Debug, Default, PartialEq, Eq, Hash)]
#[repr(u8)]
pub enum Align {
    /// At the left.
    #[default]
    Left = 0,
    /// At the right.
    Right = 1,
    /// In the middle.
    Center = 2,
}

/// How a table that is too wide is fitted.
#[derive(Clone, Copy, Debug, Default, PartialEq, Eq, Hash)]
pub enum Fit {
    /// Not at all.
    #[default]
    Whole = 0,
    /// Cells are wrapped at any character.
    Wrap = 1,
    /// Cells are wrapped between words, where possible.
    WrapWords = 2,
    /// Cells are truncated.
    Truncate = 3,
}

/// How a table looks.
///
/// ```
/// use fanlightnard::{Align, Fit, Options, Style};
///
/// let options = Options::new()
///     .style(Style::Markdown)
///     .align([Align::Left, Align::Right])
///     .width(60)
///     .fit(Fit::Truncate);
/// ```
#[derive(Clone, Debug, PartialEq, Eq)]
pub struct Options {
    pub(crate) style: Style,
    pub(crate) header: bool,
    pub(crate) fit: Fit,
    pub(crate) order: Order,
    pub(crate) width: usize,
    pub(crate) align: Vec<Align>,
    pub(crate) null: String,
}

impl Default for Options {
    fn default() -> Options {
        Options::new()
    }
}

impl Options {
    /// Rounded borders, a header, columns aligned left, as wide as the cells are, and nothing shown in a
    /// cell without a value.
    pub fn new() -> Options {
        Options {
            style: Style::default(),
            header: true,
            fit: Fit::default(),
            order: Order::default(),
            width: 0,
            align: Vec::new(),
            null: String::new(),
        }
    }

    /// Sets the borders.
    pub fn style(mut self, style: Style) -> Options {
        self.style = style;
        self
    }

    /// Sets whether the first row is a header. Without one, no line follows it alone.
    pub fn header(mut self, header: bool) -> Options {
        self.header = header;
        self
    }

    /// Sets the width to fit a wider table into, in columns. Its cells are wrapped between words, unless
    /// `fit` says otherwise. Borders and padding may need more.
    pub fn width(mut self, columns: usize) -> Options {
        self.width = columns;
        if self.fit == Fit::Whole {
            self.fit = Fit::WrapWords;
        }
        self
    }

    /// Sets how a table is fitted that is wider than `width`.
    pub fn fit(mut self, fit: Fit) -> Options {
        self.fit = fit;
        self
    }

    /// Sets which columns shrink first.
    pub fn order(mut self, order: Order) -> Options {
        self.order = order;
        self
    }

    /// Sets the alignment of the first columns. Others are aligned left.
    pub fn align(mut self, align: impl IntoIterator<Item = Align>) -> Options {
        self.align = align.into_iter().collect();
        self
    }

    /// Sets the text of cells without a value. It is empty at first.
    pub fn null(mut self, text: impl Into<String>) -> Options {
        self.null = text.into();
        self
    }
}
