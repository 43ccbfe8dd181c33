//! The arguments.

/// Which column gives way first.
#[derive(Clone, Copy)]
pub enum Priority {
    None,
    Min,
    Max,
    Left,
    Right,
}

/// How a text gets narrower.
#[derive(Clone, Copy)]
pub enum Way {
    Wrap,
    WrapWords,
    Cut,
}

/// What is done to a table that is wider than a number of columns.
pub struct Narrowing {
    pub width: usize,
    pub way: Way,
}

pub struct Options {
    pub narrowing: Option<Narrowing>,
    pub priority: Priority,
}

impl Options {
    pub fn from_arguments(mut arguments: impl Iterator<Item = String>) -> Options {
        let mut options = Options {
            narrowing: None,
            priority: Priority::None,
        };
        let mut keeps_words = false;
        while let Some(argument) = arguments.next() {
            match argument.as_str() {
                "--words" => keeps_words = true,
                "--wrap" => options.narrowing = Some(narrowing(Way::Wrap, arguments.next())),
                "--cut" => options.narrowing = Some(narrowing(Way::Cut, arguments.next())),
                "--priority" => options.priority = priority(arguments.next()),
                other => panic!("{other} is no option"),
            }
        }
        if let (true, Some(narrowing)) = (keeps_words, &mut options.narrowing) {
            narrowing.way = Way::WrapWords;
        }
        options
    }
}

fn narrowing(way: Way, width: Option<String>) -> Narrowing {
    let width = width
        .and_then(|word| word.parse().ok())
        .expect("a number of columns");
    Narrowing { width, way }
}

fn priority(name: Option<String>) -> Priority {
    match name.as_deref() {
        Some("none") => Priority::None,
        Some("min") => Priority::Min,
        Some("max") => Priority::Max,
        Some("left") => Priority::Left,
        Some("right") => Priority::Right,
        _ => panic!("a priority is none, min, max, left or right"),
    }
}
