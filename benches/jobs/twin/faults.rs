//! What a job's text is refused for.

#[derive(Clone, Copy)]
pub(crate) enum Fault {
    Line(u64),
    Script(char),
    Operations(u64),
    Messages(u64),
}

impl std::fmt::Display for Fault {
    fn fmt(&self, f: &mut std::fmt::Formatter<'_>) -> std::fmt::Result {
        match self {
            Fault::Line(line) => write!(f, "J line {line}"),
            Fault::Script(letter) => write!(f, "S{letter}"),
            Fault::Operations(line) => write!(f, "J7 line {line} A1"),
            Fault::Messages(line) => write!(f, "J7 line {line} A2"),
        }
    }
}
