//! What the original's files name of its builder.rs, which is not at hand.

#[derive(Clone, Debug, PartialEq, Eq)]
pub enum BuildError {
    BlankInInputAlphabet { blank: char },
    TooManySymbols { max: usize },
}

pub struct MachineBuilder;

impl MachineBuilder {
    pub fn new(_: impl Into<String>) -> Self {
        Self
    }
}
