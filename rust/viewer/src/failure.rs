//! The statuses that the command ends with, and what it says where there is no answer.

/// All was done, and each question has an answer.
pub const DONE: u8 = 0;
/// The answer to some question is no.
pub const NO: u8 = 1;

/// Why there is no answer, in one sentence.
#[derive(Debug, PartialEq, Eq)]
pub enum Failure {
    /// Other arguments would do.
    Mistake(String),
    /// It could not be written.
    Unwritten(String),
}

impl Failure {
    pub fn status(&self) -> u8 {
        match self {
            Self::Mistake(_) => 2,
            Self::Unwritten(_) => 3,
        }
    }

    pub fn sentence(&self) -> &str {
        let (Self::Mistake(sentence) | Self::Unwritten(sentence)) = self;
        sentence
    }
}

/// What arguments, machines and orders are refused with.
impl From<String> for Failure {
    fn from(sentence: String) -> Self {
        Self::Mistake(sentence)
    }
}
