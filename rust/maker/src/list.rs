//! The list's form, which crates/replay/src/case.rt reads: a word for the kind, a word for the length in bytes, and the
//! case. A case is words, the lowest byte first, and after them the contents of its lists, each named by two of the words:
//! the place of its first byte in the case, and its length.

/// The kinds that crates/replay/src/kind.rt has.
#[derive(Copy, Clone)]
pub enum Kind {
    Get = 1,
    Window = 2,
    Mix = 3,
    Rgba = 4,
    FitExact = 5,
    FitOverview = 6,
    Open = 7,
    Row = 8,
    Locate = 9,
    RowLines = 10,
    Range = 11,
}

#[derive(Default)]
pub struct List {
    bytes: Vec<u8>,
    cases: u64,
}

impl List {
    pub fn bytes(&self) -> &[u8] {
        &self.bytes
    }

    pub fn cases(&self) -> u64 {
        self.cases
    }

    pub fn add(&mut self, kind: Kind, case: &Case) {
        let bytes = case.bytes();
        self.bytes.extend((kind as u64).to_le_bytes());
        self.bytes.extend((bytes.len() as u64).to_le_bytes());
        self.bytes.extend(bytes);
        self.cases += 1;
    }
}

enum Word {
    Number(u64),
    /// The place of the list that begins at this byte of all the lists' contents.
    Place(usize),
}

#[derive(Default)]
pub struct Case {
    words: Vec<Word>,
    lists: Vec<u8>,
}

impl Case {
    pub fn word(mut self, number: impl Into<u64>) -> Self {
        self.words.push(Word::Number(number.into()));
        self
    }

    pub fn words(self, numbers: &[u64]) -> Self {
        numbers.iter().fold(self, |case, &number| case.word(number))
    }

    /// A position in its offset form.
    pub fn position(self, position: i64) -> Self {
        self.word(offset(position))
    }

    /// 1 and the pair where there is one, else 0 and a pair that no call may look at.
    pub fn pair(self, pair: Option<(i64, i64)>) -> Self {
        let (low, high) = pair.unwrap_or((i64::MAX, i64::MIN));
        self.word(pair.is_some()).position(low).position(high)
    }

    /// A list of bytes.
    pub fn byte_list(mut self, bytes: &[u8]) -> Self {
        self.words.push(Word::Place(self.lists.len()));
        self.lists.extend(bytes);
        self.word(bytes.len() as u64)
    }

    /// A list of words.
    pub fn word_list(mut self, words: impl ExactSizeIterator<Item = u64>) -> Self {
        self.words.push(Word::Place(self.lists.len()));
        let length = words.len() as u64;
        self.lists.extend(words.flat_map(u64::to_le_bytes));
        self.word(length)
    }

    fn bytes(&self) -> Vec<u8> {
        let start = 8 * self.words.len();
        let number = |word: &Word| match *word {
            Word::Number(number) => number,
            Word::Place(place) => (start + place) as u64,
        };
        let words = self.words.iter().flat_map(|word| number(word).to_le_bytes());
        words.chain(self.lists.iter().copied()).collect()
    }
}

pub fn offset(position: i64) -> u64 {
    position.cast_unsigned() ^ (1 << 63)
}
