//! The numbers that a program is told after the file's name.
//!
//! Written from the page on the driver's script alone.

use crate::command::words::number;
use crate::model::Opening;
use crate::sizes::PORTION;

/// Where the record is opened, the length of its payload, and the events of a
/// portion.
#[derive(Clone, Copy, Debug, PartialEq, Eq)]
pub struct Told {
    pub opening: Opening,
    pub length: u64,
    pub portion: u64,
}

impl Told {
    pub const NUMBERS: usize = 5;

    /// The numbers where none is said.
    const UNSAID: [u64; Told::NUMBERS] = [0, 0, 0, 0, PORTION];

    pub fn numbers(&self) -> [u64; Told::NUMBERS] {
        let [revision, serial, replacements] = self.opening.words();
        [revision, serial, replacements, self.length, self.portion]
    }

    pub fn of_numbers(numbers: [u64; Told::NUMBERS]) -> Told {
        let [revision, serial, replacements, length, portion] = numbers;
        Told { opening: Opening { revision, serial, replacements }, length, portion }
    }

    /// What these words say, which are not too many, or what is wrong with them.
    pub(super) fn of_words<Word: AsRef<[u8]>>(words: &[Word]) -> Result<Told, String> {
        let mut numbers = Told::UNSAID;
        for (at, word) in words.iter().enumerate() {
            let text = String::from_utf8_lossy(word.as_ref());
            numbers[at] =
                number(word.as_ref()).ok_or_else(|| format!("'{}' is no number", text))?;
        }
        let told = Told::of_numbers(numbers);
        if told.portion == 0 {
            return Err("a portion has at least 1 event".to_string());
        }
        Ok(told)
    }
}
