//! What is wrong with a line of text, be it a request or an answer.

#[derive(Clone, PartialEq, Eq, Debug)]
pub struct Fault {
    /// The wrong word; none if the line ends too early.
    pub word: Option<String>,
    pub expected: String,
}

impl Fault {
    /// In words, for a line of this number.
    pub fn on_line(&self, number: usize) -> String {
        match &self.word {
            Some(word) => format!("line {number}: \"{}\": expected {}", shown(word), self.expected),
            None => format!("line {number}: the line ends: expected {}", self.expected),
        }
    }
}

/// A word as it can be shown on any terminal: no control characters, and not too long.
fn shown(word: &str) -> String {
    const MOST: usize = 40;
    let more = if word.chars().nth(MOST).is_some() { "…" } else { "" };
    let shown: String = word.chars().take(MOST).flat_map(char::escape_debug).collect();
    shown + more
}
