//! One case's input: lines `key=value`.

use crate::stop;

pub struct Block<'a> {
    lines: Vec<(&'a str, &'a str)>,
}

impl<'a> Block<'a> {
    pub fn new(text: &'a str) -> Self {
        let parts = |line: &'a str| {
            line.split_once('=')
                .unwrap_or_else(|| stop(&format!("{line:?} has no =")))
        };
        Self {
            lines: text.lines().map(parts).collect(),
        }
    }

    /// The value of a key that not every case has.
    pub fn find(&self, key: &str) -> Option<&'a str> {
        let line = self.lines.iter().find(|line| line.0 == key);
        line.map(|line| line.1)
    }

    fn value(&self, key: &str) -> &'a str {
        self.find(key)
            .unwrap_or_else(|| stop(&format!("a case has no {key}")))
    }

    pub fn number(&self, key: &str) -> usize {
        number(self.value(key))
    }

    /// Numbers, with commas between.
    pub fn numbers(&self, key: &str) -> Vec<usize> {
        self.value(key).split(',').map(number).collect()
    }

    /// A byte string, in a heap block of exactly its length.
    pub fn bytes(&self, key: &str) -> Box<[u8]> {
        bytes(self.value(key)).into()
    }
}

/// Reads a byte string: pairs of hexadecimal digits, or these and `*` and how often they stand
/// there, or several such pieces with `+` between.
pub fn bytes(text: &str) -> Vec<u8> {
    let mut bytes = vec![];
    for piece in text.split('+') {
        let (pairs, times) = piece.split_once('*').unwrap_or((piece, "1"));
        bytes.extend(from_hex(pairs).repeat(number(times)));
    }
    bytes
}

pub fn number(word: &str) -> usize {
    word.parse()
        .unwrap_or_else(|_| stop(&format!("{word:?} is no number")))
}

fn from_hex(pairs: &str) -> Vec<u8> {
    let no_bytes = || stop(&format!("{pairs:?} is no byte string"));
    if pairs.len() % 2 != 0 || !pairs.is_ascii() {
        no_bytes();
    }
    (0..pairs.len())
        .step_by(2)
        .map(|at| u8::from_str_radix(&pairs[at..at + 2], 16).unwrap_or_else(|_| no_bytes()))
        .collect()
}
