//! What is wrong with a refused text, beyond its number: the cases that random texts must meet.

use crate::recipes::{Refused, VERBS, read};

pub struct Slip<'a> {
    refused: Refused,
    /// The bytes of the line that is refused, with its byte 10.
    line: &'a [u8],
    /// Of a text that is the cut of another: what the whole is refused with.
    whole: Option<Refused>,
}

impl Slip<'_> {
    pub fn of<'a>(text: &'a [u8], refused: Refused, whole: Option<Refused>) -> Slip<'a> {
        let mut lines = text.split_inclusive(|&byte| byte == b'\n');
        Slip { refused, line: lines.nth(refused.line - 1).unwrap_or_default(), whole }
    }

    /// Whether there is no byte 10.
    fn is_open(&self) -> bool {
        !self.line.ends_with(b"\n")
    }

    fn tabs(&self) -> usize {
        self.line.iter().filter(|&&byte| byte == b'\t').count()
    }

    /// Whether the verb takes more than there are fields.
    fn has_too_few(&self) -> bool {
        VERBS.iter().any(|(_, word, takes)| self.line.starts_with(word.as_bytes()) && self.tabs() < *takes)
    }

    fn has_too_many(&self) -> bool {
        !self.has_too_few()
    }

    /// The field that begins at the column, and what is behind it.
    fn field(&self) -> (&[u8], &[u8]) {
        let rest = &self.line[self.refused.column - 1..];
        rest.split_at(rest.iter().position(|byte| b"\t\n".contains(byte)).unwrap_or(rest.len()))
    }

    fn is_first_field(&self) -> bool {
        !self.line[..self.refused.column - 2].contains(&b'\t')
    }

    /// The number that the line has with a byte 10 more, behind a width line; 0 if it reads.
    fn ended(&self) -> u8 {
        let text = [b"width\t1\n", self.line, b"\n"].concat();
        read(&text).map_or_else(|refused| refused.number, |_| 0)
    }

    fn is_cut_of(&self, number: u8) -> bool {
        self.whole.is_some_and(|whole| whole.number == number)
    }

    /// Whether it is this case.
    pub fn is(&self, (number, _, so): &Case) -> bool {
        self.refused.number == *number && so(self)
    }
}

/// A refusal's number, a name, and what else holds of such a slip.
pub type Case = (u8, &'static str, fn(&Slip) -> bool);

pub const CASES: [Case; 32] = [
    (4, "no byte 10", |slip| slip.is_open()),
    (4, "a cut", |slip| slip.is_cut_of(4)),
    (8, "no byte 10", |slip| slip.is_open()),
    (8, "a cut", |slip| slip.is_cut_of(8)),
    (11, "an empty line", |slip| slip.line == b"\n"),
    (11, "an empty word and fields", |slip| slip.line.starts_with(b"\t")),
    (11, "a word alone", |slip| slip.line.len() > 1 && slip.tabs() == 0),
    (11, "a word and fields", |slip| slip.tabs() > 0),
    (11, "a cut", |slip| slip.is_cut_of(11)),
    (12, "a verb alone", |slip| slip.tabs() == 0),
    (12, "a field too few", |slip| slip.has_too_few() && slip.tabs() > 0),
    (12, "a field too few, and an empty one", |slip| slip.has_too_few() && slip.line.ends_with(b"\t\n")),
    (12, "an empty field too many, at the end", |slip| slip.has_too_many() && slip.field() == (b"", b"\n")),
    (12, "an empty field too many, and others", |slip| slip.field().0.is_empty() && slip.field().1 != b"\n"),
    (12, "a digit too many", |slip| matches!(slip.field().0, [b'0'..=b'9'])),
    (12, "another field too many", |slip| slip.field().0.len() > 1),
    (12, "a cut", |slip| slip.is_cut_of(12)),
    (13, "an empty field, the first", |slip| slip.field().0.is_empty() && slip.is_first_field()),
    (13, "an empty field, the second", |slip| slip.field().0.is_empty() && !slip.is_first_field()),
    (13, "two digits", |slip| matches!(slip.field().0, [b'0'..=b'9', b'0'..=b'9'])),
    (13, "one byte", |slip| slip.field().0.len() == 1),
    (13, "a digit and byte 13", |slip| matches!(slip.field().0, [b'0'..=b'9', b'\r'])),
    (13, "a cut", |slip| slip.is_cut_of(13)),
    (14, "a line that would read", |slip| slip.ended() == 0),
    (14, "a line that would be refused with 6 or 7", |slip| matches!(slip.ended(), 6 | 7)),
    (14, "a word that is no verb", |slip| slip.ended() == 11),
    (14, "fields too few or too many", |slip| slip.ended() == 12),
    (14, "a field that isn't one digit", |slip| slip.ended() == 13),
    (14, "a cut, and the whole 11", |slip| slip.is_cut_of(11)),
    (14, "a cut, and the whole 12", |slip| slip.is_cut_of(12)),
    (14, "a cut, and the whole 13", |slip| slip.is_cut_of(13)),
    (14, "a cut, and the whole too", |slip| slip.is_cut_of(14)),
];
