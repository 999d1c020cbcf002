//! A line of a player, parsed as the plain program does it: its words, its verb, the texts around a preposition.

use std::borrow::Cow;

/// The prepositions, one a row, with the phrases that say it.
const PREPOSITIONS: [&str; 15] = [
    "with|using",
    "at|to",
    "in front of",
    "in|inside|into",
    "on top of|on|onto|upon",
    "out of|from inside|from",
    "over",
    "through",
    "under|underneath|beneath",
    "behind",
    "beside",
    "for|about",
    "is",
    "as",
    "off|off of",
];

pub struct Line<'a> {
    /// The first word in lower case.
    pub verb: Cow<'a, str>,
    /// The text behind the first word and its space, as typed.
    behind: &'a str,
}

/// The text before a preposition, the first phrase of its row, and the text after it.
pub struct Parts {
    pub direct: String,
    pub preposition: &'static str,
    pub indirect: String,
}

/// Returns the line that this one stands for if it begins with a sign.
pub fn spelled_out(text: &str) -> Cow<'_, str> {
    let verb = match text.bytes().find(|sign| *sign != b' ') {
        Some(b'"') => "say ",
        Some(b':') => "emote ",
        Some(b';') => "eval ",
        _ => return text.into(),
    };
    (verb.to_owned() + &text.trim_start_matches(' ')[1..]).into()
}

impl Line<'_> {
    /// Parses a spelled-out line; a blank one gives nothing.
    pub fn read(text: &str) -> Option<Line<'_>> {
        let (verb, behind) = first_word(text)?;
        Some(Line { verb: lower(verb), behind })
    }

    /// Returns the text behind the first word, without the spaces at its ends.
    pub fn rest(&self) -> &str {
        self.behind.trim_matches(' ')
    }

    /// Returns the words after the verb.
    pub fn words(&self) -> Vec<Cow<'_, str>> {
        let (mut words, mut text) = (Vec::new(), self.behind);
        while let Some((word, behind)) = first_word(text) {
            words.push(word);
            text = behind;
        }
        words
    }

    /// Returns all words, joined.
    pub fn whole(&self) -> String {
        let first = [Cow::from(&*self.verb)];
        first.into_iter().chain(self.words()).collect::<Vec<_>>().join(" ")
    }

    /// Returns the words after the verb, joined.
    pub fn all(&self) -> Cow<'_, str> {
        if is_joined(self.behind) { self.behind.into() } else { self.words().join(" ").into() }
    }

    /// Returns the texts around the first preposition, taking the longest there.
    pub fn parts(&self) -> Option<Parts> {
        let words = self.words();
        let (at, (length, preposition)) = (0..words.len()).find_map(|at| Some((at, phrase_at(&words[at..])?)))?;
        Some(Parts { direct: words[..at].join(" "), preposition, indirect: words[at + length..].join(" ") })
    }
}

/// Returns whether a text is its own words, joined by one space.
fn is_joined(text: &str) -> bool {
    let is_mark = |sign| matches!(sign, b'"' | b'\\');
    !text.starts_with(' ') && !text.ends_with(' ') && !text.contains("  ") && !text.bytes().any(is_mark)
}

/// Returns a word in lower case.
fn lower(word: Cow<'_, str>) -> Cow<'_, str> {
    if word.bytes().any(|sign| sign.is_ascii_uppercase()) { word.to_ascii_lowercase().into() } else { word }
}

/// Returns the longest phrase at the start of the words: its number of words, and the first phrase of its row.
fn phrase_at(words: &[Cow<'_, str>]) -> Option<(usize, &'static str)> {
    let rows = PREPOSITIONS.iter().flat_map(|row| row.split('|').map(move |phrase| (phrase, row)));
    let found = rows.filter(|(phrase, _)| begins(words, phrase));
    found.map(|(phrase, row)| (phrase.split(' ').count(), row.split('|').next().unwrap_or(row))).max()
}

fn begins(words: &[Cow<'_, str>], phrase: &str) -> bool {
    let mut words = words.iter();
    phrase.split(' ').all(|part| words.next().is_some_and(|word| word.eq_ignore_ascii_case(part)))
}

/// Returns the first word of a text, if there is one, and the text behind it and its space.
fn first_word(text: &str) -> Option<(Cow<'_, str>, &str)> {
    let text = text.trim_start_matches(' ');
    let end = text.bytes().position(|sign| matches!(sign, b' ' | b'"' | b'\\'));
    match end {
        _ if text.is_empty() => None,
        None => Some((text.into(), "")),
        Some(at) if text.as_bytes()[at] == b' ' => Some((text[..at].into(), &text[at + 1..])),
        Some(_) => Some(marked_word(text)),
    }
}

/// Does so for a word with quotes and backslashes.
fn marked_word(text: &str) -> (Cow<'_, str>, &str) {
    let mut word = String::new();
    let (mut is_quoted, mut is_guarded) = (false, false);
    for (at, sign) in text.char_indices() {
        if is_guarded || !matches!(sign, ' ' | '"' | '\\') || is_quoted && sign == ' ' {
            is_guarded = false;
            word.push(sign);
        } else if sign == ' ' {
            return (word.into(), &text[at + 1..]);
        } else {
            is_quoted ^= sign == '"';
            is_guarded = sign == '\\';
        }
    }
    (word.into(), "")
}
