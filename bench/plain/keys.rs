//! Keys, as the plain programs read and print them: expressions over objects, each written with `#` and its number.
#![allow(dead_code)] // no program uses all of it

use std::fmt::Write as _;

pub enum Key {
    Has(usize),
    Asks(usize),
    Not(Box<Key>),
    Join(Box<Key>, &'static str, Box<Key>),
}

impl Key {
    /// Returns the key that a text spells, or nothing.
    pub fn read(text: &str) -> Option<Key> {
        let mut parser = Parser { rest: text };
        parser.chain().filter(|_| parser.rest.trim().is_empty())
    }

    /// Returns whether the test holds for each object of the key; its argument says whether the key asks about the
    /// object.
    pub fn all(&self, test: &mut impl FnMut(usize, bool) -> bool) -> bool {
        match self {
            Key::Has(object) => test(*object, false),
            Key::Asks(object) => test(*object, true),
            Key::Not(key) => key.all(test),
            Key::Join(left, _, right) => left.all(test) && right.all(test),
        }
    }

    /// Returns whether the key is true with this test of its objects; its argument says whether the key asks about the
    /// object.
    pub fn is_true(&self, test: &impl Fn(usize, bool) -> bool) -> bool {
        match self {
            Key::Has(object) => test(*object, false),
            Key::Asks(object) => test(*object, true),
            Key::Not(key) => !key.is_true(test),
            Key::Join(left, "&&", right) => left.is_true(test) && right.is_true(test),
            Key::Join(left, _, right) => left.is_true(test) || right.is_true(test),
        }
    }

    /// Prints the key with the fewest parentheses; a part stands behind a sign.
    pub fn write(&self, text: &mut String, is_part: bool) {
        match self {
            Key::Has(object) => write!(text, "#{object}").expect("memory"),
            Key::Asks(object) => write!(text, "?#{object}").expect("memory"),
            Key::Not(key) => {
                text.push('!');
                key.write(text, true);
            }
            Key::Join(left, sign, right) => {
                text.push_str(if is_part { "(" } else { "" });
                left.write(text, false);
                write!(text, " {sign} ").expect("memory");
                right.write(text, true);
                text.push_str(if is_part { ")" } else { "" });
            }
        }
    }
}

struct Parser<'a> {
    rest: &'a str,
}

impl Parser<'_> {
    fn takes(&mut self, sign: &str) -> bool {
        self.rest = self.rest.trim_start();
        let rest = self.rest.strip_prefix(sign);
        self.rest = rest.unwrap_or(self.rest);
        rest.is_some()
    }

    fn object(&mut self) -> Option<usize> {
        let rest = self.rest.trim_start().strip_prefix('#')?;
        let end = rest.find(|it: char| !it.is_ascii_digit()).unwrap_or(rest.len());
        self.rest = &rest[end..];
        rest[..end].parse().ok()
    }

    fn unary(&mut self) -> Option<Key> {
        if self.takes("!") {
            return Some(Key::Not(Box::new(self.unary()?)));
        }
        if self.takes("(") {
            let key = self.chain()?;
            return self.takes(")").then_some(key);
        }
        Some(if self.takes("?") { Key::Asks(self.object()?) } else { Key::Has(self.object()?) })
    }

    fn chain(&mut self) -> Option<Key> {
        let mut left = self.unary()?;
        while let Some(sign) = ["&&", "||"].into_iter().find(|sign| self.takes(sign)) {
            left = Key::Join(Box::new(left), sign, Box::new(self.unary()?));
        }
        Some(left)
    }
}
