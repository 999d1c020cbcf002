//! The terminal of a plain program: the bytes of a Telnet stream become lines, as docs/TELNET.md says.

const LONGEST: usize = 1000;

const NUL: u8 = 0;
const BACK: u8 = 8;
const TAB: u8 = 9;
const LF: u8 = 10;
const CR: u8 = 13;
const DELETE: u8 = 127;
const END: u8 = 240;
const ARE_YOU_THERE: u8 = 246;
const ERASE_CHARACTER: u8 = 247;
const ERASE_LINE: u8 = 248;
const BEGIN: u8 = 250;
const WILL: u8 = 251;
const WONT: u8 = 252;
const DO: u8 = 253;
const DONT: u8 = 254;
const IAC: u8 = 255;

pub enum Unit {
    /// The end of the line that the terminal holds; it stays until the next unit is asked for.
    Text,
    TooLong,
    AreYouThere,
    Answer([u8; 3]),
}

/// The position of the stream in a command.
#[derive(Default)]
enum Place {
    #[default]
    Data,
    Command,
    Request(u8),
    Skipped,
    CommandInSkipped,
}

#[derive(Default)]
pub struct Terminal {
    place: Place,
    is_after_return: bool,
    is_too_long: bool,
    has_ended: bool,
    line: Vec<u8>,
}

impl Terminal {
    /// Returns the next unit of these bytes, and consumes them up to its end; nothing if they give no more.
    pub fn next(&mut self, bytes: &mut &[u8]) -> Option<Unit> {
        if std::mem::take(&mut self.has_ended) {
            self.erase_line();
        }
        while let Some((&byte, rest)) = bytes.split_first() {
            if matches!(self.place, Place::Data) && is_character(byte) {
                *bytes = self.characters(bytes);
                continue;
            }
            *bytes = rest;
            let unit = self.take(byte);
            if unit.is_some() {
                return unit;
            }
        }
        None
    }

    fn take(&mut self, byte: u8) -> Option<Unit> {
        match self.place {
            Place::Data if byte != IAC => return self.data(byte),
            Place::Data => self.place = Place::Command,
            Place::Command => return self.command(byte),
            Place::Request(verb) => return self.request(verb, byte),
            Place::Skipped if byte == IAC => self.place = Place::CommandInSkipped,
            Place::Skipped => {}
            Place::CommandInSkipped if byte == END => self.place = Place::Data,
            Place::CommandInSkipped => self.place = Place::Skipped,
        }
        self.is_after_return = false;
        None
    }

    fn data(&mut self, byte: u8) -> Option<Unit> {
        let is_after_return = std::mem::replace(&mut self.is_after_return, byte == CR);
        match byte {
            TAB => self.push(b" "),
            BACK | DELETE => self.erase_character(),
            LF | NUL if is_after_return => {}
            LF | CR => return Some(self.end()),
            _ => {}
        }
        None
    }

    fn command(&mut self, byte: u8) -> Option<Unit> {
        self.place = Place::Data;
        match byte {
            ARE_YOU_THERE => return Some(Unit::AreYouThere),
            ERASE_CHARACTER => self.erase_character(),
            ERASE_LINE => self.erase_line(),
            BEGIN => self.place = Place::Skipped,
            WILL | WONT | DO | DONT => self.place = Place::Request(byte),
            _ => {}
        }
        None
    }

    fn request(&mut self, verb: u8, option: u8) -> Option<Unit> {
        self.place = Place::Data;
        let no = match verb {
            DO => WONT,
            WILL => DONT,
            _ => return None,
        };
        Some(Unit::Answer([IAC, no, option]))
    }

    /// Consumes the characters at the start of the bytes, and returns the rest.
    fn characters<'a>(&mut self, bytes: &'a [u8]) -> &'a [u8] {
        let length = bytes.iter().position(|byte| !is_character(*byte)).unwrap_or(bytes.len());
        self.is_after_return = false;
        self.push(&bytes[..length]);
        &bytes[length..]
    }

    fn push(&mut self, characters: &[u8]) {
        let fitting = characters.len().min(LONGEST - self.line.len());
        self.line.extend_from_slice(&characters[..fitting]);
        self.is_too_long |= fitting < characters.len();
    }

    fn erase_character(&mut self) {
        self.line.pop();
    }

    fn erase_line(&mut self) {
        self.line.clear();
        self.is_too_long = false;
    }

    fn end(&mut self) -> Unit {
        self.has_ended = true;
        if self.is_too_long { Unit::TooLong } else { Unit::Text }
    }

    /// Returns the line.
    pub fn line(&self) -> &str {
        str::from_utf8(&self.line).expect("ASCII")
    }
}

fn is_character(byte: u8) -> bool {
    matches!(byte, b' '..=b'~')
}
