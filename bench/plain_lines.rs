//! The plain program for comparing lines: unproved Rust with a vector of objects.
//!
//! `plain_lines < SCRIPT` answers lines of the Wizard as `mud_serve script` does, byte for byte. It reads them as
//! docs/TELNET.md says, parses and decides them as docs/COMMANDS.md and docs/WORLD.md say, and keeps the list of
//! changes. It knows talk, `look`, walks, `drop`, `@create`, `@dig`, `@cost`, `@lock`, `route`, `@version` and
//! `@history` of one player, keys of numbers without questions, and no proofs of its routes. A line with another verb
//! of the table ends it.
//!
//! `plain_lines split < SCRIPT` only cuts each line at its spaces, and answers as if its text were too long to be said,
//! or no command.

#[path = "plain/history.rs"]
mod history;
#[path = "plain/keys.rs"]
mod keys;
#[path = "plain/lines.rs"]
mod lines;
#[path = "plain/roads.rs"]
mod roads;
#[path = "plain/terminal.rs"]
mod terminal;
#[path = "plain/words.rs"]
mod words;
#[path = "plain/world.rs"]
mod world;

use lines::{answer, push_number};
use std::hint::black_box;
use std::io::{self, BufRead, BufWriter, Write};
use terminal::{Terminal, Unit};
use words::{Line, spelled_out};
use world::World;

/// A session: its terminal, the world, the text of an answer, and the output.
#[derive(Default)]
struct Session {
    world: World,
    terminal: Terminal,
    text: Vec<u8>,
    out: Vec<u8>,
}

impl Session {
    /// Answers the line of the terminal; a blank one has no answer.
    fn answer(&mut self) {
        let typed = spelled_out(self.terminal.line());
        let Some(line) = Line::read(&typed) else { return };
        self.text.clear();
        answer(&mut self.world, &line, &mut self.text);
        self.out.push(b'[');
        push_number(&mut self.out, self.world.version());
        self.out.extend_from_slice(b"] ");
        self.out.extend_from_slice(&self.text);
        self.out.extend_from_slice(b"\r\n");
    }

    /// Answers all units of these bytes.
    fn feed(&mut self, mut bytes: &[u8]) {
        while let Some(unit) = self.terminal.next(&mut bytes) {
            match unit {
                Unit::Text => self.answer(),
                Unit::TooLong => self.out.extend_from_slice(b"(line too long)\r\n"),
                Unit::AreYouThere => self.out.extend_from_slice(b"[Yes]\r\n"),
                Unit::Answer(bytes) => self.out.extend_from_slice(&bytes),
            }
        }
    }
}

/// Answers a script.
fn play() -> io::Result<()> {
    let (mut input, mut out) = (io::stdin().lock(), io::stdout().lock());
    let mut session = Session { world: World::opening(), ..Session::default() };
    loop {
        let piece = input.fill_buf()?;
        let length = piece.len();
        if length == 0 {
            break;
        }
        session.feed(piece);
        input.consume(length);
        out.write_all(&session.out)?;
        session.out.clear();
    }
    black_box(&session.world);
    Ok(())
}

/// Cuts lines at their spaces.
fn split() -> io::Result<()> {
    let mut out = BufWriter::new(io::stdout().lock());
    for line in io::stdin().lock().lines() {
        let line = line?;
        let words: Vec<&str> = line.split(' ').collect();
        let is_said = black_box(&words).first() == Some(&"say");
        let text = if is_said { "That text is not allowed." } else { "I couldn't understand that." };
        write!(out, "[0] {text}\r\n")?;
        out.flush()?;
    }
    Ok(())
}

fn main() -> io::Result<()> {
    if std::env::args().nth(1).as_deref() == Some("split") { split() } else { play() }
}
