//! The changes of a plain program, written as docs/HISTORY.md says.

use std::fmt::{self, Display, Formatter};
use std::rc::Rc;

/// The names of an object, shared with the change that gave them.
pub type Names = Rc<[String]>;

/// The destination of a new exit: a new room with these names, or an old one.
pub enum Target {
    New(Names),
    Old(u32),
}

pub enum Deed {
    /// The names of the exit, and of the one back, if there are any.
    Dig(Target, Vec<Names>),
    Make(Names),
    /// The key is printed.
    Lock(u32, String),
    Move(u32, u32),
    Walk(u32),
    Cost(u32, u32),
    Say(String),
    Emote(String),
}

pub struct Change {
    pub actor: u32,
    pub deed: Deed,
}

impl Display for Change {
    fn fmt(&self, out: &mut Formatter<'_>) -> fmt::Result {
        let actor = self.actor;
        match &self.deed {
            Deed::Dig(Target::New(names), doors) => write!(out, "dig #{actor} new {}{}", quoted(names), said(doors)),
            Deed::Dig(Target::Old(room), doors) => write!(out, "dig #{actor} old #{room}{}", said(doors)),
            Deed::Make(names) => write!(out, "make #{actor} {}", quoted(names)),
            Deed::Lock(object, key) => write!(out, "lock #{actor} #{object} {key}"),
            Deed::Move(thing, to) => write!(out, "move #{actor} #{thing} #{to}"),
            Deed::Walk(exit) => write!(out, "walk #{actor} #{exit}"),
            Deed::Cost(exit, cost) => write!(out, "cost #{actor} #{exit} {cost}"),
            Deed::Say(text) => write!(out, "say #{actor} {text}"),
            Deed::Emote(text) => write!(out, "emote #{actor} {text}"),
        }
    }
}

fn quoted(names: &[String]) -> String {
    format!("\"{}\"", names.join(","))
}

fn said(doors: &[Names]) -> String {
    doors.iter().zip(["out", "back"]).map(|(names, word)| format!(" {word} {}", quoted(names))).collect()
}
