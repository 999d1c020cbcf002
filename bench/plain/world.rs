//! The world of a plain program: objects in a vector by number, and the list of changes, as docs/WORLD.md says.

use crate::history::{Change, Deed, Names};
use crate::keys::Key;
use crate::roads::{Map, Passage};

const FULL: usize = 8192;
const MOST_NAMES: usize = 4;
const HALL: u32 = 0;
pub const WIZARD: u32 = 1;

pub enum Kind {
    Room,
    Exit(Passage),
    Thing(u32),
    Player(u32),
}

pub struct Object {
    pub names: Names,
    pub owner: u32,
    pub kind: Kind,
    pub key: Option<Key>,
    pub contents: Vec<u32>,
    pub leaving: Vec<u32>,
}

#[derive(Default)]
pub struct World {
    pub objects: Vec<Object>,
    pub history: Vec<Change>,
}

impl Map for World {
    fn size(&self) -> usize {
        self.objects.len()
    }

    fn leaving(&self, room: u32) -> &[u32] {
        &self.of(room).leaving
    }

    fn passage(&self, exit: u32) -> Passage {
        match self.of(exit).kind {
            Kind::Exit(passage) => passage,
            _ => panic!("#{exit} is no exit"),
        }
    }
}

impl World {
    pub fn opening() -> World {
        let mut world = World::default();
        world.add(Names::from(["The Hall".to_owned()]), WIZARD, Kind::Room);
        world.add(Names::from(["Wizard".to_owned()]), WIZARD, Kind::Player(HALL));
        world
    }

    pub fn of(&self, number: u32) -> &Object {
        &self.objects[number as usize]
    }

    pub fn of_mut(&mut self, number: u32) -> &mut Object {
        &mut self.objects[number as usize]
    }

    pub fn has(&self, number: u32) -> bool {
        (number as usize) < self.objects.len()
    }

    /// Returns how many more objects there may be.
    pub fn room_left(&self) -> usize {
        FULL - self.objects.len()
    }

    pub fn next(&self) -> u32 {
        self.objects.len() as u32
    }

    /// Returns the number of changes.
    pub fn version(&self) -> u32 {
        self.history.len() as u32
    }

    pub fn add(&mut self, names: Names, owner: u32, kind: Kind) -> u32 {
        let number = self.next();
        match kind {
            Kind::Thing(place) | Kind::Player(place) => self.of_mut(place).contents.push(number),
            Kind::Exit((source, _, _)) => self.of_mut(source).leaving.push(number),
            Kind::Room => {}
        }
        self.objects.push(Object { names, owner, kind, key: None, contents: Vec::new(), leaving: Vec::new() });
        number
    }

    pub fn record(&mut self, actor: u32, deed: Deed) {
        self.history.push(Change { actor, deed });
    }

    /// Returns whether an actor may change an object.
    pub fn owns(&self, actor: u32, number: u32) -> bool {
        actor == WIZARD || self.of(number).owner == actor
    }

    pub fn place(&self, number: u32) -> Option<u32> {
        match self.of(number).kind {
            Kind::Thing(place) | Kind::Player(place) => Some(place),
            _ => None,
        }
    }

    /// Moves a thing or a player to another place.
    pub fn put(&mut self, number: u32, to: u32) {
        let (Kind::Thing(place) | Kind::Player(place)) = &mut self.of_mut(number).kind else { return };
        let from = std::mem::replace(place, to);
        self.of_mut(from).contents.retain(|it| *it != number);
        let contents = &mut self.of_mut(to).contents;
        let at = contents.partition_point(|it| *it < number);
        contents.insert(at, number);
    }

    /// Returns whether following places from the object leads to the holder.
    pub fn is_within(&self, mut object: u32, holder: u32) -> bool {
        while object != holder {
            let Some(place) = self.place(object) else { return false };
            object = place;
        }
        true
    }

    /// Returns whether an object is unlocked for a candidate. No key here asks.
    pub fn is_open(&self, object: u32, candidate: u32) -> bool {
        let key = self.of(object).key.as_ref();
        key.is_none_or(|key| key.is_true(&|held, _| self.is_within(held as u32, candidate)))
    }

    /// Returns for each object whether it is unlocked for a candidate.
    pub fn all_open(&self, candidate: u32) -> Vec<bool> {
        (0..self.next()).map(|object| self.is_open(object, candidate)).collect()
    }
}

/// Returns the names between the commas of a text, or nothing if it is no names text.
pub fn names_of(text: &str) -> Option<Names> {
    let (mut names, mut count) = ([""; MOST_NAMES], 0);
    for name in text.split(',') {
        *names.get_mut(count)? = name.trim_matches(' ');
        count += 1;
    }
    let names = &names[..count];
    names.iter().all(|name| is_name(name)).then(|| names.iter().map(|name| name.to_string()).collect())
}

fn is_name(text: &str) -> bool {
    let is_plain = text.bytes().all(|it| matches!(it, b' '..=b'~') && !b"\"\\,|&!?()".contains(&it));
    let is_trim = !text.starts_with([' ', '#']) && !text.ends_with(' ') && !text.contains("  ");
    (1..=60).contains(&text.len()) && is_plain && is_trim
}
