//! The plain program for comparing builders' lines: unproved Rust with a vector of objects.
//!
//! `plain_builder < SCRIPT` answers the Wizard's lines `@create NAME`, `@dig NAME to "NAME"` and `@lock #N with KEY`,
//! with `#` in front of all objects, as `mud_serve script` does, byte for byte. It keeps their effects (objects,
//! contents, exits that leave, keys that ask) and the list of changes. It checks names, keys and the nesting of a key
//! as `docs/KEYS.md` and `docs/WORLD.md` say, by following the questions of a key. It knows no other line.

#[path = "plain/keys.rs"]
mod keys;

use keys::Key;
use std::io::{self, BufRead, Write as _};

const FULL: usize = 8192;
const WIZARD: usize = 1;

struct Object {
    name: String,
    owner: usize,
    place: Option<usize>,
    passage: Option<(usize, usize)>,
    key: Option<Key>,
    contents: Vec<usize>,
    leaving: Vec<usize>,
    askers: Vec<usize>,
}

enum Change {
    Make(String),
    Dig(String, String),
    Lock(usize),
}

#[derive(Default)]
struct World {
    objects: Vec<Object>,
    history: Vec<Change>,
}

impl World {
    fn add(&mut self, name: &str, place: Option<usize>, passage: Option<(usize, usize)>) -> usize {
        let number = self.objects.len();
        let (name, owner, key) = (name.to_owned(), WIZARD, None);
        let (contents, leaving, askers) = (Vec::new(), Vec::new(), Vec::new());
        self.objects.push(Object { name, owner, place, passage, key, contents, leaving, askers });
        if let Some(place) = place {
            self.objects[place].contents.push(number);
        }
        if let Some((source, _)) = passage {
            self.objects[source].leaving.push(number);
        }
        number
    }

    fn create(&mut self, name: &str) -> Result<String, &'static str> {
        if !is_name(name) {
            return Err("That is no name.");
        }
        if self.objects.len() == FULL {
            return Err("The world is full.");
        }
        let number = self.add(name, Some(WIZARD), None);
        self.history.push(Change::Make(name.to_owned()));
        Ok(format!("made #{number}"))
    }

    fn dig(&mut self, out: &str, name: &str) -> Result<String, &'static str> {
        if !is_name(out) || !is_name(name) {
            return Err("That is no name.");
        }
        if self.objects.len() + 2 > FULL {
            return Err("The world is full.");
        }
        let here = self.objects[WIZARD].place.expect("a place");
        let room = self.add(name, None, None);
        let exit = self.add(out, None, Some((here, room)));
        self.history.push(Change::Dig(out.to_owned(), name.to_owned()));
        Ok(format!("dug room #{room}, exit #{exit}"))
    }

    /// Returns whether at most `left` questions lead on from the key, one after the other.
    fn nests(&self, key: &Key, left: usize) -> bool {
        key.all(&mut |object, is_asked| {
            !is_asked || left > 0 && self.objects[object].key.as_ref().is_none_or(|key| self.nests(key, left - 1))
        })
    }

    /// Returns whether the keys of the object and of those that ask about it, up to `away` questions away, nest at most
    /// 3.
    fn all_nest(&self, object: usize, away: usize) -> bool {
        let own = &self.objects[object].key;
        own.as_ref().is_none_or(|key| self.nests(key, 3))
            && (away == 0 || self.objects[object].askers.iter().all(|asker| self.all_nest(*asker, away - 1)))
    }

    /// Returns the objects that the key of the object asks about.
    fn asked(&self, object: usize) -> Vec<usize> {
        let mut asked = Vec::new();
        if let Some(key) = &self.objects[object].key {
            key.all(&mut |other, is_asked| {
                asked.extend(is_asked.then_some(other));
                true
            });
        }
        asked
    }

    fn put_key(&mut self, object: usize, key: Option<Key>) -> Option<Key> {
        for other in self.asked(object) {
            self.objects[other].askers.retain(|asker| *asker != object);
        }
        let old = std::mem::replace(&mut self.objects[object].key, key);
        for other in self.asked(object) {
            self.objects[other].askers.push(object);
        }
        old
    }

    fn lock(&mut self, object: &str, text: &str) -> Result<String, &'static str> {
        let number = object.strip_prefix('#').and_then(|it| it.parse::<usize>().ok());
        let number = number.filter(|it| *it < self.objects.len()).ok_or("There is no such thing.")?;
        let key = Key::read(text).filter(|key| key.all(&mut |it, _| it < self.objects.len()));
        let key = key.ok_or("That key is not understood.")?;
        let mut said = format!("locked #{number} with ");
        key.write(&mut said, false);
        let old = self.put_key(number, Some(key));
        if !self.all_nest(number, 3) {
            self.put_key(number, old);
            return Err("That key nests too deep.");
        }
        self.history.push(Change::Lock(number));
        Ok(said)
    }

    fn answer(&mut self, line: &str) -> Option<String> {
        let (verb, rest) = line.trim().split_once(' ')?;
        let said = match verb {
            "@create" => self.create(rest.trim()),
            "@dig" => {
                let (out, name) = rest.split_once(" to ")?;
                self.dig(out.trim(), name.trim().trim_matches('"'))
            }
            "@lock" => {
                let (object, key) = rest.split_once(" with ")?;
                self.lock(object.trim(), key)
            }
            _ => return None,
        };
        Some(format!("[{}] {}\r\n", self.history.len(), said.unwrap_or_else(str::to_owned)))
    }

    /// Returns a sum over all data, so that no compiler leaves anything out.
    fn sum(&self) -> usize {
        let of_object = |it: &Object| {
            let ends = it.passage.map_or(0, |(from, to)| from + to) + it.place.unwrap_or(0);
            it.name.len() + it.owner + ends + it.contents.len() + it.leaving.len()
        };
        let of_change = |it: &Change| match it {
            Change::Make(name) => name.len(),
            Change::Dig(out, name) => out.len() + name.len(),
            Change::Lock(object) => *object,
        };
        self.objects.iter().map(of_object).sum::<usize>() + self.history.iter().map(of_change).sum::<usize>()
    }
}

fn is_name(text: &str) -> bool {
    let plain = text.bytes().all(|it| matches!(it, b' '..=b'~') && !b"\"\\,|&!?()".contains(&it));
    plain && (1..=60).contains(&text.len()) && !text.starts_with('#') && text.trim() == text && !text.contains("  ")
}

fn main() -> io::Result<()> {
    let mut world = World::default();
    world.add("The Hall", None, None);
    world.add("Wizard", Some(0), None);
    let mut out = io::stdout().lock();
    for line in io::stdin().lock().lines() {
        if let Some(said) = world.answer(&line?) {
            out.write_all(said.as_bytes())?;
            out.flush()?;
        }
    }
    std::hint::black_box(world.sum());
    Ok(())
}
