//! The plain program for comparing the guide's speed: unproved Rust with a binary heap.
//!
//! `plain HISTORY SCRIPT` reads a history text, builds its world, and answers the lines `route to #N` of the script for
//! the Wizard, #1. It prints each answer as `mud_serve` does (without the version), and on standard error the seconds
//! that the answers took. It knows the few changes and key forms that the worlds of `worlds.py` have.

#[path = "plain/keys.rs"]
mod keys;
#[path = "plain/roads.rs"]
mod roads;

use keys::Key;
use roads::{Map, Passage, Roads};
use std::collections::HashSet;
use std::time::Instant;

#[derive(Default)]
struct Object {
    is_room: bool,
    place: Option<u32>,
    exit: Option<Passage>,
    key: Option<Key>,
}

#[derive(Default)]
struct World {
    objects: Vec<Object>,
    leaving: Vec<Vec<u32>>,
}

fn number(text: &str) -> u32 {
    text.trim_start_matches('#').parse().expect("a number")
}

impl Map for World {
    fn size(&self) -> usize {
        self.objects.len()
    }

    fn leaving(&self, room: u32) -> &[u32] {
        &self.leaving[room as usize]
    }

    fn passage(&self, exit: u32) -> Passage {
        self.objects[exit as usize].exit.expect("an exit")
    }
}

impl World {
    fn add(&mut self, object: Object) -> u32 {
        if let Some((source, _, _)) = object.exit {
            self.leaving[source as usize].push(self.objects.len() as u32);
        }
        self.objects.push(object);
        self.leaving.push(Vec::new());
        self.objects.len() as u32 - 1
    }

    fn exit(&mut self, from: u32, to: u32) {
        self.add(Object { exit: Some((from, to, 1)), ..Object::default() });
    }

    fn change(&mut self, line: &str) {
        let words: Vec<&str> = line.splitn(6, ' ').collect();
        let actor = number(words[3]);
        match words[2] {
            "dig" => {
                let here = self.objects[actor as usize].place.expect("a place");
                let to = if words[4] == "old" {
                    number(line.split(' ').nth(5).expect("a room"))
                } else {
                    self.add(Object { is_room: true, ..Object::default() })
                };
                if line.contains("\" out \"") || (words[4] == "old" && line.contains(" out \"")) {
                    self.exit(here, to);
                }
                if line.contains("\" back \"") {
                    self.exit(to, here);
                }
            }
            "make" => {
                self.add(Object { place: Some(actor), ..Object::default() });
            }
            "walk" => {
                let exit = self.objects[number(words[4]) as usize].exit.expect("an exit");
                self.objects[actor as usize].place = Some(exit.1);
            }
            "cost" => {
                let exit = &mut self.objects[number(words[4]) as usize].exit;
                exit.as_mut().expect("an exit").2 = words[5].parse().expect("a cost");
            }
            "lock" => {
                self.objects[number(words[4]) as usize].key = Some(Key::read(words[5]).expect("a key"));
            }
            other => panic!("no {other} in these worlds"),
        }
    }

    fn carried(&self, player: u32) -> HashSet<u32> {
        let mut held = HashSet::from([player]);
        let mut left = vec![player];
        while let Some(at) = left.pop() {
            for (i, object) in self.objects.iter().enumerate() {
                if object.place == Some(at) && held.insert(i as u32) {
                    left.push(i as u32);
                }
            }
        }
        held
    }

    fn opens(&self, held: &HashSet<u32>, object: u32) -> bool {
        let key = &self.objects[object as usize].key;
        key.as_ref().is_none_or(|key| key.is_true(&|object, _| held.contains(&(object as u32))))
    }

    fn route(&self, player: u32, target: u32) -> String {
        let held = self.carried(player);
        let open = (0..self.objects.len()).map(|n| self.opens(&held, n as u32)).collect();
        Roads { map: self, open }.route(self.objects[player as usize].place.expect("a place"), target)
    }
}

fn main() {
    let words: Vec<String> = std::env::args().collect();
    let history = std::fs::read_to_string(&words[1]).expect("a history");
    let script = std::fs::read_to_string(&words[2]).expect("a script");
    let mut world = World::default();
    world.add(Object { is_room: true, ..Object::default() });
    world.add(Object { place: Some(0), ..Object::default() });
    for line in history.lines().skip(1).filter(|line| !line.starts_with("end ")) {
        world.change(line);
    }
    assert!(world.objects[0].is_room);
    let targets: Vec<u32> = script.lines().filter_map(|line| line.strip_prefix("route to ")).map(number).collect();
    let begun = Instant::now();
    let answers: Vec<String> = targets.iter().map(|target| world.route(1, *target)).collect();
    let seconds = begun.elapsed().as_secs_f64();
    for answer in &answers {
        println!("{answer}");
    }
    eprintln!("{seconds:.4} seconds for {} routes", answers.len());
}
