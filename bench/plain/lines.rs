//! The plain program's answers to lines of the Wizard, as docs/COMMANDS.md says.

use crate::history::{Deed, Names, Target};
use crate::keys::Key;
use crate::roads::{Map, Roads};
use crate::words::{Line, Parts};
use crate::world::{Kind, WIZARD, World, names_of};
use std::io::Write;

/// The reason why a line is refused.
#[derive(Clone, Copy, PartialEq)]
pub enum Refusal {
    NotUnderstood,
    NoSuch,
    Ambiguous,
    WrongKind,
    NotHere,
    Denied,
    BadName,
    BadKey,
    BadCost,
    LockedExit,
    LockedRoom,
    LockedThing,
    WorldFull,
}

use Refusal::*;

/// A pushed text, or a refusal and nothing pushed.
type Answer = Result<(), Refusal>;

/// The verbs of docs/COMMANDS.md that this program doesn't know.
const OTHERS: &str = "connect inventory inv i take get put give @unlock @key @rename @recycle meet proof quit";

fn text_of(refusal: Refusal) -> &'static str {
    match refusal {
        NotUnderstood => "I couldn't understand that.",
        NoSuch => "There is no such thing.",
        Ambiguous => "Which one do you mean?",
        WrongKind => "That is the wrong kind of thing.",
        NotHere => "That is not here.",
        Denied => "That is not yours.",
        BadName => "That text is not allowed.",
        BadKey => "That key is not understood.",
        BadCost => "That cost is not allowed.",
        LockedExit => "That exit is locked.",
        LockedRoom => "That place is locked.",
        LockedThing => "That thing is locked.",
        WorldFull => "The world is full.",
    }
}

fn need(holds: bool, refusal: Refusal) -> Result<(), Refusal> {
    if holds { Ok(()) } else { Err(refusal) }
}

/// Pushes the answer to a line. It makes a change, and stores it in the history.
pub fn answer(world: &mut World, line: &Line, text: &mut Vec<u8>) {
    let told = match &*line.verb {
        "say" | "emote" => talk(world, line, text),
        "look" | "l" => look(world, line, text),
        "go" => meant(world, &line.all()).and_then(|exit| walk(world, exit, text)),
        "drop" => meant(world, &line.all()).and_then(|thing| drop_thing(world, thing, text)),
        "@create" => create(world, line, text),
        "@dig" => dig(world, line, text),
        "@cost" => cost(world, line, text),
        "@lock" => lock(world, line, text),
        "route" => route(world, line, text),
        "@version" => need(line.words().is_empty(), NotUnderstood).map(|()| push(text, "version")),
        "@history" => need(line.words().is_empty(), NotUnderstood).map(|()| push_history(world, text)),
        verb if OTHERS.split(' ').any(|it| it == verb) => panic!("no {verb} here"),
        _ => exit_named(world, line).and_then(|exit| walk(world, exit, text)),
    };
    if let Err(refusal) = told {
        push(text, text_of(refusal));
    }
}

fn push(text: &mut Vec<u8>, more: &str) {
    text.extend_from_slice(more.as_bytes());
}

/// Pushes `#` and a number.
fn push_object(text: &mut Vec<u8>, number: u32) {
    text.push(b'#');
    push_number(text, number);
}

/// Pushes a number.
pub fn push_number(text: &mut Vec<u8>, number: u32) {
    if number >= 10 {
        push_number(text, number / 10);
    }
    text.push(b'0' + (number % 10) as u8);
}

fn here(world: &World) -> u32 {
    world.place(WIZARD).expect("a place")
}

// ---- which object a text means

fn meant(world: &World, text: &str) -> Result<u32, Refusal> {
    need(!text.is_empty(), NotUnderstood)?;
    if let Some(number) = number_of(text) {
        return need(world.has(number), NoSuch).map(|()| number);
    }
    let room = here(world);
    if text.eq_ignore_ascii_case("me") || text.eq_ignore_ascii_case("here") {
        return Ok(if text.eq_ignore_ascii_case("me") { WIZARD } else { room });
    }
    let lists = [&world.of(WIZARD).contents, &world.of(room).contents, &world.of(room).leaving];
    only(world, text, || lists.into_iter().flatten().copied())
}

/// Returns the number of `#` and 1 to 9 digits.
fn number_of(text: &str) -> Option<u32> {
    let digits = text.strip_prefix('#')?;
    let is_number = (1..=9).contains(&digits.len()) && digits.bytes().all(|it| it.is_ascii_digit());
    if is_number { digits.parse().ok() } else { None }
}

/// Returns the one candidate with the name, or else the one with a name that begins so.
fn only<I: Iterator<Item = u32>>(world: &World, text: &str, candidates: impl Fn() -> I) -> Result<u32, Refusal> {
    let has = |it: &u32| world.of(*it).names.iter().any(|name| name.eq_ignore_ascii_case(text));
    let begins = |it: &u32| world.of(*it).names.iter().any(|name| begins_so(name, text));
    match one(candidates().filter(has)) {
        Err(NoSuch) => one(candidates().filter(begins)),
        found => found,
    }
}

fn begins_so(name: &str, text: &str) -> bool {
    name.get(..text.len()).is_some_and(|front| front.eq_ignore_ascii_case(text))
}

fn one(mut found: impl Iterator<Item = u32>) -> Result<u32, Refusal> {
    let first = found.next().ok_or(NoSuch)?;
    if found.next().is_some() { Err(Ambiguous) } else { Ok(first) }
}

/// Returns the room that a text means, anywhere in the world.
fn room_meant(world: &World, text: &str) -> Result<u32, Refusal> {
    let is_other = number_of(text).is_some() || ["me", "here"].iter().any(|it| text.eq_ignore_ascii_case(it));
    let is_room = |it: &u32| matches!(world.of(*it).kind, Kind::Room);
    let found = if is_other { meant(world, text) } else { only(world, text, || (0..world.next()).filter(is_room)) }?;
    need(is_room(&found), WrongKind).map(|()| found)
}

/// Returns the exit of the player's room that has the whole line as a name.
fn exit_named(world: &World, line: &Line) -> Result<u32, Refusal> {
    let whole = line.whole();
    let has = |it: &u32| world.of(*it).names.iter().any(|name| name.eq_ignore_ascii_case(&whole));
    let found = one(world.leaving(here(world)).iter().copied().filter(has));
    found.map_err(|refusal| if refusal == NoSuch { NotUnderstood } else { refusal })
}

// ---- questions

fn look(world: &World, line: &Line, text: &mut Vec<u8>) -> Answer {
    let number = if line.words().is_empty() { here(world) } else { meant(world, &looked_at(line))? };
    let object = world.of(number);
    push_shown(world, text, number);
    push_list(world, text, "\r\n  contents ", &object.contents);
    if matches!(object.kind, Kind::Room) {
        push_list(world, text, "\r\n  exits ", &object.leaving);
    }
    if let Kind::Exit((source, to, cost)) = object.kind {
        write!(text, "\r\n  from #{source} to #{to} cost {cost}").expect("memory");
    }
    Ok(())
}

/// Returns the text of what is looked at: all words, but no `at` before another one.
fn looked_at(line: &Line) -> String {
    let words = line.words();
    let is_at = words.len() > 1 && words[0].eq_ignore_ascii_case("at");
    words[usize::from(is_at)..].join(" ")
}

fn push_shown(world: &World, text: &mut Vec<u8>, number: u32) {
    push(text, &world.of(number).names[0]);
    push(text, " #");
    push_number(text, number);
}

fn push_list(world: &World, text: &mut Vec<u8>, title: &str, numbers: &[u32]) {
    let mut before = title;
    for number in numbers.iter().filter(|it| **it != WIZARD) {
        push(text, before);
        push_shown(world, text, *number);
        before = ", ";
    }
}

fn push_history(world: &World, text: &mut Vec<u8>) {
    push(text, "history\r\nmud history 2\r\n");
    for (change, version) in world.history.iter().zip(1..) {
        write!(text, "{version} 1 {change}\r\n").expect("memory");
    }
    write!(text, "end {}", world.history.len()).expect("memory");
}

fn route(world: &World, line: &Line, text: &mut Vec<u8>) -> Answer {
    let parts = line.parts().filter(|it| it.preposition == "at" && it.direct.is_empty() && !it.indirect.is_empty());
    let target = room_meant(world, &parts.ok_or(NotUnderstood)?.indirect)?;
    push(text, &Roads { map: world, open: world.all_open(WIZARD) }.route(here(world), target));
    Ok(())
}

// ---- changes

fn talk(world: &mut World, line: &Line, text: &mut Vec<u8>) -> Answer {
    let said = line.rest();
    need((1..=900).contains(&said.len()), BadName)?;
    let (is_said, said) = (line.verb == "say", said.to_owned());
    world.record(WIZARD, if is_said { Deed::Say(said) } else { Deed::Emote(said) });
    push(text, if is_said { "said" } else { "done" });
    Ok(())
}

fn walk(world: &mut World, exit: u32, text: &mut Vec<u8>) -> Answer {
    let Kind::Exit((source, to, _)) = world.of(exit).kind else { return Err(WrongKind) };
    need(source == here(world), NotHere)?;
    need(world.is_open(exit, WIZARD), LockedExit)?;
    need(world.is_open(to, WIZARD), LockedRoom)?;
    world.put(WIZARD, to);
    world.record(WIZARD, Deed::Walk(exit));
    push(text, "went by ");
    push_object(text, exit);
    push(text, " to ");
    push_object(text, to);
    Ok(())
}

fn drop_thing(world: &mut World, thing: u32, text: &mut Vec<u8>) -> Answer {
    need(matches!(world.of(thing).kind, Kind::Thing(_)), WrongKind)?;
    need(world.is_within(thing, WIZARD), NotHere)?;
    let room = here(world);
    need(world.is_open(room, thing), LockedRoom)?;
    need(world.is_open(thing, room), LockedThing)?;
    world.put(thing, room);
    world.record(WIZARD, Deed::Move(thing, room));
    push(text, "dropped ");
    push_object(text, thing);
    Ok(())
}

fn create(world: &mut World, line: &Line, text: &mut Vec<u8>) -> Answer {
    let all = line.all();
    need(!all.is_empty(), NotUnderstood)?;
    let names = names_of(&all).ok_or(BadName)?;
    need(world.room_left() > 0, WorldFull)?;
    let number = world.add(names.clone(), WIZARD, Kind::Thing(WIZARD));
    world.record(WIZARD, Deed::Make(names));
    push(text, "made ");
    push_object(text, number);
    Ok(())
}

/// Returns the names of an exit, and of the one back if there is one.
fn doors_of(sides: &[&str]) -> Result<Vec<Names>, Refusal> {
    need(sides.len() <= 2, BadName)?;
    sides.iter().map(|side| names_of(side).ok_or(BadName)).collect()
}

fn dig(world: &mut World, line: &Line, text: &mut Vec<u8>) -> Answer {
    let Some(Parts { direct, preposition, indirect }) = line.parts() else {
        let all = line.all();
        need(!all.is_empty(), NotUnderstood)?;
        return dig_new(world, names_of(&all).ok_or(BadName)?, Vec::new(), text);
    };
    let sides: Vec<&str> = direct.split('|').collect();
    let is_whole = sides.iter().all(|side| !side.is_empty()) && !indirect.is_empty();
    need(preposition == "at" && is_whole, NotUnderstood)?;
    match number_of(&indirect) {
        Some(room) => dig_to(world, room, &sides, text),
        None => dig_new(world, names_of(&indirect).ok_or(BadName)?, doors_of(&sides)?, text),
    }
}

fn dig_new(world: &mut World, names: Names, doors: Vec<Names>, text: &mut Vec<u8>) -> Answer {
    need(doors.len() < world.room_left(), WorldFull)?;
    let room = world.add(names.clone(), WIZARD, Kind::Room);
    push(text, "dug room ");
    push_object(text, room);
    add_doors(world, room, &doors, ", ", text);
    world.record(WIZARD, Deed::Dig(Target::New(names), doors));
    Ok(())
}

fn dig_to(world: &mut World, room: u32, sides: &[&str], text: &mut Vec<u8>) -> Answer {
    need(world.has(room), NoSuch)?;
    need(matches!(world.of(room).kind, Kind::Room), WrongKind)?;
    let doors = doors_of(sides)?;
    need(doors.len() <= world.room_left(), WorldFull)?;
    push(text, "dug ");
    add_doors(world, room, &doors, "", text);
    world.record(WIZARD, Deed::Dig(Target::Old(room), doors));
    Ok(())
}

/// Makes the exits to a room and back, and says so.
fn add_doors(world: &mut World, room: u32, doors: &[Names], before: &str, text: &mut Vec<u8>) {
    let here = here(world);
    let ways = [(before, "exit ", here, room), (", ", "exit back ", room, here)];
    for (names, (before, title, from, to)) in doors.iter().zip(ways) {
        let exit = world.add(names.clone(), WIZARD, Kind::Exit((from, to, 1)));
        push(text, before);
        push(text, title);
        push_object(text, exit);
    }
}

fn cost(world: &mut World, line: &Line, text: &mut Vec<u8>) -> Answer {
    let parts = line.parts().filter(|it| it.preposition == "is" && !it.direct.is_empty() && !it.indirect.is_empty());
    let Parts { direct, indirect, .. } = parts.ok_or(NotUnderstood)?;
    let exit = meant(world, &direct)?;
    let Kind::Exit((source, to, _)) = world.of(exit).kind else { return Err(WrongKind) };
    need(world.owns(WIZARD, exit), Denied)?;
    let cost = number_of(&format!("#{indirect}")).filter(|cost| *cost <= 10_000).ok_or(BadCost)?;
    world.of_mut(exit).kind = Kind::Exit((source, to, cost));
    world.record(WIZARD, Deed::Cost(exit, cost));
    write!(text, "cost of #{exit} is {cost}").expect("memory");
    Ok(())
}

fn lock(world: &mut World, line: &Line, text: &mut Vec<u8>) -> Answer {
    let parts = line.parts().filter(|it| it.preposition == "with" && !it.direct.is_empty() && !it.indirect.is_empty());
    let Parts { direct, indirect, .. } = parts.ok_or(NotUnderstood)?;
    let object = meant(world, &direct)?;
    need(!matches!(world.of(object).kind, Kind::Player(_)), WrongKind)?;
    need(world.owns(WIZARD, object), Denied)?;
    let key = Key::read(&indirect).filter(|key| is_key(world, key)).ok_or(BadKey)?;
    let mut printed = String::new();
    key.write(&mut printed, false);
    write!(text, "locked #{object} with {printed}").expect("memory");
    world.of_mut(object).key = Some(key);
    world.record(WIZARD, Deed::Lock(object, printed));
    Ok(())
}

/// Returns whether a key has at most sixteen objects, all in the world.
fn is_key(world: &World, key: &Key) -> bool {
    let mut count = 0;
    key.all(&mut |object, is_asked| {
        assert!(!is_asked, "no key here asks");
        count += 1;
        count <= 16 && world.has(object as u32)
    })
}
