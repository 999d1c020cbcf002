//! load PORT CLIENTS LINES seamountcup|web|mux: runs this many clients in a closed loop. Each sends its next line after
//! the last answer, LINES in all. `web` is seamountcup by its web listener. Two threads serve the clients by `poll`:
//! they use little of the measured machine, and one of them would bound the rate. It prints three lines. The first has
//! the number of answers, the seconds, the lines read, and the notices of talk among them. The second has the 50th and
//! 99th percentile of the replies in milliseconds, and the third those of the notices, from the time when the line was
//! sent.

use std::io::{self, BufRead, Read, Write};
use std::net::TcpStream;
use std::os::fd::AsRawFd;
use std::sync::atomic::{AtomicU64, AtomicUsize, Ordering};
use std::time::{Duration, Instant};

#[repr(C)]
struct PollFd {
    file: i32,
    events: i16,
    found: i16,
}

extern "C" {
    fn poll(files: *mut PollFd, count: u64, milliseconds: i32) -> i32;
    fn setsockopt(file: i32, level: i32, name: i32, value: *const i32, length: u32) -> i32;
}

const IPPROTO_TCP: i32 = 6;
const TCP_QUICKACK: i32 = 12;

const READABLE: i16 = 1;
const PATIENCE: i32 = 20_000;
const MOST_THREADS: usize = 2;
/// The room for bytes at once; more if it is used up.
const ROOM: usize = 65_536;
/// The lines that a client sends over and over; `say` gets a text of its own each time.
const ROUND: [&str; 8] = ["look", "say", "north", "inventory", "@version", "say", "south", "look"];
const SAID: &str = "number ";
/// A key of a web socket, and one with which frames are masked.
const KEY: &str = "dGhlIHNhbXBsZSBub25jZQ==";
const MASK: [u8; 4] = [0x37, 0xfa, 0x21, 0x3d];

/// The kind of server, and how clients talk to it.
#[derive(Clone, Copy, PartialEq)]
enum Dialect {
    Seamountcup,
    Web,
    Mux,
}

impl Dialect {
    /// The text that connects a client's player.
    fn arrival(self, at: usize) -> String {
        match self {
            Dialect::Seamountcup | Dialect::Web => format!("connect Load{at}"),
            Dialect::Mux => format!("OUTPUTSUFFIX [end]\r\ncreate Load{at} secret{at}"),
        }
    }

    /// Returns whether a line is the end of the answer to a sent line.
    fn is_answer(self, line: &[u8]) -> bool {
        match self {
            Dialect::Seamountcup | Dialect::Web => line.starts_with(b"[") || line == b"(history full)",
            Dialect::Mux => line == b"[end]",
        }
    }

    /// Returns whether the server sends no more before its last text is acknowledged: it leaves Nagle's algorithm on.
    fn waits_for_acknowledgements(self) -> bool {
        self == Dialect::Mux
    }

    /// Returns a line of the round that says nothing.
    fn spelled(self, line: &str) -> &str {
        match (line, self) {
            ("@version", Dialect::Mux) => "version",
            _ => line,
        }
    }

    /// Returns the bytes that type a line.
    fn typed(self, line: &str) -> Vec<u8> {
        match self {
            Dialect::Web => framed(line.as_bytes()),
            _ => format!("{line}\r\n").into_bytes(),
        }
    }
}

/// Returns a text as one frame of a web socket, with a mask (RFC 6455, section 5.2). It has fewer than 126 bytes.
fn framed(text: &[u8]) -> Vec<u8> {
    let mut frame = vec![0x81, 0x80 | text.len() as u8];
    frame.extend(MASK);
    frame.extend(text.iter().enumerate().map(|(at, byte)| byte ^ MASK[at % 4]));
    frame
}

/// Returns where the payload of the first frame of a server begins and ends, if it is whole.
fn payload(frames: &[u8]) -> Option<(usize, usize)> {
    let number = |bytes: &[u8]| bytes.iter().fold(0, |number, byte| number << 8 | *byte as usize);
    let (from, length) = match *frames.get(1)? {
        126 => (4, number(frames.get(2..4)?)),
        127 => (10, number(frames.get(2..10)?)),
        length => (2, length as usize),
    };
    (from + length <= frames.len()).then_some((from, from + length))
}

/// Unprocessed input: a text of some length, and behind it, on the web, a prefix of a frame. It keeps its memory, and
/// clears and copies no byte without need, because the clients should use little time.
struct Inbox {
    room: Vec<u8>,
    text: usize,
    filled: usize,
}

impl Inbox {
    fn new() -> Inbox {
        Inbox { room: vec![0; ROOM], text: 0, filled: 0 }
    }

    /// Reads more; waits for some bytes.
    fn read(&mut self, stream: &mut TcpStream, dialect: Dialect) -> io::Result<()> {
        if self.filled == self.room.len() {
            self.room.resize(self.filled + ROOM, 0);
        }
        let count = stream.read(&mut self.room[self.filled..])?;
        if count == 0 {
            return Err(io::ErrorKind::UnexpectedEof.into());
        }
        self.filled += count;
        match dialect {
            Dialect::Web => self.unwrap_frames(),
            _ => self.text = self.filled,
        }
        Ok(())
    }

    /// Makes the payload of each whole frame text.
    fn unwrap_frames(&mut self) {
        let mut at = self.text;
        while let Some((from, to)) = payload(&self.room[at..self.filled]) {
            self.room.copy_within(at + from..at + to, self.text);
            self.text += to - from;
            at += to;
        }
        self.room.copy_within(at..self.filled, self.text);
        self.filled -= at - self.text;
    }

    /// Passes each complete line of the text to `look`, in place, and removes them.
    fn take_lines(&mut self, look: impl FnMut(&[u8])) {
        let mut lines = Lines { rest: &self.room[..self.text] };
        lines.by_ref().for_each(look);
        let taken = self.text - lines.rest.len();
        self.room.copy_within(taken..self.filled, 0);
        self.text -= taken;
        self.filled -= taken;
    }
}

/// The lines of a text without their ends. An incomplete line is left over.
struct Lines<'a> {
    rest: &'a [u8],
}

impl<'a> Iterator for Lines<'a> {
    type Item = &'a [u8];

    fn next(&mut self) -> Option<&'a [u8]> {
        let mut behind = self.rest;
        let length = behind.skip_until(b'\n').ok()?;
        let line = self.rest[..length].strip_suffix(b"\n")?;
        self.rest = behind;
        Some(line.strip_suffix(b"\r").unwrap_or(line))
    }
}

/// When each spoken text was sent, by its number, for all threads.
struct Spoken {
    start: Instant,
    /// The nanoseconds after the start; 0 until it is sent.
    sent_at: Vec<AtomicU64>,
    count: AtomicUsize,
}

impl Spoken {
    /// Room for this many texts.
    fn new(most: usize) -> Spoken {
        let sent_at = (0..most).map(|_| AtomicU64::new(0)).collect();
        Spoken { start: Instant::now(), sent_at, count: AtomicUsize::new(0) }
    }

    /// Returns the number of the next text.
    fn number(&self) -> usize {
        self.count.fetch_add(1, Ordering::Relaxed)
    }

    /// Keeps when a text is sent, which begins now.
    fn is_sent(&self, number: usize, sent_at: Instant) {
        self.sent_at[number].store((sent_at - self.start).as_nanos() as u64, Ordering::Relaxed);
    }

    /// Returns how long ago a text was sent, if it was.
    fn since(&self, number: usize, now: Instant) -> Option<Duration> {
        let nanoseconds = self.sent_at.get(number)?.load(Ordering::Relaxed);
        (nanoseconds != 0).then(|| now - self.start - Duration::from_nanos(nanoseconds))
    }
}

/// The measurements of a thread.
struct Times<'a> {
    replies: Vec<Duration>,
    notices: Vec<Duration>,
    lines_read: usize,
    spoken: &'a Spoken,
}

impl<'a> Times<'a> {
    fn new(spoken: &'a Spoken) -> Times<'a> {
        Times { replies: Vec::new(), notices: Vec::new(), lines_read: 0, spoken }
    }

    /// Adds those of another thread.
    fn add(&mut self, other: Times) {
        self.replies.extend(other.replies);
        self.notices.extend(other.notices);
        self.lines_read += other.lines_read;
    }
}

struct Client {
    stream: TcpStream,
    dialect: Dialect,
    inbox: Inbox,
    sent_at: Instant,
    is_waiting: bool,
    left: usize,
    at: usize,
}

impl Client {
    fn connect(port: u16, lines: usize, at: usize, dialect: Dialect) -> io::Result<Client> {
        let stream = TcpStream::connect(("127.0.0.1", port))?;
        stream.set_nodelay(true)?;
        stream.set_read_timeout(Some(Duration::from_secs(20)))?;
        let (inbox, sent_at) = (Inbox::new(), Instant::now());
        let mut client = Client { stream, dialect, inbox, sent_at, is_waiting: false, left: lines, at };
        if dialect == Dialect::Web {
            client.upgrade(port)?;
        }
        Ok(client)
    }

    /// Asks to play on the web, and reads the answer's head.
    fn upgrade(&mut self, port: u16) -> io::Result<()> {
        let origin = format!("http://127.0.0.1:{port}");
        let upgrade = "Upgrade: websocket\r\nConnection: Upgrade\r\nSec-WebSocket-Version: 13";
        let own = format!("Host: 127.0.0.1:{port}\r\nOrigin: {origin}\r\nSec-WebSocket-Key: {KEY}");
        let head = format!("GET /play HTTP/1.1\r\n{upgrade}\r\n{own}\r\n\r\n");
        self.stream.write_all(head.as_bytes())?;
        let (mut answer, mut byte) = (Vec::new(), [0]);
        while !answer.ends_with(b"\r\n\r\n") {
            self.stream.read_exact(&mut byte)?;
            answer.extend(byte);
        }
        if answer.starts_with(b"HTTP/1.1 101 ") { Ok(()) } else { Err(io::ErrorKind::ConnectionRefused.into()) }
    }

    fn send(&mut self, line: &str) -> io::Result<()> {
        self.sent_at = Instant::now();
        self.is_waiting = true;
        self.stream.write_all(&self.dialect.typed(line))
    }

    /// Says a text with a number of its own.
    fn say(&mut self, spoken: &Spoken) -> io::Result<()> {
        let number = spoken.number();
        spoken.is_sent(number, Instant::now());
        self.send(&format!("say {SAID}{number}"))
    }

    /// Acknowledges input at once.
    fn hurry(&self) {
        // SAFETY: the value is read during the call, and has the given length.
        unsafe { setsockopt(self.stream.as_raw_fd(), IPPROTO_TCP, TCP_QUICKACK, &1, 4) };
    }

    /// Reads more; waits for some bytes.
    fn read(&mut self) -> io::Result<()> {
        self.inbox.read(&mut self.stream, self.dialect)?;
        if self.dialect.waits_for_acknowledgements() {
            self.hurry();
        }
        Ok(())
    }

    /// Reads until such a line comes, before anything is measured.
    fn read_until(&mut self, is_last: impl Fn(&[u8]) -> bool) -> io::Result<()> {
        let mut has_come = false;
        while !has_come {
            self.read()?;
            self.inbox.take_lines(|line| has_come |= is_last(line));
        }
        Ok(())
    }

    /// Reads input that answers nothing.
    fn drain(&mut self) -> io::Result<()> {
        self.stream.set_nonblocking(true)?;
        while self.read().is_ok() {
            self.inbox.take_lines(|_| ());
        }
        self.stream.set_nonblocking(false)
    }

    /// Sends a line and waits for its answer, before anything is measured.
    fn ask(&mut self, line: &str) -> io::Result<()> {
        let dialect = self.dialect;
        self.send(line)?;
        self.read_until(|line| dialect.is_answer(line))?;
        self.is_waiting = false;
        Ok(())
    }

    /// Sends the next line of the round, if one is left.
    fn go_on(&mut self, times: &mut Times) -> io::Result<()> {
        if self.left == 0 {
            return Ok(());
        }
        self.left -= 1;
        let line = ROUND[self.at % ROUND.len()];
        self.at += 1;
        match line {
            "say" => self.say(times.spoken),
            line => self.send(self.dialect.spelled(line)),
        }
    }

    /// Processes input.
    fn take(&mut self, times: &mut Times) -> io::Result<()> {
        self.read()?;
        let (now, dialect) = (Instant::now(), self.dialect);
        let mut is_answered = false;
        self.inbox.take_lines(|line| {
            times.lines_read += 1;
            times.notices.extend(told(line).and_then(|number| times.spoken.since(number, now)));
            is_answered |= dialect.is_answer(line);
        });
        if self.is_waiting && is_answered {
            times.replies.push(now - self.sent_at);
            self.is_waiting = false;
            self.go_on(times)?;
        }
        Ok(())
    }
}

/// Returns the number of the spoken text in a notice: it is behind `SAID`, at the line's end except for a quote.
fn told(line: &[u8]) -> Option<usize> {
    let line = line.strip_suffix(b"\"").unwrap_or(line);
    let digits = line.iter().rev().take_while(|byte| byte.is_ascii_digit()).count();
    let (before, number) = line.split_at(line.len() - digits);
    if !before.ends_with(SAID.as_bytes()) || line.starts_with(b"You ") {
        return None;
    }
    std::str::from_utf8(number).ok()?.parse().ok()
}

/// Returns the time below which this many of a thousand stay, in milliseconds.
fn within(times: &mut [Duration], thousandths: usize) -> f64 {
    times.sort();
    times.get(times.len() * thousandths / 1000).map_or(0.0, |it| it.as_secs_f64() * 1e3)
}

/// Plays with these clients, in one thread.
fn work<'a>(clients: &mut [Client], spoken: &'a Spoken) -> io::Result<Times<'a>> {
    let mut times = Times::new(spoken);
    for client in clients.iter_mut() {
        client.go_on(&mut times)?;
    }
    let mut files: Vec<PollFd> = clients
        .iter()
        .map(|it| PollFd { file: it.stream.as_raw_fd(), events: READABLE, found: 0 })
        .collect();
    while clients.iter().any(|it| it.is_waiting) {
        // SAFETY: `files` is a list of that many entries, in the layout of C.
        if unsafe { poll(files.as_mut_ptr(), files.len() as u64, PATIENCE) } <= 0 {
            return Err(io::ErrorKind::TimedOut.into());
        }
        for (file, client) in files.iter().zip(clients.iter_mut()) {
            if file.found != 0 {
                client.take(&mut times)?;
            }
        }
    }
    Ok(times)
}

/// Plays with these clients, in up to `MOST_THREADS` threads.
fn work_all<'a>(clients: &mut [Client], spoken: &'a Spoken) -> io::Result<Times<'a>> {
    let share = clients.len().div_ceil(MOST_THREADS);
    let mut all = Times::new(spoken);
    std::thread::scope(|scope| {
        let threads: Vec<_> = clients.chunks_mut(share).map(|some| scope.spawn(move || work(some, spoken))).collect();
        for thread in threads {
            all.add(thread.join().map_err(|_| io::ErrorKind::Other)??);
        }
        Ok(all)
    })
}

fn run(port: u16, count: usize, lines: usize, dialect: Dialect) -> io::Result<()> {
    let mut clients = Vec::new();
    for at in 0..count {
        let mut client = Client::connect(port, lines, at, dialect)?;
        client.read_until(|_| true)?;
        client.send(&dialect.arrival(at))?;
        client.ask("look")?;
        clients.push(client);
    }
    std::thread::sleep(Duration::from_millis(200));
    for client in &mut clients {
        client.drain()?;
    }
    let spoken = Spoken::new(count * lines);
    let mut times = work_all(&mut clients, &spoken)?;
    let took = spoken.start.elapsed().as_secs_f64();
    let answered = times.replies.len();
    println!("{answered} {took:.3} {} {}", times.lines_read, times.notices.len());
    for found in [&mut times.replies, &mut times.notices] {
        println!("{:.3} {:.3}", within(found, 500), within(found, 990));
    }
    Ok(())
}

fn main() {
    let words: Vec<String> = std::env::args().collect();
    let number = |at: usize| words.get(at).and_then(|it| it.parse().ok());
    let dialect = match words.get(4).map(String::as_str) {
        Some("seamountcup") => Some(Dialect::Seamountcup),
        Some("web") => Some(Dialect::Web),
        Some("mux") => Some(Dialect::Mux),
        _ => None,
    };
    let (Some(port), Some(count), Some(lines), Some(dialect)) = (number(1), number(2), number(3), dialect) else {
        eprintln!("load PORT CLIENTS LINES seamountcup|web|mux");
        std::process::exit(2);
    };
    if let Err(error) = run(port as u16, count, lines, dialect) {
        eprintln!("load: {error}");
        std::process::exit(1);
    }
}
