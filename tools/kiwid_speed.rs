//! How fast a server that `./kiwid` runs answers: how many lines a second, half of them gets and
//! half puts, over a map of 10,000 keys.
//!
//! It puts all keys first. Then it asks one line at a time over one connection, each once the reply
//! to the last one is there; lines by hundreds over one connection, and over four beside each
//! other. Each reply is read and its form checked. Of its seven connections up to four are open at
//! a time, so the server needs four seats, each for seven connections. LINES is how many lines a
//! connection sends by hundreds, a million at most; one at a time it sends a tenth of them.
//!
//!     rustc -O --edition 2021 -o /tmp/kiwid_speed tools/kiwid_speed.rs
//!     ./kiwid 4000 4 1000 &
//!     /tmp/kiwid_speed 4000 200000
//!
//! One file, which stands on Rust's standard library alone; no gate runs it. It ends with 1 where a
//! connection breaks, or where a reply is none of its line.

use std::io::{self, BufRead, BufReader, Write};
use std::net::{Shutdown, TcpStream};
use std::process::ExitCode;
use std::time::Instant;
use std::{env, thread};

/// How many keys the map has.
const KEYS: u32 = 10_000;

/// How many lines are sent at once, where they are sent by hundreds.
const MANY: usize = 100;

/// How many connections ask beside each other.
const BESIDE: usize = 4;

/// Numbers that look drawn, the same at each run (xorshift).
struct Draw(u64);

impl Draw {
    fn next(&mut self) -> u64 {
        self.0 ^= self.0 << 13;
        self.0 ^= self.0 >> 7;
        self.0 ^= self.0 << 17;
        self.0
    }
}

/// A line that was sent.
#[derive(Clone, Copy)]
enum Asked {
    Get,
    Put,
}

impl Asked {
    /// Whether the reply is one of such a line: all keys have values.
    fn may_be_answered(self, reply: &str) -> bool {
        match self {
            Asked::Get => !reply.is_empty() && reply.bytes().all(|byte| byte.is_ascii_digit()),
            Asked::Put => reply == "ok",
        }
    }
}

/// One connection, and the lines that are sent over it.
struct Client {
    replies: BufReader<TcpStream>,
    draw: Draw,
    text: Vec<u8>,
    asked: Vec<Asked>,
    reply: String,
}

impl Client {
    fn connect(port: u16, seed: u64) -> io::Result<Client> {
        let stream = TcpStream::connect(("127.0.0.1", port))?;
        stream.set_nodelay(true)?;
        Ok(Client {
            replies: BufReader::new(stream),
            draw: Draw(seed),
            text: Vec::new(),
            asked: Vec::new(),
            reply: String::new(),
        })
    }

    /// A get or a put of a key, each as often as the other.
    fn line(&mut self) {
        let drawn = self.draw.next();
        let key = (drawn >> 32) as u32 % KEYS;
        if drawn & 1 == 0 {
            self.text
                .extend_from_slice(format!("get {key}\n").as_bytes());
            self.asked.push(Asked::Get);
        } else {
            self.put(key, drawn >> 33);
        }
    }

    fn put(&mut self, key: u32, value: u64) {
        self.text
            .extend_from_slice(format!("put {key} {value}\n").as_bytes());
        self.asked.push(Asked::Put);
    }

    /// Sends the lines that were made, and reads a reply to each.
    fn exchange(&mut self) -> io::Result<()> {
        self.replies.get_mut().write_all(&self.text)?;
        for asked in self.asked.drain(..) {
            self.reply.clear();
            self.replies.read_line(&mut self.reply)?;
            let is_whole = self.reply.ends_with('\n');
            if !is_whole || !asked.may_be_answered(self.reply.trim_end_matches('\n')) {
                return Err(io::Error::other(format!(
                    "no reply of such a line: {:?}",
                    self.reply
                )));
            }
        }
        self.text.clear();
        Ok(())
    }

    /// Asks so many lines, of which so many are sent at once.
    fn ask(&mut self, lines: usize, at_once: usize) -> io::Result<()> {
        let mut left = lines;
        while left > 0 {
            let some = left.min(at_once);
            for _ in 0..some {
                self.line();
            }
            self.exchange()?;
            left -= some;
        }
        Ok(())
    }

    /// Puts each key once.
    fn fill(&mut self) -> io::Result<()> {
        for key in 0..KEYS {
            self.put(key, u64::from(key));
            if self.asked.len() == MANY {
                self.exchange()?;
            }
        }
        self.exchange()
    }

    /// Waits until the server has ended the connection as well, so that its seat is free.
    fn close(mut self) -> io::Result<()> {
        self.replies.get_mut().shutdown(Shutdown::Write)?;
        self.reply.clear();
        match self.replies.read_line(&mut self.reply)? {
            0 => Ok(()),
            _ => Err(io::Error::other("a reply that nobody asked for")),
        }
    }
}

/// Asks so many lines by each of some connections, and prints how many were answered in a second.
fn measure(what: &str, port: u16, clients: usize, lines: usize, at_once: usize) -> io::Result<()> {
    let mut connected = Vec::new();
    for number in 0..clients {
        connected.push(Client::connect(
            port,
            0x9E37_79B9_7F4A_7C15 + number as u64,
        )?);
    }
    let begun = Instant::now();
    let running: Vec<_> = connected
        .into_iter()
        .map(|mut client| {
            thread::spawn(move || {
                client.ask(lines, at_once)?;
                Ok(client)
            })
        })
        .collect();
    let ended: Vec<io::Result<Client>> = running
        .into_iter()
        .map(|one| one.join().expect("no thread panics"))
        .collect();
    let seconds = begun.elapsed().as_secs_f64();
    for client in ended {
        client?.close()?;
    }
    let all = (lines * clients) as f64;
    println!(
        "{what}: {:.0} lines a second, {:.2} microseconds a line",
        all / seconds,
        1e6 * seconds / all
    );
    Ok(())
}

fn run(port: u16, lines: usize) -> io::Result<()> {
    let mut first = Client::connect(port, 1)?;
    first.fill()?;
    first.close()?;
    measure("one connection, one line at a time", port, 1, lines / 10, 1)?;
    measure("one connection, by hundreds", port, 1, lines, MANY)?;
    measure("four connections, by hundreds", port, BESIDE, lines, MANY)
}

fn main() -> ExitCode {
    let words: Vec<String> = env::args().skip(1).collect();
    let (port, lines) = match words.as_slice() {
        [port, lines] => (port.parse().ok(), lines.parse().ok()),
        _ => (None, None),
    };
    let (Some(port), Some(lines)) = (port, lines) else {
        eprintln!("usage: kiwid_speed PORT LINES");
        return ExitCode::from(2);
    };
    match run(port, lines) {
        Ok(()) => ExitCode::SUCCESS,
        Err(error) => {
            eprintln!("kiwid_speed: {error}");
            ExitCode::from(1)
        }
    }
}
