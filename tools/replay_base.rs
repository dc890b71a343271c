//! What `kiwi replay` is measured against: the same lines answered by one thread on the standard
//! library's ordered map.
//!
//! It prints the bytes that `kiwi replay` prints, ends with its statuses 0, 3, 4 and 5, and says
//! the same fault lines; it takes no options and refuses no call. It is written as one would write
//! such a program for speed: an item is answered as soon as its line is read, and all text is put
//! into one buffer. One file, which stands on Rust's standard library alone; no gate runs it.
//!
//!     rustc -O --edition 2021 -o /tmp/replay_base tools/replay_base.rs
//!     /tmp/replay_base < LINES

use std::collections::BTreeMap;
use std::io::{self, Read, Write};
use std::process::ExitCode;

/// The most bytes that an input may have.
const MOST_BYTES: usize = 16_777_216;
const MOST_KEY: u64 = u32::MAX as u64;
const MOST_VALUE: u64 = i64::MAX as u64;
/// The digits of the greatest number that is read.
const MOST_DIGITS: usize = 19;

type Pairs = BTreeMap<u32, u64>;

/// Why a run printed no answers, or not all.
enum Fault {
    BadLine(usize),
    TooLong,
    Read,
    Write,
}

impl Fault {
    fn status(&self) -> u8 {
        match self {
            Fault::BadLine(_) | Fault::TooLong => 3,
            Fault::Read => 4,
            Fault::Write => 5,
        }
    }

    fn text(&self) -> String {
        match self {
            Fault::BadLine(number) => format!("bad line {number}"),
            Fault::TooLong => "input too long".to_string(),
            Fault::Read => "read fault".to_string(),
            Fault::Write => "write fault".to_string(),
        }
    }
}

/// What is left of one line.
struct Words<'a>(&'a [u8]);

impl Words<'_> {
    fn skip(&mut self, text: &[u8]) -> Option<()> {
        self.0 = self.0.strip_prefix(text)?;
        Some(())
    }

    /// A number without a sign or a leading zero, `most` at most.
    fn number(&mut self, most: u64) -> Option<u64> {
        let digits = self.0.iter().take_while(|byte| byte.is_ascii_digit()).count();
        let (text, rest) = self.0.split_at(digits);
        if digits == 0 || digits > MOST_DIGITS || (digits > 1 && text[0] == b'0') {
            return None;
        }
        self.0 = rest;
        let number = text.iter().fold(0, |number, digit| number * 10 + u64::from(digit - b'0'));
        (number <= most).then_some(number)
    }

    fn key(&mut self) -> Option<u32> {
        self.number(MOST_KEY).map(|key| key as u32)
    }

    /// Two keys, the last words of a line, as the pairs from the one to the other.
    fn range<'a>(&mut self, pairs: &'a Pairs) -> Option<impl Iterator<Item = (u32, u64)> + Clone + 'a> {
        let from = self.key()?;
        self.skip(b" ")?;
        let to = self.key()?;
        let range = (from <= to).then(|| pairs.range(from..=to));
        Some(range.into_iter().flatten().map(|(&key, &value)| (key, value)))
    }
}

/// The text of the answers.
struct Answers(Vec<u8>);

impl Answers {
    fn text(&mut self, text: &[u8]) {
        self.0.extend_from_slice(text);
    }

    fn digits(&mut self, mut number: u128) {
        let mut text = [0; 39];
        let mut start = text.len();
        loop {
            start -= 1;
            // Most numbers have one word, of which division is much faster.
            let digit = match u64::try_from(number) {
                Ok(word) => {
                    number = u128::from(word / 10);
                    (word % 10) as u8
                }
                Err(_) => {
                    let digit = (number % 10) as u8;
                    number /= 10;
                    digit
                }
            };
            text[start] = b'0' + digit;
            if number == 0 {
                break;
            }
        }
        self.text(&text[start..]);
    }

    fn number(&mut self, number: Option<u128>) {
        match number {
            Some(number) => {
                self.digits(number);
                self.text(b"\n");
            }
            None => self.text(b"none\n"),
        }
    }

    fn list(&mut self, pairs: impl Iterator<Item = (u32, u64)>) {
        let start = self.0.len();
        for (key, value) in pairs {
            self.digits(u128::from(key));
            self.text(b"=");
            self.digits(u128::from(value));
            self.text(b" ");
        }
        if self.0.len() == start {
            self.text(b"empty ");
        }
        self.0.pop();
        self.text(b"\n");
    }
}

/// Answers one line; none where it is outside the grammar.
fn answer(line: &[u8], pairs: &mut Pairs, out: &mut Answers) -> Option<()> {
    let mut words = Words(line);
    let form = line.iter().position(|&byte| byte == b' ').map_or(line, |end| &line[..end]);
    words.skip(form)?;
    if form != b"wait" {
        words.skip(b" ")?;
    }
    match form {
        b"put" => {
            let key = words.key()?;
            words.skip(b" ")?;
            pairs.insert(key, words.number(MOST_VALUE)?);
            out.text(b"ok\n");
        }
        b"del" => {
            pairs.remove(&words.key()?);
            out.text(b"ok\n");
        }
        b"get" => out.number(pairs.get(&words.key()?).map(|&value| u128::from(value))),
        b"sum" => out.number(Some(words.range(pairs)?.map(|(_, value)| u128::from(value)).sum())),
        b"count" => out.number(Some(words.range(pairs)?.count() as u128)),
        b"least" => out.number(words.range(pairs)?.map(|(_, value)| u128::from(value)).min()),
        b"greatest" => out.number(words.range(pairs)?.map(|(_, value)| u128::from(value)).max()),
        b"list" => out.list(words.range(pairs)?),
        b"wait" => {}
        _ => return None,
    }
    // What stands behind the last word makes the line a bad one, whose answer is never printed.
    words.0.is_empty().then_some(())
}

fn answers(input: &[u8]) -> Result<Vec<u8>, Fault> {
    let (mut pairs, mut out) = (Pairs::new(), Answers(Vec::with_capacity(input.len())));
    let whole = input.strip_suffix(b"\n").unwrap_or(input);
    if input.is_empty() {
        return Ok(out.0);
    }
    for (number, line) in whole.split(|&byte| byte == b'\n').enumerate() {
        answer(line, &mut pairs, &mut out).ok_or(Fault::BadLine(number + 1))?;
    }
    Ok(out.0)
}

fn run() -> Result<(), Fault> {
    let mut input = Vec::with_capacity(MOST_BYTES + 1);
    io::stdin().lock().take(MOST_BYTES as u64 + 1).read_to_end(&mut input).map_err(|_| Fault::Read)?;
    if input.len() > MOST_BYTES {
        return Err(Fault::TooLong);
    }
    let out = answers(&input)?;
    let mut sink = io::stdout().lock();
    sink.write_all(&out).and_then(|()| sink.flush()).map_err(|_| Fault::Write)
}

fn main() -> ExitCode {
    match run() {
        Ok(()) => ExitCode::SUCCESS,
        Err(fault) => {
            eprintln!("{}", fault.text());
            ExitCode::from(fault.status())
        }
    }
}
