//! A plain reader of STOMP 1.2 frames, with nothing proved, to compare the speed of `stompd` with.
//!
//! It has the limits and checks of `stompd` (docs/PROTOCOL.md, "Frames"), owns what it reads, and is fed in pieces.
//!
//!     plain_reader script < SCRIPT        reads the frames that a script spells, connection by connection
//!     plain_reader raw SIZE < STREAM      reads the frames of a stream, in pieces of SIZE bytes
//!
//! Both print how many frames there were and how many bytes their headers and bodies have.

use std::env;
use std::fmt;
use std::hint::black_box;
use std::io::{self, BufRead, BufReader, Read};
use std::mem;
use std::process::ExitCode;

const MAX_HEAD: usize = 8_192;
const MAX_HEADERS: usize = 64;
const MAX_BODY: usize = 65_536;
const MAX_DIGITS: usize = 10;

const PIECE: usize = 65_536;
const LONGEST_LINE: usize = 1_048_576;
const CONNECTIONS: usize = 32;

#[derive(Clone, Copy, Debug, PartialEq, Eq)]
enum Verb {
    Connect,
    Stomp,
    Send,
    Subscribe,
    Unsubscribe,
    Ack,
    Nack,
    Begin,
    Commit,
    Abort,
    Disconnect,
    Connected,
    Message,
    Receipt,
    Error,
}

impl Verb {
    fn from_name(name: &str) -> Option<Verb> {
        Some(match name {
            "CONNECT" => Verb::Connect,
            "STOMP" => Verb::Stomp,
            "SEND" => Verb::Send,
            "SUBSCRIBE" => Verb::Subscribe,
            "UNSUBSCRIBE" => Verb::Unsubscribe,
            "ACK" => Verb::Ack,
            "NACK" => Verb::Nack,
            "BEGIN" => Verb::Begin,
            "COMMIT" => Verb::Commit,
            "ABORT" => Verb::Abort,
            "DISCONNECT" => Verb::Disconnect,
            "CONNECTED" => Verb::Connected,
            "MESSAGE" => Verb::Message,
            "RECEIPT" => Verb::Receipt,
            "ERROR" => Verb::Error,
            _ => return None,
        })
    }

    fn has_body(self) -> bool {
        matches!(self, Verb::Send | Verb::Message | Verb::Error)
    }

    /// Whether its headers stand without escapes.
    fn is_raw(self) -> bool {
        matches!(self, Verb::Connect | Verb::Stomp | Verb::Connected)
    }
}

#[derive(Clone, Copy, Debug, PartialEq, Eq)]
enum Fault {
    Malformed,
    TooLarge,
    UndefinedEscape,
    UnknownCommand,
    BodyNotAllowed,
    BadHeaderValue,
}

impl fmt::Display for Fault {
    fn fmt(&self, formatter: &mut fmt::Formatter) -> fmt::Result {
        formatter.write_str(match self {
            Fault::Malformed => "E1 malformed frame",
            Fault::TooLarge => "E2 frame too large",
            Fault::UndefinedEscape => "E3 undefined escape",
            Fault::UnknownCommand => "E4 unknown command",
            Fault::BodyNotAllowed => "E19 body not allowed",
            Fault::BadHeaderValue => "E20 bad header value",
        })
    }
}

#[derive(Debug)]
struct Frame {
    verb: Verb,
    headers: Vec<(String, String)>,
    body: Vec<u8>,
}

#[derive(Clone, Copy, Debug, Default)]
enum Stage {
    #[default]
    Command,
    Headers(Verb),
    /// So many bytes, and a NUL behind them.
    Counted(Verb, usize),
    ToNul(Verb),
}

/// Reads frames from pieces of a stream. After a fault it is not to be fed again.
#[derive(Debug, Default)]
struct FrameReader {
    stage: Stage,
    /// What earlier pieces had of the line that isn't whole.
    line: Vec<u8>,
    /// Whether the last byte was a CR.
    after_cr: bool,
    /// How many bytes the frame's head has so far.
    head: usize,
    headers: Vec<(String, String)>,
    body: Vec<u8>,
}

impl FrameReader {
    /// Reads a piece, and adds the frames that are whole now.
    fn feed(&mut self, piece: &[u8], frames: &mut Vec<Frame>) -> Result<(), Fault> {
        let mut rest = piece;
        while !rest.is_empty() {
            let taken = match self.stage {
                Stage::Command | Stage::Headers(_) => self.take_head(rest)?,
                Stage::Counted(verb, length) => self.take_counted(verb, length, rest, frames)?,
                Stage::ToNul(verb) => self.take_to_nul(verb, rest, frames)?,
            };
            rest = &rest[taken..];
        }
        Ok(())
    }

    /// Takes bytes up to the end of a line, or all that there are.
    fn take_head(&mut self, rest: &[u8]) -> Result<usize, Fault> {
        let span = &rest[..rest.len().min(MAX_HEAD - self.head)];
        let Some(&first) = span.first() else {
            return Err(Fault::TooLarge);
        };
        if self.after_cr {
            if first != b'\n' {
                return Err(Fault::Malformed);
            }
            self.after_cr = false;
            self.head += 1;
            self.end_line(&[])?;
            return Ok(1);
        }
        let Some(at) = span.iter().position(|byte| matches!(byte, b'\n' | b'\r' | 0)) else {
            self.line.extend_from_slice(span);
            self.head += span.len();
            return Ok(span.len());
        };
        let front = &span[..at];
        match (span[at], span.get(at + 1)) {
            (b'\n', _) => {
                self.head += at + 1;
                self.end_line(front)?;
                Ok(at + 1)
            }
            (b'\r', Some(b'\n')) => {
                self.head += at + 2;
                self.end_line(front)?;
                Ok(at + 2)
            }
            (b'\r', _) => {
                self.line.extend_from_slice(front);
                self.after_cr = true;
                self.head += at + 1;
                Ok(at + 1)
            }
            _ => Err(Fault::Malformed),
        }
    }

    /// Reads the line that ends with these bytes: in the piece itself where it began there.
    fn end_line(&mut self, front: &[u8]) -> Result<(), Fault> {
        if self.line.is_empty() {
            return self.read_line(front);
        }
        let mut line = mem::take(&mut self.line);
        line.extend_from_slice(front);
        self.read_line(&line)?;
        line.clear();
        self.line = line;
        Ok(())
    }

    fn read_line(&mut self, line: &[u8]) -> Result<(), Fault> {
        match self.stage {
            Stage::Headers(verb) if line.is_empty() => self.begin_body(verb)?,
            Stage::Headers(verb) => {
                let header = read_header(verb, line)?;
                if self.headers.len() == MAX_HEADERS {
                    return Err(Fault::TooLarge);
                }
                self.headers.push(header);
            }
            _ if line.is_empty() => self.head = 0,
            _ => {
                let name = str::from_utf8(line).map_err(|_| Fault::BadHeaderValue)?;
                self.stage = Stage::Headers(Verb::from_name(name).ok_or(Fault::UnknownCommand)?);
            }
        }
        Ok(())
    }

    fn begin_body(&mut self, verb: Verb) -> Result<(), Fault> {
        self.stage = match content_length(&self.headers)? {
            Some(length) if length > 0 && !verb.has_body() => return Err(Fault::BodyNotAllowed),
            Some(length) => {
                self.body.reserve_exact(length);
                Stage::Counted(verb, length)
            }
            None => Stage::ToNul(verb),
        };
        Ok(())
    }

    fn take_counted(&mut self, verb: Verb, length: usize, rest: &[u8], frames: &mut Vec<Frame>) -> Result<usize, Fault> {
        let left = length - self.body.len();
        if left == 0 {
            if rest[0] != 0 {
                return Err(Fault::Malformed);
            }
            self.finish(verb, frames);
            return Ok(1);
        }
        let count = left.min(rest.len());
        self.body.extend_from_slice(&rest[..count]);
        Ok(count)
    }

    fn take_to_nul(&mut self, verb: Verb, rest: &[u8], frames: &mut Vec<Frame>) -> Result<usize, Fault> {
        let nul = rest.iter().position(|&byte| byte == 0);
        let front = &rest[..nul.unwrap_or(rest.len())];
        if !front.is_empty() && !verb.has_body() {
            return Err(Fault::BodyNotAllowed);
        }
        if front.len() > MAX_BODY - self.body.len() {
            return Err(Fault::TooLarge);
        }
        self.body.extend_from_slice(front);
        if nul.is_none() {
            return Ok(front.len());
        }
        self.finish(verb, frames);
        Ok(front.len() + 1)
    }

    fn finish(&mut self, verb: Verb, frames: &mut Vec<Frame>) {
        frames.push(Frame {
            verb,
            headers: mem::take(&mut self.headers),
            body: mem::take(&mut self.body),
        });
        self.head = 0;
        self.stage = Stage::Command;
    }
}

fn read_header(verb: Verb, line: &[u8]) -> Result<(String, String), Fault> {
    let (name, value) = match line.iter().position(|&byte| byte == b':') {
        None | Some(0) => return Err(Fault::Malformed),
        Some(colon) => (&line[..colon], &line[colon + 1..]),
    };
    let name = meaning(verb, name)?;
    let value = meaning(verb, value)?;
    let utf8 = |bytes| String::from_utf8(bytes).map_err(|_| Fault::BadHeaderValue);
    Ok((utf8(name)?, utf8(value)?))
}

/// The bytes that a name or value means.
fn meaning(verb: Verb, bytes: &[u8]) -> Result<Vec<u8>, Fault> {
    if verb.is_raw() || !bytes.contains(&b'\\') {
        return Ok(bytes.to_vec());
    }
    let mut meant = Vec::with_capacity(bytes.len());
    let mut rest = bytes.iter();
    while let Some(&byte) = rest.next() {
        meant.push(match byte {
            b'\\' => match rest.next() {
                Some(b'r') => b'\r',
                Some(b'n') => b'\n',
                Some(b'c') => b':',
                Some(b'\\') => b'\\',
                _ => return Err(Fault::UndefinedEscape),
            },
            _ => byte,
        });
    }
    Ok(meant)
}

fn content_length(headers: &[(String, String)]) -> Result<Option<usize>, Fault> {
    let Some((_, value)) = headers.iter().find(|(name, _)| name == "content-length") else {
        return Ok(None);
    };
    if value.len() > MAX_DIGITS || !value.bytes().all(|byte| byte.is_ascii_digit()) {
        return Err(Fault::BadHeaderValue);
    }
    match value.parse::<u64>() {
        Ok(length) if length > MAX_BODY as u64 => Err(Fault::TooLarge),
        Ok(length) => Ok(Some(length as usize)),
        Err(_) => Err(Fault::BadHeaderValue),
    }
}

#[derive(Debug, Default)]
struct Tally {
    frames: u64,
    header_bytes: u64,
    body_bytes: u64,
}

impl Tally {
    /// Counts the frames, and drops them.
    fn count(&mut self, frames: &mut Vec<Frame>) {
        for frame in frames.drain(..) {
            let frame = black_box(frame);
            black_box(frame.verb);
            self.frames += 1;
            self.body_bytes += frame.body.len() as u64;
            for (name, value) in &frame.headers {
                self.header_bytes += (name.len() + value.len()) as u64;
            }
        }
    }
}

/// Reads the frames of a stream in pieces of so many bytes.
fn run_raw(mut input: impl Read, size: usize) -> Result<Tally, String> {
    let mut reader = FrameReader::default();
    let mut frames = Vec::new();
    let mut tally = Tally::default();
    let mut buffer = vec![0; PIECE.max(size)];
    loop {
        let count = input.read(&mut buffer).map_err(|error| error.to_string())?;
        if count == 0 {
            return Ok(tally);
        }
        for piece in buffer[..count].chunks(size) {
            reader.feed(piece, &mut frames).map_err(|fault| fault.to_string())?;
            tally.count(&mut frames);
        }
    }
}

/// Reads the frames that a script spells. Its `flush` lines do nothing, and `open` ends all connections.
fn run_script(mut input: impl BufRead) -> Result<Tally, String> {
    let mut readers: [FrameReader; CONNECTIONS] = std::array::from_fn(|_| FrameReader::default());
    let mut frames = Vec::new();
    let mut tally = Tally::default();
    let mut line = Vec::new();
    let mut bytes = Vec::new();
    for number in 1.. {
        line.clear();
        let mut limited = input.by_ref().take(LONGEST_LINE as u64 + 1);
        limited.read_until(b'\n', &mut line).map_err(|error| error.to_string())?;
        if line.is_empty() {
            break;
        }
        let not_understood = || format!("line {number} not understood");
        match line.strip_suffix(b"\n").ok_or_else(not_understood)? {
            b"" | b"flush" => {}
            b"open" => readers = std::array::from_fn(|_| FrameReader::default()),
            text => {
                let (connection, text) = cut_number(text).ok_or_else(not_understood)?;
                bytes.clear();
                percent_decode(text, &mut bytes);
                readers[connection].feed(&bytes, &mut frames).map_err(|fault| fault.to_string())?;
                tally.count(&mut frames);
            }
        }
    }
    Ok(tally)
}

/// The number of a connection, and what stands behind the blank.
fn cut_number(line: &[u8]) -> Option<(usize, &[u8])> {
    let blank = line.iter().take(3).position(|&byte| byte == b' ')?;
    let (digits, text) = (&line[..blank], &line[blank + 1..]);
    let is_number = digits.iter().all(u8::is_ascii_digit) && (digits.len() == 1 || digits.first() != Some(&b'0'));
    let number = str::from_utf8(digits).ok()?.parse().ok()?;
    (is_number && number < CONNECTIONS).then_some((number, text))
}

fn percent_decode(text: &[u8], bytes: &mut Vec<u8>) {
    let digit = |byte: Option<&u8>| byte.and_then(|&byte| char::from(byte).to_digit(16));
    let mut rest = text;
    while let Some(at) = rest.iter().position(|&byte| byte == b'%') {
        bytes.extend_from_slice(&rest[..at]);
        match (digit(rest.get(at + 1)), digit(rest.get(at + 2))) {
            (Some(high), Some(low)) => {
                bytes.push((high * 16 + low) as u8);
                rest = &rest[at + 3..];
            }
            _ => {
                bytes.push(b'%');
                rest = &rest[at + 1..];
            }
        }
    }
    bytes.extend_from_slice(rest);
}

fn main() -> ExitCode {
    let words: Vec<String> = env::args().skip(1).collect();
    let words: Vec<&str> = words.iter().map(String::as_str).collect();
    let input = io::stdin().lock();
    let done = match words[..] {
        ["script"] => run_script(BufReader::with_capacity(PIECE, input)),
        ["raw", size] => match size.parse() {
            Ok(size) if size > 0 => run_raw(input, size),
            _ => Err("the size of a piece is a number from 1 on".to_string()),
        },
        _ => Err("plain_reader script | plain_reader raw SIZE".to_string()),
    };
    match done {
        Ok(tally) => {
            println!("{} frames, {} header bytes, {} body bytes", tally.frames, tally.header_bytes, tally.body_bytes);
            ExitCode::SUCCESS
        }
        Err(text) => {
            eprintln!("plain_reader: {text}");
            ExitCode::FAILURE
        }
    }
}
