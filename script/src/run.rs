//! A whole script: bytes in, bytes out.

use crate::engine::Engine;
use crate::session::Session;
use crate::words::MOST_LINE;
use std::io::{self, BufRead, Write};

/// A line of which no more is held than can be read.
#[derive(Default)]
struct Held {
    bytes: Vec<u8>,
    is_comment: bool,
    has_word: bool,
}

impl Held {
    fn take(&mut self, piece: &[u8]) {
        if self.bytes.is_empty() {
            self.is_comment = piece.first() == Some(&b'#');
        }
        self.has_word |= piece.iter().any(|&byte| byte != b' ');
        // One byte more than can be read says that the line can't.
        let room = (MOST_LINE + 1).saturating_sub(self.bytes.len());
        self.bytes.extend_from_slice(&piece[..piece.len().min(room)]);
    }

    fn answer<E: Engine>(&mut self, session: &mut Session<E>, text: &mut Vec<u8>) {
        if !self.is_comment && self.has_word {
            match self.bytes.len() > MOST_LINE {
                true => text.extend_from_slice(b"unreadable\n"),
                false => session.answer(&self.bytes, text),
            }
        }
        self.bytes.clear();
        (self.is_comment, self.has_word) = (false, false);
    }
}

/// Plays a script over an engine, and writes its answers. They are written out whenever what has come so far is answered.
///
/// # Errors
/// What reading or writing gives.
pub fn run<E: Engine>(engine: E, mut script: impl BufRead, mut answers: impl Write) -> io::Result<()> {
    let mut session = Session::new(engine);
    let mut line = Held::default();
    let mut text = Vec::new();
    loop {
        let piece = match script.fill_buf() {
            Err(error) if error.kind() == io::ErrorKind::Interrupted => continue,
            piece => piece?,
        };
        if piece.is_empty() {
            line.answer(&mut session, &mut text);
            answers.write_all(&text)?;
            return answers.flush();
        }
        let length = piece.len();
        for part in piece.split_inclusive(|&byte| byte == b'\n') {
            match part.strip_suffix(b"\n") {
                None => line.take(part),
                Some(end) => {
                    line.take(end);
                    line.answer(&mut session, &mut text);
                }
            }
            // An answer is written out before memory for many is taken.
            if text.len() >= MOST_LINE {
                answers.write_all(&text)?;
                text.clear();
            }
        }
        script.consume(length);
        answers.write_all(&text)?;
        answers.flush()?;
        text.clear();
    }
}

/// The answers to a script in memory.
pub fn answers_to<E: Engine>(engine: E, script: &[u8]) -> Vec<u8> {
    let mut answers = Vec::new();
    run(engine, script, &mut answers).expect("memory can be written");
    answers
}
