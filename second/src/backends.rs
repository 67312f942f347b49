//! Whoever answers: the program, the library, or the plain reading itself.

use std::io::{Read, Write};
use std::path::PathBuf;
use std::process::{Command, Stdio};

use crate::plain;
use crate::rules::{Network, Refusal};
#[cfg(feature = "staticlib")]
use crate::{library, shapes::Owned};

pub trait Answers {
    /// All that is printed in answer to a text.
    fn answer(&mut self, text: &[u8]) -> Vec<u8>;

    /// The labels of a network in its row, put into a row of so many places, or its refusal; none from whoever takes
    /// texts alone.
    fn labels(&mut self, _network: &Network, _places: usize) -> Option<Result<Vec<u32>, Refusal>> {
        None
    }
}

/// The plain reading, to try the comparisons themselves.
pub struct Plain;

impl Answers for Plain {
    fn answer(&mut self, text: &[u8]) -> Vec<u8> {
        plain::answer(text)
    }

    fn labels(&mut self, network: &Network, places: usize) -> Option<Result<Vec<u32>, Refusal>> {
        Some(plain::labels(network, places))
    }
}

/// A program that reads one text from its standard input and prints the answer.
pub struct Program {
    pub path: PathBuf,
}

impl Answers for Program {
    fn answer(&mut self, text: &[u8]) -> Vec<u8> {
        let mut child = Command::new(&self.path)
            .stdin(Stdio::piped())
            .stdout(Stdio::piped())
            .spawn()
            .unwrap_or_else(|error| panic!("{}: {error}", self.path.display()));
        // A program may refuse a long text before its end and leave; the rest then has no reader.
        // Every text here fits into a pipe, so writing does not wait for reading.
        let _ = child.stdin.take().expect("piped").write_all(text);
        let mut answer = Vec::new();
        let read = child.stdout.take().expect("piped").read_to_end(&mut answer);
        let status = child.wait().expect("a child to wait for");
        if read.is_err() || status.code().is_none() {
            answer.extend_from_slice(b"(the program was ended by a signal)\n");
        }
        answer
    }
}

/// The library under test, linked in.
#[cfg(feature = "staticlib")]
pub struct Library {
    line: [u8; Library::LONGEST_LINE],
}

#[cfg(feature = "staticlib")]
impl Library {
    /// A cluster of 512 members: 5 + 2 * 512 bytes, two digits each, and a line feed.
    const LONGEST_LINE: usize = 2_059;
    /// A result, 512 labels, 512 clusters and an end.
    const MOST_LINES: usize = 1_026;

    pub fn new() -> Library {
        Library { line: [0; Library::LONGEST_LINE] }
    }

    /// Whether a row one byte too short for a line of this length is refused as it has to be, and left as it was.
    fn refuses_short_row(&mut self, text: &[u8], index: usize, length: usize) -> bool {
        let row = &mut self.line[..length - 1];
        row.fill(0);
        library::line(text, index, row) == Err(Refusal::NO_ROOM) && row.iter().all(|&byte| byte == 0)
    }
}

#[cfg(feature = "staticlib")]
impl Default for Library {
    fn default() -> Library {
        Library::new()
    }
}

#[cfg(feature = "staticlib")]
impl Answers for Library {
    fn answer(&mut self, text: &[u8]) -> Vec<u8> {
        let mut answer = Vec::with_capacity(256);
        let mut last = None;
        // One line more than there can be, so that a library that never ends is found out.
        for index in 0..=Library::MOST_LINES {
            match library::line(text, index, &mut self.line) {
                Ok(0) => break,
                Ok(length) => {
                    answer.extend_from_slice(&self.line[..length]);
                    last = Some((index, length));
                }
                Err(refusal) => {
                    answer.extend_from_slice(format!("(with room for every line: {refusal:?})\n").as_bytes());
                    break;
                }
            }
        }
        if matches!(last, Some((index, length)) if !self.refuses_short_row(text, index, length)) {
            answer.extend_from_slice(b"(no refusal of a row too short)\n");
        }
        answer
    }

    fn labels(&mut self, network: &Network, places: usize) -> Option<Result<Vec<u32>, Refusal>> {
        let mut labels = vec![u32::MAX; places];
        let answer = library::label(&Owned::of(network).in_row(), &mut labels);
        let kept = labels.iter().all(|&label| label == u32::MAX);
        assert!(answer.is_ok() || kept, "a refusal changed the row of labels of {network:?}");
        Some(answer.map(|()| labels))
    }
}
