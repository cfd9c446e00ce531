//! A program's output held to the answers, byte by byte.

use super::answer::Answer;
use super::frame::Frame;

#[derive(Default)]
pub struct Comparison {
    pub lists: usize,
    pub differences: usize,
    /// The frame, what was expected and what was found.
    pub first: Option<String>,
}

impl Comparison {
    fn differ(&mut self, told: impl FnOnce() -> String) {
        self.differences += 1;
        if self.first.is_none() {
            self.first = Some(format!("first difference: {}", told()));
        }
    }

    fn take(&mut self, frame: &Frame, found: &Found) {
        self.lists += 1;
        let answer = Answer::to(frame);
        let expected = answer.text();
        let right = Found { text: expected.as_bytes(), buffer: &answer.buffer };
        if *found != right {
            let number = self.lists;
            self.differ(|| {
                format!("list {}\n{}expected:\n{}found:\n{}", number, asked(frame), right.told(), found.told())
            });
        }
    }
}

pub fn compare(frames: &[Frame], output: &[u8]) -> Comparison {
    let mut comparison = Comparison::default();
    let mut unread = output;
    for frame in frames {
        let (found, rest) = Found::at_front(unread, frame.room);
        comparison.take(frame, &found);
        unread = rest;
    }
    if !unread.is_empty() {
        comparison.differ(|| format!("{} bytes after the last answer\nfound: {}\n", unread.len(), hex(front(unread))));
    }
    comparison
}

/// What a program printed for one frame.
#[derive(PartialEq, Eq)]
struct Found<'a> {
    text: &'a [u8],
    buffer: &'a [u8],
}

impl<'a> Found<'a> {
    /// An answer is recognised by its shape, so that one of another length
    /// does not make all the later ones differ. Where the output ends early,
    /// the answer is what is left.
    fn at_front(output: &'a [u8], room: usize) -> (Found<'a>, &'a [u8]) {
        let (text, rest) = output.split_at(text_length(output));
        let (buffer, rest) = rest.split_at(room.min(rest.len()));
        (Found { text, buffer }, rest)
    }

    fn told(&self) -> String {
        format!("{}buffer {}\n", String::from_utf8_lossy(front(self.text)), hex(self.buffer))
    }
}

/// As much as a person can use of what was found: longer than any right answer.
fn front(bytes: &[u8]) -> &[u8] {
    &bytes[..bytes.len().min(10_000)]
}

/// The lines that begin with `setting`, and two more.
fn text_length(output: &[u8]) -> usize {
    let lines = || output.split_inclusive(|byte| *byte == b'\n');
    let settings = lines().take_while(|line| line.starts_with(b"setting ")).count();
    lines().take(settings + 2).map(<[u8]>::len).sum()
}

fn asked(frame: &Frame) -> String {
    let length = frame.list.len();
    let bytes = hex(&frame.bytes());
    format!("frame {}\na list of {} bytes, then number {} into {} bytes\n", bytes, length, frame.number, frame.room)
}

fn hex(bytes: &[u8]) -> String {
    bytes.iter().map(|byte| format!("{:02x}", byte)).collect()
}
