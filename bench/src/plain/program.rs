//! The program `frozen` over any input and output.

use super::book::{Book, Verdict};
use super::{image, score, Refusal};
use std::io::{self, Read, Write};

const BOUND: u64 = 600;
const LENGTH: u64 = 1440;
const TOLERANCE: u64 = 3600;
const ALLOWANCE: u8 = 12;
const WINDOW: u64 = 30;
const AMOUNT: u64 = 3600;

struct Watch {
    book: Book,
    ring: [u8; 30],
    frames: u64,
    last: Vec<u8>,
}

impl Watch {
    fn new() -> Watch {
        let mut ring = [0; 30];
        let book = Book::open(BOUND, LENGTH, TOLERANCE, &mut ring).expect("the setting is a good one");
        Watch { book, ring, frames: 0, last: Vec::new() }
    }

    /// Takes the image at the start of `bytes`, writes its row, and gives how many bytes it took.
    fn frame(&mut self, bytes: &[u8], out: &mut impl Write) -> Result<io::Result<usize>, Refusal> {
        let used = image::header(bytes)?.used;
        let image = &bytes[..used];
        let mut score = None;
        if self.frames > 0 {
            let changed = score::score(BOUND, ALLOWANCE, &self.last, image)?;
            self.book.add(&mut self.ring, changed)?;
            score = Some(changed);
        }
        self.frames += 1;
        self.last.clear();
        self.last.extend_from_slice(image);
        let total = self.book.total(&self.ring, self.book.kept)?;
        let word = match self.book.verdict(&self.ring, WINDOW, AMOUNT).map(|notice| notice.verdict) {
            Ok(Verdict::Live) => "live",
            Ok(Verdict::Frozen) => "frozen",
            Ok(Verdict::Undecided) => "undecided",
            Ok(Verdict::Resting) => "resting",
            Err(_) => "early",
        };
        let (frame, kept) = (self.frames, self.book.kept);
        Ok(match score {
            Some(score) => write!(out, "{frame},{score},{kept},{total},{word}\r\n"),
            None => write!(out, "{frame},,{kept},{total},{word}\r\n"),
        }
        .map(|()| used))
    }
}

pub fn run(mut input: impl Read, out: impl Write) -> io::Result<()> {
    let mut out = io::BufWriter::new(out);
    let mut watch = Watch::new();
    let mut buffer = vec![0; 256 * 1024];
    let (mut at, mut end) = (0, 0);
    write!(out, "frame,score,kept,total,verdict\r\n")?;
    loop {
        out.flush()?;
        if buffer.len() - end < 32 * 1024 {
            buffer.copy_within(at..end, 0);
            (at, end) = (0, end - at);
        }
        let got = input.read(&mut buffer[end..])?;
        end += got;
        while at < end {
            match watch.frame(&buffer[at..end], &mut out) {
                Ok(used) => at += used?,
                Err(Refusal::EndsTooEarly) if got > 0 => break,
                Err(refusal) => {
                    write!(out, "{},refused {},,,\r\n", watch.frames + 1, refusal as u8)?;
                    return out.flush();
                }
            }
        }
        if got == 0 {
            return out.flush();
        }
    }
}
