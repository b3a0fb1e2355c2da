//! An ordinary order book: command lines on standard input to its end, event lines on
//! standard output, from the fresh book. Its law is paper 01 with W2 and W4 to W7 of paper 02;
//! the book itself is `book.rs`.
//!
//! Compile: rustc -O --edition 2021 ordinary.rs

#[path = "book.rs"]
mod book;

use book::{read_command, Book, Refusal};
use std::io::{self, ErrorKind, Read, Write};
use std::process::ExitCode;

/// Input is read and output written in pieces of about this size.
const PIECE: usize = 64 * 1024;
/// The longest command line has 48 digits and a line feed.
const LONGEST_LINE: usize = 49;
/// More than the event lines of any one command (256 shown parts and 256 reserves taken and a
/// remainder rested: 17,947 bytes).
const ROOM: usize = 32_768;

fn main() -> ExitCode {
    let mut program = Program::new(io::stdout().lock());
    match program.run(&mut io::stdin().lock()) {
        Ok(()) => ExitCode::SUCCESS,
        Err(message) => {
            eprintln!("ordinary: {message}");
            ExitCode::FAILURE
        }
    }
}

struct Program<W: Write> {
    book: Book,
    output: W,
    /// Lines not yet written to the output.
    lines: Vec<u8>,
}

impl<W: Write> Program<W> {
    fn new(output: W) -> Program<W> {
        Program { book: Book::fresh(), output, lines: Vec::with_capacity(PIECE + ROOM) }
    }

    fn run(&mut self, input: &mut impl Read) -> Result<(), String> {
        let worked = self.work_input(input);
        // Also after an error of reading: what was accepted before it is told.
        self.write_lines()?;
        self.output.flush().map_err(write_error)?;
        worked
    }

    /// Reads piece after piece and works the whole lines of each. The beginning of a line
    /// whose line feed has not come yet is kept at the head of the buffer.
    fn work_input(&mut self, input: &mut impl Read) -> Result<(), String> {
        let mut buffer = vec![0; LONGEST_LINE + PIECE];
        let mut kept = 0;
        let mut over_long = false; // inside a line over 49 bytes, its beginning dropped
        loop {
            let count = read_piece(input, &mut buffer[kept..kept + PIECE])?;
            if count == 0 {
                break;
            }
            let end = kept + count;
            let mut start = 0;
            if over_long {
                match line_feed(&buffer[..end]) {
                    Some(place) => {
                        self.refuse(Refusal::NotAForm);
                        start = place + 1;
                        over_long = false;
                    }
                    None => start = end,
                }
            }
            start += self.work_lines(&buffer[start..end])?;
            if end - start >= LONGEST_LINE {
                over_long = true;
                start = end;
            }
            buffer.copy_within(start..end, 0);
            kept = end - start;
        }
        if kept > 0 || over_long {
            self.refuse(Refusal::NotAForm); // a last line with no line feed
        }
        Ok(())
    }

    /// Works every whole line of `input` and gives the length of them all.
    fn work_lines(&mut self, input: &[u8]) -> Result<usize, String> {
        let mut start = 0;
        loop {
            if self.lines.len() > PIECE {
                self.write_lines()?;
            }
            let rest = &input[start..];
            if let Some((command, length)) = read_command(rest) {
                if let Err(refusal) = self.book.apply(&command, &mut self.lines) {
                    self.refuse(refusal);
                }
                start += length;
            } else if let Some(place) = line_feed(rest) {
                self.refuse(Refusal::NotAForm);
                start += place + 1;
            } else {
                return Ok(start);
            }
        }
    }

    /// `1f` and the number as one byte, then a line feed.
    fn refuse(&mut self, refusal: Refusal) {
        let digit = b"0123456789abcdef"[refusal as usize];
        self.lines.extend_from_slice(&[b'1', b'f', b'0', digit, b'\n']);
    }

    fn write_lines(&mut self) -> Result<(), String> {
        self.output.write_all(&self.lines).map_err(write_error)?;
        self.lines.clear();
        Ok(())
    }
}

fn line_feed(bytes: &[u8]) -> Option<usize> {
    bytes.iter().position(|&byte| byte == b'\n')
}

/// The count of bytes read, 0 at the end of the input.
fn read_piece(input: &mut impl Read, piece: &mut [u8]) -> Result<usize, String> {
    loop {
        match input.read(piece) {
            Err(error) if error.kind() == ErrorKind::Interrupted => continue,
            result => return result.map_err(|error| format!("cannot read the input: {error}")),
        }
    }
}

fn write_error(error: io::Error) -> String {
    format!("cannot write the output: {error}")
}
