//! From text to tape.

use super::fields::Fields;
use super::{items, message, packets};
use crate::tape::{Completion, IsoCompletion, Record};
use std::fmt;
use std::io::{self, BufRead, Write};

#[derive(Debug)]
pub enum TextError {
    Io(io::Error),
    Line { number: usize, problem: String },
}

impl fmt::Display for TextError {
    fn fmt(&self, formatter: &mut fmt::Formatter) -> fmt::Result {
        match self {
            TextError::Io(error) => error.fmt(formatter),
            TextError::Line { number, problem } => write!(formatter, "line {number}: {problem}"),
        }
    }
}

impl std::error::Error for TextError {}

impl From<io::Error> for TextError {
    fn from(error: io::Error) -> TextError {
        TextError::Io(error)
    }
}

enum Line {
    Nothing,
    Stream { joined: bool, bytes: Vec<u8> },
    Record(Record),
    Raw(Vec<u8>),
}

/// Writes the tape that the text stands for.
pub fn assemble(text: impl BufRead, mut output: impl Write) -> Result<(), TextError> {
    let mut piece = None;
    for (index, line) in text.lines().enumerate() {
        let here = |problem| TextError::Line {
            number: index + 1,
            problem,
        };
        match parse_line(&line?).map_err(here)? {
            Line::Nothing => {}
            Line::Stream { joined, bytes } => {
                if !joined {
                    write_piece(piece.replace(Vec::new()), &mut output)?;
                }
                join(piece.as_mut(), &bytes).map_err(here)?;
            }
            Line::Record(record) => {
                write_piece(piece.take(), &mut output)?;
                record.write(&mut output)?;
            }
            Line::Raw(bytes) => {
                write_piece(piece.take(), &mut output)?;
                output.write_all(&bytes)?;
            }
        }
    }
    write_piece(piece, &mut output)?;
    Ok(output.flush()?)
}

fn parse_line(line: &str) -> Result<Line, String> {
    let line = line.split('#').next().unwrap_or_default();
    let words: Vec<&str> = line.split_whitespace().collect();
    let (joined, words) = match words.split_first() {
        None => return Ok(Line::Nothing),
        Some((&"+", words)) => (true, words),
        Some(_) => (false, &words[..]),
    };
    let (&verb, operands) = words.split_first().ok_or("nothing to go on with")?;
    match verb {
        "list" | "import" | "submit" | "unlink" => {
            let bytes = message::parse(verb, operands)?;
            Ok(Line::Stream { joined, bytes })
        }
        "data" | "bytes" => {
            let bytes = items::parse(operands)?;
            Ok(Line::Stream { joined, bytes })
        }
        "packets" => {
            let bytes = packets::parse(operands)?;
            Ok(Line::Stream { joined, bytes })
        }
        _ if joined => Err(format!("not stream bytes: {verb}")),
        "complete" => Ok(Line::Record(Record::Complete(parse_completion(operands)?))),
        "complete-iso" => Ok(Line::Record(Record::CompleteIso(parse_iso(operands)?))),
        "close" if operands.is_empty() => Ok(Line::Record(Record::Close)),
        "raw" => Ok(Line::Raw(items::parse(operands)?)),
        _ => Err(format!("no such line: {}", words.join(" "))),
    }
}

fn parse_completion(operands: &[&str]) -> Result<Completion, String> {
    let mut fields = Fields::parse(operands)?;
    let completion = Completion {
        ticket: fields.number("ticket")?,
        status: fields.number("status")?,
        actual_length: fields.number("actual")?,
    };
    fields.finish()?;
    Ok(completion)
}

fn parse_iso(operands: &[&str]) -> Result<IsoCompletion, String> {
    let (named, results): (Vec<&str>, Vec<&str>) =
        operands.iter().partition(|word| word.contains('='));
    let mut fields = Fields::parse(&named)?;
    let completion = IsoCompletion {
        ticket: fields.number("ticket")?,
        status: fields.number("status")?,
        results: packets::parse_results(&results)?,
    };
    fields.finish()?;
    Ok(completion)
}

fn join(piece: Option<&mut Vec<u8>>, bytes: &[u8]) -> Result<(), String> {
    let piece = piece.ok_or("no record to go on in")?;
    piece.extend(bytes);
    if piece.len() > usize::from(u16::MAX) {
        return Err("more than a count can say".to_string());
    }
    Ok(())
}

fn write_piece(piece: Option<Vec<u8>>, output: &mut impl Write) -> io::Result<()> {
    match piece {
        Some(bytes) => Record::Stream(bytes).write(output),
        None => Ok(()),
    }
}
