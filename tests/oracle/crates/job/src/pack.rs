//! Many texts in one stream: each is a line `LENGTH` or `LENGTH CLASS`, then that many bytes.

use std::io::{self, BufRead, Write};

pub struct Record {
    pub class: String,
    pub text: Vec<u8>,
}

/// The next record, or `None` at the end of the stream.
pub fn next(input: &mut impl BufRead) -> io::Result<Option<Record>> {
    let mut header = String::new();
    if input.read_line(&mut header)? == 0 {
        return Ok(None);
    }
    let line = header.strip_suffix('\n').ok_or_else(|| bad(&header))?;
    let (length, class) = line.split_once(' ').unwrap_or((line, ""));
    Ok(Some(Record { class: class.to_string(), text: bytes(input, length)? }))
}

/// The next text and its reply of a recorded sample, or `None` at its end.
pub fn next_answered(input: &mut impl BufRead) -> io::Result<Option<(Vec<u8>, Vec<u8>)>> {
    let Some(Record { class: reply, text }) = next(input)? else { return Ok(None) };
    Ok(Some((text, bytes(input, &reply)?)))
}

/// So many bytes, or an error where there are fewer.
fn bytes(input: &mut impl BufRead, length: &str) -> io::Result<Vec<u8>> {
    let mut bytes = vec![0; length.parse().map_err(|_| bad(length))?];
    input.read_exact(&mut bytes)?;
    Ok(bytes)
}

fn bad(header: &str) -> io::Error {
    io::Error::new(io::ErrorKind::InvalidData, format!("a record begins with its length, not with {header:?}"))
}

pub fn put(output: &mut impl Write, text: &[u8]) -> io::Result<()> {
    writeln!(output, "{}", text.len())?;
    output.write_all(text)
}

pub fn put_classed(output: &mut impl Write, class: &str, text: &[u8]) -> io::Result<()> {
    writeln!(output, "{} {class}", text.len())?;
    output.write_all(text)
}

/// A text and its reply in one record, as a recorded sample has them.
pub fn put_answered(output: &mut impl Write, text: &[u8], reply: &[u8]) -> io::Result<()> {
    writeln!(output, "{} {}", text.len(), reply.len())?;
    output.write_all(text)?;
    output.write_all(reply)
}
