//! Answers calls of the Rust crate `jsonptr`, one a line: a request in, its whole answer out. The requests
//! and the answers are those of docs/COMPARING.md.

mod answer;
mod documents;
mod labels;
mod pointers;
mod texts;

use answer::{plain, Answer};
use std::io::{self, BufRead, BufWriter, Write};
use std::panic;

fn main() -> io::Result<()> {
    panic::set_hook(Box::new(|_| {}));
    let mut out = BufWriter::new(io::stdout().lock());
    for line in io::stdin().lock().lines() {
        writeln!(out, "{}", answer_line(&line?))?;
    }
    out.flush()
}

fn answer_line(line: &str) -> String {
    let words: Vec<String> = line.split('\t').map(plain).collect();
    let words: Vec<&str> = words.iter().map(String::as_str).collect();
    let mut answer = Answer::default();
    if answer_call(&mut answer, &words).is_none() {
        answer.text("unknown", line);
    }
    answer.into_line()
}

fn answer_call(answer: &mut Answer, words: &[&str]) -> Option<()> {
    match words {
        ["parse", text] => texts::parse(answer, text),
        ["token", text] => texts::token(answer, text),
        ["encoded", text] => texts::encoded(answer, text),
        ["number", number] => texts::number(answer, number)?,
        ["index", text] => texts::index(answer, text),
        ["bounds", text, length] => texts::bounds(answer, text, length.parse().ok()?),
        ["two tokens", a, b] => texts::two_tokens(answer, a, b),
        ["two indices", a, b] => texts::two_indices(answer, a, b)?,
        ["parse error", offset, source_offset, source, subject] => labels::parse_error(
            answer,
            offset.parse().ok()?,
            labels::encoding_error(source_offset, source)?,
            subject,
        ),
        ["encoding error", offset, source, subject] => {
            labels::encoding(answer, &labels::encoding_error(offset, source)?, subject);
        }
        ["index error", text, subject] => labels::index(answer, text, subject)?,
        ["resolve error", kind, position, offset, cause, subject] => labels::resolve(
            answer,
            labels::resolve_error(kind, position, offset, cause)?,
            subject,
        )?,
        ["assign error", kind, position, offset, cause, subject] => labels::assign(
            answer,
            labels::assign_error(kind, position, offset, cause)?,
            subject,
        )?,
        ["addresses"] => labels::addresses(answer),
        ["reads", pointer] => pointers::reads(answer, pointer)?,
        ["get", pointer, kind, bounds @ ..] => pointers::get(answer, pointer, kind, bounds)?,
        ["split at offset", pointer, offset] => {
            pointers::split_at_offset(answer, pointer, offset.parse().ok()?)?;
        }
        ["two pointers", a, b] => pointers::two_pointers(answer, a, b)?,
        ["from tokens", tokens @ ..] => pointers::from_tokens(answer, tokens),
        ["edit", pointer, edits @ ..] => pointers::edit(answer, pointer, edits)?,
        ["resolve", kind, document, pointer] => documents::resolve(answer, kind, document, pointer)?,
        ["write", kind, document, pointer, value] => {
            documents::write(answer, kind, document, pointer, value)?;
        }
        ["assign", kind, document, pointer, value] => {
            documents::assign(answer, kind, document, pointer, value)?;
        }
        ["delete", kind, document, pointer] => documents::delete(answer, kind, document, pointer)?,
        _ => return None,
    }
    Some(())
}
