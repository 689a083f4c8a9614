//! Texts, tokens and indices.

use crate::answer::{escaped, list, Answer};
use crate::labels::{cause, label};
use jsonptr::index::{Index, OutOfBoundsError, ParseIndexError};
use jsonptr::{Pointer, PointerBuf, Token};

pub fn parse(answer: &mut Answer, text: &str) {
    match Pointer::parse(text) {
        Ok(pointer) => {
            answer.text("text", pointer.as_str());
            answer.field("count", pointer.count());
            answer.field("tokens", list(pointer.tokens().map(|t| t.decoded().into_owned())));
        }
        Err(error) => {
            answer.field("offset", error.offset());
            answer.field("pointer_offset", error.pointer_offset());
            answer.field("source_offset", error.source_offset());
            answer.field("complete_offset", error.complete_offset());
            answer.field("is_no_leading_slash", error.is_no_leading_slash());
            answer.field("is_invalid_encoding", error.is_invalid_encoding());
            answer.text("display", &error.to_string());
            answer.guarded("len", || error.invalid_encoding_len(text).to_string());
        }
    }
    if let Err(report) = PointerBuf::parse(text) {
        answer.text("subject", report.subject());
        answer.text("report", &report.to_string());
        let (error, subject) = report.decompose();
        label(answer, &error, &subject);
    }
}

pub fn token(answer: &mut Answer, text: &str) {
    let token = Token::new(text);
    answer.text("encoded", token.encoded());
    answer.text("decoded", &token.decoded());
    answer.text("display", &token.to_string());
    answer.field("is_next", token.is_next());
    answer.field("index", read(&token.to_index()));
}

pub fn encoded(answer: &mut Answer, text: &str) {
    match Token::from_encoded(text) {
        Ok(token) => {
            answer.text("encoded", token.encoded());
            answer.text("decoded", &token.decoded());
            answer.field("is_next", token.is_next());
            answer.field("index", read(&token.to_index()));
        }
        Err(error) => {
            answer.field("offset", error.offset);
            answer.field("source", format!("{:?}", error.source));
            answer.text("display", &error.to_string());
            answer.text("cause", &error.source.to_string());
            label(answer, &error, &text.to_string());
        }
    }
}

pub fn number(answer: &mut Answer, number: &str) -> Option<()> {
    let token = match number.split_once(':')? {
        ("u8", n) => Token::from(n.parse::<u8>().ok()?),
        ("u16", n) => Token::from(n.parse::<u16>().ok()?),
        ("u32", n) => Token::from(n.parse::<u32>().ok()?),
        ("u64", n) => Token::from(n.parse::<u64>().ok()?),
        ("u128", n) => Token::from(n.parse::<u128>().ok()?),
        ("usize", n) => Token::from(n.parse::<usize>().ok()?),
        ("i8", n) => Token::from(n.parse::<i8>().ok()?),
        ("i16", n) => Token::from(n.parse::<i16>().ok()?),
        ("i32", n) => Token::from(n.parse::<i32>().ok()?),
        ("i64", n) => Token::from(n.parse::<i64>().ok()?),
        ("i128", n) => Token::from(n.parse::<i128>().ok()?),
        ("isize", n) => Token::from(n.parse::<isize>().ok()?),
        _ => return None,
    };
    answer.text("encoded", token.encoded());
    Some(())
}

/// An index, or why there is none.
pub fn read(index: &Result<Index, ParseIndexError>) -> String {
    match index {
        Ok(Index::Num(n)) => format!("Num({n})"),
        Ok(Index::Next) => "Next".to_string(),
        Err(error) => cause(error),
    }
}

pub fn index(answer: &mut Answer, text: &str) {
    let index = text.parse::<Index>();
    answer.field("index", read(&index));
    match index {
        Ok(index) => answer.text("display", &index.to_string()),
        Err(error) => {
            answer.text("display", &error.to_string());
            if let ParseIndexError::InvalidCharacter(cause) = &error {
                answer.text("cause", &cause.to_string());
            }
            label(answer, &error, &text.to_string().into());
        }
    }
}

fn place(bound: Result<usize, OutOfBoundsError>) -> String {
    match bound {
        Ok(place) => place.to_string(),
        Err(error) => {
            let OutOfBoundsError { index, length } = error;
            format!("OutOfBounds({index},{length}) {}", escaped(&error.to_string()))
        }
    }
}

pub fn bounds(answer: &mut Answer, text: &str, length: usize) {
    if let Ok(index) = text.parse::<Index>() {
        answer.field("for_len", place(index.for_len(length)));
        answer.field("for_len_incl", place(index.for_len_incl(length)));
        answer.field("for_len_unchecked", index.for_len_unchecked(length));
    }
}

pub fn two_tokens(answer: &mut Answer, a: &str, b: &str) {
    let (a, b) = (Token::new(a), Token::new(b));
    answer.field("eq", a == b);
    answer.field("cmp", format!("{:?}", a.cmp(&b)));
}

pub fn two_indices(answer: &mut Answer, a: &str, b: &str) -> Option<()> {
    let (a, b) = (a.parse::<Index>().ok()?, b.parse::<Index>().ok()?);
    answer.field("eq", a == b);
    answer.field("cmp", format!("{:?}", a.cmp(&b)));
    Some(())
}
