//! Errors with any fields, on any subject: texts, labels, addresses.

use crate::answer::{escaped, list, Answer};
use jsonptr::diagnostic::{Diagnostic, Label};
use jsonptr::index::{Index, OutOfBoundsError, ParseIndexError};
use jsonptr::{assign, resolve, EncodingError, InvalidEncoding, ParseError, PointerBuf, Token};
use std::num::IntErrorKind;

pub fn cause(error: &ParseIndexError) -> String {
    match error {
        ParseIndexError::InvalidInteger(error) => match error.kind() {
            IntErrorKind::Empty => "Empty".to_string(),
            IntErrorKind::PosOverflow => "Overflow".to_string(),
            other => format!("{other:?}"),
        },
        ParseIndexError::LeadingZeros => "LeadingZeros".to_string(),
        ParseIndexError::InvalidCharacter(error) => format!("InvalidCharacter({})", error.offset()),
    }
}

/// The crate has no reader for a label's fields but its Debug text.
fn shown(label: &Label) -> String {
    let debug = format!("{label:?}");
    let inside = debug.strip_prefix("Label { text: \"").and_then(|rest| rest.strip_suffix(" }"));
    let (text, rest) = inside.and_then(|rest| rest.split_once("\", offset: ")).expect("a label");
    let (offset, len) = rest.split_once(", len: ").expect("a label");
    format!("{offset}+{len} {text}")
}

pub fn label<E: Diagnostic>(answer: &mut Answer, error: &E, subject: &E::Subject) {
    named_label(answer, "label", error, subject);
}

fn named_label<E: Diagnostic>(answer: &mut Answer, name: &str, error: &E, subject: &E::Subject) {
    answer.guarded(name, || match error.labels(subject) {
        Some(labels) => list(labels.map(|label| shown(&label))),
        None => "None".to_string(),
    });
}

pub fn encoding_error(offset: &str, source: &str) -> Option<EncodingError> {
    let offset = offset.parse().ok()?;
    let source = match source {
        "Tilde" => InvalidEncoding::Tilde,
        "Slash" => InvalidEncoding::Slash,
        _ => return None,
    };
    Some(EncodingError { offset, source })
}

pub fn parse_error(answer: &mut Answer, offset: usize, source: EncodingError, subject: &str) {
    let error = ParseError::InvalidEncoding { offset, source };
    answer.text("display", &error.to_string());
    answer.guarded("len", || error.invalid_encoding_len(subject).to_string());
    label(answer, &error, &subject.to_string());
}

pub fn encoding(answer: &mut Answer, error: &EncodingError, subject: &str) {
    answer.text("display", &error.to_string());
    label(answer, error, &subject.to_string());
}

/// The error of reading one text, on another as subject, as a text and as a token.
pub fn index(answer: &mut Answer, text: &str, subject: &str) -> Option<()> {
    let error = text.parse::<Index>().err()?;
    label(answer, &error, &subject.to_string().into());
    named_label(answer, "token_label", &error, &Token::new(subject).into_owned().into());
    Some(())
}

fn index_cause(cause: &str) -> Option<ParseIndexError> {
    cause.parse::<Index>().err()
}

fn bounds_cause(cause: &str) -> Option<OutOfBoundsError> {
    let (index, length) = cause.split_once(',')?;
    Some(OutOfBoundsError { index: index.parse().ok()?, length: length.parse().ok()? })
}

pub fn resolve_error(kind: &str, position: &str, offset: &str, cause: &str) -> Option<resolve::Error> {
    let (position, offset) = (position.parse().ok()?, offset.parse().ok()?);
    Some(match kind {
        "FailedToParseIndex" => {
            resolve::Error::FailedToParseIndex { position, offset, source: index_cause(cause)? }
        }
        "OutOfBounds" => resolve::Error::OutOfBounds { position, offset, source: bounds_cause(cause)? },
        "NotFound" => resolve::Error::NotFound { position, offset },
        "Unreachable" => resolve::Error::Unreachable { position, offset },
        _ => return None,
    })
}

pub fn assign_error(kind: &str, position: &str, offset: &str, cause: &str) -> Option<assign::Error> {
    let (position, offset) = (position.parse().ok()?, offset.parse().ok()?);
    Some(match kind {
        "FailedToParseIndex" => {
            assign::Error::FailedToParseIndex { position, offset, source: index_cause(cause)? }
        }
        "OutOfBounds" => assign::Error::OutOfBounds { position, offset, source: bounds_cause(cause)? },
        _ => return None,
    })
}

fn bounds(error: &OutOfBoundsError) -> String {
    format!("{},{} {}", error.index, error.length, escaped(&error.to_string()))
}

pub fn resolve(answer: &mut Answer, error: resolve::Error, subject: &str) -> Option<()> {
    let subject = PointerBuf::parse(subject).ok()?;
    let (kind, source) = match &error {
        resolve::Error::FailedToParseIndex { source, .. } => ("FailedToParseIndex", cause(source)),
        resolve::Error::OutOfBounds { source, .. } => ("OutOfBounds", bounds(source)),
        resolve::Error::NotFound { .. } => ("NotFound", String::new()),
        resolve::Error::Unreachable { .. } => ("Unreachable", String::new()),
    };
    answer.field("error", kind);
    answer.field("position", error.position());
    answer.field("offset", error.offset());
    answer.field("cause", source);
    answer.field("is_failed_to_parse_index", error.is_failed_to_parse_index());
    answer.field("is_out_of_bounds", error.is_out_of_bounds());
    answer.field("is_not_found", error.is_not_found());
    answer.field("is_unreachable", error.is_unreachable());
    answer.text("display", &error.to_string());
    label(answer, &error, &subject);
    Some(())
}

pub fn assign(answer: &mut Answer, error: assign::Error, subject: &str) -> Option<()> {
    let subject = PointerBuf::parse(subject).ok()?;
    let (kind, source) = match &error {
        assign::Error::FailedToParseIndex { source, .. } => ("FailedToParseIndex", cause(source)),
        assign::Error::OutOfBounds { source, .. } => ("OutOfBounds", bounds(source)),
    };
    answer.field("error", kind);
    answer.field("position", error.position());
    answer.field("offset", error.offset());
    answer.field("cause", source);
    answer.field("is_failed_to_parse_index", error.is_failed_to_parse_index());
    answer.field("is_out_of_bounds", error.is_out_of_bounds());
    answer.text("display", &error.to_string());
    label(answer, &error, &subject);
    Some(())
}

pub fn addresses(answer: &mut Answer) {
    answer.text("ParseError", ParseError::url());
    answer.text("EncodingError", EncodingError::url());
    answer.text("ParseIndexError", ParseIndexError::url());
    answer.text("resolve::Error", resolve::Error::url());
    answer.text("assign::Error", assign::Error::url());
}
