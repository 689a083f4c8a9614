//! Pointers: reading, cutting, comparing, editing.

use crate::answer::{escaped, list, option, Answer};
use jsonptr::{Component, Pointer, PointerBuf, Token};
use std::ops::Bound;

fn encoded(token: Option<Token<'_>>) -> String {
    option(token.map(|token| token.encoded().to_string()))
}

fn text(pointer: Option<&Pointer>) -> String {
    escaped(&option(pointer.map(Pointer::as_str)))
}

/// Two halves that are texts, or none.
fn halves(halves: Option<(&str, &str)>) -> String {
    match halves {
        Some((a, b)) => list([a, b]),
        None => "None".to_string(),
    }
}

pub fn reads(answer: &mut Answer, pointer: &str) -> Option<()> {
    let pointer = Pointer::parse(pointer).ok()?;
    answer.text("text", pointer.as_str());
    answer.text("display", &pointer.to_string());
    answer.text("owned", pointer.to_buf().as_str());
    answer.field("count", pointer.count());
    answer.field("len", pointer.len());
    answer.field("is_empty", pointer.is_empty());
    answer.field("is_root", pointer.is_root());
    answer.field("tokens", list(pointer.tokens().map(|token| token.encoded().to_string())));
    answer.field(
        "components",
        list(pointer.components().map(|component| match component {
            Component::Root => "Root".to_string(),
            Component::Token(token) => format!("={}", token.decoded()),
        })),
    );
    answer.text("json", &pointer.to_json_value().to_string());
    answer.text("front", &encoded(pointer.front()));
    answer.text("first", &encoded(pointer.first()));
    answer.text("back", &encoded(pointer.back()));
    answer.text("last", &encoded(pointer.last()));
    answer.field("parent", text(pointer.parent()));
    let front = pointer.split_front();
    answer.field("split_front", halves(front.as_ref().map(|(token, rest)| (token.encoded(), rest.as_str()))));
    let back = pointer.split_back();
    answer.field("split_back", halves(back.as_ref().map(|(rest, token)| (rest.as_str(), token.encoded()))));
    Some(())
}

fn bound(bound: &str) -> Option<Bound<usize>> {
    if bound == "unbounded" {
        return Some(Bound::Unbounded);
    }
    let (kind, place) = bound.split_once(' ')?;
    let place = place.parse().ok()?;
    match kind {
        "included" => Some(Bound::Included(place)),
        "excluded" => Some(Bound::Excluded(place)),
        _ => None,
    }
}

pub fn get(answer: &mut Answer, pointer: &str, kind: &str, bounds: &[&str]) -> Option<()> {
    let pointer = Pointer::parse(pointer).ok()?;
    if let ("bounds", [start, end]) = (kind, bounds) {
        let pair = (bound(start)?, bound(end)?);
        answer.guarded("got", || text(pointer.get(pair)));
        return Some(());
    }
    let places: Vec<usize> = bounds.iter().map(|place| place.parse().ok()).collect::<Option<_>>()?;
    answer.guarded("got", || match (kind, places.as_slice()) {
        ("at", &[place]) => escaped(&encoded(pointer.get(place))),
        ("range", &[a, b]) => text(pointer.get(a..b)),
        ("from", &[a]) => text(pointer.get(a..)),
        ("to", &[b]) => text(pointer.get(..b)),
        ("all", &[]) => text(pointer.get(..)),
        ("inclusive", &[a, b]) => text(pointer.get(a..=b)),
        ("to inclusive", &[b]) => text(pointer.get(..=b)),
        _ => "unknown".to_string(),
    });
    Some(())
}

pub fn split_at_offset(answer: &mut Answer, pointer: &str, offset: usize) -> Option<()> {
    let split = Pointer::parse(pointer).ok()?.split_at_offset(offset);
    answer.field("split", halves(split.map(|(a, b)| (a.as_str(), b.as_str()))));
    Some(())
}

pub fn two_pointers(answer: &mut Answer, a: &str, b: &str) -> Option<()> {
    let (a, b) = (Pointer::parse(a).ok()?, Pointer::parse(b).ok()?);
    answer.field("starts_with", a.starts_with(b));
    answer.field("ends_with", a.ends_with(b));
    answer.guarded("strip_prefix", || text(a.strip_prefix(b)));
    answer.guarded("strip_suffix", || text(a.strip_suffix(b)));
    answer.text("intersection", a.intersection(b).as_str());
    answer.text("concat", a.concat(b).as_str());
    answer.field("eq", a == b);
    answer.field("cmp", format!("{:?}", a.cmp(b)));
    answer.field("owned_eq", a.to_buf() == b.to_buf());
    answer.field("owned_cmp", format!("{:?}", a.to_buf().cmp(&b.to_buf())));
    Some(())
}

pub fn from_tokens(answer: &mut Answer, tokens: &[&str]) {
    let pointer = PointerBuf::from_tokens(tokens.iter().copied());
    answer.text("text", pointer.as_str());
}

pub fn edit(answer: &mut Answer, pointer: &str, edits: &[&str]) -> Option<()> {
    let mut pointer = PointerBuf::parse(pointer).ok()?;
    for edit in edits {
        let (name, argument) = edit.split_once(' ').unwrap_or((edit, ""));
        let reply = match name {
            "push_front" => {
                pointer.push_front(argument);
                "done".to_string()
            }
            "push_back" => {
                pointer.push_back(argument);
                "done".to_string()
            }
            "pop_front" => encoded(pointer.pop_front()),
            "pop_back" => encoded(pointer.pop_back()),
            "append" => {
                pointer.append(Pointer::parse(argument).ok()?);
                "done".to_string()
            }
            "replace" => {
                let (place, text) = argument.split_once(' ')?;
                match pointer.replace(place.parse().ok()?, text) {
                    Ok(old) => encoded(old),
                    Err(error) => format!("{},{} {error}", error.index, error.count),
                }
            }
            "clear" => {
                pointer.clear();
                "done".to_string()
            }
            "with_leading_token" => pointer.with_leading_token(argument).as_str().to_string(),
            "with_trailing_token" => pointer.with_trailing_token(argument).as_str().to_string(),
            _ => return None,
        };
        answer.text(name, &reply);
        answer.text("text", pointer.as_str());
    }
    Some(())
}
