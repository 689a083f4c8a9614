//! Calls that can be made again and again.

use crate::least_of_turns;
use jsonptr::index::Index;
use jsonptr::{Pointer, Token};
use std::hint::black_box;

pub fn least_of(words: &[&str]) -> Option<u64> {
    match *words {
        ["parse", text] => Some(least_of_turns(1, || Pointer::parse(black_box(text)).is_ok())),
        ["from_encoded", text] => Some(least_of_turns(1, || Token::from_encoded(black_box(text)).is_ok())),
        ["new", text] => Some(least_of_turns(1, || Token::new(black_box(text)).encoded().len())),
        ["decoded", text] => {
            let token = Token::new(text);
            Some(least_of_turns(1, || black_box(&token).decoded().len()))
        }
        ["index", text] => Some(least_of_turns(1, || black_box(text).parse::<Index>().is_ok())),
        [call, pointer] => reading(call, Pointer::parse(pointer).ok()?),
        [call, pointer, other] => with_other(call, Pointer::parse(pointer).ok()?, other),
        ["range", pointer, start, end] => {
            let pointer = Pointer::parse(pointer).ok()?;
            let (start, end): (usize, usize) = (start.parse().ok()?, end.parse().ok()?);
            Some(least_of_turns(1, || black_box(pointer).get(start..black_box(end)).is_some()))
        }
        _ => None,
    }
}

fn reading(call: &str, pointer: &Pointer) -> Option<u64> {
    let count = pointer.count().max(1) as u64;
    Some(match call {
        "tokens" => least_of_turns(count, || {
            black_box(pointer).tokens().map(|token| token.encoded().len()).sum::<usize>()
        }),
        "decoded tokens" => least_of_turns(count, || {
            black_box(pointer).tokens().map(|token| token.decoded().len()).sum::<usize>()
        }),
        "split_front" => least_of_turns(count, || {
            let (mut rest, mut sum) = (black_box(pointer), 0);
            while let Some((token, behind)) = rest.split_front() {
                sum += token.encoded().len();
                rest = behind;
            }
            sum
        }),
        "split_back" => least_of_turns(count, || {
            let (mut rest, mut sum) = (black_box(pointer), 0);
            while let Some((before, token)) = rest.split_back() {
                sum += token.encoded().len();
                rest = before;
            }
            sum
        }),
        "count" => least_of_turns(1, || black_box(pointer).count()),
        "front" => least_of_turns(1, || black_box(pointer).front().is_some()),
        "back" => least_of_turns(1, || black_box(pointer).back().is_some()),
        "parent" => least_of_turns(1, || black_box(pointer).parent().is_some()),
        "to_buf" => least_of_turns(1, || black_box(pointer).to_buf()),
        _ => return None,
    })
}

fn with_other(call: &str, pointer: &Pointer, other: &str) -> Option<u64> {
    match call {
        "get" => {
            let place: usize = other.parse().ok()?;
            return Some(least_of_turns(1, || black_box(pointer).get(black_box(place)).is_some()));
        }
        "split_at_offset" => {
            let offset: usize = other.parse().ok()?;
            return Some(least_of_turns(1, || {
                black_box(pointer).split_at_offset(black_box(offset)).is_some()
            }));
        }
        _ => {}
    }
    let other = Pointer::parse(other).ok()?;
    Some(match call {
        "starts_with" => least_of_turns(1, || black_box(pointer).starts_with(other)),
        "ends_with" => least_of_turns(1, || black_box(pointer).ends_with(other)),
        "strip_prefix" => least_of_turns(1, || black_box(pointer).strip_prefix(other).is_some()),
        "strip_suffix" => least_of_turns(1, || black_box(pointer).strip_suffix(other).is_some()),
        "intersection" => least_of_turns(1, || black_box(pointer).intersection(other).len()),
        "concat" => least_of_turns(1, || black_box(pointer).concat(other)),
        "eq" => least_of_turns(1, || black_box(pointer) == other),
        "cmp" => least_of_turns(1, || black_box(pointer).cmp(other)),
        _ => return None,
    })
}
