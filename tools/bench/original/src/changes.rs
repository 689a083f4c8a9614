//! Calls that use their input up, or write to it.

use crate::{least_of_batches, least_of_turns};
use jsonptr::{assign, resolve, Assign, Delete, Pointer, PointerBuf, Resolve, ResolveMut};
use std::hint::black_box;

pub fn least_of(words: &[&str]) -> Option<u64> {
    match *words {
        ["edit", call, pointer, argument, times] => edit(call, pointer, argument, times.parse().ok()?),
        [call, "json", document, pointer, value, copies] => {
            let read = |text: &str| serde_json::from_str::<serde_json::Value>(text).ok();
            on_document(call, read(document)?, pointer, read(value)?, copies.parse().ok()?)
        }
        [call, "toml", document, pointer, value, copies] => {
            let read = |text: &str| toml::from_str::<toml::value::Table>(&format!("v = {text}\n")).ok()?.remove("v");
            on_document(call, read(document)?, pointer, read(value)?, copies.parse().ok()?)
        }
        _ => None,
    }
}

/// So many times the same edit, of one pointer.
fn edit(call: &str, pointer: &str, argument: &str, times: u64) -> Option<u64> {
    let start = PointerBuf::parse(pointer).ok()?;
    let other = Pointer::parse(argument).unwrap_or(Pointer::root());
    let place = start.count() / 2;
    let turn: Box<dyn Fn(&mut PointerBuf)> = match call {
        "push_back" => Box::new(|pointer| (0..times).for_each(|_| pointer.push_back(argument))),
        "push_front" => Box::new(|pointer| (0..times).for_each(|_| pointer.push_front(argument))),
        "pop_back" => Box::new(|pointer| (0..times).for_each(|_| drop(pointer.pop_back()))),
        "pop_front" => Box::new(|pointer| (0..times).for_each(|_| drop(pointer.pop_front()))),
        "append" => Box::new(|pointer| (0..times).for_each(|_| {
            pointer.append(other);
        })),
        "replace" => Box::new(|pointer| (0..times).for_each(|_| drop(pointer.replace(place, argument)))),
        _ => return None,
    };
    Some(least_of_batches(times, || start.clone(), turn))
}

fn on_document<D>(call: &str, document: D, pointer: &str, value: D, copies: usize) -> Option<u64>
where
    D: Clone
        + Resolve<Value = D, Error = resolve::Error>
        + ResolveMut<Value = D, Error = resolve::Error>
        + Assign<Value = D, Error = assign::Error>
        + Delete<Value = D>,
{
    let pointer = Pointer::parse(pointer).ok()?;
    let make = || vec![(document.clone(), Some(value.clone())); copies];
    let operations = copies as u64;
    Some(match call {
        "resolve" => least_of_turns(1, || black_box(pointer).resolve(black_box(&document)).is_ok()),
        "resolve_mut" => {
            let mut document = document;
            least_of_turns(1, || black_box(pointer).resolve_mut(black_box(&mut document)).is_ok())
        }
        "assign" => least_of_batches(operations, make, |states| {
            for (document, value) in states {
                let value = value.take().expect("a value");
                let _ = black_box(pointer.assign(document, value));
            }
        }),
        "delete" => least_of_batches(operations, make, |states| {
            for (document, _) in states {
                black_box(pointer.delete(document));
            }
        }),
        _ => return None,
    })
}
