//! Documents at a pointer: JSON, and TOML.

use crate::answer::{escaped, Answer};
use crate::labels;
use jsonptr::{assign, resolve, Assign, Delete, Pointer, Resolve, ResolveMut};
use std::mem;

/// A kind of document: how one is read and shown.
trait Kind: Sized {
    fn read(text: &str) -> Option<Self>;
    fn shown(&self) -> String;
}

impl Kind for serde_json::Value {
    fn read(text: &str) -> Option<Self> {
        serde_json::from_str(text).ok()
    }

    fn shown(&self) -> String {
        self.to_string()
    }
}

impl Kind for toml::Value {
    /// The value of the member `v` of a TOML document.
    fn read(text: &str) -> Option<Self> {
        let mut document: toml::value::Table = toml::from_str(&format!("v = {text}\n")).ok()?;
        document.remove("v")
    }

    fn shown(&self) -> String {
        match self {
            toml::Value::Table(members) => {
                let members: Vec<_> =
                    members.iter().map(|(key, value)| format!("{key}: {}", value.shown())).collect();
                format!("{{{}}}", members.join(", "))
            }
            toml::Value::Array(items) => {
                let items: Vec<_> = items.iter().map(Kind::shown).collect();
                format!("[{}]", items.join(", "))
            }
            toml::Value::String(text) => format!("'{text}'"),
            toml::Value::Integer(number) => number.to_string(),
            toml::Value::Boolean(flag) => flag.to_string(),
            toml::Value::Datetime(date) => date.to_string(),
            toml::Value::Float(_) => "float".to_string(),
        }
    }
}

fn shown<D: Kind>(value: Option<&D>) -> String {
    match value {
        Some(value) => format!("={}", escaped(&value.shown())),
        None => "None".to_string(),
    }
}

pub fn resolve(answer: &mut Answer, kind: &str, document: &str, pointer: &str) -> Option<()> {
    match kind {
        "json" => resolve_in::<serde_json::Value>(answer, document, pointer),
        "toml" => resolve_in::<toml::Value>(answer, document, pointer),
        _ => None,
    }
}

fn resolve_in<D>(answer: &mut Answer, document: &str, pointer: &str) -> Option<()>
where
    D: Kind + Resolve<Value = D, Error = resolve::Error>,
{
    let document = D::read(document)?;
    match Pointer::parse(pointer).ok()?.resolve(&document) {
        Ok(value) => answer.text("value", &value.shown()),
        Err(error) => labels::resolve(answer, error, pointer)?,
    }
    Some(())
}

pub fn write(answer: &mut Answer, kind: &str, document: &str, pointer: &str, value: &str) -> Option<()> {
    match kind {
        "json" => write_in::<serde_json::Value>(answer, document, pointer, value),
        "toml" => write_in::<toml::Value>(answer, document, pointer, value),
        _ => None,
    }
}

fn write_in<D>(answer: &mut Answer, document: &str, pointer: &str, value: &str) -> Option<()>
where
    D: Kind + ResolveMut<Value = D, Error = resolve::Error>,
{
    let mut document = D::read(document)?;
    let value = D::read(value)?;
    match Pointer::parse(pointer).ok()?.resolve_mut(&mut document) {
        Ok(place) => answer.text("old", &mem::replace(place, value).shown()),
        Err(error) => labels::resolve(answer, error, pointer)?,
    }
    answer.text("document", &document.shown());
    Some(())
}

pub fn assign(answer: &mut Answer, kind: &str, document: &str, pointer: &str, value: &str) -> Option<()> {
    match kind {
        "json" => assign_in::<serde_json::Value>(answer, document, pointer, value),
        "toml" => assign_in::<toml::Value>(answer, document, pointer, value),
        _ => None,
    }
}

fn assign_in<D>(answer: &mut Answer, document: &str, pointer: &str, value: &str) -> Option<()>
where
    D: Kind + Assign<Value = D, Error = assign::Error>,
{
    let mut document = D::read(document)?;
    let value = D::read(value)?;
    match Pointer::parse(pointer).ok()?.assign(&mut document, value) {
        Ok(old) => answer.field("old", shown(old.as_ref())),
        Err(error) => labels::assign(answer, error, pointer)?,
    }
    answer.text("document", &document.shown());
    Some(())
}

pub fn delete(answer: &mut Answer, kind: &str, document: &str, pointer: &str) -> Option<()> {
    match kind {
        "json" => delete_in::<serde_json::Value>(answer, document, pointer),
        "toml" => delete_in::<toml::Value>(answer, document, pointer),
        _ => None,
    }
}

fn delete_in<D>(answer: &mut Answer, document: &str, pointer: &str) -> Option<()>
where
    D: Kind + Delete<Value = D>,
{
    let mut document = D::read(document)?;
    let old = Pointer::parse(pointer).ok()?.delete(&mut document);
    answer.field("old", shown(old.as_ref()));
    answer.text("document", &document.shown());
    Some(())
}
