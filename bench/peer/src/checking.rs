//! `check`: a history is judged by taking its steps again.
use crate::facts::Table;
use crate::lines::{blank, step_of};
use crate::repository::Core;
use serde_json::Value;
use std::io::{BufRead, Result};
use std::sync::Arc;

/// Whether the core admits an entry. The text of what it makes is compared.
fn stands(core: &mut Core, table: &Arc<Table>, line: &[u8]) -> Option<bool> {
    let Ok(Value::Array(mut entry)) = serde_json::from_slice(line) else {
        return None;
    };
    let [session, step, _reply] = &mut entry[..] else {
        return None;
    };
    let session = match session {
        Value::Null => None,
        number => Some(number.as_u64()?),
    };
    let Value::Array(parts) = step else {
        return None;
    };
    let Value::String(word) = parts.first()?.clone() else {
        return None;
    };
    if word == "load" && !parts.get(2)?.is_object() {
        return None;
    }
    let step = step_of(&word, parts.drain(1..).collect(), table).ok()?;
    if core.step(session, step)?.0 != session {
        return None;
    }
    let made = core.history.as_ref()?;
    let made = &made[..made.len() - 1];
    Some(made == line || made == serde_json::from_slice::<Value>(line).ok()?.to_string().as_bytes())
}

/// The index of the first entry that departs from what the core makes.
pub fn departs<R: BufRead>(table: &Arc<Table>, mut input: R) -> Result<Option<u64>> {
    let mut core = Core::new(true);
    let (mut line, mut index) = (Vec::new(), 0);
    let found = loop {
        line.clear();
        if input.read_until(b'\n', &mut line)? == 0 {
            break None;
        }
        line.pop_if(|c| *c == b'\n');
        if blank(&line) {
            continue;
        }
        core.history.as_mut().unwrap().clear();
        if stands(&mut core, table, &line) != Some(true) {
            break Some(index);
        }
        index += 1;
    };
    std::mem::forget(core); // its memory is not given back piece by piece
    Ok(found)
}
