//! Lines of scripts and parts of histories, read into steps.
use crate::facts::*;
use crate::reading::*;
use crate::steps::{Kind, Step};
use crate::versions::Asked;
use serde_json::Value;
use std::sync::Arc;

/// Why a line makes no step: it is none, or this reply is due at once.
pub enum Bad {
    Line,
    Reply(Vec<u8>),
}

pub enum Line {
    Load(Step),
    Of(String, Step),
    Export(Str),
}

fn bad_fact(word: Word) -> Bad {
    Bad::Reply(format!("[\"bad-fact\",\"{word}\"]").into_bytes())
}

fn bad_report(fault: ReportFault) -> Bad {
    let reply = match fault {
        ReportFault::Plain(word) => serde_json::json!(["bad-report", word]),
        ReportFault::Fact(id, word) => serde_json::json!(["bad-report", "bad-fact", id, word]),
    };
    Bad::Reply(reply.to_string().into_bytes())
}

fn text(value: &Value) -> Result<Str, Bad> {
    value.as_str().map(Into::into).ok_or(Bad::Line)
}

fn text_or_null(value: &Value) -> Result<Option<Str>, Bad> {
    match value {
        Value::Null => Ok(None),
        Value::String(s) => Ok(Some(s.as_str().into())),
        _ => Err(Bad::Line),
    }
}

fn load_of(name: Str, report: Value, table: &Arc<Table>) -> Result<Step, Bad> {
    let value = match report {
        Value::Object(_) => report,
        Value::String(s) => parse_json(s.as_bytes()).map_err(bad_report)?,
        _ => return Err(Bad::Line),
    };
    let report = report_of(value, table).map_err(bad_report)?;
    Ok(Step::Load { name, report })
}

fn kind_of(value: &Value) -> Result<Kind, Bad> {
    match value.as_str() {
        Some("review") => Ok(Kind::Review),
        Some("amend") => Ok(Kind::Amend),
        _ => Err(Bad::Line),
    }
}

fn cell_of(report: Str, dims: &Value) -> Result<Step, Bad> {
    match dims {
        Value::Object(o) if o.values().all(|v| v.is_null() || v.is_string()) => {
            let dims = DimKey::new(dims_of(o, |t| t.into()).map_err(bad_fact)?);
            Ok(Step::Cell { report, dims })
        }
        _ => Err(Bad::Line),
    }
}

fn page_of(parts: &[Value]) -> Result<Step, Bad> {
    Ok(Step::Page {
        report: text(&parts[0])?,
        concept: text(&parts[1])?,
        asked: match &parts[2] {
            Value::Bool(true) => Asked::Any,
            v => text_or_null(v)?.map_or(Asked::Without, Asked::Text),
        },
        after: text_or_null(&parts[3])?,
        limit: match parts[4].as_u64() {
            Some(n @ 1..=1000) => n as usize,
            _ => return Err(Bad::Line),
        },
    })
}

fn add_of(report: Str, id: Str, fact: Value) -> Result<Step, Bad> {
    match fact {
        Value::Object(_) => Ok(Step::Add { report, id, raw: raw_fact(fact, |t| t.into()).map_err(bad_fact)? }),
        _ => Err(Bad::Line),
    }
}

/// A step from its word and the parts after the session's name.
pub fn step_of(word: &str, mut parts: Vec<Value>, table: &Arc<Table>) -> Result<Step, Bad> {
    match (word, parts.len()) {
        ("load", 2) => load_of(text(&parts[0])?, parts.remove(1), table),
        ("open", 1) => Ok(Step::Open(kind_of(&parts[0])?)),
        ("get", 2) => Ok(Step::Get { report: text(&parts[0])?, id: text(&parts[1])? }),
        ("cell", 2) => cell_of(text(&parts[0])?, &parts[1]),
        ("page", 5) => page_of(&parts),
        ("add", 3) => add_of(text(&parts[0])?, text(&parts[1])?, parts.remove(2)),
        ("remove", 2) => Ok(Step::Remove { report: text(&parts[0])?, id: text(&parts[1])? }),
        ("declared", 1) => Ok(Step::Declared { report: text(&parts[0])? }),
        ("declare", 2) => {
            let allowed = parts[1].as_str().and_then(Allowed::read).ok_or(Bad::Line)?;
            Ok(Step::Declare { report: text(&parts[0])?, allowed })
        }
        ("commit", 0) => Ok(Step::Commit),
        ("close", 0) => Ok(Step::Close),
        _ => Err(Bad::Line),
    }
}

pub fn line_of(line: &[u8], table: &Arc<Table>) -> Result<Line, Bad> {
    let mut parts = match serde_json::from_slice(line) {
        Ok(Value::Array(parts)) => parts,
        _ => return Err(Bad::Line),
    };
    let word = match parts.first_mut() {
        Some(Value::String(s)) => std::mem::take(s),
        _ => return Err(Bad::Line),
    };
    match &*word {
        "load" => {
            parts.remove(0);
            Ok(Line::Load(step_of(&word, parts, table)?))
        }
        "export" if parts.len() == 2 => Ok(Line::Export(text(&parts[1])?)),
        _ => match parts.get_mut(1) {
            Some(Value::String(s)) => {
                let session = std::mem::take(s);
                parts.drain(..2);
                Ok(Line::Of(session, step_of(&word, parts, table)?))
            }
            _ => Err(Bad::Line),
        },
    }
}

pub fn blank(line: &[u8]) -> bool {
    line.iter().all(|c| matches!(c, b' ' | b'\t' | b'\r'))
}
