//! Steps, replies and the things that sessions read, with their texts.
use crate::facts::*;
use crate::reading::Report;
use crate::versions::*;
use crate::writing::*;
use std::io::Write;
use std::sync::Arc;

#[derive(Clone, Copy, PartialEq, Eq, Debug)]
pub enum Kind {
    Review,
    Amend,
}

#[derive(Clone, PartialEq, Eq, Hash)]
pub enum Thing {
    Report(Str),
    Id(Str, Str),
    Cell(Str, DimKey),
    Range(Str, Str, Asked, Option<Str>, Option<Str>),
    Policy(Str),
}

pub enum Step {
    Load { name: Str, report: Report },
    Open(Kind),
    Get { report: Str, id: Str },
    Cell { report: Str, dims: DimKey },
    Page { report: Str, concept: Str, asked: Asked, after: Option<Str>, limit: usize },
    Add { report: Str, id: Str, raw: RawFact },
    Remove { report: Str, id: Str },
    Declared { report: Str },
    Declare { report: Str, allowed: Allowed },
    Commit,
    Close,
}

pub enum Reply {
    Loaded(u64),
    NameTaken,
    NameInUse,
    NoSession,
    Opened,
    Closed,
    Found(Arc<Fact>),
    Absent,
    NoReport,
    Cell(Class, Vec<Str>),
    Page(Vec<Str>, bool),
    Staged,
    Taken,
    ReadOnly,
    BadFact(Word),
    Committed(u64),
    Conflict(u64, Thing),
    Disallowed(Str, Class, Vec<Str>),
    Declared(Allowed),
}

fn put_ids(out: &mut Vec<u8>, ids: &[Str]) {
    out.push(b'[');
    for (i, id) in ids.iter().enumerate() {
        if i > 0 {
            out.push(b',');
        }
        put_str(out, id);
    }
    out.push(b']');
}

fn put_asked(out: &mut Vec<u8>, a: &Asked) {
    match a {
        Asked::Any => out.extend_from_slice(b"true"),
        Asked::Without => out.extend_from_slice(b"null"),
        Asked::Text(t) => put_str(out, t),
    }
}

fn put_row(out: &mut Vec<u8>, word: &str, texts: &[&str]) {
    out.push(b'[');
    put_str(out, word);
    for t in texts {
        out.push(b',');
        put_str(out, t);
    }
}

impl Thing {
    fn put(&self, out: &mut Vec<u8>) {
        match self {
            Thing::Report(r) => put_row(out, "report", &[r]),
            Thing::Policy(r) => put_row(out, "policy", &[r]),
            Thing::Id(r, id) => put_row(out, "id", &[r, id]),
            Thing::Cell(r, d) => {
                put_row(out, "cell", &[r]);
                out.push(b',');
                put_dims(out, &d.set);
            }
            Thing::Range(r, c, asked, after, upto) => {
                put_row(out, "range", &[r, c]);
                out.push(b',');
                put_asked(out, asked);
                out.push(b',');
                put_opt(out, after.as_deref());
                out.push(b',');
                put_opt(out, upto.as_deref());
            }
        }
        out.push(b']');
    }

    /// The number of its last touch.
    pub fn stamp(&self, v: &Version) -> u64 {
        let rep = |r: &Str| v.report(r);
        match self {
            Thing::Report(r) => rep(r).map_or(0, |r| r.loaded),
            Thing::Policy(r) => rep(r).map_or(0, |r| r.policy_stamp),
            Thing::Id(r, id) => rep(r).map_or(0, |r| r.stamp_id(id)),
            Thing::Cell(r, d) => rep(r).map_or(0, |r| r.stamp_cell(d)),
            Thing::Range(r, c, asked, after, upto) => {
                rep(r).map_or(0, |r| r.stamp_range(c, asked, after.as_deref(), upto.as_deref()))
            }
        }
    }
}

impl Reply {
    pub fn put(&self, out: &mut Vec<u8>) {
        match self {
            Reply::Loaded(n) => write!(out, "[\"loaded\",{n}]").unwrap(),
            Reply::NameTaken => out.extend_from_slice(b"[\"name-taken\"]"),
            Reply::NameInUse => out.extend_from_slice(b"[\"name-in-use\"]"),
            Reply::NoSession => out.extend_from_slice(b"[\"no-session\"]"),
            Reply::Opened => out.extend_from_slice(b"[\"opened\"]"),
            Reply::Closed => out.extend_from_slice(b"[\"closed\"]"),
            Reply::Found(f) => {
                out.extend_from_slice(b"[\"fact\",");
                put_fact(out, f);
                out.push(b']');
            }
            Reply::Absent => out.extend_from_slice(b"[\"none\"]"),
            Reply::NoReport => out.extend_from_slice(b"[\"no-report\"]"),
            Reply::Cell(c, ids) => {
                write!(out, "[\"cell\",\"{}\",", c.word()).unwrap();
                put_ids(out, ids);
                out.push(b']');
            }
            Reply::Page(ids, more) => {
                out.extend_from_slice(b"[\"page\",");
                put_ids(out, ids);
                write!(out, ",{more}]").unwrap();
            }
            Reply::Staged => out.extend_from_slice(b"[\"staged\"]"),
            Reply::Taken => out.extend_from_slice(b"[\"taken\"]"),
            Reply::ReadOnly => out.extend_from_slice(b"[\"read-only\"]"),
            Reply::BadFact(w) => write!(out, "[\"bad-fact\",\"{w}\"]").unwrap(),
            Reply::Committed(n) => write!(out, "[\"committed\",{n}]").unwrap(),
            Reply::Conflict(n, t) => {
                write!(out, "[\"conflict\",{n},").unwrap();
                t.put(out);
                out.push(b']');
            }
            Reply::Disallowed(r, c, ids) => {
                put_row(out, "disallowed", &[r, c.word()]);
                out.push(b',');
                put_ids(out, ids);
                out.push(b']');
            }
            Reply::Declared(a) => write!(out, "[\"declared\",\"{}\"]", a.word()).unwrap(),
        }
    }
}

impl Step {
    /// The report that a step of a session asks or changes.
    pub fn report(&self) -> &Str {
        match self {
            Step::Get { report, .. }
            | Step::Cell { report, .. }
            | Step::Page { report, .. }
            | Step::Add { report, .. }
            | Step::Remove { report, .. }
            | Step::Declared { report }
            | Step::Declare { report, .. } => report,
            Step::Load { .. } | Step::Open(_) | Step::Commit | Step::Close => unreachable!(),
        }
    }

    /// The step's text in a history.
    pub fn put(&self, out: &mut Vec<u8>) {
        match self {
            Step::Load { name, report } => {
                put_row(out, "load", &[name]);
                out.push(b',');
                put_report(out, &report.info, report.facts.iter().map(|(k, f)| (k, f)));
            }
            Step::Open(k) => put_row(out, "open", &[if *k == Kind::Amend { "amend" } else { "review" }]),
            Step::Get { report, id } => put_row(out, "get", &[report, id]),
            Step::Cell { report, dims } => {
                put_row(out, "cell", &[report]);
                out.push(b',');
                put_dims(out, &dims.set);
            }
            Step::Page { report, concept, asked, after, limit } => {
                put_row(out, "page", &[report, concept]);
                out.push(b',');
                put_asked(out, asked);
                out.push(b',');
                put_opt(out, after.as_deref());
                write!(out, ",{limit}").unwrap();
            }
            Step::Add { report, id, raw } => {
                put_row(out, "add", &[report, id]);
                out.push(b',');
                put_raw(out, raw);
            }
            Step::Remove { report, id } => put_row(out, "remove", &[report, id]),
            Step::Declared { report } => put_row(out, "declared", &[report]),
            Step::Declare { report, allowed } => put_row(out, "declare", &[report, allowed.word()]),
            Step::Commit => put_row(out, "commit", &[]),
            Step::Close => put_row(out, "close", &[]),
        }
        out.push(b']');
    }
}
