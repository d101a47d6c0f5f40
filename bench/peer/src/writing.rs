//! Texts of facts and reports: compact JSON, members in byte order of their names.
use crate::facts::*;
use serde_json::Value;
use std::collections::BTreeMap;
use std::io::Write;
use std::sync::Arc;

pub fn put_str(out: &mut Vec<u8>, s: &str) {
    serde_json::to_writer(&mut *out, s).unwrap()
}

pub fn put_opt(out: &mut Vec<u8>, s: Option<&str>) {
    match s {
        Some(s) => put_str(out, s),
        None => out.extend_from_slice(b"null"),
    }
}

pub fn put_dims(out: &mut Vec<u8>, d: &DimSet) {
    out.push(b'{');
    for (i, (n, v)) in d.0.iter().enumerate() {
        if i > 0 {
            out.push(b',');
        }
        put_str(out, n);
        out.push(b':');
        put_opt(out, v.as_deref());
    }
    out.push(b'}');
}

fn put_parts(out: &mut Vec<u8>, dec: Option<i64>, d: &DimSet, links: Option<&str>, v: Option<&str>) {
    out.push(b'{');
    if let Some(d) = dec {
        write!(out, "\"decimals\":{d},").unwrap();
    }
    out.extend_from_slice(b"\"dimensions\":");
    put_dims(out, d);
    if let Some(l) = links {
        out.extend_from_slice(b",\"links\":");
        out.extend_from_slice(l.as_bytes());
    }
    out.extend_from_slice(b",\"value\":");
    put_opt(out, v);
    out.push(b'}');
}

pub fn put_fact(out: &mut Vec<u8>, f: &Fact) {
    let (dec, v) = match &f.value {
        FactValue::Nil => (None, None),
        FactValue::Text(t) => (None, Some(&**t)),
        FactValue::Number { text, acc: Accuracy::To(d), .. } => (Some(*d as i64), Some(&**text)),
        FactValue::Number { text, .. } => (None, Some(&**text)),
    };
    put_parts(out, dec, f.dims(), f.links.as_deref(), v)
}

pub fn put_raw(out: &mut Vec<u8>, f: &RawFact) {
    put_parts(out, f.decimals, &f.dims, f.links.as_deref(), f.value.as_deref())
}

pub fn put_report<'a>(out: &mut Vec<u8>, info: &str, facts: impl Iterator<Item = (&'a Str, &'a Arc<Fact>)>) {
    out.extend_from_slice(b"{\"documentInfo\":");
    out.extend_from_slice(info.as_bytes());
    out.extend_from_slice(b",\"facts\":{");
    for (i, (id, f)) in facts.enumerate() {
        if i > 0 {
            out.push(b',');
        }
        put_str(out, id);
        out.push(b':');
        put_fact(out, f);
    }
    out.extend_from_slice(b"}}");
}

pub fn with_allowed(info: &str, a: Allowed) -> String {
    let mut v: BTreeMap<String, Value> = serde_json::from_str(info).unwrap();
    let f = v.entry("features".into()).or_insert_with(|| Value::Object(Default::default()));
    f.as_object_mut().unwrap().insert("xbrl:allowedDuplicates".into(), a.word().into());
    serde_json::to_string(&v).unwrap()
}
