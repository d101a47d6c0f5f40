//! Reports, facts and the numeric table, read from JSON and text.
use crate::facts::*;
use serde_json::Value;
use std::collections::{HashMap, HashSet};
use std::sync::Arc;

/// The names of numeric concepts by namespace, or the number of a line that is wrong.
pub fn read_table(text: &str) -> Result<Table, usize> {
    let mut table = Table::new();
    for (at, line) in text.lines().enumerate().filter(|(_, line)| !line.is_empty()) {
        match line.split_once(' ') {
            Some((space, name)) if !space.is_empty() && !name.is_empty() && !name.contains(' ') => {
                table.entry(space.to_string()).or_default().insert(name.to_string());
            }
            _ => return Err(at + 1),
        }
    }
    Ok(table)
}

fn whole_numbers(v: &Value) -> bool {
    match v {
        Value::Number(n) => n.is_i64() || n.is_u64(),
        Value::Array(a) => a.iter().all(whole_numbers),
        Value::Object(o) => o.values().all(whole_numbers),
        _ => true,
    }
}

/// Texts that come again and again in one report are held once.
#[derive(Default)]
pub struct Interner(HashSet<Str>);
impl Interner {
    pub fn get(&mut self, s: &str) -> Str {
        if let Some(x) = self.0.get(s) {
            return x.clone();
        }
        let x: Str = s.into();
        self.0.insert(x.clone());
        x
    }
}

pub fn dims_of(o: &serde_json::Map<String, Value>, mut text: impl FnMut(&str) -> Str) -> Result<Arc<DimSet>, Word> {
    let mut pairs = Vec::with_capacity(o.len());
    for (k, v) in o {
        pairs.push((
            text(k),
            match v {
                Value::Null => None,
                Value::String(s) => Some(text(s)),
                _ => return Err("wrong-shape"),
            },
        ));
    }
    Ok(Arc::new(DimSet::of(pairs)?))
}

fn decimals_of(value: Option<&Value>) -> Result<Option<i64>, Word> {
    match value {
        None | Some(Value::Null) => Ok(None),
        Some(Value::Number(n)) => n.as_i64().map(Some).ok_or("not-whole"),
        _ => Err("wrong-shape"),
    }
}

fn links_of(value: Option<&Value>) -> Result<Option<String>, Word> {
    match value {
        None => Ok(None),
        Some(links @ Value::Object(_)) if whole_numbers(links) => Ok(Some(links.to_string())),
        Some(Value::Object(_)) => Err("not-whole"),
        _ => Err("wrong-shape"),
    }
}

pub fn raw_fact(mut fact: Value, text: impl FnMut(&str) -> Str) -> Result<RawFact, Word> {
    let members = fact.as_object_mut().ok_or("wrong-shape")?;
    match members.get("dimensions") {
        Some(Value::Object(d)) if d.values().all(|v| v.is_string() || v.is_null()) => {}
        _ => return Err("wrong-shape"),
    }
    let value = match members.get_mut("value") {
        Some(Value::String(s)) => Some(std::mem::take(s)),
        Some(Value::Null) => None,
        _ => return Err("wrong-shape"),
    };
    let decimals = decimals_of(members.get("decimals"))?;
    let links = links_of(members.get("links"))?;
    let dims = dims_of(members["dimensions"].as_object().ok_or("wrong-shape")?, text)?;
    Ok(RawFact { dims, value, decimals, links })
}

pub struct Report {
    pub info: String,
    pub names: Names,
    pub allowed: Allowed,
    /// in byte order of identifiers
    pub facts: Vec<(Str, Arc<Fact>)>,
}

pub enum ReportFault {
    Plain(Word),
    Fact(String, Word),
}

pub fn parse_json(b: &[u8]) -> Result<Value, ReportFault> {
    let b = b.strip_prefix(b"\xef\xbb\xbf").unwrap_or(b);
    serde_json::from_slice(b).map_err(|_| ReportFault::Plain("not-json"))
}

impl From<Word> for ReportFault {
    fn from(word: Word) -> ReportFault {
        ReportFault::Plain(word)
    }
}

fn allowed_of(features: Option<&Value>) -> Result<Allowed, Word> {
    let Some(features) = features else { return Ok(Allowed::All) };
    match features.as_object().ok_or("wrong-shape")?.get("xbrl:allowedDuplicates") {
        None => Ok(Allowed::All),
        Some(word) => word.as_str().and_then(Allowed::read).ok_or("bad-policy"),
    }
}

fn prefixes_of(namespaces: Option<&Value>) -> Result<HashMap<String, String>, Word> {
    let Some(namespaces) = namespaces else { return Ok(HashMap::new()) };
    let namespaces = namespaces.as_object().ok_or("wrong-shape")?;
    if !namespaces.values().all(Value::is_string) {
        return Err("wrong-shape");
    }
    let named: HashMap<String, String> =
        namespaces.iter().filter_map(|(prefix, uri)| Some((prefix.clone(), uri.as_str()?.to_string()))).collect();
    match named.values().collect::<HashSet<_>>().len() == named.len() {
        true => Ok(named),
        false => Err("alias-twice"),
    }
}

fn facts_of(facts: Option<&mut Value>, names: &Names) -> Result<Vec<(Str, Arc<Fact>)>, ReportFault> {
    let Some(facts) = facts else { return Ok(Vec::new()) };
    let facts = std::mem::take(facts.as_object_mut().ok_or("wrong-shape")?);
    let mut found = Vec::with_capacity(facts.len());
    let mut texts = Interner::default();
    for (id, fact) in facts {
        match raw_fact(fact, |text| texts.get(text)).and_then(|raw| fit(names, raw)) {
            Ok(fact) => found.push((id.into(), Arc::new(fact))),
            Err(word) => return Err(ReportFault::Fact(id, word)),
        }
    }
    Ok(found)
}

pub fn report_of(mut report: Value, table: &Arc<Table>) -> Result<Report, ReportFault> {
    let members = report.as_object_mut().ok_or("wrong-shape")?;
    let info_value = members.get("documentInfo").ok_or("wrong-shape")?;
    let info = info_value.as_object().ok_or("wrong-shape")?;
    if info.get("documentType").and_then(Value::as_str) != Some("https://xbrl.org/2021/xbrl-json") {
        return Err(ReportFault::Plain("wrong-document-type"));
    }
    let allowed = allowed_of(info.get("features"))?;
    let prefixes = Arc::new(prefixes_of(info.get("namespaces"))?);
    if !whole_numbers(info_value) {
        return Err(ReportFault::Plain("not-whole"));
    }
    let info = info_value.to_string();
    let names = Names { prefixes, table: table.clone() };
    let facts = facts_of(members.get_mut("facts"), &names)?;
    Ok(Report { info, names, allowed, facts })
}
