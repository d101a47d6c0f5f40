//! Numerals, dimension sets, facts and how they agree.
use std::collections::{HashMap, HashSet};
use std::hash::{Hash, Hasher};
use std::sync::Arc;

pub type Str = Arc<str>;

pub type Word = &'static str;

/// Digits behind the point.
const FRACTION: u32 = 15;

/// The digits before and behind the point, without zeros that count for nothing.
fn digits(text: &[u8]) -> Result<(&[u8], &[u8]), Word> {
    let (whole, fraction) = match text.iter().position(|c| *c == b'.') {
        Some(at) => (&text[..at], &text[at + 1..]),
        None => (text, &text[..0]),
    };
    if whole.is_empty() && fraction.is_empty() || !whole.iter().chain(fraction).all(u8::is_ascii_digit) {
        return Err("not-a-number");
    }
    let first = whole.iter().position(|c| *c != b'0').unwrap_or(whole.len());
    let end = fraction.iter().rposition(|c| *c != b'0').map_or(0, |at| at + 1);
    Ok((&whole[first..], &fraction[..end]))
}

/// A numeral in units of its last place.
fn read_decimal(text: &str) -> Result<i128, Word> {
    let text = text.trim_matches([' ', '\t', '\n', '\r']).as_bytes();
    let (negative, text) = match text {
        [sign @ (b'+' | b'-'), rest @ ..] => (*sign == b'-', rest),
        _ => (false, text),
    };
    let (whole, fraction) = digits(text)?;
    if whole.len() > 20 || fraction.len() > FRACTION as usize {
        return Err("too-large");
    }
    let number = whole.iter().chain(fraction).fold(0, |number, c| number * 10 + i128::from(c - b'0'));
    let number = number * 10i128.pow(FRACTION - fraction.len() as u32);
    Ok(if negative { -number } else { number })
}

#[derive(Clone, Copy, PartialEq, Eq)]
pub enum Accuracy {
    Exact,
    To(i8),
}

fn interval(n: i128, a: Accuracy) -> (i128, i128) {
    match a {
        Accuracy::Exact => (2 * n, 2 * n),
        Accuracy::To(d) => {
            let h = 10i128.pow((FRACTION as i32 - d as i32) as u32);
            (2 * n - h, 2 * n + h)
        }
    }
}

/// In byte order of names, no name twice.
#[derive(PartialEq, Eq, PartialOrd, Ord, Debug)]
pub struct DimSet(pub Vec<(Str, Option<Str>)>);

const CORE: [&str; 6] = ["concept", "entity", "period", "unit", "language", "noteId"];

impl DimSet {
    /// `pairs` in byte order of names.
    pub fn of(pairs: Vec<(Str, Option<Str>)>) -> Result<DimSet, Word> {
        let mut concept = false;
        let mut long = false;
        for (n, v) in &pairs {
            match v {
                None => {
                    if CORE.contains(&&**n) {
                        return Err("null-core");
                    }
                }
                Some(v) => long |= v.len() > 4096,
            }
            concept |= &**n == "concept";
            long |= n.len() > 4096;
        }
        if !concept {
            return Err("no-concept");
        }
        if long {
            return Err("too-long");
        }
        Ok(DimSet(pairs))
    }
    fn find(&self, name: &str) -> Option<&Str> {
        self.0.iter().find(|(n, _)| &**n == name).and_then(|(_, v)| v.as_ref())
    }
    pub fn concept(&self) -> &Str {
        self.find("concept").unwrap()
    }
    pub fn period(&self) -> Option<&Str> {
        self.find("period")
    }
}

/// A dimension set with its hash: the order is that of the hash first, so that index look-ups seldom compare texts.
#[derive(Clone)]
pub struct DimKey {
    pub hash: u64,
    pub set: Arc<DimSet>,
}
impl DimKey {
    pub fn new(set: Arc<DimSet>) -> DimKey {
        let mut h = Fnv(0xcbf29ce484222325);
        set.0.hash(&mut h);
        DimKey { hash: h.finish(), set }
    }
}
impl PartialEq for DimKey {
    fn eq(&self, o: &Self) -> bool {
        self.cmp(o).is_eq()
    }
}
impl Eq for DimKey {}
impl Hash for DimKey {
    fn hash<H: Hasher>(&self, h: &mut H) {
        h.write_u64(self.hash)
    }
}
impl PartialOrd for DimKey {
    fn partial_cmp(&self, o: &Self) -> Option<std::cmp::Ordering> {
        Some(self.cmp(o))
    }
}
impl Ord for DimKey {
    fn cmp(&self, o: &Self) -> std::cmp::Ordering {
        self.hash.cmp(&o.hash).then_with(|| {
            if Arc::ptr_eq(&self.set, &o.set) {
                std::cmp::Ordering::Equal
            } else {
                self.set.cmp(&o.set)
            }
        })
    }
}

struct Fnv(u64);
impl Hasher for Fnv {
    fn finish(&self) -> u64 {
        let mut x = self.0;
        x ^= x >> 32;
        x = x.wrapping_mul(0x9E3779B97F4A7C15);
        x ^ (x >> 29)
    }
    fn write(&mut self, b: &[u8]) {
        let mut h = self.0;
        let mut c = b.chunks_exact(8);
        for w in &mut c {
            h = (h ^ u64::from_le_bytes(w.try_into().unwrap())).wrapping_mul(0x9E3779B97F4A7C15).rotate_left(23);
        }
        for x in c.remainder() {
            h = (h ^ *x as u64).wrapping_mul(0x100000001b3);
        }
        self.0 = h;
    }
}

pub struct RawFact {
    pub dims: Arc<DimSet>,
    pub value: Option<String>,
    pub decimals: Option<i64>,
    pub links: Option<String>,
}

pub enum FactValue {
    Nil,
    Text(String),
    Number { text: String, n: i128, acc: Accuracy },
}

pub struct Fact {
    pub key: DimKey,
    pub value: FactValue,
    pub links: Option<String>,
}
impl Fact {
    pub fn dims(&self) -> &DimSet {
        &self.key.set
    }
}

pub type Table = HashMap<String, HashSet<String>>;

#[derive(Clone)]
pub struct Names {
    pub prefixes: Arc<HashMap<String, String>>,
    pub table: Arc<Table>,
}

impl Names {
    fn split<'a>(&self, name: &'a str) -> Result<(&str, &'a str), Word> {
        match name.split_once(':') {
            Some((p, l)) if !p.is_empty() && !l.is_empty() => match self.prefixes.get(p) {
                Some(u) => Ok((u, l)),
                None => Err("unbound-prefix"),
            },
            _ => Err("unbound-prefix"),
        }
    }
}

fn number_of(text: String, decimals: Option<i64>) -> Result<FactValue, Word> {
    let n = read_decimal(&text)?;
    let acc = match decimals {
        None => Accuracy::Exact,
        Some(d) if (-20..=FRACTION as i64).contains(&d) => Accuracy::To(d as i8),
        Some(_) => return Err("decimals-out-of-range"),
    };
    Ok(FactValue::Number { text, n, acc })
}

/// A fact by the names of its report.
pub fn fit(names: &Names, raw: RawFact) -> Result<Fact, Word> {
    let (uri, local) = names.split(raw.dims.concept())?;
    for (name, _) in raw.dims.0.iter().filter(|(name, _)| !CORE.contains(&&**name)) {
        names.split(name)?;
    }
    let numeric = names.table.get(uri).is_some_and(|names| names.contains(local));
    let unit = raw.dims.0.iter().any(|(name, _)| &**name == "unit");
    if !numeric && (unit || raw.decimals.is_some() && raw.value.is_some()) {
        return Err("misplaced");
    }
    let value = match raw.value {
        None => FactValue::Nil,
        Some(text) if numeric => number_of(text, raw.decimals)?,
        Some(text) => FactValue::Text(text),
    };
    Ok(Fact { key: DimKey::new(raw.dims), value, links: raw.links })
}

#[derive(Clone, Copy, PartialEq, Eq, PartialOrd, Ord, Debug)]
pub enum Class {
    Empty,
    Single,
    Complete,
    Consistent,
    Inconsistent,
}
impl Class {
    pub fn word(self) -> Word {
        match self {
            Class::Empty => "empty",
            Class::Single => "single",
            Class::Complete => "complete",
            Class::Consistent => "consistent",
            Class::Inconsistent => "inconsistent",
        }
    }
}

#[derive(Clone, Copy, PartialEq, Eq, Debug)]
pub enum Allowed {
    Never,
    Complete,
    Consistent,
    All,
}
impl Allowed {
    pub fn read(w: &str) -> Option<Allowed> {
        Some(match w {
            "none" => Allowed::Never,
            "complete" => Allowed::Complete,
            "consistent" => Allowed::Consistent,
            "all" => Allowed::All,
            _ => return None,
        })
    }
    pub fn word(self) -> Word {
        match self {
            Allowed::Never => "none",
            Allowed::Complete => "complete",
            Allowed::Consistent => "consistent",
            Allowed::All => "all",
        }
    }
    pub fn allows(self, c: Class) -> bool {
        match self {
            Allowed::Never => c <= Class::Single,
            Allowed::Complete => c <= Class::Complete,
            Allowed::Consistent => c <= Class::Consistent,
            Allowed::All => true,
        }
    }
}

/// The facts of one cell. Complete pairs are an equivalence, so all are compared with the first; intervals on a line
/// that meet two by two have a common part, so one interval is narrowed.
pub fn class_of<'a>(mut facts: impl Iterator<Item = &'a Fact>) -> Class {
    let first = match facts.next() {
        None => return Class::Empty,
        Some(f) => f,
    };
    let mut class = Class::Single;
    let mut common = match &first.value {
        FactValue::Number { n, acc, .. } => interval(*n, *acc),
        _ => (0, 0),
    };
    for f in facts {
        match (&first.value, &f.value) {
            (FactValue::Nil, FactValue::Nil) => class = class.max(Class::Complete),
            (FactValue::Text(a), FactValue::Text(b)) if a == b => class = class.max(Class::Complete),
            (FactValue::Number { n, acc, .. }, FactValue::Number { n: m, acc: acc2, .. }) => {
                let complete = n == m && acc == acc2;
                let (lo, hi) = interval(*m, *acc2);
                common = (common.0.max(lo), common.1.min(hi));
                if common.0 > common.1 {
                    return Class::Inconsistent;
                }
                class = class.max(if complete { Class::Complete } else { Class::Consistent });
            }
            _ => return Class::Inconsistent,
        }
    }
    class
}
