//! Unchanging versions: persistent maps by identifier, by cell, by concept and period, each entry with the number of
//! the last commit or load that touched it.
use crate::facts::*;
use crate::map::Map;
use crate::reading::Report;
use crate::writing::with_allowed;
use std::collections::{BTreeMap, HashMap};
use std::ops::Bound;
use std::sync::Arc;

/// A concept and a period.
type PeriodKey = (Str, Option<Str>);

#[derive(Clone, PartialEq, Eq, Hash)]
pub enum Asked {
    Any,
    Without,
    Text(Str),
}
impl Asked {
    fn takes(&self, period: Option<&Str>) -> bool {
        match self {
            Asked::Any => true,
            Asked::Without => period.is_none(),
            Asked::Text(t) => period == Some(t),
        }
    }
}

#[derive(Clone, Default)]
struct IdEntry {
    fact: Option<Arc<Fact>>,
    stamp: u64,
}

#[derive(Clone, Default)]
enum Ids {
    #[default]
    None,
    One(Str),
    Many(Map<Str, ()>),
}
impl Ids {
    fn add(&mut self, id: &Str) {
        match self {
            Ids::None => *self = Ids::One(id.clone()),
            Ids::One(x) if x == id => {}
            Ids::One(x) => {
                let mut m = Map::default();
                m.insert(x.clone(), ());
                m.insert(id.clone(), ());
                *self = Ids::Many(m);
            }
            Ids::Many(m) => m.insert(id.clone(), ()),
        }
    }
    fn take(&mut self, id: &str) {
        match self {
            Ids::One(x) if **x == *id => *self = Ids::None,
            Ids::Many(m) => {
                m.remove(id);
            }
            _ => {}
        }
    }
    fn list(&self) -> Vec<Str> {
        match self {
            Ids::None => vec![],
            Ids::One(x) => vec![x.clone()],
            Ids::Many(m) => m.iter().map(|(k, _)| k.clone()).collect(),
        }
    }
}

#[derive(Clone, Default)]
struct Cell {
    stamp: u64,
    ids: Ids,
}

/// A row stays after its fact is gone, for the stamps of ranges.
#[derive(Clone)]
struct Row {
    there: bool,
    stamp: u64,
}

#[derive(Clone)]
pub struct HeldReport {
    pub info: Arc<str>,
    pub names: Names,
    pub allowed: Allowed,
    pub loaded: u64,
    pub policy_stamp: u64,
    ids: Map<Str, IdEntry>,
    cells: Map<DimKey, Cell>,
    periods: Map<PeriodKey, Map<Str, Row>>,
    concepts: Map<Str, Map<Str, Row>>,
}

/// Cells from pairs that are sorted by them.
fn grouped(pairs: Vec<(DimKey, Str)>) -> Vec<(DimKey, Cell)> {
    let mut groups: Vec<(DimKey, Cell)> = Vec::with_capacity(pairs.len());
    let mut pairs = pairs.into_iter().peekable();
    while let Some((key, id)) = pairs.next() {
        let mut more = vec![];
        while let Some((_, id)) = pairs.next_if(|next| next.0 == key) {
            more.push((id, ()));
        }
        let ids = if more.is_empty() {
            Ids::One(id)
        } else {
            more.insert(0, (id, ()));
            Ids::Many(Map::from_sorted(more))
        };
        groups.push((key, Cell { stamp: 0, ids }));
    }
    groups
}

pub struct Staged {
    pub facts: BTreeMap<Str, Option<Arc<Fact>>>,
    pub declared: Option<Allowed>,
}

impl HeldReport {
    pub fn of(report: Report, number: u64) -> HeldReport {
        let mut cells: Vec<(DimKey, Str)> = Vec::with_capacity(report.facts.len());
        let mut periods: HashMap<PeriodKey, Vec<(Str, Row)>> = HashMap::new();
        let mut concepts: BTreeMap<Str, Vec<(Str, Row)>> = BTreeMap::new();
        let row = Row { there: true, stamp: 0 };
        for (id, fact) in &report.facts {
            cells.push((fact.key.clone(), id.clone()));
            let key = (fact.dims().concept().clone(), fact.dims().period().cloned());
            concepts.entry(key.0.clone()).or_default().push((id.clone(), row.clone()));
            periods.entry(key).or_default().push((id.clone(), row.clone()));
        }
        cells.sort_by(|a, b| a.0.cmp(&b.0));
        let mut periods: Vec<(PeriodKey, Map<Str, Row>)> =
            periods.into_iter().map(|(key, rows)| (key, Map::from_sorted(rows))).collect();
        periods.sort_by(|a, b| a.0.cmp(&b.0));
        let ids = report.facts.into_iter().map(|(id, fact)| (id, IdEntry { fact: Some(fact), stamp: 0 })).collect();
        let concepts = concepts.into_iter().map(|(key, rows)| (key, Map::from_sorted(rows))).collect();
        HeldReport {
            info: report.info.into(),
            names: report.names,
            allowed: report.allowed,
            loaded: number,
            policy_stamp: 0,
            ids: Map::from_sorted(ids),
            cells: Map::from_sorted(grouped(cells)),
            periods: Map::from_sorted(periods),
            concepts: Map::from_sorted(concepts),
        }
    }

    pub fn get(&self, id: &str) -> Option<&Arc<Fact>> {
        self.ids.get(id)?.fact.as_ref()
    }

    pub fn facts(&self) -> impl Iterator<Item = (&Str, &Arc<Fact>)> {
        self.ids.iter().filter_map(|(k, e)| e.fact.as_ref().map(|f| (k, f)))
    }

    pub fn cell_ids(&self, k: &DimKey) -> Vec<Str> {
        self.cells.get(k).map_or(vec![], |c| c.ids.list())
    }

    fn class(&self, c: &Cell) -> Class {
        match &c.ids {
            Ids::None => Class::Empty,
            Ids::One(_) => Class::Single,
            Ids::Many(m) => class_of(m.iter().map(|(id, _)| &**self.get(id).unwrap())),
        }
    }

    /// Identifiers of a concept's facts of such a period, greater than `after`, in byte order.
    pub fn ids_of<'a>(
        &'a self,
        concept: &Str,
        asked: &Asked,
        after: Option<&str>,
    ) -> Box<dyn Iterator<Item = &'a Str> + 'a> {
        Box::new(self.rows(concept, asked, after).filter(|(_, r)| r.there).map(|(k, _)| k))
    }

    fn rows<'a>(&'a self, concept: &Str, asked: &Asked, after: Option<&str>) -> crate::map::Iter<'a, Str, Row> {
        static EMPTY: std::sync::OnceLock<Map<Str, Row>> = std::sync::OnceLock::new();
        let ids = match asked {
            Asked::Any => self.concepts.get(concept),
            Asked::Without => self.periods.get(&(concept.clone(), None)),
            Asked::Text(t) => self.periods.get(&(concept.clone(), Some(t.clone()))),
        }
        .unwrap_or_else(|| EMPTY.get_or_init(Map::default));
        match after {
            Some(a) => ids.iter_after(a),
            None => ids.iter(),
        }
    }

    pub fn stamp_id(&self, id: &str) -> u64 {
        self.ids.get(id).map_or(0, |e| e.stamp)
    }
    pub fn stamp_cell(&self, k: &DimKey) -> u64 {
        self.cells.get(k).map_or(0, |c| c.stamp)
    }
    pub fn stamp_range(&self, concept: &Str, asked: &Asked, after: Option<&str>, upto: Option<&str>) -> u64 {
        self.rows(concept, asked, after)
            .take_while(|(k, _)| upto.is_none_or(|u| &***k <= u))
            .map(|(_, r)| r.stamp)
            .max()
            .unwrap_or(0)
    }

    /// The staged facts laid over, stamped with `number`.
    fn apply(&mut self, staged: &Staged, number: u64) {
        for (id, new) in &staged.facts {
            let entry = self.ids.entry(&**id);
            let old = entry.and_then(|(_, e)| e.fact.clone());
            if old.is_none() && new.is_none() {
                continue;
            }
            // one allocation for an identifier, whoever names it
            let id = entry.map_or_else(|| id.clone(), |(held, _)| held.clone());
            let fact = new.clone();
            self.ids.update(id.clone(), IdEntry::default, |e| *e = IdEntry { fact, stamp: number });
            for (fact, there) in [(&old, false), (new, true)] {
                if let Some(fact) = fact {
                    self.index(&id, fact, Row { there, stamp: number });
                }
            }
        }
        if let Some(allowed) = staged.declared {
            self.allowed = allowed;
            self.info = with_allowed(&self.info, allowed).into();
            self.policy_stamp = number;
        }
    }

    /// The indexes with a fact that has come or gone.
    fn index(&mut self, id: &Str, fact: &Fact, row: Row) {
        self.cells.update(fact.key.clone(), Cell::default, |cell| {
            cell.stamp = row.stamp;
            match row.there {
                true => cell.ids.add(id),
                false => cell.ids.take(id),
            }
        });
        let change = |rows: &mut Map<Str, Row>| rows.insert(id.clone(), row.clone());
        let concept = fact.dims().concept().clone();
        self.concepts.update(concept.clone(), Map::default, change);
        self.periods.update((concept, fact.dims().period().cloned()), Map::default, change);
    }

    fn least<'a>(&self, keys: impl Iterator<Item = (&'a DimKey, &'a Cell)>) -> Option<(Class, Vec<Str>)> {
        let mut best: Option<(&DimKey, Class, &Cell)> = None;
        for (k, c) in keys {
            if best.as_ref().is_some_and(|b| b.0.set <= k.set) {
                continue;
            }
            let class = self.class(c);
            if !self.allowed.allows(class) {
                best = Some((k, class, c));
            }
        }
        best.map(|(_, class, c)| (class, c.ids.list()))
    }

    pub fn disallowed(&self) -> Option<(Class, Vec<Str>)> {
        if self.allowed == Allowed::All {
            return None;
        }
        self.least(self.cells.iter())
    }

    fn disallowed_among(&self, staged: &Staged) -> Option<(Class, Vec<Str>)> {
        if staged.declared.is_some() {
            return self.disallowed();
        }
        if self.allowed == Allowed::All {
            return None;
        }
        self.least(staged.facts.values().flatten().filter_map(|f| self.cells.get(&f.key).map(|c| (&f.key, c))))
    }
}

#[derive(Clone, Default)]
pub struct Version {
    pub number: u64,
    reports: Map<Str, Arc<HeldReport>>,
}

impl Version {
    pub fn report(&self, name: &str) -> Option<&Arc<HeldReport>> {
        self.reports.get(name)
    }

    pub fn with_report(&self, name: Str, rep: HeldReport) -> Version {
        let mut v = self.clone();
        v.number += 1;
        v.reports.insert(name, Arc::new(rep));
        v
    }

    #[allow(clippy::type_complexity)]
    pub fn after(&self, staged: &BTreeMap<Str, Staged>) -> Result<Version, (Str, Class, Vec<Str>)> {
        let mut v = self.clone();
        v.number += 1;
        let number = v.number;
        for (name, s) in staged {
            let mut rep = (**self.reports.get(&**name).unwrap()).clone();
            rep.apply(s, number);
            if let Some((class, ids)) = rep.disallowed_among(s) {
                return Err((name.clone(), class, ids));
            }
            v.reports.insert(name.clone(), Arc::new(rep));
        }
        Ok(v)
    }
}

/// The part of a staged map greater than `after`.
pub fn staged_after<'a>(
    m: &'a BTreeMap<Str, Option<Arc<Fact>>>,
    after: Option<&str>,
) -> impl Iterator<Item = (&'a Str, &'a Option<Arc<Fact>>)> {
    let low = match after {
        Some(a) => Bound::Excluded(a),
        None => Bound::Unbounded,
    };
    m.range::<str, _>((low, Bound::Unbounded))
}

pub fn asked_takes(concept: &str, asked: &Asked, f: &Fact) -> bool {
    **f.dims().concept() == *concept && asked.takes(f.dims().period())
}
