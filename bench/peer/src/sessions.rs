//! A session: it reads the version of its opening with its own changes laid over, and remembers what it has read.
use crate::facts::*;
use crate::steps::{Kind, Reply, Step, Thing};
use crate::versions::*;
use indexmap::IndexSet;
use std::collections::BTreeMap;
use std::sync::Arc;

pub struct Session {
    pub kind: Kind,
    base: Arc<Version>,
    pub staged: BTreeMap<Str, Staged>,
    reads: IndexSet<Thing>,
}

impl Session {
    pub fn open(kind: Kind, base: Arc<Version>) -> Session {
        Session { kind, base, staged: BTreeMap::new(), reads: IndexSet::new() }
    }

    fn read(&mut self, t: Thing) {
        if self.kind == Kind::Amend {
            self.reads.insert(t);
        }
    }

    fn staged(&mut self, report: &Str) -> &mut Staged {
        if !self.staged.contains_key(&**report) {
            self.staged.insert(report.clone(), Staged { facts: BTreeMap::new(), declared: None });
        }
        self.staged.get_mut(&**report).unwrap()
    }

    /// The fact under `id` with the staged changes laid over.
    fn look<'a>(&'a self, held: &'a HeldReport, report: &str, id: &str) -> Option<&'a Arc<Fact>> {
        match self.staged.get(report).and_then(|s| s.facts.get(id)) {
            Some(f) => f.as_ref(),
            None => held.get(id),
        }
    }

    /// The first thing that it has read and that was touched after its opening, with the number of its last touch.
    pub fn conflict(&self, current: &Version) -> Option<(u64, Thing)> {
        self.reads
            .iter()
            .map(|thing| (thing.stamp(current), thing))
            .find(|it| it.0 > self.base.number)
            .map(|it| (it.0, it.1.clone()))
    }

    /// Steps of sessions but `Open`, `Commit` and `Close`.
    pub fn step(&mut self, step: Step) -> Reply {
        if self.kind == Kind::Review && matches!(step, Step::Add { .. } | Step::Remove { .. } | Step::Declare { .. }) {
            return Reply::ReadOnly;
        }
        let name = step.report().clone();
        let base = self.base.clone();
        let Some(held) = base.report(&name) else {
            self.read(Thing::Report(name));
            return Reply::NoReport;
        };
        match step {
            Step::Get { report, id } => self.get(held, report, id),
            Step::Cell { report, dims } => self.cell(held, report, dims),
            Step::Page { report, concept, asked, after, limit } => {
                self.page(held, report, (concept, asked, after), limit)
            }
            Step::Add { report, id, raw } => self.add(held, report, id, raw),
            Step::Remove { report, id } => self.remove(held, report, id),
            Step::Declared { report } => {
                let allowed = self.staged.get(&*report).and_then(|s| s.declared).unwrap_or(held.allowed);
                self.read(Thing::Policy(report));
                Reply::Declared(allowed)
            }
            Step::Declare { report, allowed } => {
                self.staged(&report).declared = Some(allowed);
                Reply::Staged
            }
            _ => unreachable!(),
        }
    }

    fn get(&mut self, held: &HeldReport, report: Str, id: Str) -> Reply {
        let fact = self.look(held, &report, &id).cloned();
        self.read(Thing::Id(report, id));
        fact.map_or(Reply::Absent, Reply::Found)
    }

    fn cell(&mut self, held: &HeldReport, report: Str, dims: DimKey) -> Reply {
        let mut ids = held.cell_ids(&dims);
        if let Some(staged) = self.staged.get(&*report) {
            ids.retain(|id| !staged.facts.contains_key(id));
            let own = staged.facts.iter().filter(|(_, f)| f.as_ref().is_some_and(|f| f.key == dims));
            ids.extend(own.map(|(id, _)| id.clone()));
            ids.sort();
        }
        let class = class_of(ids.iter().map(|id| &**self.look(held, &report, id).unwrap()));
        self.read(Thing::Cell(report, dims));
        Reply::Cell(class, ids)
    }

    /// A page. It has read up to the first identifier that its limit cut.
    fn page(&mut self, held: &HeldReport, report: Str, range: (Str, Asked, Option<Str>), limit: usize) -> Reply {
        let (concept, asked, after) = range;
        let base = held.ids_of(&concept, &asked, after.as_deref());
        let mut ids: Vec<Str> = Vec::with_capacity(limit + 1);
        match self.staged.get(&*report) {
            None => ids.extend(base.take(limit + 1).cloned()),
            Some(staged) => {
                let own = staged_after(&staged.facts, after.as_deref())
                    .filter(|(_, f)| f.as_ref().is_some_and(|f| asked_takes(&concept, &asked, f)))
                    .map(|(id, _)| id);
                let base = base.filter(|id| !staged.facts.contains_key(*id));
                ids.extend(merged(base, own).take(limit + 1).cloned());
            }
        }
        let more = ids.len() > limit;
        let upto = ids.get(limit).cloned();
        ids.truncate(limit);
        self.read(Thing::Range(report, concept, asked, after, upto));
        Reply::Page(ids, more)
    }

    fn add(&mut self, held: &HeldReport, report: Str, id: Str, raw: RawFact) -> Reply {
        self.read(Thing::Id(report.clone(), id.clone()));
        if self.look(held, &report, &id).is_some() {
            return Reply::Taken;
        }
        match fit(&held.names, raw) {
            Err(word) => Reply::BadFact(word),
            Ok(fact) => {
                self.staged(&report).facts.insert(id, Some(Arc::new(fact)));
                Reply::Staged
            }
        }
    }

    fn remove(&mut self, held: &HeldReport, report: Str, id: Str) -> Reply {
        self.read(Thing::Id(report.clone(), id.clone()));
        if self.look(held, &report, &id).is_none() {
            return Reply::Absent;
        }
        self.staged(&report).facts.insert(id, None);
        Reply::Staged
    }
}

/// Two rising lists as one. No identifier is in both.
fn merged<'a>(
    one: impl Iterator<Item = &'a Str>,
    other: impl Iterator<Item = &'a Str>,
) -> impl Iterator<Item = &'a Str> {
    let (mut one, mut other) = (one.peekable(), other.peekable());
    std::iter::from_fn(move || match (one.peek(), other.peek()) {
        (Some(a), Some(b)) if a < b => one.next(),
        (_, Some(_)) => other.next(),
        (_, None) => one.next(),
    })
}
