//! The repository with its open sessions, and the text of its history.
use crate::facts::Str;
use crate::reading::Report;
use crate::sessions::Session;
use crate::steps::{Kind, Reply, Step};
use crate::versions::{HeldReport, Version};
use std::collections::HashMap;
use std::io::Write;
use std::sync::Arc;

pub struct Core {
    pub current: Arc<Version>,
    sessions: HashMap<u64, Session>,
    opened: u64,
    /// The history's text that nobody has taken yet, where one is kept.
    pub history: Option<Vec<u8>>,
}

impl Core {
    pub fn new(keep: bool) -> Core {
        Core { current: Arc::default(), sessions: HashMap::new(), opened: 0, history: keep.then(Vec::new) }
    }

    /// `None` where the session is not open. An opening answers its session's number.
    pub fn step(&mut self, session: Option<u64>, step: Step) -> Option<(Option<u64>, Reply)> {
        let session = match step {
            Step::Open(_) => {
                self.opened += 1;
                Some(self.opened)
            }
            Step::Load { .. } => None,
            _ => {
                let s = session?;
                if !self.sessions.contains_key(&s) {
                    return None;
                }
                Some(s)
            }
        };
        if let Some(h) = &mut self.history {
            match session {
                Some(n) => write!(h, "[{n},").unwrap(),
                None => h.extend_from_slice(b"[null,"),
            }
            step.put(h);
            h.push(b',');
        }
        let reply = self.make(session, step);
        if let Some(h) = &mut self.history {
            reply.put(h);
            h.extend_from_slice(b"]\n");
        }
        Some((session, reply))
    }

    fn make(&mut self, session: Option<u64>, step: Step) -> Reply {
        match (step, session) {
            (Step::Load { name, report }, _) => self.load(name, report),
            (Step::Open(kind), Some(number)) => {
                self.sessions.insert(number, Session::open(kind, self.current.clone()));
                Reply::Opened
            }
            (Step::Close, Some(number)) => {
                self.sessions.remove(&number);
                Reply::Closed
            }
            (Step::Commit, Some(number)) => self.commit(number),
            (step, Some(number)) => self.sessions.get_mut(&number).unwrap().step(step),
            (_, None) => unreachable!(),
        }
    }

    fn load(&mut self, name: Str, report: Report) -> Reply {
        if self.current.report(&name).is_some() {
            return Reply::NameTaken;
        }
        let held = HeldReport::of(report, self.current.number + 1);
        if let Some((class, ids)) = held.disallowed() {
            return Reply::Disallowed(name, class, ids);
        }
        self.current = Arc::new(self.current.with_report(name, held));
        Reply::Loaded(self.current.number)
    }

    fn commit(&mut self, number: u64) -> Reply {
        let session = self.sessions.remove(&number).unwrap();
        if session.kind == Kind::Review {
            return Reply::Closed;
        }
        if let Some((number, thing)) = session.conflict(&self.current) {
            return Reply::Conflict(number, thing);
        }
        match self.current.after(&session.staged) {
            Ok(version) => {
                self.current = Arc::new(version);
                Reply::Committed(self.current.number)
            }
            Err((report, class, ids)) => Reply::Disallowed(report, class, ids),
        }
    }
}
