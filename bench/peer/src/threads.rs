//! `threads`: scripts side by side over one core behind a lock. Reviews read the version that was published last, without it.
use crate::facts::Table;
use crate::lines::{blank, line_of, Bad, Line};
use crate::repository::Core;
use crate::sessions::Session;
use crate::steps::{Kind, Reply, Step};
use crate::versions::Version;
use std::collections::HashMap;
use std::sync::{Arc, Mutex, RwLock};

struct Office {
    core: Mutex<Core>,
    published: RwLock<Arc<Version>>,
}

enum Used {
    Locked(u64),
    Review(Session),
}

impl Office {
    fn step(&self, session: Option<u64>, step: Step) -> (Option<u64>, Reply) {
        let mut core = self.core.lock().unwrap();
        let answer = core.step(session, step).unwrap();
        if matches!(answer.1, Reply::Committed(_) | Reply::Loaded(_)) {
            *self.published.write().unwrap() = core.current.clone();
        }
        answer
    }

    fn take(&self, names: &mut HashMap<String, Used>, name: String, step: Step) -> Reply {
        let ends = matches!(step, Step::Commit | Step::Close);
        match (names.get_mut(&name), step) {
            (Some(_), Step::Open(_)) => Reply::NameInUse,
            (None, Step::Open(Kind::Review)) => {
                let base = self.published.read().unwrap().clone();
                names.insert(name, Used::Review(Session::open(Kind::Review, base)));
                Reply::Opened
            }
            (None, step @ Step::Open(Kind::Amend)) => {
                let (number, reply) = self.step(None, step);
                names.insert(name, Used::Locked(number.unwrap()));
                reply
            }
            (None, _) => Reply::NoSession,
            (Some(Used::Review(_)), _) if ends => {
                names.remove(&name);
                Reply::Closed
            }
            (Some(Used::Review(session)), step) => session.step(step),
            (Some(Used::Locked(number)), step) => {
                let number = *number;
                if ends {
                    names.remove(&name);
                }
                self.step(Some(number), step).1
            }
        }
    }

    fn replies(&self, script: &[u8], table: &Arc<Table>) -> Vec<u8> {
        let mut out = Vec::new();
        let mut names = HashMap::new();
        for line in script.split(|b| *b == b'\n').filter(|line| !blank(line)) {
            match line_of(line, table) {
                Err(Bad::Line) | Ok(Line::Export(_)) => out.extend_from_slice(b"[\"bad-line\"]"),
                Err(Bad::Reply(reply)) => out.extend_from_slice(&reply),
                Ok(Line::Load(step)) => self.step(None, step).1.put(&mut out),
                Ok(Line::Of(name, step)) => self.take(&mut names, name, step).put(&mut out),
            }
            out.push(b'\n');
        }
        out
    }
}

/// The replies to each script.
pub fn run(table: &Arc<Table>, scripts: &[Vec<u8>]) -> Vec<Vec<u8>> {
    let core = Core::new(false);
    let office = Office { published: RwLock::new(core.current.clone()), core: Mutex::new(core) };
    let told = std::thread::scope(|scope| {
        let threads: Vec<_> = scripts.iter().map(|script| scope.spawn(|| office.replies(script, table))).collect();
        threads.into_iter().map(|thread| thread.join().unwrap()).collect()
    });
    std::mem::forget(office); // its memory is not given back piece by piece
    told
}
