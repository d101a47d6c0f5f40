//! `run`: one script, each line answered by a line.
use crate::facts::{Str, Table};
use crate::lines::{blank, line_of, Bad, Line};
use crate::repository::Core;
use crate::steps::Step;
use crate::writing::put_report;
use std::collections::HashMap;
use std::io::{BufRead, Result, Write};
use std::sync::Arc;

/// A buffer that is larger is given back, and a history's text that is as long is written.
const LARGE: usize = 1 << 20;

/// The core of one script, and the numbers of its sessions by their names.
struct Desk {
    core: Core,
    names: HashMap<String, u64>,
}

impl Desk {
    fn export(&self, name: Str, out: &mut Vec<u8>) {
        match self.core.current.report(&name) {
            None => out.extend_from_slice(b"[\"no-report\"]"),
            Some(held) => {
                out.extend_from_slice(b"[\"report\",");
                put_report(out, &held.info, held.facts());
                out.push(b']');
            }
        }
    }

    fn take(&mut self, name: String, step: Step, out: &mut Vec<u8>) {
        let used = self.names.get(&name).copied();
        let opening = matches!(step, Step::Open(_));
        match (opening, used) {
            (true, Some(_)) => out.extend_from_slice(b"[\"name-in-use\"]"),
            (false, None) => out.extend_from_slice(b"[\"no-session\"]"),
            _ => {
                let end = matches!(step, Step::Commit | Step::Close);
                let (number, reply) = self.core.step(used, step).unwrap();
                if opening {
                    self.names.insert(name, number.unwrap());
                } else if end {
                    self.names.remove(&name);
                }
                reply.put(out);
            }
        }
    }

    fn answer(&mut self, line: &[u8], table: &Arc<Table>, out: &mut Vec<u8>) {
        match line_of(line, table) {
            Err(Bad::Line) => out.extend_from_slice(b"[\"bad-line\"]"),
            Err(Bad::Reply(reply)) => out.extend_from_slice(&reply),
            Ok(Line::Export(name)) => self.export(name, out),
            Ok(Line::Load(step)) => self.core.step(None, step).unwrap().1.put(out),
            Ok(Line::Of(name, step)) => self.take(name, step, out),
        }
    }

    /// Writes the history's text once there is more of it than this.
    fn keep<H: Write>(&mut self, history: &mut Option<H>, more_than: usize) -> Result<()> {
        if let (Some(file), Some(text)) = (history, &mut self.core.history) {
            if text.len() > more_than {
                file.write_all(text)?;
                text.clear();
            }
        }
        Ok(())
    }
}

pub fn run<R: BufRead, W: Write, H: Write>(
    table: &Arc<Table>,
    mut input: R,
    mut output: W,
    mut history: Option<H>,
) -> Result<()> {
    let mut desk = Desk { core: Core::new(history.is_some()), names: HashMap::new() };
    let (mut line, mut out) = (Vec::new(), Vec::new());
    while input.read_until(b'\n', &mut line)? > 0 {
        line.pop_if(|c| *c == b'\n');
        if !blank(&line) {
            desk.answer(&line, table, &mut out);
            out.push(b'\n');
            output.write_all(&out)?;
            desk.keep(&mut history, LARGE)?;
        }
        for buffer in [&mut line, &mut out] {
            buffer.clear();
            if buffer.capacity() > LARGE {
                *buffer = Vec::new();
            }
        }
    }
    desk.keep(&mut history, 0)?;
    output.flush()?;
    std::mem::forget(desk); // its memory is not given back piece by piece
    Ok(())
}
