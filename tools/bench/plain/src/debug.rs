//! Debugger commands over a full log of what was overwritten.
use crate::machine::{num, Machine, Outcome, Skip};
use crate::sched::Schedule;
use std::time::Instant;

#[derive(Clone, Copy, PartialEq)]
enum Tok<'a> { W(&'a [u8]), N(u64), Bad }
#[derive(Clone, Copy, PartialEq)]
enum Mark { Break(u64, u64), Watch(u8, u64, u64) }

fn tokens(l: &[u8]) -> Vec<Tok<'_>> {
    let mut v = vec![];
    let mut i = 0;
    while i < l.len() {
        let s = i;
        match l[i] {
            b'#' => break,
            b' ' | b'\t' | b'\r' => i += 1,
            b'0'..=b'9' => {
                while i < l.len() && l[i].is_ascii_digit() { i += 1 }
                let t = std::str::from_utf8(&l[s..i]).unwrap_or("");
                v.push(match t.parse() { Ok(x) if t.len() == 1 || l[s] != b'0' => Tok::N(x), _ => Tok::Bad });
                if i < l.len() && l[i].is_ascii_lowercase() { v.push(Tok::Bad) }
            }
            b'a'..=b'z' => {
                while i < l.len() && l[i].is_ascii_lowercase() { i += 1 }
                v.push(Tok::W(&l[s..i]));
                if i < l.len() && l[i].is_ascii_digit() { v.push(Tok::Bad) }
            }
            _ => { v.push(Tok::Bad); i += 1 }
        }
    }
    v
}

pub struct Session<'m, 'c> { m: &'m mut Machine<'c>, s: &'m Schedule, marks: Vec<Mark>, outs: Vec<Outcome> }

pub enum Cmd { Step(u64), Back(u64), Goto(u64), Run, Rrun, Break(u64, u64), Clear(u64, u64), Watch(u8, u64, u64), Unwatch(u8, u64, u64), Show(u8, u64, u64), ShowP(u64), Values, Events, Where }

pub fn read(text: &[u8]) -> Result<Vec<(Cmd, Vec<u8>)>, String> {
    if text.len() > 1_048_576 { return Err("refused: G7 TooLong".into()) }
    let mut v = vec![];
    for (k, l) in text.split(|&c| c == b'\n').enumerate() {
        let t = tokens(l);
        if t.is_empty() { continue }
        if v.len() == 10_000 { return Err("refused: G7 TooLong".into()) }
        use Tok::{N, W};
        let addr = |x: &[Tok]| match *x {
            [W(b @ (b"r" | b"v")), N(i)] => Some((b[0], i, 0)),
            [W(b @ (b"q" | b"p")), N(i), N(j)] => Some((b[0], i, j)),
            _ => None,
        };
        let c = match t[..] {
            [W(b"step"), N(x)] => Some(Cmd::Step(x)),
            [W(b"back"), N(x)] => Some(Cmd::Back(x)),
            [W(b"goto"), N(x)] => Some(Cmd::Goto(x)),
            [W(b"run")] => Some(Cmd::Run),
            [W(b"rrun")] => Some(Cmd::Rrun),
            [W(b"break"), N(i), N(n)] => Some(Cmd::Break(i, n)),
            [W(b"clear"), N(i), N(n)] => Some(Cmd::Clear(i, n)),
            [W(b"watch"), ..] => addr(&t[1..]).map(|a| Cmd::Watch(a.0, a.1, a.2)),
            [W(b"unwatch"), ..] => addr(&t[1..]).map(|a| Cmd::Unwatch(a.0, a.1, a.2)),
            [W(b"show"), N(i)] => Some(Cmd::ShowP(i)),
            [W(b"show"), ..] => addr(&t[1..]).map(|a| Cmd::Show(a.0, a.1, a.2)),
            [W(b"values")] => Some(Cmd::Values),
            [W(b"events")] => Some(Cmd::Events),
            [W(b"where")] => Some(Cmd::Where),
            _ => None,
        }.ok_or(format!("refused: G1 BadCommand {}", k + 1))?;
        let mut echo = b">".to_vec();
        for x in &t { echo.push(b' '); match x { N(x) => num(&mut echo, *x), W(x) => echo.extend_from_slice(x), Tok::Bad => {} } }
        echo.push(b'\n');
        v.push((c, echo));
    }
    Ok(v)
}

impl<'m, 'c> Session<'m, 'c> {
    pub fn open(m: &'m mut Machine<'c>, s: &'m Schedule) -> Self { Session { m, s, marks: vec![], outs: Vec::new() } }
    fn total(&self) -> u64 { self.s.items.len() as u64 }
    fn on(&mut self) {
        let o = self.m.apply::<true, false>(self.s.items[self.m.t as usize], &self.s.calls);
        self.outs.push(o);
    }
    fn off(&mut self) { let k = self.m.t as usize - 1; self.m.revert(self.s.items[k]); self.outs.pop(); }
    /// Is the present position a stop?
    fn stop(&self) -> bool {
        if self.m.t == 0 || self.marks.is_empty() { return false }
        let i = (self.s.items[self.m.t as usize - 1] & 255) as u64;
        let at = if self.m.status(i) == 1 { self.m.c.nums[self.m.line(i) as usize] } else { 0 };
        let wrote = self.m.last_write();
        self.marks.iter().any(|k| match *k {
            Mark::Break(p, n) => p == i && n == at,
            Mark::Watch(b, x, y) => wrote.is_some_and(|(g, _)| self.m.address(b, x, y).is_some_and(|a| a.0 == g)),
        })
    }
    fn place(&self, o: &mut Vec<u8>) { o.extend_from_slice(b"position "); num(o, self.m.t as u64); o.extend_from_slice(b" of "); num(o, self.total()); o.push(b'\n') }
    fn set(&mut self, o: &mut Vec<u8>, k: Mark, on: bool) {
        let has = self.marks.iter().position(|x| *x == k);
        match (has, on) {
            (None, true) => { if self.marks.len() == 64 { o.extend_from_slice(b"refused: G6 TooManyMarks\n"); return } self.marks.push(k) }
            (Some(p), false) => { self.marks.remove(p); }
            _ => {}
        }
        o.extend_from_slice(b"marks "); num(o, self.marks.len() as u64); o.push(b'\n');
    }
    pub fn command(&mut self, c: &Cmd, o: &mut Vec<u8>) {
        let total = self.total();
        match *c {
            Cmd::Step(k) => { for _ in 0..k.min(total - self.m.t as u64) { self.on() } self.place(o) }
            Cmd::Back(k) => { for _ in 0..k.min(self.m.t as u64) { self.off() } self.place(o) }
            Cmd::Goto(t) => {
                if t > total { o.extend_from_slice(b"refused: G5 NoSuchPosition\n"); return }
                while (self.m.t as u64) < t { self.on() }
                while self.m.t as u64 > t { self.off() }
                self.place(o)
            }
            Cmd::Run => {
                if self.marks.is_empty() { while (self.m.t as u64) < total { self.on() } }
                else { while (self.m.t as u64) < total { self.on(); if self.stop() { break } } }
                self.place(o)
            }
            Cmd::Rrun => { while self.m.t > 0 { self.off(); if self.stop() { break } } self.place(o) }
            Cmd::Break(i, n) | Cmd::Clear(i, n) => {
                if i < 1 || i > self.s.n as u64 { o.extend_from_slice(b"refused: G3 NoSuchProcess\n"); return }
                if !self.m.c.has_line(n) { o.extend_from_slice(b"refused: G2 NoSuchLine\n"); return }
                self.set(o, Mark::Break(i, n), matches!(c, Cmd::Break(..)))
            }
            Cmd::Watch(b, i, j) | Cmd::Unwatch(b, i, j) => {
                if self.m.address(b, i, j).is_none() { o.extend_from_slice(b"refused: G4 NoSuchRegister\n"); return }
                self.set(o, Mark::Watch(b, i, j), matches!(c, Cmd::Watch(..)))
            }
            Cmd::Show(b, i, j) => if self.m.address(b, i, j).is_none() { o.extend_from_slice(b"refused: G4 NoSuchRegister\n") } else { self.m.register_line(o, b, i, j) },
            Cmd::ShowP(i) => if i < 1 || i > self.s.n as u64 { o.extend_from_slice(b"refused: G3 NoSuchProcess\n") } else { self.m.process_lines(o, i) },
            Cmd::Values => self.m.values_line(o),
            Cmd::Events => { o.extend_from_slice(b"events "); num(o, self.m.events.len() as u64); o.push(b'\n'); for e in &self.m.events { self.m.event_line(o, e) } }
            Cmd::Where => {
                self.place(o);
                match self.outs.last() {
                    None => o.extend_from_slice(b"last none\n"),
                    Some(x) => {
                        o.extend_from_slice(b"last ");
                        num(o, (self.s.items[self.m.t as usize - 1] & 255) as u64);
                        match x {
                            Outcome::Called => o.extend_from_slice(b" called"),
                            Outcome::Stepped => o.extend_from_slice(b" stepped"),
                            Outcome::Finished => o.extend_from_slice(b" finished"),
                            Outcome::Answered => { o.extend_from_slice(b" answered"); let a = self.m.answers.len() - self.m.c.w; crate::machine::list(o, &self.m.answers[a..]) }
                            Outcome::Trapped(c) => { o.extend_from_slice(b" trapped "); o.extend_from_slice(crate::machine::TRAPS[*c as usize - 2].as_bytes()) }
                            Outcome::Skipped(r) => { o.extend_from_slice(b" skipped "); o.extend_from_slice(match r { Skip::Trapped => b"Trapped".as_slice(), Skip::Busy => b"Busy", Skip::Idle => b"Idle", Skip::NoSuchWord => b"NoSuchWord", Skip::NotOwner => b"NotOwner" }) }
                        }
                        o.push(b'\n');
                    }
                }
                for i in 1..=self.s.n as u64 { self.m.head_line(o, i) }
            }
        }
    }
    pub fn perform(&mut self, cmds: &[(Cmd, Vec<u8>)], time: bool, o: &mut Vec<u8>) {
        for (c, echo) in cmds {
            o.extend_from_slice(echo);
            let t = Instant::now();
            self.command(c, o);
            if time {
                let ns = t.elapsed().as_nanos();
                eprintln!("time {ns} ns position {} undo {} bytes {}", self.m.t, (self.m.undo.log.len() + self.m.undo.heads.len()) * 8, String::from_utf8_lossy(echo).trim_end());
            }
        }
    }
}
