//! The text of a listing as a tree. Refusals are not told apart: any fault is `Bad(line)`.
#[derive(Clone, Copy, PartialEq, Eq, Debug)]
pub enum Kind { Seq, Bit, Multi }
#[derive(Clone, Copy, PartialEq, Eq, Debug)]
pub enum Idx { Num(u64), N, W, Me, Word, At, Scalar(usize) }
#[derive(Clone, Copy, PartialEq, Eq, Debug)]
pub enum Fld { Data, Seq, Toggle, Id }
#[derive(Clone, Copy, Debug)]
pub enum Term { Idx(Idx), Arg, Row(usize, Idx), Field(Fld, usize, Idx), Hand(usize, Idx, Idx) }
#[derive(Clone, Copy, Debug)]
pub enum Expr { T(Term), Sum(Term, Term), Not(Term) }
#[derive(Clone, Copy, PartialEq, Eq, Debug)]
pub enum Rel { Eq, Ne, Lt }
#[derive(Clone, Debug)]
pub struct Cond { pub or: bool, pub comps: Vec<(Rel, Term, Term)> }
#[derive(Clone, Copy, PartialEq, Eq, Debug)]
pub enum Rng { N, W }
#[derive(Clone, Debug)]
pub enum Tuple { Seq(Expr, Expr, usize), Bit(Expr, usize, Expr, usize), Multi(Expr, Expr, Expr) }
#[derive(Clone, Debug)]
pub enum Ins {
    LetX(usize, Expr), LetR(usize, Idx, Expr), Get(usize, Idx, Idx), Bit(usize, bool, Idx, Idx), Look(usize, Idx),
    PutWord(Idx, Tuple), PutBit(bool, Idx, Idx, Expr), PutView(Idx, usize),
    ViewData(usize, usize), ViewView(usize, usize, Idx),
    Each(Rng, usize, Expr, Option<Cond>), First(usize, Rng, Cond, u64), Next(usize, Rng, u64),
    If(Cond, u64), IfAll(Rng, Cond, u64), Goto(u64), Call(u64), Return(usize), Finish,
}
pub struct Listing {
    pub kind: Kind, pub scalars: Vec<String>, pub rows: Vec<String>, pub words: Vec<String>, pub views: Vec<String>,
    pub scan: u64, pub update: u64, pub lines: Vec<(u64, Ins)>,
}
#[derive(Clone, Copy, PartialEq, Eq, Debug)]
enum Tok<'a> { W(&'a str), N(u64), P(u8), Bad }
pub struct Bad(pub usize);

fn tokens(line: &[u8]) -> Vec<Tok<'_>> {
    let mut v = Vec::new();
    let mut i = 0;
    while i < line.len() {
        match line[i] {
            b'#' => break,
            b' ' | b'\t' | b'\r' => i += 1,
            b'a'..=b'z' => {
                let s = i;
                while i < line.len() && line[i].is_ascii_lowercase() { i += 1 }
                v.push(Tok::W(std::str::from_utf8(&line[s..i]).unwrap_or("")));
                if i < line.len() && line[i].is_ascii_digit() { v.push(Tok::Bad) }
            }
            b'0'..=b'9' => {
                let s = i;
                while i < line.len() && line[i].is_ascii_digit() { i += 1 }
                let t = std::str::from_utf8(&line[s..i]).unwrap_or("");
                match t.parse::<u64>() {
                    Ok(x) if t.len() == 1 || !t.starts_with('0') => v.push(Tok::N(x)),
                    _ => v.push(Tok::Bad),
                }
                if i < line.len() && line[i].is_ascii_lowercase() { v.push(Tok::Bad) }
            }
            b'!' if line.get(i + 1) == Some(&b'=') => { v.push(Tok::P(b'!')); i += 2 }
            c @ (b':' | b'=' | b'<' | b'+' | b',' | b'(' | b')' | b'[' | b']' | b'@') => { v.push(Tok::P(c)); i += 1 }
            _ => { v.push(Tok::Bad); i += 1 }
        }
    }
    v
}

struct Ps<'a> { t: Vec<Tok<'a>>, i: usize, l: &'a Listing, at_ok: bool }
type R<T> = Option<T>;
impl<'a> Ps<'a> {
    fn peek(&self) -> Option<Tok<'a>> { self.t.get(self.i).copied() }
    fn next(&mut self) -> R<Tok<'a>> { let t = self.peek()?; self.i += 1; Some(t) }
    fn p(&mut self, c: u8) -> R<()> { if self.next()? == Tok::P(c) { Some(()) } else { None } }
    fn is_p(&mut self, c: u8) -> bool { if self.peek() == Some(Tok::P(c)) { self.i += 1; true } else { false } }
    fn w(&mut self, s: &str) -> R<()> { if self.next()? == Tok::W(s) { Some(()) } else { None } }
    fn is_w(&mut self, s: &str) -> bool { if self.peek() == Some(Tok::W(s)) { self.i += 1; true } else { false } }
    fn num(&mut self) -> R<u64> { match self.next()? { Tok::N(x) => Some(x), _ => None } }
    fn name(&mut self) -> R<&'a str> { match self.next()? { Tok::W(s) => Some(s), _ => None } }
    fn find(v: &[String], s: &str) -> R<usize> { v.iter().position(|x| x == s) }
    fn scalar(&mut self) -> R<usize> { let s = self.name()?; Self::find(&self.l.scalars, s) }
    fn words(&mut self) -> R<usize> { let s = self.name()?; Self::find(&self.l.words, s) }
    fn view(&mut self) -> R<usize> { let s = self.name()?; Self::find(&self.l.views, s) }
    fn rng(&mut self) -> R<Rng> { match self.name()? { "n" => Some(Rng::N), "w" => Some(Rng::W), _ => None } }
    fn idx(&mut self) -> R<Idx> {
        match self.next()? {
            Tok::N(x) => Some(Idx::Num(x)),
            Tok::P(b'@') if self.at_ok => Some(Idx::At),
            Tok::W("n") => Some(Idx::N), Tok::W("w") => Some(Idx::W), Tok::W("me") => Some(Idx::Me), Tok::W("word") => Some(Idx::Word),
            Tok::W(s) => Self::find(&self.l.scalars, s).map(Idx::Scalar),
            _ => None,
        }
    }
    fn br(&mut self) -> R<Idx> { self.p(b'[')?; let i = self.idx()?; self.p(b']')?; Some(i) }
    fn term(&mut self) -> R<Term> {
        if let Some(Tok::W(s)) = self.peek() {
            let f = match s { "data" => Some(Fld::Data), "seq" => Some(Fld::Seq), "toggle" => Some(Fld::Toggle), "id" => Some(Fld::Id), _ => None };
            if s == "hand" {
                self.i += 1; self.p(b'(')?; let a = self.words()?; let i = self.br()?; self.p(b',')?; let j = self.idx()?; self.p(b')')?;
                return if self.l.kind == Kind::Bit { Some(Term::Hand(a, i, j)) } else { None };
            }
            if let Some(f) = f {
                let ok = match (self.l.kind, f) { (_, Fld::Data) => true, (Kind::Seq, f) => f == Fld::Seq, (Kind::Bit, f) => f == Fld::Toggle, (Kind::Multi, f) => f != Fld::Seq };
                self.i += 1; self.p(b'(')?; let a = self.words()?; let i = self.br()?; self.p(b')')?;
                return if ok { Some(Term::Field(f, a, i)) } else { None };
            }
            if s == "arg" { self.i += 1; return Some(Term::Arg) }
            if let Some(r) = Self::find(&self.l.rows, s) { self.i += 1; return Some(Term::Row(r, self.br()?)) }
        }
        self.idx().map(Term::Idx)
    }
    fn expr(&mut self) -> R<Expr> {
        if self.is_w("not") { return Some(Expr::Not(self.term()?)) }
        let a = self.term()?;
        if self.is_p(b'+') { return Some(Expr::Sum(a, self.term()?)) }
        Some(Expr::T(a))
    }
    fn cond(&mut self) -> R<Cond> {
        let mut c = Cond { or: false, comps: vec![] };
        loop {
            let a = self.term()?;
            let r = match self.next()? { Tok::P(b'=') => Rel::Eq, Tok::P(b'!') => Rel::Ne, Tok::P(b'<') => Rel::Lt, _ => return None };
            let b = self.term()?;
            c.comps.push((r, a, b));
            let or = match self.peek() { Some(Tok::W("and")) => false, Some(Tok::W("or")) => true, _ => break };
            if c.comps.len() == 4 || (c.comps.len() > 1 && or != c.or) { return None }
            c.or = or;
            self.i += 1;
        }
        Some(c)
    }
    fn ins(&mut self) -> R<Ins> {
        let k = self.l.kind;
        Some(match self.name()? {
            "let" => {
                let s = self.name()?;
                if let Some(x) = Self::find(&self.l.scalars, s) { self.p(b'=')?; Ins::LetX(x, self.expr()?) }
                else { let r = Self::find(&self.l.rows, s)?; let i = self.br()?; self.p(b'=')?; Ins::LetR(r, i, self.expr()?) }
            }
            "get" => { let a = self.words()?; let i = self.br()?; self.p(b'=')?; self.w("r")?; Ins::Get(a, i, self.br()?) }
            "bit" => {
                let x = self.scalar()?; self.p(b'=')?;
                let p = match self.name()? { "q" => false, "p" => true, _ => return None };
                if k == Kind::Seq || (p && k != Kind::Multi) { return None }
                self.p(b'[')?; let i = self.idx()?; self.p(b',')?; let j = self.idx()?; self.p(b']')?;
                Ins::Bit(x, p, i, j)
            }
            "look" => { if k != Kind::Multi { return None } let s = self.view()?; self.p(b'=')?; self.w("v")?; Ins::Look(s, self.br()?) }
            "put" => match self.name()? {
                "r" => {
                    let i = self.br()?; self.p(b'=')?; self.p(b'(')?;
                    let a = self.expr()?; self.p(b',')?;
                    let t = match k {
                        Kind::Seq => { let b = self.expr()?; self.p(b',')?; Tuple::Seq(a, b, self.view()?) }
                        Kind::Bit => { let s = self.name()?; let r = Self::find(&self.l.rows, s)?; self.p(b',')?; let t = self.expr()?; self.p(b',')?; Tuple::Bit(a, r, t, self.view()?) }
                        Kind::Multi => { let b = self.expr()?; self.p(b',')?; Tuple::Multi(a, b, self.expr()?) }
                    };
                    self.p(b')')?;
                    Ins::PutWord(i, t)
                }
                "v" if k == Kind::Multi => { let i = self.br()?; self.p(b'=')?; Ins::PutView(i, self.view()?) }
                b @ ("q" | "p") => {
                    let p = b == "p";
                    if k == Kind::Seq || (p && k != Kind::Multi) { return None }
                    self.p(b'[')?; let i = self.idx()?; self.p(b',')?; let j = self.idx()?; self.p(b']')?; self.p(b'=')?;
                    Ins::PutBit(p, i, j, self.expr()?)
                }
                _ => return None,
            },
            "view" => {
                let s = self.view()?; self.p(b'=')?;
                match self.name()? {
                    "data" => { self.p(b'(')?; let a = self.words()?; self.p(b')')?; Ins::ViewData(s, a) }
                    "view" if k != Kind::Multi => { self.p(b'(')?; let a = self.words()?; let i = self.br()?; self.p(b')')?; Ins::ViewView(s, a, i) }
                    _ => return None,
                }
            }
            "each" => {
                let g = self.rng()?; self.p(b':')?;
                let s = self.name()?; let r = Self::find(&self.l.rows, s)?;
                self.p(b'[')?; self.p(b'@')?; self.p(b']')?; self.p(b'=')?;
                self.at_ok = true;
                let e = self.expr()?;
                let c = if self.is_w("where") { Some(self.cond()?) } else { None };
                Ins::Each(g, r, e, c)
            }
            "first" => { let x = self.scalar()?; let g = self.rng()?; self.p(b':')?; self.at_ok = true; let c = self.cond()?; self.w("goto")?; Ins::First(x, g, c, self.num()?) }
            "next" => { let x = self.scalar()?; let g = self.rng()?; self.w("goto")?; Ins::Next(x, g, self.num()?) }
            "if" => {
                if self.is_w("all") { let g = self.rng()?; self.p(b':')?; self.at_ok = true; let c = self.cond()?; self.w("goto")?; Ins::IfAll(g, c, self.num()?) }
                else { let c = self.cond()?; self.w("goto")?; Ins::If(c, self.num()?) }
            }
            "goto" => Ins::Goto(self.num()?),
            "call" => Ins::Call(self.num()?),
            "return" => Ins::Return(self.view()?),
            "finish" => Ins::Finish,
            _ => return None,
        })
    }
}

pub fn read(text: &[u8]) -> Result<Listing, Bad> {
    let mut l = Listing { kind: Kind::Seq, scalars: vec![], rows: vec![], words: vec![], views: vec![], scan: 0, update: 0, lines: vec![] };
    if text.len() > 65536 { return Err(Bad(0)) }
    let mut head = 0;
    let mut last = 0;
    for (k, line) in text.split(|&c| c == b'\n').enumerate() {
        let no = k + 1;
        last = no;
        let t = tokens(line);
        if t.is_empty() { continue }
        if head < 7 {
            let key = ["kind", "scalar", "row", "words", "view", "scan", "update"][head];
            if t[0] != Tok::W(key) { return Err(Bad(no)) }
            match head {
                0 => l.kind = match t[1..] { [Tok::W("seq")] => Kind::Seq, [Tok::W("bit")] => Kind::Bit, [Tok::W("multi")] => Kind::Multi, _ => return Err(Bad(no)) },
                1..=4 => for x in &t[1..] {
                    let Tok::W(s) = x else { return Err(Bad(no)) };
                    let v = match head { 1 => &mut l.scalars, 2 => &mut l.rows, 3 => &mut l.words, _ => &mut l.views };
                    v.push(s.to_string());
                },
                _ => { let [Tok::N(x @ 1..=999)] = t[1..] else { return Err(Bad(no)) }; if head == 5 { l.scan = x } else { l.update = x } }
            }
            head += 1;
            continue;
        }
        let (num, ins) = {
            let mut ps = Ps { t, i: 0, l: &l, at_ok: false };
            let r = (|| { let a = ps.num()?; ps.p(b':')?; let b = ps.ins()?; if ps.i == ps.t.len() { Some((a, b)) } else { None } })();
            r.ok_or(Bad(no))?
        };
        if num == 0 || num > 999 || l.lines.last().is_some_and(|x| x.0 >= num) || l.lines.len() == 200 { return Err(Bad(no)) }
        l.lines.push((num, ins));
    }
    if head < 7 { return Err(Bad(last)) }
    let has = |x: u64| l.lines.iter().any(|y| y.0 == x);
    let mut targets = vec![l.scan, l.update];
    for (_, i) in &l.lines {
        match i { Ins::First(_, _, _, t) | Ins::Next(_, _, t) | Ins::If(_, t) | Ins::IfAll(_, _, t) | Ins::Goto(t) | Ins::Call(t) => targets.push(*t), _ => {} }
    }
    if targets.iter().all(|&t| has(t)) { Ok(l) } else { Err(Bad(0)) }
}

pub const U: &str = include_str!("../../../../examples/u.txt");
pub const B: &str = include_str!("../../../../examples/b.txt");
pub const M: &str = include_str!("../../../../examples/m.txt");
