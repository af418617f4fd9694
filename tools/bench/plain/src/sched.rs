//! The text of a schedule as items.
use crate::machine::{CallOp, Item};
pub struct Schedule { pub n: usize, pub w: usize, pub items: Vec<Item>, pub calls: Vec<CallOp> }

#[derive(Clone, Copy, PartialEq)]
enum Tok { N(u64), Star, Scan, Update, Shape, Bad }

/// Tokens of one line into `v` (at most 8 are kept); answers the place after its LF.
fn line(t: &[u8], mut i: usize, v: &mut Vec<Tok>) -> usize {
    v.clear();
    while i < t.len() {
        match t[i] {
            b'\n' => return i + 1,
            b' ' | b'\t' | b'\r' => i += 1,
            b'#' => { while i < t.len() && t[i] != b'\n' { i += 1 } }
            b'*' => { v.push(Tok::Star); i += 1 }
            c @ b'0'..=b'9' => {
                let mut x = (c - b'0') as u64;
                let s = i;
                i += 1;
                let mut ok = true;
                while i < t.len() && t[i].is_ascii_digit() {
                    match x.checked_mul(10).and_then(|x| x.checked_add((t[i] - b'0') as u64)) { Some(y) => x = y, None => ok = false }
                    i += 1;
                }
                if c == b'0' && i > s + 1 || i < t.len() && t[i].is_ascii_lowercase() { ok = false }
                v.push(if ok { Tok::N(x) } else { Tok::Bad });
            }
            b'a'..=b'z' => {
                let s = i;
                while i < t.len() && t[i].is_ascii_lowercase() { i += 1 }
                v.push(match &t[s..i] { b"scan" => Tok::Scan, b"update" => Tok::Update, b"shape" => Tok::Shape, _ => Tok::Bad });
                if i < t.len() && t[i].is_ascii_digit() { v.push(Tok::Bad) }
            }
            _ => { v.push(Tok::Bad); i += 1 }
        }
    }
    i
}

#[inline(always)]
fn digits(t: &[u8], mut i: usize, most: usize) -> Option<(usize, usize)> {
    let s = i;
    let mut x = t.get(i)?.wrapping_sub(b'0') as usize;
    if x == 0 || x > 9 { return None }
    i += 1;
    while let Some(d) = t.get(i).map(|c| c.wrapping_sub(b'0')) { if d > 9 { break } x = x * 10 + d as usize; i += 1; if i - s > most { return None } }
    Some((x, i))
}
#[inline(always)]
fn plain(t: &[u8], i: usize) -> Option<(usize, usize, usize)> {
    let (p, i) = digits(t, i, 2)?;
    match t.get(i)? {
        b'\n' => Some((p, 1, i + 1)),
        b'*' => { let (k, i) = digits(t, i + 1, 6)?; if *t.get(i)? == b'\n' { Some((p, k, i + 1)) } else { None } }
        _ => None,
    }
}

pub fn read(t: &[u8]) -> Result<Schedule, String> {
    if t.len() > 4_194_304 { return Err("refused: S1 TooLong".into()) }
    let mut v = Vec::with_capacity(8);
    let (mut i, mut no) = (0, 0usize);
    let mut s = Schedule { n: 0, w: 0, items: Vec::with_capacity((t.len() / 2 + 1).min(1_000_000)), calls: vec![] };
    while i < t.len() {
        // the common lines: `I` and `I*K` of at most two and six digits, then LF at once
        if s.n != 0 {
            if let Some((p, k, e)) = plain(t, i) {
                if p >= 1 && p <= s.n && s.items.len() + k <= 1_000_000 {
                    if k == 1 { s.items.push(p as Item) } else { s.items.resize(s.items.len() + k, p as Item) }
                    no += 1;
                    i = e;
                    continue;
                }
            }
        }
        i = line(t, i, &mut v);
        no += 1;
        if v.is_empty() { continue }
        if s.n == 0 {
            match v[..] { [Tok::Shape, Tok::N(n @ 1..=16), Tok::N(w @ 1..=16)] => { s.n = n as usize; s.w = w as usize } _ => return Err("refused: S2 BadShape".into()) }
            continue;
        }
        let (p, k, call) = match v[..] {
            [Tok::N(p)] => (p, 1, None),
            [Tok::N(p), Tok::Star, Tok::N(k)] if k > 0 => (p, k, None),
            [Tok::N(p), Tok::Scan] => (p, 1, Some(CallOp { update: false, word: 0, value: 0 })),
            [Tok::N(p), Tok::Update, Tok::N(word), Tok::N(value)] => (p, 1, Some(CallOp { update: true, word, value })),
            _ => return Err(format!("refused: S3 BadItem {no}")),
        };
        if p < 1 || p > s.n as u64 { return Err(format!("refused: S5 NoSuchProcess {no}")) }
        if k > 1_000_000 - s.items.len() as u64 { return Err(format!("refused: S4 TooManyItems {no}")) }
        match call {
            Some(c) => { s.calls.push(c); s.items.push(p as Item | (s.calls.len() as Item) << 8) }
            None => s.items.resize(s.items.len() + k as usize, p as Item),
        }
    }
    if s.n == 0 { return Err("refused: S2 BadShape".into()) }
    Ok(s)
}
