//! A stepper in plain Rust, without proofs, for the same texts as snaplab: `plain run|debug|audit|batch [--shipped KIND]`,
//! with `--time` and `--threads N`, and `plain gen KIND N W ITEMS SEED fine|burst`, which writes a schedule.
mod debug;
mod listing;
mod machine;
mod sched;
use listing::{Kind, Listing};
use machine::{num, CallOp, Code, Item, Machine};
use std::io::{Read, Write};
use std::sync::atomic::{AtomicUsize, Ordering};
use std::time::Instant;

fn fail(s: &str, code: i32) -> ! { eprintln!("{s}"); std::process::exit(code) }

fn split(t: &[u8]) -> Vec<&[u8]> {
    let mut v = vec![];
    let (mut s, mut i) = (0, 0);
    while let Some(k) = t[i..].iter().position(|&c| c == b'%') {
        let p = i + k;
        let mut e = p + 1;
        if t.get(e) == Some(&b'\r') { e += 1 }
        if (p == 0 || t[p - 1] == b'\n') && (e == t.len() || t[e] == b'\n') {
            v.push(&t[s..p]);
            s = (e + 1).min(t.len());
            i = s;
        } else { i = p + 1 }
    }
    v.push(&t[s..]);
    v
}

fn fits(l: &Listing, s: &sched::Schedule) -> bool { l.kind == Kind::Multi || s.n == s.w }

struct Rand(u64);
impl Rand {
    fn next(&mut self) -> u64 {
        self.0 = self.0.wrapping_add(0x9e37_79b9_7f4a_7c15);
        let mut z = self.0;
        z = (z ^ z >> 30).wrapping_mul(0xbf58_476d_1ce4_e5b9);
        z = (z ^ z >> 27).wrapping_mul(0x94d0_49bb_1331_11eb);
        z ^ z >> 31
    }
    fn below(&mut self, k: u64) -> u64 { (self.next() as u128 * k as u128 >> 64) as u64 }
}

fn gen(a: &[String]) {
    let num_at = |k: usize| a.get(k).and_then(|x| x.parse::<u64>().ok()).unwrap_or_else(|| fail("usage", 2));
    let (n, w, items, seed) = (num_at(1), num_at(2), num_at(3), num_at(4));
    let burst = a.get(5).is_some_and(|x| x == "burst");
    let text = match a[0].as_str() { "seq" => listing::U, "bit" => listing::B, "multi" => listing::M, _ => fail("usage", 2) };
    let l = listing::read(text.as_bytes()).unwrap_or_else(|_| fail("listing", 1));
    let code = Code::new(&l, n as usize, w as usize);
    let mut m = Machine::new(&code);
    let mut r = Rand(seed);
    let mut o = format!("shape {n} {w}\n").into_bytes();
    let (mut p, mut left, mut run) = (1, 0, 0u64);
    let flush = |o: &mut Vec<u8>, p: u64, run: &mut u64| {
        if *run > 0 { num(o, p); if *run > 1 { o.push(b'*'); num(o, *run) } o.push(b'\n') }
        *run = 0;
    };
    for _ in 0..items {
        if left == 0 {
            let q = 1 + r.below(n);
            if q != p { flush(&mut o, p, &mut run); p = q }
            left = if burst { 1 + r.below(100) } else { 1 };
        }
        left -= 1;
        if m.status(p) == 0 {
            flush(&mut o, p, &mut run);
            let c = if r.below(2) == 0 { CallOp { update: false, word: 0, value: 0 } }
                else { CallOp { update: true, word: if l.kind == Kind::Multi { 1 + r.below(w) } else { p }, value: r.below(1_000_000) } };
            num(&mut o, p);
            if c.update { o.extend_from_slice(b" update "); num(&mut o, c.word); o.push(b' '); num(&mut o, c.value) } else { o.extend_from_slice(b" scan") }
            o.push(b'\n');
            m.apply::<false, false>(p as Item | 1 << 8, &[c]);
        } else { run += 1; m.apply::<false, false>(p as Item, &[]); }
    }
    flush(&mut o, p, &mut run);
    std::io::stdout().write_all(&o).unwrap_or_else(|_| fail("write fault", 3));
}

fn main() {
    let args: Vec<String> = std::env::args().skip(1).collect();
    let Some(sub) = args.first() else { fail("usage", 2) };
    if sub == "gen" { if args.len() < 6 { fail("usage", 2) } return gen(&args[1..]) }
    let (mut time, mut shipped, mut threads) = (false, None, 1usize);
    let mut k = 1;
    while k < args.len() {
        match args[k].as_str() {
            "--time" => time = true,
            "--shipped" => { k += 1; shipped = Some(match args.get(k).map(String::as_str) { Some("seq") => listing::U, Some("bit") => listing::B, Some("multi") => listing::M, _ => fail("usage", 2) }) }
            "--threads" => { k += 1; threads = args.get(k).and_then(|x| x.parse().ok()).unwrap_or(1) }
            _ => fail("usage", 2),
        }
        k += 1;
    }
    let t0 = Instant::now();
    let mut input = Vec::with_capacity(4 << 20);
    if std::io::stdin().lock().read_to_end(&mut input).is_err() { fail("read fault", 3) }
    if input.len() > 16_777_216 { fail("refused: P1 InputTooLong", 1) }
    let t1 = Instant::now();
    let parts = split(&input);
    let skip = shipped.is_none() as usize;
    let found = parts.len();
    let ok = match sub.as_str() { "run" | "audit" => found == 1 + skip, "debug" => found == 2 + skip, "batch" => found > skip && found - skip <= 4096, _ => fail("usage", 2) };
    if !ok { fail(&format!("refused: P2 WrongParts {found}"), 1) }
    let l = listing::read(shipped.map_or(parts[0], |s| s.as_bytes())).unwrap_or_else(|b| fail(&format!("refused: L? {}", b.0), 1));
    let scheds: Vec<sched::Schedule> = parts[skip..].iter().take(if sub == "batch" { usize::MAX } else { 1 }).map(|p| {
        let s = sched::read(p).unwrap_or_else(|e| fail(&e, 1));
        if !fits(&l, &s) { fail("refused: W1 BadShape", 1) }
        s
    }).collect();
    let s = &scheds[0];
    let code = Code::new(&l, s.n, s.w);
    let mut m = Machine::new(&code);
    let mut out = Vec::with_capacity(1 << 20);
    let total = s.items.len() as u64;
    let cmds = if sub == "debug" { debug::read(parts[skip + 1]).unwrap_or_else(|e| fail(&e, 1)) } else { vec![] };
    let t2 = Instant::now();
    let t3;
    match sub.as_str() {
        "run" => {
            m.run::<false>(&s.items, &s.calls);
            t3 = Instant::now();
            out.extend_from_slice(b"> run\nposition "); num(&mut out, total); out.extend_from_slice(b" of "); num(&mut out, total); out.push(b'\n');
            m.report(&mut out, total);
        }
        "audit" => {
            m.run::<true>(&s.items, &s.calls);
            t3 = Instant::now();
            m.audit(&mut out);
        }
        "debug" => {
            debug::Session::open(&mut m, s).perform(&cmds, time, &mut out);
            t3 = Instant::now();
            m.report(&mut out, total);
        }
        _ => {
            let one = |s: &sched::Schedule| {
                let code = Code::new(&l, s.n, s.w);
                let mut m = Machine::new(&code);
                let mut o = Vec::new();
                m.run::<false>(&s.items, &s.calls);
                m.report(&mut o, s.items.len() as u64);
                o
            };
            let next = AtomicUsize::new(0);
            let mut reports: Vec<(usize, Vec<u8>)> = std::thread::scope(|sc| {
                let work = || {
                    let mut v = vec![];
                    loop { let k = next.fetch_add(1, Ordering::Relaxed); let Some(s) = scheds.get(k) else { return v }; v.push((k, one(s))) }
                };
                let hs: Vec<_> = (1..threads).map(|_| sc.spawn(work)).collect();
                let mut v = work();
                for h in hs { v.extend(h.join().unwrap_or_default()) }
                v
            });
            reports.sort_by_key(|x| x.0);
            t3 = Instant::now();
            for (k, r) in &reports { out.extend_from_slice(b"schedule "); num(&mut out, *k as u64 + 1); out.push(b'\n'); out.extend_from_slice(r) }
        }
    }
    let t4 = Instant::now();
    if std::io::stdout().lock().write_all(&out).is_err() { fail("write fault", 3) }
    let t5 = Instant::now();
    if time {
        let hwm = std::fs::read_to_string("/proc/self/status").unwrap_or_default();
        let hwm = hwm.lines().find(|l| l.starts_with("VmHWM")).and_then(|l| l.split_whitespace().nth(1)).unwrap_or("0").to_string();
        let items: usize = scheds.iter().map(|s| s.items.len()).sum();
        let us = |a: Instant, b: Instant| (b - a).as_nanos() as f64 / 1000.0;
        eprintln!("items {items} events {} read_us {:.0} parse_us {:.0} run_us {:.0} print_us {:.0} write_us {:.0} out_bytes {} hwm_kb {hwm} state_bytes {}", m.events.len(), us(t0, t1), us(t1, t2), us(t2, t3), us(t3, t4), us(t4, t5), out.len(), code.state_bytes());
    }
}
