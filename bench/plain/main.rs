//! The winners, prices and checks of a book in plain Rust, with the best loops known and without a proof: what `cca` is measured beside.
//! `win BOOK`, `price BOOK CERT [--rounds]` and `check BOOK CERT`, with the words and statuses of `cca`.
mod book;
mod check;
mod nearest;
mod price;
mod rows;
mod table;

use book::*;
use check::{Fault, Verdict};
use price::*;
use std::fs::{File, OpenOptions};
use std::io::{Read, Write};
use std::time::Instant;

fn done(text: &[u8], code: i32) -> ! {
    let ok = std::io::stdout().write_all(text).is_ok();
    std::process::exit(if ok { code } else { 5 })
}

fn load_book(name: &str, o: &Opts) -> Book {
    const TOP: u64 = 1_048_576;
    let mut bytes = Vec::new();
    let r = File::open(name).and_then(|f| {
        let n = f.metadata().map(|m| m.len()).unwrap_or(0);
        bytes.reserve(n.min(TOP + 1) as usize + 1);
        f.take(TOP + 1).read_to_end(&mut bytes)
    });
    if r.is_err() {
        done(b"cca: read fault book\n", 4)
    }
    if bytes.len() as u64 > TOP {
        done(format!("cca: limit bytes {}\n", TOP + 1).as_bytes(), 7)
    }
    match read_book(&bytes, o.reorder) {
        Ok(b) => b,
        Err(Stop::Form(p)) => done(format!("cca: refused book {}\n", p).as_bytes(), 3),
        Err(Stop::Limit(w, n)) => done(format!("cca: limit {} {}\n", w, n).as_bytes(), 7),
    }
}

fn wide_registers() -> bool {
    #[cfg(target_arch = "x86_64")]
    return std::is_x86_feature_detected!("avx2");
    #[cfg(not(target_arch = "x86_64"))]
    return true;
}

fn main() {
    let words: Vec<String> = std::env::args().skip(1).collect();
    // What is left out, to measure single tricks: PLAIN_OFF=prune,reorder,rows,simd,narrow. Without `simd` no vector code is chosen at run time.
    let off = std::env::var("PLAIN_OFF").unwrap_or_default();
    let on = std::env::var("PLAIN_ON").unwrap_or_default();
    let o = Opts {
        prune: !off.contains("prune"),
        reorder: !off.contains("reorder"),
        rows: !off.contains("rows") && !off.contains("simd") && wide_registers(),
        narrow: !off.contains("narrow"),
        keep_head: on.contains("head"),
        time: on.contains("time"),
    };
    let w: Vec<&str> = words.iter().map(|s| s.as_str()).collect();
    let plain = |x: &[&str]| x.iter().all(|s| !s.is_empty() && !s.starts_with('-'));
    let mut ck = Clock(o.time, Instant::now());
    match w.as_slice() {
        ["win", b] if plain(&[b]) => {
            let book = load_book(b, &o);
            ck.mark("read book");
            let l = table::lists(&book, o.prune, o.rows);
            ck.mark("prune");
            let h = head(&book, &l, false);
            ck.mark("table");
            done(&win_text(&book, &h), 0)
        }
        ["price", b, c, rest @ ..] if plain(&[b, c]) && b != c && (rest.is_empty() || *rest == ["--rounds"]) => {
            let book = load_book(b, &o);
            ck.mark("read book");
            let p = match price(&book, &o, &mut ck) {
                Ok(p) => p,
                Err(m) => done(format!("cca: limit winners {}\n", m).as_bytes(), 7),
            };
            let r = OpenOptions::new().append(true).create(true).open(c).and_then(|mut f| write_cert(&book, &p, &mut f));
            ck.mark("certificate text");
            if r.is_err() {
                done(b"cca: write fault cert\n", 5)
            }
            let mut out = if rest.is_empty() { Vec::new() } else { rounds_text(&p.turns) };
            let v: Vec<i128> = p.v.iter().map(|&x| x as i128).collect();
            out.extend(outcome(&book, &p.head.choice, p.head.top as i128, &v, p.den, &p.at));
            done(&out, 0)
        }
        ["check", b, c] if plain(&[b, c]) && b != c => {
            let book = load_book(b, &o);
            ck.mark("read book");
            let r = match File::open(c) {
                Ok(f) => check::check(&book, &o, f),
                Err(_) => Err(Fault::Io),
            };
            ck.mark("check");
            match r {
                Ok(Verdict::Yes(f)) => {
                    let mut out = b"yes\n".to_vec();
                    out.extend(outcome(&book, &f.choice, f.value, &f.v, f.den, &f.at));
                    done(&out, 0)
                }
                Ok(Verdict::No(t, p)) => done(format!("no C{} {}\n", t, p).as_bytes(), 1),
                Err(Fault::Form(p)) => done(format!("cca: refused cert {}\n", p).as_bytes(), 3),
                Err(Fault::Bytes(n)) => done(format!("cca: limit bytes {}\n", n).as_bytes(), 7),
                Err(Fault::Io) => done(b"cca: read fault cert\n", 4),
            }
        }
        _ => done(b"cca: words\n", 2),
    }
}
