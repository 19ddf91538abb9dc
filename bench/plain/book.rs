//! Book: text form, limits, and the geometry of places.
pub const MAX_BIDDERS: usize = 16;
pub const MAX_STATES: u64 = 16384;
pub const GUARD: u64 = 0x8080_8080_8080_8080;

#[derive(Clone, Copy, Default)]
pub struct Bid {
    pub cnt: [u8; 6],
    pub pk: u64,  // counts packed, 8 bits each, for the branch-free fit test
    pub off: u32, // place offset in the internal layout
    pub amount: u64,
    pub net: i64,
}

/// Internal layout: categories may be permuted so that the largest radix runs fastest.
pub struct Geo {
    pub c: usize,
    pub states: usize,
    pub perm: [usize; 6],       // perm[i] = canonical category of internal dim i
    pub radix: [usize; 6],      // internal
    pub stride: [usize; 6],     // internal
    pub cat_stride: [usize; 6], // internal stride of canonical category
    pub full_pk: u64,
    pub map: Vec<u32>, // canonical place -> internal place; empty when identity
}

pub struct Bidder {
    pub name: String,
    pub bids: Vec<Bid>,
}

pub struct Book {
    pub c: usize,
    pub supply: [u16; 6],
    pub bidders: Vec<Bidder>,
    pub geo: Geo,
}

pub enum Stop {
    Form(u64),
    Limit(&'static str, u64),
}

#[inline(always)]
pub fn fits(rem: u64, pk: u64) -> bool {
    ((rem | GUARD) - pk) & GUARD == GUARD
}

/// plain number without leading zeros; None when not of the form. Saturates at u128::MAX.
pub fn num(t: &[u8]) -> Option<u128> {
    if t.is_empty() || (t[0] == b'0' && t.len() > 1) {
        return None;
    }
    let mut v: u128 = 0;
    for &b in t {
        if !b.is_ascii_digit() {
            return None;
        }
        v = v.saturating_mul(10).saturating_add((b - b'0') as u128);
    }
    Some(v)
}

fn name_ok(t: &[u8]) -> bool {
    !t.is_empty()
        && t.len() <= 20
        && t[0].is_ascii_lowercase()
        && t.iter().all(|&b| b.is_ascii_lowercase() || b.is_ascii_digit() || b == b'_')
}

impl Geo {
    pub fn new(supply: &[u16], reorder: bool) -> Geo {
        let c = supply.len();
        let mut perm = [0usize; 6];
        for (i, p) in perm.iter_mut().enumerate() {
            *p = i;
        }
        if reorder {
            perm[..c].sort_by_key(|&k| supply[k]); // stable: ascending, largest last
        }
        let mut radix = [1usize; 6];
        let mut stride = [0usize; 6];
        let mut cat_stride = [0usize; 6];
        let mut s = 1usize;
        for i in (0..c).rev() {
            radix[i] = supply[perm[i]] as usize + 1;
            stride[i] = s;
            cat_stride[perm[i]] = s;
            s *= radix[i];
        }
        let mut full_pk = 0u64;
        for (k, &v) in supply.iter().enumerate() {
            full_pk |= (v as u64) << (8 * k);
        }
        let identity = (0..c).all(|i| perm[i] == i);
        let mut map = Vec::new();
        if !identity {
            map = vec![0u32; s];
            let mut d = [0usize; 6];
            let mut at = 0usize;
            for m in map.iter_mut() {
                *m = at as u32;
                let mut k = c;
                while k > 0 {
                    k -= 1;
                    if d[k] < supply[k] as usize {
                        d[k] += 1;
                        at += cat_stride[k];
                        break;
                    }
                    at -= d[k] * cat_stride[k];
                    d[k] = 0;
                }
            }
        }
        Geo { c, states: s, perm, radix, stride, cat_stride, full_pk, map }
    }
}

pub fn read_book(b: &[u8], reorder: bool) -> Result<Book, Stop> {
    let mut pos = 0usize;
    // next line: (start, line without LF)
    fn line<'a>(b: &'a [u8], pos: &mut usize) -> Result<(u64, &'a [u8]), Stop> {
        let at = *pos;
        match b[at..].iter().position(|&x| x == b'\n') {
            Some(n) => {
                *pos = at + n + 1;
                Ok((at as u64, &b[at..at + n]))
            }
            None => Err(Stop::Form(at as u64)),
        }
    }
    let (at, l) = line(b, &mut pos)?;
    if l != b"book 1" {
        return Err(Stop::Form(at));
    }
    let (at, l) = line(b, &mut pos)?;
    let mut it = l.split(|&x| x == b' ');
    if it.next() != Some(b"supply") {
        return Err(Stop::Form(at));
    }
    let mut sup: Vec<u64> = Vec::new();
    for t in it {
        match num(t) {
            Some(v) if (1..=999).contains(&v) => sup.push(v as u64),
            _ => return Err(Stop::Form(at)),
        }
    }
    if sup.is_empty() {
        return Err(Stop::Form(at));
    }
    if sup.len() > 6 {
        return Err(Stop::Limit("categories", sup.len() as u64));
    }
    let lots: u64 = sup.iter().sum();
    if lots > 40 {
        return Err(Stop::Limit("lots", lots));
    }
    let states: u64 = sup.iter().map(|v| v + 1).product();
    if states > MAX_STATES {
        return Err(Stop::Limit("states", states));
    }
    let c = sup.len();
    let mut supply = [0u16; 6];
    for i in 0..c {
        supply[i] = sup[i] as u16;
    }
    let (at, l) = line(b, &mut pos)?;
    let mut it = l.split(|&x| x == b' ');
    if it.next() != Some(b"reserve") {
        return Err(Stop::Form(at));
    }
    let mut reserve = [0u64; 6];
    let mut n = 0;
    for t in it {
        match num(t) {
            Some(v) if v <= 1 << 36 && n < c => reserve[n] = v as u64,
            _ => return Err(Stop::Form(at)),
        }
        n += 1;
    }
    if n != c {
        return Err(Stop::Form(at));
    }
    let geo = Geo::new(&supply[..c], reorder);
    let mut bidders: Vec<Bidder> = Vec::new();
    loop {
        let (at, l) = line(b, &mut pos)?;
        if l.starts_with(b"bid ") {
            let Some(cur) = bidders.last_mut() else { return Err(Stop::Form(at)) };
            let mut bid = Bid::default();
            let mut p = 4usize;
            let len = l.len();
            let mut any = 0u64;
            let mut cost = 0u64;
            // hand parse: counts then amount
            for i in 0..=c {
                let s = p;
                let mut v = 0u64;
                while p < len && l[p].is_ascii_digit() {
                    if p - s < 15 {
                        v = v * 10 + (l[p] - b'0') as u64;
                    } else {
                        v = 1 << 60;
                    }
                    p += 1;
                }
                if p == s || (l[s] == b'0' && p - s > 1) {
                    return Err(Stop::Form(at));
                }
                if i < c {
                    if v > supply[i] as u64 || p >= len || l[p] != b' ' {
                        return Err(Stop::Form(at));
                    }
                    p += 1;
                    any |= v;
                    bid.cnt[i] = v as u8;
                    bid.pk |= v << (8 * i);
                    bid.off += (v as usize * geo.cat_stride[i]) as u32;
                    cost += v * reserve[i];
                } else {
                    if p != len || v > 1 << 42 {
                        return Err(Stop::Form(at));
                    }
                    bid.amount = v;
                }
            }
            if any == 0 || bid.amount < cost {
                return Err(Stop::Form(at));
            }
            if let Some(q) = cur.bids.last() {
                if q.cnt[..c] >= bid.cnt[..c] {
                    return Err(Stop::Form(at));
                }
            }
            if cur.bids.len() == 600 {
                return Err(Stop::Limit("bids", 601));
            }
            bid.net = (bid.amount - cost) as i64;
            cur.bids.push(bid);
        } else if let Some(nm) = l.strip_prefix(b"bidder ") {
            if !name_ok(nm) || bidders.iter().any(|x| x.name.as_bytes() == nm) {
                return Err(Stop::Form(at));
            }
            if bidders.len() == MAX_BIDDERS {
                return Err(Stop::Limit("bidders", MAX_BIDDERS as u64 + 1));
            }
            bidders.push(Bidder { name: String::from_utf8(nm.to_vec()).unwrap(), bids: Vec::new() });
        } else if l == b"end" {
            if pos != b.len() {
                return Err(Stop::Form(pos as u64));
            }
            break;
        } else {
            return Err(Stop::Form(at));
        }
    }
    Ok(Book { c, supply, bidders, geo })
}
