//! What `sound` is measured beside: a plain program that reads the block on standard input, computes its txids and its Merkle root by
//! libcrypto's SHA-256, and prints the number of transactions, whether the root is the header's, and whether no two nodes that meet are equal.
//!
//!     rustc --edition 2021 -C opt-level=3 bench/figures/plain_sound.rs -l crypto
//!     OPENSSL_ia32cap=0:0 ./plain_sound < BLOCK    (libcrypto's scalar code)
use std::io::Read;
#[link(name = "crypto")]
extern "C" {
    fn SHA256_Init(c: *mut u64) -> i32;
    fn SHA256_Update(c: *mut u64, d: *const u8, n: usize) -> i32;
    fn SHA256_Final(md: *mut u8, c: *mut u64) -> i32;
}
fn sha(b: &[u8]) -> [u8; 32] {
    let mut o = [0u8; 32];
    let mut c = [0u64; 16];
    unsafe {
        SHA256_Init(c.as_mut_ptr());
        SHA256_Update(c.as_mut_ptr(), b.as_ptr(), b.len());
        SHA256_Final(o.as_mut_ptr(), c.as_mut_ptr());
    }
    o
}
fn dsha(b: &[u8]) -> [u8; 32] {
    sha(&sha(b))
}
struct Cur<'a> {
    b: &'a [u8],
    at: usize,
}
impl<'a> Cur<'a> {
    fn take(&mut self, n: usize) -> Option<&'a [u8]> {
        let e = self.at.checked_add(n)?;
        let r = self.b.get(self.at..e)?;
        self.at = e;
        Some(r)
    }
    fn count(&mut self) -> Option<usize> {
        let f = self.take(1)?[0];
        Some(match f {
            253 => u16::from_le_bytes(self.take(2)?.try_into().ok()?) as usize,
            254 => u32::from_le_bytes(self.take(4)?.try_into().ok()?) as usize,
            255 => u64::from_le_bytes(self.take(8)?.try_into().ok()?) as usize,
            n => n as usize,
        })
    }
}
struct In {
    _prev: [u8; 32],
    _n: u32,
    _script: Vec<u8>,
    _seq: u32,
}
struct Out {
    _value: i64,
    _script: Vec<u8>,
}
struct Tx {
    _version: i32,
    ins: Vec<In>,
    outs: Vec<Out>,
    _lock: u32,
}
fn tx(c: &mut Cur) -> Option<Tx> {
    let version = i32::from_le_bytes(c.take(4)?.try_into().ok()?);
    let n = c.count()?;
    let mut ins = Vec::new();
    for _ in 0..n {
        let p = c.take(32)?.try_into().ok()?;
        let i = u32::from_le_bytes(c.take(4)?.try_into().ok()?);
        let l = c.count()?;
        let s = c.take(l)?.to_vec();
        let q = u32::from_le_bytes(c.take(4)?.try_into().ok()?);
        ins.push(In {
            _prev: p,
            _n: i,
            _script: s,
            _seq: q,
        });
    }
    let n = c.count()?;
    let mut outs = Vec::new();
    for _ in 0..n {
        let v = i64::from_le_bytes(c.take(8)?.try_into().ok()?);
        let l = c.count()?;
        let s = c.take(l)?.to_vec();
        outs.push(Out {
            _value: v,
            _script: s,
        });
    }
    let lock = u32::from_le_bytes(c.take(4)?.try_into().ok()?);
    Some(Tx {
        _version: version,
        ins,
        outs,
        _lock: lock,
    })
}
fn main() {
    let mut b = Vec::new();
    std::io::stdin().read_to_end(&mut b).unwrap();
    let mut c = Cur { b: &b, at: 80 };
    let n = c.count().unwrap();
    let mut ids = Vec::new();
    let mut all = Vec::new();
    for _ in 0..n {
        let from = c.at;
        let t = tx(&mut c).unwrap();
        if c.at - from == 64 || t.ins.is_empty() || t.outs.is_empty() {
            std::process::exit(3)
        }
        ids.push(dsha(&b[from..c.at]));
        all.push(t);
    }
    let mut mutated = false;
    while ids.len() > 1 {
        mutated |= ids.chunks(2).any(|p| p.len() == 2 && p[0] == p[1]);
        ids = ids
            .chunks(2)
            .map(|p| {
                let mut t = [0u8; 64];
                t[..32].copy_from_slice(&p[0]);
                t[32..].copy_from_slice(&p[p.len() - 1]);
                dsha(&t)
            })
            .collect();
    }
    println!("{} {} {}", all.len(), ids[0][..] == b[36..68], !mutated);
}
