//! The proved library beside plain Rust, in one run: ten million key hash texts read and written, ten million
//! terms asked, and SHA-1 of short and long texts.

mod plain;
mod proved;
mod unrolled;

use std::hint::black_box;
use std::time::Instant;

const TEXTS: usize = 10_000_000;
const DISTINCT: usize = 4096;
const ROUNDS: usize = 500;

/// A fixed sequence of numbers (xorshift64*), so that each run has the same input.
struct Numbers(u64);

impl Numbers {
    fn next(&mut self) -> u64 {
        self.0 ^= self.0 >> 12;
        self.0 ^= self.0 << 25;
        self.0 ^= self.0 >> 27;
        self.0.wrapping_mul(0x2545_f491_4f6c_dd1d)
    }

    fn hash(&mut self) -> [u8; 20] {
        let mut hash = [0; 20];
        for byte in &mut hash {
            *byte = (self.next() >> 56) as u8;
        }
        hash
    }
}

fn time(mut work: impl FnMut(usize)) -> f64 {
    let start = Instant::now();
    for i in 0..TEXTS / ROUNDS {
        work(i % DISTINCT);
    }
    start.elapsed().as_secs_f64()
}

/// The two take turns, and the best round of each counts, so that a busy machine slows neither alone.
fn compare(name: &str, mut ours: impl FnMut(usize), mut theirs: impl FnMut(usize)) {
    let (mut best_ours, mut best_theirs) = (f64::MAX, f64::MAX);
    for _ in 0..ROUNDS {
        best_theirs = best_theirs.min(time(&mut theirs));
        best_ours = best_ours.min(time(&mut ours));
    }
    let each = |seconds: f64| seconds * 1e9 / (TEXTS / ROUNDS) as f64;
    println!(
        "{name:<18} {TEXTS} times: proved {:6.1} ns, plain Rust {:6.1} ns, ratio {:.2}",
        each(best_ours),
        each(best_theirs),
        best_theirs / best_ours
    );
}

/// Both implementations agree on every text that is timed, and on a damaged one of each.
fn check(hashes: &[[u8; 20]], texts: &[[u8; 119]], numbers: &mut Numbers) {
    for (hash, text) in hashes.iter().zip(texts) {
        let mut ours = [0; 119];
        proved::write(hash, &mut ours);
        assert_eq!(&ours, text, "the writers disagree");
        assert_eq!(proved::read(text), Some(*hash), "a written text does not read back");
        assert_eq!(plain::read(text), Some(*hash));
        let mut damaged = *text;
        damaged[numbers.next() as usize % 119] = numbers.next() as u8;
        assert_eq!(proved::read(&damaged), plain::read(&damaged), "the readers disagree on a damaged text");
        let shorter = &text[..numbers.next() as usize % 119];
        assert_eq!(proved::read(shorter), plain::read(shorter), "the readers disagree on a short text");
    }
}

/// Sets of depth 4 and 48 bytes, with names that they cover and names that they do not.
fn terms() -> Vec<(&'static str, Vec<u8>, Vec<&'static [u8]>)> {
    let nested = |inner: &[u8]| [&[5, 1, 5, 1, 5, 1], inner].concat();
    let ranges: Vec<u8> = [b"AB", b"DE", b"GH", b"JK", b"MN"].iter().flat_map(|low| [&[4, 2], &low[..], &[1, b'Z']].concat()).collect();
    let ranges = nested(&[&[5, 6], &ranges[..], &[3, 8], b"abcdefgh"].concat());
    let names = nested(&[&[5, 3, 2, 9], &b"SetTarget"[..], &[2, 12], b"GetTargetNow", &[3, 13], b"UnlockTheDoor"].concat());
    vec![
        ("covering, ranges", ranges, vec![b"SetTarget", b"AA", b"abcdefghi", b"a"]),
        ("covering, names", names, vec![b"SetTarget", b"GetTargetNow", b"UnlockTheDoor", b"Switch"]),
    ]
}

fn covering(numbers: &mut Numbers) {
    for (label, term, names) in terms() {
        assert_eq!(term.len(), 48, "{label}");
        for name in &names {
            assert_eq!(proved::covers(&term, name), plain::covers(&term, name));
            assert!(plain::covers(&term, name).is_some(), "{label} is well formed");
        }
        for _ in 0..100_000 {
            let mut damaged = term.clone();
            damaged[numbers.next() as usize % term.len()] = numbers.next() as u8;
            damaged.truncate(term.len() - numbers.next() as usize % 3);
            assert_eq!(proved::covers(&damaged, names[0]), plain::covers(&damaged, names[0]), "damaged term {damaged:x?}");
        }
        compare(
            label,
            |i| {
                black_box(proved::covers(black_box(&term), black_box(names[i % 4])));
            },
            |i| {
                black_box(plain::covers(black_box(&term), black_box(names[i % 4])));
            },
        );
    }
}

/// SHA-1 beside two plain versions: one with eighty words and a loop, as the standard writes it, and one with sixteen
/// words in turn and its rounds written out, as the proved code has them.
fn hashing(numbers: &mut Numbers) {
    for length in [64usize, 1024, 1 << 20] {
        let text: Vec<u8> = (0..length).map(|_| (numbers.next() >> 56) as u8).collect();
        for cut in (0..length.min(200)).chain([length]) {
            let digest = plain::sha1(&text[..cut]);
            assert_eq!(proved::sha1(&text[..cut]), digest, "SHA-1 of {cut} bytes");
            assert_eq!(unrolled::sha1(&text[..cut]), digest, "SHA-1 of {cut} bytes");
        }
        let times = (1 << 20) / length;
        let rate = |sha1: fn(&[u8]) -> [u8; 20]| {
            let start = Instant::now();
            for _ in 0..times {
                black_box(sha1(black_box(&text)));
            }
            (times * length) as f64 / start.elapsed().as_secs_f64() / 1e6
        };
        let mut best = [0f64; 3];
        for _ in 0..ROUNDS {
            for (best, sha1) in best.iter_mut().zip([proved::sha1, plain::sha1, unrolled::sha1]) {
                *best = best.max(rate(sha1));
            }
        }
        let [ours, looped, unrolled] = best;
        println!(
            "SHA-1 of {length} bytes: proved {ours:.0} MB/s, plain Rust with a loop {looped:.0} MB/s, ratio {:.2}, \
             with its rounds written out {unrolled:.0} MB/s, ratio {:.2}",
            ours / looped,
            ours / unrolled
        );
    }
}

fn main() {
    let mut numbers = Numbers(0x9e37_79b9_7f4a_7c15);
    let hashes: Vec<[u8; 20]> = (0..DISTINCT).map(|_| numbers.hash()).collect();
    let mut texts = vec![[0u8; 119]; DISTINCT];
    for (hash, text) in hashes.iter().zip(&mut texts) {
        plain::write(hash, text);
    }
    check(&hashes, &texts, &mut numbers);
    compare(
        "hash reading",
        |i| {
            black_box(proved::read(black_box(&texts[i])));
        },
        |i| {
            black_box(plain::read(black_box(&texts[i])));
        },
    );
    let mut ours = [0u8; 119];
    let mut theirs = [0u8; 119];
    compare(
        "hash writing",
        |i| {
            proved::write(black_box(&hashes[i]), black_box(&mut ours));
        },
        |i| {
            plain::write(black_box(&hashes[i]), black_box(&mut theirs));
        },
    );
    covering(&mut numbers);
    hashing(&mut numbers);
}
