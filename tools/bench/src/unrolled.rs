//! SHA-1 in plain Rust with sixteen words of the schedule in turn and the rounds written out, independent of the proved code.

/// A word of the schedule, made in the place of the one sixteen words before it.
macro_rules! word {
    ($w:ident, $t:expr) => {{
        let next = ($w[($t + 13) & 15] ^ $w[($t + 8) & 15] ^ $w[($t + 2) & 15] ^ $w[$t & 15]).rotate_left(1);
        $w[$t & 15] = next;
        next
    }};
}

/// A round: the variables keep their places, and the caller turns their names by one.
macro_rules! round {
    ($a:ident, $b:ident, $c:ident, $d:ident, $e:ident, $f:expr, $k:expr, $word:expr) => {
        $e = $e.wrapping_add($a.rotate_left(5)).wrapping_add($f).wrapping_add($k).wrapping_add($word);
        $b = $b.rotate_left(30);
    };
}

/// Five rounds, after which each name is in its place again.
macro_rules! five {
    ($f:ident, $k:expr, $a:ident, $b:ident, $c:ident, $d:ident, $e:ident, $w0:expr, $w1:expr, $w2:expr, $w3:expr, $w4:expr) => {
        round!($a, $b, $c, $d, $e, $f($b, $c, $d), $k, $w0);
        round!($e, $a, $b, $c, $d, $f($a, $b, $c), $k, $w1);
        round!($d, $e, $a, $b, $c, $f($e, $a, $b), $k, $w2);
        round!($c, $d, $e, $a, $b, $f($d, $e, $a), $k, $w3);
        round!($b, $c, $d, $e, $a, $f($c, $d, $e), $k, $w4);
    };
}

macro_rules! five_new {
    ($f:ident, $k:expr, $a:ident, $b:ident, $c:ident, $d:ident, $e:ident, $w:ident, $t:expr) => {
        five!($f, $k, $a, $b, $c, $d, $e, word!($w, $t), word!($w, $t + 1), word!($w, $t + 2), word!($w, $t + 3), word!($w, $t + 4));
    };
}

#[inline(always)]
fn choose(x: u32, y: u32, z: u32) -> u32 {
    z ^ (x & (y ^ z))
}

#[inline(always)]
fn parity(x: u32, y: u32, z: u32) -> u32 {
    x ^ y ^ z
}

#[inline(always)]
fn majority(x: u32, y: u32, z: u32) -> u32 {
    (x & y) | (z & (x | y))
}

#[allow(unused_assignments)] // the last words are stored and not read again
fn compress(state: &mut [u32; 5], block: &[u8; 64]) {
    const K: [u32; 4] = [0x5a82_7999, 0x6ed9_eba1, 0x8f1b_bcdc, 0xca62_c1d6];
    let mut w = [0u32; 16];
    for (word, bytes) in w.iter_mut().zip(block.as_chunks::<4>().0) {
        *word = u32::from_be_bytes(*bytes);
    }
    let [mut a, mut b, mut c, mut d, mut e] = *state;
    five!(choose, K[0], a, b, c, d, e, w[0], w[1], w[2], w[3], w[4]);
    five!(choose, K[0], a, b, c, d, e, w[5], w[6], w[7], w[8], w[9]);
    five!(choose, K[0], a, b, c, d, e, w[10], w[11], w[12], w[13], w[14]);
    five!(choose, K[0], a, b, c, d, e, w[15], word!(w, 16), word!(w, 17), word!(w, 18), word!(w, 19));
    five_new!(parity, K[1], a, b, c, d, e, w, 20);
    five_new!(parity, K[1], a, b, c, d, e, w, 25);
    five_new!(parity, K[1], a, b, c, d, e, w, 30);
    five_new!(parity, K[1], a, b, c, d, e, w, 35);
    five_new!(majority, K[2], a, b, c, d, e, w, 40);
    five_new!(majority, K[2], a, b, c, d, e, w, 45);
    five_new!(majority, K[2], a, b, c, d, e, w, 50);
    five_new!(majority, K[2], a, b, c, d, e, w, 55);
    five_new!(parity, K[3], a, b, c, d, e, w, 60);
    five_new!(parity, K[3], a, b, c, d, e, w, 65);
    five_new!(parity, K[3], a, b, c, d, e, w, 70);
    five_new!(parity, K[3], a, b, c, d, e, w, 75);
    for (old, new) in state.iter_mut().zip([a, b, c, d, e]) {
        *old = old.wrapping_add(new);
    }
}

/// The SHA-1 of a text.
#[inline(never)]
pub fn sha1(text: &[u8]) -> [u8; 20] {
    let mut state = [0x6745_2301, 0xefcd_ab89, 0x98ba_dcfe, 0x1032_5476, 0xc3d2_e1f0];
    let (blocks, rest) = text.as_chunks::<64>();
    for block in blocks {
        compress(&mut state, block);
    }
    let mut last = [0u8; 64];
    last[..rest.len()].copy_from_slice(rest);
    last[rest.len()] = 0x80;
    if rest.len() >= 56 {
        compress(&mut state, &last);
        last = [0u8; 64];
    }
    last[56..].copy_from_slice(&(text.len() as u64 * 8).to_be_bytes());
    compress(&mut state, &last);
    let mut digest = [0u8; 20];
    for (bytes, word) in digest.as_chunks_mut::<4>().0.iter_mut().zip(state) {
        *bytes = word.to_be_bytes();
    }
    digest
}
