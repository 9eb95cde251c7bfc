//! Key hash texts, permission terms and SHA-1 in plain Rust, written independently of the proved code.

const ALPHABET: &[u8; 64] = b"ABCDEFGHIJKLMNOPQRSTUVWXYZabcdefghijklmnopqrstuvwxyz0123456789+/";
const OPENING: &[u8] = b"&lt;hash&gt;&lt;algorithm&gt;SHA1&lt;/algorithm&gt;&lt;value&gt;";
const CLOSING: &[u8] = b"&lt;/value&gt;&lt;/hash&gt;";

const NONE: u8 = 0xff;

const fn reversed() -> [u8; 256] {
    let mut table = [NONE; 256];
    let mut i = 0;
    while i < 64 {
        table[ALPHABET[i] as usize] = i as u8;
        i += 1;
    }
    table
}

static DIGITS: [u8; 256] = reversed();

/// The element of a hash.
#[inline(never)]
pub fn write(hash: &[u8; 20], text: &mut [u8; 119]) {
    text[..64].copy_from_slice(OPENING);
    text[92..].copy_from_slice(CLOSING);
    let value = &mut text[64..92];
    let mut padded = [0u8; 21];
    padded[..20].copy_from_slice(hash);
    for (group, chars) in padded.chunks_exact(3).zip(value.chunks_exact_mut(4)) {
        let bits = u32::from(group[0]) << 16 | u32::from(group[1]) << 8 | u32::from(group[2]);
        for (i, c) in chars.iter_mut().enumerate() {
            *c = ALPHABET[(bits >> (18 - 6 * i)) as usize & 63];
        }
    }
    value[27] = b'=';
}

/// The hash of an element, if it is one in canonical form.
#[inline(never)]
pub fn read(text: &[u8]) -> Option<[u8; 20]> {
    let value = text.strip_prefix(OPENING)?.strip_suffix(CLOSING)?;
    let chars: &[u8; 28] = value.try_into().ok()?;
    if chars[27] != b'=' {
        return None;
    }
    let mut digits = [0u8; 28];
    for (digit, c) in digits.iter_mut().zip(&chars[..27]) {
        *digit = DIGITS[usize::from(*c)];
        if *digit == NONE {
            return None;
        }
    }
    if digits[26] & 3 != 0 {
        return None;
    }
    let mut padded = [0u8; 21];
    for (group, bytes) in digits.chunks_exact(4).zip(padded.chunks_exact_mut(3)) {
        let bits = u32::from(group[0]) << 18 | u32::from(group[1]) << 12 | u32::from(group[2]) << 6 | u32::from(group[3]);
        bytes.copy_from_slice(&bits.to_be_bytes()[1..]);
    }
    let mut hash = [0u8; 20];
    hash.copy_from_slice(&padded[..20]);
    Some(hash)
}

fn text_in(bytes: &[u8]) -> Option<(&[u8], &[u8])> {
    let (length, rest) = bytes.split_first()?;
    if *length > 16 {
        return None;
    }
    let (text, rest) = rest.split_at_checked(usize::from(*length))?;
    text.iter().all(|b| (0x21..=0x7e).contains(b)).then_some((text, rest))
}

fn name_in(bytes: &[u8]) -> Option<(&[u8], &[u8])> {
    text_in(bytes).filter(|(name, _)| !name.is_empty())
}

fn term_in<'a>(bytes: &'a [u8], name: &[u8], deep: u8) -> Option<(bool, &'a [u8])> {
    let (form, rest) = bytes.split_first()?;
    match form {
        1 => Some((true, rest)),
        2 => name_in(rest).map(|(own, rest)| (own == name, rest)),
        3 => text_in(rest).map(|(front, rest)| (name.starts_with(front), rest)),
        4 => {
            let (low, rest) = name_in(rest)?;
            let (high, rest) = name_in(rest)?;
            (low <= high).then_some((low <= name && name <= high, rest))
        }
        5 => {
            let (count, mut rest) = rest.split_first()?;
            if *count > 8 || deep == 0 {
                return None;
            }
            let mut any = false;
            for _ in 0..*count {
                let (covered, after) = term_in(rest, name, deep - 1)?;
                any |= covered;
                rest = after;
            }
            Some((any, rest))
        }
        _ => None,
    }
}

/// Whether a term covers a name; none where one of them is malformed.
#[inline(never)]
pub fn covers(term: &[u8], name: &[u8]) -> Option<bool> {
    let named = (1..=16).contains(&name.len()) && name.iter().all(|b| (0x21..=0x7e).contains(b));
    if !named || term.len() > 48 {
        return None;
    }
    let (covered, rest) = term_in(term, name, 4)?;
    rest.is_empty().then_some(covered)
}

fn compress(state: &mut [u32; 5], block: &[u8]) {
    let mut w = [0u32; 80];
    for (word, bytes) in w.iter_mut().zip(block.chunks_exact(4)) {
        *word = u32::from_be_bytes([bytes[0], bytes[1], bytes[2], bytes[3]]);
    }
    for t in 16..80 {
        w[t] = (w[t - 3] ^ w[t - 8] ^ w[t - 14] ^ w[t - 16]).rotate_left(1);
    }
    let [mut a, mut b, mut c, mut d, mut e] = *state;
    for (t, word) in w.iter().enumerate() {
        let (f, k) = match t {
            0..20 => ((b & c) | (!b & d), 0x5a82_7999),
            20..40 => (b ^ c ^ d, 0x6ed9_eba1),
            40..60 => ((b & c) | (b & d) | (c & d), 0x8f1b_bcdc),
            _ => (b ^ c ^ d, 0xca62_c1d6u32),
        };
        let next = a.rotate_left(5).wrapping_add(f).wrapping_add(e).wrapping_add(k).wrapping_add(*word);
        (a, b, c, d, e) = (next, a, b.rotate_left(30), c, d);
    }
    for (old, new) in state.iter_mut().zip([a, b, c, d, e]) {
        *old = old.wrapping_add(new);
    }
}

/// The SHA-1 of a text.
#[inline(never)]
pub fn sha1(text: &[u8]) -> [u8; 20] {
    let mut state = [0x6745_2301, 0xefcd_ab89, 0x98ba_dcfe, 0x1032_5476, 0xc3d2_e1f0];
    let blocks = text.chunks_exact(64);
    let rest = blocks.remainder();
    for block in blocks {
        compress(&mut state, block);
    }
    let mut last = [0u8; 128];
    last[..rest.len()].copy_from_slice(rest);
    last[rest.len()] = 0x80;
    let end = if rest.len() < 56 { 64 } else { 128 };
    last[end - 8..end].copy_from_slice(&(text.len() as u64 * 8).to_be_bytes());
    for block in last[..end].chunks_exact(64) {
        compress(&mut state, block);
    }
    let mut digest = [0u8; 20];
    for (bytes, word) in digest.chunks_exact_mut(4).zip(state) {
        bytes.copy_from_slice(&word.to_be_bytes());
    }
    digest
}
