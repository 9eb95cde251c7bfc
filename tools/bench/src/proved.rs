//! The proved static library, through its C entries.

mod entries {
    unsafe extern "C" {
        pub fn hub_hash_read(text: *const u8, text_len: usize, hash: *mut u8, hash_len: usize) -> u32;
        pub fn hub_hash_write(hash: *const u8, hash_len: usize, text: *mut u8, text_len: usize) -> u32;
        pub fn bench_sha1(text: *const u8, text_len: usize, digest: *mut u8, digest_len: usize) -> u32;
        pub fn hub_term_covers(
            term: *const u8,
            term_len: usize,
            name: *const u8,
            name_len: usize,
            covered: *mut u8,
            covered_len: usize,
        ) -> u32;
    }
}

/// The hash of an element, if it is one in canonical form.
pub fn read(text: &[u8]) -> Option<[u8; 20]> {
    let mut hash = [0u8; 20];
    // The pointers and lengths are those of two live slices that do not overlap.
    let code = unsafe { entries::hub_hash_read(text.as_ptr(), text.len(), hash.as_mut_ptr(), hash.len()) };
    (code == 0).then_some(hash)
}

/// The element of a hash.
pub fn write(hash: &[u8; 20], text: &mut [u8; 119]) {
    // As above.
    let code = unsafe { entries::hub_hash_write(hash.as_ptr(), hash.len(), text.as_mut_ptr(), text.len()) };
    debug_assert_eq!(code, 0);
}

/// Whether a term covers a name; none where one of them is malformed.
pub fn covers(term: &[u8], name: &[u8]) -> Option<bool> {
    let mut covered = [0u8];
    // As above.
    let code = unsafe {
        entries::hub_term_covers(term.as_ptr(), term.len(), name.as_ptr(), name.len(), covered.as_mut_ptr(), covered.len())
    };
    (code == 0).then_some(covered[0] == 1)
}

/// The SHA-1 of a text.
pub fn sha1(text: &[u8]) -> [u8; 20] {
    let mut digest = [0u8; 20];
    // As above.
    let code = unsafe { entries::bench_sha1(text.as_ptr(), text.len(), digest.as_mut_ptr(), digest.len()) };
    debug_assert_eq!(code, 0);
    digest
}
