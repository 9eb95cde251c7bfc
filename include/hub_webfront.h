/*
 * The entries of a hub's web front: key hashes as text, and permission terms.
 *
 * Each entry answers HUB_OK, or an error code of UPnP; on an error no output is written. A byte string passes as a pointer
 * and a length. The pointer must not be null, also where the length is 0, and an output must not overlap an input.
 */
#ifndef HUB_WEBFRONT_H
#define HUB_WEBFRONT_H

#include <stddef.h>
#include <stdint.h>

#ifdef __cplusplus
extern "C" {
#endif

enum {
    HUB_OK = 0,
    /* The input is not in the form asked for, or an output does not have the length asked for. */
    HUB_MALFORMED = 402
};

enum {
    /* The length of a key hash, and of its text, the escaped hash element. */
    HUB_HASH_LENGTH = 20,
    HUB_HASH_TEXT_LENGTH = 119
};

/*
 * Reads the text of a key hash: the escaped hash element with 28 characters of canonical Base64, 119 bytes, byte for byte.
 * hash_len must be HUB_HASH_LENGTH.
 */
uint32_t hub_hash_read(const uint8_t *text, size_t text_len, uint8_t *hash, size_t hash_len);

/* Writes the text of a key hash. hash_len must be HUB_HASH_LENGTH, and text_len HUB_HASH_TEXT_LENGTH. */
uint32_t hub_hash_write(const uint8_t *hash, size_t hash_len, uint8_t *text, size_t text_len);

/*
 * Whether a permission term covers a name: writes 1 or 0 into the one byte of covered. The term has 1 to 48 bytes, the name 1 to
 * 16 bytes from 0x21 to 0x7E; covered_len must be 1.
 */
uint32_t hub_term_covers(const uint8_t *term, size_t term_len, const uint8_t *name, size_t name_len, uint8_t *covered,
                         size_t covered_len);

#ifdef __cplusplus
}
#endif

#endif
