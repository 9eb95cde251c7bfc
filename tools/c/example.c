/* A web front's calls: it writes and reads the text of a key hash, asks permission terms, and shows what is refused. */
#include "hub_webfront.h"

#include <stdio.h>
#include <string.h>

static int failures;

static void expect(const char *what, int holds) {
    printf("%s: %s\n", what, holds ? "ok" : "FAILED");
    failures += !holds;
}

int main(void) {
    /* the SHA-1 of "abc" (FIPS 180-4), and its Base64 text */
    static const uint8_t hash[HUB_HASH_LENGTH] = {0xa9, 0x99, 0x3e, 0x36, 0x47, 0x06, 0x81, 0x6a, 0xba, 0x3e,
                                                  0x25, 0x71, 0x78, 0x50, 0xc2, 0x6c, 0x9c, 0xd0, 0xd8, 0x9d};
    static const char expected[] = "&lt;hash&gt;&lt;algorithm&gt;SHA1&lt;/algorithm&gt;&lt;value&gt;"
                                   "qZk+NkcGgWq6PiVxeFDCbJzQ2J0=&lt;/value&gt;&lt;/hash&gt;";
    uint8_t text[HUB_HASH_TEXT_LENGTH + 1];
    uint8_t back[HUB_HASH_LENGTH];
    uint8_t before[HUB_HASH_LENGTH];

    memset(text, '?', sizeof text);
    expect("a hash is written", hub_hash_write(hash, sizeof hash, text, HUB_HASH_TEXT_LENGTH) == HUB_OK);
    expect("as its text", memcmp(text, expected, HUB_HASH_TEXT_LENGTH) == 0);
    expect("and nothing behind it", text[HUB_HASH_TEXT_LENGTH] == '?');

    expect("the text is read", hub_hash_read(text, HUB_HASH_TEXT_LENGTH, back, sizeof back) == HUB_OK);
    expect("as the hash", memcmp(back, hash, sizeof hash) == 0);

    memset(before, 0x5a, sizeof before);
    memcpy(back, before, sizeof back);
    text[90] = '1'; /* a stray bit in the last character, which was '0' */
    expect("a stray bit is refused", hub_hash_read(text, HUB_HASH_TEXT_LENGTH, back, sizeof back) == HUB_MALFORMED);
    expect("and the output untouched", memcmp(back, before, sizeof back) == 0);
    text[90] = '0';
    expect("a short text is refused", hub_hash_read(text, HUB_HASH_TEXT_LENGTH - 1, back, sizeof back) == HUB_MALFORMED);
    expect("a short output is refused", hub_hash_read(text, HUB_HASH_TEXT_LENGTH, back, sizeof back - 1) == HUB_MALFORMED);
    expect("a long output is refused", hub_hash_write(hash, sizeof hash, text, HUB_HASH_TEXT_LENGTH + 1) == HUB_MALFORMED);
    expect("a short hash is refused", hub_hash_write(hash, sizeof hash - 1, text, HUB_HASH_TEXT_LENGTH) == HUB_MALFORMED);

    /* the names from B to D */
    static const uint8_t range[] = {0x04, 0x01, 'B', 0x01, 'D'};
    uint8_t covered[2] = {7, 7};
    expect("a term is asked", hub_term_covers(range, sizeof range, (const uint8_t *)"CZ", 2, covered, 1) == HUB_OK);
    expect("and covers the name", covered[0] == 1 && covered[1] == 7);
    expect("or not", hub_term_covers(range, sizeof range, (const uint8_t *)"DA", 2, covered, 1) == HUB_OK && covered[0] == 0);
    covered[0] = 7;
    expect("a cut term is refused", hub_term_covers(range, 4, (const uint8_t *)"CZ", 2, covered, 1) == HUB_MALFORMED);
    expect("a name of no bytes is refused", hub_term_covers(range, sizeof range, range, 0, covered, 1) == HUB_MALFORMED);
    expect("a longer output is refused", hub_term_covers(range, sizeof range, range + 2, 1, covered, 2) == HUB_MALFORMED);
    expect("and nothing written", covered[0] == 7 && covered[1] == 7);
    printf("%d failed\n", failures);
    return failures != 0;
}
