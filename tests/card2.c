/* The exported calls on card 2 of document 01, every byte of every buffer; card2.cpp compiles the same as C++. */
#include "tychodrel.h"
#include <stdio.h>
#include <string.h>

#define HOLD(claim) ((claim) ? (void)0 : broken(__LINE__, #claim))

static int failures = 0;

static void broken(int line, const char *claim) {
    fprintf(stderr, "%s:%d: does not hold: %s\n", __FILE__, line, claim);
    failures++;
}

/* Buffers */

/* The lent bytes stand between bytes that no call may write, at an odd address: no call asks for an alignment. */
enum { GUARD = 3, ROOM = 1000, FILL = 0xA5 };

struct buffer {
    size_t len;
    uint8_t bytes[GUARD + ROOM + GUARD];
};

static struct buffer scope, report, work, out, records, list, metadata;

static uint8_t *lend(struct buffer *b, size_t len) {
    memset(b->bytes, FILL, sizeof b->bytes);
    b->len = len;
    return b->bytes + GUARD;
}

static const uint8_t *lent(const struct buffer *b) { return b->bytes + GUARD; }

/* whether a call left these bytes, zeros behind them, and nothing outside of what was lent */
static bool left(const struct buffer *b, const uint8_t *expected, size_t expected_len) {
    for (size_t i = 0; i < sizeof b->bytes; i++) {
        bool inside = i >= GUARD && i < GUARD + b->len;
        uint8_t behind = inside ? 0 : FILL;
        if (b->bytes[i] != (inside && i < GUARD + expected_len ? expected[i - GUARD] : behind)) {
            return false;
        }
    }
    return expected_len <= b->len;
}

static bool left_zeros(const struct buffer *b) { return left(b, NULL, 0); }

static uint64_t refusal(uint32_t number, uint32_t place) { return (uint64_t)number << 32 | place; }

/* Card 2: import * as a from './m'; a.x; with a = 21, x = 22, ./m = 20 to file 10, own file 9 */

#define KEY                                                                                                            \
    '_', '_', 's', 'w', 'c', '_', 'b', 'u', 'n', 'd', 'l', 'e', 'r', '_', '_', 'e', 'x', 'p', 'o', 'r', 't', '_', 'c', \
        't', 'x', 't', '_', '_'
#define ATTRIBUTES 0x2F, 0x00, 0x23, 0x30, 0x00, 0x20, 0x01, 0x01, 0x1C, KEY, '5'

static const uint8_t table[] = {0x00, 0x14, 0x00, 0x0A};

static const uint8_t tree[] = {
    0x01, 0x00, 0x26,                                     /* module */
    0x10, 0x00, 0x0F, 0x00, 0x14, 0x00, 0x00, 0x00, 0x01, /* import from './m' */
    0x22, 0x00, 0x06, 0x00, 0x15, 0x00, 0x00, 0x00, 0x02, /* * as a */
    0x44, 0x00, 0x11, 0x63, 0x00, 0x0E,                   /* statement: member */
    0x60, 0x00, 0x06, 0x00, 0x15, 0x00, 0x00, 0x00, 0x02, /* a */
    0x70, 0x00, 0x02, 0x00, 0x16,                         /* .x */
};

static const uint8_t after_first_pass[] = {
    0x01, 0x00, 0x4C,                                     /* module */
    0x10, 0x00, 0x35, 0x00, 0x14, 0x00, 0x00, 0x00, 0x01, /* import from './m' */
    0x22, 0x00, 0x06, 0x00, 0x15, 0x00, 0x00, 0x00, 0x02, /* * as a */
    ATTRIBUTES,                                           /* export context 5 */
    0x44, 0x00, 0x11, 0x63, 0x00, 0x0E,                   /* statement: member */
    0x60, 0x00, 0x06, 0x00, 0x15, 0x00, 0x00, 0x00, 0x02, /* a */
    0x70, 0x00, 0x02, 0x00, 0x16,                         /* .x */
};

static const uint8_t after_second_pass[] = {
    0x01, 0x00, 0x45,                                           /* module */
    0x10, 0x00, 0x36, 0x00, 0x14, 0x00, 0x00, 0x00, 0x01,       /* import from './m' */
    0x20, 0x00, 0x07, 0x00, 0x16, 0x00, 0x00, 0x00, 0x05, 0x00, /* { x } */
    ATTRIBUTES,                                                 /* export context 5 */
    0x44, 0x00, 0x09,                                           /* statement */
    0x60, 0x00, 0x06, 0x00, 0x16, 0x00, 0x00, 0x00, 0x05,       /* x */
};

static const uint8_t collected[] = {
    0x02, 0x00, 0x13,                                           /* records */
    0x80, 0x00, 0x10, 0x00, 0x14, 0x00, 0x00, 0x00, 0x01,       /* collected, './m' */
    0x20, 0x00, 0x07, 0x00, 0x16, 0x00, 0x00, 0x00, 0x05, 0x00, /* x */
};

static const uint8_t resolved[] = {
    0x03, 0x00, 0x20,                                           /* list */
    0x90, 0x00, 0x1D, 0x03, 0x00, 0x01, 0x00, 0x0A,             /* collected, module 1, file 10 */
    0x00, 0x00, 0x00, 0x04, 0x00, 0x00, 0x00, 0x05,             /* its local and its export context */
    0x00, 0x14, 0x00, 0x00, 0x00, 0x01,                         /* './m' */
    0x91, 0x00, 0x07, 0x00, 0x16, 0x00, 0x00, 0x00, 0x05, 0x00, /* x */
};

static const uint8_t own_and_m[] = {0x00, 0x02, 0x00, 0x09, 0x00, 0x00, 0x0A, 0x00};

static uint64_t extract(size_t tree_len, size_t work_len, size_t out_len, size_t records_len) {
    return tychodrel_extract(NULL, 0, 9, 0, NULL, 0, table, sizeof table, tree, tree_len,
                             lend(&scope, TYCHODREL_SCOPE_SIZE), lend(&report, TYCHODREL_REPORT_SIZE),
                             lend(&work, work_len), work_len, lend(&out, out_len), out_len,
                             lend(&records, records_len), records_len);
}

static bool extracted(void) {
    return left(&scope, own_and_m, sizeof own_and_m) && left_zeros(&report) &&
           left(&work, after_first_pass, sizeof after_first_pass) &&
           left(&out, after_second_pass, sizeof after_second_pass) && left(&records, collected, sizeof collected);
}

static bool extracted_nothing(void) {
    return left_zeros(&scope) && left_zeros(&report) && left_zeros(&work) && left_zeros(&out) && left_zeros(&records);
}

static void test_extract(void) {
    size_t w = sizeof after_first_pass, o = sizeof after_second_pass, r = sizeof collected;
    HOLD(extract(sizeof tree, ROOM, ROOM, ROOM) == 0 && extracted());
    HOLD(extract(sizeof tree, w, o, r) == 0 && extracted());
    HOLD(extract(sizeof tree, w - 1, o, r) == refusal(TYCHODREL_NO_ROOM, 0) && extracted_nothing());
    HOLD(extract(sizeof tree, w, o - 1, r) == refusal(TYCHODREL_NO_ROOM, 0) && extracted_nothing());
    HOLD(extract(sizeof tree, w, o, r - 1) == refusal(TYCHODREL_NO_ROOM, 0) && extracted_nothing());
    HOLD(extract(sizeof tree - 1, w, o, r) == refusal(TYCHODREL_OFF_GRAMMAR, 0) && extracted_nothing());
}

/* The scope's files and the records go on to resolving. */
static void test_resolve(void) {
    uint8_t files[2 * TYCHODREL_MAX_FILES];
    HOLD(extract(sizeof tree, ROOM, ROOM, ROOM) == 0);
    uint16_t modules = tychodrel_scope_modules(lent(&scope));
    for (uint16_t i = 0; i < modules; i++) {
        uint16_t file = tychodrel_scope_file(lent(&scope), i);
        files[2 * i] = (uint8_t)(file >> 8);
        files[2 * i + 1] = (uint8_t)file;
    }
    uint64_t answer = tychodrel_resolve(files, 2 * (size_t)modules, 0, table, sizeof table, lent(&records),
                                        tychodrel_field_length(lent(&records)), lend(&scope, TYCHODREL_SCOPE_SIZE),
                                        lend(&report, TYCHODREL_REPORT_SIZE), lend(&list, ROOM), ROOM);
    HOLD(answer == 0);
    HOLD(left(&scope, own_and_m, sizeof own_and_m) && left_zeros(&report));
    HOLD(left(&list, resolved, sizeof resolved));
}

/* Refusals */

static uint64_t resolve(size_t table_len, const uint8_t *lent_records, size_t records_len, size_t list_len) {
    static const uint8_t own[] = {0x00, 0x09, 0x00}; /* an odd last byte is not read */
    return tychodrel_resolve(own, sizeof own, 0, table, table_len, lent_records, records_len,
                             lend(&scope, TYCHODREL_SCOPE_SIZE), lend(&report, TYCHODREL_REPORT_SIZE),
                             lend(&list, list_len), list_len);
}

static void test_resolve_refused(void) {
    static const uint8_t own_alone[] = {0x00, 0x01, 0x00, 0x09, 0x00};
    uint8_t zeros_behind[sizeof collected + 1] = {0};
    memcpy(zeros_behind, collected, sizeof collected);
    HOLD(resolve(0, collected, sizeof collected, ROOM) == refusal(TYCHODREL_UNRESOLVED, 3));
    HOLD(left(&scope, own_alone, sizeof own_alone) && left_zeros(&report) && left_zeros(&list));
    HOLD(resolve(sizeof table, zeros_behind, sizeof zeros_behind, ROOM) ==
         refusal(TYCHODREL_RECORDS_OFF_GRAMMAR, sizeof collected));
    HOLD(left(&scope, own_alone, sizeof own_alone) && left_zeros(&report) && left_zeros(&list));
    HOLD(resolve(sizeof table, collected, sizeof collected, sizeof resolved - 1) == refusal(TYCHODREL_NO_ROOM, 0));
    HOLD(left(&scope, own_and_m, sizeof own_and_m) && left_zeros(&report) && left_zeros(&list));
}

static void test_place(void) {
    uint8_t damaged[sizeof tree];
    uint32_t name = sizeof tree - 5;
    memcpy(damaged, tree, sizeof tree);
    damaged[name] = 0x7F;
    uint64_t answer = tychodrel_detect(TYCHODREL_MODE_REQUIRE, damaged, sizeof damaged);
    HOLD(tychodrel_refusal_number(answer) == TYCHODREL_OFF_GRAMMAR);
    HOLD(tychodrel_refusal_place(answer) == name);
}

/* A null pointer with the length 0 stands for no bytes. */
static void test_null(void) {
    HOLD(tychodrel_extract(NULL, 0, 9, 0, NULL, 0, NULL, 0, NULL, 0, lend(&scope, TYCHODREL_SCOPE_SIZE),
                           lend(&report, TYCHODREL_REPORT_SIZE), NULL, 0, NULL, 0, NULL,
                           0) == refusal(TYCHODREL_OFF_GRAMMAR, 0));
    HOLD(left_zeros(&scope) && left_zeros(&report));
    HOLD(tychodrel_extract(NULL, 0, 9, 0, NULL, 0, NULL, 0, tree, sizeof tree, lend(&scope, TYCHODREL_SCOPE_SIZE),
                           lend(&report, TYCHODREL_REPORT_SIZE), NULL, 0, NULL, 0, NULL,
                           0) == refusal(TYCHODREL_NO_ROOM, 0));
    HOLD(left_zeros(&scope) && left_zeros(&report));
    HOLD(tychodrel_resolve(NULL, 0, 0, NULL, 0, NULL, 0, lend(&scope, TYCHODREL_SCOPE_SIZE),
                           lend(&report, TYCHODREL_REPORT_SIZE), NULL, 0) == refusal(TYCHODREL_RECORDS_OFF_GRAMMAR, 0));
    HOLD(left_zeros(&scope) && left_zeros(&report));
    HOLD(tychodrel_detect(0, NULL, 0) == refusal(TYCHODREL_OFF_GRAMMAR, 0));
    HOLD(tychodrel_encode_metadata(true, true, 5, NULL, 0, NULL, 0) == refusal(TYCHODREL_NO_ROOM, 0));
    HOLD(tychodrel_decode_metadata(NULL, 0, lend(&metadata, TYCHODREL_METADATA_SIZE)) == 0);
    HOLD(left_zeros(&metadata));
}

/* Detection, marks, metadata */

/* require('./m'); of card 7 */
static void test_require(void) {
    static const uint8_t call[] = {
        0x01, 0x00, 0x1C, 0x44, 0x00, 0x19, 0x65, 0x00, 0x16, /* module: statement: call */
        0x60, 0x00, 0x06, 0x00, 0x00, 0x00, 0x00, 0x00, 0x00, /* require */
        0x75, 0x00, 0x0A, 0x00,                               /* argument */
        0x61, 0x00, 0x06, 0x00, 0x14, 0x00, 0x00, 0x00, 0x01, /* './m' */
    };
    const uint32_t require = TYCHODREL_MODE_REQUIRE;
    HOLD(tychodrel_detect(require, tree, sizeof tree) == 1);
    HOLD(tychodrel_detect(require, call, sizeof call) == 0);
    HOLD(tychodrel_detect(0, call, sizeof call) == 1);
    /* other bits change nothing */
    HOLD(tychodrel_detect(UINT32_MAX, call, sizeof call) == 0);
    HOLD(tychodrel_detect(UINT32_MAX - require, call, sizeof call) == 1);
    HOLD(tychodrel_extract(NULL, 0, 9, require, NULL, 0, table, sizeof table, call, sizeof call,
                           lend(&scope, TYCHODREL_SCOPE_SIZE), lend(&report, TYCHODREL_REPORT_SIZE),
                           lend(&work, ROOM), ROOM, lend(&out, ROOM), ROOM,
                           lend(&records, ROOM), ROOM) == 0);
    HOLD(tychodrel_scope_modules(lent(&scope)) == 2);
    HOLD(tychodrel_scope_file(lent(&scope), 1) == 10);
    HOLD(tychodrel_scope_marks(lent(&scope), 0) == 0);
    HOLD(tychodrel_scope_marks(lent(&scope), 1) == TYCHODREL_MARK_CJS);
}

static void test_metadata(void) {
    static const uint8_t attributes[] = {ATTRIBUTES};
    static const uint8_t context_5[] = {0, 1, 0, 0, 0, 5};
    static const uint8_t both[] = {1, 1, 0xFF, 0xFF, 0xFF, 0xFF};
    HOLD(tychodrel_encode_metadata(false, true, 5, NULL, 0, lend(&out, ROOM), ROOM) == 0);
    HOLD(left(&out, attributes, sizeof attributes));
    HOLD(tychodrel_decode_metadata(attributes, sizeof attributes, lend(&metadata, TYCHODREL_METADATA_SIZE)) == 0);
    HOLD(left(&metadata, context_5, sizeof context_5));
    HOLD(tychodrel_encode_metadata(true, true, UINT32_MAX, attributes, sizeof attributes, lend(&out, ROOM), ROOM) == 0);
    HOLD(tychodrel_decode_metadata(lent(&out), tychodrel_field_length(lent(&out)),
                                   lend(&metadata, TYCHODREL_METADATA_SIZE)) == 0);
    HOLD(left(&metadata, both, sizeof both));
    HOLD(tychodrel_encode_metadata(false, true, 5, attributes, sizeof attributes - 1, lend(&out, ROOM), ROOM) ==
         refusal(TYCHODREL_OFF_GRAMMAR, 0));
    HOLD(left_zeros(&out));
    HOLD(tychodrel_decode_metadata(attributes, sizeof attributes - 1, lend(&metadata, TYCHODREL_METADATA_SIZE)) ==
         refusal(TYCHODREL_OFF_GRAMMAR, 0));
    HOLD(left_zeros(&metadata));
}

int main(void) {
    test_extract();
    test_resolve();
    test_resolve_refused();
    test_place();
    test_null();
    test_require();
    test_metadata();
    return failures != 0;
}
