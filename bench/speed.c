/* How long extraction and resolving take, side by side with the Rust (the peer), with reading and with copying: each
   kind of call on each card of cards.h, the least of many runs. `--once KIND CARD KIB` makes one call alone, on the card
   of so many KiB, for callgrind; `--list` names kinds and cards. */
#define _POSIX_C_SOURCE 199309L
#include <stdio.h>
#include <stdlib.h>
#include <string.h>
#include <time.h>
#include "cards.h"
#include "tychodrel.h"
#ifdef PEER
#include "peer.h"
#endif

#define ROUNDS 5 /* over all kinds of calls, so that what else the machine does meets all of them */
#define SPAN 6e4 /* microseconds of calls of one kind in a round */
#define OWN_FILE 9
#define COUNT(array) (sizeof(array) / sizeof(array)[0])

/* what the calls write; extraction all but the list, resolving the scope and the list */
struct buffers {
    uint8_t scope[TYCHODREL_SCOPE_SIZE];
    uint8_t work[TYCHODREL_MAX_FIELD_LEN], out[TYCHODREL_MAX_FIELD_LEN], records[TYCHODREL_MAX_FIELD_LEN];
    uint8_t list[TYCHODREL_MAX_FIELD_LEN];
};

static struct card card;
static struct buffers ours;
static uint8_t report[TYCHODREL_REPORT_SIZE]; /* the Rust counts nothing */

/* what resolving is lent: the files of extraction's scope in their order, and so much of its records */
static uint8_t files[2 * TYCHODREL_MAX_FILES];
static size_t files_len, records_len;

static void nothing(void) {}

/* the tree and the zeros behind it, as a buffer is left */
static bool copy(void) {
    static uint8_t copied[TYCHODREL_MAX_FIELD_LEN];
    memcpy(copied, card.tree, card.len);
    memset(copied + card.len, 0, sizeof copied - card.len);
    __asm__ volatile("" ::"r"(copied) : "memory");
    return true;
}

/* detection reads the whole tree; with require off that is all it does */
static bool read_tree(void) { return tychodrel_detect(0, card.tree, card.len) == 1; }

static bool extract(void) {
    return tychodrel_extract(NULL, 0, OWN_FILE, TYCHODREL_MODE_REQUIRE, NULL, 0, card.table, card.table_len, card.tree,
                             card.len, ours.scope, report, ours.work, sizeof ours.work, ours.out, sizeof ours.out,
                             ours.records, sizeof ours.records) == 0;
}

static bool resolve(void) {
    return tychodrel_resolve(files, files_len, TYCHODREL_MODE_REQUIRE, card.table, card.table_len, ours.records,
                             records_len, ours.scope, report, ours.list, sizeof ours.list) == 0;
}

#ifdef PEER
static struct buffers theirs;
static struct peer *prepared;

static bool rust_extract(void) {
    return peer_extract(NULL, 0, OWN_FILE, true, NULL, 0, card.table, card.table_len, card.tree, card.len, theirs.scope,
                        theirs.work, sizeof theirs.work, theirs.out, sizeof theirs.out, theirs.records,
                        sizeof theirs.records) == 0;
}

static bool rust_resolve(void) {
    return peer_resolve(files, files_len, card.table, card.table_len, ours.records, records_len, theirs.scope,
                        theirs.list, sizeof theirs.list) == 0;
}

static void prepare_extract(void) {
    prepared = peer_prepare_extract(NULL, 0, OWN_FILE, true, NULL, 0, card.table, card.table_len, card.tree, card.len);
}

static void prepare_resolve(void) {
    prepared = peer_prepare_resolve(files, files_len, card.table, card.table_len, ours.records, records_len);
}

static bool run(void) { return prepared != NULL && peer_run(prepared) == 0; }

static void release(void) { peer_free(prepared); }

/* Whether the Rust resolves where the library does, and leaves the same bytes in every buffer. Ours and theirs are
   filled differently before, so that a byte that is not written shows. */
static bool agrees(void) {
    memset(&theirs, 0x5A, sizeof theirs);
    if (!rust_extract() || memcmp(&ours, &theirs, offsetof(struct buffers, list)) != 0) {
        return false;
    }
    bool resolved = resolve();
    return rust_resolve() == resolved && (!resolved || memcmp(&ours, &theirs, sizeof ours) == 0);
}
#else
static bool agrees(void) { return true; }
#endif

/* The kinds of calls. Only `call` is measured; its instructions are counted for each of `bytes`. */
static const struct kind {
    const char *name;
    const size_t *bytes;
    void (*prepare)(void);
    bool (*call)(void);
    void (*release)(void);
} kinds[] = {
    {"copy", &card.len, nothing, copy, nothing},
    {"read", &card.len, nothing, read_tree, nothing},
    {"extract", &card.len, nothing, extract, nothing},
#ifdef PEER
    {"rust-extract", &card.len, nothing, rust_extract, nothing},
    {"rust-extract-tree", &card.len, prepare_extract, run, release},
#endif
    {"resolve", &records_len, nothing, resolve, nothing},
#ifdef PEER
    {"rust-resolve", &records_len, nothing, rust_resolve, nothing},
    {"rust-resolve-tree", &records_len, prepare_resolve, run, release},
#endif
};

/* The one place where a call is made that counts: callgrind collects inside this function. */
__attribute__((noinline)) bool measured(bool (*call)(void)) {
    bool accepted = call();
    __asm__ volatile("" ::: "memory"); /* the call is no jump: its end is the function's end */
    return accepted;
}

/* Builds a card and extracts it, so that its records can be resolved. False where the card is refused. */
static bool set_up(size_t i, size_t kib) {
    memset(&card, 0, sizeof card);
    card.name = cards[i].name;
    card.size = kib * 1024;
    cards[i].build(&card);
    memset(&ours, 0xA5, sizeof ours);
    if (!extract()) {
        return false;
    }
    files_len = 2 * (size_t)tychodrel_scope_modules(ours.scope);
    for (size_t at = 0; at < files_len; at += 2) {
        uint16_t file = tychodrel_scope_file(ours.scope, (uint16_t)(at / 2));
        files[at] = (uint8_t)(file >> 8);
        files[at + 1] = (uint8_t)file;
    }
    records_len = tychodrel_field_length(ours.records);
    return true;
}

static double now(void) {
    struct timespec t;
    clock_gettime(CLOCK_MONOTONIC, &t);
    return (double)t.tv_sec * 1e6 + (double)t.tv_nsec / 1e3;
}

/* the least time of a call in microseconds; 0 where the call is refused */
static double least(const struct kind *k) {
    double best = 1e12, start = now();
    while (now() - start < SPAN) {
        k->prepare();
        double before = now();
        bool accepted = measured(k->call);
        double t = now() - before;
        k->release();
        if (!accepted) {
            return 0;
        }
        best = t < best ? t : best;
    }
    return best;
}

/* the least time of each kind over all rounds */
static void take_times(double times[]) {
    for (size_t n = 0; n < ROUNDS * COUNT(kinds); n++) {
        size_t k = n % COUNT(kinds);
        double t = least(&kinds[k]);
        times[k] = n < COUNT(kinds) || t < times[k] ? t : times[k];
    }
}

static void print_times(const double times[]) {
    printf("%-22s %6zu %7zu", card.name, card.len, records_len);
    for (size_t k = 0; k < COUNT(kinds); k++) {
        char figure[32] = "-";
        if (times[k] > 0) {
            snprintf(figure, sizeof figure, "%.1f", times[k]);
        }
        printf(" %*s", (int)strlen(kinds[k].name) + 2, figure);
    }
    printf("\n");
    fflush(stdout);
}

static void print_header(void) {
    printf("the least time of a call, in microseconds (-: refused)\n%-22s %6s %7s", "card", "tree", "records");
    for (size_t k = 0; k < COUNT(kinds); k++) {
        printf("   %s", kinds[k].name);
    }
    printf("\n");
}

/* Sets a card up and holds the library's results on it to the Rust's. */
static bool sound(size_t i, size_t kib) {
    bool held = set_up(i, kib) && agrees();
    if (!held) {
        printf("%s of %zu KiB: REFUSED, or the Rust answers otherwise\n", cards[i].name, kib);
    }
    return held;
}

/* a line of the table: the card's times */
static bool timed(size_t i, size_t kib) {
    double times[COUNT(kinds)];
    if (!sound(i, kib)) {
        return false;
    }
    take_times(times);
    print_times(times);
    return true;
}

/* The typical card small and large, the others large; those of 16 KiB, whose instructions count, are sound too. */
static int table(void) {
    print_header();
    bool held = timed(0, 4);
    for (size_t i = 0; i < COUNT(cards) && held; i++) {
        held = sound(i, 16) && timed(i, 32);
    }
    return !held;
}

/* the kinds in one line, then the cards, one a line: what --once takes */
static int list(void) {
    for (size_t k = 0; k < COUNT(kinds); k++) {
        printf("%s%c", kinds[k].name, k + 1 < COUNT(kinds) ? ' ' : '\n');
    }
    for (size_t i = 0; i < COUNT(cards); i++) {
        printf("%s\n", cards[i].name);
    }
    return 0;
}

static size_t kind_named(const char *name) {
    size_t k = 0;
    while (k < COUNT(kinds) && strcmp(kinds[k].name, name) != 0) {
        k++;
    }
    return k;
}

static size_t card_named(const char *name) {
    size_t i = 0;
    while (i < COUNT(cards) && strcmp(cards[i].name, name) != 0) {
        i++;
    }
    return i;
}

/* One call of kind k on card i. Prints for how many bytes its instructions count, 0 where it is refused. */
static int once(size_t k, size_t i, size_t kib) {
    if (k == COUNT(kinds) || i == COUNT(cards) || kib < 4 || kib > CARD_MAX / 1024 || !set_up(i, kib)) {
        return 1;
    }
    kinds[k].prepare();
    bool accepted = measured(kinds[k].call);
    kinds[k].release();
    printf("%zu\n", accepted ? *kinds[k].bytes : 0);
    return 0;
}

int main(int argc, char **argv) {
    if (argc == 5 && strcmp(argv[1], "--once") == 0) {
        return once(kind_named(argv[2]), card_named(argv[3]), strtoul(argv[4], NULL, 10));
    }
    return argc == 2 && strcmp(argv[1], "--list") == 0 ? list() : table();
}
