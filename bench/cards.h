/* Cards for the benchmark, built field by field in the byte form of document 01: a module each, with the table that is
   lent with it. A card has the size that is asked for: half the size has half of everything, the table's rows too. */
#include <stdbool.h>
#include <stddef.h>
#include <stdint.h>

#define CARD_MAX 32768

struct card {
    const char *name;
    size_t size; /* the room for the tree, at most CARD_MAX */
    uint8_t tree[CARD_MAX];
    size_t len;
    uint8_t table[4096];
    size_t table_len;
    size_t open[64]; /* where the open fields start */
    int depth;
    int deepest; /* the depth of the deepest field so far */
};

static void put(struct card *c, unsigned byte) { c->tree[c->len++] = (uint8_t)byte; }

static void put_atom(struct card *c, unsigned atom) {
    put(c, atom >> 8);
    put(c, atom & 255);
}

/* an atom and four bytes: an id with its context, or a literal with its stamp */
static void put_six(struct card *c, unsigned atom, unsigned four) {
    put_atom(c, atom);
    put_atom(c, four >> 16);
    put_atom(c, four & 65535);
}

static void begin(struct card *c, unsigned tag) {
    c->open[c->depth++] = c->len;
    c->deepest = c->depth > c->deepest ? c->depth : c->deepest;
    put(c, tag);
    put_atom(c, 0);
}

static void end(struct card *c) {
    size_t at = c->open[--c->depth];
    size_t n = c->len - at - 3;
    c->tree[at + 1] = (uint8_t)(n >> 8);
    c->tree[at + 2] = (uint8_t)n;
}

static void leaf_id(struct card *c, unsigned tag, unsigned atom, unsigned context) {
    begin(c, tag);
    put_six(c, atom, context);
    end(c);
}

/* an id in the own local context */
static void ident(struct card *c, unsigned atom) { leaf_id(c, 0x60, atom, 2); }

/* object.property */
static void member(struct card *c, unsigned object, unsigned property) {
    begin(c, 0x63);
    ident(c, object);
    begin(c, 0x70);
    put_atom(c, property);
    end(c);
    end(c);
}

static void row(struct card *c, unsigned source, unsigned file) {
    uint8_t *p = c->table + c->table_len;
    p[0] = (uint8_t)(source >> 8);
    p[1] = (uint8_t)source;
    p[2] = (uint8_t)(file >> 8);
    p[3] = (uint8_t)file;
    c->table_len += 4;
}

static void begin_import(struct card *c, unsigned source) {
    begin(c, 0x10);
    put_six(c, source, source);
}

static void named(struct card *c, unsigned atom) {
    begin(c, 0x20);
    put_six(c, atom, 2);
    put(c, 0);
    end(c);
}

/* const name = f(namespace.property, other.property + 62) inside a function, as fitting scripts have it */
static void statement(struct card *c, unsigned k) {
    begin(c, 0x41);
    begin(c, 0x42);
    leaf_id(c, 0x50, 2000 + k % 900, 2);
    begin(c, 0x65);
    member(c, 100 + k % 4, 300 + k % 7);
    begin(c, 0x75);
    put(c, 0);
    begin(c, 0x6B);
    put(c, 1);
    member(c, 2000 + k % 900, 320 + k % 5);
    begin(c, 0x62);
    put_six(c, 0, 0);
    put_atom(c, k & 65535);
    end(c);
    end(c);
    end(c);
    begin(c, 0x75);
    put(c, 0);
    ident(c, 120 + k % 6);
    end(c);
    end(c);
    end(c);
    end(c);
}

/* require(source) */
static void require(struct card *c, unsigned source) {
    begin(c, 0x65);
    ident(c, 0);
    begin(c, 0x75);
    put(c, 0);
    begin(c, 0x61);
    put_six(c, source, 1);
    end(c);
    end(c);
    end(c);
}

/* import * as namespace from source, which resolves to file 10 */
static void namespace_of(struct card *c, unsigned source, unsigned namespace) {
    row(c, source, 10);
    begin_import(c, source);
    leaf_id(c, 0x22, namespace, 2);
    end(c);
}

/* an array as a statement: room for expressions */
static void begin_array(struct card *c) {
    begin(c, 0x44);
    begin(c, 0x6A);
}

static void end_all(struct card *c) {
    while (c->depth > 0) {
        end(c);
    }
}

static bool has_room(const struct card *c, size_t bytes) { return c->len + bytes <= c->size; }

/* how many there are of what a card of 32 KiB has `count` of */
static unsigned scaled(const struct card *c, unsigned count) { return (unsigned)(count * c->size / CARD_MAX); }

/* rows that nothing asks for, in front of those that are asked for */
static void idle_rows(struct card *c, unsigned count) {
    for (unsigned i = 0; i < count; i++) {
        row(c, 20000 + i, 9);
    }
}

/* A dozen imports (four namespaces, four with names, four defaults), then functions full of member uses. */
static void typical(struct card *c) {
    begin(c, 0x01);
    for (unsigned i = 0; i < 12; i++) {
        row(c, 20 + i, 10 + i);
        begin_import(c, 20 + i);
        if (i < 4) {
            leaf_id(c, 0x22, 100 + i, 2);
        } else if (i < 8) {
            named(c, 120 + 2 * (i - 4));
            named(c, 121 + 2 * (i - 4));
        } else {
            leaf_id(c, 0x21, 140 + i, 2);
        }
        end(c);
    }
    for (unsigned k = 0; c->len + 700 < c->size; k += 6) {
        begin(c, 0x43);
        put_six(c, 3000 + k, 2);
        leaf_id(c, 0x50, 2000 + k % 900, 2);
        begin(c, 0x45);
        for (unsigned j = 0; j < 6; j++) {
            statement(c, k + j);
        }
        end(c);
        end(c);
    }
    for (unsigned k = 0; c->len + 100 < c->size; k++) {
        statement(c, k);
    }
    end(c);
}

/* Hard for every search: 255 namespaces that all resolve through the last rows of a full table, `uses` usages of the
   last of them, and then nothing but ids that force, none of them imported, so that each searches every table to its
   end. */
static void full(struct card *c, unsigned uses) {
    unsigned namespaces = scaled(c, 255);
    idle_rows(c, scaled(c, 769));
    begin(c, 0x01);
    for (unsigned i = 0; i < namespaces; i++) {
        row(c, 1000 + i, 10 + i);
        begin_import(c, 1000 + i);
        leaf_id(c, 0x22, 3000 + i, 2);
        if (i > 0) {
            leaf_id(c, 0x21, 4000 + i, 2);
        }
        end(c);
    }
    begin_array(c);
    for (unsigned i = 0; i < uses; i++) {
        member(c, 3000 + namespaces - 1, 5000 + i);
    }
    for (unsigned i = 0; has_room(c, 9); i++) {
        ident(c, 9000 + i);
    }
    end_all(c);
}

static void full_tables(struct card *c) { full(c, 0); }

static void full_tables_used(struct card *c) { full(c, scaled(c, 600)); }

/* Hard for finding the namespace that an id forces: 1,790 namespaces of an import that does not resolve, and ids of the
   same names in another context, which force none of them. */
static void namespaces_not_forced(struct card *c) {
    unsigned namespaces = scaled(c, 1790);
    begin(c, 0x01);
    namespace_of(c, 1000, 3000);
    begin_import(c, 1001);
    for (unsigned i = 0; i < namespaces; i++) {
        leaf_id(c, 0x22, 5000 + i, 2);
    }
    end(c);
    begin_array(c);
    for (unsigned i = 0; has_room(c, 9); i++) {
        leaf_id(c, 0x60, 5000 + i % namespaces, 7);
    }
    end_all(c);
}

/* Hard for writing the records, which have their specifiers from all over the module: imports of 255 sources, then
   thousands of the smallest items, and one import behind them. */
static void imports_far_apart(struct card *c) {
    unsigned sources = scaled(c, 255);
    begin(c, 0x01);
    for (unsigned i = 0; i < sources; i++) {
        row(c, 1000 + i, 10 + i);
        begin_import(c, 1000 + i);
        end(c);
    }
    while (has_room(c, 3 + 9)) {
        begin(c, 0x47);
        end(c);
    }
    begin_import(c, 2000);
    end_all(c);
}

/* Hard for merging imports into records: as many as fit (3,640), without specifiers, of 256 sources in turn. They do
   not resolve, since no buffer has room for the metadata of so many. */
static void imports_merged(struct card *c) {
    unsigned sources = scaled(c, 256);
    begin(c, 0x01);
    for (unsigned i = 0; has_room(c, 9); i++) {
        begin_import(c, 1000 + i % sources);
        end(c);
    }
    end_all(c);
}

/* Hard for dropping usages: one namespace with as many usages as fit, then 511 other imported ids, each forced. */
static void imported_ids_forced(struct card *c) {
    unsigned others = scaled(c, 511);
    row(c, 1000, 10);
    begin(c, 0x01);
    begin_import(c, 1000);
    leaf_id(c, 0x22, 3000, 2);
    for (unsigned i = 0; i < others; i++) {
        leaf_id(c, 0x21, 4000 + i, 2);
    }
    end(c);
    begin_array(c);
    for (unsigned i = 0; has_room(c, 17 + others * 9); i++) {
        member(c, 3000, 5000 + i);
    }
    for (unsigned i = 0; i < others; i++) {
        ident(c, 4000 + i);
    }
    end_all(c);
}

/* Hard for finding a usage's file: nothing but usages of a namespace whose source has the last row of a full table, and
   the lower ten bits of the first row's. */
static void usages_resolved_last(struct card *c) {
    row(c, 5000, 9);
    idle_rows(c, scaled(c, 1022));
    begin(c, 0x01);
    namespace_of(c, 5000 + 1024, 3000);
    begin_array(c);
    for (unsigned i = 0; has_room(c, 17); i++) {
        member(c, 3000, 5000 + i);
    }
    end_all(c);
}

/* Hard for the walk of members: chains of 55 on a namespace. */
static void member_chains(struct card *c) {
    begin(c, 0x01);
    namespace_of(c, 1000, 3000);
    while (has_room(c, 3 + 55 * 8 + 9)) {
        begin(c, 0x44);
        for (unsigned i = 0; i < 55; i++) {
            begin(c, 0x63);
        }
        ident(c, 3000);
        for (unsigned i = 0; i < 55; i++) {
            begin(c, 0x70);
            put_atom(c, 300 + i);
            end(c);
            end(c);
        }
        end(c);
    }
    end_all(c);
}

/* Hard for finding a require's file: calls of require, all of one source, which has the last row of a full table. */
static void requires_of_one_source(struct card *c) {
    idle_rows(c, scaled(c, 1023));
    row(c, 5000, 10);
    begin(c, 0x01);
    begin_array(c);
    while (has_room(c, 25)) {
        require(c, 5000);
    }
    end_all(c);
}

/* Hard for resolving: as many lazy records as there may be, each with a row of its own, and as many files as a scope
   has room for. */
static void requires_of_all_rows(struct card *c) {
    unsigned rows = scaled(c, 1024), files = scaled(c, 255);
    begin(c, 0x01);
    begin(c, 0x45);
    begin_array(c);
    for (unsigned i = 0; i < rows; i++) {
        row(c, 5000 + i, 10 + i % files);
        require(c, 5000 + i);
    }
    end_all(c);
}

static const struct {
    const char *name;
    void (*build)(struct card *);
} cards[] = {
    {"typical", typical},
    {"full-tables", full_tables},
    {"full-tables-used", full_tables_used},
    {"namespaces-not-forced", namespaces_not_forced},
    {"imports-far-apart", imports_far_apart},
    {"imports-merged", imports_merged},
    {"imported-ids-forced", imported_ids_forced},
    {"usages-resolved-last", usages_resolved_last},
    {"member-chains", member_chains},
    {"requires-of-one-source", requires_of_one_source},
    {"requires-of-all-rows", requires_of_all_rows},
};
