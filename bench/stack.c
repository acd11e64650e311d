/* How much stack each exported call takes. A call runs on a stack of its own that was filled before; what is no longer
   as filled was used. Trees nest one shape, with the dearest leaf below it, so that the deepest field has the depth 64,
   the most that is accepted. */
#define _XOPEN_SOURCE 700
#include <stdbool.h>
#include <stdio.h>
#include <string.h>
#include <ucontext.h>
#include "cards.h"
#include "tychodrel.h"

#define DEEPEST 64
#define STEP 12 /* a multiple of every shape's levels */

static uint8_t stack[1024 * 1024];
static const uint8_t *caller; /* the frame of the function that calls */

static struct card card;
static uint8_t scope[TYCHODREL_SCOPE_SIZE], report[TYCHODREL_REPORT_SIZE], metadata[TYCHODREL_METADATA_SIZE];
static uint8_t work[TYCHODREL_MAX_FIELD_LEN], out[TYCHODREL_MAX_FIELD_LEN], records[TYCHODREL_MAX_FIELD_LEN];
static uint64_t answer;

/* Calls: they lend what the card has, be it a tree, records or attributes. */
static void extract(void) {
    caller = __builtin_frame_address(0);
    answer = tychodrel_extract(NULL, 0, 9, TYCHODREL_MODE_REQUIRE, NULL, 0, card.table, card.table_len, card.tree,
                               card.len, scope, report, work, sizeof work, out, sizeof out, records, sizeof records);
}

static void resolve(void) {
    caller = __builtin_frame_address(0);
    answer = tychodrel_resolve(NULL, 0, TYCHODREL_MODE_REQUIRE, card.table, card.table_len, card.tree, card.len, scope,
                               report, out, sizeof out);
}

static void detect(void) {
    caller = __builtin_frame_address(0);
    answer = tychodrel_detect(TYCHODREL_MODE_REQUIRE, card.tree, card.len);
}

static void encode_metadata(void) {
    caller = __builtin_frame_address(0);
    answer = tychodrel_encode_metadata(true, true, UINT32_MAX, card.tree, card.len, out, sizeof out);
}

static void decode_metadata(void) {
    caller = __builtin_frame_address(0);
    answer = tychodrel_decode_metadata(card.tree, card.len, metadata);
}

/* the bytes below its caller's frame that a call touches of a stack filled with this byte */
static size_t used_over(int fill, void (*call)(void)) {
    ucontext_t here, there;
    memset(stack, fill, sizeof stack);
    getcontext(&there);
    there.uc_stack.ss_sp = stack;
    there.uc_stack.ss_size = sizeof stack;
    there.uc_link = &here;
    makecontext(&there, call, 0);
    swapcontext(&here, &there);
    size_t i = 0;
    while (i < sizeof stack && stack[i] == fill) {
        i++;
    }
    return (size_t)(caller - (stack + i));
}

static size_t larger(size_t a, size_t b) { return a > b ? a : b; }

/* Two fills, since a byte may be written as it was filled. The call runs once before, since the first call of memcpy
   may go through the dynamic linker. A call that is refused counts as one that takes all of the stack. */
static size_t used(void (*call)(void)) {
    call();
    size_t bytes = larger(used_over(0xA5, call), used_over(0x5A, call));
    return tychodrel_refusal_number(answer) == 0 ? bytes : sizeof stack;
}

/* Shapes: a field that opens another expression or, where marked so, another statement. */
static void open_callee(struct card *c) { begin(c, 0x65); }
static void open_argument(struct card *c) { begin(c, 0x65); ident(c, 300); begin(c, 0x75); put(c, 0); }
static void open_object(struct card *c) { begin(c, 0x63); }
static void open_computed(struct card *c) { begin(c, 0x63); ident(c, 300); begin(c, 0x71); }
static void open_super(struct card *c) { begin(c, 0x64); begin(c, 0x71); }
static void open_assigned(struct card *c) { begin(c, 0x66); leaf_id(c, 0x50, 300, 2); }
static void open_target(struct card *c) { begin(c, 0x66); begin(c, 0x63); }
static void open_array(struct card *c) { begin(c, 0x6A); }
static void open_property(struct card *c) { begin(c, 0x69); begin(c, 0x78); put_atom(c, 300); }
static void open_binary(struct card *c) { begin(c, 0x6B); put(c, 1); ident(c, 300); }
static void open_arrow(struct card *c) { begin(c, 0x67); }
static void open_default(struct card *c) { begin(c, 0x67); begin(c, 0x52); begin(c, 0x54); put_six(c, 300, 2); }
static void open_declared(struct card *c) {
    begin(c, 0x67);
    begin(c, 0x45);
    begin(c, 0x41);
    begin(c, 0x42);
    leaf_id(c, 0x50, 300, 2);
}
static void open_block(struct card *c) { begin(c, 0x45); }
static void open_while(struct card *c) { begin(c, 0x48); ident(c, 300); }
static void open_function(struct card *c) { begin(c, 0x43); put_six(c, 300, 2); begin(c, 0x45); }

/* behind what a shape opens: what its fields still lack */
static void close_one(struct card *c) { end(c); }
static void close_two(struct card *c) { end(c); end(c); }
static void close_four(struct card *c) { close_two(c); close_two(c); }
static void close_object(struct card *c) { begin(c, 0x70); put_atom(c, 300); end(c); end(c); }
static void close_target(struct card *c) { close_object(c); ident(c, 300); end(c); }
static void close_default(struct card *c) { end(c); end(c); begin(c, 0x45); end(c); end(c); }

static const struct shape {
    const char *name;
    int levels;
    bool statements;
    void (*open)(struct card *);
    void (*close)(struct card *);
} shapes[] = {
    {"callee of callee", 1, false, open_callee, close_one},
    {"argument of argument", 2, false, open_argument, close_two},
    {"object of object", 1, false, open_object, close_object},
    {"computed in computed", 2, false, open_computed, close_two},
    {"computed on super", 2, false, open_super, close_two},
    {"assigned to assigned", 1, false, open_assigned, close_one},
    {"target in target", 2, false, open_target, close_target},
    {"array in array", 1, false, open_array, close_one},
    {"property in property", 2, false, open_property, close_two},
    {"operand of operand", 1, false, open_binary, close_one},
    {"arrow in arrow", 1, false, open_arrow, close_one},
    {"default in default", 3, false, open_default, close_default},
    {"declared in declared", 4, false, open_declared, close_four},
    {"block in block", 1, true, open_block, close_one},
    {"while in while", 1, true, open_while, close_one},
    {"function in function", 2, true, open_function, close_two},
};

/* The shape over and over, then arrays or blocks for levels that are left, then require('./m'), with a row that
   resolves it: that leaf calls deepest. */
static void nest(const struct shape *s, int deepest) {
    int below = s->statements ? 4 : 3, n = 0;
    memset(&card, 0, sizeof card);
    row(&card, 20, 10);
    begin(&card, 0x01);
    if (!s->statements) {
        begin(&card, 0x44);
    }
    for (; card.depth + s->levels + below <= deepest; n++) {
        s->open(&card);
    }
    int nested = card.depth;
    while (card.depth + below < deepest) {
        begin(&card, s->statements ? 0x45 : 0x6A);
    }
    if (s->statements) {
        begin(&card, 0x44);
    }
    require(&card, 20);
    while (card.depth > nested) {
        end(&card);
    }
    for (; n > 0; n--) {
        s->close(&card);
    }
    end_all(&card);
}

/* the stack that a call on the nested shape takes; all of it where the tree has not this depth */
static size_t used_on(void (*call)(void), const struct shape *s, int deepest) {
    nest(s, deepest);
    return card.deepest == deepest ? used(call) : sizeof stack;
}

/* what a call takes on a shape nested as deep as may be, and how much of it for each of the last levels */
struct taken {
    size_t bytes, a_level;
};

static struct taken taken_on(void (*call)(void), const struct shape *s) {
    size_t less = used_on(call, s, DEEPEST - STEP), bytes = used_on(call, s, DEEPEST);
    return (struct taken){bytes, (bytes - less) / STEP};
}

/* As many records as a scope has room for, each with a file of its own: collected and lazy ones with every specifier,
   dynamic ones, and forced sources. */
static void all_records(void) {
    memset(&card, 0, sizeof card);
    begin(&card, 0x02);
    for (unsigned i = 0; i < TYCHODREL_MAX_FILES; i++) {
        row(&card, 1000 + i, 10 + i);
        begin(&card, i < 100 ? 0x80 : i < 200 ? 0x81 : 0x82);
        put_six(&card, 1000 + i, 1);
        if (i < 200) {
            named(&card, 2000 + i);
            leaf_id(&card, 0x21, 3000 + i, 2);
            leaf_id(&card, 0x22, 4000 + i, 2);
        }
        end(&card);
    }
    for (unsigned i = 0; i < 50; i++) {
        begin(&card, 0x83);
        put_atom(&card, 1000 + i);
        end(&card);
    }
    end(&card);
}

/* attributes with all metadata there is, the context of ten digits */
static void all_attributes(void) {
    memset(&card, 0, sizeof card);
    encode_metadata();
    card.len = tychodrel_field_length(out);
    memcpy(card.tree, out, card.len);
}

static bool within(size_t bar, const char *name, size_t bytes) {
    bool held = bytes < bar;
    printf("%-26s %7zu bytes of stack, less than %7zu: %s\n", name, bytes, bar, held ? "held" : "BROKEN");
    return held;
}

int main(void) {
    size_t extraction = 0, detection = 0;
    for (size_t i = 0; i < sizeof shapes / sizeof shapes[0]; i++) {
        struct taken e = taken_on(extract, &shapes[i]), d = taken_on(detect, &shapes[i]);
        printf("%-22s depth %d  extract %7zu bytes of stack, %4zu a level  detect %6zu, %3zu a level\n",
               shapes[i].name, DEEPEST, e.bytes, e.a_level, d.bytes, d.a_level);
        extraction = larger(extraction, e.bytes);
        detection = larger(detection, d.bytes);
    }
    bool held = within(256 * 1024, "tychodrel_extract", extraction);
    held = within(16 * 1024, "tychodrel_detect", detection) && held;
    all_records();
    held = within(24 * 1024, "tychodrel_resolve", used(resolve)) && held;
    all_attributes();
    held = within(1024, "tychodrel_encode_metadata", used(encode_metadata)) && held;
    held = within(1024, "tychodrel_decode_metadata", used(decode_metadata)) && held;
    return !held;
}
