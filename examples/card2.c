/* Extracts and resolves card 2 of document 01, `import * as a from './m'; a.x;`, then has it refused, cut short.
   Here a is 21, x is 22, './m' is 20 and resolves to file 10; the module's own file is 9. */
#include "tychodrel.h"
#include <inttypes.h>
#include <stdio.h>
#include <string.h>

static const uint8_t table[] = {0x00, 0x14, 0x00, 0x0A};
static const uint8_t tree[] = {
    0x01, 0x00, 0x26, 0x10, 0x00, 0x0F, 0x00, 0x14, 0x00, 0x00, 0x00, 0x01, 0x22, 0x00, 0x06, 0x00, 0x15, 0x00, 0x00,
    0x00, 0x02, 0x44, 0x00, 0x11, 0x63, 0x00, 0x0E, 0x60, 0x00, 0x06, 0x00, 0x15, 0x00, 0x00, 0x00, 0x02, 0x70, 0x00,
    0x02, 0x00, 0x16};

static uint8_t scope[TYCHODREL_SCOPE_SIZE], report[TYCHODREL_REPORT_SIZE];
static uint8_t work[TYCHODREL_MAX_FIELD_LEN], out[TYCHODREL_MAX_FIELD_LEN], records[TYCHODREL_MAX_FIELD_LEN];
static uint8_t list[TYCHODREL_MAX_FIELD_LEN];

static uint64_t extract(size_t tree_len) {
    return tychodrel_extract(NULL, 0, 9, 0, NULL, 0, table, sizeof table, tree, tree_len, scope, report, work,
                             sizeof work, out, sizeof out, records, sizeof records);
}

/* Lends the files of the extraction's scope in its order, so that they get the same module numbers. */
static uint64_t resolve(void) {
    uint8_t files[2 * TYCHODREL_MAX_FILES];
    size_t modules = tychodrel_scope_modules(scope);
    for (size_t i = 0; i < modules; i++) {
        memcpy(files + 2 * i, scope + 2 + 3 * i, 2);
    }
    return tychodrel_resolve(files, 2 * modules, 0, table, sizeof table, records, tychodrel_field_length(records),
                             scope, report, list, sizeof list);
}

static void show(const char *name, const uint8_t *buffer) {
    printf("%s: ", name);
    for (size_t i = 0; i < tychodrel_field_length(buffer); i++) {
        printf("%02x", buffer[i]);
    }
    printf("\n");
}

int main(void) {
    if (extract(sizeof tree) != 0 || resolve() != 0) {
        return 1;
    }
    show("work", work);
    show("out", out);
    show("records", records);
    show("list", list);
    uint64_t answer = extract(sizeof tree - 1);
    uint32_t number = tychodrel_refusal_number(answer);
    printf("refusal: %" PRIu32 " at %" PRIu32 "\n", number, tychodrel_refusal_place(answer));
    printf("found: %s\n", tychodrel_words_found(number));
    printf("place: %s\n", tychodrel_words_place(number));
    printf("remedy: %s\n", tychodrel_words_remedy(number));
    return 0;
}
