/* Tychodrel: what JavaScript modules import, over a byte form of the syntax tree. For C11 and C++.

   Tags, fields and rules are those of document 01. Numbers in buffers are big-endian. docs/LINKING.md says how to link,
   what the calls ask of their buffers and how much stack they take; docs/REFUSALS.md what each refusal means.

   Of every call: a length is in bytes. A pointer may be null where its length is 0, and only there. No buffer that the
   call writes may overlap another of its buffers. Inputs are never changed. Nothing is kept between calls. */
#ifndef TYCHODREL_H
#define TYCHODREL_H

#include <stdbool.h>
#include <stddef.h>
#include <stdint.h>

#ifndef __cplusplus
#define TYCHODREL_RESTRICT restrict
#elif defined(__GNUC__) || defined(_MSC_VER)
#define TYCHODREL_RESTRICT __restrict
#else
#define TYCHODREL_RESTRICT
#endif

#ifdef __cplusplus
extern "C" {
#endif

/* Sizes, in bytes but for the number of files. */
enum {
    TYCHODREL_SCOPE_SIZE = 770,              /* a scope: the number of modules, then 3 bytes for each */
    TYCHODREL_REPORT_SIZE = 32,              /* a report: what a call counts */
    TYCHODREL_METADATA_SIZE = 6,             /* decoded export metadata */
    TYCHODREL_MAX_FILES = 256,               /* files in one scope */
    TYCHODREL_MAX_TREE_LEN = 32768,          /* tree, in extraction */
    TYCHODREL_MAX_DETECTED_TREE_LEN = 65538, /* tree, in detection */
    TYCHODREL_MAX_EXTERNALS_LEN = 1024,      /* externals: 512 of 2 bytes */
    TYCHODREL_MAX_TABLE_LEN = 4096,          /* table: 1,024 rows of 4 bytes */
    TYCHODREL_MAX_FIELD_LEN = 65538          /* a field: 3 bytes and the longest content; no output needs more room */
};

/* Marks of a module, bits of one byte in a scope. */
enum {
    TYCHODREL_MARK_LOADED = 1,
    TYCHODREL_MARK_STORED = 2,
    TYCHODREL_MARK_CJS = 4,
    TYCHODREL_MARK_WRAPPING = 8
};

/* Modes, bits of one number. Other bits change nothing. */
enum {
    TYCHODREL_MODE_REQUIRE = 1 /* calls of require count */
};

/* Extracts what a module imports, in a fresh scope in which `files` are requested first.

   files, files_len          files: 2 bytes each, an odd last byte is not read
   file                      the module's own file
   modes                     TYCHODREL_MODE_REQUIRE, or 0
   externals, externals_len  sources that are external: 2 bytes each
   table, table_len          sources, each with the file that it resolves to: 2 + 2 bytes each
   tree, tree_len            the module: one 01 field
   scope                     written, TYCHODREL_SCOPE_SIZE bytes: the scope at the call's end; refused: `files` alone
   report                    written, TYCHODREL_REPORT_SIZE bytes: zeros, as no call counts anything yet
   work, work_len            written: the tree after the first pass, zeros behind; refused: zeros
   out, out_len              written: the tree after the second pass, zeros behind; refused: zeros
   records, records_len      written: the records, one 02 field, zeros behind; refused: zeros

   Answers 0, or a refusal. */
uint64_t tychodrel_extract(const uint8_t *TYCHODREL_RESTRICT files, size_t files_len, uint16_t file, uint32_t modes,
                           const uint8_t *TYCHODREL_RESTRICT externals, size_t externals_len,
                           const uint8_t *TYCHODREL_RESTRICT table, size_t table_len,
                           const uint8_t *TYCHODREL_RESTRICT tree, size_t tree_len, uint8_t *TYCHODREL_RESTRICT scope,
                           uint8_t *TYCHODREL_RESTRICT report, uint8_t *TYCHODREL_RESTRICT work, size_t work_len,
                           uint8_t *TYCHODREL_RESTRICT out, size_t out_len, uint8_t *TYCHODREL_RESTRICT records,
                           size_t records_len);

/* Resolves the records of an extraction, in a fresh scope in which `files` are requested first.

   files, files_len      files: those of the extraction's scope, in its order, so that they get the same module numbers
   modes                 those of the extraction; no rule of resolving asks them yet
   table, table_len      sources, each with the file that it resolves to: 2 + 2 bytes each
   records, records_len  the records: one 02 field, without the zeros behind it (tychodrel_field_length)
   scope                 written, TYCHODREL_SCOPE_SIZE bytes: the scope at the call's end; refused: `files` alone, or
                         with new numbers behind them where the refusal keeps these (docs/REFUSALS.md)
   report                written, TYCHODREL_REPORT_SIZE bytes: zeros, as no call counts anything yet
   list, list_len        written: the resolved list, one 03 field, zeros behind; refused: zeros

   Answers 0, or a refusal. */
uint64_t tychodrel_resolve(const uint8_t *TYCHODREL_RESTRICT files, size_t files_len, uint32_t modes,
                           const uint8_t *TYCHODREL_RESTRICT table, size_t table_len,
                           const uint8_t *TYCHODREL_RESTRICT records, size_t records_len,
                           uint8_t *TYCHODREL_RESTRICT scope, uint8_t *TYCHODREL_RESTRICT report,
                           uint8_t *TYCHODREL_RESTRICT list, size_t list_len);

/* Tells whether a module is an ES module.

   modes           TYCHODREL_MODE_REQUIRE, or 0: where calls of require do not count, every module is one
   tree, tree_len  the module: one 01 field

   Answers 1 if it is, 0 if not, or a refusal. */
uint64_t tychodrel_detect(uint32_t modes, const uint8_t *TYCHODREL_RESTRICT tree, size_t tree_len);

/* Adds export metadata to import attributes.

   injected                    whether the import is injected
   has_context                 whether there is an export context
   context                     the export context; not read where there is none
   attributes, attributes_len  the attributes: one 2F field, or nothing
   out, out_len                written: the attributes with the metadata, one 2F field, zeros behind; refused: zeros

   Answers 0, or a refusal. */
uint64_t tychodrel_encode_metadata(bool injected, bool has_context, uint32_t context,
                                   const uint8_t *TYCHODREL_RESTRICT attributes, size_t attributes_len,
                                   uint8_t *TYCHODREL_RESTRICT out, size_t out_len);

/* Reads the export metadata in import attributes.

   attributes, attributes_len  the attributes: one 2F field, or nothing
   metadata                    written, TYCHODREL_METADATA_SIZE bytes: injected (0 or 1), whether there is an export
                               context (0 or 1), the context (4 bytes, 0 where there is none); refused: zeros

   Answers 0, or a refusal. */
uint64_t tychodrel_decode_metadata(const uint8_t *TYCHODREL_RESTRICT attributes, size_t attributes_len,
                                   uint8_t *TYCHODREL_RESTRICT metadata);

/* The number of the refusal in an answer; 0 is acceptance. */
static inline uint32_t tychodrel_refusal_number(uint64_t answer) { return (uint32_t)(answer >> 32); }

/* The place of the refusal in an answer: an offset in the lent bytes that docs/REFUSALS.md names for its number. */
static inline uint32_t tychodrel_refusal_place(uint64_t answer) { return (uint32_t)answer; }

/* refusals: made by tools/refusals from docs/refusals.txt */

/* The refusals' numbers. */
enum tychodrel_refusal {
    TYCHODREL_LIST_LENGTH = 1,          /* a lent list is too long or has a part of an entry */
    TYCHODREL_SOURCE_TWICE = 2,         /* the table names a source twice */
    TYCHODREL_OFF_GRAMMAR = 3,          /* a field off the grammar */
    TYCHODREL_TOO_DEEP = 4,             /* a field deeper than 64 */
    TYCHODREL_TOO_MANY_FILES = 5,       /* a 257th file */
    TYCHODREL_STRING_NAME = 6,          /* a string name */
    TYCHODREL_PRIVATE_NAME = 7,         /* a private name of an imported namespace */
    TYCHODREL_TABLE_FULL = 8,           /* a table is full */
    TYCHODREL_NO_ROOM = 9,              /* a buffer is too short, or a field's content over 65,535 */
    TYCHODREL_RECORDS_OFF_GRAMMAR = 10, /* records off the grammar */
    TYCHODREL_UNRESOLVED = 11,          /* a source that the table does not name */
    TYCHODREL_NOT_GIVEN = 12            /* a module number that was not given */
};

/* What a refusal found. */
static inline const char *tychodrel_words_found(uint32_t number) {
    switch (number) {
    case TYCHODREL_LIST_LENGTH:
        return "a lent list is too long or has a part of an entry";
    case TYCHODREL_SOURCE_TWICE:
        return "the table names a source twice";
    case TYCHODREL_OFF_GRAMMAR:
        return "a field off the grammar";
    case TYCHODREL_TOO_DEEP:
        return "a field deeper than 64";
    case TYCHODREL_TOO_MANY_FILES:
        return "a 257th file";
    case TYCHODREL_STRING_NAME:
        return "a string name";
    case TYCHODREL_PRIVATE_NAME:
        return "a private name of an imported namespace";
    case TYCHODREL_TABLE_FULL:
        return "a table is full";
    case TYCHODREL_NO_ROOM:
        return "a buffer is too short, or a field's content over 65,535";
    case TYCHODREL_RECORDS_OFF_GRAMMAR:
        return "records off the grammar";
    case TYCHODREL_UNRESOLVED:
        return "a source that the table does not name";
    case TYCHODREL_NOT_GIVEN:
        return "a module number that was not given";
    default:
        return "an unknown refusal";
    }
}

/* Where a refusal's place points. */
static inline const char *tychodrel_words_place(uint32_t number) {
    switch (number) {
    case TYCHODREL_LIST_LENGTH:
        return "none, always 0";
    case TYCHODREL_SOURCE_TWICE:
        return "none, always 0";
    case TYCHODREL_OFF_GRAMMAR:
        return "offset in the lent tree or the lent attributes";
    case TYCHODREL_TOO_DEEP:
        return "offset of that field in the lent tree";
    case TYCHODREL_TOO_MANY_FILES:
        return "extraction: the 10, 65 or 42 that asks, in the lent tree; resolving: the record, in the lent records; "
               "own file, lent files, file request, second pass: 0";
    case TYCHODREL_STRING_NAME:
        return "extraction: the 20 or 23, in the lent tree; resolving: the 20, in the lent records";
    case TYCHODREL_PRIVATE_NAME:
        return "the 72, in the lent tree";
    case TYCHODREL_TABLE_FULL:
        return "the 10, 20, 21, 22, 42, 63 or 65 that needs the place, in the lent tree; second pass: 0";
    case TYCHODREL_NO_ROOM:
        return "none, always 0";
    case TYCHODREL_RECORDS_OFF_GRAMMAR:
        return "offset in the lent records";
    case TYCHODREL_UNRESOLVED:
        return "the record (80, 81 or 82), in the lent records";
    case TYCHODREL_NOT_GIVEN:
        return "none, always 0";
    default:
        return "unknown";
    }
}

/* What to do about a refusal. */
static inline const char *tychodrel_words_remedy(uint32_t number) {
    switch (number) {
    case TYCHODREL_LIST_LENGTH:
        return "Limits: tree 32,768 bytes (in detection 65,538), externals 1,024 bytes (512 names of 2 bytes), table "
               "4,096 bytes (1,024 rows of 4 bytes). Too long: split the script into modules, or lend only the "
               "externals and rows that it names. An odd list of externals, or a table whose length is no multiple of "
               "4, was cut when it was copied: lend it again.";
    case TYCHODREL_SOURCE_TWICE:
        return "Two rows have the same source, perhaps with the same file. Take one out.";
    case TYCHODREL_OFF_GRAMMAR:
        return "The bytes on the card are damaged, or the writer of the card is newer than the bench. Write the card "
               "again; if the place stays the same, compare the field there with the writer's version. Place just "
               "behind the module: zeros or other bytes are lent with it. Lend the field alone, 3 bytes and as many "
               "as its second and third byte say. Place 0: no module stands there (for metadata: no 2F), the input is "
               "empty, or the outermost length is longer than the input. Metadata calls take empty bytes for no "
               "attributes.";
    case TYCHODREL_TOO_DEEP:
        return "The script nests too deep at the place. Move the inner part into a variable or a function of its own "
               "at module level.";
    case TYCHODREL_TOO_MANY_FILES:
        return "One scope has room for 256 different files: those lent first, the module's own, and each that the "
               "script imports or requires. Rows of the table that nothing asks for do not count. Lend fewer files, "
               "or divide the script. In resolving they are those lent first, and each to which the source of a "
               "record resolves.";
    case TYCHODREL_STRING_NAME:
        return "The script uses a string as an import's or export's name. Give the export an identifier as its name. "
               "(In extraction a string name passes in an import that is external or does not resolve. So 6 comes in "
               "resolving where the source had no row in extraction's table: lend both calls the same table.)";
    case TYCHODREL_PRIVATE_NAME:
        return "`a.#x` on an imported namespace `a` is no access to an export. Correct the script at the place.";
    case TYCHODREL_TABLE_FULL:
        return "Split the script. Limits: 512 imported ids (place at a 20, 21 or 22), 256 different sources collected "
               "(10 or 65), 1,024 lazy requires (65 or 42), 2,048 usages (63; a tree of 32,768 bytes has no room for "
               "that many). A variable initialised by a require call takes two lazy records, behind or inside a block "
               "three. Place 0: the limit was passed in the second pass, by such variables.";
    case TYCHODREL_NO_ROOM:
        return "Lend longer buffers. In extraction any of the three may be the short one: `work`, `out`, records. "
               "With 65,538 bytes in each, no buffer is too short; if 9 still comes, a result does not fit the "
               "format: split the script. `out` can be much longer than `work` where several imports declare one "
               "namespace id. In resolving it is the list: longer than its records by 13 bytes for each record, 7 for "
               "each default and 1 for each namespace, less 5 for each forced source.";
    case TYCHODREL_RECORDS_OFF_GRAMMAR:
        return "Lend the records as extraction wrote them, and no zeros behind them: 3 bytes and as many as the "
               "second and third byte say. Place just behind these: more was lent. Place 0: no 02 stands there, or "
               "less was lent. If they were stored in between, they are damaged: extract again.";
    case TYCHODREL_UNRESOLVED:
        return "Add the source (the two bytes at the place + 3) to the table, or take the import out of the script. A "
               "source that is lent to extraction as external gets no record; resolving itself knows no externals.";
    case TYCHODREL_NOT_GIVEN:
        return "Request the file first, and use the number that the request answers. A number counts only in its own "
               "scope.";
    default:
        return "These words are older than the library: take its own.";
    }
}

/* end of refusals */

/* The length of the field at the head of a buffer of 3 bytes or more: an output without the zeros behind it. */
static inline size_t tychodrel_field_length(const uint8_t *buffer) {
    return 3 + ((size_t)buffer[1] << 8 | (size_t)buffer[2]);
}

/* The number of modules in a scope. */
static inline uint16_t tychodrel_scope_modules(const uint8_t *scope) { return (uint16_t)(scope[0] << 8 | scope[1]); }

/* The file of a module in a scope; `module` is less than the number of modules. */
static inline uint16_t tychodrel_scope_file(const uint8_t *scope, uint16_t module) {
    const uint8_t *entry = scope + 2 + 3 * (size_t)module;
    return (uint16_t)(entry[0] << 8 | entry[1]);
}

/* The marks of a module in a scope; `module` is less than the number of modules. */
static inline uint8_t tychodrel_scope_marks(const uint8_t *scope, uint16_t module) {
    return scope[2 + 3 * (size_t)module + 2];
}

#ifdef __cplusplus
}
#endif

#endif
