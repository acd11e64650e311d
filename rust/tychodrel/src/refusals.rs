//! Numbers and words, made by tools/refusals from docs/refusals.txt.

use crate::refusal::{Refusal, Words};

/// The numbers.
impl Refusal {
    /// A lent list is too long or has a part of an entry.
    pub const LIST_LENGTH: u8 = 1;
    /// The table names a source twice.
    pub const SOURCE_TWICE: u8 = 2;
    /// A field off the grammar.
    pub const OFF_GRAMMAR: u8 = 3;
    /// A field deeper than 64.
    pub const TOO_DEEP: u8 = 4;
    /// A 257th file.
    pub const TOO_MANY_FILES: u8 = 5;
    /// A string name.
    pub const STRING_NAME: u8 = 6;
    /// A private name of an imported namespace.
    pub const PRIVATE_NAME: u8 = 7;
    /// A table is full.
    pub const TABLE_FULL: u8 = 8;
    /// A buffer is too short, or a field's content over 65,535.
    pub const NO_ROOM: u8 = 9;
    /// Records off the grammar.
    pub const RECORDS_OFF_GRAMMAR: u8 = 10;
    /// A source that the table does not name.
    pub const UNRESOLVED: u8 = 11;
    /// A module number that was not given.
    pub const NOT_GIVEN: u8 = 12;
}

/// The words of the refusals, from number 1 on.
pub(crate) static WORDS: [Words; 12] = [
    Words {
        found: "a lent list is too long or has a part of an entry",
        place: "none, always 0",
        remedy: "Limits: tree 32,768 bytes (in detection 65,538), externals 1,024 bytes (512 \
                 names of 2 bytes), table 4,096 bytes (1,024 rows of 4 bytes). Too long: split \
                 the script into modules, or lend only the externals and rows that it names. An \
                 odd list of externals, or a table whose length is no multiple of 4, was cut when \
                 it was copied: lend it again.",
    },
    Words {
        found: "the table names a source twice",
        place: "none, always 0",
        remedy: "Two rows have the same source, perhaps with the same file. Take one out.",
    },
    Words {
        found: "a field off the grammar",
        place: "offset in the lent tree or the lent attributes",
        remedy: "The bytes on the card are damaged, or the writer of the card is newer than the \
                 bench. Write the card again; if the place stays the same, compare the field \
                 there with the writer's version. Place just behind the module: zeros or other \
                 bytes are lent with it. Lend the field alone, 3 bytes and as many as its second \
                 and third byte say. Place 0: no module stands there (for metadata: no 2F), the \
                 input is empty, or the outermost length is longer than the input. Metadata calls \
                 take empty bytes for no attributes.",
    },
    Words {
        found: "a field deeper than 64",
        place: "offset of that field in the lent tree",
        remedy: "The script nests too deep at the place. Move the inner part into a variable or a \
                 function of its own at module level.",
    },
    Words {
        found: "a 257th file",
        place: "extraction: the 10, 65 or 42 that asks, in the lent tree; resolving: the record, \
                in the lent records; own file, lent files, file request, second pass: 0",
        remedy: "One scope has room for 256 different files: those lent first, the module's own, \
                 and each that the script imports or requires. Rows of the table that nothing \
                 asks for do not count. Lend fewer files, or divide the script. In resolving they \
                 are those lent first, and each to which the source of a record resolves.",
    },
    Words {
        found: "a string name",
        place: "extraction: the 20 or 23, in the lent tree; resolving: the 20, in the lent \
                records",
        remedy: "The script uses a string as an import's or export's name. Give the export an \
                 identifier as its name. (In extraction a string name passes in an import that is \
                 external or does not resolve. So 6 comes in resolving where the source had no \
                 row in extraction's table: lend both calls the same table.)",
    },
    Words {
        found: "a private name of an imported namespace",
        place: "the 72, in the lent tree",
        remedy: "`a.#x` on an imported namespace `a` is no access to an export. Correct the \
                 script at the place.",
    },
    Words {
        found: "a table is full",
        place: "the 10, 20, 21, 22, 42, 63 or 65 that needs the place, in the lent tree; second \
                pass: 0",
        remedy: "Split the script. Limits: 512 imported ids (place at a 20, 21 or 22), 256 \
                 different sources collected (10 or 65), 1,024 lazy requires (65 or 42), 2,048 \
                 usages (63; a tree of 32,768 bytes has no room for that many). A variable \
                 initialised by a require call takes two lazy records, behind or inside a block \
                 three. Place 0: the limit was passed in the second pass, by such variables.",
    },
    Words {
        found: "a buffer is too short, or a field's content over 65,535",
        place: "none, always 0",
        remedy: "Lend longer buffers. In extraction any of the three may be the short one: \
                 `work`, `out`, records. With 65,538 bytes in each, no buffer is too short; if 9 \
                 still comes, a result does not fit the format: split the script. `out` can be \
                 much longer than `work` where several imports declare one namespace id. In \
                 resolving it is the list: longer than its records by 13 bytes for each record, 7 \
                 for each default and 1 for each namespace, less 5 for each forced source.",
    },
    Words {
        found: "records off the grammar",
        place: "offset in the lent records",
        remedy: "Lend the records as extraction wrote them, and no zeros behind them: 3 bytes and \
                 as many as the second and third byte say. Place just behind these: more was \
                 lent. Place 0: no 02 stands there, or less was lent. If they were stored in \
                 between, they are damaged: extract again.",
    },
    Words {
        found: "a source that the table does not name",
        place: "the record (80, 81 or 82), in the lent records",
        remedy: "Add the source (the two bytes at the place + 3) to the table, or take the import \
                 out of the script. A source that is lent to extraction as external gets no \
                 record; resolving itself knows no externals.",
    },
    Words {
        found: "a module number that was not given",
        place: "none, always 0",
        remedy: "Request the file first, and use the number that the request answers. A number \
                 counts only in its own scope.",
    },
];

/// The words for any other number.
pub(crate) static UNKNOWN: Words = Words {
    found: "an unknown refusal",
    place: "unknown",
    remedy: "These words are older than the library: take its own.",
};
