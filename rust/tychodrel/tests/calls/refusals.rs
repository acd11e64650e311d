//! Every refusal that the calls give, with its place.

use tychodrel::{is_es6, Atom, Extraction, Metadata, Modes, Refusal, Resolving, Scope};
use tychodrel::{MAX_DETECTED_TREE_LEN, MAX_EXTERNALS_LEN, MAX_TABLE_LEN, MAX_TREE_LEN};

use crate::support::{accepted, at, extraction, field, files, hex, refused, resolving, row};
use crate::support::{unresolved, Buffers, CARD_2, CARD_2_RECORDS};

const EMPTY: [u8; 3] = [1, 0, 0];

const REQUIRE: Modes = Modes { require: true };

#[test]
fn tree_length() {
    let zeros = [0; MAX_DETECTED_TREE_LEN + 1];
    let read = at(Refusal::OFF_GRAMMAR, 0);
    let too_long = at(Refusal::LIST_LENGTH, 0);
    assert_eq!(refused(extraction(&zeros[..MAX_TREE_LEN])), read);
    assert_eq!(refused(extraction(&zeros[..=MAX_TREE_LEN])), too_long);
    assert_eq!(is_es6(REQUIRE, &zeros[..MAX_DETECTED_TREE_LEN]), Err(read));
    assert_eq!(is_es6(REQUIRE, &zeros), Err(too_long));
}

#[test]
fn externals_length() {
    let names = [Atom::new(7); MAX_EXTERNALS_LEN / 2 + 1];
    let lent = |externals| Extraction {
        externals,
        ..extraction(&EMPTY)
    };
    assert!(accepted(lent(&names[1..])));
    assert_eq!(refused(lent(&names)), at(Refusal::LIST_LENGTH, 0));
}

#[test]
fn table_length() {
    let rows: Vec<_> = (0..=1_024).map(|source| row(source, 1)).collect();
    assert_eq!(size_of_val(&rows[1..]), MAX_TABLE_LEN);
    let lent = |table| Extraction {
        table,
        ..extraction(&EMPTY)
    };
    assert!(accepted(lent(&rows[1..])));
    assert_eq!(refused(lent(&rows)), at(Refusal::LIST_LENGTH, 0));
    let lent = Resolving {
        table: &rows,
        ..Resolving::default()
    };
    assert_eq!(unresolved(lent, 8).0, at(Refusal::LIST_LENGTH, 0));
}

#[test]
fn source_twice() {
    let lent = Extraction {
        table: &[row(20, 10), row(21, 10), row(20, 10)],
        ..extraction(&EMPTY)
    };
    assert_eq!(refused(lent), at(Refusal::SOURCE_TWICE, 0));
}

#[test]
fn off_grammar() {
    let tree = hex(CARD_2);
    let longer = [&tree[..], &[0]].concat();
    assert_eq!(
        refused(extraction(&tree[..40])),
        at(Refusal::OFF_GRAMMAR, 0)
    );
    assert_eq!(refused(extraction(&longer)), at(Refusal::OFF_GRAMMAR, 41));

    let broken = Err(at(Refusal::OFF_GRAMMAR, 3));
    assert_eq!(is_es6(REQUIRE, &hex("010003 420000")), broken);
    let attributes = hex("2F0003 420000");
    assert_eq!(Metadata::decode(&attributes).map(|_| true), broken);
    let mut out = [0xFF; 8];
    let encoded = Metadata::default().encode(&attributes, &mut out);
    assert_eq!(encoded.map(|_| true), broken);
    assert_eq!(out, [0; 8]);
}

#[test]
fn too_many_files() {
    let tree = hex(CARD_2);
    let lent = files(100, 257);
    let with = |count: usize| Extraction {
        files: &lent[..count],
        ..extraction(&tree)
    };
    assert!(accepted(with(254)));
    assert_eq!(refused(with(255)), at(Refusal::TOO_MANY_FILES, 3));
    assert_eq!(refused(with(256)), at(Refusal::TOO_MANY_FILES, 0));
    assert_eq!(refused(with(257)), at(Refusal::TOO_MANY_FILES, 0));
}

#[test]
fn too_many_files_in_resolving() {
    let records = hex(CARD_2_RECORDS);
    let lent = files(100, 256);
    let full = Resolving {
        files: &lent,
        ..resolving(&records)
    };
    assert_eq!(
        unresolved(full, 100),
        (at(Refusal::TOO_MANY_FILES, 3), lent)
    );
}

#[test]
fn string_name() {
    let import = hex("010015 100012 0014 00000001 200009 0015 00000002 02 0016");
    assert_eq!(refused(extraction(&import)), at(Refusal::STRING_NAME, 12));
    let export = hex("010011 11000E 00 23000A 01 0015 00000002 02 0016");
    assert_eq!(refused(extraction(&export)), at(Refusal::STRING_NAME, 7));
    let records = hex("020015 800012 0014 00000001 200009 0015 00000002 02 0016");
    let wanted = (at(Refusal::STRING_NAME, 12), files(10, 1));
    assert_eq!(unresolved(resolving(&records), 100), wanted);
}

#[test]
fn private_name() {
    let mut tree = hex(CARD_2);
    tree[36] = 0x72;
    assert_eq!(refused(extraction(&tree)), at(Refusal::PRIVATE_NAME, 36));
}

#[test]
fn table_full() {
    let import = |ids: u16| {
        let default = |id: u16| hex(&format!("210006 {id:04X} 00000002"));
        let specifiers: Vec<u8> = (100..100 + ids).flat_map(default).collect();
        field(
            0x01,
            &field(0x10, &[hex("0014 00000001"), specifiers].concat()),
        )
    };
    assert!(accepted(extraction(&import(512))));
    let last = 12 + 512 * 9;
    assert_eq!(
        refused(extraction(&import(513))),
        at(Refusal::TABLE_FULL, last)
    );
}

#[test]
fn no_room_in_extraction() {
    let tree = hex(CARD_2);
    for (work, out, records) in [(78, 72, 22), (79, 71, 22), (79, 72, 21), (0, 0, 0)] {
        let refusal = Buffers::new(work, out, records).refusal(extraction(&tree));
        assert_eq!(refusal, at(Refusal::NO_ROOM, 0));
    }
    let mut exact = Buffers::new(79, 72, 22);
    assert!(exact.extract(extraction(&tree), &mut Scope::new()).is_ok());
}

#[test]
fn no_room_elsewhere() {
    let records = hex(CARD_2_RECORDS);
    let wanted = (at(Refusal::NO_ROOM, 0), files(10, 1));
    assert_eq!(unresolved(resolving(&records), 34), wanted);
    let mut short = [0xFF; 2];
    let encoded = Metadata::default().encode(&[], &mut short);
    assert_eq!(encoded, Err(at(Refusal::NO_ROOM, 0)));
    assert_eq!(short, [0; 2]);
}

#[test]
fn records_off_grammar() {
    let records = hex(CARD_2_RECORDS);
    let longer = [&records[..], &[0]].concat();
    let refusal = |records| unresolved(resolving(records), 100);
    let left_over = at(Refusal::RECORDS_OFF_GRAMMAR, 22);
    assert_eq!(refusal(&longer), (left_over, vec![]));
    let cut_off = at(Refusal::RECORDS_OFF_GRAMMAR, 0);
    assert_eq!(refusal(&records[..21]), (cut_off, vec![]));
}

#[test]
fn unresolved_source() {
    let records = hex(CARD_2_RECORDS);
    let own = files(9, 1);
    let lent = Resolving {
        files: &own,
        table: &[],
        records: &records,
        ..Resolving::default()
    };
    assert_eq!(unresolved(lent, 100), (at(Refusal::UNRESOLVED, 3), own));
}
