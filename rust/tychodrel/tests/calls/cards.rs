//! The cards of document 01.

use tychodrel::{Extraction, FileName, Metadata, Module, ModuleId};
use tychodrel::{Modes, Refusal, Resolving, Scope, SyntaxContext};

use crate::support::{accepted, at, extraction, field, hex, refused, resolving, tags, unresolved};
use crate::support::{Buffers, CARD_12_RECORDS, CARD_2, CARD_2_LIST, CARD_2_RECORDS};

const IMPORT_A: &str = "10000F 0014 00000001 220006 0015 00000002";
const A_X: &str = "440011 63000E 600006 0015 00000002 700002 0016";
const REWRITTEN_X: &str = "440009 600006 0016 00000005";
const F_OF_A: &str = "650016 600006 001A 00000002 75000A 00 600006 0015 00000002";
const REQUIRE_M: &str = "650016 600006 0000 00000000 75000A 00 610006 0014 00000001";

/// A module of these items.
fn module(items: &[&str]) -> Vec<u8> {
    field(0x01, &hex(&items.join(" ")))
}

/// Attributes with this value of an export context.
fn attributes(value: &str) -> Vec<u8> {
    let content = ["\x01\x01\x1C__swc_bundler__export_ctxt__", value].concat();
    field(0x2F, &field(0x30, content.as_bytes()))
}

/// *out*, the records' content and the scope of an accepted extraction.
fn extracted(extraction: Extraction<'_>) -> (Vec<u8>, Vec<u8>, Scope) {
    let mut scope = Scope::new();
    let mut buffers = Buffers::long();
    let extracted = buffers.extract(extraction, &mut scope).unwrap();
    let (out, records) = (extracted.out.to_vec(), extracted.records[3..].to_vec());
    (out, records, scope)
}

fn contains(bytes: &[u8], part: &str) -> bool {
    let part = hex(part);
    bytes.windows(part.len()).any(|window| window == part)
}

#[test]
fn card_1_gives_itself() {
    let mut scope = Scope::new();
    let mut buffers = Buffers::new(8, 8, 8);
    let extracted = buffers.extract(extraction(&[1, 0, 0]), &mut scope).unwrap();
    assert_eq!(extracted.work, [1, 0, 0]);
    assert_eq!(extracted.out, [1, 0, 0]);
    assert_eq!(extracted.records, [2, 0, 0]);
    assert!(buffers.zero_behind([3; 3]));
}

#[test]
fn card_2_extracted() {
    let import = |specifier| {
        let parts = [hex("0014 00000001"), hex(specifier), attributes("5")];
        field(0x10, &parts.concat())
    };
    let kept = [import("220006 0015 00000002"), hex(A_X)].concat();
    let apart = [import("200007 0016 00000005 00"), hex(REWRITTEN_X)].concat();

    let tree = hex(CARD_2);
    let mut scope = Scope::new();
    let mut buffers = Buffers::new(100, 100, 100);
    let extracted = buffers.extract(extraction(&tree), &mut scope).unwrap();
    assert_eq!(extracted.work, field(0x01, &kept));
    assert_eq!(extracted.out, field(0x01, &apart));
    assert_eq!(extracted.records, hex(CARD_2_RECORDS));
    assert!(buffers.zero_behind([79, 72, 22]));
    assert_eq!(*scope.files(), [9, 10].map(FileName::new));
}

#[test]
fn card_2_resolved() {
    let records = hex(CARD_2_RECORDS);
    let lent = Resolving {
        files: &[9, 10].map(FileName::new),
        ..resolving(&records)
    };
    let mut scope = Scope::new();
    let mut list = [0xFF; 64];
    assert_eq!(
        lent.resolve(&mut scope, &mut list).unwrap(),
        hex(CARD_2_LIST)
    );
    assert_eq!(list[35..], [0; 29]);
    assert_eq!(*scope.files(), [9, 10].map(FileName::new));
}

#[test]
fn cards_3_and_4_rewrite_beside_a_use_as_a_whole() {
    let before = module(&["440019", F_OF_A, IMPORT_A, A_X]);
    let after = module(&[IMPORT_A, "440021 63001E", F_OF_A, "700002 001B", A_X]);
    for tree in [before, after] {
        let (out, _, _) = extracted(extraction(&tree));
        assert!(contains(&out, REWRITTEN_X));
        assert!(contains(&out, F_OF_A));
    }
}

#[test]
fn card_5_records_the_default_only() {
    let import = "100018 0014 00000001 210006 0019 00000002 220006 0015 00000002";
    let (out, records, _) = extracted(extraction(&module(&[import, A_X])));
    assert!(contains(&out, REWRITTEN_X));
    assert_eq!(records, hex("80000F 0014 00000001 210006 0019 00000002"));
}

#[test]
fn card_6_rewrites_one_namespace_and_forces_the_source() {
    let import_b = "10000F 0014 00000001 220006 0018 00000002";
    let b_x = "440011 63000E 600006 0018 00000002 700002 0016";
    let (out, records, scope) = extracted(extraction(&module(&[IMPORT_A, import_b, A_X, b_x])));
    assert!(contains(&out, REWRITTEN_X) && contains(&out, b_x));
    assert_eq!(tags(&records), [0x80, 0x83]);
    let forced = Module {
        id: ModuleId::new(1),
        file: FileName::new(10),
        loaded: false,
        stored: false,
        cjs: false,
        wrapping: true,
    };
    assert_eq!(scope.modules().last(), Some(forced));
}

#[test]
fn cards_7_to_9_require() {
    let required = |items: &[&str]| {
        let tree = module(items);
        let (_, records, scope) = extracted(Extraction {
            modes: Modes { require: true },
            ..extraction(&tree)
        });
        assert!(scope.modules().any(|module| module.cjs));
        tags(&records)
    };
    assert_eq!(required(&["450000", "440019", REQUIRE_M]), [0x81]);
    assert_eq!(required(&["440019", REQUIRE_M]), [0x80]);
    let variable = "410025 420022 500006 001C 00000002";
    assert_eq!(required(&[variable, REQUIRE_M]), [0x80, 0x81, 0x81]);
    let member = "41002D 42002A 500006 001C 00000002 65001E 63000E 600006 0015 00000002
        700002 0000 75000A 00 610006 0014 00000001";
    assert_eq!(required(&[IMPORT_A, member]), [0x80, 0x81]);
}

#[test]
fn without_the_mode_no_require_counts() {
    let (_, records, scope) = extracted(extraction(&module(&["440019", REQUIRE_M])));
    assert_eq!(records, []);
    assert!(!scope.modules().any(|module| module.cjs));
}

#[test]
fn card_10_contexts_in_metadata() {
    let context = |value| Metadata::decode(&attributes(value)).unwrap().context;
    assert_eq!(context("+7"), Some(SyntaxContext::new(7)));
    assert_eq!(context("4294967296"), None);
}

#[test]
fn card_11_depth() {
    let nested = |blocks| (0..blocks).fold(hex("400000"), |inner, _| field(0x45, &inner));
    assert!(accepted(extraction(&field(0x01, &nested(62)))));
    let deepest = field(0x01, &nested(63));
    assert_eq!(refused(extraction(&deepest)), at(Refusal::TOO_DEEP, 64 * 3));
}

#[test]
fn card_12_keeps_the_number_of_the_second_source() {
    let records = hex(CARD_12_RECORDS);
    let (refusal, files) = unresolved(resolving(&records), 100);
    assert_eq!(refusal, at(Refusal::UNRESOLVED, 3));
    assert_eq!(files, [FileName::new(10)]);
}
