//! The library's calls where the cards do not reach. Atoms: ./m=20 ./n=31 a=21 b=26 x=22; ./m is file 10, ./n file 11.

use oracle::{both, decode, detect, encode, extract, resolve, Failure, Module};

const TABLE: &str = "0014 000a 001f 000b";

/// `import * as a from './m';`
const IMPORT: &str = "10000f 0014 00000001 220006 0015 00000002";

fn bytes(hex: &str) -> Vec<u8> {
    let digits: Vec<u32> = hex.chars().filter_map(|c| c.to_digit(16)).collect();
    let pairs = digits.chunks_exact(2);
    pairs.map(|pair| (pair[0] << 4 | pair[1]) as u8).collect()
}

/// A module of these items.
fn module(items: &str) -> Vec<u8> {
    let items = bytes(items);
    let length = (items.len() as u16).to_be_bytes();
    [&[0x01], &length[..], &items].concat()
}

fn extract_module(tree: &[u8]) -> Result<oracle::Extracted, Failure> {
    oracle::quiet();
    extract(&[], 9, false, &[], &bytes(TABLE), tree)
}

fn panic_of(tree: &[u8]) -> String {
    match extract_module(tree) {
        Err(Failure::Panic(message)) => message,
        other => panic!("{other:?}"),
    }
}

#[test]
fn first_forced_stands_first() {
    let tree = module(
        "10000f 001f 00000001 220006 0015 00000002 10000f 0014 00000002 220006 001a 00000002
                       440009 600006 0015 00000002 440009 600006 001a 00000002",
    );
    let extracted = extract_module(&tree).unwrap();
    assert!(extracted
        .records
        .ends_with(&bytes("830002 001f 830002 0014")));
    let marks: Vec<u8> = extracted.scope.iter().map(|module| module.marks).collect();
    assert_eq!(marks, [0, 8, 8]);
}

#[test]
fn string_names_and_private_names_panic() {
    let string_name = module("100012 0014 00000001 200009 0015 00000002 02 0016");
    assert!(panic_of(&string_name).contains("module string names unimplemented"));
    let private_name = module(&format!(
        "{IMPORT} 440011 63000e 600006 0015 00000002 720002 0016"
    ));
    assert!(panic_of(&private_name).contains("property other than ident"));
    assert!(extract_module(&module(IMPORT)).is_ok());
}

#[test]
fn unresolved_keeps_numbers() {
    let records = bytes("020012 800006 001e 00000001 800006 0014 00000002");
    let scope = vec![Module { file: 7, marks: 0 }, Module { file: 10, marks: 0 }];
    assert_eq!(
        resolve(&[0, 7], &bytes(TABLE), &records),
        Err(Failure::Unresolved(scope))
    );
}

#[test]
fn both_is_one_scope() {
    let tree = module(IMPORT);
    let (extracted, resolved) = both(&[], 9, false, &[], &bytes(TABLE), &tree).unwrap();
    assert_eq!(Ok(&extracted), extract_module(&tree).as_ref());
    assert_eq!(resolved.scope, extracted.scope);
    let again = resolve(&bytes("0009 000a"), &bytes(TABLE), &extracted.records).unwrap();
    assert_eq!(again.list, resolved.list);
}

#[test]
fn off_the_grammar_is_bad() {
    let bad = |text: &str| Err(Failure::Bad(text.to_string()));
    let off = |items: &str| extract_module(&module(items)).map(|_| ());
    let tag_6f = "440015 6f0012 00 63000e 600006 0015 00000002 700002 0016";
    assert_eq!(off(tag_6f), bad("tag 6f for an expression"));
    let tag_79 = "44000c 790009 600006 0015 00000002";
    assert_eq!(off(tag_79), bad("tag 79 for an expression"));
    assert_eq!(off("40"), bad("cut off"));
    assert_eq!(off("400001 00"), bad("00 left over"));
    assert_eq!(decode(&bytes("300000")).map(|_| ()), bad("tag 30 for 2f"));
    let records = bytes("020003 840000");
    assert_eq!(resolve(&[], &[], &records).map(|_| ()), bad("84 left over"));
}

#[test]
fn detection() {
    let call = module("44000c 650009 600006 0015 00000002");
    assert_eq!(detect(true, &call), Ok(false));
    assert_eq!(detect(false, &call), Ok(true));
    assert_eq!(detect(true, &module(IMPORT)), Ok(true));
}

#[test]
fn metadata() {
    assert_eq!(encode(false, None, &[]), Ok(bytes("2f0000")));
    let attributes = encode(true, Some(7), &[]).unwrap();
    assert_eq!(decode(&attributes), Ok((true, Some(7))));
    assert_eq!(decode(&[]), Ok((false, None)));
    let longest = [bytes("2fffff 30fffc 000000"), vec![0; 65_529]].concat();
    assert_eq!(encode(false, None, &longest), Ok(longest.clone()));
    assert_eq!(encode(true, None, &longest), Err(Failure::TooLong));
}
