//! Results as vectors.

use tychodrel::{Metadata, ModuleId, Refusal, Resolving, Scope};

use crate::support::{at, extraction, files, hex, resolving};
use crate::support::{CARD_12_RECORDS, CARD_2, CARD_2_LIST, CARD_2_RECORDS, TABLE};

#[test]
fn card_2_has_the_exact_lengths() {
    let tree = hex(CARD_2);
    let mut scope = Scope::new();
    let extracted = extraction(&tree).extract_to_vec(&mut scope).unwrap();
    assert_eq!(extracted.work.len(), 79);
    assert_eq!(extracted.out.len(), 72);
    assert_eq!(extracted.records, hex(CARD_2_RECORDS));

    let lent = Resolving {
        files: &scope.files(),
        table: &TABLE,
        records: &extracted.records,
        ..Resolving::default()
    };
    assert_eq!(lent.resolve_to_vec(&mut scope), Ok(hex(CARD_2_LIST)));
}

#[test]
fn the_scope_comes_back_refused_or_not() {
    let mut scope = Scope::new();
    let refusal = extraction(&[]).extract_to_vec(&mut scope).unwrap_err();
    assert_eq!((refusal, scope.len()), (at(Refusal::OFF_GRAMMAR, 0), 0));
    let records = hex(CARD_12_RECORDS);
    let resolved = resolving(&records).resolve_to_vec(&mut scope);
    assert_eq!(resolved, Err(at(Refusal::UNRESOLVED, 3)));
    assert_eq!(*scope.files(), files(10, 1));
}

#[test]
fn metadata_onto_older_attributes() {
    let injected = Metadata {
        injected: true,
        context: None,
    };
    let older = injected.encode_to_vec(&[]).unwrap();
    let context = Metadata {
        injected: false,
        context: Some(ModuleId::new(3).export_ctxt()),
    };
    let attributes = context.encode_to_vec(&older).unwrap();
    let both = Metadata {
        injected: true,
        ..context
    };
    assert_eq!(Metadata::decode(&attributes), Ok(both));
}
