//! Lent lists, the scope, contexts.

use tychodrel::{Atom, Extraction, FileName, ModuleId, Scope, SyntaxContext, SCOPE_SIZE};

use crate::support::{extraction, files, hex, Buffers, CARD_2};

/// The scope of an extraction of card 2 with these files.
fn scope_after(files: &[FileName]) -> Scope {
    let tree = hex(CARD_2);
    let mut scope = Scope::new();
    let lent = Extraction {
        files,
        ..extraction(&tree)
    };
    Buffers::long().extract(lent, &mut scope).unwrap();
    scope
}

#[test]
fn contexts_of_a_module() {
    assert_eq!(ModuleId::new(1).local_ctxt(), SyntaxContext::new(4));
    assert_eq!(ModuleId::new(1).export_ctxt(), SyntaxContext::new(5));
    assert_eq!(ModuleId::new(65_535).export_ctxt().get(), 131_073);
}

#[test]
fn numbers_show_themselves() {
    assert_eq!(format!("{:?}", Atom::new(300)), "Atom(300)");
    assert_eq!(format!("{:?}", FileName::new(10)), "FileName(10)");
}

#[test]
fn a_new_scope_is_empty() {
    let scope = Scope::new();
    assert!(scope.is_empty() && scope.files().is_empty());
    assert_eq!(scope.modules().next(), None);
    assert_eq!(scope.as_bytes(), &[0; SCOPE_SIZE]);
}

#[test]
fn lent_files_get_their_numbers_first() {
    let scope = scope_after(&[700, 10, 700, 9].map(FileName::new));
    assert_eq!(*scope.files(), [700, 10, 9].map(FileName::new));
    assert_eq!(scope.len(), 3);
    assert_eq!(scope.module_id(FileName::new(9)), Some(ModuleId::new(2)));
    assert_eq!(scope.module_id(FileName::new(8)), None);
    assert_eq!(scope.as_bytes()[..11], hex("0003 02BC00 000A00 000900"));
}

#[test]
fn a_full_scope_has_256_files() {
    let lent = files(0, 256);
    let scope = scope_after(&lent);
    assert_eq!(*scope.files(), lent);
    assert_eq!(scope.modules().last().unwrap().id, ModuleId::new(255));
}

#[test]
fn an_external_source_gets_no_record() {
    let tree = hex(CARD_2);
    let lent = Extraction {
        externals: &[19, 20, 21].map(Atom::new),
        ..extraction(&tree)
    };
    let mut scope = Scope::new();
    let mut buffers = Buffers::long();
    let extracted = buffers.extract(lent, &mut scope).unwrap();
    assert_eq!(extracted.out, tree);
    assert_eq!(extracted.records, [2, 0, 0]);
    assert_eq!(*scope.files(), [FileName::new(9)]);
}
