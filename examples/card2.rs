//! Extracts and resolves card 2 of document 01, `import * as a from './m'; a.x;`, then has it
//! refused, cut short. Here a is 21, x is 22, './m' is 20 and resolves to file 10; the module's own
//! file is 9.

use tychodrel::{Atom, Extraction, FileName, Refusal, Resolving, Row, Scope};

const TABLE: [Row; 1] = [Row {
    source: Atom::new(20),
    file: FileName::new(10),
}];

const TREE: [u8; 41] = [
    0x01, 0x00, 0x26, 0x10, 0x00, 0x0F, 0x00, 0x14, 0x00, 0x00, 0x00, 0x01, 0x22, 0x00, 0x06, 0x00,
    0x15, 0x00, 0x00, 0x00, 0x02, 0x44, 0x00, 0x11, 0x63, 0x00, 0x0E, 0x60, 0x00, 0x06, 0x00, 0x15,
    0x00, 0x00, 0x00, 0x02, 0x70, 0x00, 0x02, 0x00, 0x16,
];

fn show(name: &str, field: &[u8]) {
    print!("{name}: ");
    for byte in field {
        print!("{byte:02x}");
    }
    println!();
}

fn main() -> Result<(), Refusal> {
    let mut scope = Scope::new();
    let (mut work, mut out, mut records, mut list) = ([0; 256], [0; 256], [0; 256], [0; 256]);
    let whole = Extraction {
        file: FileName::new(9),
        table: &TABLE,
        tree: &TREE,
        ..Extraction::default()
    };
    let extracted = whole.extract(&mut scope, &mut work, &mut out, &mut records)?;
    // The files of the extraction's scope get the same module numbers in resolving.
    let resolving = Resolving {
        files: &scope.files(),
        table: &TABLE,
        records: extracted.records,
        ..Resolving::default()
    };
    let resolved = resolving.resolve(&mut scope, &mut list)?;
    show("work", extracted.work);
    show("out", extracted.out);
    show("records", extracted.records);
    show("list", resolved);

    let cut = Extraction {
        tree: &TREE[..40],
        ..whole
    };
    if let Err(refusal) = cut.extract(&mut scope, &mut work, &mut out, &mut records) {
        println!("refusal: {} at {}", refusal.number, refusal.place);
        println!("found: {}", refusal.found());
        println!("place: {}", refusal.points_at());
        println!("remedy: {}", refusal.remedy());
    }
    Ok(())
}
