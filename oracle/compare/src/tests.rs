//! Tests of the generator, and of the comparing itself.

use std::collections::BTreeSet;

use crate::{
    calls,
    check::check,
    field::Field,
    generate::{self, trees::Trees},
    grammar::{slots, Times},
    judge,
    lent::Lent,
    read::{read, Fault},
    request::{Case, Expected, Kind, Request},
    rng::Rng,
    tally::Tally,
};

/// A part's tag, and where it stands: the tag of the field around it, and the slot.
type Place = (u8, usize, u8);

/// All that the grammar has below this tag.
fn places_of_grammar(tag: u8, places: &mut BTreeSet<Place>) {
    for (i, slot) in slots(tag).iter().enumerate() {
        for part in slot.tags {
            if places.insert((tag, i, *part)) {
                places_of_grammar(*part, places);
            }
        }
    }
}

fn places_of_field(field: &Field, places: &mut BTreeSet<Place>) {
    let slots = slots(field.tag);
    let mut slot = 0;
    for part in &field.parts {
        while !slots[slot].tags.contains(&part.tag) {
            slot += 1;
        }
        places.insert((field.tag, slot, part.tag));
        slot += usize::from(slots[slot].times != Times::Many);
        places_of_field(part, places);
    }
}

#[test]
fn every_tag_occurs_wherever_it_may_stand() {
    let mut missing = BTreeSet::new();
    places_of_grammar(0x01, &mut missing);
    places_of_grammar(0x02, &mut missing);
    let lent = Lent::plain(true, &[]);
    for index in 0..20_000 {
        let mut rng = Rng::new(1, index);
        let mut found = BTreeSet::new();
        places_of_field(&Trees::new(&mut rng, &lent).module(), &mut found);
        places_of_field(&Trees::new(&mut rng, &lent).field(0x02), &mut found);
        missing.retain(|place| !found.contains(place));
    }
    assert_eq!(missing, BTreeSet::new());
}

#[test]
fn every_number_comes_among_few_requests() {
    let mut tally = Tally::default();
    for index in 0..10_000 {
        let case = generate::case(1, index);
        let rooms = match case.request {
            Request::Decode { .. } => [6; 3],
            _ => [judge::LONGEST; 3],
        };
        tally.answer(case.kind, calls::make(&case.request, &rooms).number());
    }
    assert_eq!(tally.missing(), Vec::<usize>::new());
}

/// `import * as a from './m'; a.x;`
fn card() -> Request {
    let tree = [
        0x01, 0, 0x26, 0x10, 0, 0x0f, 0, 20, 0, 0, 0, 1, 0x22, 0, 6, 0, 21, 0, 0, 0, 2, 0x44, 0,
        0x11, 0x63, 0, 0x0e, 0x60, 0, 6, 0, 21, 0, 0, 0, 2, 0x70, 0, 2, 0, 22,
    ];
    Request::Extract {
        lent: Lent::plain(false, &[20, 10]),
        tree: tree.to_vec(),
    }
}

/// Every change of one byte that the call left has to be noticed.
fn every_change_is_noticed(request: &Request, rooms: &[usize]) {
    let verdict = judge::by_the_rust(request);
    let mut left = calls::make(request, rooms);
    assert!(verdict.allows(rooms, &left));
    for i in 0..left.buffers.len() {
        for at in 0..rooms[i] {
            left.buffers[i][at] ^= 1;
            assert!(!verdict.allows(rooms, &left));
            left.buffers[i][at] ^= 1;
        }
    }
    for at in 0..left.scope.len() {
        left.scope[at] ^= 1;
        assert!(!verdict.allows(rooms, &left));
        left.scope[at] ^= 1;
    }
    for at in 0..left.report.len() {
        left.report[at] ^= 1;
        assert!(!verdict.allows(rooms, &left));
        left.report[at] ^= 1;
    }
    for bit in 0..64 {
        left.answer ^= 1 << bit;
        assert!(!verdict.allows(rooms, &left));
        left.answer ^= 1 << bit;
    }
}

#[test]
fn a_changed_result_is_a_difference() {
    every_change_is_noticed(&card(), &[100, 100, 100]);
}

#[test]
fn a_changed_refusal_is_a_difference() {
    every_change_is_noticed(&card(), &[100, 50, 100]);
}

#[test]
fn another_answer_than_the_generator_expects_is_a_difference() {
    let case = Case {
        kind: Kind::Limits,
        request: card(),
        expected: Some(Expected {
            number: 8,
            place: None,
        }),
    };
    let (mut rng, mut tally) = (Rng::new(1, 1), Tally::default());
    let difference =
        check(&case, judge::by_the_rust, &mut rng, &mut tally).expect_err("the card is accepted");
    let line = "extract - 0009 0 - 0014000a 010026";
    assert!(difference.line.starts_with(line));
}

#[test]
fn faults_have_their_places() {
    let fault = |bytes: &[u8]| read(0x01, bytes).err();
    let broken = |place| Some(Fault::Broken(place));
    assert_eq!(fault(&[1, 0, 0]), None);
    assert_eq!(fault(&[]), broken(0));
    assert_eq!(fault(&[1, 0, 0, 0]), broken(3));
    assert_eq!(fault(&[1, 0, 3, 0x42, 0, 0]), broken(3));
    assert_eq!(fault(&[1, 0, 3, 0x44, 0, 0]), broken(3));
    assert_eq!(fault(&[1, 0, 4, 0x40, 0, 1, 7]), broken(6));
    assert_eq!(fault(&[1, 0, 4, 0x11, 0, 1, 2]), broken(3));
    let deep = |depth: usize| {
        let block = |inner, _| Field::new(0x45, Vec::new(), vec![inner]);
        let leaf = Field::new(0x40, Vec::new(), Vec::new());
        let items = vec![(0..depth - 2).fold(leaf, block)];
        Field::new(0x01, Vec::new(), items).bytes()
    };
    assert_eq!(fault(&deep(64)), None);
    assert_eq!(fault(&deep(65)), Some(Fault::Deep(3 * 64)));
}
