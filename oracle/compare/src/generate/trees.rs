//! Trees and records made by the grammar's table, over so few atoms and contexts that ids collide.
//!
//! Every tag can stand wherever the grammar allows it. Some forms are preferred, because the rules speak of them:
//! imports of one namespace, members and calls of an identifier, calls of require and variables with such a call.

use super::attributes;
use crate::{
    field::{
        atom_bytes, call, computed, ident, import, member, module, namespace, pair_bytes, property,
        require, Field, Id, Literal, REQUIRE,
    },
    grammar::{slots, Slot, Times, EXPRESSIONS, ITEMS},
    lent::{Lent, SOURCES},
    rng::Rng,
};

/// Atoms of ids: 0 to 4 have a meaning of their own.
const ATOMS: [u16; 8] = [0x15, 0x16, 0x18, 0, 1, 2, 3, 4];

/// Contexts of ids, beside the own ones.
const CONTEXTS: [u32; 7] = [0, 2, 3, 4, 5, 6, u32::MAX];

/// Tags that are chosen more often, where they may stand.
const PREFERRED: [u8; 9] = [0x10, 0x22, 0x23, 0x41, 0x44, 0x44, 0x60, 0x63, 0x65];

/// A long tree has more fields with parts than this.
const LONG: usize = 100;

/// What ids and literals are made of. The more often something stands in a list, the more often it is taken.
pub struct Names {
    pub atoms: Vec<u16>,
    contexts: Vec<u32>,
    sources: Vec<u16>,
}

impl Names {
    /// Half of the trees have two atoms, two contexts and two sources at most.
    fn new(rng: &mut Rng, lent: &Lent) -> Self {
        let (local, export) = lent.own_contexts();
        if rng.one_in(2) {
            return Names {
                atoms: vec![ATOMS[0], ATOMS[0], rng.pick(&ATOMS)],
                contexts: vec![local, local, rng.pick(&CONTEXTS)],
                sources: vec![rng.pick(&SOURCES), rng.pick(&SOURCES)],
            };
        }
        let mut names = Names {
            atoms: ATOMS.to_vec(),
            contexts: vec![local; 5],
            sources: SOURCES.to_vec(),
        };
        names.atoms.extend([ATOMS[0], ATOMS[0], ATOMS[1], ATOMS[1]]);
        names
            .contexts
            .extend([export, rng.pick(&CONTEXTS), rng.pick(&CONTEXTS)]);
        names
    }
}

pub struct Trees<'a> {
    rng: &'a mut Rng,
    pub names: Names,
    /// How many more fields with parts may be made.
    left: usize,
    /// Namespace ids, which stand only where well placed trees may have them.
    pub namespaces: Vec<Id>,
    /// The walk's flag *object*, at the field that is made.
    object: bool,
}

impl<'a> Trees<'a> {
    pub fn new(rng: &'a mut Rng, lent: &Lent) -> Self {
        let names = Names::new(rng, lent);
        let long = rng.one_in(80);
        let left = if long {
            LONG + rng.below(1_500)
        } else {
            4 + rng.below(60)
        };
        Trees {
            rng,
            names,
            left,
            namespaces: Vec::new(),
            object: false,
        }
    }

    pub fn module(&mut self) -> Field {
        module(self.items(ITEMS))
    }

    /// Items with these tags: a few, or many in a long tree.
    pub fn items(&mut self, tags: &'static [u8]) -> Vec<Field> {
        let most = if self.left >= LONG { 200 } else { 10 };
        let count = self.rng.below(most);
        (0..count).map(|_| self.part(tags)).collect()
    }

    /// Any expression.
    pub fn expression(&mut self) -> Field {
        self.part(EXPRESSIONS)
    }

    /// A field with one of these tags.
    pub fn part(&mut self, tags: &'static [u8]) -> Field {
        let preferred = self.left > 0 && self.rng.one_in(3);
        if preferred && EXPRESSIONS.iter().all(|tag| tags.contains(tag)) {
            return self.preferred_expression();
        }
        match tags {
            [0x10, ..] if preferred => import(self.literal(), vec![namespace(self.id())]),
            [0x42] if preferred => self.required_variable(),
            _ => {
                let tag = self.choose(tags);
                self.field(tag)
            }
        }
    }

    /// A declarator whose initialiser is a call of require, or nearly one.
    fn required_variable(&mut self) -> Field {
        let patterns = slots(0x42)[0].tags;
        let parts = vec![self.part(patterns), self.call_of_require()];
        Field::new(0x42, Vec::new(), parts)
    }

    fn choose(&mut self, tags: &'static [u8]) -> u8 {
        if self.left == 0 {
            let leaves: Vec<u8> = tags.iter().copied().filter(|tag| is_leaf(*tag)).collect();
            let only_with_parts = leaves.is_empty();
            return self.rng.pick(if only_with_parts { tags } else { &leaves });
        }
        let preferred = self.rng.pick(&PREFERRED);
        match tags.contains(&preferred) {
            true => preferred,
            false => self.rng.pick(tags),
        }
    }

    /// A field with this tag.
    pub fn field(&mut self, tag: u8) -> Field {
        let fixed = self.fixed(tag);
        let object = self.object;
        let mut parts = Vec::new();
        for (i, slot) in slots(tag).iter().enumerate() {
            self.left = self.left.saturating_sub(1);
            self.object = match tag {
                0x63 => i == 0,
                0x64 => false,
                _ => object,
            };
            let times = self.times(slot);
            parts.extend((0..times).map(|_| self.part(slot.tags)));
        }
        self.object = object;
        Field::new(tag, fixed, parts)
    }

    fn times(&mut self, slot: &Slot) -> usize {
        match slot.times {
            Times::One => 1,
            _ if self.left == 0 => 0,
            Times::Optional => self.rng.below(2),
            Times::Many => self.rng.pick(&[0, 1, 1, 1, 2, 3]),
        }
    }

    /// An expression of which the rules speak.
    fn preferred_expression(&mut self) -> Field {
        self.left -= 1;
        if !self.namespaces.is_empty() && self.rng.one_in(2) {
            return self.use_of_namespace();
        }
        match self.rng.below(20) {
            0..=7 => member(ident(self.id()), property(0x70, self.atom())),
            8 => member(ident(self.id()), property(0x72, self.atom())),
            9 | 10 => member(ident(self.id()), computed(self.expression())),
            11 | 12 => call(ident(self.id()), ident(self.id())),
            13 => self.long_object(),
            _ => self.call_of_require(),
        }
    }

    /// A member whose object has several parts, such as `[super[e], a, e].x`.
    fn long_object(&mut self) -> Field {
        let object = std::mem::replace(&mut self.object, true);
        let elements = vec![self.field(0x64), ident(self.id()), self.expression()];
        self.object = object;
        let array = Field::new(0x6a, Vec::new(), elements);
        member(array, property(0x70, self.atom()))
    }

    /// A call of require, or one that fails a single condition, or one that the second pass makes a call of require.
    fn call_of_require(&mut self) -> Field {
        let mut call = require(self.context(), self.literal());
        match self.rng.below(16) {
            0 => call.parts[1].fixed = vec![1],
            1 => call.parts.push(call.parts[1].clone()),
            2 => drop(call.parts.pop()),
            3 => call.parts[1].parts = vec![ident(self.id())],
            4 => call.parts[0] = Field::new(0x6e, Vec::new(), vec![call.parts[0].clone()]),
            5..=7 if self.namespaces.is_empty() => {
                call.parts[0] = member(ident(self.id()), property(0x70, REQUIRE));
            }
            _ => {}
        }
        call
    }

    /// A use as well placed trees have it; no property is named require.
    fn use_of_namespace(&mut self) -> Field {
        let id = self.rng.pick(&self.namespaces);
        match self.rng.below(8) {
            0 => {
                let object = std::mem::replace(&mut self.object, false);
                let inside = self.expression();
                self.object = object;
                member(ident(id), computed(inside))
            }
            1 if !self.object => ident(id),
            _ => member(ident(id), property(0x70, self.rng.pick(&ATOMS[..3]))),
        }
    }

    /// The fixed bytes of a tag.
    fn fixed(&mut self, tag: u8) -> Vec<u8> {
        match tag {
            0x10 | 0x12 | 0x61 | 0x80..=0x82 => pair_bytes(self.literal()),
            0x11 if self.rng.one_in(2) => vec![0],
            0x11 => [vec![1], pair_bytes(self.literal())].concat(),
            0x20 => [pair_bytes(self.id()), self.outside()].concat(),
            0x23 => [self.original(), self.outside()].concat(),
            0x21 | 0x22 | 0x24 | 0x43 | 0x50 | 0x54 | 0x60 | 0x77 => pair_bytes(self.id()),
            0x30 => attributes::content(self.rng),
            0x53 | 0x70 | 0x72 | 0x78 => atom_bytes(self.atom()),
            0x83 => atom_bytes(self.literal().0),
            0x62 => self.rng.next().to_be_bytes().to_vec(),
            0x6b | 0x6d => vec![self.rng.byte()],
            0x75 => vec![u8::from(self.rng.one_in(5))],
            _ => Vec::new(),
        }
    }

    /// The original name of a 23.
    fn original(&mut self) -> Vec<u8> {
        if self.rng.one_in(30) {
            return [vec![2], atom_bytes(self.atom())].concat();
        }
        let of_namespace = !self.namespaces.is_empty() && self.rng.one_in(3);
        let id = match of_namespace {
            true => self.rng.pick(&self.namespaces),
            false => self.id(),
        };
        [vec![1], pair_bytes(id)].concat()
    }

    /// An outside name: none, an identifier, or seldom a string.
    fn outside(&mut self) -> Vec<u8> {
        match self.rng.below(30) {
            0 => [vec![2], atom_bytes(self.atom())].concat(),
            1..=14 => [vec![1], pair_bytes(self.id())].concat(),
            _ => vec![0],
        }
    }

    fn id(&mut self) -> Id {
        (self.atom(), self.context())
    }

    fn atom(&mut self) -> u16 {
        self.rng.pick(&self.names.atoms)
    }

    fn context(&mut self) -> u32 {
        self.rng.pick(&self.names.contexts)
    }

    /// Literals of equal value have one of two stamps.
    fn literal(&mut self) -> Literal {
        let source = self.rng.pick(&self.names.sources);
        (source, self.rng.pick(&[1, 1, 2]))
    }
}

/// Whether a field with this tag needs no part.
fn is_leaf(tag: u8) -> bool {
    slots(tag).iter().all(|slot| slot.times != Times::One)
}
