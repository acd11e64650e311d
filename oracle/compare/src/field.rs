//! Fields of the byte form as data (a tag, fixed bytes, parts), and their bytes.

/// An identifier: atom and context.
pub type Id = (u16, u32);

/// A literal: atom and stamp.
pub type Literal = (u16, u32);

/// The atom of `require`.
pub const REQUIRE: u16 = 0;

#[derive(Clone)]
pub struct Field {
    pub tag: u8,
    pub fixed: Vec<u8>,
    pub parts: Vec<Field>,
}

impl Field {
    pub fn new(tag: u8, fixed: Vec<u8>, parts: Vec<Field>) -> Self {
        Field { tag, fixed, parts }
    }

    /// The whole field's length in bytes.
    pub fn len(&self) -> usize {
        3 + self.fixed.len() + self.parts.iter().map(Field::len).sum::<usize>()
    }

    /// How deep its deepest field is; the field itself is 1 deep.
    pub fn depth(&self) -> usize {
        1 + self.parts.iter().map(Field::depth).max().unwrap_or(0)
    }

    /// How many fields there are, itself and all below.
    pub fn count(&self) -> usize {
        1 + self.parts.iter().map(Field::count).sum::<usize>()
    }

    /// Itself (0) or the nth field below, in the order of the bytes.
    pub fn nth(&mut self, n: usize) -> Option<&mut Field> {
        if n == 0 {
            return Some(self);
        }
        let mut left = n - 1;
        for part in &mut self.parts {
            let count = part.count();
            if left < count {
                return part.nth(left);
            }
            left -= count;
        }
        None
    }

    pub fn bytes(&self) -> Vec<u8> {
        let mut out = Vec::with_capacity(self.len());
        self.write(&mut out);
        out
    }

    fn write(&self, out: &mut Vec<u8>) {
        let content = u16::try_from(self.len() - 3).expect("content of at most 65,535 bytes");
        out.push(self.tag);
        out.extend(content.to_be_bytes());
        out.extend(&self.fixed);
        self.parts.iter().for_each(|part| part.write(out));
    }
}

pub fn atom_bytes(atom: u16) -> Vec<u8> {
    atom.to_be_bytes().to_vec()
}

/// I or L: an atom, and a context or a stamp.
pub fn pair_bytes((atom, number): (u16, u32)) -> Vec<u8> {
    let mut bytes = atom_bytes(atom);
    bytes.extend(number.to_be_bytes());
    bytes
}

/// A list of 2-byte numbers, as files, externals and tables are lent.
pub fn list_bytes(numbers: &[u16]) -> Vec<u8> {
    numbers.iter().flat_map(|n| n.to_be_bytes()).collect()
}

pub fn module(items: Vec<Field>) -> Field {
    Field::new(0x01, Vec::new(), items)
}

pub fn import(source: Literal, parts: Vec<Field>) -> Field {
    Field::new(0x10, pair_bytes(source), parts)
}

/// A named import without outside name.
pub fn named(local: Id) -> Field {
    let mut fixed = pair_bytes(local);
    fixed.push(0);
    Field::new(0x20, fixed, Vec::new())
}

pub fn default(local: Id) -> Field {
    Field::new(0x21, pair_bytes(local), Vec::new())
}

pub fn namespace(local: Id) -> Field {
    Field::new(0x22, pair_bytes(local), Vec::new())
}

pub fn attributes(list: Vec<Field>) -> Field {
    Field::new(0x2f, Vec::new(), list)
}

/// An attribute with an identifier as key and a string as value.
pub fn attribute(key: &[u8], value: &[u8]) -> Field {
    let length = u8::try_from(key.len()).expect("a key of at most 255 bytes");
    Field::new(0x30, [&[1, 1, length], key, value].concat(), Vec::new())
}

pub fn statement(expression: Field) -> Field {
    Field::new(0x44, Vec::new(), vec![expression])
}

pub fn block(statements: Vec<Field>) -> Field {
    Field::new(0x45, Vec::new(), statements)
}

/// A variable declaration with one declarator.
pub fn variable(id: Id, initialiser: Field) -> Field {
    let pattern = Field::new(0x50, pair_bytes(id), Vec::new());
    let declarator = Field::new(0x42, Vec::new(), vec![pattern, initialiser]);
    Field::new(0x41, Vec::new(), vec![declarator])
}

pub fn ident(id: Id) -> Field {
    Field::new(0x60, pair_bytes(id), Vec::new())
}

/// A property: a plain name (70) or a private name (72).
pub fn property(tag: u8, atom: u16) -> Field {
    Field::new(tag, atom_bytes(atom), Vec::new())
}

pub fn computed(expression: Field) -> Field {
    Field::new(0x71, Vec::new(), vec![expression])
}

pub fn member(object: Field, property: Field) -> Field {
    Field::new(0x63, Vec::new(), vec![object, property])
}

/// A call with one argument that is not spread.
pub fn call(callee: Field, argument: Field) -> Field {
    let argument = Field::new(0x75, vec![0], vec![argument]);
    Field::new(0x65, Vec::new(), vec![callee, argument])
}

/// A call of require, whose callee has this context.
pub fn require(context: u32, source: Literal) -> Field {
    let literal = Field::new(0x61, pair_bytes(source), Vec::new());
    call(ident((REQUIRE, context)), literal)
}
