//! swc's types to document 01's bytes.

mod expression;
mod module;
mod records;
mod statement;

use std::fmt::Debug;

use swc_bundler::probe::{Raw, Resolved};
use swc_common::SyntaxContext;
use swc_ecma_ast::{Ident, ModuleItem, ObjectLit, Str};

use crate::names::atom_number;

/// A field's content is longer than its two length bytes can say.
pub struct TooLong;

pub type Bytes = Result<Vec<u8>, TooLong>;

pub fn module(items: &[ModuleItem]) -> Bytes {
    written(|w| w.field(0x01, |w| w.each(items, Writer::item)))
}

pub fn attributes(with: &ObjectLit) -> Bytes {
    written(|w| w.attributes(with))
}

pub fn records(raw: &Raw) -> Bytes {
    written(|w| w.field(0x02, |w| w.records(raw)))
}

pub fn resolved(list: &Resolved) -> Bytes {
    written(|w| w.field(0x03, |w| w.fields(0x90, list.records(), Writer::resolved)))
}

fn written(write: impl FnOnce(&mut Writer)) -> Bytes {
    let mut w = Writer {
        out: Vec::new(),
        too_long: false,
    };
    write(&mut w);
    match w.too_long {
        false => Ok(w.out),
        true => Err(TooLong),
    }
}

/// For what swc's types can hold and no tree gives.
fn outside(node: impl Debug) -> ! {
    panic!("not in the byte form: {node:?}")
}

struct Writer {
    out: Vec<u8>,
    too_long: bool,
}

impl Writer {
    fn field(&mut self, tag: u8, content: impl FnOnce(&mut Self)) {
        self.out.extend([tag, 0, 0]);
        let start = self.out.len();
        content(self);
        match u16::try_from(self.out.len() - start) {
            Ok(length) => self.out[start - 2..start].copy_from_slice(&length.to_be_bytes()),
            Err(_) => self.too_long = true,
        }
    }

    fn each<T>(&mut self, list: impl IntoIterator<Item = T>, write: impl Fn(&mut Self, T)) {
        list.into_iter().for_each(|item| write(self, item));
    }

    /// A field with this tag for each of the list.
    fn fields<T>(
        &mut self,
        tag: u8,
        list: impl IntoIterator<Item = T>,
        content: impl Fn(&mut Self, T),
    ) {
        self.each(list, |w, item| w.field(tag, |w| content(w, item)));
    }

    fn byte(&mut self, b: u8) {
        self.out.push(b);
    }

    fn u16(&mut self, n: u16) {
        self.out.extend(n.to_be_bytes());
    }

    fn u32(&mut self, n: u32) {
        self.out.extend(n.to_be_bytes());
    }

    fn atom(&mut self, name: &str) {
        self.u16(atom_number(name));
    }

    fn ctxt(&mut self, ctxt: SyntaxContext) {
        self.u32(ctxt.as_u32());
    }

    fn ident(&mut self, ident: &Ident) {
        self.atom(&ident.sym);
        self.ctxt(ident.ctxt);
    }

    fn literal(&mut self, s: &Str) {
        self.atom(&s.value.to_string_lossy());
        self.u32(s.span.lo.0);
    }
}
