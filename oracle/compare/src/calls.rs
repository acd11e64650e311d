//! Makes the library's calls. Each lent list and each buffer is an allocation of exactly its length, so that a tool
//! that watches the heap sees any access beyond it.

use tychodrel::calls;

use crate::{lent::Lent, request::Request};

/// What buffers hold before a call.
const FILL: u8 = 0xaa;

/// What a call leaves.
pub struct Outcome {
    pub answer: u64,
    /// The scope's 770 bytes; empty for calls without a scope.
    pub scope: Box<[u8]>,
    /// The report's 32 bytes; empty for calls without a report.
    pub report: Box<[u8]>,
    pub buffers: Vec<Box<[u8]>>,
}

impl Outcome {
    /// The refusal's number; 0 is acceptance.
    pub fn number(&self) -> u64 {
        self.answer >> 32
    }

    pub fn place(&self) -> usize {
        self.answer as u32 as usize
    }

    pub fn without_scope(answer: u64, buffers: Vec<Box<[u8]>>) -> Self {
        Outcome {
            answer,
            scope: Box::default(),
            report: Box::default(),
            buffers,
        }
    }
}

fn copy(bytes: &[u8]) -> Box<[u8]> {
    bytes.into()
}

fn buffer(room: usize) -> Box<[u8]> {
    vec![FILL; room].into()
}

/// Makes a request's call with buffers of these lengths.
pub fn make(request: &Request, rooms: &[usize]) -> Outcome {
    match request {
        Request::Extract { lent, tree } => extract(lent, tree, rooms),
        Request::Resolve {
            files,
            table,
            records,
        } => resolve(files, table, records, rooms[0]),
        Request::Detect { config, tree } => {
            Outcome::without_scope(calls::detect(modes(*config, tree), &copy(tree)), Vec::new())
        }
        Request::Encode {
            injected,
            context,
            attributes,
        } => {
            let mut out = buffer(rooms[0]);
            let lent = copy(attributes);
            let answer = calls::encode_metadata(*injected, *context, &lent, &mut out);
            Outcome::without_scope(answer, vec![out])
        }
        Request::Decode { attributes } => {
            let mut metadata = Box::new([FILL; 6]);
            let answer = calls::decode_metadata(&copy(attributes), &mut metadata);
            Outcome::without_scope(answer, vec![metadata])
        }
    }
}

/// The mode that a request asks for, and bits without a meaning, which change nothing: the tree's length tells them.
fn modes(config: bool, tree: &[u8]) -> u32 {
    u32::from(config) | (tree.len() as u32) << 1
}

fn extract(lent: &Lent, tree: &[u8], rooms: &[usize]) -> Outcome {
    let mut scope = Box::new([FILL; 770]);
    let mut report = Box::new([FILL; 32]);
    let [mut work, mut out, mut records] = [rooms[0], rooms[1], rooms[2]].map(buffer);
    let answer = calls::extract(
        &copy(&lent.files),
        lent.own,
        modes(lent.config, tree),
        &copy(&lent.externals),
        &copy(&lent.table),
        &copy(tree),
        &mut scope,
        &mut report,
        &mut work,
        &mut out,
        &mut records,
    );
    Outcome {
        answer,
        scope,
        report,
        buffers: vec![work, out, records],
    }
}

fn resolve(files: &[u8], table: &[u8], records: &[u8], room: usize) -> Outcome {
    let mut scope = Box::new([FILL; 770]);
    let mut report = Box::new([FILL; 32]);
    let mut list = buffer(room);
    let answer = calls::resolve(
        &copy(files),
        0,
        &copy(table),
        &copy(records),
        &mut scope,
        &mut report,
        &mut list,
    );
    Outcome {
        answer,
        scope,
        report,
        buffers: vec![list],
    }
}
