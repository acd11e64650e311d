//! What the tests share. In document 01's cards the own file is 9, and './m', atom 20, is file 10.

use tychodrel::{Atom, Extracted, Extraction, FileName, Refusal, Resolving, Row, Scope};
use tychodrel::{MAX_FIELD_LEN, MAX_FILES};

pub const CARD_2: &str = "010026 10000F 0014 00000001 220006 0015 00000002
    440011 63000E 600006 0015 00000002 700002 0016";
pub const CARD_2_RECORDS: &str = "020013 800010 0014 00000001 200007 0016 00000005 00";
pub const CARD_2_LIST: &str = "030020 90001D 03 0001 000A 00000004 00000005 0014 00000001
    910007 0016 00000005 00";
pub const CARD_12_RECORDS: &str = "020012 800006 001E 00000001 800006 0014 00000002";

pub const TABLE: [Row; 1] = [row(20, 10)];

pub const fn row(source: u16, file: u16) -> Row {
    Row {
        source: Atom::new(source),
        file: FileName::new(file),
    }
}

pub const fn at(number: u8, place: u32) -> Refusal {
    Refusal { number, place }
}

/// The files from `first` on.
pub fn files(first: u16, count: u16) -> Vec<FileName> {
    (first..first + count).map(FileName::new).collect()
}

/// The bytes of a text in hexadecimal, as document 01 writes it.
pub fn hex(text: &str) -> Vec<u8> {
    let digits: Vec<char> = text.split_whitespace().flat_map(str::chars).collect();
    let byte = |pair: &[char]| u8::from_str_radix(&String::from_iter(pair), 16).unwrap();
    digits.chunks(2).map(byte).collect()
}

/// A field with this content.
pub fn field(tag: u8, content: &[u8]) -> Vec<u8> {
    let length = u16::try_from(content.len()).unwrap();
    [&[tag], &length.to_be_bytes()[..], content].concat()
}

/// The tags of the fields that stand one behind the other in these bytes.
pub fn tags(mut fields: &[u8]) -> Vec<u8> {
    let mut tags = Vec::new();
    while let Some(first) = tychodrel::field(fields) {
        tags.push(first[0]);
        fields = &fields[first.len()..];
    }
    tags
}

pub fn extraction(tree: &[u8]) -> Extraction<'_> {
    Extraction {
        file: FileName::new(9),
        table: &TABLE,
        tree,
        ..Extraction::default()
    }
}

pub fn resolving(records: &[u8]) -> Resolving<'_> {
    Resolving {
        table: &TABLE,
        records,
        ..Resolving::default()
    }
}

/// Buffers of an extraction, with something in every byte: each call has to overwrite it.
pub struct Buffers([Vec<u8>; 3]);

impl Buffers {
    pub fn new(work: usize, out: usize, records: usize) -> Self {
        Self([work, out, records].map(|length| vec![0xFF; length]))
    }

    /// Buffers that are never too short.
    pub fn long() -> Self {
        Self::new(MAX_FIELD_LEN, MAX_FIELD_LEN, MAX_FIELD_LEN)
    }

    pub fn extract(
        &mut self,
        extraction: Extraction<'_>,
        scope: &mut Scope,
    ) -> Result<Extracted<&[u8]>, Refusal> {
        let [work, out, records] = &mut self.0;
        extraction.extract(scope, work, out, records)
    }

    /// Whether all is zero behind the first bytes of *work*, *out* and the records.
    pub fn zero_behind(&self, lengths: [usize; 3]) -> bool {
        let mut buffers = self.0.iter().zip(lengths);
        buffers.all(|(buffer, length)| buffer[length..].iter().all(|&byte| byte == 0))
    }

    /// The refusal of an extraction, which leaves the buffers zero and the lent files in the scope.
    pub fn refusal(&mut self, extraction: Extraction<'_>) -> Refusal {
        let mut scope = Scope::new();
        let refusal = self.extract(extraction, &mut scope).unwrap_err();
        assert!(self.zero_behind([0; 3]));
        let given = extraction.files.len().min(MAX_FILES);
        assert_eq!(*scope.files(), extraction.files[..given]);
        refusal
    }
}

pub fn accepted(extraction: Extraction<'_>) -> bool {
    let mut scope = Scope::new();
    Buffers::long().extract(extraction, &mut scope).is_ok()
}

pub fn refused(extraction: Extraction<'_>) -> Refusal {
    Buffers::long().refusal(extraction)
}

/// The refusal of a resolving, which leaves the list zero, and the files of its scope.
pub fn unresolved(resolving: Resolving<'_>, room: usize) -> (Refusal, Vec<FileName>) {
    let mut scope = Scope::new();
    let mut list = vec![0xFF; room];
    let refusal = resolving.resolve(&mut scope, &mut list).unwrap_err();
    assert!(list.iter().all(|&byte| byte == 0));
    (refusal, scope.files().to_vec())
}
