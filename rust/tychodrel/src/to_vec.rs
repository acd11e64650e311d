//! Calls that give vectors of the fields' lengths, for hosts with a heap.

use alloc::{vec, vec::Vec};

use crate::{Extracted, Extraction, Metadata, Refusal, Resolving, Scope, MAX_FIELD_LEN};

impl Extraction<'_> {
    /// [`extract`](Extraction::extract) into vectors. No buffer of the call is too short.
    pub fn extract_to_vec(&self, scope: &mut Scope) -> Result<Extracted<Vec<u8>>, Refusal> {
        let [mut work, mut out, mut records] = [(); 3].map(|()| vec![0; MAX_FIELD_LEN]);
        let extracted = self.extract(scope, &mut work, &mut out, &mut records)?;
        Ok(Extracted {
            work: extracted.work.to_vec(),
            out: extracted.out.to_vec(),
            records: extracted.records.to_vec(),
        })
    }
}

impl Resolving<'_> {
    /// [`resolve`](Resolving::resolve) into a vector. The buffer of the call is not too short.
    pub fn resolve_to_vec(&self, scope: &mut Scope) -> Result<Vec<u8>, Refusal> {
        let mut list = vec![0; MAX_FIELD_LEN];
        self.resolve(scope, &mut list).map(<[u8]>::to_vec)
    }
}

impl Metadata {
    /// [`encode`](Metadata::encode) into a vector. The buffer of the call is not too short.
    pub fn encode_to_vec(&self, attributes: &[u8]) -> Result<Vec<u8>, Refusal> {
        let mut out = vec![0; MAX_FIELD_LEN];
        self.encode(attributes, &mut out).map(<[u8]>::to_vec)
    }
}
