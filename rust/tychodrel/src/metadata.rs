//! Export metadata in import attributes.

use crate::field::written;
use crate::refusal::accepted;
use crate::{calls, Refusal, SyntaxContext};

/// Export metadata, kept in the attributes of an import.
///
/// ```
/// use tychodrel::{Metadata, ModuleId};
///
/// let metadata = Metadata {
///     injected: false,
///     context: Some(ModuleId::new(1).export_ctxt()),
/// };
/// let mut out = [0; 64];
/// let attributes = metadata.encode(&[], &mut out)?;
/// assert_eq!(Metadata::decode(attributes)?, metadata);
/// # Ok::<(), tychodrel::Refusal>(())
/// ```
#[derive(Clone, Copy, Debug, Default, PartialEq, Eq, Hash)]
pub struct Metadata {
    /// Whether the import is injected.
    pub injected: bool,
    /// The export context.
    pub context: Option<SyntaxContext>,
}

impl Metadata {
    /// Adds the metadata to attributes, a 2F field or empty bytes for none, and gives the 2F field
    /// in `out`. Behind it `out` has zeros; refused, it is all zero.
    pub fn encode<'b>(&self, attributes: &[u8], out: &'b mut [u8]) -> Result<&'b [u8], Refusal> {
        let context = self.context.map(SyntaxContext::get);
        let answer = calls::encode_metadata(self.injected, context, attributes, out);
        accepted(answer).map(|_| written(out))
    }

    /// Reads the metadata in attributes, a 2F field or empty bytes for none.
    pub fn decode(attributes: &[u8]) -> Result<Self, Refusal> {
        let mut metadata = [0; 6];
        accepted(calls::decode_metadata(attributes, &mut metadata))?;
        let [injected, has_context, context @ ..] = metadata;
        let context = SyntaxContext::new(u32::from_be_bytes(context));
        Ok(Self {
            injected: injected == 1,
            context: (has_context == 1).then_some(context),
        })
    }
}
