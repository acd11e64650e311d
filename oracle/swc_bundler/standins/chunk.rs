// Stands for bundler/chunk.rs and bundler/finalize.rs, whose calls `Bundler::bundle` names. The oracle never calls it.

use anyhow::Error;
use rustc_hash::FxHashMap;
use swc_common::Mark;

use super::{load::TransformedModule, Bundle, Bundler};
use crate::{Load, Resolve};

impl<L, R> Bundler<'_, L, R>
where
    L: Load,
    R: Resolve,
{
    pub(super) fn chunk(
        &self,
        _: FxHashMap<String, TransformedModule>,
    ) -> Result<Vec<Bundle>, Error> {
        unimplemented!("chunk is not built")
    }

    pub(super) fn finalize(&self, _: Vec<Bundle>, _: Mark) -> Result<Vec<Bundle>, Error> {
        unimplemented!("finalize is not built")
    }
}
