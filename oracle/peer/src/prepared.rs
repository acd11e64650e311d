//! Calls that are prepared and then run.

use oracle::{Extraction, Failure, Globals, Lent, Resolving};

enum Call {
    Extract(Extraction<'static>),
    Resolve(Resolving<'static>),
}

/// A prepared call. It borrows the globals that stand behind it here, and fields are dropped in their order.
pub struct Peer {
    call: Call,
    _globals: OwnGlobals,
}

struct OwnGlobals(*mut Globals);

impl Drop for OwnGlobals {
    fn drop(&mut self) {
        // SAFETY: it came out of a box in `Peer::new`, and the call that borrowed it is dropped.
        drop(unsafe { Box::from_raw(self.0) });
    }
}

impl Peer {
    pub fn extract(lent: &Lent, file: u16, tree: &[u8]) -> Option<Self> {
        Peer::new(|globals| Ok(Call::Extract(Extraction::new(globals, lent, file, tree)?)))
    }

    pub fn resolve(lent: &Lent, records: &[u8]) -> Option<Self> {
        Peer::new(|globals| Ok(Call::Resolve(Resolving::new(globals, lent, records)?)))
    }

    fn new(prepare: impl FnOnce(&'static Globals) -> Result<Call, Failure>) -> Option<Self> {
        oracle::quiet();
        let globals = OwnGlobals(Box::into_raw(Box::new(Globals::new())));
        // SAFETY: it is freed after the call that borrows it, and nothing changes it through another path.
        let call = prepare(unsafe { &*globals.0 }).ok()?;
        Some(Peer {
            call,
            _globals: globals,
        })
    }

    pub fn run(&mut self) -> Result<(), Failure> {
        match &mut self.call {
            Call::Extract(extraction) => extraction.run(),
            Call::Resolve(resolving) => resolving.run(),
        }
    }
}
