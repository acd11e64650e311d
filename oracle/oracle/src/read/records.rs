//! Records.

use swc_bundler::probe::Raw;

use super::{Reader, Res};

impl Reader<'_> {
    pub fn records(&mut self) -> Res<Raw> {
        let raw = self.tagged(0x02, |r| {
            let imports = r.many(0x80..=0x80, |r| r.field(|_, r| r.record()))?;
            let lazy_imports = r.many(0x81..=0x81, |r| r.field(|_, r| r.record()))?;
            let dynamic_imports = r.many(0x82..=0x82, |r| r.field(|_, r| r.literal()))?;
            let forced_ns = r.many(0x83..=0x83, |r| r.field(|_, r| r.atom()))?;
            Ok(Raw::new(imports, lazy_imports, dynamic_imports, forced_ns))
        })?;
        self.end()?;
        Ok(raw)
    }
}
