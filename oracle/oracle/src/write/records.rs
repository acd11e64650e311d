//! Records and resolved lists.

use swc_bundler::{
    probe::{Raw, Record, RecordSpecifier},
    Id,
};

use super::Writer;
use crate::names::file_number;

impl Writer {
    /// The content of an 02.
    pub(super) fn records(&mut self, raw: &Raw) {
        self.fields(0x80, raw.imports(), Writer::record);
        self.fields(0x81, raw.lazy_imports(), Writer::record);
        self.fields(0x82, raw.dynamic_imports(), Writer::literal);
        self.fields(0x83, raw.forced_ns(), |w, src| w.atom(src));
    }

    /// The content of a 90.
    pub(super) fn resolved(&mut self, record: Record) {
        let (synchronous, unconditional) =
            (record.is_loaded_synchronously, record.is_unconditional);
        self.byte(u8::from(synchronous) | u8::from(unconditional) << 1);
        let number = u16::try_from(record.module_id);
        self.u16(number.expect("a module's number is two bytes"));
        self.u16(file_number(record.file));
        self.ctxt(record.local_ctxt);
        self.ctxt(record.export_ctxt);
        self.literal(record.src);
        self.each(record.specifiers(), Writer::resolved_specifier);
    }

    fn resolved_specifier(&mut self, specifier: RecordSpecifier) {
        match specifier {
            RecordSpecifier::Specific { local, alias } => self.field(0x91, |w| {
                w.id(local);
                w.byte(alias.is_some().into());
                if let Some(alias) = alias {
                    w.id(alias);
                }
            }),
            RecordSpecifier::Namespace { local, all } => self.field(0x92, |w| {
                w.id(local);
                w.byte(all.into());
            }),
        }
    }

    fn id(&mut self, id: &Id) {
        self.atom(id.sym());
        self.ctxt(id.ctxt());
    }
}
