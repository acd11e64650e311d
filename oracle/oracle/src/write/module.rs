//! Modules, imports, exports and attributes.

use swc_ecma_ast::*;

use super::{outside, Writer};
use crate::names::text_to_bytes;

impl Writer {
    pub(super) fn item(&mut self, item: &ModuleItem) {
        match item {
            ModuleItem::Stmt(stmt) => self.stmt(stmt),
            ModuleItem::ModuleDecl(decl) => self.module_decl(decl),
        }
    }

    fn module_decl(&mut self, decl: &ModuleDecl) {
        match decl {
            ModuleDecl::Import(import) => self.field(0x10, |w| {
                w.record(import);
                if let Some(with) = &import.with {
                    w.attributes(with);
                }
            }),
            ModuleDecl::ExportNamed(export) => self.field(0x11, |w| {
                w.byte(export.src.is_some().into());
                if let Some(src) = &export.src {
                    w.literal(src);
                }
                w.each(&export.specifiers, Writer::export_specifier);
            }),
            ModuleDecl::ExportAll(all) => self.field(0x12, |w| w.literal(&all.src)),
            ModuleDecl::ExportDecl(export) => self.field(0x13, |w| w.decl(&export.decl)),
            ModuleDecl::ExportDefaultExpr(export) => self.field(0x14, |w| w.expr(&export.expr)),
            other => outside(other),
        }
    }

    /// The content of an 80 or 81, or of a 10 up to its attributes.
    pub(super) fn record(&mut self, import: &ImportDecl) {
        self.literal(&import.src);
        self.each(&import.specifiers, Writer::import_specifier);
    }

    fn import_specifier(&mut self, specifier: &ImportSpecifier) {
        match specifier {
            ImportSpecifier::Named(s) => self.field(0x20, |w| {
                w.ident(&s.local);
                w.outside_name(s.imported.as_ref());
            }),
            ImportSpecifier::Default(s) => self.field(0x21, |w| w.ident(&s.local)),
            ImportSpecifier::Namespace(s) => self.field(0x22, |w| w.ident(&s.local)),
        }
    }

    fn export_specifier(&mut self, specifier: &ExportSpecifier) {
        match specifier {
            ExportSpecifier::Named(s) => self.field(0x23, |w| {
                w.outside_name(Some(&s.orig));
                w.outside_name(s.exported.as_ref());
            }),
            ExportSpecifier::Namespace(s) => match &s.name {
                ModuleExportName::Ident(name) => self.field(0x24, |w| w.ident(name)),
                other => outside(other),
            },
            other => outside(other),
        }
    }

    /// Byte 0, or 1 and I, or 2 and A.
    fn outside_name(&mut self, name: Option<&ModuleExportName>) {
        match name {
            None => self.byte(0),
            Some(ModuleExportName::Ident(name)) => {
                self.byte(1);
                self.ident(name);
            }
            Some(ModuleExportName::Str(name)) => {
                self.byte(2);
                self.atom(&name.value.to_string_lossy());
            }
        }
    }

    /// A 2F.
    pub(super) fn attributes(&mut self, with: &ObjectLit) {
        self.field(0x2F, |w| w.fields(0x30, &with.props, Writer::attribute));
    }

    /// The content of a 30.
    fn attribute(&mut self, PropOrSpread::Prop(prop): &PropOrSpread) {
        let Prop::KeyValue(KeyValueProp { key, value }) = &**prop else {
            outside(prop)
        };
        let (ident_key, key) = match key {
            PropName::Ident(name) => (true, text_to_bytes(&name.sym)),
            PropName::Str(s) => (false, text_to_bytes(&s.value.to_string_lossy())),
        };
        let (str_value, value) = match &**value {
            Expr::Lit(Lit::Str(s)) => (true, text_to_bytes(&s.value.to_string_lossy())),
            Expr::Lit(Lit::Num(Number { raw: Some(raw), .. })) => (false, text_to_bytes(raw)),
            other => outside(other),
        };
        self.byte(ident_key.into());
        self.byte(str_value.into());
        self.byte(key.len().try_into().expect("a key's length is a byte"));
        self.out.extend(key);
        self.out.extend(value);
    }
}
