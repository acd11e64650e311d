//! Modules, imports, exports and attributes.

use swc_common::DUMMY_SP;
use swc_ecma_ast::*;

use super::{bad, Reader, Res};
use crate::names::bytes_to_text;

impl Reader<'_> {
    pub fn module(&mut self) -> Res<Module> {
        let body = self.tagged(0x01, |r| r.rest(|r| r.item()))?;
        self.end()?;
        let span = DUMMY_SP;
        Ok(Module { span, body })
    }

    fn item(&mut self) -> Res<ModuleItem> {
        match self.next_tag() {
            Some(0x10..=0x14) => self
                .field(|tag, r| r.module_decl(tag))
                .map(ModuleItem::ModuleDecl),
            _ => self.stmt().map(ModuleItem::Stmt),
        }
    }

    fn module_decl(&mut self, tag: u8) -> Res<ModuleDecl> {
        let span = DUMMY_SP;
        Ok(match tag {
            0x10 => ModuleDecl::Import(self.import()?),
            0x11 => ModuleDecl::ExportNamed(NamedExport {
                span,
                src: self.optional_literal()?.map(Box::new),
                specifiers: self.rest(|r| r.export_specifier())?,
            }),
            0x12 => ModuleDecl::ExportAll(ExportAll {
                span,
                src: Box::new(self.literal()?),
                with: None,
            }),
            0x13 => match self.stmt()? {
                Stmt::Decl(decl) => ModuleDecl::ExportDecl(ExportDecl { span, decl }),
                _ => return bad("13 without declaration"),
            },
            _ => ModuleDecl::ExportDefaultExpr(ExportDefaultExpr {
                span,
                expr: self.boxed_expr()?,
            }),
        })
    }

    /// The content of a 10.
    fn import(&mut self) -> Res<ImportDecl> {
        let mut import = self.record()?;
        import.with = self.optional(|r| r.attributes())?.map(Box::new);
        Ok(import)
    }

    /// The content of an 80 or 81, or of a 10 up to its attributes.
    pub(super) fn record(&mut self) -> Res<ImportDecl> {
        Ok(ImportDecl {
            span: DUMMY_SP,
            src: Box::new(self.literal()?),
            specifiers: self.many(0x20..=0x22, |r| r.import_specifier())?,
            type_only: false,
            with: None,
            phase: ImportPhase::Evaluation,
        })
    }

    fn optional_literal(&mut self) -> Res<Option<Str>> {
        match self.flag()? {
            true => self.literal().map(Some),
            false => Ok(None),
        }
    }

    fn import_specifier(&mut self) -> Res<ImportSpecifier> {
        let span = DUMMY_SP;
        self.field(|tag, r| {
            let local = r.ident()?;
            Ok(match tag {
                0x20 => ImportSpecifier::Named(ImportNamedSpecifier {
                    span,
                    local,
                    imported: r.outside_name()?,
                    is_type_only: false,
                }),
                0x21 => ImportSpecifier::Default(ImportDefaultSpecifier { span, local }),
                _ => ImportSpecifier::Namespace(ImportStarAsSpecifier { span, local }),
            })
        })
    }

    fn export_specifier(&mut self) -> Res<ExportSpecifier> {
        let span = DUMMY_SP;
        self.field(|tag, r| match tag {
            0x23 => match (r.outside_name()?, r.outside_name()?) {
                (Some(orig), exported) => Ok(ExportSpecifier::Named(ExportNamedSpecifier {
                    span,
                    orig,
                    exported,
                })),
                (None, _) => bad("23 without original"),
            },
            0x24 => Ok(ExportSpecifier::Namespace(ExportNamespaceSpecifier {
                span,
                name: ModuleExportName::Ident(r.ident()?),
            })),
            _ => bad(format!("tag {tag:02x} in 11")),
        })
    }

    /// Byte 0, or 1 and I, or 2 and A.
    fn outside_name(&mut self) -> Res<Option<ModuleExportName>> {
        match self.byte()? {
            0 => Ok(None),
            1 => Ok(Some(ModuleExportName::Ident(self.ident()?))),
            2 => Ok(Some(ModuleExportName::Str(text(&self.atom()?)))),
            b => bad(format!("kind byte {b}")),
        }
    }

    /// A 2F that is all there is.
    pub fn attributes_alone(&mut self) -> Res<ObjectLit> {
        let with = self.attributes()?;
        self.end()?;
        Ok(with)
    }

    /// A 2F.
    fn attributes(&mut self) -> Res<ObjectLit> {
        let props = self.tagged(0x2F, |r| r.rest(|r| r.tagged(0x30, |r| r.attribute())))?;
        let span = DUMMY_SP;
        Ok(ObjectLit { span, props })
    }

    /// A key that is no identifier stands as a string, a value that is no string as a number with raw text.
    fn attribute(&mut self) -> Res<PropOrSpread> {
        let span = DUMMY_SP;
        let (ident_key, str_value) = (self.flag()?, self.flag()?);
        let key_length = self.byte()?;
        let key = bytes_to_text(self.take(key_length.into())?);
        let value = bytes_to_text(self.take(self.bytes.len())?);
        let key = match ident_key {
            true => PropName::Ident(IdentName::new(key.as_str().into(), span)),
            false => PropName::Str(text(&key)),
        };
        let value = match str_value {
            true => Lit::Str(text(&value)),
            false => Lit::Num(Number {
                span,
                value: 0.0,
                raw: Some(value.as_str().into()),
            }),
        };
        let value = value.into();
        Ok(PropOrSpread::Prop(Box::new(Prop::KeyValue(KeyValueProp {
            key,
            value,
        }))))
    }
}

/// A string of which document 01 has the text alone.
fn text(value: &str) -> Str {
    Str {
        span: DUMMY_SP,
        value: value.into(),
        raw: None,
    }
}
