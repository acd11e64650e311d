//! Statements and patterns.

use std::ops::RangeInclusive;

use swc_common::{SyntaxContext, DUMMY_SP};
use swc_ecma_ast::*;

use super::{bad, Reader, Res};

pub(super) const PATTERNS: RangeInclusive<u8> = 0x50..=0x56;

impl Reader<'_> {
    pub(super) fn stmt(&mut self) -> Res<Stmt> {
        let span = DUMMY_SP;
        self.field(|tag, r| {
            Ok(match tag {
                0x40 => Stmt::Empty(EmptyStmt { span }),
                0x41 => Stmt::Decl(Decl::Var(Box::new(r.var_decl()?))),
                0x43 => Stmt::Decl(Decl::Fn(FnDecl {
                    ident: r.ident()?,
                    function: r.function()?,
                })),
                0x44 => Stmt::Expr(ExprStmt {
                    span,
                    expr: r.boxed_expr()?,
                }),
                0x45 => Stmt::Block(r.block_content()?),
                0x46 => Stmt::If(IfStmt {
                    span,
                    test: r.boxed_expr()?,
                    cons: Box::new(r.stmt()?),
                    alt: r.optional(|r| r.stmt())?.map(Box::new),
                }),
                0x47 => Stmt::Return(ReturnStmt {
                    span,
                    arg: r.optional(|r| r.boxed_expr())?,
                }),
                0x48 => Stmt::While(WhileStmt {
                    span,
                    test: r.boxed_expr()?,
                    body: Box::new(r.stmt()?),
                }),
                _ => return bad(format!("tag {tag:02x} for a statement")),
            })
        })
    }

    fn var_decl(&mut self) -> Res<VarDecl> {
        Ok(VarDecl {
            span: DUMMY_SP,
            ctxt: SyntaxContext::empty(),
            kind: VarDeclKind::Const,
            declare: false,
            decls: self.rest(|r| r.tagged(0x42, |r| r.declarator()))?,
        })
    }

    fn declarator(&mut self) -> Res<VarDeclarator> {
        Ok(VarDeclarator {
            span: DUMMY_SP,
            name: self.pat()?,
            init: self.optional(|r| r.boxed_expr())?,
            definite: false,
        })
    }

    pub(super) fn function(&mut self) -> Res<Box<Function>> {
        let span = DUMMY_SP;
        Ok(Box::new(Function {
            params: self.many(PATTERNS, |r| r.pat().map(|pat| Param { span, pat }))?,
            span,
            ctxt: SyntaxContext::empty(),
            body: self.block()?,
        }))
    }

    pub(super) fn block(&mut self) -> Res<BlockStmt> {
        self.tagged(0x45, |r| r.block_content())
    }

    fn block_content(&mut self) -> Res<BlockStmt> {
        Ok(BlockStmt {
            span: DUMMY_SP,
            ctxt: SyntaxContext::empty(),
            stmts: self.rest(|r| r.stmt())?,
        })
    }

    pub(super) fn pat(&mut self) -> Res<Pat> {
        let span = DUMMY_SP;
        self.field(|tag, r| {
            Ok(match tag {
                0x50 => Pat::Ident(r.ident()?.into()),
                0x51 => Pat::Array(ArrayPat {
                    span,
                    elems: r.rest(|r| r.pat().map(Some))?,
                }),
                0x52 => Pat::Object(ObjectPat {
                    span,
                    props: r.rest(|r| r.pat_prop())?,
                }),
                0x55 => Pat::Assign(AssignPat {
                    span,
                    left: Box::new(r.pat()?),
                    right: r.boxed_expr()?,
                }),
                0x56 => Pat::Rest(RestPat {
                    span,
                    arg: Box::new(r.pat()?),
                }),
                _ => return bad(format!("tag {tag:02x} for a pattern")),
            })
        })
    }

    fn pat_prop(&mut self) -> Res<ObjectPatProp> {
        self.field(|tag, r| {
            Ok(match tag {
                0x53 => ObjectPatProp::KeyValue(KeyValuePatProp {
                    key: PropName::Ident(r.name()?),
                    value: Box::new(r.pat()?),
                }),
                0x54 => ObjectPatProp::Assign(AssignPatProp {
                    span: DUMMY_SP,
                    key: r.ident()?.into(),
                    value: r.optional(|r| r.boxed_expr())?,
                }),
                _ => return bad(format!("tag {tag:02x} in 52")),
            })
        })
    }
}
