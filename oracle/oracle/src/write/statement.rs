//! Statements and patterns.

use swc_ecma_ast::*;

use super::{outside, Writer};

impl Writer {
    pub(super) fn stmt(&mut self, stmt: &Stmt) {
        match stmt {
            Stmt::Empty(_) => self.field(0x40, |_| {}),
            Stmt::Decl(decl) => self.decl(decl),
            Stmt::Expr(s) => self.field(0x44, |w| w.expr(&s.expr)),
            Stmt::Block(block) => self.block(block),
            Stmt::If(s) => self.field(0x46, |w| {
                w.expr(&s.test);
                w.stmt(&s.cons);
                if let Some(alt) = &s.alt {
                    w.stmt(alt);
                }
            }),
            Stmt::Return(s) => self.field(0x47, |w| w.optional_expr(s.arg.as_deref())),
            Stmt::While(s) => self.field(0x48, |w| {
                w.expr(&s.test);
                w.stmt(&s.body);
            }),
        }
    }

    fn optional_expr(&mut self, expr: Option<&Expr>) {
        if let Some(expr) = expr {
            self.expr(expr);
        }
    }

    pub(super) fn decl(&mut self, decl: &Decl) {
        match decl {
            Decl::Var(var) => self.field(0x41, |w| w.fields(0x42, &var.decls, Writer::declarator)),
            Decl::Fn(f) => self.field(0x43, |w| {
                w.ident(&f.ident);
                w.function(&f.function);
            }),
            other => outside(other),
        }
    }

    /// The content of a 42.
    fn declarator(&mut self, declarator: &VarDeclarator) {
        self.pat(&declarator.name);
        self.optional_expr(declarator.init.as_deref());
    }

    pub(super) fn function(&mut self, f: &Function) {
        self.each(&f.params, |w, param| w.pat(&param.pat));
        self.block(&f.body);
    }

    pub(super) fn block(&mut self, block: &BlockStmt) {
        self.field(0x45, |w| w.each(&block.stmts, Writer::stmt));
    }

    pub(super) fn pat(&mut self, pat: &Pat) {
        match pat {
            Pat::Ident(i) => self.field(0x50, |w| w.ident(&i.id)),
            Pat::Array(a) => self.field(0x51, |w| w.each(a.elems.iter().flatten(), Writer::pat)),
            Pat::Object(o) => self.field(0x52, |w| w.each(&o.props, Writer::pat_prop)),
            Pat::Assign(p) => self.field(0x55, |w| {
                w.pat(&p.left);
                w.expr(&p.right);
            }),
            Pat::Rest(p) => self.field(0x56, |w| w.pat(&p.arg)),
            other => outside(other),
        }
    }

    fn pat_prop(&mut self, prop: &ObjectPatProp) {
        match prop {
            ObjectPatProp::KeyValue(p) => self.field(0x53, |w| {
                w.key(&p.key);
                w.pat(&p.value);
            }),
            ObjectPatProp::Assign(p) => self.field(0x54, |w| {
                w.ident(&p.key.id);
                w.optional_expr(p.value.as_deref());
            }),
        }
    }

    pub(super) fn key(&mut self, key: &PropName) {
        match key {
            PropName::Ident(name) => self.atom(&name.sym),
            other => outside(other),
        }
    }
}
