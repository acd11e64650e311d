//! Expressions.

use swc_ecma_ast::*;

use super::{outside, Writer};
use crate::names::text_to_bytes;

impl Writer {
    pub(super) fn expr(&mut self, expr: &Expr) {
        match expr {
            Expr::Ident(i) => self.field(0x60, |w| w.ident(i)),
            Expr::Lit(Lit::Str(s)) => self.field(0x61, |w| w.literal(s)),
            Expr::Lit(Lit::Num(n)) => self.field(0x62, |w| w.number(n)),
            Expr::Member(m) => self.member(m),
            Expr::SuperProp(s) => self.field(0x64, |w| w.super_prop(&s.prop)),
            Expr::Call(c) => self.field(0x65, |w| w.call(c)),
            Expr::Assign(a) => self.field(0x66, |w| w.assignment(a)),
            Expr::Arrow(a) => self.field(0x67, |w| w.arrow(a)),
            Expr::Fn(f) => self.field(0x68, |w| w.function(&f.function)),
            Expr::Object(o) => self.field(0x69, |w| w.each(&o.props, Writer::object_prop)),
            Expr::Array(a) => self.field(0x6A, |w| {
                w.each(a.elems.iter().flatten(), |w, elem| w.expr(&elem.expr))
            }),
            Expr::Bin(b) => self.field(0x6B, |w| {
                w.byte(b.op.0);
                w.expr(&b.left);
                w.expr(&b.right);
            }),
            Expr::Cond(c) => self.field(0x6C, |w| {
                w.expr(&c.test);
                w.expr(&c.cons);
                w.expr(&c.alt);
            }),
            Expr::Unary(u) => self.field(0x6D, |w| {
                w.byte(u.op.0);
                w.expr(&u.arg);
            }),
            Expr::Paren(p) => self.field(0x6E, |w| w.expr(&p.expr)),
        }
    }

    fn number(&mut self, number: &Number) {
        match &number.raw {
            Some(raw) => self.out.extend(text_to_bytes(raw)),
            None => outside(number),
        }
    }

    fn member(&mut self, member: &MemberExpr) {
        self.field(0x63, |w| {
            w.expr(&member.obj);
            match &member.prop {
                MemberProp::Ident(name) => w.name(name),
                MemberProp::Computed(computed) => w.computed(computed),
                MemberProp::PrivateName(private) => w.field(0x72, |w| w.atom(&private.name)),
            }
        })
    }

    fn super_prop(&mut self, prop: &SuperProp) {
        match prop {
            SuperProp::Ident(name) => self.name(name),
            SuperProp::Computed(computed) => self.computed(computed),
        }
    }

    fn name(&mut self, name: &IdentName) {
        self.field(0x70, |w| w.atom(&name.sym));
    }

    fn computed(&mut self, computed: &ComputedPropName) {
        self.field(0x71, |w| w.expr(&computed.expr));
    }

    fn call(&mut self, call: &CallExpr) {
        match &call.callee {
            Callee::Super(_) => self.field(0x73, |_| {}),
            Callee::Import(_) => self.field(0x74, |_| {}),
            Callee::Expr(expr) => self.expr(expr),
        }
        self.fields(0x75, &call.args, |w, argument| {
            w.byte(argument.spread.is_some().into());
            w.expr(&argument.expr);
        });
    }

    fn assignment(&mut self, assignment: &AssignExpr) {
        let AssignTarget::Simple(target) = &assignment.left;
        match target {
            SimpleAssignTarget::Ident(i) => self.field(0x50, |w| w.ident(&i.id)),
            SimpleAssignTarget::Member(member) => self.member(member),
        }
        self.expr(&assignment.right);
    }

    fn arrow(&mut self, arrow: &ArrowExpr) {
        self.each(&arrow.params, Writer::pat);
        match &*arrow.body {
            BlockStmtOrExpr::BlockStmt(block) => self.block(block),
            BlockStmtOrExpr::Expr(expr) => self.expr(expr),
        }
    }

    fn object_prop(&mut self, PropOrSpread::Prop(prop): &PropOrSpread) {
        match &**prop {
            Prop::Shorthand(ident) => self.field(0x77, |w| w.ident(ident)),
            Prop::KeyValue(p) => self.field(0x78, |w| {
                w.key(&p.key);
                w.expr(&p.value);
            }),
        }
    }
}
