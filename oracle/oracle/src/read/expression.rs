//! Expressions.

use swc_common::{SyntaxContext, DUMMY_SP};
use swc_ecma_ast::*;

use super::{bad, statement::PATTERNS, Reader, Res};
use crate::names::bytes_to_text;

impl Reader<'_> {
    pub(super) fn boxed_expr(&mut self) -> Res<Box<Expr>> {
        self.field(|tag, r| r.expr(tag)).map(Box::new)
    }

    fn expr(&mut self, tag: u8) -> Res<Expr> {
        Ok(match tag {
            0x60 => Expr::Ident(self.ident()?),
            0x61 => Expr::Lit(Lit::Str(self.literal()?)),
            0x62 => Expr::Lit(Lit::Num(self.number()?)),
            0x63 => Expr::Member(self.member()?),
            0x64 => Expr::SuperProp(self.super_prop()?),
            0x65 => Expr::Call(self.call()?),
            0x66 => Expr::Assign(self.assignment()?),
            0x67 => Expr::Arrow(self.arrow()?),
            0x68 => Expr::Fn(FnExpr {
                function: self.function()?,
            }),
            0x69 => Expr::Object(ObjectLit {
                span: DUMMY_SP,
                props: self.rest(|r| r.object_prop())?,
            }),
            0x6A => Expr::Array(ArrayLit {
                span: DUMMY_SP,
                elems: self.rest(|r| r.element().map(Some))?,
            }),
            0x6B..=0x6E => self.operation(tag)?,
            _ => return bad(format!("tag {tag:02x} for an expression")),
        })
    }

    fn operation(&mut self, tag: u8) -> Res<Expr> {
        let span = DUMMY_SP;
        Ok(match tag {
            0x6B => Expr::Bin(BinExpr {
                span,
                op: Op(self.byte()?),
                left: self.boxed_expr()?,
                right: self.boxed_expr()?,
            }),
            0x6C => Expr::Cond(CondExpr {
                span,
                test: self.boxed_expr()?,
                cons: self.boxed_expr()?,
                alt: self.boxed_expr()?,
            }),
            0x6D => Expr::Unary(UnaryExpr {
                span,
                op: Op(self.byte()?),
                arg: self.boxed_expr()?,
            }),
            _ => Expr::Paren(ParenExpr {
                span,
                expr: self.boxed_expr()?,
            }),
        })
    }

    /// The eight free bytes stand as raw text, too: not every one is the bytes of one number.
    fn number(&mut self) -> Res<Number> {
        let bytes = self.array()?;
        Ok(Number {
            span: DUMMY_SP,
            value: f64::from_be_bytes(bytes),
            raw: Some(bytes_to_text(&bytes).as_str().into()),
        })
    }

    fn member(&mut self) -> Res<MemberExpr> {
        Ok(MemberExpr {
            span: DUMMY_SP,
            obj: self.boxed_expr()?,
            prop: self.prop()?,
        })
    }

    fn super_prop(&mut self) -> Res<SuperPropExpr> {
        let span = DUMMY_SP;
        let prop = match self.prop()? {
            MemberProp::Ident(name) => SuperProp::Ident(name),
            MemberProp::Computed(computed) => SuperProp::Computed(computed),
            MemberProp::PrivateName(_) => return bad("tag 72 in 64"),
        };
        let obj = Super { span };
        Ok(SuperPropExpr { span, obj, prop })
    }

    fn prop(&mut self) -> Res<MemberProp> {
        let span = DUMMY_SP;
        self.field(|tag, r| {
            Ok(match tag {
                0x70 => MemberProp::Ident(r.name()?),
                0x71 => MemberProp::Computed(ComputedPropName {
                    span,
                    expr: r.boxed_expr()?,
                }),
                0x72 => MemberProp::PrivateName(PrivateName {
                    span,
                    name: r.atom()?,
                }),
                _ => return bad(format!("tag {tag:02x} for a property")),
            })
        })
    }

    fn call(&mut self) -> Res<CallExpr> {
        Ok(CallExpr {
            span: DUMMY_SP,
            ctxt: SyntaxContext::empty(),
            callee: self.callee()?,
            args: self.rest(|r| r.tagged(0x75, |r| r.argument()))?,
        })
    }

    fn callee(&mut self) -> Res<Callee> {
        let span = DUMMY_SP;
        self.field(|tag, r| {
            Ok(match tag {
                0x73 => Callee::Super(Super { span }),
                0x74 => Callee::Import(Import { span }),
                _ => Callee::Expr(Box::new(r.expr(tag)?)),
            })
        })
    }

    fn argument(&mut self) -> Res<ExprOrSpread> {
        Ok(ExprOrSpread {
            spread: self.flag()?.then_some(DUMMY_SP),
            expr: self.boxed_expr()?,
        })
    }

    fn element(&mut self) -> Res<ExprOrSpread> {
        Ok(ExprOrSpread {
            spread: None,
            expr: self.boxed_expr()?,
        })
    }

    fn assignment(&mut self) -> Res<AssignExpr> {
        let target = self.field(|tag, r| {
            Ok(match tag {
                0x50 => SimpleAssignTarget::Ident(r.ident()?.into()),
                0x63 => SimpleAssignTarget::Member(r.member()?),
                _ => return bad(format!("tag {tag:02x} for a target")),
            })
        })?;
        Ok(AssignExpr {
            span: DUMMY_SP,
            left: AssignTarget::Simple(target),
            right: self.boxed_expr()?,
        })
    }

    fn arrow(&mut self) -> Res<ArrowExpr> {
        Ok(ArrowExpr {
            span: DUMMY_SP,
            ctxt: SyntaxContext::empty(),
            params: self.many(PATTERNS, |r| r.pat())?,
            body: Box::new(match self.next_tag() {
                Some(0x45) => BlockStmtOrExpr::BlockStmt(self.block()?),
                _ => BlockStmtOrExpr::Expr(self.boxed_expr()?),
            }),
        })
    }

    fn object_prop(&mut self) -> Res<PropOrSpread> {
        let prop = self.field(|tag, r| {
            Ok(match tag {
                0x77 => Prop::Shorthand(r.ident()?),
                0x78 => Prop::KeyValue(KeyValueProp {
                    key: PropName::Ident(r.name()?),
                    value: r.boxed_expr()?,
                }),
                _ => return bad(format!("tag {tag:02x} in 69")),
            })
        })?;
        Ok(PropOrSpread::Prop(Box::new(prop)))
    }
}
