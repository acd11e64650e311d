//! Stand-in for `swc_ecma_utils`: `IdentLike` and `find_pat_ids`.

use swc_ecma_ast::{Expr, Ident, PropName};
use swc_ecma_visit::{noop_visit_type, Visit, VisitWith};

use self::ident::IdentLike;

pub mod ident {
    use swc_atoms::Atom;
    use swc_common::SyntaxContext;
    use swc_ecma_ast::{Id, Ident};

    pub trait IdentLike: Sized {
        fn from_ident(i: &Ident) -> Self;
        fn to_id(&self) -> Id;
        fn into_id(self) -> Id;
    }

    impl IdentLike for (Atom, SyntaxContext) {
        fn from_ident(i: &Ident) -> Self {
            i.to_id()
        }

        fn to_id(&self) -> Id {
            self.clone()
        }

        fn into_id(self) -> Id {
            self
        }
    }

    impl IdentLike for Ident {
        fn from_ident(i: &Ident) -> Self {
            Ident::new(i.sym.clone(), i.span, i.ctxt)
        }

        fn to_id(&self) -> Id {
            (self.sym.clone(), self.ctxt)
        }

        fn into_id(self) -> Id {
            (self.sym, self.ctxt)
        }
    }
}

pub struct DestructuringFinder<I: IdentLike> {
    pub found: Vec<I>,
}

/// All binding identifiers of the pattern, left to right.
pub fn find_pat_ids<T, I: IdentLike>(node: &T) -> Vec<I>
where
    T: VisitWith<DestructuringFinder<I>>,
{
    let mut v = DestructuringFinder { found: Vec::new() };
    node.visit_with(&mut v);
    v.found
}

impl<I: IdentLike> Visit for DestructuringFinder<I> {
    noop_visit_type!();

    /// Expressions bind nothing.
    fn visit_expr(&mut self, _: &Expr) {}

    fn visit_ident(&mut self, i: &Ident) {
        self.found.push(I::from_ident(i));
    }

    /// Keys bind nothing.
    fn visit_prop_name(&mut self, _: &PropName) {}
}
