//! Not in swc: lets the oracle see a module's items between the two passes.
//!
//! `extract_import_info` calls `module.body.visit_mut_with` once for each pass. While [after_first] runs, the first
//! such visit of a list of module items is followed by a look at the list.

use std::{
    any::Any,
    cell::{Cell, RefCell},
    rc::Rc,
};

use swc_ecma_ast::ModuleItem;

type Look = Box<dyn FnOnce(&[ModuleItem])>;

thread_local!(static LOOK: RefCell<Option<Look>> = const { RefCell::new(None) });

/// Runs `op`, and gives with its result what `look` makes of the module's items after the first visit in it.
pub fn after_first<T: 'static, R>(
    look: fn(&[ModuleItem]) -> T,
    op: impl FnOnce() -> R,
) -> (R, Option<T>) {
    let seen = Rc::new(Cell::new(None));
    let to = seen.clone();
    LOOK.set(Some(Box::new(move |items| to.set(Some(look(items))))));
    let result = op();
    // Left where a panic, caught in `op`, ended the visit.
    LOOK.take();
    (result, seen.take())
}

pub(crate) fn after_visit(list: &dyn Any) {
    if let Some(items) = list.downcast_ref::<Vec<ModuleItem>>() {
        if let Some(look) = LOOK.take() {
            look(items);
        }
    }
}
