//! Stand-in for `swc_common`.
//!
//! Marks and contexts follow document 01: the context of a mark applied to the empty context has the mark's own number,
//! and fresh marks count up from the number that [Globals] holds.

// Nothing here asks for the defaults.
#![allow(clippy::new_without_default)]

use std::{
    cell::{Cell, RefCell},
    fmt,
    path::PathBuf,
    rc::Rc,
};

pub mod sync {
    use std::cell::{RefCell, RefMut};

    pub use std::rc::Rc as Lrc;

    /// As without the feature `concurrent`: everything is `Send` and `Sync`.
    pub trait Send {}
    impl<T: ?Sized> Send for T {}
    pub trait Sync {}
    impl<T: ?Sized> Sync for T {}

    #[derive(Debug, Default)]
    pub struct Lock<T>(RefCell<T>);

    impl<T> Lock<T> {
        pub fn new(inner: T) -> Self {
            Lock(RefCell::new(inner))
        }

        pub fn lock(&self) -> RefMut<'_, T> {
            self.0.borrow_mut()
        }
    }
}

#[derive(Debug, Clone, Copy, PartialEq, Eq, PartialOrd, Ord, Hash, Default)]
pub struct BytePos(pub u32);

#[derive(Debug, Clone, Copy, PartialEq, Eq, PartialOrd, Ord, Hash, Default)]
pub struct Span {
    pub lo: BytePos,
    pub hi: BytePos,
}

pub const DUMMY_SP: Span = Span {
    lo: BytePos(0),
    hi: BytePos(0),
};

pub trait Spanned {
    fn span(&self) -> Span;
}

impl<T: ?Sized + Spanned> Spanned for Box<T> {
    fn span(&self) -> Span {
        (**self).span()
    }
}

#[derive(Debug, Clone, Copy, PartialEq, Eq, PartialOrd, Ord, Hash, Default)]
pub struct SyntaxContext(u32);

impl SyntaxContext {
    pub const fn empty() -> Self {
        SyntaxContext(0)
    }

    pub fn from_u32(raw: u32) -> Self {
        SyntaxContext(raw)
    }

    pub fn as_u32(self) -> u32 {
        self.0
    }

    /// The crate's files apply marks to the empty context only.
    pub fn apply_mark(self, mark: Mark) -> Self {
        assert_eq!(
            self,
            Self::empty(),
            "stand-in: marks go on the empty context"
        );
        SyntaxContext(mark.0)
    }
}

#[derive(Debug, Clone, Copy, PartialEq, Eq, PartialOrd, Ord, Hash)]
pub struct Mark(u32);

impl Mark {
    pub fn root() -> Self {
        Mark(0)
    }

    pub fn new() -> Self {
        Mark::fresh(Mark::root())
    }

    pub fn fresh(_parent: Mark) -> Self {
        Mark(GLOBALS.with(|g| g.next_mark.replace(g.next_mark.get() + 1)))
    }
}

#[derive(Clone)]
pub struct Globals {
    next_mark: Rc<Cell<u32>>,
}

impl Globals {
    pub fn new() -> Self {
        Globals {
            next_mark: Rc::new(Cell::new(1)),
        }
    }

    /// Not in swc: the next fresh mark gets this number.
    pub fn number_marks_from(&self, next: u32) {
        self.next_mark.set(next);
    }
}

thread_local!(static CURRENT: RefCell<Option<Globals>> = const { RefCell::new(None) });

/// Stands for the scoped thread local of swc.
pub struct GlobalsKey;

pub static GLOBALS: GlobalsKey = GlobalsKey;

impl GlobalsKey {
    pub fn set<R>(&self, globals: &Globals, op: impl FnOnce() -> R) -> R {
        struct Restore(Option<Globals>);
        impl Drop for Restore {
            fn drop(&mut self) {
                CURRENT.set(self.0.take());
            }
        }
        let _restore = Restore(CURRENT.replace(Some(globals.clone())));
        op()
    }

    pub fn with<R>(&self, op: impl FnOnce(&Globals) -> R) -> R {
        let globals = CURRENT.with_borrow(|g| g.clone());
        op(&globals.expect("GLOBALS are not set"))
    }
}

#[derive(Debug, Clone, PartialEq, Eq, PartialOrd, Ord, Hash)]
pub enum FileName {
    Real(PathBuf),
    Anon,
}

impl fmt::Display for FileName {
    fn fmt(&self, f: &mut fmt::Formatter<'_>) -> fmt::Result {
        match self {
            FileName::Real(path) => write!(f, "{}", path.display()),
            FileName::Anon => f.write_str("<anon>"),
        }
    }
}

#[derive(Debug)]
pub struct SourceFile {
    pub name: Rc<FileName>,
}

#[derive(Debug, Default)]
pub struct SourceMap;
