//! Stand-in for `swc_ecma_ast`: the nodes of document 01's tree, with swc's names and field order.
//!
//! Nodes and fields that the byte form cannot express are here only if the crate's files name them. Operators are a
//! free byte instead of an enum.

use swc_atoms::{Atom, Wtf8Atom};
use swc_common::{Span, Spanned, SyntaxContext, DUMMY_SP};

pub type Id = (Atom, SyntaxContext);

macro_rules! node {
    ($($(#[$m:meta])* struct $name:ident { $($field:ident: $ty:ty),* $(,)? })*) => {$(
        $(#[$m])*
        #[derive(Debug, Clone, PartialEq)]
        pub struct $name { $(pub $field: $ty),* }
    )*};
}

macro_rules! choice {
    ($(enum $name:ident { $($variant:ident($ty:ty)),* $(,)? })*) => {$(
        #[derive(Debug, Clone, PartialEq)]
        pub enum $name { $($variant($ty)),* }
    )*};
}

// Identifiers and literals.

node! {
    #[derive(Eq, Hash)]
    struct Ident { span: Span, ctxt: SyntaxContext, sym: Atom }
    #[derive(Eq, Hash)]
    struct IdentName { span: Span, sym: Atom }
    struct BindingIdent { id: Ident }
    struct PrivateName { span: Span, name: Atom }
    /// Equality is over span, value and raw, as swc derives it.
    #[derive(Eq, Hash)]
    struct Str { span: Span, value: Wtf8Atom, raw: Option<Atom> }
    struct Number { span: Span, value: f64, raw: Option<Atom> }
}

choice! {
    enum Lit { Str(Str), Num(Number) }
    enum PropName { Ident(IdentName), Str(Str) }
}

impl Ident {
    pub fn new(sym: Atom, span: Span, ctxt: SyntaxContext) -> Self {
        Ident { span, ctxt, sym }
    }

    pub fn new_no_ctxt(sym: Atom, span: Span) -> Self {
        Ident::new(sym, span, SyntaxContext::empty())
    }

    pub fn to_id(&self) -> Id {
        (self.sym.clone(), self.ctxt)
    }
}

impl IdentName {
    pub fn new(sym: Atom, span: Span) -> Self {
        IdentName { span, sym }
    }
}

// Modules.

node! {
    struct Module { span: Span, body: Vec<ModuleItem> }
    struct ImportDecl {
        span: Span,
        specifiers: Vec<ImportSpecifier>,
        src: Box<Str>,
        type_only: bool,
        with: Option<Box<ObjectLit>>,
        phase: ImportPhase,
    }
    struct ImportNamedSpecifier {
        span: Span,
        local: Ident,
        imported: Option<ModuleExportName>,
        is_type_only: bool,
    }
    struct ImportDefaultSpecifier { span: Span, local: Ident }
    struct ImportStarAsSpecifier { span: Span, local: Ident }
    struct ExportDecl { span: Span, decl: Decl }
    struct NamedExport { span: Span, specifiers: Vec<ExportSpecifier>, src: Option<Box<Str>> }
    struct ExportNamespaceSpecifier { span: Span, name: ModuleExportName }
    struct ExportDefaultSpecifier { exported: Ident }
    struct ExportNamedSpecifier { span: Span, orig: ModuleExportName, exported: Option<ModuleExportName> }
    struct ExportAll { span: Span, src: Box<Str>, with: Option<Box<ObjectLit>> }
    struct ExportDefaultExpr { span: Span, expr: Box<Expr> }
    struct ExportDefaultDecl { span: Span }
    struct TsImportEqualsDecl { span: Span }
    struct TsExportAssignment { span: Span }
    struct TsNamespaceExportDecl { span: Span }
}

choice! {
    enum ModuleItem { ModuleDecl(ModuleDecl), Stmt(Stmt) }
    enum ModuleDecl {
        Import(ImportDecl),
        ExportDecl(ExportDecl),
        ExportNamed(NamedExport),
        ExportDefaultDecl(ExportDefaultDecl),
        ExportDefaultExpr(ExportDefaultExpr),
        ExportAll(ExportAll),
        TsImportEquals(TsImportEqualsDecl),
        TsExportAssignment(TsExportAssignment),
        TsNamespaceExport(TsNamespaceExportDecl),
    }
    enum ImportSpecifier {
        Named(ImportNamedSpecifier),
        Default(ImportDefaultSpecifier),
        Namespace(ImportStarAsSpecifier),
    }
    enum ExportSpecifier {
        Namespace(ExportNamespaceSpecifier),
        Default(ExportDefaultSpecifier),
        Named(ExportNamedSpecifier),
    }
    enum ModuleExportName { Ident(Ident), Str(Str) }
}

#[derive(Debug, Clone, Copy, PartialEq, Eq, Default)]
pub enum ImportPhase {
    #[default]
    Evaluation,
}

// Statements and declarations.

node! {
    struct BlockStmt { span: Span, ctxt: SyntaxContext, stmts: Vec<Stmt> }
    struct EmptyStmt { span: Span }
    struct ExprStmt { span: Span, expr: Box<Expr> }
    struct IfStmt { span: Span, test: Box<Expr>, cons: Box<Stmt>, alt: Option<Box<Stmt>> }
    struct ReturnStmt { span: Span, arg: Option<Box<Expr>> }
    struct WhileStmt { span: Span, test: Box<Expr>, body: Box<Stmt> }
    struct VarDecl {
        span: Span,
        ctxt: SyntaxContext,
        kind: VarDeclKind,
        declare: bool,
        decls: Vec<VarDeclarator>,
    }
    struct VarDeclarator { span: Span, name: Pat, init: Option<Box<Expr>>, definite: bool }
    struct FnDecl { ident: Ident, function: Box<Function> }
    struct Function { params: Vec<Param>, span: Span, ctxt: SyntaxContext, body: BlockStmt }
    struct Param { span: Span, pat: Pat }
    struct ClassDecl { ident: Ident }
    struct TsInterfaceDecl { id: Ident }
    struct TsTypeAliasDecl { id: Ident }
    struct TsEnumDecl { id: Ident }
    struct TsModuleDecl { span: Span }
}

choice! {
    enum Stmt {
        Block(BlockStmt),
        Empty(EmptyStmt),
        Return(ReturnStmt),
        If(IfStmt),
        While(WhileStmt),
        Decl(Decl),
        Expr(ExprStmt),
    }
    enum Decl {
        Class(ClassDecl),
        Fn(FnDecl),
        Var(Box<VarDecl>),
        TsInterface(Box<TsInterfaceDecl>),
        TsTypeAlias(Box<TsTypeAliasDecl>),
        TsEnum(Box<TsEnumDecl>),
        TsModule(Box<TsModuleDecl>),
    }
}

#[derive(Debug, Clone, Copy, PartialEq, Eq)]
pub enum VarDeclKind {
    Const,
}

// Patterns.

node! {
    struct ArrayPat { span: Span, elems: Vec<Option<Pat>> }
    struct RestPat { span: Span, arg: Box<Pat> }
    struct ObjectPat { span: Span, props: Vec<ObjectPatProp> }
    struct AssignPat { span: Span, left: Box<Pat>, right: Box<Expr> }
    struct KeyValuePatProp { key: PropName, value: Box<Pat> }
    struct AssignPatProp { span: Span, key: BindingIdent, value: Option<Box<Expr>> }
    struct Invalid { span: Span }
}

choice! {
    enum Pat {
        Ident(BindingIdent),
        Array(ArrayPat),
        Rest(RestPat),
        Object(ObjectPat),
        Assign(AssignPat),
        Invalid(Invalid),
    }
    enum ObjectPatProp { KeyValue(KeyValuePatProp), Assign(AssignPatProp) }
}

// Expressions.

/// An operator, as the byte that the tree gives.
#[derive(Debug, Clone, Copy, PartialEq, Eq)]
pub struct Op(pub u8);

node! {
    struct ArrayLit { span: Span, elems: Vec<Option<ExprOrSpread>> }
    struct ObjectLit { span: Span, props: Vec<PropOrSpread> }
    struct KeyValueProp { key: PropName, value: Box<Expr> }
    struct FnExpr { function: Box<Function> }
    struct ArrowExpr { span: Span, ctxt: SyntaxContext, params: Vec<Pat>, body: Box<BlockStmtOrExpr> }
    struct UnaryExpr { span: Span, op: Op, arg: Box<Expr> }
    struct BinExpr { span: Span, op: Op, left: Box<Expr>, right: Box<Expr> }
    struct AssignExpr { span: Span, left: AssignTarget, right: Box<Expr> }
    struct CondExpr { span: Span, test: Box<Expr>, cons: Box<Expr>, alt: Box<Expr> }
    struct MemberExpr { span: Span, obj: Box<Expr>, prop: MemberProp }
    struct SuperPropExpr { span: Span, obj: Super, prop: SuperProp }
    struct ComputedPropName { span: Span, expr: Box<Expr> }
    struct CallExpr { span: Span, ctxt: SyntaxContext, callee: Callee, args: Vec<ExprOrSpread> }
    struct ExprOrSpread { spread: Option<Span>, expr: Box<Expr> }
    struct Super { span: Span }
    struct Import { span: Span }
    struct ParenExpr { span: Span, expr: Box<Expr> }
}

choice! {
    enum Expr {
        Array(ArrayLit),
        Object(ObjectLit),
        Fn(FnExpr),
        Unary(UnaryExpr),
        Bin(BinExpr),
        Assign(AssignExpr),
        Member(MemberExpr),
        SuperProp(SuperPropExpr),
        Cond(CondExpr),
        Call(CallExpr),
        Ident(Ident),
        Lit(Lit),
        Arrow(ArrowExpr),
        Paren(ParenExpr),
    }
    enum PropOrSpread { Prop(Box<Prop>) }
    enum Prop { Shorthand(Ident), KeyValue(KeyValueProp) }
    enum MemberProp { Ident(IdentName), PrivateName(PrivateName), Computed(ComputedPropName) }
    enum SuperProp { Ident(IdentName), Computed(ComputedPropName) }
    enum Callee { Super(Super), Import(Import), Expr(Box<Expr>) }
    enum AssignTarget { Simple(SimpleAssignTarget) }
    enum SimpleAssignTarget { Ident(BindingIdent), Member(MemberExpr) }
    enum BlockStmtOrExpr { BlockStmt(BlockStmt), Expr(Box<Expr>) }
}

impl Expr {
    /// Compares names only.
    pub fn is_ident_ref_to<S>(&self, ident: &S) -> bool
    where
        S: ?Sized,
        Atom: PartialEq<S>,
    {
        match self {
            Expr::Ident(i) => i.sym == *ident,
            _ => false,
        }
    }
}

impl MemberProp {
    pub fn is_computed(&self) -> bool {
        matches!(self, MemberProp::Computed(_))
    }
}

/// Records of require calls take the callee's span; nothing reads it.
impl Spanned for Expr {
    fn span(&self) -> Span {
        match self {
            Expr::Ident(i) => i.span,
            _ => DUMMY_SP,
        }
    }
}

// The conversions that the crate's files use.

impl From<IdentName> for Ident {
    fn from(i: IdentName) -> Self {
        Ident::new_no_ctxt(i.sym, i.span)
    }
}

impl From<Ident> for BindingIdent {
    fn from(id: Ident) -> Self {
        BindingIdent { id }
    }
}

impl From<Ident> for Pat {
    fn from(id: Ident) -> Self {
        Pat::Ident(id.into())
    }
}

impl From<Ident> for Expr {
    fn from(i: Ident) -> Self {
        Expr::Ident(i)
    }
}

impl From<Str> for Expr {
    fn from(s: Str) -> Self {
        Expr::Lit(Lit::Str(s))
    }
}

impl From<Lit> for Box<Expr> {
    fn from(l: Lit) -> Self {
        Box::new(Expr::Lit(l))
    }
}

impl From<VarDecl> for ModuleItem {
    fn from(v: VarDecl) -> Self {
        ModuleItem::Stmt(Stmt::Decl(Decl::Var(Box::new(v))))
    }
}
