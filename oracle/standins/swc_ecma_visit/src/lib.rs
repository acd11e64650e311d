//! Stand-in for `swc_ecma_visit`: `Visit` and `VisitMut` with one method for each node type, children in the struct's
//! field order.
//!
//! `Box` and `Option` pass through. A `Vec` has its own method, named as in swc (`visit_mut_stmts`,
//! `visit_mut_module_items`, ...). Of the leaves only `SyntaxContext` has a method; spans and atoms are not visited.

use swc_common::SyntaxContext;
use swc_ecma_ast::*;

pub mod tap;

/// In swc this makes visits of TypeScript types do nothing; there are none.
#[macro_export]
macro_rules! noop_visit_type {
    ($($t:tt)*) => {};
}

/// As [noop_visit_type].
#[macro_export]
macro_rules! noop_visit_mut_type {
    ($($t:tt)*) => {};
}

pub trait VisitWith<V: ?Sized + Visit> {
    fn visit_with(&self, v: &mut V);
    fn visit_children_with(&self, v: &mut V);
}

pub trait VisitMutWith<V: ?Sized + VisitMut> {
    fn visit_mut_with(&mut self, v: &mut V);
    fn visit_mut_children_with(&mut self, v: &mut V);
}

impl<V: ?Sized + Visit, T: VisitWith<V>> VisitWith<V> for Box<T> {
    fn visit_with(&self, v: &mut V) {
        (**self).visit_with(v)
    }

    fn visit_children_with(&self, v: &mut V) {
        (**self).visit_children_with(v)
    }
}

impl<V: ?Sized + VisitMut, T: VisitMutWith<V>> VisitMutWith<V> for Box<T> {
    fn visit_mut_with(&mut self, v: &mut V) {
        (**self).visit_mut_with(v)
    }

    fn visit_mut_children_with(&mut self, v: &mut V) {
        (**self).visit_mut_children_with(v)
    }
}

impl<V: ?Sized + Visit, T: VisitWith<V>> VisitWith<V> for Option<T> {
    fn visit_with(&self, v: &mut V) {
        if let Some(n) = self {
            n.visit_with(v)
        }
    }

    fn visit_children_with(&self, v: &mut V) {
        if let Some(n) = self {
            n.visit_children_with(v)
        }
    }
}

impl<V: ?Sized + VisitMut, T: VisitMutWith<V>> VisitMutWith<V> for Option<T> {
    fn visit_mut_with(&mut self, v: &mut V) {
        if let Some(n) = self {
            n.visit_mut_with(v)
        }
    }

    fn visit_mut_children_with(&mut self, v: &mut V) {
        if let Some(n) = self {
            n.visit_mut_children_with(v)
        }
    }
}

macro_rules! visitors {
    (
        structs { $($st:ident $sv:ident $sm:ident { $($f:ident),* })* }
        enums { $($et:ident $ev:ident $em:ident { $($variant:ident),* })* }
        lists { $($lt:ty, $lv:ident $lm:ident)* }
    ) => {
        pub trait Visit {
            $(fn $sv(&mut self, n: &$st) { n.visit_children_with(self) })*
            $(fn $ev(&mut self, n: &$et) { n.visit_children_with(self) })*
            $(fn $lv(&mut self, n: &Vec<$lt>) { n.visit_children_with(self) })*
        }

        pub trait VisitMut {
            $(fn $sm(&mut self, n: &mut $st) { n.visit_mut_children_with(self) })*
            $(fn $em(&mut self, n: &mut $et) { n.visit_mut_children_with(self) })*
            $(fn $lm(&mut self, n: &mut Vec<$lt>) { n.visit_mut_children_with(self) })*
        }

        $(
            impl<V: ?Sized + Visit> VisitWith<V> for $st {
                fn visit_with(&self, v: &mut V) {
                    v.$sv(self)
                }

                fn visit_children_with(&self, _v: &mut V) {
                    $(self.$f.visit_with(_v);)*
                }
            }

            impl<V: ?Sized + VisitMut> VisitMutWith<V> for $st {
                fn visit_mut_with(&mut self, v: &mut V) {
                    v.$sm(self)
                }

                fn visit_mut_children_with(&mut self, _v: &mut V) {
                    $(self.$f.visit_mut_with(_v);)*
                }
            }
        )*

        $(
            impl<V: ?Sized + Visit> VisitWith<V> for $et {
                fn visit_with(&self, v: &mut V) {
                    v.$ev(self)
                }

                fn visit_children_with(&self, v: &mut V) {
                    match self {
                        $($et::$variant(n) => n.visit_with(v),)*
                    }
                }
            }

            impl<V: ?Sized + VisitMut> VisitMutWith<V> for $et {
                fn visit_mut_with(&mut self, v: &mut V) {
                    v.$em(self)
                }

                fn visit_mut_children_with(&mut self, v: &mut V) {
                    match self {
                        $($et::$variant(n) => n.visit_mut_with(v),)*
                    }
                }
            }
        )*

        $(
            impl<V: ?Sized + Visit> VisitWith<V> for Vec<$lt> {
                fn visit_with(&self, v: &mut V) {
                    v.$lv(self)
                }

                fn visit_children_with(&self, v: &mut V) {
                    self.iter().for_each(|n| n.visit_with(v))
                }
            }

            impl<V: ?Sized + VisitMut> VisitMutWith<V> for Vec<$lt> {
                fn visit_mut_with(&mut self, v: &mut V) {
                    v.$lm(self);
                    tap::after_visit(self);
                }

                fn visit_mut_children_with(&mut self, v: &mut V) {
                    self.iter_mut().for_each(|n| n.visit_mut_with(v))
                }
            }
        )*
    };
}

visitors! {
    structs {
        SyntaxContext visit_syntax_context visit_mut_syntax_context {}
        Ident visit_ident visit_mut_ident { ctxt }
        IdentName visit_ident_name visit_mut_ident_name {}
        BindingIdent visit_binding_ident visit_mut_binding_ident { id }
        PrivateName visit_private_name visit_mut_private_name {}
        Str visit_str visit_mut_str {}
        Number visit_number visit_mut_number {}

        Module visit_module visit_mut_module { body }
        ImportDecl visit_import_decl visit_mut_import_decl { specifiers, src, with }
        ImportNamedSpecifier visit_import_named_specifier visit_mut_import_named_specifier { local, imported }
        ImportDefaultSpecifier visit_import_default_specifier visit_mut_import_default_specifier { local }
        ImportStarAsSpecifier visit_import_star_as_specifier visit_mut_import_star_as_specifier { local }
        ExportDecl visit_export_decl visit_mut_export_decl { decl }
        NamedExport visit_named_export visit_mut_named_export { specifiers, src }
        ExportNamespaceSpecifier visit_export_namespace_specifier visit_mut_export_namespace_specifier { name }
        ExportDefaultSpecifier visit_export_default_specifier visit_mut_export_default_specifier { exported }
        ExportNamedSpecifier visit_export_named_specifier visit_mut_export_named_specifier { orig, exported }
        ExportAll visit_export_all visit_mut_export_all { src, with }
        ExportDefaultExpr visit_export_default_expr visit_mut_export_default_expr { expr }
        ExportDefaultDecl visit_export_default_decl visit_mut_export_default_decl {}
        TsImportEqualsDecl visit_ts_import_equals_decl visit_mut_ts_import_equals_decl {}
        TsExportAssignment visit_ts_export_assignment visit_mut_ts_export_assignment {}
        TsNamespaceExportDecl visit_ts_namespace_export_decl visit_mut_ts_namespace_export_decl {}

        BlockStmt visit_block_stmt visit_mut_block_stmt { ctxt, stmts }
        EmptyStmt visit_empty_stmt visit_mut_empty_stmt {}
        ExprStmt visit_expr_stmt visit_mut_expr_stmt { expr }
        IfStmt visit_if_stmt visit_mut_if_stmt { test, cons, alt }
        ReturnStmt visit_return_stmt visit_mut_return_stmt { arg }
        WhileStmt visit_while_stmt visit_mut_while_stmt { test, body }
        VarDecl visit_var_decl visit_mut_var_decl { ctxt, decls }
        VarDeclarator visit_var_declarator visit_mut_var_declarator { name, init }
        FnDecl visit_fn_decl visit_mut_fn_decl { ident, function }
        Function visit_function visit_mut_function { params, ctxt, body }
        Param visit_param visit_mut_param { pat }
        ClassDecl visit_class_decl visit_mut_class_decl { ident }
        TsInterfaceDecl visit_ts_interface_decl visit_mut_ts_interface_decl { id }
        TsTypeAliasDecl visit_ts_type_alias_decl visit_mut_ts_type_alias_decl { id }
        TsEnumDecl visit_ts_enum_decl visit_mut_ts_enum_decl { id }
        TsModuleDecl visit_ts_module_decl visit_mut_ts_module_decl {}

        ArrayPat visit_array_pat visit_mut_array_pat { elems }
        RestPat visit_rest_pat visit_mut_rest_pat { arg }
        ObjectPat visit_object_pat visit_mut_object_pat { props }
        AssignPat visit_assign_pat visit_mut_assign_pat { left, right }
        KeyValuePatProp visit_key_value_pat_prop visit_mut_key_value_pat_prop { key, value }
        AssignPatProp visit_assign_pat_prop visit_mut_assign_pat_prop { key, value }
        Invalid visit_invalid visit_mut_invalid {}

        ArrayLit visit_array_lit visit_mut_array_lit { elems }
        ObjectLit visit_object_lit visit_mut_object_lit { props }
        KeyValueProp visit_key_value_prop visit_mut_key_value_prop { key, value }
        FnExpr visit_fn_expr visit_mut_fn_expr { function }
        ArrowExpr visit_arrow_expr visit_mut_arrow_expr { ctxt, params, body }
        UnaryExpr visit_unary_expr visit_mut_unary_expr { arg }
        BinExpr visit_bin_expr visit_mut_bin_expr { left, right }
        AssignExpr visit_assign_expr visit_mut_assign_expr { left, right }
        CondExpr visit_cond_expr visit_mut_cond_expr { test, cons, alt }
        MemberExpr visit_member_expr visit_mut_member_expr { obj, prop }
        SuperPropExpr visit_super_prop_expr visit_mut_super_prop_expr { obj, prop }
        ComputedPropName visit_computed_prop_name visit_mut_computed_prop_name { expr }
        CallExpr visit_call_expr visit_mut_call_expr { ctxt, callee, args }
        ExprOrSpread visit_expr_or_spread visit_mut_expr_or_spread { expr }
        Super visit_super visit_mut_super {}
        Import visit_import visit_mut_import {}
        ParenExpr visit_paren_expr visit_mut_paren_expr { expr }
    }
    enums {
        Lit visit_lit visit_mut_lit { Str, Num }
        PropName visit_prop_name visit_mut_prop_name { Ident, Str }

        ModuleItem visit_module_item visit_mut_module_item { ModuleDecl, Stmt }
        ModuleDecl visit_module_decl visit_mut_module_decl {
            Import, ExportDecl, ExportNamed, ExportDefaultDecl, ExportDefaultExpr, ExportAll,
            TsImportEquals, TsExportAssignment, TsNamespaceExport
        }
        ImportSpecifier visit_import_specifier visit_mut_import_specifier { Named, Default, Namespace }
        ExportSpecifier visit_export_specifier visit_mut_export_specifier { Namespace, Default, Named }
        ModuleExportName visit_module_export_name visit_mut_module_export_name { Ident, Str }

        Stmt visit_stmt visit_mut_stmt { Block, Empty, Return, If, While, Decl, Expr }
        Decl visit_decl visit_mut_decl { Class, Fn, Var, TsInterface, TsTypeAlias, TsEnum, TsModule }

        Pat visit_pat visit_mut_pat { Ident, Array, Rest, Object, Assign, Invalid }
        ObjectPatProp visit_object_pat_prop visit_mut_object_pat_prop { KeyValue, Assign }

        Expr visit_expr visit_mut_expr {
            Array, Object, Fn, Unary, Bin, Assign, Member, SuperProp, Cond, Call, Ident, Lit, Arrow,
            Paren
        }
        PropOrSpread visit_prop_or_spread visit_mut_prop_or_spread { Prop }
        Prop visit_prop visit_mut_prop { Shorthand, KeyValue }
        MemberProp visit_member_prop visit_mut_member_prop { Ident, PrivateName, Computed }
        SuperProp visit_super_prop visit_mut_super_prop { Ident, Computed }
        Callee visit_callee visit_mut_callee { Super, Import, Expr }
        AssignTarget visit_assign_target visit_mut_assign_target { Simple }
        SimpleAssignTarget visit_simple_assign_target visit_mut_simple_assign_target { Ident, Member }
        BlockStmtOrExpr visit_block_stmt_or_expr visit_mut_block_stmt_or_expr { BlockStmt, Expr }
    }
    lists {
        ModuleItem, visit_module_items visit_mut_module_items
        Stmt, visit_stmts visit_mut_stmts
        ImportSpecifier, visit_import_specifiers visit_mut_import_specifiers
        ExportSpecifier, visit_export_specifiers visit_mut_export_specifiers
        VarDeclarator, visit_var_declarators visit_mut_var_declarators
        Param, visit_params visit_mut_params
        Pat, visit_pats visit_mut_pats
        Option<Pat>, visit_opt_vec_pats visit_mut_opt_vec_pats
        ObjectPatProp, visit_object_pat_props visit_mut_object_pat_props
        ExprOrSpread, visit_expr_or_spreads visit_mut_expr_or_spreads
        Option<ExprOrSpread>, visit_opt_vec_expr_or_spreads visit_mut_opt_vec_expr_or_spreads
        PropOrSpread, visit_prop_or_spreads visit_mut_prop_or_spreads
    }
}
