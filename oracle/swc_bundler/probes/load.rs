/// What the oracle asks of a bundler, and public types around the crate's private ones. Everything here calls and reads
/// the code above and that of the other published files; only the `is_es6` expression is written down again.
pub mod probe {
    use swc_atoms::Atom;
    use swc_common::Mark;
    use swc_ecma_ast::ObjectLit;

    use super::*;
    use crate::util::ExportMetadata;

    /// What `extract_import_info` gives.
    #[derive(Default)]
    pub struct Raw(RawImports);

    impl Raw {
        pub fn new(
            imports: Vec<ImportDecl>,
            lazy_imports: Vec<ImportDecl>,
            dynamic_imports: Vec<Str>,
            forced_ns: Vec<Atom>,
        ) -> Self {
            let mut raw = RawImports {
                imports,
                lazy_imports,
                dynamic_imports,
                ..Default::default()
            };
            for src in forced_ns {
                raw.forced_ns.insert(src);
            }
            Raw(raw)
        }

        pub fn imports(&self) -> &[ImportDecl] {
            &self.0.imports
        }

        pub fn lazy_imports(&self) -> &[ImportDecl] {
            &self.0.lazy_imports
        }

        pub fn dynamic_imports(&self) -> &[Str] {
            &self.0.dynamic_imports
        }

        /// The forced sources, first forced first.
        pub fn forced_ns(&self) -> Vec<&Atom> {
            self.0.forced_ns.in_order()
        }
    }

    /// What `resolve_imports` gives.
    #[derive(Default)]
    pub struct Resolved(Imports, Vec<(Source, Lrc<FileName>)>);

    impl Resolved {
        pub fn records(&self) -> impl Iterator<Item = Record<'_>> {
            let Resolved(imports, files) = self;
            assert_eq!(imports.specifiers.len(), files.len());
            let records = imports.specifiers.iter().zip(files);
            records.map(|((source, specifiers), (again, file))| {
                assert_eq!(source, again);
                Record {
                    is_loaded_synchronously: source.is_loaded_synchronously,
                    is_unconditional: source.is_unconditional,
                    module_id: source.module_id.number(),
                    file,
                    local_ctxt: source.local_ctxt,
                    export_ctxt: source.export_ctxt,
                    src: &source.src,
                    specifiers,
                }
            })
        }
    }

    /// A `Source` with its file and its specifiers.
    pub struct Record<'a> {
        pub is_loaded_synchronously: bool,
        pub is_unconditional: bool,
        pub module_id: u32,
        pub file: &'a FileName,
        pub local_ctxt: SyntaxContext,
        pub export_ctxt: SyntaxContext,
        pub src: &'a Str,
        specifiers: &'a [Specifier],
    }

    impl<'a> Record<'a> {
        pub fn specifiers(&self) -> impl Iterator<Item = RecordSpecifier<'a>> {
            self.specifiers.iter().map(|specifier| match specifier {
                Specifier::Specific { local, alias } => {
                    let alias = alias.as_ref();
                    RecordSpecifier::Specific { local, alias }
                }
                Specifier::Namespace { local, all } => {
                    RecordSpecifier::Namespace { local, all: *all }
                }
            })
        }
    }

    /// A `Specifier`.
    pub enum RecordSpecifier<'a> {
        Specific {
            local: &'a Id,
            alias: Option<&'a Id>,
        },
        Namespace {
            local: &'a Id,
            all: bool,
        },
    }

    /// A module of the scope.
    pub struct Marks {
        pub file: FileName,
        pub loaded: bool,
        pub stored: bool,
        pub cjs: bool,
        pub wrapping: bool,
    }

    impl<L, R> Bundler<'_, L, R>
    where
        L: Load,
        R: Resolve,
    {
        /// Requests the file; gives the local mark of its module.
        pub fn probe_request(&self, file: &FileName) -> Mark {
            self.run(|| self.scope.module_id_gen.gen(file).1)
        }

        /// The modules in the order of their numbers.
        pub fn probe_marks(&self) -> Vec<Marks> {
            let files = self.scope.module_id_gen.files();
            let marks = files.into_iter().map(|(id, file)| Marks {
                file,
                loaded: self.scope.is_loaded(id),
                stored: self.scope.get_module(id).is_some(),
                cjs: self.scope.is_cjs(id),
                wrapping: self.scope.should_be_wrapped_with_a_fn(id),
            });
            marks.collect()
        }

        pub fn probe_extract(&self, path: &FileName, module: &mut Module, mark: Mark) -> Raw {
            Raw(self.extract_import_info(path, module, mark))
        }

        pub fn probe_resolve(&self, base: &FileName, raw: Raw) -> Result<Resolved, Error> {
            let (imports, files) = self.resolve_imports(base, raw.0)?;
            Ok(Resolved(imports, files))
        }

        /// The expression that `analyze` gives for `is_es6`, which stands inside a longer function and cannot be called
        /// alone.
        pub fn probe_is_es6(&self, module: &Module) -> bool {
            if !self.config.require {
                true
            } else {
                let mut v = Es6ModuleDetector {
                    forced_es6: false,
                    found_other: false,
                };
                module.visit_with(&mut v);
                v.forced_es6 || !v.found_other
            }
        }
    }

    pub fn encode(
        injected: bool,
        export_ctxt: Option<SyntaxContext>,
        to: &mut Option<Box<ObjectLit>>,
    ) {
        ExportMetadata {
            injected,
            export_ctxt,
        }
        .encode(to)
    }

    pub fn decode(with: Option<&ObjectLit>) -> (bool, Option<SyntaxContext>) {
        let data = ExportMetadata::decode(with);
        (data.injected, data.export_ctxt)
    }
}
