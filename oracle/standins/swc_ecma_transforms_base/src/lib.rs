//! Stand-in for `swc_ecma_transforms_base`. Needed for `analyze` to compile, which the oracle does not call.

use swc_common::Mark;
use swc_ecma_visit::VisitMut;

pub mod helpers {
    #[derive(Debug, Clone, Copy, Default)]
    pub struct HelperData;

    #[derive(Debug, Default)]
    pub struct Helpers;

    impl Helpers {
        pub fn data(&self) -> HelperData {
            HelperData
        }
    }
}

pub fn resolver(_unresolved: Mark, _top_level: Mark, _typescript: bool) -> impl VisitMut {
    struct NotBuilt;
    impl VisitMut for NotBuilt {}
    NotBuilt
}
