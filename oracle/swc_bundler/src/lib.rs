//! swc_bundler 58.0.0, as far as its files are at hand: `build.rs` lays them out unchanged. This file and `resolve`
//! stand for the crate's own root.

// The published text stays as it is. Without the features, the other modules and the other nodes some of it is idle.
#![allow(dead_code, irrefutable_let_patterns, unused_imports)]
#![allow(clippy::map_clone, clippy::type_complexity)]

include!(concat!(env!("OUT_DIR"), "/src/root.rs"));

mod resolve;

pub use self::{
    bundler::{probe, Bundler, Config},
    id::{Id, ModuleId},
    load::{Load, ModuleData},
    resolve::{Resolution, Resolve},
};

/// Stand-in; the bundler keeps one and the built parts never call it.
pub trait Hook {}
