//! The five files of divotmaker/ironsight, compiled unchanged from where they stand.
#![allow(unexpected_cfgs, dead_code, rustdoc::broken_intra_doc_links)]
include!(concat!(env!("OUT_DIR"), "/ironsight.rs"));
