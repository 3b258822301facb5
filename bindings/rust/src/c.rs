//! The declarations of vinjakwe.h, as build.rs reads them there.
#![allow(missing_docs, non_camel_case_types, non_upper_case_globals)]

extern "C" {
    pub static vinjakwe_version: [u8; 6];
}

include!(concat!(env!("OUT_DIR"), "/declarations.rs"));
