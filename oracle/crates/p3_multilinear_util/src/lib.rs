//! The seven files of p3-multilinear-util 0.8.0 as they were published, compiled
//! over the stand-ins. This file and the manifest are ours; the files are read
//! where they lie (see build.rs) and are no part of this repository.

#![no_std]
#![allow(warnings)]

extern crate alloc;

include!(concat!(env!("OUT_DIR"), "/modules.rs"));
