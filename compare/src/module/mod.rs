//! The original's files, under the name that they know themselves by.
#![allow(dead_code, unused_imports)]

include!(concat!(env!("OUT_DIR"), "/original.rs"));
