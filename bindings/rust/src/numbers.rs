//! The numbers of `assise.h`, as `build/header.rs` reads them: a module for each of its enums, `define` for its limits, `FAULTS` with what
//! it says of each fault.

include!(concat!(env!("OUT_DIR"), "/numbers.rs"));
