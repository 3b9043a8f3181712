//! The original: IronBus's lease, cursor, delivery, attempt and crc modules and its types, unchanged.
#![allow(rustdoc::all)]
include!(concat!(env!("OUT_DIR"), "/modules.rs"));
