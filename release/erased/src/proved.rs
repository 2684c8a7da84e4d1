//! The proved sources without their contracts: each folder is a crate, which `release/erased/erase.py` read. No call of these is for users.
#![allow(unused_imports, unused_variables, dead_code, reason = "contracts name what no code does")]
#![allow(clippy::style, clippy::complexity, clippy::manual_contains, clippy::manual_unwrap_or_default, reason = "the prover takes some forms and not others")]
#![allow(clippy::large_enum_variant, reason = "a page is returned as it is, rather than in memory that may be refused")]
#![allow(rustdoc::broken_intra_doc_links, rustdoc::private_intra_doc_links, reason = "what a link names may be erased")]

