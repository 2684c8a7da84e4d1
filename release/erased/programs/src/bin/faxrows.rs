//! Decodes a fax image.
#![no_main]

programs::begin_with!(programs::proved::faxrows::main);
