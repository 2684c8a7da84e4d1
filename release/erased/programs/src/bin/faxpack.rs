//! Encodes a bitmap as a fax image.
#![no_main]

programs::begin_with!(programs::proved::faxpack::main);
