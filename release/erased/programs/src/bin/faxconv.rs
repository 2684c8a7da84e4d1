//! Reads fax pages, and writes them as pictures or documents.
#![no_main]

programs::begin_with!(programs::proved::faxconv::main);
