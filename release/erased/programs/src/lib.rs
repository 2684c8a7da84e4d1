//! The programs `faxrows` and `faxpack`, whose sources `proved` has. All unsafe code is in `system`.

#[macro_use]
pub mod system;
pub mod proved;

use decoder::lists;
