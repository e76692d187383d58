//! Independent tests of the Paradox library: a second implementation of its papers, files made by
//! rule and broken by rule, and the comparison of the two over the C calls and the lister.

pub mod bench;
pub mod calls;
pub mod codes;
pub mod differential;
pub mod expected;
pub mod fence;
pub mod generate;
pub mod layout;
pub mod mb;
pub mod model;
pub mod mutate;
pub mod random;
pub mod samples;
pub mod watch;
