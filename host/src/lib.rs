//! A second MC68901, written from the papers alone, to be compared with the
//! proved library; and the text form in which people write tapes.
//! Nothing here needs the library: that part is the package in `differ/`.
#![deny(warnings, missing_docs)]
#![forbid(unsafe_code)]

pub mod reference;
pub mod replay;
pub mod rng;
pub mod text;
