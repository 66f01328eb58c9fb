//! The papers read once more, the calls into the proved library, the
//! generated cases on which the tests compare the two, and a quick peer that
//! the benchmark measures the library against.

pub mod calls;
pub mod cases;
pub mod fast;
pub mod reference;
