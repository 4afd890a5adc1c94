//! What the comparison runs and the bench share: the proved engine's phases, and the slow engine's table as the library
//! has it.

pub mod boundary;
