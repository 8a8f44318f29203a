//! Generated inputs: whole ones, and damaged ones made of them.

pub mod bench;
pub mod damage;
pub mod desk;
pub mod fields;
#[cfg(test)]
mod reached;
pub mod shelf;
pub mod whole;
