//! Stands for the crate `fe2o3-amqp-types`: the types that the compiled functions name, with the fields that they use.

pub mod compact;
mod conditions;
pub mod definitions;
pub mod messaging;
pub mod performatives;
pub mod primitives;
