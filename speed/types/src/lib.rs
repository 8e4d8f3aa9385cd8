//! The stand-in of beside/ for the crate `fe2o3-amqp-types`, with sizes in the place of bytes.

#[path = "../../../beside/original/stand_ins/fe2o3-amqp-types/src/conditions.rs"]
mod conditions;
#[path = "../../../beside/original/stand_ins/fe2o3-amqp-types/src/definitions.rs"]
pub mod definitions;
#[path = "../../../beside/original/stand_ins/fe2o3-amqp-types/src/messaging.rs"]
pub mod messaging;
#[path = "../../../beside/original/stand_ins/fe2o3-amqp-types/src/performatives.rs"]
pub mod performatives;
#[path = "../../../beside/original/stand_ins/fe2o3-amqp-types/src/primitives.rs"]
pub mod primitives;
mod sizes;
