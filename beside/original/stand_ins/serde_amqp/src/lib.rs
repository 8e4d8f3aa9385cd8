//! Stands for the crate `serde_amqp`: of its serializer only the size of what it writes is asked for. The bytes
//! are those of `fe2o3_amqp_types::compact` here, and say nothing about the original's.

pub trait Encode {
    fn encode(&self) -> Vec<u8>;
}

mod sized;

pub use sized::{format_code, serialized_size, Error};
