//! Stands for the crate `serde_amqp`: of its serializer only the size of what it writes is asked for, which costs no memory there
//! and none here.

pub trait Encode {
    fn encode(&self) -> Size;
}

pub struct Size(pub usize);

impl Size {
    #[allow(clippy::len_without_is_empty)]
    pub fn len(&self) -> usize {
        self.0
    }
}

#[path = "../../../beside/original/stand_ins/serde_amqp/src/sized.rs"]
mod sized;

pub use sized::{format_code, serialized_size, Error};
