use crate::primitives::{OrderedMap, Symbol, Value};

pub type DeliveryNumber = u32;
pub type MessageFormat = u32;
pub type SequenceNo = u32;
pub type Fields = OrderedMap<Symbol, Value>;

#[derive(Debug, Clone, PartialEq, Eq, Hash)]
pub struct DeliveryTag(pub Vec<u8>);

impl From<[u8; 4]> for DeliveryTag {
    fn from(bytes: [u8; 4]) -> Self {
        Self(bytes.to_vec())
    }
}

#[derive(Debug, Clone, Default, PartialEq, Eq)]
pub struct Handle(pub u32);

#[derive(Debug, Clone, Default, PartialEq, Eq)]
pub enum ReceiverSettleMode {
    #[default]
    First,
    Second,
}

#[derive(Debug, Clone, Default, PartialEq, Eq)]
pub enum SenderSettleMode {
    Unsettled,
    Settled,
    #[default]
    Mixed,
}

#[derive(Debug, Clone, PartialEq, Eq)]
pub enum Role {
    Sender,
    Receiver,
}

/// An error is its condition here, by its place in Part 2, 2.8.15, from 1 on.
#[derive(Debug, Clone, PartialEq, Eq)]
pub struct Error(pub u32);
