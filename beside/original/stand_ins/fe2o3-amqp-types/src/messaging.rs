use crate::definitions::Error;

pub const MESSAGE_FORMAT: u32 = 0;

#[derive(Debug, Clone, PartialEq, Eq, PartialOrd, Ord)]
pub struct Received {
    pub section_number: u32,
    pub section_offset: u64,
}

#[derive(Debug, Clone, PartialEq)]
pub struct Accepted {}

#[derive(Debug, Clone, PartialEq)]
pub struct Rejected {
    pub error: Option<Error>,
}

#[derive(Debug, Clone, PartialEq)]
pub struct Released {}

#[derive(Debug, Clone, PartialEq)]
pub struct Modified {
    pub delivery_failed: Option<bool>,
    pub undeliverable_here: Option<bool>,
}

#[derive(Debug, Clone, PartialEq)]
pub enum DeliveryState {
    Accepted(Accepted),
    Rejected(Rejected),
    Released(Released),
    Modified(Modified),
    Received(Received),
}

impl DeliveryState {
    pub fn is_terminal(&self) -> bool {
        !matches!(self, DeliveryState::Received(_))
    }
}

#[derive(Debug, Clone)]
pub struct Source;

#[derive(Debug, Clone)]
pub struct Target;

#[derive(Debug, Clone)]
pub enum TargetArchetype {
    Target(Target),
}

impl From<Target> for TargetArchetype {
    fn from(target: Target) -> Self {
        Self::Target(target)
    }
}

impl From<TargetArchetype> for Target {
    fn from(archetype: TargetArchetype) -> Self {
        let TargetArchetype::Target(target) = archetype;
        target
    }
}
