//! The names of AMQP's error conditions in the order of their numbers (Part 2, 2.8.15), without `amqp:`.

pub const CONDITIONS: [&str; 13] = [
    "internal-error",
    "not-found",
    "unauthorized-access",
    "decode-error",
    "resource-limit-exceeded",
    "not-allowed",
    "invalid-field",
    "not-implemented",
    "resource-locked",
    "precondition-failed",
    "resource-deleted",
    "illegal-state",
    "frame-size-too-small",
];
