//! What is asked of the serializer: how many bytes a value has.

use crate::Encode;

#[derive(Debug)]
pub struct Error;

impl std::fmt::Display for Error {
    fn fmt(&self, f: &mut std::fmt::Formatter<'_>) -> std::fmt::Result {
        f.write_str("not serialized")
    }
}

pub fn serialized_size<T: Encode>(value: &T) -> Result<usize, Error> {
    Ok(value.encode().len())
}

pub mod format_code {
    /// The codes that the compiled functions name (Part 1, 1.6).
    pub enum EncodingCodes {
        DescribedType = 0x00,
        SmallUlong = 0x53,
        Ulong = 0x80,
    }
}
