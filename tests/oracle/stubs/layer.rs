//! layer/mod.rs is not among the published files. mask.rs, which document 01 leaves out, is carried for request 3 of document 02, over a stub of bitvec.
mod count;
mod mask;
mod range;
mod signed;
mod unsigned;

pub use count::*;
pub use mask::*;
pub use range::*;
pub use signed::*;
pub use unsigned::*;

#[derive(Debug)]
pub enum ParseLayerError {
    OutOfRange,
    Integer(std::num::ParseIntError),
}

impl From<std::num::ParseIntError> for ParseLayerError {
    fn from(e: std::num::ParseIntError) -> Self {
        Self::Integer(e)
    }
}

macro_rules! compared {
    ($($number:ty)*) => {$(
        impl PartialEq<$number> for Layer {
            fn eq(&self, other: &$number) -> bool {
                self.to_u16() as $number == *other
            }
        }

        impl PartialOrd<$number> for Layer {
            fn partial_cmp(&self, other: &$number) -> Option<std::cmp::Ordering> {
                (self.to_u16() as $number).partial_cmp(other)
            }
        }
    )*};
}

// All three hold every layer.
compared! { u16 u32 usize }
