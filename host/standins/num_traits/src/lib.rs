//! Stand-in: the casts that the source uses.
pub trait AsPrimitive<T> {
    fn as_(self) -> T;
}

impl AsPrimitive<usize> for u32 {
    #[inline]
    fn as_(self) -> usize {
        self as usize
    }
}

pub trait ToPrimitive {
    fn to_f32(&self) -> Option<f32>;
}

impl ToPrimitive for f32 {
    #[inline]
    fn to_f32(&self) -> Option<f32> {
        Some(*self)
    }
}
