//! Stands in for the post-operations, which the passes carry along and never look at.

#[derive(Copy, Clone, Debug, PartialEq)]
pub struct PostOp {
    pub(crate) scale: f32,
    pub(crate) offset: f32,
}

impl PostOp {
    pub(crate) const IDENTITY: Self = Self {
        scale: 1.0,
        offset: 0.0,
    };

    pub(crate) fn is_identity(self) -> bool {
        self == Self::IDENTITY
    }
}
