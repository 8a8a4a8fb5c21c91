//! The operators: op.rs and set.rs as they stand, over a stand-in for the operator table.

include!(concat!(env!("OUT_DIR"), "/ops.rs"));

pub use op::ExpressionOp;
pub use set::OpSet;

/// The operator table is not published. Its place is taken by rows that name an operator by its
/// number, which is how document 01 gives a name, and that call a math function what document 01
/// lists as one: 8, 10-19, 21-30, 32-39 and 78-108, with `math.pi` (62) as op.rs describes it.
pub(crate) mod table {
    use super::op::ExpressionOp;

    /// A row of the table.
    #[allow(dead_code)]
    pub struct OpMeta {
        pub(crate) op: ExpressionOp,
        pub(crate) name: &'static str,
        pub(crate) token: Option<&'static str>,
        pub(crate) friendly_name: &'static str,
        pub(crate) min_children: u8,
        pub(crate) max_children: Option<u8>,
        pub(crate) flags: OpFlags,
    }

    /// What op.rs asks of a row.
    #[derive(Copy, Clone)]
    pub struct OpFlags(u8);

    #[allow(dead_code)]
    impl OpFlags {
        pub(crate) const MATH_FUNCTION: Self = Self(1);
        pub(crate) const RESOURCE_REFERENCE: Self = Self(2);

        pub(crate) const fn contains(self, other: Self) -> bool {
            self.0 & other.0 == other.0
        }
    }

    const fn row(op: ExpressionOp, number: &'static str) -> OpMeta {
        let math = matches!(op as u8, 8 | 10..=19 | 21..=30 | 32..=39 | 62 | 78..=108);
        OpMeta {
            op,
            name: number,
            token: None,
            friendly_name: number,
            min_children: 0,
            max_children: None,
            flags: OpFlags(math as u8),
        }
    }

    include!(concat!(env!("OUT_DIR"), "/table.rs"));
}
