//! Stands for the language versions: the divisor byte of a tree image says which of the two rules of division holds.
#[derive(Copy, Clone, Debug, PartialEq, Eq, PartialOrd, Ord, Hash)]
pub enum MolangVersion {
    AbsoluteDivisor,
    SignedDivisor,
}

impl MolangVersion {
    pub const fn signed_division_fix(self) -> bool {
        matches!(self, Self::SignedDivisor)
    }
}
