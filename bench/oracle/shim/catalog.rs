//! Stands for the catalogues: indices that can be made from a number, and catalogues that declare nothing.
#[derive(Copy, Clone, Debug, PartialEq, Eq, PartialOrd, Ord, Hash)]
pub(crate) struct QueryIndex(pub(crate) u16);

#[derive(Copy, Clone, Debug, PartialEq, Eq, Hash)]
pub struct MathRef(pub(crate) u16);

impl MathRef {
    pub fn index(self) -> usize {
        usize::from(self.0)
    }
}

impl QueryIndex {
    pub(crate) const fn index(self) -> usize {
        self.0 as usize
    }
}

#[derive(Clone, Debug)]
pub struct Decl;

impl Decl {
    pub fn name(&self) -> &'static str {
        "?"
    }
}

static DECL: Decl = Decl;

#[derive(Clone, Debug)]
pub struct QueryCatalog;

impl QueryCatalog {
    pub(crate) fn decl(&self, _: QueryIndex) -> &Decl {
        &DECL
    }
}

#[derive(Clone, Debug)]
pub struct MathCatalog;

impl MathCatalog {
    pub(crate) fn decl(&self, _: MathRef) -> &Decl {
        &DECL
    }
}
