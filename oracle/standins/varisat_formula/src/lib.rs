//! Stand-in for varisat-formula: variables and literals as document 01 gives them.
#![allow(missing_docs)] // what is public here is named and meant as in the crate itself

pub mod lit {
    pub type LitIdx = u32;

    #[derive(Copy, Clone, PartialEq, Eq, PartialOrd, Ord, Hash, Debug)]
    #[repr(transparent)]
    pub struct Var {
        index: LitIdx,
    }

    impl Var {
        pub fn from_index(index: usize) -> Var {
            debug_assert!(index < Var::max_count());
            Var { index: index as LitIdx }
        }

        pub fn index(&self) -> usize {
            self.index as usize
        }

        pub const fn max_count() -> usize {
            ((LitIdx::MAX >> 4) + 1) as usize
        }

        pub fn lit(self, polarity: bool) -> Lit {
            Lit { code: self.index * 2 + (!polarity) as LitIdx }
        }
    }

    /// The code is 2 × index, plus 1 if negative.
    #[derive(Copy, Clone, PartialEq, Eq, PartialOrd, Ord, Hash, Debug)]
    #[repr(transparent)]
    pub struct Lit {
        code: LitIdx,
    }

    impl Lit {
        pub fn from_code(code: usize) -> Lit {
            debug_assert!(code < 2 * Var::max_count());
            Lit { code: code as LitIdx }
        }

        pub fn code(self) -> usize {
            self.code as usize
        }

        pub fn index(self) -> usize {
            (self.code / 2) as usize
        }

        pub fn var(self) -> Var {
            Var { index: self.code / 2 }
        }

        pub fn is_negative(self) -> bool {
            self.code % 2 == 1
        }

        pub fn is_positive(self) -> bool {
            self.code % 2 == 0
        }

        pub fn to_dimacs(self) -> isize {
            let number = self.index() as isize + 1;
            if self.is_negative() {
                -number
            } else {
                number
            }
        }

        pub fn map_var(self, f: impl FnOnce(Var) -> Var) -> Lit {
            f(self.var()).lit(self.is_positive())
        }
    }

    impl std::ops::Not for Lit {
        type Output = Lit;

        fn not(self) -> Lit {
            Lit { code: self.code ^ 1 }
        }
    }
}

pub use lit::{Lit, Var};

/// Never filled.
#[derive(Default)]
pub struct CnfFormula;

impl CnfFormula {
    pub fn iter(&self) -> impl Iterator<Item = &[Lit]> {
        std::iter::empty()
    }
}

pub trait ExtendFormula {
    fn add_clause(&mut self, clause: &[Lit]);
    fn new_var(&mut self) -> Var;
}
