//! Stand-in for partial_ref: one unchecked reference type. The crate itself has checked that the parts used together are disjoint; here
//! every reference reaches every part, through raw pointers to single fields.
#![allow(missing_docs, clippy::wrong_self_convention)] // what is public here is named and meant as in the crate itself

use std::marker::PhantomData;

pub use partial_ref_derive::PartialRefTarget;

pub struct PRef<'r, T> {
    ptr: *mut T,
    life: PhantomData<&'r mut T>,
}

/// Says where a part lies in `T`.
pub trait PartOf<T> {
    type Ty;

    /// # Safety
    /// `whole` points to a live `T`.
    unsafe fn get(whole: *mut T) -> *mut Self::Ty;
}

/// Only there to be imported: the methods are inherent.
pub trait PartialRef {}

impl<'r, T> PartialRef for PRef<'r, T> {}

pub trait IntoPartialRef: Sized {
    fn into_partial_ref(&self) -> PRef<'_, Self>;
}

pub trait IntoPartialRefMut: Sized {
    fn into_partial_ref_mut(&mut self) -> PRef<'_, Self>;
}

impl<'r, T> PRef<'r, T> {
    pub fn new_raw(ptr: *mut T) -> PRef<'r, T> {
        PRef { ptr, life: PhantomData }
    }

    pub fn borrow(&mut self) -> PRef<'_, T> {
        PRef::new_raw(self.ptr)
    }

    pub fn part<P: PartOf<T>>(&self, _part: P) -> &P::Ty {
        unsafe { &*P::get(self.ptr) }
    }

    pub fn part_mut<P: PartOf<T>>(&mut self, _part: P) -> &mut P::Ty {
        unsafe { &mut *P::get(self.ptr) }
    }

    pub fn split_part<P: PartOf<T>>(&mut self, _part: P) -> (&P::Ty, PRef<'_, T>) {
        unsafe { (&*P::get(self.ptr), PRef::new_raw(self.ptr)) }
    }

    pub fn split_part_mut<P: PartOf<T>>(&mut self, _part: P) -> (&mut P::Ty, PRef<'_, T>) {
        unsafe { (&mut *P::get(self.ptr), PRef::new_raw(self.ptr)) }
    }

    pub fn split_borrow(&mut self) -> (PRef<'_, T>, PRef<'_, T>) {
        (PRef::new_raw(self.ptr), PRef::new_raw(self.ptr))
    }
}

#[macro_export]
macro_rules! partial {
    ($lt:lifetime $t:ty, $($rest:tt)*) => { $crate::PRef<$lt, $t> };
    ($t:ty, $($rest:tt)*) => { $crate::PRef<'_, $t> };
}

#[macro_export]
macro_rules! part {
    (pub $name:ident : $t:ty) => {
        pub struct $name;
    };
    (pub $name:ident < $lt:lifetime > : $t:ty) => {
        pub struct $name;
    };
}

#[macro_export]
macro_rules! split_borrow {
    ($name:ident = &($($part:tt)*) $ctx:ident) => {
        let (mut $name, mut $ctx) = $ctx.split_borrow();
    };
}
