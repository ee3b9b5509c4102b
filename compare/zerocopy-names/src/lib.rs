//! The names of zerocopy 0.8 that macho-unwind-info 0.5.0 uses, over zerocopy 0.6.1.
//!
//! What is granted and what is read is decided by 0.6.1's `LayoutVerified`, as it is in release
//! 0.3.0; `reader.rs` of that release names it, so it is handed on too.

pub use zerocopy::{FromBytes, LayoutVerified, Unaligned};

/// 0.8 asks of a type that its layout is known; 0.6.1 has no such thing to ask.
pub trait KnownLayout {}
impl<T: ?Sized> KnownLayout for T {}

/// 0.8 asks of a type that it has no cells; 0.6.1 has no such thing to ask.
pub trait Immutable {}
impl<T: ?Sized> Immutable for T {}

/// 0.8's name for `LayoutVerified`.
pub struct Ref<B, T: ?Sized>(LayoutVerified<B, T>);

/// 0.8 says why bytes don't fit the type; the crate drops it by `ok()`.
pub struct CastError;

impl<'a, T: Verified + ?Sized> Ref<&'a [u8], T> {
    pub fn from_bytes(bytes: &'a [u8]) -> Result<Self, CastError> {
        T::verify(bytes).map(Ref).ok_or(CastError)
    }

    pub fn into_ref(r: Self) -> &'a T {
        T::reference(r.0)
    }
}

/// What 0.6.1 does by two names, one for a type and one for slices of it.
pub trait Verified {
    fn verify(bytes: &[u8]) -> Option<LayoutVerified<&[u8], Self>>;
    fn reference(verified: LayoutVerified<&[u8], Self>) -> &Self;
}

impl<T: FromBytes> Verified for T {
    fn verify(bytes: &[u8]) -> Option<LayoutVerified<&[u8], T>> {
        LayoutVerified::<_, T>::new(bytes)
    }

    fn reference(verified: LayoutVerified<&[u8], T>) -> &T {
        verified.into_ref()
    }
}

impl<T: FromBytes> Verified for [T] {
    fn verify(bytes: &[u8]) -> Option<LayoutVerified<&[u8], [T]>> {
        LayoutVerified::<_, [T]>::new_slice(bytes)
    }

    fn reference(verified: LayoutVerified<&[u8], [T]>) -> &[T] {
        verified.into_slice()
    }
}
