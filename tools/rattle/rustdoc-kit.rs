#![allow(unused, non_camel_case_types)]
/// The names of the kit that signatures use. A trait's page lists the types that implement it; the
/// kit's own pages say what its calls do.
pub mod kit {
    macro_rules! traits { ($($name:ident)*) => { $(pub trait $name<T: ?Sized = ()> {})* } }
    macro_rules! types { ($($name:ident)*) => { $(pub struct $name;)* } }
    // A type that stands for one of these is taken in each place that wants one.
    macro_rules! bounds { ($($name:ident)*) => {
        $(pub trait $name {} impl<T: ?Sized> $name for T {})*
    } }
    bounds! { Wait Threads Allocator BuildHasher AllocGlobal Files Abort }
    traits! {
        AsBytes AsPath AsSlice AsStr Clone Comparable Copy Debug Default DerefStr Display Drop Eq
        Equivalent Error Extend From FromIterator Hash Index Iterator Model Move Ord Owns
        PartialEq PartialOrd Read ToOwned TryFrom Write
    }
    pub unsafe trait Pattern {}
    pub trait AsDeref<'a> {}
    types! { AllocError FoldHasher Global Value }
    impl Copy for Global {}
    pub struct CowStr<'a>(&'a ());
    pub struct AllocFailed<T>(T);
    pub struct BuildHasherDefault<T>(T);
    pub struct String<A = Global>(A);
    pub struct Vec<T, A = Global>(T, A);
    pub struct Box<T: ?Sized, A = Global>(A, core::marker::PhantomData<T>);
    pub struct HashMap<K, V, S = FoldHasher, A = Global>(K, V, S, A);
    pub use std::ops::{
        Range, RangeFrom, RangeFull, RangeInclusive, RangeTo, RangeToInclusive,
    };
    pub use std::slice::Iter;
    pub mod fmt {
        pub use super::{Debug, Display, Write};
        pub use std::fmt::{Formatter, Result};
    }
    pub mod io {
        pub use super::{Read, Write};
        pub struct Error;
        pub type Result<T> = core::result::Result<T, Error>;
    }
    pub mod indexmap { pub trait Equivalent<T: ?Sized> {} }
    pub mod log { pub mod kv { pub trait Primitive {} pub trait ToValue {} } }
    pub mod serde {
        pub trait Described {}
        pub trait Deserialize<'a> {}
        pub trait DeserializeOwned {}
        pub trait Serialize {}
    }
    pub mod serde_json { pub trait Index {} pub trait ToValue {} }
    pub mod toml { pub trait Index {} pub trait ToValue {} }
}
