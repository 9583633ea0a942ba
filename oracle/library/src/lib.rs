//! The project's C functions, each behind a safe function of the same name that
//! gives nothing where the static library does not have it.
//!
//! Of all crates here only this one has `unsafe`: the calls, and memory whose
//! bounds the processor guards.

pub mod guard;

/// What every result starts with.
#[derive(Clone, Copy, Debug, Default, PartialEq, Eq)]
pub struct Head {
    /// 0 where the call is done, else the number of the refusal.
    pub number: u64,
    pub first: u64,
    pub second: u64,
}

pub trait Outcome: Copy + PartialEq {
    fn head(&self) -> Head;

    /// The result of that head whose other fields are 0.
    fn bare(head: Head) -> Self;

    /// The fields after the head, in order.
    fn fields(&self) -> Vec<i128>;
}

macro_rules! results {
    ($($name:ident { $($field:ident: $width:ident),* })*) => { $(
        #[repr(C)]
        #[derive(Clone, Copy, Debug, Default, PartialEq, Eq)]
        pub struct $name {
            pub number: u64,
            pub first: u64,
            pub second: u64,
            $(pub $field: $width,)*
        }

        impl Outcome for $name {
            fn head(&self) -> Head {
                Head { number: self.number, first: self.first, second: self.second }
            }

            #[allow(clippy::needless_update)]
            fn bare(head: Head) -> Self {
                $name {
                    number: head.number,
                    first: head.first,
                    second: head.second,
                    ..Default::default()
                }
            }

            fn fields(&self) -> Vec<i128> {
                vec![$(self.$field.into()),*]
            }
        }
    )* };
}

/// One function: its parameters are taken one by one, a slice becomes a pointer
/// and a length, and a struct that is lent a pointer.
macro_rules! function {
    ($symbol:tt $name:ident $result:ty, [$($wrapped:tt)*] [$($declared:tt)*] [$($passed:tt)*]
        $arg:ident: &mut [$width:ident], $($rest:tt)*) => {
        function! { $symbol $name $result, [$($wrapped)* $arg: &mut [$width],]
            [$($declared)* $arg: *mut $width, _: usize,]
            [$($passed)* $arg.as_mut_ptr(), $arg.len(),] $($rest)* }
    };
    ($symbol:tt $name:ident $result:ty, [$($wrapped:tt)*] [$($declared:tt)*] [$($passed:tt)*]
        $arg:ident: &[$width:ident], $($rest:tt)*) => {
        function! { $symbol $name $result, [$($wrapped)* $arg: &[$width],]
            [$($declared)* $arg: *const $width, _: usize,]
            [$($passed)* $arg.as_ptr(), $arg.len(),] $($rest)* }
    };
    ($symbol:tt $name:ident $result:ty, [$($wrapped:tt)*] [$($declared:tt)*] [$($passed:tt)*]
        $arg:ident: &mut $lent:ident, $($rest:tt)*) => {
        function! { $symbol $name $result, [$($wrapped)* $arg: &mut $lent,]
            [$($declared)* $arg: *mut $lent,] [$($passed)* $arg,] $($rest)* }
    };
    ($symbol:tt $name:ident $result:ty, [$($wrapped:tt)*] [$($declared:tt)*] [$($passed:tt)*]
        $arg:ident: $width:ident, $($rest:tt)*) => {
        function! { $symbol $name $result, [$($wrapped)* $arg: $width,]
            [$($declared)* $arg: $width,] [$($passed)* $arg,] $($rest)* }
    };
    ($symbol:tt $name:ident $result:ty, [$($wrapped:tt)*] [$($declared:tt)*] [$($passed:tt)*]) => {
        #[cfg(c_function = $symbol)]
        #[allow(clippy::too_many_arguments)]
        pub fn $name($($wrapped)*) -> Option<$result> {
            extern "C" {
                fn $name($($declared)*) -> $result;
            }
            // Each pointer goes with the length of its slice or is of a struct that
            // is lent, only what is lent mutably is written, and nothing is kept
            // after the call.
            Some(unsafe { $name($($passed)*) })
        }

        #[cfg(not(c_function = $symbol))]
        #[allow(clippy::too_many_arguments, unused_variables)]
        pub fn $name($($wrapped)*) -> Option<$result> {
            None
        }
    };
}

macro_rules! functions {
    ($($symbol:tt $name:ident($($parameters:tt)*) -> $result:ty;)*) => {
        $(function! { $symbol $name $result, [] [] [] $($parameters)*, })*

        /// Every function, and whether the static library has it.
        pub const FUNCTIONS: &[(&str, bool)] = &[$(($symbol, cfg!(c_function = $symbol))),*];
    };
}

include!("../../../rust/src/declared.rs");

/// Whether the static library was there.
pub fn present() -> bool {
    FUNCTIONS.iter().any(|(_, there)| *there)
}

pub fn missing() -> Vec<&'static str> {
    FUNCTIONS
        .iter()
        .filter(|(_, there)| !there)
        .map(|(name, _)| *name)
        .collect()
}
