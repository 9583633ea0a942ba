//! The C functions of librtcp.a, each behind a safe function of the same name.
//! This is the only file with `unsafe`. Some are called by the tests only.

#![allow(dead_code)]

use crate::sdes::LookupAnswer;
use std::ffi::{c_char, CStr};

/// Why a call is refused: a number and two details.
#[derive(Clone, Copy, Debug, PartialEq, Eq)]
pub struct Refusal {
    pub number: u64,
    pub first: u64,
    pub second: u64,
}

macro_rules! results {
    ($($name:ident { $($field:ident: $width:ident),* })*) => { $(
        #[repr(C)]
        #[derive(Clone, Copy, Debug, PartialEq, Eq)]
        pub struct $name {
            pub number: u64,
            pub first: u64,
            pub second: u64,
            $(pub $field: $width,)*
        }

        impl $name {
            /// The result, or why there is none.
            #[inline]
            pub fn done(self) -> Result<Self, Refusal> {
                match self.number {
                    0 => Ok(self),
                    number => Err(Refusal { number, first: self.first, second: self.second }),
                }
            }
        }
    )* };
}

/// One function: its parameters are taken one by one, a slice becomes a pointer
/// and a length, and a struct that is lent a pointer.
macro_rules! function {
    ($name:ident $result:ty, [$($wrapped:tt)*] [$($declared:tt)*] [$($passed:tt)*]
        $arg:ident: &mut [$width:ident], $($rest:tt)*) => {
        function! { $name $result, [$($wrapped)* $arg: &mut [$width],]
            [$($declared)* $arg: *mut $width, _: usize,]
            [$($passed)* $arg.as_mut_ptr(), $arg.len(),] $($rest)* }
    };
    ($name:ident $result:ty, [$($wrapped:tt)*] [$($declared:tt)*] [$($passed:tt)*]
        $arg:ident: &[$width:ident], $($rest:tt)*) => {
        function! { $name $result, [$($wrapped)* $arg: &[$width],]
            [$($declared)* $arg: *const $width, _: usize,]
            [$($passed)* $arg.as_ptr(), $arg.len(),] $($rest)* }
    };
    ($name:ident $result:ty, [$($wrapped:tt)*] [$($declared:tt)*] [$($passed:tt)*]
        $arg:ident: &mut $lent:ident, $($rest:tt)*) => {
        function! { $name $result, [$($wrapped)* $arg: &mut $lent,]
            [$($declared)* $arg: *mut $lent,] [$($passed)* $arg,] $($rest)* }
    };
    ($name:ident $result:ty, [$($wrapped:tt)*] [$($declared:tt)*] [$($passed:tt)*]
        $arg:ident: $width:ident, $($rest:tt)*) => {
        function! { $name $result, [$($wrapped)* $arg: $width,]
            [$($declared)* $arg: $width,] [$($passed)* $arg,] $($rest)* }
    };
    ($name:ident $result:ty, [$($wrapped:tt)*] [$($declared:tt)*] [$($passed:tt)*]) => {
        #[inline]
        #[allow(clippy::too_many_arguments)]
        pub fn $name($($wrapped)*) -> $result {
            extern "C" {
                fn $name($($declared)*) -> $result;
            }
            // SAFETY: each pointer goes with the length of its slice or is of a
            // struct that is lent, only what is lent mutably is written, nothing
            // is kept after the call, and the functions accept every number and
            // every byte.
            unsafe { $name($($passed)*) }
        }
    };
}

macro_rules! functions {
    ($($symbol:tt $name:ident($($parameters:tt)*) -> $result:ty;)*) => {
        $(function! { $name $result, [] [] [] $($parameters)*, })*
    };
}

include!("declared.rs");

/// The commit that the archive was proved from.
pub fn proved_from() -> &'static str {
    extern "C" {
        #[link_name = "rtcp_proved_from"]
        static PROVED_FROM: c_char;
    }
    // SAFETY: it is a string of C, and nobody writes it.
    let text = unsafe { CStr::from_ptr(std::ptr::addr_of!(PROVED_FROM)) };
    text.to_str().unwrap_or_default()
}

/// Answers of a lookup as the bytes that the library writes.
#[inline]
pub fn answer_bytes(answers: &mut [LookupAnswer]) -> &mut [u8] {
    let (bytes, len) = (answers.as_mut_ptr().cast(), answers.len());
    // SAFETY: an answer is `repr(transparent)` over a byte, and may be any byte.
    // The answers are lent for as long as the bytes are.
    unsafe { std::slice::from_raw_parts_mut(bytes, len) }
}

/// A part of the lent bytes.
#[inline]
pub fn part(bytes: &[u8], offset: u64, len: u64) -> &[u8] {
    &bytes[offset as usize..][..len as usize]
}

/// The bytes from one place to another.
#[inline]
pub fn between(bytes: &[u8], from: u64, to: u64) -> &[u8] {
    &bytes[from as usize..to as usize]
}
