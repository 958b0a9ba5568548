//! The one place where the library is called: each line of `calls.rs` becomes a safe function over the library's own.

use crate::{ClusterRecord, Record};

/// A length, as the library has it on every machine: 64 bits, also where a pointer has 32.
pub(crate) type Len = u64;

/// A slice's length as the library takes it.
#[inline]
pub(crate) fn len<T>(slice: &[T]) -> Len {
    slice.len() as Len
}

/// Safe functions from a list of calls, as `calls.rs` has it.
macro_rules! calls {
    ($($(#[$doc:meta])* fn $name:ident $arguments:tt $(-> $answer:tt)?;)*) => {
        $(call! { [$(#[$doc])*] $name [$($answer)?] $arguments () () () })*
    };
}

/// The same, of the calls that say how many words are needed.
macro_rules! sizes {
    ($($(#[$doc:meta])* fn $name:ident $arguments:tt $(-> $answer:tt)?;)*) => {
        calls! {
            $(#[doc = "How many words a call needs at least, and 0 for a bad shape:"] $(#[$doc])* fn $name $arguments $(-> $answer)?;)*
        }
    };
}

/// One call: its arguments are taken one by one and become the function's own, the library's, and what the one hands to the other. A slice
/// is handed on as a pointer and then its length in words, or in records.
macro_rules! call {
    ($docs:tt $name:ident $answer:tt ($p:ident: &mut [$t:ty] $(, $($rest:tt)*)?) ($($own:tt)*) ($($c:tt)*) ($($handed:tt)*)) => {
        call! { $docs $name $answer ($($($rest)*)?) ($($own)* $p: &mut [$t],) ($($c)* $p: *mut $t, _: Len,) ($($handed)* $p.as_mut_ptr(), len($p),) }
    };
    ($docs:tt $name:ident $answer:tt ($p:ident: &[$t:ty] $(, $($rest:tt)*)?) ($($own:tt)*) ($($c:tt)*) ($($handed:tt)*)) => {
        call! { $docs $name $answer ($($($rest)*)?) ($($own)* $p: &[$t],) ($($c)* $p: *const $t, _: Len,) ($($handed)* $p.as_ptr(), len($p),) }
    };
    ($docs:tt $name:ident $answer:tt ($p:ident $(, $($rest:tt)*)?) ($($own:tt)*) ($($c:tt)*) ($($handed:tt)*)) => {
        call! { $docs $name $answer ($($($rest)*)?) ($($own)* $p: u32,) ($($c)* $p: u32,) ($($handed)* $p,) }
    };
    ([$(#[$doc:meta])*] $name:ident $answer:tt () ($($own:tt)*) ($($c:tt)*) ($($handed:tt)*)) => {
        $(#[$doc])*
        #[inline]
        pub fn $name($($own)*) -> answer!(own $answer) {
            #[allow(unused_imports)]
            use crate::raw::{len, Len};
            extern "C" {
                #[link_name = concat!("card_", stringify!($name))]
                fn $name($($c)*) -> answer!(c $answer);
            }
            // SAFETY: each pointer and length is that of a slice which is borrowed for the length of the call, so its words are there,
            // aligned and initialised, a `&mut` slice overlaps no other, and the library keeps no pointer. Numbers and words may be any.
            unsafe { $name($($handed)*) as answer!(own $answer) }
        }
    };
}

/// What a call answers, here and in C.
macro_rules! answer {
    ($side:ident []) => {
        u32
    };
    (own [usize]) => {
        usize
    };
    (c [usize]) => {
        Len
    };
}

// A record lies in memory as the library reads it: five words, in this order. Else this does not compile.
const _: () = {
    let record = Record { kind: 1, node: 2, rank: 3, tag: 4, length: 5 };
    // SAFETY: the two are of one size, or this is refused, and any five words are an array of words.
    let laid: [u32; 5] = unsafe { core::mem::transmute(record) };
    assert!(laid[0] == 1 && laid[1] == 2 && laid[2] == 3 && laid[3] == 4 && laid[4] == 5);
    assert!(core::mem::align_of::<Record>() == core::mem::align_of::<u32>());
};

// So does a record of the clocked cluster heap: six words.
const _: () = {
    let record = ClusterRecord { kind: 1, node: 2, place: 3, rank: 4, tag: 5, length: 6 };
    // SAFETY: the two are of one size, or this is refused, and any six words are an array of words.
    let laid: [u32; 6] = unsafe { core::mem::transmute(record) };
    assert!(laid[0] == 1 && laid[1] == 2 && laid[2] == 3 && laid[3] == 4 && laid[4] == 5 && laid[5] == 6);
    assert!(core::mem::align_of::<ClusterRecord>() == core::mem::align_of::<u32>());
};
