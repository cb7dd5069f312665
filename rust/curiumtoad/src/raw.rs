//! The calls as numbers: what crosses to the library and back, and nothing more.
//!
//! Each function gives the number of its answer, 0 where nothing is refused, and writes all eight values; [`crate::Reply`] says
//! what they are. It is called as the function of [`crate`] that has its name, but for the values.
//!
//! Every function here is safe: the library's functions ask nothing of their callers, a slice crosses as the pointer and
//! the length of a reference that is live during the call, and the borrows keep the lent buffers apart. The pointer of an
//! empty slice is not null and is aligned; the library reads nothing through it.

use crate::Reply;

/// The eight values of a reply.
pub type Values = [u64; 8];

/// Declares functions of the library and makes each a safe one. A line has the buffers that the function is lent beside
/// the bundle, its numbers, the classes of a send, and a count of steps, as far as it has them.
macro_rules! calls {
    ($($name:ident = $symbol:ident
        [$($buffer:ident),*] ($($number:ident),*) $(($a0:ident, $a1:ident, $a2:ident))? $($count:ident)?;)*) => {
        mod library {
            extern "C" {
                pub fn curiumtoad_version() -> u32;
                $(pub fn $symbol(
                    bundle: *const u8,
                    _: usize,
                    $($buffer: *mut u8, _: usize,)*
                    $($number: u64,)*
                    $($a0: u64, $a1: u64, $a2: u64,)?
                    $($count: u32,)?
                    values: *mut u64,
                ) -> u8;)*
            }
        }

        $(#[doc = concat!("See [`crate::", stringify!($name), "`].")]
        pub fn $name(
            bundle: &[u8],
            $($buffer: &mut [u8],)*
            $($number: u64,)*
            $([$a0, $a1, $a2]: [u64; 3],)?
            $($count: u32,)?
            values: &mut Values,
        ) -> u8 {
            // SAFETY: see the module.
            unsafe {
                library::$symbol(
                    bundle.as_ptr(),
                    bundle.len(),
                    $($buffer.as_mut_ptr(), $buffer.len(),)*
                    $($number,)*
                    $($a0, $a1, $a2,)?
                    $($count,)?
                    values.as_mut_ptr(),
                )
            }
        })*
    };
}

calls! {
    open = curiumtoad_open [] ();
    ancestry = curiumtoad_ancestry [scratch] (a, b);
    lookup = curiumtoad_lookup [scratch] (function) (a0, a1, a2);
    rough = curiumtoad_rough [scratch] (function) (a0, a1, a2);
    send_type = curiumtoad_send_type [scratch, row] (function) (a0, a1, a2);
    check = curiumtoad_check [scratch] ();
    witness = curiumtoad_witness [scratch] (signature) (a0, a1, a2);
    body = curiumtoad_body [] (method);
    run = curiumtoad_run [scratch] (function) (a0, a1, a2) count;
    run_accepted = curiumtoad_run_accepted [scratch] (function) (a0, a1, a2) count;
    listing = curiumtoad_listing [text] ();
    chart = curiumtoad_chart [scratch, text] (function, line);
}

/// See [`crate::version`].
pub fn version() -> u32 {
    // SAFETY: it takes nothing and only gives a number.
    unsafe { library::curiumtoad_version() }
}

/// Makes a call on eight values and keeps what it gave.
pub(crate) fn reply(call: impl FnOnce(&mut Values) -> u8) -> Reply {
    let mut values = [0; 8];
    let number = call(&mut values);
    Reply { number, values }
}
