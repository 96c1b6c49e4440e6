//! Two-word arithmetic over C, for the judge alone: the library proper has no such functions.

extern "C" {
    fn door_widening_mul(a: u64, b: u64, out: *mut u64) -> u32;
    fn door_mul(x_lo: u64, x_hi: u64, y_lo: u64, y_hi: u64, out: *mut u64) -> u32;
    fn door_add(x_lo: u64, x_hi: u64, y_lo: u64, y_hi: u64, out: *mut u64) -> u32;
    fn door_sub(x_lo: u64, x_hi: u64, y_lo: u64, y_hi: u64, out: *mut u64) -> u32;
    fn door_compare(x_lo: u64, x_hi: u64, y_lo: u64, y_hi: u64, out: *mut u64) -> u32;
    fn door_shl(x_lo: u64, x_hi: u64, n: u32, out: *mut u64) -> u32;
    fn door_shr(x_lo: u64, x_hi: u64, n: u32, out: *mut u64) -> u32;
    fn door_div(n_lo: u64, n_hi: u64, d_lo: u64, d_hi: u64, out: *mut u64) -> u32;
}

macro_rules! thin {
    ($($name:ident = $c:ident($($arg:ident: $ty:ty),*);)*) => {$(
        #[doc = concat!("`", stringify!($c), "`: 0, or the refusal's number and untouched words.")]
        #[inline]
        pub fn $name($($arg: $ty,)* out: &mut [u64; 4]) -> u32 {
            // SAFETY: the pointer is to four words that nobody else holds.
            unsafe { $c($($arg,)* out.as_mut_ptr()) }
        }
    )*};
}

thin! {
    widening_mul = door_widening_mul(a: u64, b: u64);
    mul = door_mul(x_lo: u64, x_hi: u64, y_lo: u64, y_hi: u64);
    add = door_add(x_lo: u64, x_hi: u64, y_lo: u64, y_hi: u64);
    sub = door_sub(x_lo: u64, x_hi: u64, y_lo: u64, y_hi: u64);
    compare = door_compare(x_lo: u64, x_hi: u64, y_lo: u64, y_hi: u64);
    shl = door_shl(x_lo: u64, x_hi: u64, n: u32);
    shr = door_shr(x_lo: u64, x_hi: u64, n: u32);
    div = door_div(n_lo: u64, n_hi: u64, d_lo: u64, d_hi: u64);
}
