//! The two C functions of `bench_names`: all unsafe code of this crate.

extern "C" {
    fn bench_compare(a: *const u8, a_len: usize, b: *const u8, b_len: usize) -> u64;
    fn bench_compare_plain(a: *const u8, a_len: usize, b: *const u8, b_len: usize) -> u64;
}

/// One of the two, by its name in C.
pub struct Function {
    pub name: &'static str,
    /// Compares so many times, and sums the answers.
    pub repeated: fn(&[u8], &[u8], u64) -> u64,
}

/// The loop calls its function directly: through a pointer from one loop for both, a processor guessed one of the two calls better than the other, by a nanosecond a
/// call, and which one changed from run to run. Since the compiler cannot look into the function, no call is left out.
macro_rules! function {
    ($call:ident) => {{
        fn repeated(a: &[u8], b: &[u8], times: u64) -> u64 {
            // SAFETY: each pointer comes from a slice of the length that is passed, and the function is proved to read nothing else and to write nothing.
            let call = |_| unsafe { $call(a.as_ptr(), a.len(), b.as_ptr(), b.len()) };
            (0..times).map(call).sum()
        }
        Function {
            name: stringify!($call),
            repeated,
        }
    }};
}

pub static PLAIN: Function = function!(bench_compare_plain);
pub static NOW: Function = function!(bench_compare);
