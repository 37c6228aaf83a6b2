//! The proved kernels, as the static library exports them. A row goes over as a pointer and a
//! length.

mod exported {
    unsafe extern "C" {
        pub fn clause_kernel_hits(a: *const u64, n: usize, b: *const u64, m: usize) -> bool;
        pub fn clause_kernel_met(a: *const u64, n: usize, b: *const u64, m: usize) -> bool;
        pub fn clause_kernel_within(a: *const u64, n: usize, b: *const u64, m: usize) -> bool;
        pub fn clause_kernel_same(a: *const u64, n: usize, b: *const u64, m: usize) -> bool;
        pub fn clause_kernel_or_into(a: *mut u64, n: usize, b: *const u64, m: usize);
        pub fn clause_kernel_and_into(a: *mut u64, n: usize, b: *const u64, m: usize);
        pub fn clause_kernel_take_out(a: *mut u64, n: usize, b: *const u64, m: usize);
    }
}

macro_rules! test {
    ($name:ident, $exported:ident) => {
        pub fn $name(a: &[u64], b: &[u64]) -> bool {
            assert_eq!(a.len(), b.len());
            // SAFETY: both rows are whole slices of one length, as the kernel requires.
            unsafe { exported::$exported(a.as_ptr(), a.len(), b.as_ptr(), b.len()) }
        }
    };
}

macro_rules! change {
    ($name:ident, $exported:ident) => {
        pub fn $name(a: &mut [u64], b: &[u64]) {
            assert_eq!(a.len(), b.len());
            // SAFETY: both rows are whole slices of one length, as the kernel requires.
            unsafe { exported::$exported(a.as_mut_ptr(), a.len(), b.as_ptr(), b.len()) }
        }
    };
}

test!(hits, clause_kernel_hits);
test!(met, clause_kernel_met);
test!(within, clause_kernel_within);
test!(same, clause_kernel_same);
change!(or_into, clause_kernel_or_into);
change!(and_into, clause_kernel_and_into);
change!(take_out, clause_kernel_take_out);
