//! A thin safe wrapper over the proved static library. Nothing checks these declarations against the Rattle source; the differential tests do.

mod raw {
    extern "C" {
        pub fn rack_judge(image: *const u8, image_len: usize, out: *mut u8, out_len: usize) -> u64;
        pub fn rack_rewrite(image: *const u8, image_len: usize, buf: *mut u8, buf_len: usize) -> u64;
        pub fn rack_import(list: *const u8, list_len: usize, buf: *mut u8, buf_len: usize) -> u64;
        pub fn rack_export(image: *const u8, image_len: usize, list: *mut u8, list_len: usize) -> u64;
        pub fn rack_play(image: *const u8, image_len: usize, script: *const u8, script_len: usize, out: *mut u8, out_len: usize) -> u64;
    }
}

/// Loads and judges an image; see include/rack.h for the bytes of `out`.
pub fn judge(image: &[u8], out: &mut [u8]) -> u64 {
    // SAFETY: the pointers and lengths are those of live slices, and `out` is lent uniquely.
    unsafe { raw::rack_judge(image.as_ptr(), image.len(), out.as_mut_ptr(), out.len()) }
}

/// Loads an image and writes its table to a buffer.
pub fn rewrite(image: &[u8], buffer: &mut [u8]) -> u64 {
    // SAFETY: as above.
    unsafe { raw::rack_rewrite(image.as_ptr(), image.len(), buffer.as_mut_ptr(), buffer.len()) }
}

/// Reads a Linux list and writes its table to a buffer as an image.
pub fn import(list: &[u8], buffer: &mut [u8]) -> u64 {
    // SAFETY: as above.
    unsafe { raw::rack_import(list.as_ptr(), list.len(), buffer.as_mut_ptr(), buffer.len()) }
}

/// Loads an image and writes its table as a Linux list.
pub fn export(image: &[u8], list: &mut [u8]) -> u64 {
    // SAFETY: as above.
    unsafe { raw::rack_export(image.as_ptr(), image.len(), list.as_mut_ptr(), list.len()) }
}

/// Loads an image and plays a script of calls.
pub fn play(image: &[u8], script: &[u8], out: &mut [u8]) -> u64 {
    // SAFETY: as above.
    unsafe { raw::rack_play(image.as_ptr(), image.len(), script.as_ptr(), script.len(), out.as_mut_ptr(), out.len()) }
}
