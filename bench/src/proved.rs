//! The proved library, called as a C or Rust customer calls it: through its archive.

/// A request as the face has it.
#[derive(Clone, Copy, Debug)]
pub struct Raw {
    pub device: u64,
    pub process: u64,
    pub flags: u64,
    pub access: u64,
    pub address: u64,
    pub length: u64,
    pub value: u32,
}

/// The functions of an archive over two windows, by their names in it; the take of many where it has one.
macro_rules! two_windows {
    ($module:ident, $request:literal, $take:literal $(, $take_many:literal)?) => {
        pub mod $module {
            use super::Raw;
            use crate::call::{Memory, Numbers, Settings};

            extern "C" {
                #[link_name = $request]
                fn archive_request(
                    first_start: u64,
                    first: *mut u8,
                    first_len: usize,
                    second_start: u64,
                    second: *mut u8,
                    second_len: usize,
                    mode: u64,
                    root: u64,
                    device: u64,
                    process: u64,
                    flags: u64,
                    access: u64,
                    address: u64,
                    length: u64,
                    value: u32,
                    out: *mut u64,
                    out_len: usize,
                ) -> u64;

                #[link_name = $take]
                fn archive_take(
                    first_start: u64,
                    first: *mut u8,
                    first_len: usize,
                    second_start: u64,
                    second: *mut u8,
                    second_len: usize,
                    file: u64,
                    identity: u64,
                    out: *mut u64,
                    out_len: usize,
                ) -> u64;
            }

            #[inline]
            pub fn request(memory: &mut Memory, settings: &Settings, raw: &Raw) -> Numbers {
                let Memory { first, second } = memory;
                let mut out = [0; 5];
                // Sound: the buffers are lent whole, with their lengths, and the borrows keep them apart.
                unsafe {
                    archive_request(
                        first.start,
                        first.bytes.as_mut_ptr(),
                        first.bytes.len(),
                        second.start,
                        second.bytes.as_mut_ptr(),
                        second.bytes.len(),
                        settings.mode,
                        settings.root,
                        raw.device,
                        raw.process,
                        raw.flags,
                        raw.access,
                        raw.address,
                        raw.length,
                        raw.value,
                        out.as_mut_ptr(),
                        out.len(),
                    );
                }
                out
            }

            #[inline]
            pub fn take(memory: &mut Memory, file: u64, identity: u64) -> Numbers {
                let Memory { first, second } = memory;
                let mut out = [0; 5];
                // Sound: as above.
                unsafe {
                    archive_take(
                        first.start,
                        first.bytes.as_mut_ptr(),
                        first.bytes.len(),
                        second.start,
                        second.bytes.as_mut_ptr(),
                        second.bytes.len(),
                        file,
                        identity,
                        out.as_mut_ptr(),
                        out.len(),
                    );
                }
                out
            }

            $(
                #[inline]
                pub fn take_many(
                    memory: &mut Memory,
                    file: u64,
                    doubleword: u64,
                    mask: u64,
                ) -> Numbers {
                    extern "C" {
                        #[link_name = $take_many]
                        fn archive_take_many(
                            first_start: u64,
                            first: *mut u8,
                            first_len: usize,
                            second_start: u64,
                            second: *mut u8,
                            second_len: usize,
                            file: u64,
                            doubleword: u64,
                            mask: u64,
                            out: *mut u64,
                            out_len: usize,
                        ) -> u64;
                    }

                    let Memory { first, second } = memory;
                    let mut out = [0; 5];
                    // Sound: as above.
                    unsafe {
                        archive_take_many(
                            first.start,
                            first.bytes.as_mut_ptr(),
                            first.bytes.len(),
                            second.start,
                            second.bytes.as_mut_ptr(),
                            second.bytes.len(),
                            file,
                            doubleword,
                            mask,
                            out.as_mut_ptr(),
                            out.len(),
                        );
                    }
                    out
                }
            )?
        }
    };
}

/// The functions of an archive from before there were two windows: over the first, the second not given.
#[cfg(before_windows = "one")]
macro_rules! one_window {
    ($module:ident, $request:literal, $take:literal) => {
        pub mod $module {
            use super::Raw;
            use crate::call::{Memory, Numbers, Settings};

            extern "C" {
                #[link_name = $request]
                fn archive_request(
                    start: u64,
                    window: *mut u8,
                    window_len: usize,
                    mode: u64,
                    root: u64,
                    device: u64,
                    process: u64,
                    flags: u64,
                    access: u64,
                    address: u64,
                    length: u64,
                    value: u32,
                    out: *mut u64,
                    out_len: usize,
                ) -> u64;

                #[link_name = $take]
                fn archive_take(
                    start: u64,
                    window: *mut u8,
                    window_len: usize,
                    file: u64,
                    identity: u64,
                    out: *mut u64,
                    out_len: usize,
                ) -> u64;
            }

            #[inline]
            pub fn request(memory: &mut Memory, settings: &Settings, raw: &Raw) -> Numbers {
                let window = &mut memory.first;
                let mut out = [0; 5];
                // Sound: both buffers are lent whole, with their lengths, and the borrows keep them apart.
                unsafe {
                    archive_request(
                        window.start,
                        window.bytes.as_mut_ptr(),
                        window.bytes.len(),
                        settings.mode,
                        settings.root,
                        raw.device,
                        raw.process,
                        raw.flags,
                        raw.access,
                        raw.address,
                        raw.length,
                        raw.value,
                        out.as_mut_ptr(),
                        out.len(),
                    );
                }
                out
            }

            #[inline]
            pub fn take(memory: &mut Memory, file: u64, identity: u64) -> Numbers {
                let window = &mut memory.first;
                let mut out = [0; 5];
                // Sound: as above.
                unsafe {
                    archive_take(
                        window.start,
                        window.bytes.as_mut_ptr(),
                        window.bytes.len(),
                        file,
                        identity,
                        out.as_mut_ptr(),
                        out.len(),
                    );
                }
                out
            }
        }
    };
}

two_windows!(
    now,
    "yasmurekh_request",
    "yasmurekh_take",
    "yasmurekh_take_many"
);
#[cfg(all(before_windows = "two", not(before_take_many)))]
two_windows!(before, "before_yasmurekh_request", "before_yasmurekh_take");
#[cfg(before_take_many)]
two_windows!(
    before,
    "before_yasmurekh_request",
    "before_yasmurekh_take",
    "before_yasmurekh_take_many"
);
#[cfg(before_windows = "one")]
one_window!(before, "before_yasmurekh_request", "before_yasmurekh_take");
