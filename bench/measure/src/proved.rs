//! The proved side, through its exports.

mod exports {
    unsafe extern "C" {
        pub fn preflight_read(text: *const u8, length: usize) -> u32;
        pub fn preflight_certify(text: *const u8, length: usize, times: u32) -> usize;
        pub fn preflight_steps(text: *const u8, length: usize, steps: u32) -> u32;
        pub fn preflight_dry(text: *const u8, length: usize, steps: u32) -> u32;
    }
}

// The exports read the text and keep nothing of it, and ask nothing else of their callers.

pub fn read(text: &[u8]) -> u32 {
    unsafe { exports::preflight_read(text.as_ptr(), text.len()) }
}

pub fn certify(text: &[u8], times: u32) -> usize {
    unsafe { exports::preflight_certify(text.as_ptr(), text.len(), times) }
}

pub fn steps(text: &[u8], steps: u32) -> u32 {
    unsafe { exports::preflight_steps(text.as_ptr(), text.len(), steps) }
}

pub fn dry(text: &[u8], steps: u32) -> u32 {
    unsafe { exports::preflight_dry(text.as_ptr(), text.len(), steps) }
}
