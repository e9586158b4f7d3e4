//! A limit for tests that could wait for ever.

extern "C" {
    fn alarm(seconds: u32) -> u32;
}

/// The process ends where its tests have not ended so long after the last of them began. By then the harness has named who has not.
pub fn limit() {
    unsafe { alarm(90) };
}
