//! The C function of the library's version.

mod c {
    extern "C" {
        pub fn hca_version() -> u32;
    }
}

/// 10,000 x major + 100 x minor + patch.
pub fn version() -> u32 {
    // SAFETY: it takes nothing and touches no memory.
    unsafe { c::hca_version() }
}
