//! Stand-in, never called.
pub fn ath_init() {
    unimplemented!()
}
