//! Stand-in, never called.
pub fn imdct_transform() {
    unimplemented!()
}
