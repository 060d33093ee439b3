//! The library's header writer by its C name: it has to be in `libhca.a` for what calls it to link.
use hca_frame as _;

include!("../../calls/header.rs");

header_call!(hca_write_header);
