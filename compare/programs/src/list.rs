//! The library's list calls by their C names: they have to be in `libhca.a` for what calls them to link.
use hca_frame as _;

include!("../../calls/list.rs");

list_calls!(hca_list_write, hca_list_read, hca_list_lookup, hca_list_summary);
