//! Stand-in: type 0 (no encryption) is the identity table; nothing else is needed.
pub fn cipher_init(table: &mut [u8; 256], cipher_type: u32, _key: u64) {
    assert_eq!(cipher_type, 0, "only type 0 has a stand-in");
    for (i, b) in table.iter_mut().enumerate() {
        *b = i as u8;
    }
}
pub fn cipher_decrypt() {
    unimplemented!()
}
