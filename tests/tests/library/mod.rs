//! The proved library, called through its C interface, `include/rabtunex.h`.

use rabtunex_tests::reference::fields::Fields;

extern "C" {
    fn rabtunex_read_telegram(bytes: *const u8, bytes_len: usize, fields: *mut Fields) -> u8;

    fn rabtunex_write_telegram(
        fields: *const Fields,
        user: *const u8,
        user_len: usize,
        out: *mut u8,
        out_len: usize,
        stored: *mut usize,
    ) -> u8;
}

/// Reads the bytes as one telegram into its fields; 0 or the refusal number.
pub fn read_telegram(bytes: &[u8], fields: &mut Fields) -> u8 {
    // SAFETY: both come from references, which an empty slice has too: neither
    // is null, each leads to its length of bytes, and they do not overlap.
    unsafe { rabtunex_read_telegram(bytes.as_ptr(), bytes.len(), fields) }
}

/// Writes the telegram of the fields and user data to the front of `out` and
/// its length to `stored`; 0 or the refusal number.
pub fn write_telegram(fields: &Fields, user: &[u8], out: &mut [u8], stored: &mut usize) -> u8 {
    // SAFETY: all come from references, which an empty slice has too: none is
    // null, each leads to its length of bytes, and those written to overlap
    // nothing.
    unsafe {
        rabtunex_write_telegram(
            fields,
            user.as_ptr(),
            user.len(),
            out.as_mut_ptr(),
            out.len(),
            stored,
        )
    }
}
