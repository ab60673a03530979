//! The proved library's service telegrams, through its C interface,
//! `include/rabtunex.h`.

use rabtunex_tests::reference::service_fields::Fields;

extern "C" {
    fn rabtunex_read_service(
        bytes: *const u8,
        bytes_len: usize,
        version: u8,
        fields: *mut Fields,
    ) -> u8;

    fn rabtunex_write_service(
        fields: *const Fields,
        version: u8,
        part: *const u8,
        part_len: usize,
        out: *mut u8,
        out_len: usize,
        stored: *mut usize,
    ) -> u8;
}

/// Reads the bytes as one service telegram into its fields; 0 or the refusal
/// number.
pub fn read_service(bytes: &[u8], version: u8, fields: &mut Fields) -> u8 {
    // SAFETY: both come from references, which an empty slice has too: neither
    // is null, each leads to its length, and they do not overlap.
    unsafe { rabtunex_read_service(bytes.as_ptr(), bytes.len(), version, fields) }
}

/// Writes the service telegram of the fields and the part to the front of
/// `out` and its length to `stored`; 0 or the refusal number.
pub fn write_service(
    fields: &Fields,
    version: u8,
    part: &[u8],
    out: &mut [u8],
    stored: &mut usize,
) -> u8 {
    let (lent, room) = (out.as_mut_ptr(), out.len());
    let (part, length) = (part.as_ptr(), part.len());
    // SAFETY: as above.
    unsafe { rabtunex_write_service(fields, version, part, length, lent, room, stored) }
}
