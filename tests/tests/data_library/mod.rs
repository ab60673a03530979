//! The proved library's diagnoses and configurations, through its C interface,
//! `include/rabtunex.h`.

extern "C" {
    fn rabtunex_read_diagnosis(bytes: *const u8, bytes_len: usize, fields: *mut [usize; 6]) -> u8;

    fn rabtunex_next_block(
        bytes: *const u8,
        bytes_len: usize,
        position: *mut usize,
        block: *mut [usize; 6],
    ) -> u8;

    fn rabtunex_configuration_offsets(
        bytes: *const u8,
        bytes_len: usize,
        inputs: *mut u16,
        inputs_len: usize,
        outputs: *mut u16,
        outputs_len: usize,
        totals: *mut [usize; 3],
    ) -> u8;
}

/// Reads the bytes as one diagnosis into its fields; 0 or the refusal number.
pub fn read_diagnosis(bytes: &[u8], fields: &mut [usize; 6]) -> u8 {
    // SAFETY: both come from references, which an empty slice has too: neither
    // is null, each leads to its length, and they do not overlap.
    unsafe { rabtunex_read_diagnosis(bytes.as_ptr(), bytes.len(), fields) }
}

/// Reads the block at the position and moves the position behind it; 0 or
/// the refusal number.
pub fn next_block(bytes: &[u8], position: &mut usize, block: &mut [usize; 6]) -> u8 {
    // SAFETY: as above.
    unsafe { rabtunex_next_block(bytes.as_ptr(), bytes.len(), position, block) }
}

/// Reads the bytes as one configuration into its totals, and stores the
/// offsets of its modules in the lists; 0 or the refusal number.
pub fn configuration_offsets(
    bytes: &[u8],
    inputs: &mut [u16],
    outputs: &mut [u16],
    totals: &mut [usize; 3],
) -> u8 {
    // SAFETY: as above.
    unsafe {
        rabtunex_configuration_offsets(
            bytes.as_ptr(),
            bytes.len(),
            inputs.as_mut_ptr(),
            inputs.len(),
            outputs.as_mut_ptr(),
            outputs.len(),
            totals,
        )
    }
}
