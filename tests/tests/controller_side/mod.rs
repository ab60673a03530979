//! The controller's end of the line through the C interface
//! (`include/rabtunex.h`): settings as bytes, and the library's step.

use rabtunex_tests::reference::controller::Settings;

/// The bytes of a state.
pub type State = [u8; 5];
/// How a download stands, in bytes.
pub type Standing = [u8; 4];

/// It has not ended.
pub const GOES_ON: Standing = [0; 4];

/// The bytes of the settings.
pub fn settings_of(settings: &Settings) -> [u8; 4] {
    let Settings {
        repeats,
        polls,
        printer,
        controller,
    } = *settings;
    [printer, controller, repeats, polls]
}

extern "C" {
    fn rabtunex_controller_step(
        settings: *const [u8; 4],
        book: *const u8,
        book_len: usize,
        state: *mut State,
        reply: *const u8,
        reply_len: usize,
        request: *mut u8,
        request_len: usize,
        stored: *mut usize,
        ending: *mut Standing,
    ) -> u8;
}

/// The library's step: 0 and how the download stands, or the refusal number.
#[allow(unsafe_code)]
pub fn step(
    settings: &Settings,
    book: &[u8],
    state: &mut State,
    reply: &[u8],
    request: &mut [u8],
    stored: &mut usize,
    standing: &mut Standing,
) -> u8 {
    // SAFETY: all come from references, which an empty slice has too: none is
    // null, each leads to its length, and those written to overlap nothing.
    unsafe {
        rabtunex_controller_step(
            &settings_of(settings),
            book.as_ptr(),
            book.len(),
            state,
            reply.as_ptr(),
            reply.len(),
            request.as_mut_ptr(),
            request.len(),
            stored,
            standing,
        )
    }
}
