//! The whole download of the proved library, through its C interface,
//! `include/rabtunex.h`.

use crate::controller_side::{settings_of, Standing};
use crate::printer_side::{Bodies, Lengths, State, Station};
use rabtunex_tests::reference::download::Plan;

extern "C" {
    fn rabtunex_download(
        settings: *const [u8; 4],
        book: *const u8,
        book_len: usize,
        line: *const u8,
        line_len: usize,
        not_yet: *const u8,
        not_yet_len: usize,
        diagnosis: *const u8,
        diagnosis_len: usize,
        state: *mut State,
        lengths: *mut Lengths,
        bodies: *mut Bodies,
        reply: *mut u8,
        reply_len: usize,
        request: *mut u8,
        request_len: usize,
        ending: *mut Standing,
        sendings: *mut usize,
    ) -> u8;
}

/// The library's download: 0, how it ended and after how many sendings, or the
/// refusal number.
#[allow(unsafe_code)]
pub fn run(
    plan: &Plan<'_>,
    station: &mut Station,
    request: &mut [u8],
    standing: &mut Standing,
    sendings: &mut usize,
) -> u8 {
    let (state, lengths, bodies, reply) = station.lent();
    // SAFETY: all come from references, which an empty slice has too: none is
    // null, each leads to its length, and those written to overlap nothing.
    unsafe {
        rabtunex_download(
            &settings_of(&plan.settings),
            plan.book.as_ptr(),
            plan.book.len(),
            plan.line.as_ptr(),
            plan.line.len(),
            plan.not_yet.as_ptr(),
            plan.not_yet.len(),
            plan.diagnosis.as_ptr(),
            plan.diagnosis.len(),
            state,
            lengths,
            bodies,
            reply.as_mut_ptr(),
            reply.len(),
            request.as_mut_ptr(),
            request.len(),
            standing,
            sendings,
        )
    }
}
