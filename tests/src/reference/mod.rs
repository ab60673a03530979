//! The independent program, one module for each part of document 01.

pub mod acyclic;
mod acyclic_text;
pub mod book;
pub mod configuration;
pub mod control;
pub mod controller;
pub mod diagnosis;
pub mod download;
pub mod download_text;
pub mod dpv1_fields;
pub mod fields;
pub mod parameters;
pub mod printer;
pub mod service;
pub mod service_fields;
pub mod service_telegram_text;
pub mod service_text;
pub mod show_text;
pub mod simulate_text;
pub mod telegram;
pub mod text;
pub mod typed;
pub mod writer_text;

#[cfg(test)]
mod expect;
#[cfg(test)]
mod sentences;

/// The longest data of a service, and the most inputs or outputs of a slave.
const LONGEST_DATA: usize = 244;

/// The refusal numbers of document 01.
pub mod refusal {
    /// The bytes end early.
    pub const SHORT: u8 = 1;
    /// The first byte is no start byte.
    pub const START: u8 = 2;
    /// LE is not 4..249, LE and LEr are unequal, or the second SD2 is wrong.
    pub const LENGTH: u8 = 3;
    /// Bytes follow the telegram or the book.
    pub const TRAILING: u8 = 4;
    /// The end byte is not 16 hex.
    pub const END: u8 = 5;
    /// The checksum is wrong.
    pub const CHECKSUM: u8 = 6;
    /// An address is out of range.
    pub const ADDRESS: u8 = 7;
    /// The function code is reserved.
    pub const FUNCTION: u8 = 8;
    /// An address extension is missing or above 63.
    pub const EXTENSION: u8 = 9;
    /// The telegram carries no service: its SAP pair is not in the table, one SAP of
    /// two is missing, or it goes the wrong way.
    pub const SERVICE: u8 = 10;
    /// The lent output is too small.
    pub const OUTPUT: u8 = 11;
    /// A field of the caller's telegram, the position of a walk, what a case of a
    /// typed value holds, a setting or a state is out of range.
    pub const FIELD: u8 = 12;
    /// The length of a service's data is wrong.
    pub const DATA_LENGTH: u8 = 20;
    /// A fixed bit or a ranged byte is wrong, or a field does not fit its bits.
    pub const BITS: u8 = 21;
    /// The Ext_Diag bit and the blocks disagree.
    pub const EXT_DIAG: u8 = 22;
    /// The header of a diagnosis block is reserved or has a length below 2.
    pub const BLOCK_HEADER: u8 = 23;
    /// A diagnosis block or a module runs past the data.
    pub const PAST_END: u8 = 24;
    /// A code of a channel block is reserved.
    pub const CHANNEL_CODE: u8 = 25;
    /// The vendor count of a module is 15.
    pub const VENDOR_COUNT: u8 = 26;
    /// A configuration has more than 244 input or 244 output bytes.
    pub const PROCESS_DATA: u8 = 27;
    /// A function number or an error code of DPV1 is reserved.
    pub const ACYCLIC_CODE: u8 = 28;
    /// The code of a typed value is not 1..8, or its Boolean is not 00 or FF.
    pub const TYPED_VALUE: u8 = 29;
    /// The table of a template book is wrong.
    pub const BOOK_TABLE: u8 = 32;
}

/// Stores the parts one after the other at the front of `out` and answers their
/// length together; when they do not fit, nothing is stored.
fn store<const N: usize>(parts: [&[u8]; N], out: &mut [u8]) -> Result<usize, u8> {
    let total = parts.iter().map(|part| part.len()).sum();
    let mut rest = out.get_mut(..total).ok_or(refusal::OUTPUT)?;
    for part in parts {
        let (front, back) = rest.split_at_mut(part.len());
        front.copy_from_slice(part);
        rest = back;
    }
    Ok(total)
}
