//! A telegram's fields as the eight bytes of the C interface
//! (`include/rabtunex.h`).

use super::telegram::{Format, Telegram};

/// The bytes, at the places below.
pub type Fields = [u8; 8];

/// Which telegram: `SC`..=`SD3`.
pub const KIND: usize = 0;
/// Destination, the low seven bits.
pub const DA: usize = 1;
/// Source, the low seven bits.
pub const SA: usize = 2;
/// Function code.
pub const FC: usize = 3;
/// Destination SAP or `NO_SAP`.
pub const DSAP: usize = 4;
/// Source SAP or `NO_SAP`.
pub const SSAP: usize = 5;
/// Where the user data stands in the telegram's bytes.
pub const START: usize = 6;
/// How many bytes of user data there are.
pub const LEN: usize = 7;

/// The kind of a short confirmation.
pub const SC: u8 = 0;
/// The kind of a token.
pub const TOKEN: u8 = 1;
/// The kind of an SD1.
pub const SD1: u8 = 2;
/// The kind of an SD2.
pub const SD2: u8 = 3;
/// The kind of an SD3.
pub const SD3: u8 = 4;

/// Stands for an absent SAP; no SAP is above 63.
pub const NO_SAP: u8 = 255;

/// The fields of a telegram. Of a length that no telegram has, and that its
/// place cannot hold, only the low byte is kept.
pub fn of(telegram: &Telegram<'_>) -> Fields {
    let start = telegram.user_start() as u8;
    match *telegram {
        Telegram::ShortConfirmation => [SC, 0, 0, 0, NO_SAP, NO_SAP, start, 0],
        Telegram::Token { da, sa } => [TOKEN, da, sa, 0, NO_SAP, NO_SAP, start, 0],
        Telegram::Frame {
            format,
            da,
            sa,
            fc,
            dsap,
            ssap,
            user,
        } => {
            let kind = match format {
                Format::Sd1 => SD1,
                Format::Sd2 => SD2,
                Format::Sd3 => SD3,
            };
            let dsap = dsap.unwrap_or(NO_SAP);
            let ssap = ssap.unwrap_or(NO_SAP);
            [kind, da, sa, fc, dsap, ssap, start, user.len() as u8]
        }
    }
}

/// The telegram to write for fields and user data, right or wrong; none when the
/// kind is unknown, or takes no user data and is given some.
pub fn telegram<'a>(fields: &Fields, user: &'a [u8]) -> Option<Telegram<'a>> {
    let [kind, da, sa, fc, dsap, ssap, _, _] = *fields;
    let format = match kind {
        SC if user.is_empty() => return Some(Telegram::ShortConfirmation),
        TOKEN if user.is_empty() => return Some(Telegram::Token { da, sa }),
        SD1 => Format::Sd1,
        SD2 => Format::Sd2,
        SD3 => Format::Sd3,
        _ => return None,
    };
    Some(Telegram::Frame {
        format,
        da,
        sa,
        fc,
        dsap: (dsap != NO_SAP).then_some(dsap),
        ssap: (ssap != NO_SAP).then_some(ssap),
        user,
    })
}

#[cfg(test)]
mod tests {
    use super::*;
    use crate::random::Random;
    use crate::reference::telegram::read;
    use crate::samples;

    #[test]
    fn fields_that_were_read_give_the_telegram_back() {
        for bytes in samples::all_forms(&mut Random::new(1)) {
            let read = read(&bytes).expect("valid");
            let fields = of(&read);
            let user = &bytes[usize::from(fields[START])..][..usize::from(fields[LEN])];
            assert_eq!(telegram(&fields, user), Some(read));
        }
    }

    #[test]
    fn what_the_kind_does_not_have_is_not_looked_at() {
        let token = Telegram::Token { da: 7, sa: 2 };
        assert_eq!(telegram(&[TOKEN, 7, 2, 9, 9, 9, 9, 9], &[]), Some(token));
        let short = Telegram::ShortConfirmation;
        assert_eq!(telegram(&[SC, 9, 9, 9, 9, 9, 9, 9], &[]), Some(short));
    }

    #[test]
    fn unknown_kinds_and_user_data_out_of_place_are_none() {
        for kind in [SC, TOKEN, SD3 + 1, 255] {
            assert_eq!(telegram(&[kind, 7, 2, 0x49, 1, 1, 0, 0], &[1]), None);
        }
        assert_eq!(telegram(&[SD3 + 1, 7, 2, 0x49, 1, 1, 0, 0], &[]), None);
    }
}
