//! A service telegram's fields as the bytes of the C interface
//! (`include/rabtunex.h`).

use super::diagnosis::Header;
use super::dpv1_fields;
use super::fields::{SD1, SD2, SD3};
use super::parameters::{BitTimes, Mode};
use super::refusal;
use super::service::{self, Content, ParameterFields, Service, ServiceTelegram, Way};
use super::telegram::Format;

/// The bytes, at the places below.
pub type Fields = [u8; COUNT];

/// How many there are.
pub const COUNT: usize = OWN + OWN_COUNT;

/// Which service: 0 or the slave's SAP.
pub const SERVICE: usize = 0;
/// Call or answer, which must be what the function code says.
pub const WAY: usize = 1;
/// Which telegram: `SD1`, `SD2` or `SD3`.
pub const KIND: usize = 2;
/// Destination, the low seven bits.
pub const DA: usize = 3;
/// Source, the low seven bits.
pub const SA: usize = 4;
/// Function code, which says the way.
pub const FC: usize = 5;
/// Where the part stands in the telegram, which writing does not look at.
pub const PART_START: usize = 6;
/// How many bytes the part has, which writing does not look at.
pub const PART_LENGTH: usize = 7;
/// The service's own fields from here on: its fixed bytes, the rest 0.
pub const OWN: usize = 8;
/// How many own fields there are at most.
const OWN_COUNT: usize = 10;

/// The services by their numbers.
const SERVICES: [(u8, Service); 11] = [
    (0, Service::DataExchange),
    (51, Service::Dpv1),
    (53, Service::ExtUserPrm),
    (55, Service::SetSlaveAdr),
    (56, Service::RdInp),
    (57, Service::RdOutp),
    (58, Service::GlobalControl),
    (59, Service::GetCfg),
    (60, Service::SlaveDiag),
    (61, Service::SetPrm),
    (62, Service::ChkCfg),
];
/// The number of the one service that has no SAPs.
const NO_SAPS: u8 = 0;
/// The highest number that a SAP, and so a service, can have.
const LAST_NUMBER: u8 = 63;

/// The header promises that so much room is never too small.
pub const LONGEST_TELEGRAM: usize = 255;

/// The version's mode, if it is known.
pub fn mode_of(version: u8) -> Option<Mode> {
    match version {
        0 => Some(Mode::Dpv0),
        1 => Some(Mode::Dpv1),
        _ => None,
    }
}

/// The number of the mode.
pub fn version_of(mode: Mode) -> u8 {
    match mode {
        Mode::Dpv0 => 0,
        Mode::Dpv1 => 1,
    }
}

/// The way that the number names, if it is known.
fn way_of(number: u8) -> Option<Way> {
    match number {
        0 => Some(Way::Call),
        1 => Some(Way::Answer),
        _ => None,
    }
}

/// The number of the way.
pub fn number_of(way: Way) -> u8 {
    match way {
        Way::Call => 0,
        Way::Answer => 1,
    }
}

/// The format that the kind names, if a service can have it.
fn format_of(kind: u8) -> Option<Format> {
    match kind {
        SD1 => Some(Format::Sd1),
        SD2 => Some(Format::Sd2),
        SD3 => Some(Format::Sd3),
        _ => None,
    }
}

/// The fields of a service telegram whose part stands there. Of a length that no
/// telegram has, and that its place cannot hold, only the low byte is kept.
pub fn of(telegram: &ServiceTelegram<'_>, part_start: usize) -> Fields {
    let service = telegram.content.service();
    let mut services = SERVICES.into_iter();
    let number = services.find(|(_, known)| *known == service);
    let (number, _) = number.expect("every service has a number");
    let way = number_of(telegram.way());
    let kind = match telegram.format {
        Format::Sd1 => SD1,
        Format::Sd2 => SD2,
        Format::Sd3 => SD3,
    };
    let own = own_of(&telegram.content);
    let mut fields = [0; COUNT];
    let (start, length) = (part_start as u8, telegram.part.len() as u8);
    let [da, sa, fc] = [telegram.da, telegram.sa, telegram.fc];
    fields[..OWN].copy_from_slice(&[number, way, kind, da, sa, fc, start, length]);
    fields[OWN..][..own.len()].copy_from_slice(&own);
    fields
}

/// The fixed bytes of the content.
fn own_of(content: &Content) -> Vec<u8> {
    match *content {
        Content::DataExchange
        | Content::ExtUserPrm
        | Content::RdInp
        | Content::RdOutp
        | Content::GetCfg
        | Content::SlaveDiagCall
        | Content::ChkCfg => Vec::new(),
        Content::Dpv1Call(call) => dpv1_fields::of_call(&call).to_vec(),
        Content::Dpv1Answer(answer) => dpv1_fields::of_answer(&answer).to_vec(),
        Content::SetSlaveAdr {
            address,
            ident,
            locked,
        } => {
            let [high, low] = ident.to_be_bytes();
            vec![address, high, low, locked]
        }
        Content::GlobalControl { command, groups } => vec![command, groups],
        Content::SlaveDiag(header) => header.to_bytes().to_vec(),
        Content::SetPrm(fields) => {
            let [high, low] = fields.ident.to_be_bytes();
            let [factor1, factor2] = [fields.factor1, fields.factor2];
            let response = fields.response.0;
            let head = [
                fields.flags,
                factor1,
                factor2,
                response,
                high,
                low,
                fields.groups,
            ];
            [&head, fields.status.as_slice().as_flattened()].concat()
        }
    }
}

/// What writing the fields and the part comes to, by the reference.
pub fn write(fields: &Fields, version: u8, part: &[u8], out: &mut [u8]) -> Result<usize, u8> {
    let [number, way, kind, da, sa, fc, _, _, own @ ..] = *fields;
    let mode = mode_of(version).ok_or(refusal::FIELD)?;
    let format = format_of(kind).ok_or(refusal::FIELD)?;
    let way = way_of(way).ok_or(refusal::FIELD)?;
    if number > LAST_NUMBER {
        return Err(refusal::FIELD);
    }
    // What the content is goes by the function code, whatever the way says.
    let coded_way = Way::by(fc);
    let service = service_of(number);
    let content = service.map(|service| content_of(service, coded_way, own, mode));
    let fixed_length = match content {
        Some(Some(content)) => content.length(),
        // DPV1 with a number that is judged only later.
        Some(None) => service::ACYCLIC_LENGTH,
        None => 0,
    };
    let saps_length = match number {
        NO_SAPS => 0,
        _ => service::SAPS_LENGTH,
    };
    let pdu_length = saps_length + fixed_length + part.len();
    service::judge_fields(format, [da, sa, fc], pdu_length)?;
    if way != coded_way || !service.is_some_and(|service| service.goes_by(fc)) {
        return Err(refusal::SERVICE);
    }
    let telegram = ServiceTelegram {
        format,
        da,
        sa,
        fc,
        content: content.flatten().ok_or(refusal::ACYCLIC_CODE)?,
        part,
    };
    service::write(&telegram, out)
}

fn service_of(number: u8) -> Option<Service> {
    let mut services = SERVICES.into_iter();
    let (_, service) = services.find(|(known, _)| *known == number)?;
    Some(service)
}

/// The content to write, right or wrong; none when the way does not have the
/// number of DPV1.
fn content_of(service: Service, way: Way, own: [u8; OWN_COUNT], mode: Mode) -> Option<Content> {
    let [a, b, c, d, e, f, ..] = own;
    Some(match (service, way) {
        (Service::DataExchange, _) => Content::DataExchange,
        (Service::Dpv1, Way::Call) => Content::Dpv1Call(dpv1_fields::call_of([a, b, c, d])?),
        (Service::Dpv1, Way::Answer) => Content::Dpv1Answer(dpv1_fields::answer_of([a, b, c, d])?),
        (Service::ExtUserPrm, _) => Content::ExtUserPrm,
        (Service::SetSlaveAdr, _) => Content::SetSlaveAdr {
            address: a,
            ident: u16::from_be_bytes([b, c]),
            locked: d,
        },
        (Service::RdInp, _) => Content::RdInp,
        (Service::RdOutp, _) => Content::RdOutp,
        (Service::GlobalControl, _) => Content::GlobalControl {
            command: a,
            groups: b,
        },
        (Service::GetCfg, _) => Content::GetCfg,
        (Service::SlaveDiag, Way::Call) => Content::SlaveDiagCall,
        (Service::SlaveDiag, Way::Answer) => {
            Content::SlaveDiag(Header::from_bytes([a, b, c, d, e, f]))
        }
        (Service::SetPrm, _) => Content::SetPrm(parameters_of(own, mode)),
        (Service::ChkCfg, _) => Content::ChkCfg,
    })
}

fn parameters_of(own: [u8; OWN_COUNT], mode: Mode) -> ParameterFields {
    let [flags, factor1, factor2, response, high, low, groups, status @ ..] = own;
    ParameterFields {
        flags,
        factor1,
        factor2,
        response: BitTimes(response),
        ident: u16::from_be_bytes([high, low]),
        groups,
        status: (mode == Mode::Dpv1).then_some(status),
    }
}

/// How many of the service's own fields are looked at in writing; of an unknown
/// service or version none is.
pub fn looked_at(fields: &Fields, version: u8) -> usize {
    let (Some(service), Some(mode)) = (service_of(fields[SERVICE]), mode_of(version)) else {
        return 0;
    };
    match (service, Way::by(fields[FC])) {
        (Service::Dpv1, Way::Call) => dpv1_fields::looked_at_in_call(fields[OWN]),
        (Service::Dpv1, Way::Answer) => dpv1_fields::looked_at_in_answer(fields[OWN]),
        (Service::SetSlaveAdr, _) => 4,
        (Service::GlobalControl, _) => 2,
        (Service::SlaveDiag, Way::Answer) => 6,
        (Service::SetPrm, _) if mode == Mode::Dpv0 => 7,
        (Service::SetPrm, _) => 10,
        _ => 0,
    }
}

#[cfg(test)]
mod tests {
    use super::*;
    use crate::random::Random;
    use crate::reference::expect;
    use crate::samples::parameters::MODES;
    use crate::samples::service_fields::{self as sample, Case};
    use crate::samples::service_telegrams;

    /// The fields of a right Set_Slave_Adr, of the answer to Slave_Diag and of the
    /// call for it.
    const ADDRESS: Fields = [
        55, 0, SD2, 7, 2, 0x5D, 0, 0, 125, 0x12, 0x34, 1, 0, 0, 0, 0, 0, 0,
    ];
    const DIAGNOSIS: Fields = [
        60, 1, SD2, 2, 7, 0x08, 0, 0, 8, 0x0C, 0, 2, 0x12, 0x34, 0, 0, 0, 0,
    ];
    const DIAGNOSIS_CALL: Fields = [60, 0, SD2, 7, 2, 0x6D, 0, 0, 0, 0, 0, 0, 0, 0, 0, 0, 0, 0];

    fn with(mut fields: Fields, changes: &[(usize, u8)]) -> Fields {
        for (place, byte) in changes {
            fields[*place] = *byte;
        }
        fields
    }

    fn expect_refused(number: u8, fields: &Fields, version: u8, part: &[u8]) {
        expect::refused(number, |out| write(fields, version, part, out));
    }

    #[test]
    fn fields_that_were_read_give_the_telegram_back() {
        let random = &mut Random::new(1);
        for mode in MODES {
            for bytes in service_telegrams::all_forms(random, mode) {
                let telegram = service::read(&bytes, mode).expect("valid");
                let start = bytes.len() - 2 - telegram.part.len();
                let fields = of(&telegram, start);
                let version = version_of(mode);
                let place = usize::from(fields[PART_START])..;
                let part = &bytes[place][..usize::from(fields[PART_LENGTH])];
                assert_eq!(part, telegram.part);
                expect::written(&bytes, |out| write(&fields, version, part, out));
                // The other way is not the code's.
                let turned = with(fields, &[(WAY, 1 - fields[WAY])]);
                expect_refused(10, &turned, version, part);
            }
        }
    }

    /// Each comes to what was worked out by hand, and 11 only where the room is
    /// too little.
    fn expect_worked_out(cases: Vec<Case>) {
        for case in cases {
            let mut out = [0xAA; LONGEST_TELEGRAM];
            let out = &mut out[..case.room];
            let written = write(&case.fields, case.version, case.part, out);
            assert_eq!(written.err(), case.refusal, "{case:?}");
            let stored = written.unwrap_or(0);
            assert!(out[stored..].iter().all(|byte| *byte == 0xAA), "{case:?}");
        }
    }

    #[test]
    fn the_way_is_the_function_codes() {
        expect_worked_out(sample::every_way());
    }

    #[test]
    fn unlisted_services_have_two_saps_and_no_fixed_bytes() {
        expect_worked_out(sample::unlisted());
    }

    #[test]
    fn fixed_bytes_are_those_of_the_function_codes_way() {
        expect_worked_out(sample::other_way_of_every_length());
    }

    #[test]
    fn each_fault_hides_the_later_ones() {
        expect_worked_out(sample::faults_together());
    }

    #[test]
    fn last_byte_of_set_slave_adr() {
        expect_worked_out(sample::last_bytes());
    }

    #[test]
    fn ways_of_a_diagnosis() {
        let blocks = [2, 9];
        assert!(write(&DIAGNOSIS, 0, &blocks, &mut [0; 255]).is_ok());
        assert!(write(&DIAGNOSIS_CALL, 0, &[], &mut [0; 255]).is_ok());
        for (fields, way, number) in [
            (DIAGNOSIS, 0, 10),
            (DIAGNOSIS, 2, 12),
            (DIAGNOSIS, 255, 12),
            (DIAGNOSIS_CALL, 1, 10),
            (DIAGNOSIS_CALL, 2, 12),
            (DIAGNOSIS_CALL, 255, 12),
        ] {
            let part = if fields == DIAGNOSIS {
                &blocks[..]
            } else {
                &[]
            };
            expect_refused(number, &with(fields, &[(WAY, way)]), 0, part);
        }
        // Six bytes before the part by an answer's code and none by a call's,
        // whichever way they are said to go; 246 in all.
        let lent = [0; 245];
        for (fc, most) in [(0x08, 238), (0x6D, 244)] {
            let said_otherwise = [(FC, fc), (WAY, u8::from(fc == 0x6D))];
            let fields = with(DIAGNOSIS, &said_otherwise);
            expect_refused(10, &fields, 0, &lent[..most]);
            expect_refused(12, &fields, 0, &lent[..most + 1]);
        }
    }

    #[test]
    fn numbers_of_services() {
        for (number, refusal) in [(1, 10), (50, 10), (52, 10), (54, 10), (63, 10), (64, 12)] {
            let fields = with(ADDRESS, &[(SERVICE, number)]);
            expect_refused(refusal, &fields, 0, &[]);
            // Its own last byte and the way come later, or with the same number.
            let fields = with(fields, &[(OWN + 3, 2)]);
            expect_refused(refusal, &fields, 1, &[0]);
            expect_refused(refusal, &with(fields, &[(WAY, 1)]), 1, &[0]);
        }
        for (kind, length, refusal) in [
            (SD1, 0, 12),
            (SD2, 0, 10),
            (SD2, 244, 10),
            (SD2, 245, 12),
            (SD3, 5, 12),
            (SD3, 6, 10),
            (SD3, 7, 12),
        ] {
            let fields = with(ADDRESS, &[(SERVICE, 52), (KIND, kind)]);
            expect_refused(refusal, &fields, 0, &[0; 245][..length]);
        }
    }

    #[test]
    fn a_dpv1_number_comes_after_the_way() {
        // C8 is no call's and no answer's; it counts as four bytes.
        let fields = with(ADDRESS, &[(SERVICE, 51), (OWN, 0xC8)]);
        let lent = [0; 241];
        for (fc, way) in [(0x5D, 0), (0x08, 1)] {
            let fields = with(fields, &[(FC, fc), (WAY, way)]);
            expect_refused(28, &fields, 0, &[]);
            expect_refused(28, &fields, 0, &lent[..240]);
            expect_refused(12, &fields, 0, &lent);
            let turned = with(fields, &[(WAY, 1 - way)]);
            expect_refused(10, &turned, 0, &[]);
            expect_refused(10, &turned, 0, &lent[..240]);
            expect_refused(12, &turned, 0, &lent);
        }
        // DF is an answer's alone: the function code decides, and not the way.
        let negative = with(ADDRESS, &[(SERVICE, 51), (OWN, 0xDF), (OWN + 1, 128)]);
        let negative = with(negative, &[(OWN + 2, 0xB2)]);
        expect_refused(28, &negative, 0, &[]);
        expect_refused(10, &with(negative, &[(WAY, 1)]), 0, &[]);
        expect_refused(10, &with(negative, &[(FC, 0x08)]), 0, &[]);
        let answer = with(negative, &[(FC, 0x08), (WAY, 1)]);
        assert_eq!(write(&answer, 0, &[], &mut [0; 255]), Ok(15));
    }

    #[test]
    fn a_part_where_there_is_none_comes_before_wrong_bytes() {
        let call = |number, own: [u8; 4]| {
            let [a, b, c, d] = own;
            let own = [(OWN, a), (OWN + 1, b), (OWN + 2, c), (OWN + 3, d)];
            with(with(ADDRESS, &[(SERVICE, number)]), &own)
        };
        let command = with(call(58, [0x01, 0, 0, 0]), &[(FC, 0x44)]);
        let answer = [(FC, 0x08), (WAY, 1)];
        for (fields, without) in [
            // A wrong length, a wrong decode and a reserved code of DPV1.
            (call(51, [0x5E, 1, 7, 241]), 21),
            (with(call(51, [0x5F, 1, 7, 241]), &answer), 21),
            (with(call(51, [0xDF, 127, 0xB2, 0]), &answer), 21),
            (with(call(51, [0xDF, 128, 0x9F, 0]), &answer), 28),
            (call(55, [126, 0, 0, 0]), 21),
            (call(55, [125, 0, 0, 2]), 21),
            (command, 21),
        ] {
            expect_refused(without, &fields, 0, &[]);
            expect_refused(20, &fields, 0, &[0]);
        }
        for fields in [56, 57, 59, 60].map(|number| call(number, [255; 4])) {
            expect_refused(20, &fields, 0, &[0]);
        }
        // The first byte's number is before it.
        expect_refused(28, &call(51, [0xDF, 127, 0x9F, 0]), 0, &[0]);
        expect_refused(28, &with(call(51, [0, 0, 0, 0]), &answer), 0, &[0]);
    }
}
