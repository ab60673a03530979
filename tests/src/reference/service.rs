//! Whole service telegrams: which service a telegram carries, its fields, and
//! the bytes that it lends.
//!
//! The lent part is the end of the user data, after the fixed bytes that the
//! content stands for; it is empty where a service has nothing more to say.

use super::acyclic::{self, Answer, Call};
use super::configuration;
use super::control::{self, GlobalControl, SetSlaveAdr};
use super::diagnosis::{self, Header};
use super::parameters::{self, BitTimes, Mode, Parameters};
use super::telegram::{self, class, Around, Class, Format, Telegram};
use super::{refusal, store, LONGEST_DATA};

/// The highest addresses, as a telegram's own writer has them.
const LAST_DESTINATION: u8 = 127;
const LAST_SOURCE: u8 = 126;
/// The longest PDU of an SD2, and the PDU of every SD3.
const LONGEST_PDU: usize = 246;
const SD3_PDU: usize = 8;
/// Both SAPs, where there are any.
pub(super) const SAPS_LENGTH: usize = 2;
/// The bytes of parameters before the status bytes, and the status bytes.
const PARAMETERS_LENGTH: usize = 7;
const STATUS_LENGTH: usize = 3;
/// The bytes of DPV1 before its data, where a call or an answer has several.
pub(super) const ACYCLIC_LENGTH: usize = 4;

/// The services of document 01.
#[derive(Clone, Copy, Debug, PartialEq, Eq, PartialOrd, Ord)]
pub enum Service {
    /// The cyclic exchange of process data, which has no SAPs.
    DataExchange,
    /// The acyclic calls and answers.
    Dpv1,
    /// More parameters for the user.
    ExtUserPrm,
    /// A slave's new address.
    SetSlaveAdr,
    /// The slave's inputs.
    RdInp,
    /// The slave's outputs.
    RdOutp,
    /// A command to groups of slaves.
    GlobalControl,
    /// The slave's configuration, as it is.
    GetCfg,
    /// The slave's diagnosis.
    SlaveDiag,
    /// The slave's parameters.
    SetPrm,
    /// The slave's configuration, as the master expects it.
    ChkCfg,
}

impl Service {
    /// What document 01 calls it.
    pub fn name(self) -> &'static str {
        match self {
            Service::DataExchange => "Data_Exchange",
            Service::Dpv1 => "DPV1",
            Service::ExtUserPrm => "Ext_User_Prm",
            Service::SetSlaveAdr => "Set_Slave_Adr",
            Service::RdInp => "Rd_Inp",
            Service::RdOutp => "Rd_Outp",
            Service::GlobalControl => "Global_Control",
            Service::GetCfg => "Get_Cfg",
            Service::SlaveDiag => "Slave_Diag",
            Service::SetPrm => "Set_Prm",
            Service::ChkCfg => "Chk_Cfg",
        }
    }

    /// Where it is reached, unless it has no SAPs.
    pub fn access_point(self) -> Option<AccessPoint> {
        // The list has the services in their order, but for the first.
        let place = (self as usize).checked_sub(1)?;
        Some(ACCESS_POINTS[place])
    }

    /// Whether a function code carries it, in the way that is the code's.
    pub fn goes_by(self, fc: u8) -> bool {
        match Carried::by(fc) {
            Some(Carried::Call) => self != Service::GlobalControl,
            Some(Carried::Command) => self == Service::GlobalControl,
            Some(Carried::Answer) => matches!(
                self,
                Service::DataExchange
                    | Service::Dpv1
                    | Service::RdInp
                    | Service::RdOutp
                    | Service::GetCfg
                    | Service::SlaveDiag
            ),
            None => false,
        }
    }
}

/// Where a service is reached.
#[derive(Clone, Copy, Debug, PartialEq, Eq)]
pub struct AccessPoint {
    /// The slave's SAP.
    pub slave: u8,
    /// The master's SAP.
    pub master: u8,
    /// The service between them.
    pub service: Service,
}

impl AccessPoint {
    const fn new(slave: u8, master: u8, service: Service) -> Self {
        AccessPoint {
            slave,
            master,
            service,
        }
    }
}

/// Every service that has SAPs; no other pair is one.
pub const ACCESS_POINTS: [AccessPoint; 10] = [
    AccessPoint::new(51, 51, Service::Dpv1),
    AccessPoint::new(53, 62, Service::ExtUserPrm),
    AccessPoint::new(55, 62, Service::SetSlaveAdr),
    AccessPoint::new(56, 62, Service::RdInp),
    AccessPoint::new(57, 62, Service::RdOutp),
    AccessPoint::new(58, 62, Service::GlobalControl),
    AccessPoint::new(59, 62, Service::GetCfg),
    AccessPoint::new(60, 62, Service::SlaveDiag),
    AccessPoint::new(61, 62, Service::SetPrm),
    AccessPoint::new(62, 62, Service::ChkCfg),
];

/// The list by the slave's SAP: reading asks it for every telegram.
static BY_SLAVE: [Option<AccessPoint>; 64] = {
    let mut table = [None; 64];
    let mut place = 0;
    while place < ACCESS_POINTS.len() {
        let point = ACCESS_POINTS[place];
        table[point.slave as usize] = Some(point);
        place += 1;
    }
    table
};

/// Which way a telegram goes.
#[derive(Clone, Copy, Debug, PartialEq, Eq, PartialOrd, Ord)]
pub enum Way {
    /// From the master to the slave.
    Call,
    /// From the slave to the master.
    Answer,
}

impl Way {
    /// The way of a function code; a reserved one is no answer's.
    pub fn by(fc: u8) -> Self {
        match class(fc) {
            Class::Bare | Class::Data => Way::Answer,
            Class::Opening | Class::Counted | Class::Uncounted | Class::Reserved => Way::Call,
        }
    }

    /// What to call it.
    pub fn name(self) -> &'static str {
        match self {
            Way::Call => "call",
            Way::Answer => "answer",
        }
    }
}

/// The fields of parameters, without the user's bytes.
#[derive(Clone, Copy, Debug, PartialEq, Eq)]
pub struct ParameterFields {
    /// Byte 1.
    pub flags: u8,
    /// The first factor of the watchdog time.
    pub factor1: u8,
    /// The second factor of the watchdog time.
    pub factor2: u8,
    /// The least time before the slave answers.
    pub response: BitTimes,
    /// The ident number.
    pub ident: u16,
    /// A bit for each group that the slave belongs to.
    pub groups: u8,
    /// Bytes 8, 9 and 10 in mode DPV1, and none in DPV0.
    pub status: Option<[u8; 3]>,
}

impl ParameterFields {
    /// The fields of these parameters.
    pub fn of(parameters: &Parameters<'_>) -> Self {
        ParameterFields {
            flags: parameters.flags,
            factor1: parameters.factor1,
            factor2: parameters.factor2,
            response: parameters.response,
            ident: parameters.ident,
            groups: parameters.groups,
            status: parameters.status,
        }
    }

    /// The parameters that have these fields and the user's bytes.
    pub fn with_user(self, user: &[u8]) -> Parameters<'_> {
        Parameters {
            flags: self.flags,
            factor1: self.factor1,
            factor2: self.factor2,
            response: self.response,
            ident: self.ident,
            groups: self.groups,
            status: self.status,
            user,
        }
    }
}

/// What a service telegram says, without its lent part.
#[derive(Clone, Copy, Debug, PartialEq, Eq)]
pub enum Content {
    /// Both ways; the part is the process data.
    DataExchange,
    /// A DPV1 call; the part is its data.
    Dpv1Call(Call),
    /// A DPV1 answer; the part is its data.
    Dpv1Answer(Answer),
    /// A call; the part is its bytes.
    ExtUserPrm,
    /// A call without part.
    SetSlaveAdr {
        /// The address, 0..=125.
        address: u8,
        /// The ident number of the slave that is meant.
        ident: u16,
        /// 1 where the address cannot be changed again, else 0.
        locked: u8,
    },
    /// A call without part, or an answer with the inputs as its part.
    RdInp,
    /// A call without part, or an answer with the outputs as its part.
    RdOutp,
    /// A call of function 4 or 6, without part.
    GlobalControl {
        /// The command's bits.
        command: u8,
        /// A bit for each group that is meant.
        groups: u8,
    },
    /// A call without part, or an answer with the modules' bytes as its part.
    GetCfg,
    /// A call without part.
    SlaveDiagCall,
    /// An answer; the part is the blocks' bytes.
    SlaveDiag(Header),
    /// A call; the part is the user's bytes.
    SetPrm(ParameterFields),
    /// A call; the part is the modules' bytes.
    ChkCfg,
}

impl Content {
    /// The service that it belongs to.
    pub fn service(&self) -> Service {
        match self {
            Content::DataExchange => Service::DataExchange,
            Content::Dpv1Call(_) | Content::Dpv1Answer(_) => Service::Dpv1,
            Content::ExtUserPrm => Service::ExtUserPrm,
            Content::SetSlaveAdr { .. } => Service::SetSlaveAdr,
            Content::RdInp => Service::RdInp,
            Content::RdOutp => Service::RdOutp,
            Content::GlobalControl { .. } => Service::GlobalControl,
            Content::GetCfg => Service::GetCfg,
            Content::SlaveDiagCall | Content::SlaveDiag(_) => Service::SlaveDiag,
            Content::SetPrm(_) => Service::SetPrm,
            Content::ChkCfg => Service::ChkCfg,
        }
    }

    /// How many bytes stand before the part, right or wrong.
    pub(super) fn length(&self) -> usize {
        match self {
            Content::Dpv1Call(Call::Poll) => 0,
            Content::Dpv1Call(Call::Idle) | Content::Dpv1Answer(Answer::Idle) => 1,
            Content::Dpv1Call(_) | Content::Dpv1Answer(_) => ACYCLIC_LENGTH,
            Content::SetSlaveAdr { .. } => control::SET_SLAVE_ADR_LENGTH,
            Content::GlobalControl { .. } => control::GLOBAL_CONTROL_LENGTH,
            Content::SlaveDiag(_) => diagnosis::HEADER_LENGTH,
            Content::SetPrm(fields) => {
                PARAMETERS_LENGTH + fields.status.map_or(0, |_| STATUS_LENGTH)
            }
            Content::DataExchange
            | Content::ExtUserPrm
            | Content::RdInp
            | Content::RdOutp
            | Content::GetCfg
            | Content::SlaveDiagCall
            | Content::ChkCfg => 0,
        }
    }
}

/// A telegram that carries a service.
#[derive(Clone, Copy, Debug, PartialEq, Eq)]
pub struct ServiceTelegram<'a> {
    /// SD1, SD2 or SD3.
    pub format: Format,
    /// Destination, the low seven bits.
    pub da: u8,
    /// Source, the low seven bits.
    pub sa: u8,
    /// Function code, which says the way.
    pub fc: u8,
    /// What it says; the SAPs are those of its service.
    pub content: Content,
    /// The bytes that it lends.
    pub part: &'a [u8],
}

impl ServiceTelegram<'_> {
    /// Which way it goes.
    pub fn way(&self) -> Way {
        Way::by(self.fc)
    }
}

/// What a function code that carries a service carries.
#[derive(Clone, Copy)]
enum Carried {
    /// A call but for Global_Control.
    Call,
    /// Global_Control, which goes to many slaves and gets no answer.
    Command,
    /// An answer with data.
    Answer,
}

impl Carried {
    const fn by(fc: u8) -> Option<Self> {
        match class(fc) {
            Class::Opening | Class::Counted => Some(Carried::Call),
            Class::Uncounted if matches!(fc & telegram::FUNCTION, 4 | 6) => Some(Carried::Command),
            Class::Data => Some(Carried::Answer),
            Class::Uncounted | Class::Bare | Class::Reserved => None,
        }
    }
}

/// The rule worked out at compile time: reading asks it for every frame.
static CARRIED: [Option<Carried>; 256] = {
    let mut table = [None; 256];
    let mut fc = 0;
    while fc < 256 {
        table[fc] = Carried::by(fc as u8);
        fc += 1;
    }
    table
};

fn carried_by(fc: u8) -> Result<Carried, u8> {
    CARRIED[usize::from(fc)].ok_or(refusal::SERVICE)
}

/// Reads the whole slice as one service telegram, with parameters in the mode
/// that the caller expects, or answers its refusal number.
pub fn read(bytes: &[u8], mode: Mode) -> Result<ServiceTelegram<'_>, u8> {
    of_telegram(telegram::read(bytes)?, mode)
}

/// The service telegram that a telegram is, as `read` gives it; put into whoever calls
/// it, as `telegram::read` is.
#[inline(always)]
pub(super) fn of_telegram(telegram: Telegram<'_>, mode: Mode) -> Result<ServiceTelegram<'_>, u8> {
    let Telegram::Frame {
        format,
        da,
        sa,
        fc,
        dsap,
        ssap,
        user,
    } = telegram
    else {
        return Err(refusal::SERVICE);
    };
    let carried = carried_by(fc)?;
    let service = service_between(dsap, ssap, carried).ok_or(refusal::SERVICE)?;
    let (content, part) = match carried {
        Carried::Call => read_call(service, user, mode)?,
        Carried::Command => read_command(service, user)?,
        Carried::Answer => read_answer(service, user)?,
    };
    Ok(ServiceTelegram {
        format,
        da,
        sa,
        fc,
        content,
        part,
    })
}

/// The service of the SAPs. The slave's is the destination of a call and the
/// source of an answer.
fn service_between(dsap: Option<u8>, ssap: Option<u8>, carried: Carried) -> Option<Service> {
    let (slave, master) = match (dsap, ssap, carried) {
        (None, None, _) => return Some(Service::DataExchange),
        (Some(dsap), Some(ssap), Carried::Call | Carried::Command) => (dsap, ssap),
        (Some(dsap), Some(ssap), Carried::Answer) => (ssap, dsap),
        (Some(_), None, _) | (None, Some(_), _) => return None,
    };
    let point = BY_SLAVE.get(usize::from(slave)).copied().flatten()?;
    (point.master == master).then_some(point.service)
}

/// The content and the part of an opening or counted call.
fn read_call(service: Service, user: &[u8], mode: Mode) -> Result<(Content, &[u8]), u8> {
    match service {
        Service::DataExchange => Ok((Content::DataExchange, plain(user)?)),
        Service::Dpv1 => {
            let (call, data) = acyclic::read_call(user)?;
            Ok((Content::Dpv1Call(call), data))
        }
        Service::ExtUserPrm => Ok((Content::ExtUserPrm, plain(user)?)),
        Service::SetSlaveAdr => {
            let SetSlaveAdr {
                address,
                ident,
                locked,
                rest,
            } = control::read_set_slave_adr(user)?;
            let content = Content::SetSlaveAdr {
                address,
                ident,
                locked,
            };
            Ok((content, rest))
        }
        Service::RdInp => Ok((Content::RdInp, empty(user)?)),
        Service::RdOutp => Ok((Content::RdOutp, empty(user)?)),
        Service::GlobalControl => Err(refusal::SERVICE),
        Service::GetCfg => Ok((Content::GetCfg, empty(user)?)),
        Service::SlaveDiag => Ok((Content::SlaveDiagCall, empty(user)?)),
        Service::SetPrm => {
            let read = parameters::read(user, mode)?;
            Ok((Content::SetPrm(ParameterFields::of(&read)), read.user))
        }
        Service::ChkCfg => Ok((Content::ChkCfg, modules(user)?)),
    }
}

/// The content and the part of a call of function 4 or 6.
fn read_command(service: Service, user: &[u8]) -> Result<(Content, &[u8]), u8> {
    if service != Service::GlobalControl {
        return Err(refusal::SERVICE);
    }
    let GlobalControl {
        command,
        groups,
        rest,
    } = control::read_global_control(user)?;
    Ok((Content::GlobalControl { command, groups }, rest))
}

/// The content and the part of an answer with data.
fn read_answer(service: Service, user: &[u8]) -> Result<(Content, &[u8]), u8> {
    match service {
        Service::DataExchange => Ok((Content::DataExchange, plain(user)?)),
        Service::Dpv1 => {
            let (answer, data) = acyclic::read_answer(user)?;
            Ok((Content::Dpv1Answer(answer), data))
        }
        Service::RdInp => Ok((Content::RdInp, plain(user)?)),
        Service::RdOutp => Ok((Content::RdOutp, plain(user)?)),
        Service::GetCfg => Ok((Content::GetCfg, modules(user)?)),
        Service::SlaveDiag => {
            let (header, _) = diagnosis::read(user)?;
            let blocks = &user[diagnosis::HEADER_LENGTH..];
            Ok((Content::SlaveDiag(header), blocks))
        }
        Service::ExtUserPrm
        | Service::SetSlaveAdr
        | Service::GlobalControl
        | Service::SetPrm
        | Service::ChkCfg => Err(refusal::SERVICE),
    }
}

/// Plain bytes, unless they are too many.
fn plain(part: &[u8]) -> Result<&[u8], u8> {
    if part.len() > LONGEST_DATA {
        return Err(refusal::DATA_LENGTH);
    }
    Ok(part)
}

/// No bytes, which a call that only asks has.
fn empty(part: &[u8]) -> Result<&[u8], u8> {
    if !part.is_empty() {
        return Err(refusal::DATA_LENGTH);
    }
    Ok(part)
}

/// The bytes of a right configuration.
fn modules(part: &[u8]) -> Result<&[u8], u8> {
    configuration::totals(part)?;
    Ok(part)
}

/// Writes a service telegram to the front of `out` and answers its length, or
/// answers the refusal number and stores nothing.
pub fn write(telegram: &ServiceTelegram<'_>, out: &mut [u8]) -> Result<usize, u8> {
    let ServiceTelegram {
        format,
        da,
        sa,
        fc,
        ref content,
        part,
    } = *telegram;
    let point = content.service().access_point();
    let length = content.length() + part.len();
    let saps_length = point.map_or(0, |_| SAPS_LENGTH);
    judge_fields(format, [da, sa, fc], saps_length + length)?;
    let carried = carried_by(fc)?;
    let saps = point.map(|AccessPoint { slave, master, .. }| match carried {
        Carried::Call | Carried::Command => [slave, master],
        Carried::Answer => [master, slave],
    });
    let frame = Around {
        format,
        da,
        sa,
        fc,
        saps,
        length,
    };
    frame.write(out, |user| write_data(content, carried, part, user))
}

/// Refuses DA, SA, FC or a length of the PDU that no telegram of the format has,
/// whatever its service.
pub(super) fn judge_fields(
    format: Format,
    [da, sa, fc]: [u8; 3],
    pdu_length: usize,
) -> Result<(), u8> {
    let fits = match format {
        Format::Sd1 => pdu_length == 0,
        Format::Sd2 => (1..=LONGEST_PDU).contains(&pdu_length),
        Format::Sd3 => pdu_length == SD3_PDU,
    };
    let is_right =
        fits && da <= LAST_DESTINATION && sa <= LAST_SOURCE && class(fc) != Class::Reserved;
    is_right.then_some(()).ok_or(refusal::FIELD)
}

/// Stores the user data: the bytes of the content and then the part.
fn write_data(
    content: &Content,
    carried: Carried,
    part: &[u8],
    out: &mut [u8],
) -> Result<usize, u8> {
    match (carried, *content) {
        (Carried::Call | Carried::Answer, Content::DataExchange)
        | (Carried::Call, Content::ExtUserPrm)
        | (Carried::Answer, Content::RdInp | Content::RdOutp) => store([plain(part)?], out),
        (
            Carried::Call,
            Content::RdInp | Content::RdOutp | Content::GetCfg | Content::SlaveDiagCall,
        ) => store([empty(part)?], out),
        (Carried::Call, Content::ChkCfg) | (Carried::Answer, Content::GetCfg) => {
            configuration::write(part, out)
        }
        (Carried::Call, Content::Dpv1Call(call)) => acyclic::write_call(&call, part, out),
        (Carried::Answer, Content::Dpv1Answer(answer)) => acyclic::write_answer(&answer, part, out),
        (
            Carried::Call,
            Content::SetSlaveAdr {
                address,
                ident,
                locked,
            },
        ) => {
            let data = SetSlaveAdr {
                address,
                ident,
                locked,
                rest: part,
            };
            control::write_set_slave_adr(&data, out)
        }
        (Carried::Command, Content::GlobalControl { command, groups }) => {
            let data = GlobalControl {
                command,
                groups,
                rest: part,
            };
            control::write_global_control(&data, out)
        }
        (Carried::Answer, Content::SlaveDiag(header)) => diagnosis::write(&header, part, out),
        (Carried::Call, Content::SetPrm(fields)) => parameters::write(&fields.with_user(part), out),
        _ => Err(refusal::SERVICE),
    }
}

#[cfg(test)]
mod tests {
    use super::*;
    use crate::random::Random;
    use crate::reference::acyclic::{Alarm, CallError, Failed};
    use crate::reference::expect;
    use crate::samples::parameters::MODES;
    use crate::samples::service_telegrams::{self as sample, with_saps};
    use crate::samples::{self, sd2_around as sd2, FUNCTION_CODES};

    /// The codes of the classes, in the order of the samples' list.
    const CALLS: &[u8] = FUNCTION_CODES.split_at(15).0;
    const COMMANDS: &[u8] = &[0x44, 0x46];
    const ANSWERS: &[u8] = FUNCTION_CODES.split_at(42).1;

    const HEADER: Header = Header {
        status1: 0x08,
        status2: 0x0C,
        status3: 0x00,
        master: 2,
        ident: 0x1234,
    };
    const NO_EXT_DIAG: Header = Header {
        status1: 0x00,
        ..HEADER
    };
    const PARAMETERS: ParameterFields = ParameterFields {
        flags: 0xB8,
        factor1: 20,
        factor2: 5,
        response: BitTimes(255),
        ident: 0x1234,
        groups: 0x81,
        status: None,
    };
    const DPV1_PARAMETERS: ParameterFields = ParameterFields {
        status: Some([0xE4, 0xFD, 0x9F]),
        ..PARAMETERS
    };
    const ADDRESS: Content = Content::SetSlaveAdr {
        address: 125,
        ident: 0x1234,
        locked: 1,
    };
    const CONTROL: Content = Content::GlobalControl {
        command: 0x3E,
        groups: 0xFF,
    };
    const READ_CALL: Content = Content::Dpv1Call(Call::Read {
        slot: 1,
        index: 7,
        length: 240,
    });
    const WRITE_CALL: Content = Content::Dpv1Call(Call::Write { slot: 1, index: 7 });
    const WRITE_ANSWER: Content = Content::Dpv1Answer(Answer::Write {
        slot: 1,
        index: 7,
        length: 240,
    });
    const NEGATIVE: Content = Content::Dpv1Answer(Answer::Negative {
        failed: Failed::Write,
        error: CallError {
            decode: 128,
            code1: 0xB2,
            code2: 5,
        },
    });

    /// The telegram of start bytes and the bytes from DA through the PDU.
    fn closed(start: &[u8], body: &[u8]) -> Vec<u8> {
        let sum: usize = body.iter().map(|byte| usize::from(*byte)).sum();
        [start, body, &[(sum % 256) as u8, 0x16]].concat()
    }

    /// Fields with station addresses in range.
    fn fields(format: Format, fc: u8, content: Content, part: &[u8]) -> ServiceTelegram<'_> {
        ServiceTelegram {
            format,
            da: 7,
            sa: 2,
            fc,
            content,
            part,
        }
    }

    /// Reading gives the telegram, its part lent from there, and writing gives
    /// the bytes again.
    fn expect_both_ways(bytes: &[u8], mode: Mode, telegram: &ServiceTelegram<'_>, start: usize) {
        let read = read(bytes, mode).expect("valid");
        assert_eq!(read, *telegram, "{bytes:02X?}");
        let lent = &bytes[start..bytes.len() - 2];
        assert!(std::ptr::eq(read.part, lent), "{bytes:02X?}");
        expect::written(bytes, |out| write(telegram, out));
    }

    #[test]
    fn worked_rows_as_answers() {
        let diagnosis = [
            0x68, 0x0E, 0x0E, 0x68, 0x82, 0x87, 0x08, 0x3E, 0x3C, 0x08, 0x0C, 0x00, 0x02, 0x12,
            0x34, 0x82, 0x43, 0x26, 0xD2, 0x16,
        ];
        let from_7 = |format, content, part| ServiceTelegram {
            da: 2,
            sa: 7,
            ..fields(format, 0x08, content, part)
        };
        let blocks = [0x82, 0x43, 0x26];
        let telegram = from_7(Format::Sd2, Content::SlaveDiag(HEADER), &blocks);
        expect_both_ways(&diagnosis, Mode::Dpv0, &telegram, 15);
        assert_eq!(telegram.way(), Way::Answer);

        let configuration = [
            0x68, 0x0B, 0x0B, 0x68, 0x82, 0x87, 0x08, 0x3E, 0x3B, 0x13, 0x65, 0xC1, 0x07, 0x4F,
            0x20, 0x39, 0x16,
        ];
        let modules = [0x13, 0x65, 0xC1, 0x07, 0x4F, 0x20];
        let telegram = from_7(Format::Sd2, Content::GetCfg, &modules);
        expect_both_ways(&configuration, Mode::Dpv0, &telegram, 9);
        assert_eq!(telegram.way(), Way::Answer);

        // With both SAPs the six bytes fit an SD3.
        let sd3 = [&[0xA2], &configuration[4..]].concat();
        let telegram = from_7(Format::Sd3, Content::GetCfg, &modules);
        expect_both_ways(&sd3, Mode::Dpv0, &telegram, 6);
    }

    /// A call by every code, with this many bytes of its data before the part.
    fn expect_call(saps: [u8; 2], mode: Mode, data: &[u8], content: Content, length: usize) {
        for fc in CALLS {
            let bytes = with_saps(*fc, saps, data);
            let telegram = fields(Format::Sd2, *fc, content, &data[length..]);
            expect_both_ways(&bytes, mode, &telegram, 9 + length);
            assert_eq!(telegram.way(), Way::Call);
        }
    }

    #[test]
    fn dpv1_calls() {
        let alarm = Alarm {
            slot: 1,
            kind: 2,
            specifier: 3,
        };
        let transport = Call::Transport { slot: 1, index: 7 };
        for (data, content, length) in [
            (&[][..], Content::Dpv1Call(Call::Poll), 0),
            (&[0x5E, 1, 7, 240], READ_CALL, 4),
            (&[0x5F, 1, 7, 2, 8, 9], WRITE_CALL, 4),
            (
                &[0x5C, 1, 2, 3],
                Content::Dpv1Call(Call::AlarmAck(alarm)),
                4,
            ),
            (&[0x48], Content::Dpv1Call(Call::Idle), 1),
            (&[0x51, 1, 7, 1, 9], Content::Dpv1Call(transport), 4),
        ] {
            expect_call([51, 51], Mode::Dpv0, data, content, length);
        }
    }

    #[test]
    fn calls_from_62() {
        let prm = [0xB8, 20, 5, 255, 0x12, 0x34, 0x81, 0xE4, 0xFD, 0x9F, 8];
        let (dpv0, dpv1) = (Mode::Dpv0, Mode::Dpv1);
        for (slave, mode, data, content, length) in [
            (53, dpv0, &[][..], Content::ExtUserPrm, 0),
            (53, dpv0, &[1, 2, 3], Content::ExtUserPrm, 0),
            (53, dpv1, &[7; 244], Content::ExtUserPrm, 0),
            (55, dpv0, &[125, 0x12, 0x34, 1], ADDRESS, 4),
            (56, dpv0, &[], Content::RdInp, 0),
            (57, dpv0, &[], Content::RdOutp, 0),
            (59, dpv0, &[], Content::GetCfg, 0),
            (60, dpv0, &[], Content::SlaveDiagCall, 0),
            (61, dpv0, &prm, Content::SetPrm(PARAMETERS), 7),
            (61, dpv1, &prm, Content::SetPrm(DPV1_PARAMETERS), 10),
            (62, dpv0, &[0x13, 0x65], Content::ChkCfg, 0),
        ] {
            expect_call([slave, 62], mode, data, content, length);
        }
    }

    #[test]
    fn commands_are_global_control() {
        for fc in COMMANDS {
            let bytes = with_saps(*fc, [58, 62], &[0x3E, 0xFF]);
            let telegram = fields(Format::Sd2, *fc, CONTROL, &[]);
            expect_both_ways(&bytes, Mode::Dpv0, &telegram, 11);
            assert_eq!(telegram.way(), Way::Call);
            let to_all = ServiceTelegram {
                da: 127,
                ..telegram
            };
            let bytes = sd2(&[0xFF, 0x82, *fc, 58, 62, 0x3E, 0xFF]);
            expect_both_ways(&bytes, Mode::Dpv1, &to_all, 11);
        }
    }

    #[test]
    fn answers_of_each_service() {
        let read_answer = Content::Dpv1Answer(Answer::Read { slot: 1, index: 7 });
        let diagnosis = [0x00, 0x0C, 0x00, 2, 0x12, 0x34];
        for (master, slave, data, content, length) in [
            (51, 51, &[0x5E, 1, 7, 2, 8, 9][..], read_answer, 4),
            (51, 51, &[0x5F, 1, 7, 240], WRITE_ANSWER, 4),
            (51, 51, &[0xDF, 128, 0xB2, 5], NEGATIVE, 4),
            (51, 51, &[0x48], Content::Dpv1Answer(Answer::Idle), 1),
            (62, 56, &[], Content::RdInp, 0),
            (62, 56, &[1, 2], Content::RdInp, 0),
            (62, 57, &[], Content::RdOutp, 0),
            (62, 57, &[9; 244], Content::RdOutp, 0),
            (62, 59, &[0x13, 0x65], Content::GetCfg, 0),
            (62, 60, &diagnosis, Content::SlaveDiag(NO_EXT_DIAG), 6),
        ] {
            for fc in ANSWERS {
                let bytes = with_saps(*fc, [master, slave], data);
                let telegram = fields(Format::Sd2, *fc, content, &data[length..]);
                expect_both_ways(&bytes, Mode::Dpv0, &telegram, 9 + length);
                assert_eq!(telegram.way(), Way::Answer);
            }
        }
    }

    #[test]
    fn data_exchange_has_no_saps_and_may_be_empty() {
        let bytes = [0x5A; 246];
        for (fc, way) in [
            (0x65, Way::Call),
            (0x5D, Way::Call),
            (0x08, Way::Answer),
            (0x3A, Way::Answer),
        ] {
            let telegram = |format, part| fields(format, fc, Content::DataExchange, part);
            assert_eq!(telegram(Format::Sd1, &[]).way(), way);
            let sd1 = closed(&[0x10], &[7, 2, fc]);
            expect_both_ways(&sd1, Mode::Dpv0, &telegram(Format::Sd1, &[]), 4);
            let sd3 = closed(&[0xA2], &[&[7, 2, fc], &bytes[..8]].concat());
            expect_both_ways(&sd3, Mode::Dpv0, &telegram(Format::Sd3, &bytes[..8]), 4);
            for length in [1, 8, 244] {
                let part = &bytes[..length];
                let sd2 = sd2(&[&[7, 2, fc], part].concat());
                expect_both_ways(&sd2, Mode::Dpv0, &telegram(Format::Sd2, part), 7);
            }
            for length in [245, 246] {
                let part = &bytes[..length];
                let sd2 = sd2(&[&[7, 2, fc], part].concat());
                assert_eq!(read(&sd2, Mode::Dpv0), Err(20));
                expect::refused(20, |out| write(&telegram(Format::Sd2, part), out));
            }
            let empty = telegram(Format::Sd2, &[]);
            expect::refused(12, |out| write(&empty, out));
        }
    }

    fn expect_no_service<const N: usize>(telegrams: [Vec<u8>; N]) {
        for bytes in telegrams {
            for mode in MODES {
                assert_eq!(read(&bytes, mode), Err(10), "{bytes:02X?}");
            }
        }
    }

    #[test]
    fn only_calls_and_data_answers_carry_a_service() {
        let diagnosis = [0x00, 0x0C, 0x00, 2, 0x12, 0x34];
        expect_no_service([
            // Short confirmation and token.
            vec![0xE5],
            vec![0xDC, 2, 2],
            // FDL status and the clock value.
            closed(&[0x10], &[7, 2, 0x49]),
            with_saps(0x49, [60, 62], &[]),
            sd2(&[7, 2, 0xC0, 1]),
            with_saps(0xC0, [58, 62], &[0x3E, 0xFF]),
            // Other uncounted calls.
            with_saps(0x40, [58, 62], &[0x3E, 0xFF]),
            with_saps(0x4E, [60, 62], &[]),
            with_saps(0x4F, [60, 62], &[]),
            // Answers without data, even in an SD2.
            closed(&[0x10], &[7, 2, 0x00]),
            sd2(&[7, 2, 0x09, 1]),
            with_saps(0x00, [62, 60], &diagnosis),
            with_saps(0x02, [51, 51], &[0x48]),
        ]);
    }

    #[test]
    fn saps_are_a_pair_of_the_table() {
        let diagnosis = [0x00, 0x0C, 0x00, 2, 0x12, 0x34];
        expect_no_service([
            // One SAP of two.
            sd2(&[0x87, 0x02, 0x5D, 60]),
            sd2(&[0x07, 0x82, 0x5D, 62]),
            sd2(&[0x87, 0x02, 0x08, 62]),
            sd2(&[0x07, 0x82, 0x08, 56]),
            // Pairs of no service.
            with_saps(0x5D, [52, 62], &[]),
            with_saps(0x5D, [54, 62], &[]),
            with_saps(0x5D, [63, 62], &[]),
            with_saps(0x5D, [51, 62], &[]),
            with_saps(0x5D, [62, 51], &[]),
            with_saps(0x5D, [60, 51], &[]),
            with_saps(0x5D, [60, 60], &[]),
            // A call with the pair of an answer, and answers with a call's.
            with_saps(0x5D, [62, 60], &[]),
            with_saps(0x08, [60, 62], &diagnosis),
            with_saps(0x08, [56, 62], &[1]),
        ]);
    }

    #[test]
    fn services_go_their_ways_alone() {
        expect_no_service([
            // Answers from services that give none.
            with_saps(0x08, [62, 53], &[1]),
            with_saps(0x08, [62, 55], &[125, 0x12, 0x34, 1]),
            with_saps(0x08, [62, 58], &[0x3E, 0xFF]),
            with_saps(0x08, [62, 61], &[0, 2, 3, 11, 0, 1, 0, 0, 0, 0]),
            with_saps(0x08, [62, 62], &[0x13]),
            // Global_Control by counted and opening calls.
            with_saps(0x5D, [58, 62], &[0x3E, 0xFF]),
            with_saps(0x7C, [58, 62], &[0x3E, 0xFF]),
            with_saps(0x63, [58, 62], &[0x3E, 0xFF]),
            // Functions 4 and 6 to anything else.
            with_saps(0x44, [60, 62], &[]),
            with_saps(0x46, [53, 62], &[0x3E, 0xFF]),
            with_saps(0x46, [51, 51], &[]),
            closed(&[0x10], &[7, 2, 0x44]),
            sd2(&[7, 2, 0x46, 0x3E, 0xFF]),
            // The pair of Global_Control turned round.
            with_saps(0x44, [62, 58], &[0x3E, 0xFF]),
        ]);
    }

    #[test]
    fn each_service_has_its_own_refusals() {
        for (fc, saps, data, number) in [
            (0x5D, [51, 51], &[0x5F, 1, 7, 0][..], 20),
            (0x5D, [51, 51], &[0x5E, 1, 7, 241], 21),
            (0x5D, [51, 51], &[0xDF, 128, 0xB2, 5], 28),
            (0x08, [51, 51], &[], 20),
            (0x08, [51, 51], &[0xDF, 127, 0xB2, 5], 21),
            (0x08, [51, 51], &[0xDF, 128, 0x9F, 5], 28),
            (0x5D, [55, 62], &[125, 0x12, 0x34], 20),
            (0x5D, [55, 62], &[126, 0x12, 0x34, 0], 21),
            (0x5D, [56, 62], &[0], 20),
            (0x5D, [57, 62], &[0], 20),
            (0x5D, [59, 62], &[0], 20),
            (0x5D, [60, 62], &[0], 20),
            (0x44, [58, 62], &[0x3E], 20),
            (0x46, [58, 62], &[0x3F, 0], 21),
            (0x08, [62, 59], &[], 20),
            (0x08, [62, 59], &[0x40], 24),
            (0x08, [62, 59], &[0x0F], 26),
            (0x08, [62, 59], &[0x40, 0xFF, 0x40, 0xFF], 27),
            (0x08, [62, 60], &[0, 4, 0, 0, 0], 20),
            (0x08, [62, 60], &[1, 4, 0, 0, 0, 0], 21),
            (0x08, [62, 60], &[8, 4, 0, 0, 0, 0], 22),
            (0x08, [62, 60], &[8, 4, 0, 0, 0, 0, 0xC0], 23),
            (0x08, [62, 60], &[8, 4, 0, 0, 0, 0, 0x80], 24),
            (0x08, [62, 60], &[8, 4, 0, 0, 0, 0, 0x80, 0, 0x21], 25),
            (0x5D, [61, 62], &[0, 2, 3, 11, 0, 1], 20),
            (0x5D, [61, 62], &[0, 2, 3, 10, 0, 1, 0, 0, 0, 0], 21),
            (0x5D, [62, 62], &[], 20),
            (0x5D, [62, 62], &[0x40], 24),
            (0x5D, [62, 62], &[0x0F], 26),
            (0x5D, [62, 62], &[0x80, 0xFF, 0x80, 0xFF], 27),
        ] {
            let bytes = with_saps(fc, saps, data);
            for mode in MODES {
                assert_eq!(read(&bytes, mode), Err(number), "{bytes:02X?}");
            }
        }
    }

    #[test]
    fn each_fault_hides_the_later_ones_in_reading() {
        // Too long for Slave_Diag, then also by functions 4, with a SAP above 63,
        // with a reserved code and with a wrong checksum.
        let mut bytes = with_saps(0x5D, [60, 62], &[1]);
        assert_eq!(read(&bytes, Mode::Dpv0), Err(20));
        for (place, byte, number) in [(6, 0x44, 10), (7, 64, 9), (6, 0x4C, 8), (5, 0xFF, 7)] {
            bytes[place] = byte;
            samples::mend(&mut bytes);
            assert_eq!(read(&bytes, Mode::Dpv0), Err(number), "{bytes:02X?}");
        }
        bytes[10] ^= 1;
        assert_eq!(read(&bytes, Mode::Dpv0), Err(6));
    }

    /// How often each number comes when every pair of SAP bytes stands before
    /// the data, 0 for what is accepted.
    fn pair_counts(fc: u8, data: &[u8]) -> [usize; 29] {
        let mut counts = [0; 29];
        let mut bytes = with_saps(fc, [0, 0], data);
        let zero_sum = bytes[bytes.len() - 2];
        let fcs = bytes.len() - 2;
        for (dsap, ssap) in (0..=255).flat_map(|dsap| (0..=255).map(move |ssap| (dsap, ssap))) {
            (bytes[7], bytes[8]) = (dsap, ssap);
            bytes[fcs] = zero_sum.wrapping_add(dsap).wrapping_add(ssap);
            let number = read(&bytes, Mode::Dpv0).err().unwrap_or(0);
            counts[usize::from(number)] += 1;
        }
        counts
    }

    /// The same by hand: 9 for all but 64 x 64 pairs, and 10 for those of them
    /// that are not among these numbers and how often they come.
    fn expected_counts(rows: &[(usize, usize)]) -> [usize; 29] {
        let mut counts = [0; 29];
        counts[9] = 61_440;
        counts[10] = 4096;
        for (number, count) in rows {
            counts[10] -= count;
            counts[*number] = *count;
        }
        counts
    }

    #[test]
    fn all_pairs_without_data_by_each_function_code() {
        for fc in FUNCTION_CODES {
            let rows: &[(usize, usize)] = match fc {
                // 51, 53, 56, 57, 59 and 60 may be empty; 55, 61 and 62 not.
                _ if CALLS.contains(&fc) => &[(0, 6), (20, 3)],
                // 58 has two bytes.
                _ if COMMANDS.contains(&fc) => &[(20, 1)],
                // 56 and 57 may be empty; 51, 59 and 60 not.
                _ if ANSWERS.contains(&fc) => &[(0, 2), (20, 3)],
                _ => &[],
            };
            assert_eq!(pair_counts(fc, &[]), expected_counts(rows), "{fc:02X}");
        }
    }

    #[test]
    fn all_pairs_with_two_zero_bytes_by_each_function_code() {
        for fc in FUNCTION_CODES {
            let rows: &[(usize, usize)] = match fc {
                // Right for 53 and 62, too few for 55 and 61, too many for 56,
                // 57, 59 and 60, and no number of 51.
                _ if CALLS.contains(&fc) => &[(0, 2), (20, 6), (28, 1)],
                _ if COMMANDS.contains(&fc) => &[(0, 1)],
                // Right for 56, 57 and 59, too few for 60, and no number of 51.
                _ if ANSWERS.contains(&fc) => &[(0, 3), (20, 1), (28, 1)],
                _ => &[],
            };
            assert_eq!(pair_counts(fc, &[0, 0]), expected_counts(rows), "{fc:02X}");
        }
    }

    #[test]
    fn accepted_pairs_are_those_of_document_01() {
        let prm = [0, 2, 3, 11, 0, 1, 0];
        for (fc, data, expected) in [
            (0x5D, &[0x0F][..], &[(53, 62)][..]),
            (0x5D, &[0x13], &[(53, 62), (62, 62)]),
            // These are also a configuration, of four modules without sides.
            (0x5D, &prm, &[(53, 62), (61, 62), (62, 62)]),
            (0x5D, &[0x48], &[(51, 51), (53, 62)]),
            (0x5D, &[125, 0, 0, 1], &[(53, 62), (55, 62)]),
            (
                0x5D,
                &[],
                &[(51, 51), (53, 62), (56, 62), (57, 62), (59, 62), (60, 62)],
            ),
            (0x44, &[0x3E, 0xFF], &[(58, 62)]),
            (0x08, &[0x48], &[(51, 51), (62, 56), (62, 57)]),
            (
                0x08,
                &[0, 4, 0, 0, 0, 0],
                &[(62, 56), (62, 57), (62, 59), (62, 60)],
            ),
        ] {
            let pairs = (0..64).flat_map(|dsap| (0..64).map(move |ssap| (dsap, ssap)));
            let accepted = pairs.filter(|(dsap, ssap)| {
                let bytes = with_saps(fc, [*dsap, *ssap], data);
                read(&bytes, Mode::Dpv0).is_ok()
            });
            assert!(
                accepted.eq(expected.iter().copied()),
                "{fc:02X} {data:02X?}"
            );
        }
    }

    #[test]
    fn one_sap_is_no_service_whichever_it_is() {
        for (fc, sap) in FUNCTION_CODES
            .iter()
            .flat_map(|fc| (0..=255).map(move |sap| (*fc, sap)))
        {
            let number = if sap > 63 { 9 } else { 10 };
            for addresses in [[0x87, 0x02], [0x07, 0x82]] {
                let bytes = sd2(&[&addresses[..], &[fc, sap]].concat());
                assert_eq!(read(&bytes, Mode::Dpv0), Err(number), "{bytes:02X?}");
            }
        }
    }

    /// Contents with a right part for the codes that they have, and their bytes
    /// before the part, the SAPs included.
    const RIGHT: [(Content, &[u8], &[u8], usize); 22] = [
        (Content::DataExchange, &[1], CALLS, 0),
        (Content::DataExchange, &[1], ANSWERS, 0),
        (Content::Dpv1Call(Call::Poll), &[], CALLS, 2),
        (Content::Dpv1Call(Call::Idle), &[], CALLS, 3),
        (READ_CALL, &[], CALLS, 6),
        (WRITE_CALL, &[1, 2], CALLS, 6),
        (Content::Dpv1Answer(Answer::Idle), &[], ANSWERS, 3),
        (WRITE_ANSWER, &[], ANSWERS, 6),
        (NEGATIVE, &[], ANSWERS, 6),
        (Content::ExtUserPrm, &[1], CALLS, 2),
        (ADDRESS, &[], CALLS, 6),
        (Content::RdInp, &[], CALLS, 2),
        (Content::RdInp, &[1], ANSWERS, 2),
        (Content::RdOutp, &[], CALLS, 2),
        (Content::RdOutp, &[1], ANSWERS, 2),
        (CONTROL, &[], COMMANDS, 4),
        (Content::GetCfg, &[], CALLS, 2),
        (Content::GetCfg, &[0x13], ANSWERS, 2),
        (Content::SlaveDiagCall, &[], CALLS, 2),
        (Content::SlaveDiag(HEADER), &[2, 9], ANSWERS, 8),
        (Content::SetPrm(PARAMETERS), &[1], CALLS, 9),
        (Content::SetPrm(DPV1_PARAMETERS), &[], CALLS, 12),
    ];

    #[test]
    fn function_codes_in_writing() {
        for (content, part, codes, _) in RIGHT {
            for fc in 0..=255 {
                let telegram = fields(Format::Sd2, fc, content, part);
                let number = write(&telegram, &mut [0; 255]).err();
                let expected = match content {
                    _ if !FUNCTION_CODES.contains(&fc) => Some(12),
                    _ if codes.contains(&fc) => None,
                    // The other way, which these have with the same content.
                    Content::DataExchange if [CALLS, ANSWERS].concat().contains(&fc) => None,
                    Content::RdInp | Content::RdOutp if ANSWERS.contains(&fc) => None,
                    Content::RdInp | Content::RdOutp | Content::GetCfg
                        if [CALLS, ANSWERS].concat().contains(&fc) =>
                    {
                        Some(20)
                    }
                    _ => Some(10),
                };
                assert_eq!(number, expected, "{fc:02X} {telegram:?}");
            }
        }
        let telegram = |fc| fields(Format::Sd2, fc, Content::ChkCfg, &[0x13]);
        for fc in FUNCTION_CODES {
            let expected = (!CALLS.contains(&fc)).then_some(10);
            assert_eq!(write(&telegram(fc), &mut [0; 255]).err(), expected);
        }
    }

    #[test]
    fn services_go_by_the_codes_that_writing_takes() {
        let answers_too = [
            Service::DataExchange,
            Service::Dpv1,
            Service::RdInp,
            Service::RdOutp,
            Service::GetCfg,
            Service::SlaveDiag,
        ];
        for fc in 0..=255 {
            let points = ACCESS_POINTS.map(|point| point.service);
            for service in points.into_iter().chain([Service::DataExchange]) {
                let expected = match service {
                    Service::GlobalControl => COMMANDS.contains(&fc),
                    _ if answers_too.contains(&service) => {
                        CALLS.contains(&fc) || ANSWERS.contains(&fc)
                    }
                    _ => CALLS.contains(&fc),
                };
                assert_eq!(service.goes_by(fc), expected, "{service:?} {fc:02X}");
            }
        }
        // Other codes may carry the service with other contents.
        for (content, part, ..) in RIGHT {
            for fc in FUNCTION_CODES {
                let telegram = fields(Format::Sd2, fc, content, part);
                let is_refused = write(&telegram, &mut [0; 255]) == Err(10);
                let is_carried = content.service().goes_by(fc);
                assert!(is_carried || is_refused, "{telegram:?}");
            }
        }
    }

    #[test]
    fn data_length_is_the_contents_and_the_parts() {
        let bytes = [0x13; 260];
        let chk_cfg: (Content, &[u8], &[u8], usize) = (Content::ChkCfg, &[0x13], CALLS, 2);
        for (content, _, codes, before) in RIGHT.into_iter().chain([chk_cfg]) {
            for length in 0..=260 {
                let pdu_length = before + length;
                for (format, fits) in [
                    (Format::Sd1, pdu_length == 0),
                    (Format::Sd2, (1..=246).contains(&pdu_length)),
                    (Format::Sd3, pdu_length == 8),
                ] {
                    let telegram = fields(format, codes[0], content, &bytes[..length]);
                    let is_field = write(&telegram, &mut [0; 255]) == Err(12);
                    assert_eq!(is_field, !fits, "{telegram:?}");
                }
            }
        }
    }

    #[test]
    fn addresses_in_writing() {
        for (content, part, codes, _) in RIGHT {
            let telegram = fields(Format::Sd2, codes[0], content, part);
            for (da, sa, is_right) in [
                (127, 126, true),
                (0, 0, true),
                (128, 0, false),
                (255, 0, false),
                (0, 127, false),
                (0, 128, false),
                (0, 255, false),
            ] {
                let telegram = ServiceTelegram { da, sa, ..telegram };
                if is_right {
                    let mut out = [0; 255];
                    let length = write(&telegram, &mut out).expect("right");
                    let mode = match content {
                        Content::SetPrm(DPV1_PARAMETERS) => Mode::Dpv1,
                        _ => Mode::Dpv0,
                    };
                    assert_eq!(read(&out[..length], mode), Ok(telegram));
                } else {
                    expect::refused(12, |out| write(&telegram, out));
                }
            }
        }
    }

    #[test]
    fn each_fault_hides_the_later_ones_in_writing() {
        let wrong = Header {
            status1: 0x01,
            ..HEADER
        };
        let mut telegram = fields(Format::Sd2, 0x5D, Content::SlaveDiag(wrong), &[0x80]);
        #[rustfmt::skip]
        let with_a_bad_field = [
            ServiceTelegram { format: Format::Sd1, ..telegram },
            ServiceTelegram { format: Format::Sd3, ..telegram },
            ServiceTelegram { da: 128, ..telegram },
            ServiceTelegram { sa: 127, ..telegram },
            ServiceTelegram { fc: 0x4C, ..telegram },
            // With the SAPs and the header 247 bytes.
            ServiceTelegram { part: &[0; 239], ..telegram },
        ];
        for telegram in with_a_bad_field {
            expect::refused(12, |out| write(&telegram, out));
        }
        for fc in [0x00, 0x5D, 0x6D, 0x44, 0x49] {
            telegram.fc = fc;
            expect::refused(10, |out| write(&telegram, out));
        }
        telegram.fc = 0x08;
        expect::refused(21, |out| write(&telegram, out));
        telegram.content = Content::SlaveDiag(HEADER);
        expect::refused(24, |out| write(&telegram, out));
        telegram.part = &[2, 9];
        let bytes = with_saps(0x08, [62, 60], &[8, 12, 0, 2, 0x12, 0x34, 2, 9]);
        // This sees 11 too, and that nothing is stored with it.
        expect::written(&bytes, |out| write(&telegram, out));
    }

    fn expect_own_number(fc: u8, content: Content, part: &[u8], number: u8) {
        let telegram = fields(Format::Sd2, fc, content, part);
        expect::refused(number, |out| write(&telegram, out));
    }

    #[test]
    fn numbers_of_wrong_fields_in_writing() {
        let wrong_error = Content::Dpv1Answer(Answer::Negative {
            failed: Failed::Read,
            error: CallError {
                decode: 128,
                code1: 0x9F,
                code2: 0,
            },
        });
        let wrong_address = Content::SetSlaveAdr {
            address: 126,
            ident: 0,
            locked: 0,
        };
        let wrong_lock = Content::SetSlaveAdr {
            address: 125,
            ident: 0,
            locked: 2,
        };
        let wrong_command = Content::GlobalControl {
            command: 0x01,
            groups: 0,
        };
        let wrong_status = Content::SetPrm(ParameterFields {
            status: Some([0x01, 0, 0]),
            ..PARAMETERS
        });
        for (fc, content, part, number) in [
            (0x08, wrong_error, &[][..], 28),
            (0x08, wrong_error, &[0], 20),
            (0x5D, wrong_address, &[], 21),
            (0x5D, wrong_address, &[0], 20),
            (0x5D, wrong_lock, &[], 21),
            (0x5D, wrong_lock, &[0], 20),
            (0x44, wrong_command, &[], 21),
            (0x44, wrong_command, &[0], 20),
            (0x5D, wrong_status, &[], 21),
        ] {
            expect_own_number(fc, content, part, number);
        }
    }

    #[test]
    fn numbers_of_wrong_parts_in_writing() {
        for (fc, content, part, number) in [
            (0x5D, Content::Dpv1Call(Call::Poll), &[0][..], 20),
            (0x5D, WRITE_CALL, &[], 20),
            (0x5D, ADDRESS, &[0], 20),
            (0x44, CONTROL, &[0], 20),
            (0x5D, Content::RdInp, &[0], 20),
            (0x5D, Content::RdOutp, &[0], 20),
            (0x5D, Content::GetCfg, &[0x13], 20),
            (0x08, Content::GetCfg, &[], 20),
            (0x08, Content::GetCfg, &[0x40], 24),
            (0x5D, Content::SlaveDiagCall, &[0], 20),
            (0x08, Content::SlaveDiag(HEADER), &[], 22),
            (0x08, Content::SlaveDiag(NO_EXT_DIAG), &[2, 9], 22),
            (0x08, Content::SlaveDiag(HEADER), &[0xC0], 23),
            (0x08, Content::SlaveDiag(HEADER), &[0x80, 0x40], 24),
            (0x08, Content::SlaveDiag(HEADER), &[0x80, 0, 0x21], 25),
            (0x5D, Content::ChkCfg, &[], 20),
            (0x5D, Content::ChkCfg, &[0x8F], 26),
            (0x5D, Content::ChkCfg, &[0x40, 0xFF, 0x40, 0xFF], 27),
        ] {
            expect_own_number(fc, content, part, number);
        }
    }

    #[test]
    fn written_as_read() {
        let random = &mut Random::new(1);
        for mode in MODES {
            for bytes in sample::all_forms(random, mode) {
                let telegram = read(&bytes, mode).expect("valid");
                let start = bytes.len() - 2 - telegram.part.len();
                expect_both_ways(&bytes, mode, &telegram, start);
            }
            for _ in 0..20_000 {
                let bytes = sample::damaged(random, mode);
                if let Ok(telegram) = read(&bytes, mode) {
                    expect::written(&bytes, |out| write(&telegram, out));
                }
            }
        }
    }

    #[test]
    fn any_fields_are_read_back_or_left_unwritten() {
        let random = &mut Random::new(2);
        for mode in MODES {
            for _ in 0..30_000 {
                let fields = sample::any_fields(random, mode);
                let telegram = fields.telegram();
                let mut out = [0; 255];
                match write(&telegram, &mut out) {
                    Ok(length) => assert_eq!(read(&out[..length], mode), Ok(telegram)),
                    Err(number) => expect::refused(number, |out| write(&telegram, out)),
                }
            }
        }
    }
}
