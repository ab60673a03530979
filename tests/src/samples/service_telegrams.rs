//! Samples of whole service telegrams, the ways to damage one in one place with
//! the telegram around it right again, and fields of such telegrams to write.

use super::parameters::MODES;
use super::services::{self, Source};
use super::{acyclic_fields, configuration, control, diagnosis, parameters};
use super::{any_frame, any_valid as any_telegram, changed_and_mended, mostly_up_to, often_up_to};
use super::{changed_cut_or_lengthened, closed, destination, group, mend, sd2_around, station};
use super::{Group, EXTENSION_FLAG, FUNCTION_CODES, LONGEST_PDU, SD3_PDU};
use crate::random::Random;
use crate::reference::acyclic::{Answer, Call};
use crate::reference::diagnosis::Header;
use crate::reference::parameters::Mode;
use crate::reference::service::{Content, ParameterFields, Service, ServiceTelegram, Way};
use crate::reference::service_text::Service as Data;
use crate::reference::telegram::{Format, SD1, SD2, SD3};

/// The most bytes of a service's data, which with its SAPs just fit.
const LONGEST: usize = 244;
/// The bytes that can be lent.
const LENT: usize = 300;

/// The function codes of calls, those of functions 4 and 6, those of data
/// answers, and those that carry no service.
pub(super) const CALLS: &[u8] = FUNCTION_CODES.split_at(15).0;
pub(super) const COMMANDS: &[u8] = &[0x44, 0x46];
pub(super) const ANSWERS: &[u8] = FUNCTION_CODES.split_at(42).1;
#[rustfmt::skip]
const OTHERS: &[u8] = &[
    0x40, 0x49, 0x4E, 0x4F, 0xC0,
    0x00, 0x01, 0x02, 0x03, 0x09,
    0x10, 0x11, 0x12, 0x13, 0x19,
    0x20, 0x21, 0x22, 0x23, 0x29,
    0x30, 0x31, 0x32, 0x33, 0x39,
];

/// The slave's SAPs to which the master's is 62.
const SLAVE_SAPS: [u8; 9] = [53, 55, 56, 57, 58, 59, 60, 61, 62];

/// A service, one of its ways, and what its user data is.
#[derive(Clone, Copy, Debug)]
struct Form {
    service: Service,
    carried: Carried,
    /// The slave's SAP and the master's.
    saps: Option<(u8, u8)>,
    data: UserData,
}

#[derive(Clone, Copy, Debug, PartialEq, Eq)]
enum Carried {
    Call,
    Command,
    Answer,
}

impl Carried {
    fn codes(self) -> &'static [u8] {
        match self {
            Carried::Call => CALLS,
            Carried::Command => COMMANDS,
            Carried::Answer => ANSWERS,
        }
    }

    fn way(self) -> Way {
        match self {
            Carried::Call | Carried::Command => Way::Call,
            Carried::Answer => Way::Answer,
        }
    }
}

#[derive(Clone, Copy, Debug)]
enum UserData {
    /// No bytes.
    Empty,
    /// Any bytes, at most 244.
    Plain,
    /// What these samples make.
    Of(Data),
}

/// Every service with each of its ways, written out from document 01.
fn forms(mode: Mode) -> [Form; 17] {
    use UserData::{Empty, Of, Plain};
    let form = |service, carried, saps, data| Form {
        service,
        carried,
        saps,
        data,
    };
    let call = |slave, service, data| form(service, Carried::Call, Some((slave, 62)), data);
    let answer = |slave, service, data| form(service, Carried::Answer, Some((slave, 62)), data);
    let dpv1 = |carried, data| form(Service::Dpv1, carried, Some((51, 51)), Of(data));
    let command = Some((58, 62));
    [
        form(Service::DataExchange, Carried::Call, None, Plain),
        form(Service::DataExchange, Carried::Answer, None, Plain),
        dpv1(Carried::Call, Data::Dpv1Call),
        dpv1(Carried::Answer, Data::Dpv1Answer),
        call(53, Service::ExtUserPrm, Plain),
        call(55, Service::SetSlaveAdr, Of(Data::SetSlaveAdr)),
        call(56, Service::RdInp, Empty),
        answer(56, Service::RdInp, Plain),
        call(57, Service::RdOutp, Empty),
        answer(57, Service::RdOutp, Plain),
        form(
            Service::GlobalControl,
            Carried::Command,
            command,
            Of(Data::GlobalControl),
        ),
        call(59, Service::GetCfg, Empty),
        answer(59, Service::GetCfg, Of(Data::Configuration)),
        call(60, Service::SlaveDiag, Empty),
        answer(60, Service::SlaveDiag, Of(Data::Diagnosis)),
        call(61, Service::SetPrm, Of(Data::Parameters(mode))),
        call(62, Service::ChkCfg, Of(Data::Configuration)),
    ]
}

/// Every service with each of its ways.
pub fn kinds() -> [(Service, Way); 17] {
    // The mode changes only what parameters are.
    forms(Mode::Dpv0).map(|form| (form.service, form.carried.way()))
}

impl Form {
    /// Any of the forms.
    fn any(random: &mut Random, mode: Mode) -> Self {
        *random.pick(&forms(mode))
    }

    /// Any of the forms that this is true of; there is one.
    fn any_that(random: &mut Random, mode: Mode, is_good: impl Fn(&Form) -> bool) -> Self {
        let good: Vec<Form> = forms(mode).into_iter().filter(is_good).collect();
        *random.pick(&good)
    }

    fn has_saps(&self) -> bool {
        self.saps.is_some()
    }

    /// Whether its pair turned round is another.
    fn is_turned(&self) -> bool {
        self.saps.is_some_and(|(slave, master)| slave != master)
    }

    /// Valid user data of any shape.
    fn any_data(&self, random: &mut Random) -> Vec<u8> {
        match self.data {
            UserData::Empty => Vec::new(),
            UserData::Plain => {
                let length = often_up_to(random, 0, 16, LONGEST);
                random.bytes(length)
            }
            UserData::Of(data) => services::any_valid(random, data),
        }
    }

    /// Valid user data of every shape.
    fn all_data(&self, random: &mut Random) -> Vec<Vec<u8>> {
        match self.data {
            UserData::Empty => vec![Vec::new()],
            UserData::Plain => (0..=LONGEST).map(|length| random.bytes(length)).collect(),
            UserData::Of(data) => services::all_forms(random, data),
        }
    }

    /// The most user data that fits an SD2.
    fn most_data(&self) -> usize {
        if self.has_saps() {
            LONGEST
        } else {
            LONGEST_PDU
        }
    }

    /// The ways to damage its user data in one place, or to have too much of it;
    /// plain bytes beside SAPs cannot be wrong.
    fn data_damages(&self) -> Vec<Source> {
        let any_of = |low, short, high| {
            move |random: &mut Random| {
                let length = often_up_to(random, low, short, high);
                random.bytes(length)
            }
        };
        match self.data {
            UserData::Empty => vec![Source::new("data", any_of(1, 8, LONGEST))],
            UserData::Plain if self.has_saps() => Vec::new(),
            UserData::Plain => {
                let make = any_of(LONGEST + 1, LONGEST_PDU, LONGEST_PDU);
                vec![Source::new("over 244 bytes", make)]
            }
            UserData::Of(data) => services::damages(data),
        }
    }

    /// User data damaged by a source that still fits an SD2.
    fn damaged_data(&self, random: &mut Random, source: &Source) -> Vec<u8> {
        loop {
            let bytes = source.sample(random);
            if bytes.len() <= self.most_data() {
                return bytes;
            }
        }
    }

    /// A telegram of this form with this data, still in its parts.
    fn around(&self, random: &mut Random, data: Vec<u8>) -> Parts {
        let slave = self.saps.map(|(slave, _)| slave);
        let master = self.saps.map(|(_, master)| master);
        let (dsap, ssap) = match self.carried {
            Carried::Call | Carried::Command => (slave, master),
            Carried::Answer => (master, slave),
        };
        Parts {
            da: destination(random),
            sa: station(random),
            fc: *random.pick(self.carried.codes()),
            dsap,
            ssap,
            data,
        }
    }

    /// A valid telegram of this form, still in its parts.
    fn any_parts(&self, random: &mut Random) -> Parts {
        let data = self.any_data(random);
        self.around(random, data)
    }
}

/// What a telegram is made of.
#[derive(Clone, Debug)]
struct Parts {
    da: u8,
    sa: u8,
    fc: u8,
    dsap: Option<u8>,
    ssap: Option<u8>,
    data: Vec<u8>,
}

impl Parts {
    /// The telegram in each format that the parts fit, all else right.
    fn telegrams(&self) -> Vec<Vec<u8>> {
        let flag = |sap: Option<u8>| sap.map_or(0, |_| EXTENSION_FLAG);
        let mut body = vec![
            self.da | flag(self.dsap),
            self.sa | flag(self.ssap),
            self.fc,
        ];
        let header_length = body.len();
        body.extend(self.dsap);
        body.extend(self.ssap);
        body.extend(&self.data);
        match body.len() - header_length {
            0 => vec![closed(vec![SD1], &body)],
            SD3_PDU => vec![sd2_around(&body), closed(vec![SD3], &body)],
            _ => vec![sd2_around(&body)],
        }
    }

    /// The telegram in one of these formats.
    fn telegram(&self, random: &mut Random) -> Vec<u8> {
        let telegrams = self.telegrams();
        random.pick(&telegrams).clone()
    }

    /// The SAP of the destination or that of the source.
    fn either_sap(&mut self, random: &mut Random) -> &mut Option<u8> {
        match random.below(2) {
            0 => &mut self.dsap,
            _ => &mut self.ssap,
        }
    }

    /// Whether the pair is a service's; that of an answer is turned round.
    fn is_service(&self, carried: Carried) -> bool {
        let (slave, master) = match carried {
            Carried::Call | Carried::Command => (self.dsap, self.ssap),
            Carried::Answer => (self.ssap, self.dsap),
        };
        match (slave, master) {
            (Some(slave), Some(62)) => SLAVE_SAPS.contains(&slave),
            pair => pair == (Some(51), Some(51)),
        }
    }
}

/// A valid service telegram.
pub fn any_valid(random: &mut Random, mode: Mode) -> Vec<u8> {
    let form = Form::any(random, mode);
    form.any_parts(random).telegram(random)
}

/// Valid service telegrams: every service and way with every function code, with
/// user data of every form, and in each format.
pub fn all_forms(random: &mut Random, mode: Mode) -> Vec<Vec<u8>> {
    let mut telegrams = Vec::new();
    for form in forms(mode) {
        for fc in form.carried.codes() {
            let mut parts = form.any_parts(random);
            parts.fc = *fc;
            telegrams.extend(parts.telegrams());
        }
        for data in form.all_data(random) {
            telegrams.extend(form.around(random, data).telegrams());
        }
    }
    telegrams
}

/// One SAP changed to another, and the pair no service's: reading gives 10.
pub fn sap_wrong(random: &mut Random, mode: Mode) -> Vec<u8> {
    let form = Form::any_that(random, mode, Form::has_saps);
    let right = form.any_parts(random);
    loop {
        let mut parts = right.clone();
        *parts.either_sap(random) = Some(random.below(64) as u8);
        if !parts.is_service(form.carried) {
            return parts.telegram(random);
        }
    }
}

/// The SAPs of any service, with the user data of another.
pub fn saps_of_another(random: &mut Random, mode: Mode) -> Vec<u8> {
    let mut form = Form::any(random, mode);
    form.saps = Form::any(random, mode).saps;
    form.any_parts(random).telegram(random)
}

/// One SAP dropped, or one where there were none: reading gives 10.
pub fn one_sap(random: &mut Random, mode: Mode) -> Vec<u8> {
    let mut parts = Form::any(random, mode).any_parts(random);
    let sap = *random.pick(&SLAVE_SAPS);
    let is_absent = parts.dsap.is_none();
    *parts.either_sap(random) = is_absent.then_some(sap);
    parts.telegram(random)
}

/// The pair of a call in an answer or that of an answer in a call: reading gives
/// 10.
pub fn pair_turned(random: &mut Random, mode: Mode) -> Vec<u8> {
    let form = Form::any_that(random, mode, Form::is_turned);
    let mut parts = form.any_parts(random);
    (parts.dsap, parts.ssap) = (parts.ssap, parts.dsap);
    parts.telegram(random)
}

/// A function code that the service has not, or not with this pair: reading
/// gives 10.
pub fn function_code_wrong(random: &mut Random, mode: Mode) -> Vec<u8> {
    let form = Form::any(random, mode);
    let mut codes = vec![OTHERS];
    match form.carried {
        Carried::Command => codes.extend([CALLS, ANSWERS]),
        Carried::Call | Carried::Answer => codes.push(COMMANDS),
    }
    // Turned round the pair is none, and from 62 comes no answer.
    if form.is_turned() || form.service == Service::ChkCfg {
        codes.push(match form.carried {
            Carried::Call | Carried::Command => ANSWERS,
            Carried::Answer => CALLS,
        });
    }
    let mut parts = form.any_parts(random);
    let codes = *random.pick(&codes);
    parts.fc = *random.pick(codes);
    parts.telegram(random)
}

/// An answer, with its pair turned round, from a service that gives none:
/// reading gives 10.
pub fn answer_wrong(random: &mut Random, mode: Mode) -> Vec<u8> {
    const SILENT: [u8; 5] = [53, 55, 58, 61, 62];
    let mut form = Form::any_that(random, mode, |form| {
        form.saps.is_some_and(|(slave, _)| SILENT.contains(&slave))
    });
    form.carried = Carried::Answer;
    form.any_parts(random).telegram(random)
}

/// Another function code of any class, or a reserved one.
pub fn function_code_changed(random: &mut Random, mode: Mode) -> Vec<u8> {
    let mut parts = Form::any(random, mode).any_parts(random);
    parts.fc = match random.below(4) {
        0 => random.other_byte(parts.fc),
        _ => *random.pick(&FUNCTION_CODES),
    };
    parts.telegram(random)
}

/// The user data damaged as the service's own samples do it, or there where the
/// service has none, or more than 244 bytes of process data.
pub fn data_damaged(random: &mut Random, mode: Mode) -> Vec<u8> {
    let form = Form::any_that(random, mode, |form| {
        let is_plain = matches!(form.data, UserData::Plain);
        !(is_plain && form.has_saps())
    });
    let damages = form.data_damages();
    let source = random.pick(&damages);
    let data = form.damaged_data(random, source);
    form.around(random, data).telegram(random)
}

/// A telegram of any kind, which may be no service's.
pub fn any_other(random: &mut Random, _: Mode) -> Vec<u8> {
    match random.below(2) {
        0 => any_telegram(random),
        _ => any_frame(random),
    }
}

/// The telegram itself damaged: a byte changed, with the checksum right again or
/// not, some bytes cut off or some added.
pub fn telegram_damaged(random: &mut Random, mode: Mode) -> Vec<u8> {
    let telegram = any_valid(random, mode);
    match random.below(2) {
        0 => changed_cut_or_lengthened(random, &telegram),
        _ => changed_and_mended(random, &telegram),
    }
}

/// Makes one sample for the mode.
pub type Make = fn(&mut Random, Mode) -> Vec<u8>;

/// The ways to damage a service telegram, and what they are.
pub const DAMAGES: [(&str, Make); 10] = [
    ("a SAP of no service", sap_wrong),
    ("SAPs of another service", saps_of_another),
    ("one SAP of two", one_sap),
    ("pair turned round", pair_turned),
    ("function code of a wrong class", function_code_wrong),
    ("answer from a service without", answer_wrong),
    ("another function code", function_code_changed),
    ("user data damaged", data_damaged),
    ("any telegram", any_other),
    ("telegram damaged", telegram_damaged),
];

/// Damage of any kind.
pub fn damaged(random: &mut Random, mode: Mode) -> Vec<u8> {
    let (_, make) = *random.pick(&DAMAGES);
    make(random, mode)
}

/// The bytes of an SD2 with both SAPs, which may be above 63.
pub fn with_saps(fc: u8, [dsap, ssap]: [u8; 2], data: &[u8]) -> Vec<u8> {
    sd2_around(&[&[0x87, 0x82, fc, dsap, ssap], data].concat())
}

/// 100,000 service telegrams, the same at every call: valid ones of all forms and
/// of any shape, and as many again with damage of each kind.
pub fn seeded(mode: Mode) -> Vec<Vec<u8>> {
    const CASES: usize = 100_000;
    const ANY_OF_EACH_ROUND: usize = 5000;
    let random = &mut Random::new(2031);
    let mut telegrams = Vec::new();
    while telegrams.len() < CASES / 2 {
        telegrams.extend(all_forms(random, mode));
        telegrams.extend((0..ANY_OF_EACH_ROUND).map(|_| any_valid(random, mode)));
    }
    telegrams.truncate(CASES / 2);
    let damages = DAMAGES.iter().cycle().take(CASES / 2);
    let damaged: Vec<Vec<u8>> = damages.map(|(_, make)| make(random, mode)).collect();
    telegrams.extend(damaged);
    telegrams
}

/// The service telegrams of the vectors: the same at every call.
pub fn groups() -> Vec<(Mode, Group)> {
    let random = &mut Random::new(2030);
    let mut groups = Vec::new();
    for mode in MODES {
        let of_mode = groups_of(random, mode).into_iter();
        groups.extend(of_mode.map(|group| (mode, group)));
    }
    groups
}

fn groups_of(random: &mut Random, mode: Mode) -> Vec<Group> {
    const EACH: usize = 3;
    let any = (0..2 * EACH).map(|_| any_valid(random, mode)).collect();
    let mut groups = vec![
        group("worked rows of document 01 as answers", worked_rows()),
        group("valid in each format", each_format(random, mode)),
        group("valid with each function code", each_code(random, mode)),
        group("valid of any length", any),
        group("user data damaged in each way", each_damage(random, mode)),
        group("telegram damaged in each way", each_frame_damage()),
    ];
    for (name, make) in DAMAGES {
        let samples = (0..EACH).map(|_| shortish(random, |random| make(random, mode)));
        groups.push(group(name, samples.collect()));
    }
    groups
}

/// Document 01's rows of a diagnosis and of a configuration, as answers.
pub fn worked_rows() -> Vec<Vec<u8>> {
    vec![
        with_saps(0x08, [62, 60], &diagnosis::WORKED_ROW),
        with_saps(0x08, [62, 59], &configuration::WORKED_ROW),
    ]
}

/// The shortest of three samples, of which one alone would often be long.
fn shortish(random: &mut Random, make: impl Fn(&mut Random) -> Vec<u8>) -> Vec<u8> {
    let samples = [(); 3].map(|()| make(random));
    samples.into_iter().min_by_key(Vec::len).expect("three")
}

/// One telegram of every service and way in each format that it can have.
fn each_format(random: &mut Random, mode: Mode) -> Vec<Vec<u8>> {
    const SHORT: usize = 32;
    let mut telegrams = Vec::new();
    for form in forms(mode) {
        let all = form.all_data(random).into_iter();
        let mut all: Vec<Vec<u8>> = all
            .flat_map(|data| form.around(random, data).telegrams())
            .collect();
        all.retain(|telegram| telegram.len() <= SHORT);
        for start in [SD1, SD2, SD3] {
            let of_format = all.iter().filter(|telegram| telegram[0] == start);
            let of_format: Vec<&Vec<u8>> = of_format.collect();
            if !of_format.is_empty() {
                telegrams.push(random.pick(&of_format).to_vec());
            }
        }
    }
    telegrams
}

/// One telegram with every function code that carries a service, the services in
/// turn.
fn each_code(random: &mut Random, mode: Mode) -> Vec<Vec<u8>> {
    let mut telegrams = Vec::new();
    for carried in [Carried::Call, Carried::Command, Carried::Answer] {
        let mut of_kind = forms(mode).to_vec();
        of_kind.retain(|form| form.carried == carried);
        for (form, fc) in of_kind.iter().cycle().zip(carried.codes()) {
            let data = shortish(random, |random| form.any_data(random));
            let mut parts = form.around(random, data);
            parts.fc = *fc;
            telegrams.push(parts.telegram(random));
        }
    }
    telegrams
}

/// One telegram of every service and way with user data damaged in each way.
fn each_damage(random: &mut Random, mode: Mode) -> Vec<Vec<u8>> {
    let mut telegrams = Vec::new();
    for form in forms(mode) {
        for source in form.data_damages() {
            let data = shortish(random, |random| form.damaged_data(random, &source));
            telegrams.push(form.around(random, data).telegram(random));
        }
    }
    telegrams
}

/// A call of Slave_Diag with each fault that is the telegram's own.
fn each_frame_damage() -> Vec<Vec<u8>> {
    let valid = with_saps(0x5D, [60, 62], &[]);
    let changed = |place: usize, byte| {
        let mut damaged = valid.clone();
        damaged[place] = byte;
        damaged
    };
    let changed_and_mended = |place, byte| {
        let mut damaged = changed(place, byte);
        mend(&mut damaged);
        damaged
    };
    vec![
        valid[..valid.len() - 1].to_vec(),
        // The start byte and LE.
        changed(0, 0x69),
        changed(1, 0x06),
        [valid.as_slice(), &[0x00]].concat(),
        // The end byte and the checksum.
        changed(10, 0x17),
        changed(9, 0x00),
        // SA 127, a reserved function code and a SAP above 63.
        changed_and_mended(5, 0xFF),
        changed_and_mended(6, 0x4C),
        changed_and_mended(7, 0x40),
    ]
}

/// The fields of a service telegram, with a part of its own.
#[derive(Clone, Debug)]
pub struct Fields {
    /// SD1, SD2 or SD3.
    pub format: Format,
    /// Destination.
    pub da: u8,
    /// Source.
    pub sa: u8,
    /// Function code.
    pub fc: u8,
    /// What it says.
    pub content: Content,
    /// The bytes that it lends.
    pub part: Vec<u8>,
}

impl Fields {
    /// The service telegram to write.
    pub fn telegram(&self) -> ServiceTelegram<'_> {
        ServiceTelegram {
            format: self.format,
            da: self.da,
            sa: self.sa,
            fc: self.fc,
            content: self.content,
            part: &self.part,
        }
    }
}

/// Fields to write, more often right than wrong.
pub fn any_fields(random: &mut Random, mode: Mode) -> Fields {
    let form = Form::any(random, mode);
    let Said {
        content,
        fixed_length,
        part,
    } = any_said(random, form, mode);
    let saps_length = if form.has_saps() { 2 } else { 0 };
    let format = match (random.below(16), saps_length + fixed_length + part.len()) {
        (0, _) => *random.pick(&[Format::Sd1, Format::Sd2, Format::Sd3]),
        (_, 0) => Format::Sd1,
        (1..8, SD3_PDU) => Format::Sd3,
        _ => Format::Sd2,
    };
    Fields {
        format,
        da: mostly_up_to(random, 127),
        sa: mostly_up_to(random, 126),
        fc: match random.below(16) {
            0 => random.byte(),
            1 | 2 => *random.pick(&FUNCTION_CODES),
            _ => *random.pick(form.carried.codes()),
        },
        content,
        part,
    }
}

/// What a telegram to write says.
struct Said {
    content: Content,
    /// How many bytes stand before the part.
    fixed_length: usize,
    part: Vec<u8>,
}

impl Said {
    fn new(content: Content, fixed_length: usize, part: &[u8]) -> Self {
        let part = part.to_vec();
        Said {
            content,
            fixed_length,
            part,
        }
    }
}

fn any_said(random: &mut Random, form: Form, mode: Mode) -> Said {
    match (form.service, form.carried) {
        (Service::DataExchange, _) => Said::new(Content::DataExchange, 0, &any_plain(random)),
        (Service::Dpv1, Carried::Answer) => any_dpv1_answer(random),
        (Service::Dpv1, _) => any_dpv1_call(random),
        (Service::ExtUserPrm, _) => Said::new(Content::ExtUserPrm, 0, &any_plain(random)),
        (Service::SetSlaveAdr, _) => any_set_slave_adr(random),
        (Service::RdInp, Carried::Answer) => Said::new(Content::RdInp, 0, &any_plain(random)),
        (Service::RdInp, _) => Said::new(Content::RdInp, 0, &mostly_empty(random)),
        (Service::RdOutp, Carried::Answer) => Said::new(Content::RdOutp, 0, &any_plain(random)),
        (Service::RdOutp, _) => Said::new(Content::RdOutp, 0, &mostly_empty(random)),
        (Service::GlobalControl, _) => any_global_control(random),
        (Service::GetCfg, Carried::Answer) => Said::new(Content::GetCfg, 0, &any_modules(random)),
        (Service::GetCfg, _) => Said::new(Content::GetCfg, 0, &mostly_empty(random)),
        (Service::SlaveDiag, Carried::Answer) => any_diagnosis(random),
        (Service::SlaveDiag, _) => Said::new(Content::SlaveDiagCall, 0, &mostly_empty(random)),
        (Service::SetPrm, _) => any_parameters(random, mode),
        (Service::ChkCfg, _) => Said::new(Content::ChkCfg, 0, &any_modules(random)),
    }
}

/// Mostly not too many bytes.
fn any_plain(random: &mut Random) -> Vec<u8> {
    let length = match random.below(16) {
        0 => random.between(LONGEST + 1, LENT),
        1 => random.between(LONGEST, LONGEST_PDU + 1),
        2 => SD3_PDU,
        _ => often_up_to(random, 0, 16, LONGEST),
    };
    random.bytes(length)
}

/// Mostly nothing.
fn mostly_empty(random: &mut Random) -> Vec<u8> {
    match random.below(8) {
        0 => random.bytes(1),
        1 => any_plain(random),
        _ => Vec::new(),
    }
}

/// Mostly a right configuration.
fn any_modules(random: &mut Random) -> Vec<u8> {
    match random.below(4) {
        0 => configuration::damaged(random),
        _ => configuration::any_valid(random).bytes,
    }
}

fn any_dpv1_call(random: &mut Random) -> Said {
    let lent = random.bytes(LENT);
    let (call, data) = acyclic_fields::any_call(random, &lent);
    let fixed_length = match call {
        Call::Poll => 0,
        Call::Idle => 1,
        _ => 4,
    };
    Said::new(Content::Dpv1Call(call), fixed_length, data)
}

fn any_dpv1_answer(random: &mut Random) -> Said {
    let lent = random.bytes(LENT);
    let (answer, data) = acyclic_fields::any_answer(random, &lent);
    let fixed_length = match answer {
        Answer::Idle => 1,
        _ => 4,
    };
    Said::new(Content::Dpv1Answer(answer), fixed_length, data)
}

fn any_set_slave_adr(random: &mut Random) -> Said {
    let lent = random.bytes(LENT);
    let fields = control::any_set_slave_adr(random, &lent);
    let content = Content::SetSlaveAdr {
        address: fields.address,
        ident: fields.ident,
        locked: fields.locked,
    };
    Said::new(content, 4, fields.rest)
}

fn any_global_control(random: &mut Random) -> Said {
    let lent = random.bytes(LENT);
    let fields = control::any_global_control(random, &lent);
    let content = Content::GlobalControl {
        command: fields.command,
        groups: fields.groups,
    };
    Said::new(content, 2, fields.rest)
}

/// Mostly a right diagnosis.
fn any_diagnosis(random: &mut Random) -> Said {
    loop {
        let bytes = match random.below(3) {
            0 => diagnosis::damaged(random),
            _ => diagnosis::any_valid(random),
        };
        if let Some((header, blocks)) = bytes.split_first_chunk() {
            let content = Content::SlaveDiag(Header::from_bytes(*header));
            return Said::new(content, header.len(), blocks);
        }
    }
}

fn any_parameters(random: &mut Random, mode: Mode) -> Said {
    let lent = random.bytes(LENT);
    let fields = parameters::any_fields(random, mode, &lent);
    let content = Content::SetPrm(ParameterFields::of(&fields));
    Said::new(content, parameters::shortest(mode), fields.user)
}

#[cfg(test)]
mod tests {
    use super::*;
    use crate::reference::service::{read, write};
    use crate::samples::service_outcomes::READING_REFUSALS;
    use std::collections::BTreeSet;

    /// The format as its place among the kinds.
    fn place(format: Format) -> u8 {
        match format {
            Format::Sd1 => 1,
            Format::Sd2 => 2,
            Format::Sd3 => 3,
        }
    }

    /// What service, way and format there can be, by hand from the lengths.
    fn expected_kinds() -> BTreeSet<(Service, Way, u8)> {
        let both_ways = [
            Service::DataExchange,
            Service::Dpv1,
            Service::RdInp,
            Service::RdOutp,
            Service::GetCfg,
            Service::SlaveDiag,
        ];
        let calls_alone = [
            Service::ExtUserPrm,
            Service::SetSlaveAdr,
            Service::GlobalControl,
            Service::SetPrm,
            Service::ChkCfg,
        ];
        let mut kinds = BTreeSet::new();
        for service in both_ways {
            kinds.extend([(service, Way::Call, 2), (service, Way::Answer, 2)]);
            kinds.insert((service, Way::Answer, 3));
        }
        kinds.extend(calls_alone.map(|service| (service, Way::Call, 2)));
        for way in [Way::Call, Way::Answer] {
            kinds.insert((Service::DataExchange, way, 1));
        }
        // Eight bytes of process data, or six beside the SAPs.
        for service in [
            Service::DataExchange,
            Service::Dpv1,
            Service::ExtUserPrm,
            Service::ChkCfg,
        ] {
            kinds.insert((service, Way::Call, 3));
        }
        kinds
    }

    #[test]
    fn valid_ones_are_read_and_are_of_every_kind() {
        let random = &mut Random::new(1);
        let codes: BTreeSet<u8> = [CALLS, COMMANDS, ANSWERS].concat().into_iter().collect();
        assert_eq!(codes.len(), 33);
        assert_eq!(expected_kinds().len(), 29);
        for mode in MODES {
            let all = all_forms(random, mode);
            let any: Vec<Vec<u8>> = (0..20_000).map(|_| any_valid(random, mode)).collect();
            for telegrams in [all, any] {
                let mut kinds = BTreeSet::new();
                let mut found_codes = BTreeSet::new();
                for bytes in telegrams {
                    let telegram = read(&bytes, mode).expect("valid");
                    let service = telegram.content.service();
                    kinds.insert((service, telegram.way(), place(telegram.format)));
                    found_codes.insert(telegram.fc);
                }
                assert_eq!(kinds, expected_kinds());
                assert_eq!(found_codes, codes);
            }
        }
    }

    #[test]
    fn carried_and_other_codes_are_all_that_are_not_reserved() {
        let mut codes = [CALLS, COMMANDS, ANSWERS, OTHERS].concat();
        codes.sort_unstable();
        let mut all = FUNCTION_CODES;
        all.sort_unstable();
        assert_eq!(codes, all);
    }

    #[test]
    fn damage_that_leaves_no_service_gets_10() {
        let makes: [Make; 5] = [
            sap_wrong,
            one_sap,
            pair_turned,
            function_code_wrong,
            answer_wrong,
        ];
        let random = &mut Random::new(2);
        for make in makes {
            for mode in MODES {
                for _ in 0..3000 {
                    let bytes = make(random, mode);
                    assert_eq!(read(&bytes, mode), Err(10), "{bytes:02X?}");
                }
            }
        }
    }

    /// What reading gives for many samples, with 0 for those accepted.
    fn numbers(make: Make) -> BTreeSet<u8> {
        let random = &mut Random::new(3);
        let mut numbers = BTreeSet::new();
        for mode in MODES {
            for _ in 0..20_000 {
                let bytes = make(random, mode);
                assert!(bytes.len() <= LENT, "{bytes:02X?}");
                numbers.insert(read(&bytes, mode).err().unwrap_or(0));
            }
        }
        numbers
    }

    #[test]
    fn other_damage_reaches_its_numbers_and_no_other() {
        assert_eq!(
            numbers(data_damaged),
            BTreeSet::from_iter([0].into_iter().chain(20..=28))
        );
        let found = numbers(saps_of_another);
        assert!(found.is_superset(&BTreeSet::from([0, 10, 20, 21, 28])));
        assert!(found.is_disjoint(&BTreeSet::from_iter(1..=9)));
        let expected = BTreeSet::from([0, 8, 10, 20, 28]);
        assert_eq!(numbers(function_code_changed), expected);
        let expected = BTreeSet::from_iter((0..=10).chain(20..=28));
        assert_eq!(numbers(damaged), expected);
    }

    /// The formats of what is accepted of each service and way, and the numbers of
    /// the rest.
    fn outcomes<'a>(
        telegrams: impl Iterator<Item = &'a Vec<u8>>,
        mode: Mode,
    ) -> (BTreeSet<(Service, Way, u8)>, BTreeSet<u8>) {
        let mut kinds = BTreeSet::new();
        let mut numbers = BTreeSet::new();
        for bytes in telegrams {
            match read(bytes, mode) {
                Ok(telegram) => {
                    let service = telegram.content.service();
                    kinds.insert((service, telegram.way(), place(telegram.format)));
                }
                Err(number) => {
                    numbers.insert(number);
                }
            }
        }
        (kinds, numbers)
    }

    #[test]
    fn seeded_ones_reach_every_outcome() {
        for mode in MODES {
            let telegrams = seeded(mode);
            assert_eq!(telegrams.len(), 100_000);
            let expected = (expected_kinds(), BTreeSet::from(READING_REFUSALS));
            assert_eq!(outcomes(telegrams.iter(), mode), expected);
        }
    }

    #[test]
    fn kinds_are_every_service_and_way() {
        let expected: BTreeSet<(Service, Way)> = expected_kinds()
            .into_iter()
            .map(|(service, way, _)| (service, way))
            .collect();
        assert_eq!(BTreeSet::from(kinds()), expected);
    }

    #[test]
    fn faults_of_the_telegram_come_in_their_order() {
        for mode in MODES {
            let telegrams = each_frame_damage();
            let numbers = telegrams.iter().map(|bytes| read(bytes, mode).err());
            assert!(numbers.eq((1..=9).map(Some)));
        }
    }

    #[test]
    fn groups_reach_every_outcome() {
        let groups = groups();
        for mode in MODES {
            let of_mode = groups.iter().filter(|(of, _)| *of == mode);
            let telegrams = of_mode.clone().flat_map(|(_, group)| &group.inputs);
            let expected = (expected_kinds(), BTreeSet::from(READING_REFUSALS));
            assert_eq!(outcomes(telegrams, mode), expected);
            let is_valid = |name: &str| name.starts_with("valid") || name.starts_with("worked");
            let valid = of_mode.filter(|(_, group)| is_valid(group.name));
            let valid = valid.flat_map(|(_, group)| &group.inputs);
            let codes = valid.map(|bytes| read(bytes, mode).expect("valid").fc);
            let codes: BTreeSet<u8> = codes.collect();
            assert_eq!(
                codes,
                BTreeSet::from_iter([CALLS, COMMANDS, ANSWERS].concat())
            );
        }
    }

    #[test]
    fn any_fields_are_right_and_wrong_for_every_service() {
        let random = &mut Random::new(4);
        let mut numbers = BTreeSet::new();
        let mut kinds = BTreeSet::new();
        for mode in MODES {
            for _ in 0..30_000 {
                let fields = any_fields(random, mode);
                let telegram = fields.telegram();
                match write(&telegram, &mut [0; 255]) {
                    Ok(_) => {
                        let service = telegram.content.service();
                        kinds.insert((service, telegram.way(), place(fields.format)));
                    }
                    Err(number) => {
                        numbers.insert(number);
                    }
                }
            }
        }
        assert_eq!(kinds, expected_kinds());
        assert_eq!(
            numbers,
            BTreeSet::from_iter([10, 12].into_iter().chain(20..=28))
        );
    }
}
