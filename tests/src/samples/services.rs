//! Samples of every service's data by the service, and those of the vectors.

use super::{acyclic, books, configuration, control, diagnosis, parameters, typed};
use super::{cut_short, group, lengthened, often_up_to, with_one_byte_changed, Group};
use crate::random::Random;
use crate::reference::control::{GLOBAL_CONTROL_LENGTH, SET_SLAVE_ADR_LENGTH};
use crate::reference::parameters::Mode;
use crate::reference::service_text::Service;
use std::iter;

/// The most bytes of a line of the vectors that holds no book, nor its fields.
pub(super) const LONGEST_LINE: usize = 512;
/// The most bytes of a line that does.
pub(super) const LONGEST_BOOK_LINE: usize = 4096;
/// The most bytes of all books of the vectors but one, which is the longest.
const SHORT_BOOK: usize = 48;

/// Makes one sample.
type Make = dyn Fn(&mut Random) -> Vec<u8>;

/// A way to make samples.
pub struct Source {
    /// What they are.
    pub name: &'static str,
    make: Box<Make>,
}

impl Source {
    pub(super) fn new(name: &'static str, make: impl Fn(&mut Random) -> Vec<u8> + 'static) -> Self {
        let make = Box::new(make);
        Source { name, make }
    }

    /// Makes one sample.
    pub fn sample(&self, random: &mut Random) -> Vec<u8> {
        (self.make)(random)
    }
}

/// The numbers that the data can be refused with, written out from document 01.
pub fn refusals(service: Service) -> &'static [u8] {
    match service {
        Service::Diagnosis => &[20, 21, 22, 23, 24, 25],
        Service::Configuration => &[20, 24, 26, 27],
        Service::Parameters(_) | Service::SetSlaveAdr | Service::GlobalControl => &[20, 21],
        Service::Dpv1Call | Service::Dpv1Answer => &[20, 21, 28],
        Service::TypedValue => &[20, 29],
        Service::Book => &[1, 4, 32],
    }
}

/// Valid data of any shape.
pub fn any_valid(random: &mut Random, service: Service) -> Vec<u8> {
    match service {
        Service::Diagnosis => diagnosis::any_valid(random),
        Service::Parameters(mode) => parameters::any_valid(random, mode),
        Service::Configuration => configuration::any_valid(random).bytes,
        Service::SetSlaveAdr => control::set_slave_adr(random),
        Service::GlobalControl => control::global_control(random),
        Service::Dpv1Call => acyclic::any_call(random),
        Service::Dpv1Answer => acyclic::any_answer(random),
        Service::TypedValue => typed::any_valid(random),
        Service::Book => books::any_valid(random),
    }
}

/// The same with bytes to damage, which a poll has not.
fn any_valid_with_bytes(random: &mut Random, service: Service) -> Vec<u8> {
    match service {
        Service::Dpv1Call => acyclic::any_call_with_bytes(random),
        _ => any_valid(random, service),
    }
}

/// Valid data of every form.
pub fn all_forms(random: &mut Random, service: Service) -> Vec<Vec<u8>> {
    match service {
        Service::Diagnosis => diagnosis::all_forms(random),
        Service::Parameters(mode) => parameters::all_forms(random, mode),
        Service::Configuration => bytes_of(configuration::all_forms(random)),
        Service::SetSlaveAdr => control::all_set_slave_adr(random),
        Service::GlobalControl => control::all_global_control(random),
        Service::Dpv1Call => acyclic::all_calls(random),
        Service::Dpv1Answer => acyclic::all_answers(random),
        Service::TypedValue => typed::all_forms(random),
        Service::Book => books::all_forms(random),
    }
}

/// Valid data of each shape, few enough for the vectors.
fn few_forms(random: &mut Random, service: Service) -> Vec<Vec<u8>> {
    match service {
        Service::Diagnosis => diagnosis::few_forms(random),
        Service::Parameters(mode) => parameters::few_forms(random, mode),
        Service::Configuration => bytes_of(configuration::few_forms(random)),
        Service::SetSlaveAdr => control::few_set_slave_adr(random),
        Service::GlobalControl => control::few_global_control(random),
        Service::Dpv1Call => acyclic::few_calls(random),
        Service::Dpv1Answer => acyclic::few_answers(random),
        Service::TypedValue => typed::few_forms(),
        Service::Book => few_books(random),
    }
}

/// Short books of any shape, and the longest of all.
fn few_books(random: &mut Random) -> Vec<Vec<u8>> {
    const FEW: usize = 6;
    let longest = books::all_forms(random).into_iter().max_by_key(Vec::len);
    let any = iter::repeat_with(|| books::any_valid(random));
    let short = any.filter(|book| book.len() <= SHORT_BOOK);
    short.take(FEW).chain(longest).collect()
}

fn bytes_of(samples: Vec<configuration::Sample>) -> Vec<Vec<u8>> {
    samples.into_iter().map(|sample| sample.bytes).collect()
}

/// Valid data with damage in one place, by the ways to damage it.
pub fn damages(service: Service) -> Vec<Source> {
    type Damage = fn(&mut Random, &[u8]) -> Vec<u8>;
    let of_any_data: [(&'static str, Damage); 3] = [
        ("one byte changed", with_one_byte_changed),
        ("cut short", cut_short),
        ("lengthened", lengthened),
    ];
    let mut sources = match service {
        Service::Diagnosis => diagnosis_damages(),
        Service::Parameters(mode) => parameters_damages(mode),
        Service::Configuration => configuration_damages(),
        Service::SetSlaveAdr => vec![Source::new(
            "address or last byte wrong",
            control::set_slave_adr_wrong,
        )],
        Service::GlobalControl => {
            vec![Source::new("command wrong", control::global_control_wrong)]
        }
        Service::Dpv1Call => call_damages(),
        Service::Dpv1Answer => answer_damages(),
        Service::TypedValue => typed_damages(),
        Service::Book => book_damages(),
    };
    sources.extend(of_any_data.map(|(name, damage)| {
        Source::new(name, move |random| {
            let bytes = any_valid_with_bytes(random, service);
            damage(random, &bytes)
        })
    }));
    sources
}

fn diagnosis_damages() -> Vec<Source> {
    vec![
        Source::new("length wrong", diagnosis::length_wrong),
        Source::new("header wrong", diagnosis::header_wrong),
        Source::new("Ext_Diag flipped", diagnosis::ext_diag_flipped),
        Source::new("block header wrong", diagnosis::block_header_wrong),
        Source::new("last block cut short", diagnosis::block_past_end),
        Source::new("channel code reserved", diagnosis::channel_code_reserved),
    ]
}

fn parameters_damages(mode: Mode) -> Vec<Source> {
    vec![
        Source::new("length wrong", move |random| {
            parameters::length_wrong(random, mode)
        }),
        Source::new("fixed bit or response time wrong", move |random| {
            parameters::byte_wrong(random, mode)
        }),
    ]
}

fn configuration_damages() -> Vec<Source> {
    vec![
        Source::new("length wrong", configuration::length_wrong),
        Source::new("vendor count 15", configuration::vendor_count_reserved),
        Source::new("last module cut short", configuration::module_past_end),
        Source::new("over 244 inputs or outputs", configuration::totals_wrong),
    ]
}

fn call_damages() -> Vec<Source> {
    vec![
        Source::new("function number wrong", acyclic::call_number_wrong),
        Source::new("length or count wrong", acyclic::call_length_wrong),
        Source::new("length above 240", acyclic::call_byte_wrong),
    ]
}

fn answer_damages() -> Vec<Source> {
    vec![
        Source::new("function number wrong", acyclic::answer_number_wrong),
        Source::new("length or count wrong", acyclic::answer_length_wrong),
        Source::new(
            "length above 240 or decode wrong",
            acyclic::answer_byte_wrong,
        ),
        Source::new("error code reserved", acyclic::error_code_reserved),
    ]
}

fn typed_damages() -> Vec<Source> {
    vec![
        Source::new("code wrong", typed::code_wrong),
        Source::new("length wrong", typed::length_wrong),
        Source::new("Boolean wrong", typed::boolean_wrong),
    ]
}

fn book_damages() -> Vec<Source> {
    vec![
        Source::new("no bytes", books::no_count),
        Source::new("count wrong", books::count_wrong),
        Source::new("table cut short", books::table_cut),
        Source::new("slot above 15", books::slot_above_15),
        Source::new("slots not rising", books::slots_not_rising),
        Source::new("length wrong", books::length_wrong),
        Source::new("length wrong, bodies right", book_length_wrong),
        Source::new("bodies cut short", books::bodies_cut),
    ]
}

/// A book with one length made 0 or above 200, and the bodies as they were.
fn book_length_wrong(random: &mut Random) -> Vec<u8> {
    let mut bytes = books::any_valid(random);
    let template = random.below(bytes[0].into());
    bytes[2 + 2 * template] = *random.pick(&[0, 201, 255]);
    bytes
}

/// Data that was never valid, or is by chance.
pub fn noises(service: Service) -> Vec<Source> {
    const NAME: &str = "any bytes of the right length";
    let mut sources = vec![Source::new("any bytes", any_bytes)];
    sources.extend(match service {
        Service::Diagnosis => Some(Source::new(
            "any bytes after a right header",
            diagnosis::noise_after_header,
        )),
        Service::SetSlaveAdr => Some(Source::new(NAME, |random| {
            random.bytes(SET_SLAVE_ADR_LENGTH)
        })),
        Service::GlobalControl => Some(Source::new(NAME, |random| {
            random.bytes(GLOBAL_CONTROL_LENGTH)
        })),
        Service::Dpv1Call | Service::Dpv1Answer => Some(Source::new(
            "any bytes after a function number",
            acyclic::noise_after_number,
        )),
        Service::TypedValue => Some(Source::new(
            "any bytes after a code",
            typed::noise_after_code,
        )),
        Service::Book => Some(Source::new("any bytes after a count", |random| {
            let count = random.between(1, 16) as u8;
            [&[count], &any_bytes(random)[..]].concat()
        })),
        // Any bytes are of a right length often enough.
        Service::Parameters(_) | Service::Configuration => None,
    });
    sources
}

/// As many bytes as a line can have, every second time few.
fn any_bytes(random: &mut Random) -> Vec<u8> {
    let length = often_up_to(random, 0, 12, LONGEST_LINE);
    random.bytes(length)
}

/// The service data of the vectors: the same at every call.
pub fn groups() -> Vec<(Service, Group)> {
    let random = &mut Random::new(2028);
    let mut groups = Vec::new();
    for service in Service::ALL {
        let of_service = groups_of(random, service).into_iter();
        groups.extend(of_service.map(|group| (service, group)));
    }
    groups
}

fn groups_of(random: &mut Random, service: Service) -> Vec<Group> {
    const EACH: usize = 4;
    let mut groups = Vec::new();
    if let Some(row) = worked_row(service) {
        groups.push(group("worked row of document 01", vec![row.to_vec()]));
    }
    groups.push(group("valid", few_forms(random, service)));
    let most = match service {
        Service::Book => SHORT_BOOK,
        _ => LONGEST_LINE,
    };
    for source in damages(service).iter().chain(&noises(service)) {
        let samples = iter::repeat_with(|| source.sample(random));
        let samples = samples.filter(|bytes| bytes.len() <= most).take(EACH);
        groups.push(group(source.name, samples.collect()));
    }
    groups
}

/// The service's row in document 01, where it has one.
fn worked_row(service: Service) -> Option<&'static [u8]> {
    match service {
        Service::Diagnosis => Some(&diagnosis::WORKED_ROW),
        Service::Configuration => Some(&configuration::WORKED_ROW),
        Service::Book => Some(&books::WORKED_BOOK),
        Service::Parameters(_)
        | Service::SetSlaveAdr
        | Service::GlobalControl
        | Service::Dpv1Call
        | Service::Dpv1Answer
        | Service::TypedValue => None,
    }
}

#[cfg(test)]
mod tests {
    use super::*;
    use std::collections::{BTreeMap, BTreeSet};

    /// The number that an answer line begins with.
    fn number(service: Service, bytes: &[u8]) -> u8 {
        let answer = service.answer(bytes);
        let number = answer.split(' ').next().expect("a number");
        number.parse().expect("a number")
    }

    fn longest_line(service: Service) -> usize {
        match service {
            Service::Book => LONGEST_BOOK_LINE,
            _ => LONGEST_LINE,
        }
    }

    /// The numbers of the service and 0.
    fn all_numbers(service: Service) -> BTreeSet<u8> {
        let refusals = refusals(service).iter().copied();
        refusals.chain([0]).collect()
    }

    #[test]
    fn valid_data_is_accepted() {
        let random = &mut Random::new(1);
        for service in Service::ALL {
            let mut valid = all_forms(random, service);
            valid.extend(few_forms(random, service));
            valid.extend((0..1000).map(|_| any_valid(random, service)));
            for bytes in valid {
                assert_eq!(number(service, &bytes), 0, "{service:?} {bytes:02X?}");
            }
        }
    }

    #[test]
    fn damage_and_noise_reach_every_number_and_no_other() {
        let random = &mut Random::new(2);
        for service in Service::ALL {
            let mut numbers = BTreeSet::new();
            for source in damages(service).iter().chain(&noises(service)) {
                for _ in 0..1000 {
                    let bytes = source.sample(random);
                    assert!(bytes.len() <= longest_line(service), "{}", source.name);
                    numbers.insert(number(service, &bytes));
                }
            }
            assert_eq!(numbers, all_numbers(service), "{service:?}");
        }
    }

    #[test]
    fn groups_of_each_service_reach_every_number() {
        let mut numbers: BTreeMap<&str, Vec<u8>> = BTreeMap::new();
        for (service, group) in groups() {
            let found = group.inputs.iter().map(|bytes| number(service, bytes));
            let found: Vec<u8> = found.collect();
            if ["valid", "worked row of document 01"].contains(&group.name) {
                assert!(found.iter().all(|number| *number == 0), "{service:?}");
            }
            numbers.entry(service.letter()).or_default().extend(found);
        }
        for service in Service::ALL {
            let found = &numbers[service.letter()];
            assert!((40..=60).contains(&found.len()), "{service:?} {found:?}");
            let found = found.iter().copied().collect();
            assert_eq!(all_numbers(service), found, "{service:?}");
        }
    }
}
