//! Changes to a manifest that bring it to a limit, just over one, or make it
//! wrong in one place.

use super::model::{self, Argument, Command, Manifest, Parameter, Sequence, Value};
use super::{encode, pool, Rng};
use crate::reading::limits;

type Change = fn(&mut Rng, &mut Manifest);

/// Each leads to a limit or one over it.
const LIMITS: [Change; 9] = [
    long_sequence,
    deep_sequence,
    uri_length,
    identifier_length,
    identifier_parts,
    component_count,
    alternative_count,
    parameter_count,
    envelope_length,
];

/// Each leads to the limit of weight or just over it, in common or in a section.
const WEIGHTS: [Change; 3] = [many_commands, heavy_common, last_command];

/// Each puts one fault somewhere.
const FAULTS: [Change; 14] = [
    version,
    repeated_identifier,
    unlisted_code,
    unlisted_parameter,
    misplaced_command,
    index_too_high,
    source_too_high,
    wrong_argument,
    wrong_value,
    string_length,
    exchanged_keys,
    exchanged_parameters,
    repeated_section,
    unknown_section,
];

pub fn to_limit(rng: &mut Rng, manifest: &mut Manifest) {
    rng.pick(&LIMITS)(rng, manifest);
}

pub fn to_weight(rng: &mut Rng, manifest: &mut Manifest) {
    rng.pick(&WEIGHTS)(rng, manifest);
}

/// Adds small commands to a good manifest, up to the limit of weight.
pub fn fill_up(rng: &mut Rng, manifest: &mut Manifest) {
    let wanted = rng.within(limits::COMMANDS - 20..=limits::COMMANDS);
    lighten(rng, manifest);
    if manifest.weight() <= wanted {
        fill(rng, manifest, wanted);
    }
}

pub fn to_fault(rng: &mut Rng, manifest: &mut Manifest) {
    rng.pick(&FAULTS)(rng, manifest);
}

fn long_sequence(rng: &mut Rng, manifest: &mut Manifest) {
    let length = rng.pick(&[63, 64, 64, 65]);
    let components = manifest.components.len();
    let (sequence, depth) = any_sequence(rng, manifest);
    while sequence.len() < length {
        sequence.push(small_command(rng, components, depth));
    }
}

fn many_commands(rng: &mut Rng, manifest: &mut Manifest) {
    let wanted = rng.pick(&[255, 256, 256, 257, 257, 258]);
    lighten(rng, manifest);
    fill(rng, manifest, wanted);
}

/// Brings common alone to the limit or past it, and then the sections.
fn heavy_common(rng: &mut Rng, manifest: &mut Manifest) {
    lighten(rng, manifest);
    if rng.percent(50) {
        add_empty_sections(manifest);
    }
    for (_, sequence) in &mut manifest.sections {
        sequence.truncate(rng.below(3));
    }
    let components = manifest.components.len();
    let heaviest = limits::COMMANDS + rng.pick(&[0, 0, manifest.common_weight()]);
    while manifest.weight_in_common() + manifest.common_weight() <= heaviest {
        let common = manifest.common.get_or_insert_default();
        grow(rng, common, components);
    }
    let wanted = rng.pick(&[255, 256, 256, 257]);
    fill(rng, manifest, wanted);
}

/// Adds the sections that are absent, without commands.
fn add_empty_sections(manifest: &mut Manifest) {
    let sections = &mut manifest.sections;
    for key in model::PAYLOAD_FETCH_SECTION..=model::RUN_SECTION {
        if sections.iter().all(|(present, _)| *present != key) {
            sections.push((key, Sequence::new()));
        }
    }
    sections.sort_by_key(|(key, _)| *key);
}

/// Puts a command that may be wrong where the others weigh 255 or 256.
fn last_command(rng: &mut Rng, manifest: &mut Manifest) {
    let sections = &mut manifest.sections;
    sections.retain(|(key, _)| *key != model::RUN_SECTION);
    lighten(rng, manifest);
    manifest
        .sections
        .push((model::RUN_SECTION, Sequence::new()));
    let others = rng.pick(&[limits::COMMANDS - 1, limits::COMMANDS]);
    fill(rng, manifest, others);
    let code = rng.pick(&[model::IMAGE_MATCH, model::FETCH, model::VENDOR, 13]);
    if let Some((_, last)) = manifest.sections.last_mut() {
        last.push(Command::nil(code));
    }
}

/// Takes away what a filled manifest has no room for: the long parameters of
/// common, and in half of the cases some sections.
fn lighten(rng: &mut Rng, manifest: &mut Manifest) {
    if let Some(common) = &mut manifest.common {
        common.truncate(rng.below(8));
    }
    if rng.percent(50) {
        manifest.sections.truncate(rng.below(4));
    }
}

/// Adds small commands up to this weight, where those of common weigh too much
/// in sections alone.
fn fill(rng: &mut Rng, manifest: &mut Manifest, wanted: usize) {
    let components = manifest.components.len();
    while manifest.weight() < wanted {
        let room = manifest.weight() + manifest.common_weight() <= wanted;
        let sections = manifest.sections.len();
        let chosen = rng.below(if room { sections + 1 } else { sections });
        let sequence = match manifest.sections.get_mut(chosen) {
            Some((_, sequence)) => sequence,
            None => manifest.common.get_or_insert_default(),
        };
        grow(rng, sequence, components);
    }
}

/// Adds a small command to the sequence or to one inside it, where there is room.
fn grow(rng: &mut Rng, sequence: &mut Sequence, components: usize) {
    let (sequence, depth) = descend(rng, sequence, 1);
    if sequence.len() < 63 {
        sequence.push(small_command(rng, components, depth));
    } else if sequence.len() < 64 && depth < limits::DEPTH {
        sequence.push(Command::sequence(Sequence::new()));
    }
}

fn deep_sequence(rng: &mut Rng, manifest: &mut Manifest) {
    let wanted = rng.pick(&[limits::DEPTH, limits::DEPTH + 1, limits::DEPTH + 1]);
    let mut command = if rng.percent(15) {
        odd_sequence()
    } else {
        let length = rng.pick(&[0, 1, 2, 64, 65]);
        nest(rng, vec![Command::nil(model::IMAGE_MATCH); length])
    };
    let (sequence, depth) = any_sequence(rng, manifest);
    for _ in depth + 1..wanted {
        command = nest(rng, vec![command]);
    }
    let at = rng.below(sequence.len() + 1);
    sequence.insert(at, command);
}

/// A sequence of one item.
fn odd_sequence() -> Command {
    Command {
        code: model::RUN_SEQUENCE,
        argument: Argument::Raw(vec![0x42, 0x81, 0x03]),
    }
}

fn nest(rng: &mut Rng, inner: Sequence) -> Command {
    if rng.percent(50) {
        Command::sequence(inner)
    } else {
        Command::try_each(vec![inner])
    }
}

fn uri_length(rng: &mut Rng, manifest: &mut Manifest) {
    let length = rng.pick(&[0, 1, 95, 96, 97]);
    let uri = Parameter::uri(rng.bytes(length));
    insert(rng, manifest, Command::set(vec![uri]));
}

fn identifier_length(rng: &mut Rng, manifest: &mut Manifest) {
    let length = rng.pick(&[28, 29, 29, 30, 30, 31]);
    let at = rng.below(manifest.components.len());
    manifest.components[at] = vec![rng.bytes(length)];
}

fn identifier_parts(rng: &mut Rng, manifest: &mut Manifest) {
    let parts = rng.pick(&[0, 1, 4, 5]);
    let at = rng.below(manifest.components.len());
    manifest.components[at] = (0..parts).map(|_| rng.bytes(2)).collect();
}

fn component_count(rng: &mut Rng, manifest: &mut Manifest) {
    let count = rng.pick(&[0, 7, 8, 9]);
    manifest.components.truncate(count);
    while manifest.components.len() < count {
        manifest.components.push(vec![rng.bytes(4)]);
    }
}

fn alternative_count(rng: &mut Rng, manifest: &mut Manifest) {
    let count = rng.pick(&[0, 1, 4, 5]);
    let alternative = vec![Command::nil(model::IMAGE_MATCH)];
    insert(rng, manifest, Command::try_each(vec![alternative; count]));
}

fn parameter_count(rng: &mut Rng, manifest: &mut Manifest) {
    let all = [
        Parameter::coerce(true),
        Parameter::uri(pool::uri(rng)),
        Parameter::source(0),
        Parameter::digest(pool::digest(rng)),
        Parameter::size(pool::size(rng)),
        Parameter::size(pool::size(rng)),
    ];
    let count = rng.pick(&[0, 1, 5, 5, 6]);
    insert(rng, manifest, Command::set(all[..count].to_vec()));
}

fn envelope_length(rng: &mut Rng, manifest: &mut Manifest) {
    let wanted = rng.pick(&[4095, 4096, 4096, 4097, 4097, 5000]);
    encode::pad(manifest, wanted);
}

fn version(rng: &mut Rng, manifest: &mut Manifest) {
    manifest.version = rng.pick(&[0, 2, 23, 24, u32::MAX]);
}

fn repeated_identifier(rng: &mut Rng, manifest: &mut Manifest) {
    let again = manifest.components[rng.below(manifest.components.len())].clone();
    let at = rng.below(manifest.components.len() + 1);
    manifest.components.insert(at, again);
    manifest.components.truncate(limits::COMPONENTS);
}

fn unlisted_code(rng: &mut Rng, manifest: &mut Manifest) {
    let code = rng.pick(&[
        0,
        4,
        11,
        13,
        16,
        18,
        24,
        29,
        31,
        33,
        255,
        256,
        257,
        u32::MAX,
    ]);
    insert(rng, manifest, Command::nil(code));
}

fn unlisted_parameter(rng: &mut Rng, manifest: &mut Manifest) {
    let parameter = Parameter {
        key: rng.pick(&[0, 1, 3, 5, 7, 9, 13, 24, 258, u32::MAX]),
        value: Value::Number(0),
    };
    insert(rng, manifest, Command::set(vec![parameter]));
}

fn misplaced_command(rng: &mut Rng, manifest: &mut Manifest) {
    let code = rng.pick(&[model::FETCH, model::COPY, model::SWAP, model::RUN]);
    insert(rng, manifest, Command::nil(code));
}

fn index_too_high(rng: &mut Rng, manifest: &mut Manifest) {
    let index = manifest.components.len() + rng.pick(&[0, 0, 1, 248, 256]);
    insert(rng, manifest, Command::index(index));
}

fn source_too_high(rng: &mut Rng, manifest: &mut Manifest) {
    let source = manifest.components.len() + rng.pick(&[0, 0, 1, 248, 256]);
    let parameters = vec![Parameter::source(source)];
    insert(rng, manifest, Command::override_with(parameters));
}

/// A code with the argument of another one.
fn wrong_argument(rng: &mut Rng, manifest: &mut Manifest) {
    let code = rng.pick(&[1, 2, 3, 12, 14, 15, 19, 20, 21, 22, 23, 30, 32]);
    let argument = match rng.below(6) {
        0 => Argument::Nil,
        1 => Argument::Bytes(rng.bytes(16)),
        2 => Argument::Number(0),
        3 => Argument::Parameters(vec![Parameter::coerce(true)]),
        4 => Argument::Sequence(Sequence::new()),
        _ => Argument::Alternatives(vec![Sequence::new()]),
    };
    insert(rng, manifest, Command { code, argument });
}

/// A parameter with the value of another one.
fn wrong_value(rng: &mut Rng, manifest: &mut Manifest) {
    let key = rng.pick(&[2, 6, 10, 11, 12]);
    let value = match rng.below(4) {
        0 => Value::Boolean(true),
        1 => Value::Text(rng.bytes(32)),
        2 => Value::Number(0),
        _ => Value::Bytes(rng.bytes(32)),
    };
    let parameters = vec![Parameter { key, value }];
    insert(rng, manifest, Command::set(parameters));
}

fn string_length(rng: &mut Rng, manifest: &mut Manifest) {
    let offset = rng.pick(&[0, 2]);
    let command = if rng.percent(50) {
        Command {
            code: rng.pick(&[model::VENDOR, model::CLASS]),
            argument: Argument::Bytes(rng.bytes(15 + offset)),
        }
    } else {
        let value = Value::Bytes(rng.bytes(31 + offset));
        let key = model::DIGEST;
        Command::set(vec![Parameter { key, value }])
    };
    insert(rng, manifest, command);
}

fn exchanged_keys(rng: &mut Rng, manifest: &mut Manifest) {
    rng.shuffle(&mut manifest.sections);
}

fn exchanged_parameters(rng: &mut Rng, manifest: &mut Manifest) {
    let mut parameters = vec![
        Parameter::coerce(false),
        Parameter::source(0),
        Parameter::digest(pool::digest(rng)),
        Parameter::digest(pool::digest(rng)),
        Parameter::size(0),
    ];
    parameters.remove(rng.below(5));
    let (one, other) = (rng.below(4), rng.below(4));
    parameters.swap(one, other);
    insert(rng, manifest, Command::set(parameters));
}

fn repeated_section(rng: &mut Rng, manifest: &mut Manifest) {
    if let Some(last) = manifest.sections.last().cloned() {
        manifest.sections.push(last);
        manifest.sections.truncate(rng.within(5..=6));
    }
}

fn unknown_section(rng: &mut Rng, manifest: &mut Manifest) {
    let key = rng.pick(&[1, 2, 3, 4, 7, 13, 24, 264, u32::MAX]);
    let at = rng.below(manifest.sections.len() + 1);
    manifest.sections.insert(at, (key, Sequence::new()));
}

/// A command of a few bytes that fails in no run.
fn small_command(rng: &mut Rng, components: usize, depth: usize) -> Command {
    match rng.below(4) {
        0 => Command::set(vec![Parameter::coerce(rng.percent(50))]),
        1 if depth < limits::DEPTH => nest(rng, Sequence::new()),
        _ => Command::index(rng.below(components.max(1))),
    }
}

fn insert(rng: &mut Rng, manifest: &mut Manifest, command: Command) {
    let sequence = any_sequence(rng, manifest).0;
    let at = rng.below(sequence.len() + 1);
    sequence.insert(at, command);
}

/// A sequence somewhere in the manifest, and its depth.
fn any_sequence<'m>(rng: &mut Rng, manifest: &'m mut Manifest) -> (&'m mut Sequence, usize) {
    let sections = manifest.sections.len();
    let chosen = rng.below(sections + 1);
    let sequence = match manifest.sections.get_mut(chosen) {
        Some((_, sequence)) => sequence,
        None => manifest.common.get_or_insert_default(),
    };
    descend(rng, sequence, 1)
}

fn descend<'m>(
    rng: &mut Rng,
    sequence: &'m mut Sequence,
    depth: usize,
) -> (&'m mut Sequence, usize) {
    let nested = sequence.iter().flat_map(Command::nested).count();
    if nested == 0 || rng.percent(40) {
        return (sequence, depth);
    }
    let chosen = rng.below(nested);
    let mut inner = sequence.iter_mut().flat_map(Command::nested_mut);
    descend(rng, inner.nth(chosen).expect("counted"), depth + 1)
}
