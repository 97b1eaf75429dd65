//! Values that are made of numbers: record types, CPU modes, features and their sets, sample formats, and the id cache.

use super::steps::{Step, equalities, steps};
use crate::language::{Call, Output, Tested, number};
use dewikura::perfdata_base::attr::{AttrFlags, SampleFormat};
use dewikura::perfdata_base::event::{CpuMode, RecordType};
use dewikura::perfdata_base::features::{Feature, FeatureSet};
use dewikura::perfdata_base::place::IdCache;
use dewikura::perfdata_jit::JitDumpRecordType;
use dewikura::perfdata_records::record::UserRecordType;
use dewikura::shim::bitflags::Flags;
use std::hash::Hash;

/// Makes the call of a case, if this module has it: a list of calls, or a call with each number of the option `numbers`.
pub fn call(call: &Call<'_>, out: &mut Output) -> Tested<bool> {
    match call.case.call {
        "FeatureSet" => push_set(call, out)?,
        "IdCache" => push_cached(call, out)?,
        "SampleFormat" => push_format(call, out)?,
        "RecordType"
        | "UserRecordType::try_from"
        | "CpuMode::from_misc"
        | "Feature"
        | "compare" => {
            let numbers = call.case.numbers("numbers")?;
            for value in &numbers {
                push_number(
                    call.case.call,
                    numbers[0].try_into()?,
                    (*value).try_into()?,
                    out,
                );
            }
        }
        _ => return Ok(false),
    }
    Ok(true)
}

fn push_number(name: &str, first: u32, number: u32, out: &mut Output) {
    let it = RecordType(number);
    match name {
        "RecordType" => {
            out.push_line(&(
                it,
                it.is_builtin_type(),
                it.is_user_type(),
                it == RecordType::SAMPLE,
            ));
        }
        "UserRecordType::try_from" => match UserRecordType::try_from(it) {
            Some(user) => out.push_line(&(user, user.record_type(), RecordType::from(user))),
            None => writeln!(out, "None"),
        },
        "CpuMode::from_misc" => out.push_line(&CpuMode::from_misc(number as u16)),
        "Feature" => writeln!(out, "{} {:?}", Feature(number), Feature(number)),
        _ => {
            push_comparison(out, &Feature(first), &Feature(number));
            push_comparison(out, &RecordType(first), &it);
            push_comparison(out, &JitDumpRecordType(first), &JitDumpRecordType(number));
        }
    }
}

/// Prints the order of the second value to the first, and whether the values and their hashes are equal.
fn push_comparison<T: Ord + Hash>(out: &mut Output, first: &T, other: &T) {
    out.push_line(&(other.cmp(first), equalities(other, first)));
}

/// The set of features with the words of an option.
fn set(call: &Call<'_>, name: &str) -> Tested<FeatureSet> {
    match call.case.numbers(name)?[..] {
        [] => Ok(FeatureSet([0; 4])),
        [first, second, third, fourth] => Ok(FeatureSet([first, second, third, fourth])),
        _ => Err("a set that isn't four words".into()),
    }
}

/// Prints the set of the words of an option, compares it with another one, and makes a list of calls.
fn push_set(call: &Call<'_>, out: &mut Output) -> Tested {
    let mut set_of_words = set(call, "words")?;
    out.push_line(&(set_of_words, set_of_words.len(), set_of_words.is_empty()));
    out.push_line(&equalities(&set_of_words, &set(call, "other")?));
    let mut members = set_of_words.iter();
    for step in steps(call)? {
        match step.name {
            "next" => out.push_line(&members.next()),
            "has_feature" => {
                out.push_line(
                    &set_of_words.has_feature(Feature(number(step.argument)?.try_into()?)),
                );
            }
            "insert" => {
                set_of_words.insert(Feature(number(step.argument)?.try_into()?));
                out.push_line(&set_of_words);
            }
            _ => return step.unknown(),
        }
    }
    Ok(())
}

/// Makes a list of calls on a cache, and prints what is found.
fn push_cached(call: &Call<'_>, out: &mut Output) -> Tested {
    let mut cache = IdCache::new();
    for word in call.case.words() {
        let step = Step::parse(word)?;
        match (step.name, step.argument.split_once(',')) {
            ("put", Some((id, index))) => cache.put(number(id)?, number(index)? as usize),
            ("get", None) => out.push_line(&cache.get(number(step.argument)?)),
            ("clear", None) => cache.clear(),
            _ => return step.unknown(),
        }
    }
    Ok(())
}

/// Prints the names of the bits of a sample format, whether attribute flags with the same bits have SAMPLE_ID_ALL, and whether both
/// keep all bits.
fn push_format(call: &Call<'_>, out: &mut Output) -> Tested {
    let bits = call.case.number("bits")?.ok_or("the bits are missing")?;
    let format = SampleFormat::from_bits_retain(bits);
    let flags = AttrFlags::from_bits_retain(bits);
    for flag in SampleFormat::flags()
        .iter()
        .filter(|flag| format.contains(*flag.value()))
    {
        writeln!(out, "{}", flag.name());
    }
    out.push_line(&flags.contains(AttrFlags::SAMPLE_ID_ALL));
    out.push_line(&(format.bits() == bits && flags.bits() == bits));
    Ok(())
}
