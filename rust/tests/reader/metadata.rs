//! The accessors of the metadata of files and pipes.

use super::reading::{is_pipe, metadata_after};
use crate::language::{Call, Output, Tested};
use crate::library::Global;
use dewikura::linux_perf_data::{AttributeDescription, Error, Feature, PerfFile};

/// The lines of an accessor; `None` if there is no value.
fn lines(perf_file: &PerfFile, name: &str) -> Result<Option<Vec<String>>, Error> {
    Ok(match name {
        "pmu_mappings" => perf_file.pmu_mappings(Global)?.map(|mappings| {
            let mappings = mappings.0.iter();
            mappings
                .map(|(number, name)| format!("{number} {name:?}"))
                .collect()
        }),
        "build_ids" => {
            let ids = perf_file.build_ids(Global)?;
            let ids = ids.iter().map(|(key, info)| {
                let path = String::from_utf8_lossy(&info.path);
                format!("{key:?} {path:?} {:?}", info.build_id)
            });
            Some(ids.collect())
        }
        "simpleperf_meta_info" => perf_file.simpleperf_meta_info(Global)?.map(|pairs| {
            let pairs = pairs.iter();
            pairs
                .map(|(key, value)| format!("{key:?} {value:?}"))
                .collect()
        }),
        _ => perf_file.simpleperf_symbol_tables(Global)?.map(|records| {
            let records = records.iter();
            records
                .map(|it| {
                    format!(
                        "{:?} {} {} {}",
                        it.path,
                        it.type_,
                        it.min_vaddr,
                        it.symbol.len()
                    )
                })
                .collect()
        }),
    })
}

/// Appends the lines of an accessor, or their number with the option `count`.
fn push_lines(call: &Call<'_>, perf_file: &PerfFile, name: &str, out: &mut Output) {
    match lines(perf_file, name) {
        Ok(Some(lines)) if call.case.has("count") => out.push_line(&lines.len()),
        Ok(Some(lines)) => lines.iter().for_each(|line| writeln!(out, "{line}")),
        Ok(None) => writeln!(out, "None"),
        Err(error) => out.push_result(&Err::<(), Error>(error)),
    }
}

/// Appends the sample format, flags, name and ids of each attribute.
fn push_attributes(attributes: &[AttributeDescription], out: &mut Output) {
    for attribute in attributes {
        let attr = attribute.attributes();
        let (format, flags) = (attr.sample_format.0, attr.flags.0);
        writeln!(
            out,
            "{format:#x} {flags:#x} {:?} {:?}",
            attribute.name(),
            attribute.ids()
        );
    }
}

/// Appends the data of the features that the option `feature` names, or their sizes with the option `count`.
fn push_sections(call: &Call<'_>, perf_file: &PerfFile, out: &mut Output) -> Tested {
    for number in call.case.numbers("feature")? {
        match perf_file.feature_section_data(Feature(number.try_into()?)) {
            Some(bytes) if call.case.has("count") => out.push_line(&bytes.len()),
            data => out.push_line(&data),
        }
    }
    Ok(())
}

/// Appends the value of an accessor.
fn push_value(call: &Call<'_>, perf_file: &PerfFile, name: &str, out: &mut Output) -> Tested {
    let attributes = perf_file.event_attributes();
    match name {
        "hostname" => out.push_result(&perf_file.hostname()),
        "os_release" => out.push_result(&perf_file.os_release()),
        "perf_version" => out.push_result(&perf_file.perf_version()),
        "arch" => out.push_result(&perf_file.arch()),
        "cpu_desc" => out.push_result(&perf_file.cpu_desc()),
        "cpu_id" => out.push_result(&perf_file.cpu_id()),
        "cmdline" => out.push_result(&perf_file.cmdline(Global)),
        "total_mem" => out.push_result(&perf_file.total_mem()),
        "clock_frequency" => out.push_result(&perf_file.clock_frequency()),
        "nr_cpus" => out.push_result(&perf_file.nr_cpus()),
        "sample_time_range" => out.push_result(&perf_file.sample_time_range()),
        "clock_data" => out.push_result(&perf_file.clock_data()),
        "compression_info" => out.push_result(&perf_file.compression_info()),
        "endian" => out.push_line(&perf_file.endian()),
        "features" => out.push_line(&perf_file.features()),
        "is_stats" => out.push_line(&perf_file.is_stats()),
        "event_attributes" => push_attributes(attributes, out),
        "names" => {
            let names = attributes
                .iter()
                .map(|attribute| attribute.name().unwrap_or("-"));
            writeln!(out, "{}", names.collect::<Vec<_>>().join(" "));
        }
        "id_count" => {
            let ids: usize = attributes
                .iter()
                .map(|attribute| attribute.ids().len())
                .sum();
            writeln!(out, "{} {ids}", attributes.len());
        }
        "feature_section_data" => push_sections(call, perf_file, out)?,
        "pmu_mappings" | "build_ids" | "simpleperf_meta_info" | "simpleperf_symbol_tables" => {
            push_lines(call, perf_file, name, out);
        }
        _ => return Err(format!("an unknown accessor: {name}").into()),
    }
    Ok(())
}

/// Appends the values of the accessors that the option `of` names, in lines.
pub fn push_accessors(call: &Call<'_>, perf_file: &PerfFile, out: &mut Output) -> Tested {
    let mut names = call.case.option("of").unwrap_or("").split(',');
    names.try_for_each(|name| push_value(call, perf_file, name, out))
}

/// Prints the values of the accessors of the metadata of a file or, with the option `format=pipe`, a pipe: `of=NAME,NAME`. With the
/// option `records=N` it reads at most this many records before.
pub fn push_metadata(call: &Call<'_>, out: &mut Output) -> Tested {
    let is_pipe = is_pipe(call.case.option("format").unwrap_or(""));
    match metadata_after(is_pipe, call.bytes, call.case.size("records", 0)?) {
        Ok(perf_file) => push_accessors(call, &perf_file, out)?,
        Err(error) => out.push_result(&Err::<(), Error>(error)),
    }
    Ok(())
}
