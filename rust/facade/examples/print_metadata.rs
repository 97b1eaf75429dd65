//! `print_metadata PATH`: prints the attributes and the features of a perf.data file.

use linux_perf_data::linux_perf_event_reader::{
    AttrFlags, PerfClock, PerfEventType, SampleFormat, SamplingPolicy,
};
use linux_perf_data::{AttributeDescription, DsoKey, Error, PerfFile, PerfFileReader};
use std::fs::File;

fn print_attribute(index: usize, description: &AttributeDescription) {
    let attr = description.attributes();
    println!("event {index}: {:?}", description.name());
    match attr.type_ {
        PerfEventType::Hardware(event, unit) => println!("  hardware {event:?} of unit {}", unit.0),
        PerfEventType::Software(event) => println!("  software {event:?}"),
        PerfEventType::Tracepoint(id) => println!("  tracepoint {id}"),
        PerfEventType::DynamicPmu(unit, config, _, _) => println!("  unit {unit}: {config:x}"),
        other => println!("  {other:?}"),
    }
    match attr.sampling_policy {
        SamplingPolicy::NoSampling => println!("  no samples"),
        SamplingPolicy::Period(period) => println!("  each {period} events"),
        SamplingPolicy::Frequency(frequency) => println!("  {frequency} times a second"),
    }
    if let PerfClock::ClockId(clock) = attr.clock {
        println!("  clock {clock:?}");
    }
    println!("  fields {:?}", attr.sample_format);
    println!("  flags {:?}", attr.flags);
    println!("  skid {:?}", attr.flags.ip_skid_constraint());
    if attr.sample_format.contains(SampleFormat::REGS_USER) {
        println!("  registers {:x}", attr.sample_regs_user);
    }
    if attr.flags.intersects(AttrFlags::MMAP | AttrFlags::MMAP2) {
        println!("  with mappings");
    }
    println!("  {} ids", description.ids().len());
}

fn print_features(file: &PerfFile) -> Result<(), Error> {
    for feature in file.features().iter() {
        let size = file.feature_section_data(feature).map_or(0, <[u8]>::len);
        println!("{feature}: {size} bytes");
    }
    println!(
        "host {:?}, release {:?}",
        file.hostname()?,
        file.os_release()?
    );
    println!("perf {:?}, arch {:?}", file.perf_version()?, file.arch()?);
    println!("cpu {:?}, {:?}", file.cpu_desc()?, file.cpu_id()?);
    println!("cpus {:?}, memory {:?}", file.nr_cpus()?, file.total_mem()?);
    println!("arguments {:?}", file.cmdline()?.unwrap_or_default());
    if let Some(range) = file.sample_time_range()? {
        let length = range.last_sample_time - range.first_sample_time;
        println!("{length} ns from {}", range.first_sample_time);
    }
    if let Some(units) = file.pmu_mappings()? {
        for (number, name) in units.0.iter() {
            println!("unit {number}: {name}");
        }
    }
    let ids = file.build_ids()?;
    let mut named: Vec<(&DsoKey, String)> = ids
        .iter()
        .map(|(key, info)| {
            (
                key,
                info.build_id.iter().map(|b| format!("{b:02x}")).collect(),
            )
        })
        .collect();
    named.sort_by(|a, b| (a.0.name(), &a.1).cmp(&(b.0.name(), &b.1)));
    for (key, id) in named {
        println!("{}: {id}", key.name());
    }
    Ok(())
}

fn main() -> Result<(), Error> {
    let path = std::env::args().nth(1).expect("usage: print_metadata PATH");
    let reader = PerfFileReader::parse_file(File::open(path)?)?;
    println!("{:?}", reader.perf_file.endian());
    for (index, description) in reader.perf_file.event_attributes().iter().enumerate() {
        print_attribute(index, description);
    }
    print_features(&reader.perf_file)
}
