//! `list_jitdump PATH`: prints the records of a jitdump file.

use linux_perf_data::jitdump::{JitDumpReader, JitDumpRecord, JitDumpRecordType};
use std::fs::File;

fn main() -> Result<(), Box<dyn std::error::Error>> {
    let path = std::env::args().nth(1).ok_or("usage: list_jitdump PATH")?;
    let mut reader = JitDumpReader::new(File::open(path)?)?;
    println!("{:?}, {:?}", reader.header(), reader.endian());
    loop {
        let at = reader.next_record_offset();
        if reader.next_record_type()? == Some(JitDumpRecordType::JIT_CODE_UNWINDING_INFO) {
            println!("{at}: skipped {}", reader.skip_next_record()?);
            continue;
        }
        let Some(record) = reader.next_record()? else {
            break;
        };
        print!("{at}: {} at {} ", record.timestamp, record.start_offset);
        match record.parse()? {
            JitDumpRecord::CodeLoad(load) => {
                let name = load.function_name.as_slice();
                let offset = load.code_bytes_offset_from_record_header_start();
                let name = String::from_utf8_lossy(&name);
                println!("load {:x} {name} code at {offset}", load.code_addr);
            }
            JitDumpRecord::CodeDebugInfo(info) => {
                let first = info.entries.first().map(|entry| entry.line);
                println!("debug info {:x} line {first:?}", info.code_addr);
            }
            other => println!("{other:?}"),
        }
    }
    Ok(())
}
