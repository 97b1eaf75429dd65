//! `print_simpleperf PATH`: prints what simpleperf adds to a perf.data file.

use linux_perf_data::{Error, PerfFileReader, SimpleperfTypeSpecificInfo, simpleperf_dso_type};
use std::fs::File;

fn main() -> Result<(), Error> {
    let path = std::env::args()
        .nth(1)
        .expect("usage: print_simpleperf PATH");
    let reader = PerfFileReader::parse_file(File::open(path)?)?;
    let file = &reader.perf_file;
    if let Some(info) = file.simpleperf_meta_info()? {
        let mut pairs: Vec<_> = info.into_iter().collect();
        pairs.sort();
        for (key, value) in pairs {
            println!("{key} = {value:?}");
        }
    }
    for table in file.simpleperf_symbol_tables()?.unwrap_or_default() {
        let kind = match table.r#type {
            simpleperf_dso_type::DSO_KERNEL => "kernel",
            simpleperf_dso_type::DSO_DEX_FILE => "dex",
            simpleperf_dso_type::DSO_ELF_FILE => "elf",
            _ => "other",
        };
        println!("{} ({kind}) from {:x}", table.path, table.min_vaddr);
        match &table.type_specific_msg {
            Some(SimpleperfTypeSpecificInfo::ElfFile(elf)) => {
                println!("  at {}", elf.file_offset_of_min_vaddr);
            }
            Some(SimpleperfTypeSpecificInfo::SimpleperfDexFileInfo(dex)) => {
                println!("  at {:?}", dex.dex_file_offset);
            }
            _ => {}
        }
        for symbol in &table.symbol {
            println!("  {:x} {} {}", symbol.vaddr, symbol.len, symbol.name);
        }
    }
    Ok(())
}
