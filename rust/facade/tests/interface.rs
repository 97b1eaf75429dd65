//! The interface of linux-perf-data 0.13.0: names, signatures and traits. What compiles here is what a program
//! for that crate may use.

// The types are those of the signatures, and the lifetimes those of the records.
#![allow(clippy::type_complexity, clippy::extra_unused_lifetimes)]

use byteorder::{BigEndian, LittleEndian};
use linux_perf_data::jitdump::{
    JitCodeDebugInfoEntry, JitCodeDebugInfoRecord, JitCodeLoadRecord, JitCodeMoveRecord,
    JitCodeUnwindingInfoRecord, JitDumpError, JitDumpHeader, JitDumpRawRecord, JitDumpReader,
    JitDumpRecord, JitDumpRecordHeader, JitDumpRecordType,
};
use linux_perf_data::linux_perf_event_reader as reader;
use linux_perf_data::linux_perf_event_reader::{
    AttrFlags, CommonData, CpuMode, EventRecord, PerfEventAttr, RawData, RawDataU64,
    RawEventRecord, RecordIdParseInfo, RecordParseInfo, RecordType, Regs, SampleFormat,
};
use linux_perf_data::{
    AttributeDescription, Auxtrace, CompressionInfo, DecodeError, DsoInfo, DsoKey, Endianness,
    Error, Feature, FeatureSet, FeatureSetIter, HeaderAttr, HeaderFeature, NrCpus, PerfFile,
    PerfFileReader, PerfFileRecord, PerfRecordIter, RawUserRecord, ReadError, SampleTimeRange,
    SimpleperfDexFileInfo, SimpleperfElfFileInfo, SimpleperfFileRecord, SimpleperfKernelModuleInfo,
    SimpleperfSymbol, SimpleperfTypeSpecificInfo, ThreadMap, UserRecord, UserRecordType,
    simpleperf_dso_type,
};
use std::borrow::Cow;
use std::collections::HashMap;
use std::fmt::{Debug, Display};
use std::fs::File;
use std::hash::Hash;
use std::io::{self, Cursor, Empty};

fn is_send_and_sync<T: Send + Sync>() {}
fn is_error<T: std::error::Error + Send + Sync + 'static>() {}
fn is_plain<T: Copy + Clone + Debug + PartialEq + Eq>() {}
fn is_key<T: Clone + Debug + PartialEq + Eq + Hash>() {}
fn is_cloned<T: Clone + Debug>() {}
fn is_message<T: Clone + Debug + Default + PartialEq + Eq>() {}

#[test]
fn values_can_be_sent_and_shared() {
    is_send_and_sync::<PerfFileReader<File>>();
    is_send_and_sync::<PerfRecordIter<File>>();
    is_send_and_sync::<PerfFile>();
    is_send_and_sync::<PerfFileRecord<'_>>();
    is_send_and_sync::<UserRecord<'_>>();
    is_send_and_sync::<EventRecord<'_>>();
    is_send_and_sync::<AttributeDescription>();
    is_send_and_sync::<JitDumpReader<File>>();
    is_send_and_sync::<JitDumpRecord<'_>>();
    is_send_and_sync::<FeatureSetIter>();
}

#[test]
fn types_have_their_traits() {
    is_error::<Error>();
    is_error::<ReadError>();
    is_error::<JitDumpError>();
    is_error::<DecodeError>();
    is_plain::<ReadError>();
    is_plain::<Feature>();
    is_plain::<FeatureSet>();
    is_plain::<UserRecordType>();
    is_plain::<RecordType>();
    is_plain::<RawDataU64<'_>>();
    is_plain::<RawData<'_>>();
    is_plain::<RecordParseInfo>();
    is_plain::<RecordIdParseInfo>();
    is_plain::<Endianness>();
    is_plain::<SampleFormat>();
    is_plain::<JitDumpRecordType>();
    is_key::<DsoKey>();
    is_key::<DsoInfo>();
    is_key::<UserRecordType>();
    is_cloned::<NrCpus>();
    is_cloned::<SampleTimeRange>();
    is_cloned::<CompressionInfo>();
    is_cloned::<AttributeDescription>();
    is_cloned::<HeaderAttr>();
    is_cloned::<HeaderFeature>();
    is_cloned::<RawUserRecord<'_>>();
    is_cloned::<UserRecord<'_>>();
    is_cloned::<ThreadMap<'_>>();
    is_cloned::<Auxtrace<'_>>();
    is_cloned::<EventRecord<'_>>();
    is_cloned::<RawEventRecord<'_>>();
    is_cloned::<CommonData>();
    is_cloned::<PerfEventAttr>();
    is_cloned::<JitDumpHeader>();
    is_cloned::<JitDumpRecord<'_>>();
    is_cloned::<JitDumpRawRecord<'_>>();
    is_cloned::<JitDumpRecordHeader>();
    is_message::<SimpleperfFileRecord>();
    is_message::<SimpleperfSymbol>();
    is_message::<SimpleperfDexFileInfo>();
    is_message::<SimpleperfElfFileInfo>();
    is_message::<SimpleperfKernelModuleInfo>();
}

// The signatures of the methods, as function pointers.
#[test]
fn methods_have_their_signatures() {
    type Of<T> = Result<T, Error>;
    let _: fn(Cursor<Vec<u8>>) -> Of<PerfFileReader<Cursor<Vec<u8>>>> = PerfFileReader::parse_file;
    let _: fn(Empty) -> Of<PerfFileReader<Empty>> = PerfFileReader::parse_pipe;
    let _: for<'a> fn(
        &'a mut PerfRecordIter<Empty>,
        &mut PerfFile,
    ) -> Of<Option<PerfFileRecord<'a>>> = PerfRecordIter::next_record;
    let _: fn(&PerfFile) -> &[AttributeDescription] = PerfFile::event_attributes;
    let _: fn(&PerfFile) -> Of<HashMap<DsoKey, DsoInfo>> = PerfFile::build_ids;
    let _: fn(&PerfFile) -> Of<Option<SampleTimeRange>> = PerfFile::sample_time_range;
    let _: fn(&PerfFile) -> Of<Option<&str>> = PerfFile::hostname;
    let _: fn(&PerfFile) -> Of<Option<&str>> = PerfFile::os_release;
    let _: fn(&PerfFile) -> Of<Option<&str>> = PerfFile::perf_version;
    let _: fn(&PerfFile) -> Of<Option<&str>> = PerfFile::arch;
    let _: fn(&PerfFile) -> Of<Option<&str>> = PerfFile::cpu_desc;
    let _: fn(&PerfFile) -> Of<Option<&str>> = PerfFile::cpu_id;
    let _: fn(&PerfFile) -> Of<Option<NrCpus>> = PerfFile::nr_cpus;
    let _: fn(&PerfFile) -> bool = PerfFile::is_stats;
    let _: fn(&PerfFile) -> Of<Option<Vec<&str>>> = PerfFile::cmdline;
    let _: fn(&PerfFile) -> Of<Option<u64>> = PerfFile::total_mem;
    let _: fn(&PerfFile) -> Of<Option<u64>> = PerfFile::clock_frequency;
    let _: fn(&PerfFile) -> Of<Option<CompressionInfo>> = PerfFile::compression_info;
    let _: fn(&PerfFile) -> Of<Option<HashMap<&str, &str>>> = PerfFile::simpleperf_meta_info;
    let _: fn(&PerfFile) -> Of<Option<Vec<SimpleperfFileRecord>>> =
        PerfFile::simpleperf_symbol_tables;
    let _: fn(&PerfFile) -> FeatureSet = PerfFile::features;
    let _: fn(&PerfFile, Feature) -> Option<&[u8]> = PerfFile::feature_section_data;
    let _: fn(&PerfFile) -> Endianness = PerfFile::endian;
    let _: fn(Cursor<Vec<u8>>) -> Of<Vec<AttributeDescription>> =
        AttributeDescription::parse_event_desc_section::<_, LittleEndian>;
    let _: fn(RecordType) -> Option<UserRecordType> = UserRecordType::try_from;
    let _: fn(&[u8], CpuMode) -> Option<DsoKey> = DsoKey::detect;
    let _: fn(Empty) -> io::Result<NrCpus> = NrCpus::parse::<_, BigEndian>;
    let _: fn(Empty) -> io::Result<SampleTimeRange> = SampleTimeRange::parse::<_, BigEndian>;
    let _: fn(Empty) -> io::Result<CompressionInfo> = CompressionInfo::parse::<_, BigEndian>;
    let _: fn(Empty) -> io::Result<(PerfEventAttr, u64)> = PerfEventAttr::parse::<_, BigEndian>;
    let _: fn(&[u8]) -> io::Result<SimpleperfFileRecord> =
        SimpleperfFileRecord::decode_v1::<LittleEndian>;
}

#[test]
fn records_have_their_signatures() {
    record_signatures();
    jitdump_signatures();
}

fn record_signatures<'a>() {
    let _: fn(&RawEventRecord<'a>) -> io::Result<EventRecord<'a>> = RawEventRecord::parse;
    let _: fn(&RawUserRecord<'a>) -> io::Result<UserRecord<'a>> = RawUserRecord::parse;
    let _: fn(RawData<'a>) -> io::Result<ThreadMap<'a>> = ThreadMap::parse::<BigEndian>;
    let _: fn(RawData<'a>) -> io::Result<Auxtrace<'a>> = Auxtrace::parse::<BigEndian>;
    let _: fn(RawData<'_>) -> io::Result<HeaderAttr> = HeaderAttr::parse::<BigEndian>;
    let _: fn(RawData<'_>) -> io::Result<HeaderFeature> = HeaderFeature::parse::<BigEndian>;
    let _: fn(&RawEventRecord<'a>) -> io::Result<CommonData> = RawEventRecord::common_data;
    let _: fn(&PerfEventAttr, Endianness) -> RecordParseInfo = RecordParseInfo::new;
    let _: fn(RecordType, RawData<'_>, bool) -> Option<u64> =
        reader::get_record_identifier::<LittleEndian>;
    let _: fn(RecordType, RawData<'_>, &RecordIdParseInfo) -> Option<u64> =
        reader::get_record_id::<LittleEndian>;
    let _: fn(RecordType, RawData<'_>, &RecordParseInfo) -> Option<u64> =
        reader::get_record_timestamp::<LittleEndian>;
    let _: fn(&RawData<'a>) -> Cow<'a, [u8]> = RawData::as_slice;
    let _: fn(u64, RawDataU64<'a>) -> Regs<'a> = Regs::new;
}

fn jitdump_signatures<'a>() {
    let _: fn(Empty) -> Result<JitDumpReader<Empty>, JitDumpError> = JitDumpReader::new;
    let _: fn(Empty, usize) -> Result<JitDumpReader<Empty>, JitDumpError> =
        JitDumpReader::new_with_buffer_size;
    let _: fn(&JitDumpReader<Empty>) -> &JitDumpHeader = JitDumpReader::header;
    let _: fn(&mut JitDumpReader<Empty>) -> io::Result<Option<JitDumpRecordHeader>> =
        JitDumpReader::next_record_header;
    let _: fn(&mut JitDumpReader<Empty>) -> io::Result<Option<u64>> =
        JitDumpReader::next_record_timestamp;
    let _: fn(&mut JitDumpReader<Empty>) -> io::Result<Option<JitDumpRecordType>> =
        JitDumpReader::next_record_type;
    let _: for<'b> fn(&'b mut JitDumpReader<Empty>) -> io::Result<Option<JitDumpRawRecord<'b>>> =
        JitDumpReader::next_record;
    let _: fn(&mut JitDumpReader<File>) -> io::Result<bool> = JitDumpReader::skip_next_record;
    let _: fn(&JitDumpRawRecord<'a>) -> io::Result<JitDumpRecord<'a>> = JitDumpRawRecord::parse;
    let _: fn(Endianness, RawData<'a>) -> io::Result<JitCodeLoadRecord<'a>> =
        JitCodeLoadRecord::parse;
    let _: fn(Endianness, RawData<'_>) -> io::Result<JitCodeMoveRecord> = JitCodeMoveRecord::parse;
    let _: fn(Endianness, RawData<'a>) -> io::Result<JitCodeUnwindingInfoRecord<'a>> =
        JitCodeUnwindingInfoRecord::parse;
    let _: for<'b> fn(
        &'b JitCodeDebugInfoRecord<'a>,
        u64,
    ) -> Option<&'b JitCodeDebugInfoEntry<'a>> = JitCodeDebugInfoRecord::lookup;
}

#[test]
fn constants_have_the_numbers_of_the_formats() {
    assert_eq!(UserRecordType::PERF_HEADER_ATTR.record_type().0, 64);
    assert_eq!(UserRecordType::PERF_FINISHED_ROUND.record_type().0, 68);
    assert_eq!(UserRecordType::PERF_COMPRESSED2.record_type().0, 83);
    assert_eq!(
        UserRecordType::SIMPLEPERF_TRACING_DATA.record_type().0,
        32777
    );
    assert_eq!(RecordType::AUX_OUTPUT_HW_ID.0, 21);
    assert_eq!(AttrFlags::SAMPLE_ID_ALL.bits(), 1 << 18);
    assert_eq!(SampleFormat::WEIGHT_STRUCT.bits(), 1 << 24);
    assert_eq!(Feature::SIMPLEPERF_FILE2, Feature(132));
    assert_eq!(simpleperf_dso_type::DSO_UNKNOWN_FILE, 5);
    assert_eq!(reader::constants::PERF_CONTEXT_MAX, 4095_u64.wrapping_neg());
    assert_eq!(reader::constants::PERF_REG_ARM64_PC, 32);
    assert_eq!(JitCodeLoadRecord::NAME_OFFSET_FROM_RECORD_START, 56);
}

// Whether a value is written as the text.
fn writes(value: impl Display, text: &str) {
    assert_eq!(value.to_string(), text);
}

#[test]
fn texts_are_those_of_the_crate() {
    writes(Feature::EVENT_DESC, "EVENT_DESC");
    writes(Feature(77), "Unknown Feature 77");
    writes(
        Error::Read(ReadError::PerfEventData),
        "Read error: Could not read PerfEvent data",
    );
    writes(
        Error::NoAttributes,
        "The file declares no perf event attributes, so samples cannot be parsed",
    );
    assert_eq!(format!("{:?}", RecordType::SAMPLE), "SAMPLE");
    assert_eq!(format!("{:?}", RecordType(63)), "Unknown built-in: 63");
    assert_eq!(format!("{:?}", RecordType(64)), "User type: 64");
    assert_eq!(format!("{:?}", UserRecordType::PERF_STAT), "\"PERF_STAT\"");
    assert_eq!(
        format!("{:?}", FeatureSet([0b110, 0, 0, 0])),
        "{TRACING_DATA, BUILD_ID}"
    );
    assert_eq!(
        format!("{:?}", RawData::Split(b"ab", b"c")),
        "RawData::Split( [u8; 2], [u8; 1] )"
    );
}

#[test]
fn type_specific_information_is_matched_by_name() {
    let info = SimpleperfTypeSpecificInfo::ElfFile(SimpleperfElfFileInfo::default());
    assert!(
        matches!(info, SimpleperfTypeSpecificInfo::ElfFile(elf) if elf.file_offset_of_min_vaddr == 0)
    );
}
