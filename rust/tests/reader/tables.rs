//! Tables of constants by their names, and of errors with their texts.

use crate::language::{Call, Output};
use dewikura::perfdata_base::features::*;
use dewikura::perfdata_base::source::unexpected_eof;
use dewikura::perfdata_jit::JitDumpRecordType;
use dewikura::perfdata_records::auxtrace::Auxtrace;
use dewikura::perfdata_records::laws::{perf_record_types, simpleperf_record_types};
use dewikura::perfdata_sections::constants::*;
use dewikura::perfdata_sections::decode_error::DecodeError;
use dewikura::perfdata_sections::error::{Error, ReadError, unsupported};
use dewikura::perfdata_sections::feature_sections::{
    ClockData, CompressionInfo, NrCpus, SampleTimeRange,
};
use dewikura::perfdata_simpleperf::simpleperf::simpleperf_dso_type::*;
use dewikura::shim::std::alloc::{AllocError, AllocFailed};
use std::fmt::{Debug, Display};
use std::io::{self, ErrorKind};

/// Constants with their names: of a type, or of the imported modules.
macro_rules! named {
    ($type:ident: $($name:ident)*) => { [$((stringify!($name), $type::$name)),*] };
    ($($name:ident)*) => { [$((stringify!($name), $name)),*] };
}

/// Variants of an enum.
macro_rules! variants {
    ($type:ident: $($name:ident)*) => { [$($type::$name),*] };
}

const FEATURE_NUMBERS: [(&str, u32); 36] = named![
    HEADER_TRACING_DATA HEADER_BUILD_ID HEADER_HOSTNAME HEADER_OSRELEASE HEADER_VERSION HEADER_ARCH
    HEADER_NRCPUS HEADER_CPUDESC HEADER_CPUID HEADER_TOTAL_MEM HEADER_CMDLINE HEADER_EVENT_DESC
    HEADER_CPU_TOPOLOGY HEADER_NUMA_TOPOLOGY HEADER_BRANCH_STACK HEADER_PMU_MAPPINGS
    HEADER_GROUP_DESC HEADER_AUXTRACE HEADER_STAT HEADER_CACHE HEADER_SAMPLE_TIME
    HEADER_SAMPLE_TOPOLOGY HEADER_CLOCKID HEADER_DIR_FORMAT HEADER_BPF_PROG_INFO HEADER_BPF_BTF
    HEADER_COMPRESSED HEADER_CPU_PMU_CAPS HEADER_CLOCK_DATA HEADER_HYBRID_TOPOLOGY
    HEADER_HYBRID_CPU_PMU_CAPS HEADER_SIMPLEPERF_FILE HEADER_SIMPLEPERF_META_INFO
    HEADER_SIMPLEPERF_DEBUG_UNWIND HEADER_SIMPLEPERF_DEBUG_UNWIND_FILE HEADER_SIMPLEPERF_FILE2
];

const FEATURES: [(&str, Feature); 36] = named![
    Feature: TRACING_DATA BUILD_ID HOSTNAME OSRELEASE VERSION ARCH NRCPUS CPUDESC CPUID TOTAL_MEM
    CMDLINE EVENT_DESC CPU_TOPOLOGY NUMA_TOPOLOGY BRANCH_STACK PMU_MAPPINGS GROUP_DESC AUXTRACE STAT
    CACHE SAMPLE_TIME SAMPLE_TOPOLOGY CLOCKID DIR_FORMAT BPF_PROG_INFO BPF_BTF COMPRESSED
    CPU_PMU_CAPS CLOCK_DATA HYBRID_TOPOLOGY HYBRID_CPU_PMU_CAPS SIMPLEPERF_FILE SIMPLEPERF_META_INFO
    SIMPLEPERF_DEBUG_UNWIND SIMPLEPERF_DEBUG_UNWIND_FILE SIMPLEPERF_FILE2
];

const RECORD_NUMBERS: [(&str, u32); 29] = named![
    PERF_RECORD_HEADER_ATTR PERF_RECORD_HEADER_EVENT_TYPE PERF_RECORD_HEADER_TRACING_DATA
    PERF_RECORD_HEADER_BUILD_ID PERF_RECORD_FINISHED_ROUND PERF_RECORD_ID_INDEX
    PERF_RECORD_AUXTRACE_INFO PERF_RECORD_AUXTRACE PERF_RECORD_AUXTRACE_ERROR PERF_RECORD_THREAD_MAP
    PERF_RECORD_CPU_MAP PERF_RECORD_STAT_CONFIG PERF_RECORD_STAT PERF_RECORD_STAT_ROUND
    PERF_RECORD_EVENT_UPDATE PERF_RECORD_TIME_CONV PERF_RECORD_HEADER_FEATURE PERF_RECORD_COMPRESSED
    PERF_RECORD_FINISHED_INIT PERF_RECORD_COMPRESSED2
    SIMPLE_PERF_RECORD_KERNEL_SYMBOL SIMPLE_PERF_RECORD_DSO
    SIMPLE_PERF_RECORD_SYMBOL SIMPLE_PERF_RECORD_SPLIT SIMPLE_PERF_RECORD_SPLIT_END
    SIMPLE_PERF_RECORD_EVENT_ID SIMPLE_PERF_RECORD_CALLCHAIN SIMPLE_PERF_RECORD_UNWINDING_RESULT
    SIMPLE_PERF_RECORD_TRACING_DATA
];

const DSO_TYPES: [(&str, u32); 6] = named![
    DSO_KERNEL DSO_KERNEL_MODULE DSO_ELF_FILE DSO_DEX_FILE DSO_SYMBOL_MAP_FILE DSO_UNKNOWN_FILE
];

const JIT_TYPES: [(&str, JitDumpRecordType); 5] = named![
    JitDumpRecordType: JIT_CODE_LOAD JIT_CODE_MOVE JIT_CODE_DEBUG_INFO JIT_CODE_CLOSE
    JIT_CODE_UNWINDING_INFO
];

/// The variants of `ReadError`.
pub const READ_ERRORS: [ReadError; 10] = variants![
    ReadError: PerfHeader FeatureSection BuildIdSection StringLen String NrCpus AttrsSection
    PerfEventAttr PerfEventHeader PerfEventData
];

/// The variants of `DecodeError`.
pub const DECODE_ERRORS: [DecodeError; 8] = variants![
    DecodeError: Truncated Varint Key WireType Group Depth Utf8 Memory
];

/// Makes the call of a case, if this module has it.
pub fn call(call: &Call<'_>, out: &mut Output) -> bool {
    match call.case.call {
        "feature-numbers" => push_rows(out, &FEATURE_NUMBERS),
        "features" => push_rows(out, &FEATURES),
        "record-numbers" => push_rows(out, &RECORD_NUMBERS),
        "perf_record_types" => out.push_line(&perf_record_types()),
        "simpleperf_record_types" => out.push_line(&simpleperf_record_types()),
        "dso-types" => push_rows(out, &DSO_TYPES),
        "JitDumpRecordType" => push_rows(out, &JIT_TYPES),
        "sizes" => {
            writeln!(out, "NrCpus {}", NrCpus::STRUCT_SIZE);
            writeln!(out, "SampleTimeRange {}", SampleTimeRange::STRUCT_SIZE);
            writeln!(out, "CompressionInfo {}", CompressionInfo::STRUCT_SIZE);
            writeln!(out, "ClockData {}", ClockData::STRUCT_SIZE);
            writeln!(out, "Auxtrace {}", Auxtrace::FIXED_SIZE);
        }
        "CompressionInfo::ZSTD_TYPE" => out.push_line(&CompressionInfo::ZSTD_TYPE),
        "ReadError" => push_texts(out, &READ_ERRORS),
        "DecodeError" => push_texts(out, &DECODE_ERRORS),
        "Error" => push_error_texts(out),
        "Error::from" => push_converted(out),
        _ => return false,
    }
    true
}

/// Appends a line for each value.
fn push_rows<T: Debug>(out: &mut Output, rows: &[T]) {
    for row in rows {
        out.push_line(row);
    }
}

/// Appends the name and the text of each error.
fn push_texts<E: Debug + Display>(out: &mut Output, errors: &[E]) {
    for error in errors {
        writeln!(out, "{error:?}: {error}");
    }
}

fn push_error_texts(out: &mut Output) {
    let with_values = [
        Error::Read(ReadError::PerfEventData),
        Error::IoError(unexpected_eof()),
        Error::UnrecognizedMagicValue([0, 1, 2, 3, 4, 5, 6, 255]),
        Error::InconsistentAttributeSizes(64, 56),
        Error::NoIdentifierDespiteMultiEvent(1),
        Error::InconsistentSampleIdAllWithMultiEvent(2),
        Error::ProtobufParsingSimpleperfFileSection(DecodeError::WireType),
        Error::ParsingSimpleperfFileV1Section(unexpected_eof()),
    ];
    push_texts(out, &with_values);
    let others = variants![
        Error: SectionSizeTooBig NoAttributes NotEnoughSpaceForStringLen
        NotEnoughSpaceForStringListLen FeatureSectionTooSmall NoEventTypesInSimpleperfMetaInfo
        StringLengthTooLong StringListLengthBiggerThanUsize StringLengthBiggerThanUsize StringUtf8
        InvalidPerfEventSize Failed Memory
    ];
    push_texts(out, &others);
}

/// Appends errors that are made from other errors.
fn push_converted(out: &mut Output) {
    let bytes = vec![0xff];
    let errors = [
        Error::from(ReadError::NrCpus),
        Error::from(io::Error::from(ErrorKind::OutOfMemory)),
        str::from_utf8(&bytes).map_or_else(Error::from, |_| Error::Failed),
        Error::from(AllocError),
        Error::from(AllocFailed { value: 7u8 }),
        unsupported(),
    ];
    push_texts(out, &errors);
}
