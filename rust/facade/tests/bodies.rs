//! Bodies of records: those of the crate's own documentation, and hostile ones.

use byteorder::LittleEndian;
use linux_perf_data::linux_perf_event_reader::{
    CommOrExecRecord, Endianness, EventRecord, Mmap2Record, PerfEventAttr, RawData, RawDataU64,
    RawEventRecord, RecordParseInfo, RecordType, Regs, SampleRecord,
};
use linux_perf_data::{Auxtrace, ThreadMap};
use std::io::ErrorKind;

// An attribute of 136 bytes in little-endian order: its sample format, read format, flags and masks of
// registers.
fn attr(
    sample_format: u64,
    read_format: u64,
    flags: u64,
    user: u64,
    interrupt: u64,
) -> PerfEventAttr {
    let mut bytes = [0; 136];
    bytes[0] = 1;
    bytes[4] = 136;
    bytes[24..32].copy_from_slice(&sample_format.to_le_bytes());
    bytes[32..40].copy_from_slice(&read_format.to_le_bytes());
    bytes[40..48].copy_from_slice(&flags.to_le_bytes());
    bytes[80..88].copy_from_slice(&user.to_le_bytes());
    bytes[96..104].copy_from_slice(&interrupt.to_le_bytes());
    let (attr, size) = PerfEventAttr::parse::<_, LittleEndian>(&bytes[..]).unwrap();
    assert_eq!(size, 136);
    attr
}

fn words(words: &[u64]) -> Vec<u8> {
    words.iter().flat_map(|word| word.to_le_bytes()).collect()
}

fn sample(attr: &PerfEventAttr, body: &[u8]) -> std::io::Result<SampleRecord<'static>> {
    let info = RecordParseInfo::new(attr, Endianness::LittleEndian);
    let body = body.to_vec().leak();
    let raw = RawEventRecord::new(RecordType::SAMPLE, 2, RawData::from(&*body), info);
    match raw.parse()? {
        EventRecord::Sample(sample) => Ok(sample),
        other => panic!("{other:?} isn't a sample"),
    }
}

// PERF_SAMPLE_IP, READ, CALLCHAIN, REGS_USER, REGS_INTR, PHYS_ADDR.
const IP: u64 = 1;
const READ: u64 = 1 << 4;
const CALLCHAIN: u64 = 1 << 5;
const REGS_USER: u64 = 1 << 12;
const REGS_INTR: u64 = 1 << 18;
const PHYS_ADDR: u64 = 1 << 19;

#[test]
fn a_name_is_parsed() {
    let body = b"lG\x08\0lG\x08\0dump_syms\0\0\0\0\0\0\0lG\x08\0lG\x08\08\x1b\xf8\x18hX\x04\0";
    let comm = CommOrExecRecord::parse::<LittleEndian>(RawData::from(&body[..]), 0x2000).unwrap();
    assert_eq!(
        (comm.pid, comm.tid, comm.is_execve),
        (542_572, 542_572, true)
    );
    assert_eq!(&comm.name.as_slice()[..], b"dump_syms");
}

#[test]
fn fields_after_registers_and_counters_are_at_their_offsets() {
    // A group of two counters: their count, and a value and an identifier of each.
    let format = IP | READ | REGS_USER | REGS_INTR | PHYS_ADDR;
    let attr = attr(format, 0b1100, 0, 0b11, 0b1);
    let body = words(&[7, 2, 10, 11, 20, 21, 2, 100, 101, 2, 200, 0x5555]);
    let sample = sample(&attr, &body).unwrap();
    assert_eq!((sample.ip, sample.phys_addr), (Some(7), Some(0x5555)));
    let registers = sample.user_regs.unwrap();
    assert_eq!(
        (registers.get(0), registers.get(1), registers.get(2)),
        (Some(100), Some(101), None)
    );
}

#[test]
fn a_count_beyond_the_body_is_an_error() {
    let attr = attr(IP | CALLCHAIN, 0, 0, 0, 0);
    for count in [3, u64::MAX, 1 << 61, (1 << 61) + 1] {
        let error = sample(&attr, &words(&[7, count, 1, 2])).unwrap_err();
        assert_eq!(error.kind(), ErrorKind::UnexpectedEof);
    }
    let sample = sample(&attr, &words(&[7, 2, 1, 2])).unwrap();
    assert_eq!(sample.callchain.unwrap().get(1), Some(2));
}

#[test]
fn a_build_id_of_more_than_20_bytes_is_an_error() {
    let mut body = [0; 80];
    body[32] = 21;
    let mmap = Mmap2Record::parse::<LittleEndian>(RawData::from(&body[..]), 1 << 14);
    assert_eq!(mmap.unwrap_err().kind(), ErrorKind::InvalidData);
}

#[test]
fn registers_and_numbers_beyond_the_last_are_none() {
    let bytes = words(&[1, 2]);
    let numbers = RawDataU64::from_raw_data::<LittleEndian>(RawData::from(&bytes[..]));
    assert_eq!(
        (numbers.len(), numbers.get(1), numbers.get(2)),
        (2, Some(2), None)
    );
    assert_eq!(numbers.get(usize::MAX), None);
    let registers = Regs::new(1 | 1 << 63, numbers);
    assert_eq!(
        (
            registers.get(63),
            registers.get(64),
            registers.get(u64::MAX)
        ),
        (Some(2), None, None)
    );
}

#[test]
fn data_in_two_slices_reads_as_one() {
    let mut data = RawData::Split(b"\x01\x02\x03", b"\x04\x05ab\0c");
    assert_eq!(data.read_u32::<LittleEndian>().unwrap(), 0x0403_0201);
    assert_eq!(data.read_u8().unwrap(), 5);
    assert_eq!(&data.read_string().unwrap().as_slice()[..], b"ab");
    assert_eq!(
        data.read_u16::<LittleEndian>().unwrap_err().kind(),
        ErrorKind::UnexpectedEof
    );
    assert_eq!(&data.as_slice()[..], b"c");
    let split = RawData::Split(b"abc", b"def");
    assert_eq!(&split.get(2..5).unwrap().as_slice()[..], b"cde");
    assert!(split.get(2..7).is_none());
}

#[test]
fn threads_are_counted_by_their_entries() {
    let mut body = words(&[2, 5, 0, 0, 6, 0, 0]);
    body[40..43].copy_from_slice(b"abc");
    let map = ThreadMap::parse::<LittleEndian>(RawData::from(&body[..])).unwrap();
    let threads: Vec<_> = map.iter().map(|thread| thread.tid).collect();
    assert_eq!((map.len(), threads), (2, vec![5, 6]));
    for count in [3, u64::MAX] {
        let mut body = body.clone();
        body[..8].copy_from_slice(&count.to_le_bytes());
        assert!(ThreadMap::parse::<LittleEndian>(RawData::from(&body[..])).is_err());
    }
}

#[test]
fn aux_data_has_its_size() {
    let body = [words(&[3, 0, 9, 0x0000_0007_0000_0008, 2]), b"xyz".to_vec()].concat();
    let trace = Auxtrace::parse::<LittleEndian>(RawData::from(&body[..])).unwrap();
    assert_eq!(
        (
            trace.size,
            trace.reference,
            trace.index,
            trace.tid,
            trace.cpu
        ),
        (3, 9, 8, 7, 2)
    );
    assert_eq!(&trace.aux_data.as_slice()[..], b"xyz");
}
