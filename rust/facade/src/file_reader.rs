//! Opens a file or a pipe, and returns its records by time.

use crate::bodies::{Bodies, Body};
use crate::convert;
use crate::error::{Error, ReadError};
use crate::features::Feature;
use crate::inner;
use crate::input::Input;
use crate::linux_perf_event_reader::{RawData, RawEventRecord, RecordParseInfo, RecordType};
use crate::perf_file::PerfFile;
use crate::record::{PerfFileRecord, RawUserRecord, UserRecordType};
use crate::source::Buffered;
use std::io::{self, Read, Seek};

// The number of records in a round of a recording of simpleperf, which writes no markers.
const SIMPLEPERF_ROUND: usize = 1024;

/// An opened file or pipe: its metadata, and an iterator over its records.
///
/// ```no_run
/// use linux_perf_data::linux_perf_event_reader::RecordType;
/// use linux_perf_data::{PerfFileReader, PerfFileRecord};
///
/// fn count_samples(path: &str) -> Result<u64, linux_perf_data::Error> {
///     let file = std::fs::File::open(path)?;
///     let PerfFileReader { mut perf_file, mut record_iter } = PerfFileReader::parse_file(file)?;
///     let mut count = 0;
///     while let Some(record) = record_iter.next_record(&mut perf_file)? {
///         if let PerfFileRecord::EventRecord { record, .. } = record {
///             count += u64::from(record.record_type == RecordType::SAMPLE);
///         }
///     }
///     Ok(count)
/// }
/// ```
pub struct PerfFileReader<R: Read> {
    /// The metadata of the file or pipe.
    pub perf_file: PerfFile,
    /// The iterator over the records.
    pub record_iter: PerfRecordIter<R>,
}

impl<C: Read + Seek> PerfFileReader<C> {
    /// Opens a perf.data file: reads its header, the sections of its features and its attributes. It reads by
    /// a buffer of its own; the reader needs none.
    ///
    /// The attributes are those of the first of these that the file has: the section EVENT_DESC, the event
    /// types section, the attribute section.
    ///
    /// # Errors
    ///
    /// - [`Error::IoError`] if the header or a section is truncated, or if the reader fails.
    /// - [`Error::UnrecognizedMagicValue`] if the file is no perf.data file.
    /// - [`ReadError::FeatureSection`] if the data section ends past 2^64 - 1.
    /// - [`ReadError::PerfEventAttr`] or [`Error::InconsistentAttributeSizes`] if an attribute is invalid, of
    ///   a type or a clock that isn't known, or too long.
    /// - [`Error::NoAttributes`] if there are none.
    /// - [`Error::NoEventTypesInSimpleperfMetaInfo`] or [`Error::StringUtf8`] if simpleperf's meta info is
    ///   invalid.
    /// - [`Error::NoIdentifierDespiteMultiEvent`] or [`Error::InconsistentSampleIdAllWithMultiEvent`] if the
    ///   attributes don't tell to which of them a record belongs.
    /// - [`Error::OutOfMemory`] if memory runs out.
    pub fn parse_file(cursor: C) -> Result<Self, Error> {
        let source = Buffered::with_position(Input::of_file(cursor)?)?;
        let reader = inner::PerfFileReader::parse_file(inner::Global, source)?;
        let perf_file = PerfFile::new(reader.perf_file, Error::Read(ReadError::PerfEventAttr))?;
        let record_iter = PerfRecordIter::new(reader.record_iter, &perf_file, Kind::File)?;
        Ok(Self {
            perf_file,
            record_iter,
        })
    }
}

impl<R: Read> PerfFileReader<R> {
    /// Opens a perf.data pipe, as `perf record -o -` writes it: reads its header and the metadata records
    /// after it. It reads by a buffer of its own, and never waits for more bytes than it needs.
    ///
    /// # Errors
    ///
    /// - [`Error::IoError`] if the header or a metadata record is truncated, if an attribute is of a type or a
    ///   clock that isn't known, or if the reader fails.
    /// - [`Error::UnrecognizedMagicValue`] if the pipe is no perf.data pipe.
    /// - [`Error::InvalidPerfEventSize`] if the size of a record is below 8.
    /// - [`Error::NoAttributes`] if there are none.
    /// - The errors of [`PerfFileReader::parse_file`] for the section EVENT_DESC and for attributes that
    ///   don't tell to which of them a record belongs.
    /// - [`Error::OutOfMemory`] if memory runs out.
    pub fn parse_pipe(reader: R) -> Result<Self, Error> {
        let source = Buffered::new(Input::of_pipe(reader)?)?;
        let reader = inner::PerfFileReader::parse_pipe(inner::Global, source)?;
        let unknown = Error::IoError(io::Error::from(io::ErrorKind::InvalidInput));
        let perf_file = PerfFile::new(reader.perf_file, unknown)?;
        let record_iter = PerfRecordIter::new(reader.record_iter, &perf_file, Kind::Pipe)?;
        Ok(Self {
            perf_file,
            record_iter,
        })
    }
}

#[derive(Clone, Copy, PartialEq, Eq)]
enum Kind {
    File,
    Pipe,
}

// What the iterator still reads.
enum Stage {
    Reading,
    // Nothing more, and this error once the records before it are returned. `None` if it was returned.
    Failed(Option<Error>),
    Ended,
}

// The key by which records are sorted: the time, with records without a time first, and then the offset. It is one
// number, which is compared at once: the time plus 1, or 0 without a time, and 63 bits for the offset. Records at
// larger offsets keep their order, since the sorter is stable.
type SortKey = u128;

const OFFSET_BITS: u32 = 63;

#[inline]
fn sort_key(time: Option<u64>, offset: u64) -> SortKey {
    let time = time.map_or(0, |time| u128::from(time) + 1);
    let last_offset = (1 << OFFSET_BITS) - 1;
    time << OFFSET_BITS | u128::from(offset.min(last_offset))
}

// Who wrote a record.
#[derive(Clone, Copy)]
enum Origin {
    Kernel,
    Tool,
}

// A held record. It is small, since a recording without markers is held as a whole.
#[derive(Clone, Copy)]
struct HeldRecord {
    record_type: u32,
    // 0 for a record of a tool.
    attr_index: u32,
    misc: u16,
    origin: Origin,
    body: Body,
}

/// An iterator over the records of a file or a pipe, by time.
///
/// Records are read in rounds, which end at perf's round markers (`FINISHED_ROUND`) or after 1,024 records of
/// simpleperf. The records of a round are held until the next one ends: those that are older than all of the
/// next round are returned in the order of their times. They are returned before a byte after the marker is
/// read, so a pipe that perf still writes needn't go on for them.
pub struct PerfRecordIter<R: Read> {
    records: inner::PerfRecordIter<Buffered<Input<R>>>,
    sorter: inner::Sorter<SortKey, HeldRecord>,
    bodies: Bodies,
    // The record that the caller has.
    returned: Option<Body>,
    parse_infos: Vec<RecordParseInfo>,
    endian: inner::Endianness,
    kind: Kind,
    // The records of the current round that are counted, and how many end it.
    count: usize,
    round_size: usize,
    stage: Stage,
}

// The parts of a record of the library.
struct RecordParts<'a> {
    record_type: u32,
    attr_index: usize,
    misc: u16,
    origin: Origin,
    body: inner::RawData<'a>,
}

impl<'a> RecordParts<'a> {
    #[inline]
    fn new(record: inner::PerfFileRecord<'a>) -> Self {
        match record {
            inner::PerfFileRecord::EventRecord { attr_index, event } => RecordParts {
                record_type: event.record_type.0,
                attr_index,
                misc: event.misc,
                origin: Origin::Kernel,
                body: event.body,
            },
            inner::PerfFileRecord::UserRecord(user) => RecordParts {
                record_type: user.record_type.record_type().0,
                attr_index: 0,
                misc: user.misc,
                origin: Origin::Tool,
                body: user.body,
            },
        }
    }
}

impl<R: Read> PerfRecordIter<R> {
    fn new(
        records: inner::PerfRecordIter<Buffered<Input<R>>>,
        perf_file: &PerfFile,
        kind: Kind,
    ) -> Result<Self, Error> {
        let is_simpleperf = perf_file
            .feature_section_data(Feature::SIMPLEPERF_META_INFO)
            .is_some();
        let mut iter = Self {
            records,
            sorter: inner::Sorter::new(inner::Global),
            bodies: Bodies::new(),
            returned: None,
            parse_infos: Vec::new(),
            endian: perf_file.inner.endian(),
            kind,
            count: 0,
            round_size: if is_simpleperf {
                SIMPLEPERF_ROUND
            } else {
                usize::MAX
            },
            stage: Stage::Reading,
        };
        if is_simpleperf && kind == Kind::Pipe {
            // The record after the metadata isn't counted.
            iter.round_size += 1;
        }
        iter.add_parse_infos(perf_file)?;
        Ok(iter)
    }

    // Adds the parse infos of the attributes that have none yet.
    fn add_parse_infos(&mut self, perf_file: &PerfFile) -> Result<(), Error> {
        let attributes = perf_file.inner.event_attributes();
        let added = attributes.get(self.parse_infos.len()..).unwrap_or_default();
        self.parse_infos.try_reserve(added.len())?;
        let endian = self.endian;
        let infos = added
            .iter()
            .map(|attribute| convert::parse_info(attribute.attributes(), endian));
        for info in infos {
            self.parse_infos.push(info?);
        }
        Ok(())
    }

    /// Returns the next record, or `Ok(None)` at the end. The record borrows the iterator until the next
    /// call.
    ///
    /// Attributes and features in the middle of a pipe are added to `perf_file`, which must be that of the
    /// same [`PerfFileReader`], once their records are read.
    ///
    /// # Errors
    ///
    /// The records before an error are returned first, by time. The error is returned once; each later call
    /// returns [`Error::Failed`].
    ///
    /// - [`Error::IoError`] if a record header is truncated or the reader fails; of kind `Unsupported` for a
    ///   compressed record without feature `zstd`, and with it of kind `InvalidData` if its data can't be read.
    /// - [`Error::InvalidPerfEventSize`] if the size of a record is below 8.
    /// - [`ReadError::PerfEventData`] if a body is truncated or can't be read.
    /// - In a pipe, where a truncated record is the end and no error: the errors of
    ///   [`PerfFileReader::parse_pipe`] for an attribute or a feature that can't be added.
    /// - [`Error::OutOfMemory`] if memory runs out.
    pub fn next_record(
        &mut self,
        perf_file: &mut PerfFile,
    ) -> Result<Option<PerfFileRecord<'_>>, Error> {
        if let Some(body) = self.returned.take() {
            self.bodies.release(body);
        }
        if !self.sorter.has_more() {
            self.read_round(perf_file)?;
        }
        if let Some(held) = self.sorter.get_next() {
            self.returned = Some(held.body);
            return Ok(Some(self.record_of(held)));
        }
        match &mut self.stage {
            Stage::Failed(error) => Err(error.take().unwrap_or(Error::Failed)),
            Stage::Reading | Stage::Ended => Ok(None),
        }
    }

    #[inline]
    fn record_of(&self, held: HeldRecord) -> PerfFileRecord<'_> {
        let data = RawData::Single(self.bodies.get(held.body));
        let record_type = RecordType(held.record_type);
        let misc = held.misc;
        match held.origin {
            Origin::Kernel => {
                let attr_index = held.attr_index as usize;
                let parse_info = self.parse_infos[attr_index];
                PerfFileRecord::EventRecord {
                    attr_index,
                    record: RawEventRecord::new(record_type, misc, data, parse_info),
                }
            }
            Origin::Tool => PerfFileRecord::UserRecord(RawUserRecord {
                record_type: UserRecordType::of_tool(record_type),
                endian: convert::endian(self.endian),
                misc,
                data,
            }),
        }
    }

    // Reads until records are available in the sorter, or until nothing more is read.
    fn read_round(&mut self, perf_file: &mut PerfFile) -> Result<(), Error> {
        if !matches!(self.stage, Stage::Reading) {
            return Ok(());
        }
        let read = self.read_records(perf_file);
        let renamed = perf_file.rename();
        self.stage = match read.and_then(|is_available| renamed.map(|()| is_available)) {
            Ok(true) => Stage::Reading,
            Ok(false) => Stage::Ended,
            Err(error) => Stage::Failed(Some(error)),
        };
        if !matches!(self.stage, Stage::Reading)
            && let Err(error) = self.sorter.finish()
        {
            self.stage = Stage::Failed(None);
            return Err(error.into());
        }
        Ok(())
    }

    // Reads until records are available in the sorter, and no byte after the marker that made them so. `false` at
    // the end of the records.
    fn read_records(&mut self, perf_file: &mut PerfFile) -> Result<bool, Error> {
        while let Some(item) = self.records.next_item(&mut perf_file.inner)? {
            let inner::PerfItem::Record(place, record) = item else {
                self.end_round()?;
                if self.sorter.has_more() {
                    return Ok(true);
                }
                continue;
            };
            let parts = RecordParts::new(record);
            let inner::RawData::Single(bytes) = parts.body else {
                unreachable!("the library returns the body of a record in one slice");
            };
            let key = sort_key(place.timestamp, place.offset);
            let held = HeldRecord {
                record_type: parts.record_type,
                attr_index: u32::try_from(parts.attr_index).map_err(|_| Error::OutOfMemory)?,
                misc: parts.misc,
                origin: parts.origin,
                body: self.bodies.append(bytes)?,
            };
            if self.kind == Kind::Pipe && is_metadata(held.record_type) {
                self.add_parse_infos(perf_file)?;
                perf_file.update(held.record_type)?;
            }
            if self.insert(key, held)? {
                return Ok(true);
            }
        }
        Ok(false)
    }

    fn end_round(&mut self) -> Result<(), Error> {
        self.count = 0;
        if self.kind == Kind::Pipe && self.round_size != usize::MAX {
            self.round_size = SIMPLEPERF_ROUND;
        }
        self.sorter.finish_round()?;
        Ok(())
    }

    // Inserts a record into the current round, and ends the round if it has as many records as a round of
    // simpleperf. Returns whether records are available.
    #[inline]
    fn insert(&mut self, key: SortKey, held: HeldRecord) -> Result<bool, Error> {
        if self.sorter.insert_unordered(key, held).is_err() {
            return Err(Error::OutOfMemory);
        }
        self.count += 1;
        if self.count < self.round_size {
            return Ok(false);
        }
        self.end_round()?;
        Ok(self.sorter.has_more())
    }
}

// Whether records of this type are applied to the metadata of a pipe.
fn is_metadata(record_type: u32) -> bool {
    record_type == UserRecordType::PERF_HEADER_ATTR.record_type().0
        || record_type == UserRecordType::PERF_HEADER_FEATURE.record_type().0
}
