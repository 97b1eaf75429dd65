//! The metadata of a file or a pipe.

use crate::convert;
use crate::dso_info::DsoInfo;
use crate::dso_key::DsoKey;
use crate::error::Error;
use crate::features::{Feature, FeatureSet};
use crate::inner;
use crate::linux_perf_event_reader::Endianness;
use crate::record::UserRecordType;
use crate::sections::{
    AttributeDescription, ClockData, CompressionInfo, NrCpus, PmuMappings, SampleTimeRange, owned,
};
use crate::simpleperf::SimpleperfFileRecord;
use std::collections::HashMap;
use std::io;

/// The metadata of a perf.data file or pipe: everything but its records. It has at least one attribute.
pub struct PerfFile {
    pub(crate) inner: inner::PerfFile,
    attributes: Vec<AttributeDescription>,
    // Whether the names in `attributes` may be old.
    has_new_names: bool,
}

impl PerfFile {
    // Names the attributes of an opened file or pipe. It fails with `unknown` if the type or the clock of an
    // attribute isn't known.
    pub(crate) fn new(inner: inner::PerfFile, unknown: Error) -> Result<Self, Error> {
        let mut perf_file = PerfFile {
            inner,
            attributes: Vec::new(),
            has_new_names: false,
        };
        perf_file.add_attributes(unknown)?;
        Ok(perf_file)
    }

    // Adds the attributes of the library that aren't there yet.
    fn add_attributes(&mut self, unknown: Error) -> Result<(), Error> {
        let attributes = self.inner.event_attributes();
        let added = attributes.get(self.attributes.len()..).unwrap_or_default();
        self.attributes.try_reserve(added.len())?;
        for description in added {
            let attr = match convert::attr(description.attributes()) {
                Ok(attr) => attr,
                Err(_) => return Err(unknown),
            };
            self.attributes
                .push(AttributeDescription::new(attr, description)?);
        }
        Ok(())
    }

    // Follows a metadata record of a pipe, of this type, that the library has applied.
    pub(crate) fn update(&mut self, record_type: u32) -> Result<(), Error> {
        if record_type == UserRecordType::PERF_HEADER_FEATURE.record_type().0 {
            self.has_new_names = true;
        }
        self.add_attributes(Error::IoError(io::ErrorKind::InvalidInput.into()))
    }

    // Follows a new section EVENT_DESC, which names all attributes again.
    pub(crate) fn rename(&mut self) -> Result<(), Error> {
        if !self.has_new_names {
            return Ok(());
        }
        self.has_new_names = false;
        let described = self.inner.event_attributes();
        for (attribute, description) in self.attributes.iter_mut().zip(described) {
            if attribute.name() != description.name() {
                attribute.name = description.name().map(owned).transpose()?;
            }
        }
        Ok(())
    }

    /// Returns the attributes of the recorded events, with their names and identifiers. There is at least
    /// one.
    pub fn event_attributes(&self) -> &[AttributeDescription] {
        &self.attributes
    }

    /// Returns the build ids of the objects that perf knew, by their keys (section BUILD_ID). The key of a
    /// mapping's path ([`DsoKey::detect`]) finds the build id of the mapped file, also if their paths differ.
    ///
    /// It is empty if the file has no such section. The section is read up to the first truncated entry, and
    /// an entry without a key is skipped. Of several entries with one key the last one counts.
    ///
    /// It fails with [`Error::OutOfMemory`] if memory runs out.
    pub fn build_ids(&self) -> Result<HashMap<DsoKey, DsoInfo>, Error> {
        let ids = self.inner.build_ids(inner::Global)?;
        let mut named = HashMap::new();
        named.try_reserve(ids.len())?;
        for (key, info) in ids {
            named.insert(DsoKey::from(key), DsoInfo::from(info));
        }
        Ok(named)
    }

    /// Returns the times of the first and of the last sample (section SAMPLE_TIME).
    ///
    /// It fails with an [`Error::IoError`] if the section is truncated.
    pub fn sample_time_range(&self) -> Result<Option<SampleTimeRange>, Error> {
        Ok(self.inner.sample_time_range()?.map(SampleTimeRange::from))
    }

    /// Returns the name of the machine, as `uname -n` prints it (section HOSTNAME).
    ///
    /// It fails with [`Error::NotEnoughSpaceForStringLen`] or [`Error::StringLengthTooLong`] if the section
    /// is truncated, and with [`Error::StringUtf8`] if the text isn't UTF-8.
    pub fn hostname(&self) -> Result<Option<&str>, Error> {
        Ok(self.inner.hostname()?)
    }

    /// Returns the release of the system, as `uname -r` prints it (section OSRELEASE).
    ///
    /// The errors are those of [`PerfFile::hostname`].
    pub fn os_release(&self) -> Result<Option<&str>, Error> {
        Ok(self.inner.os_release()?)
    }

    /// Returns the version of the recording tool (section VERSION).
    ///
    /// The errors are those of [`PerfFile::hostname`].
    pub fn perf_version(&self) -> Result<Option<&str>, Error> {
        Ok(self.inner.perf_version()?)
    }

    /// Returns the architecture of the processor, as `uname -m` prints it (section ARCH).
    ///
    /// The errors are those of [`PerfFile::hostname`].
    pub fn arch(&self) -> Result<Option<&str>, Error> {
        Ok(self.inner.arch()?)
    }

    /// Returns the numbers of processors (section NRCPUS).
    ///
    /// It fails with an [`Error::IoError`] if the section is truncated.
    pub fn nr_cpus(&self) -> Result<Option<NrCpus>, Error> {
        Ok(self.inner.nr_cpus()?.map(NrCpus::from))
    }

    /// Returns the description of the processor (section CPUDESC).
    ///
    /// The errors are those of [`PerfFile::hostname`].
    pub fn cpu_desc(&self) -> Result<Option<&str>, Error> {
        Ok(self.inner.cpu_desc()?)
    }

    /// Returns the identifier of the processor (section CPUID).
    ///
    /// The errors are those of [`PerfFile::hostname`].
    pub fn cpu_id(&self) -> Result<Option<&str>, Error> {
        Ok(self.inner.cpu_id()?)
    }

    /// Returns whether `perf stat record` wrote the file.
    pub fn is_stats(&self) -> bool {
        self.inner.is_stats()
    }

    /// Returns the command-line arguments of the recording tool (section CMDLINE).
    ///
    /// It fails with [`Error::NotEnoughSpaceForStringListLen`] if the section is truncated, with the errors
    /// of [`PerfFile::hostname`] for an argument, and with [`Error::OutOfMemory`] if memory runs out.
    pub fn cmdline(&self) -> Result<Option<Vec<&str>>, Error> {
        let Some(arguments) = self.inner.cmdline(inner::Global)? else {
            return Ok(None);
        };
        Ok(Some(inner::std_vec(arguments)))
    }

    /// Returns the memory of the machine in units of 1,024 bytes (section TOTAL_MEM).
    ///
    /// It fails with [`Error::FeatureSectionTooSmall`] if the section is truncated.
    pub fn total_mem(&self) -> Result<Option<u64>, Error> {
        Ok(self.inner.total_mem()?)
    }

    /// Returns the duration of a tick of the times' clock in nanoseconds (section CLOCKID).
    ///
    /// It fails with [`Error::FeatureSectionTooSmall`] if the section is truncated.
    pub fn clock_frequency(&self) -> Result<Option<u64>, Error> {
        Ok(self.inner.clock_frequency()?)
    }

    /// Returns the clock of the times, and its time at a time of day (section CLOCK_DATA).
    ///
    /// It fails with an [`Error::IoError`] of kind `InvalidData` if the version of the section isn't 1, and of
    /// kind `UnexpectedEof` if the section is truncated.
    pub fn clock_data(&self) -> Result<Option<ClockData>, Error> {
        Ok(self.inner.clock_data()?.map(ClockData::from))
    }

    /// Returns how records are compressed (section COMPRESSED).
    ///
    /// It fails with an [`Error::IoError`] if the section is truncated.
    pub fn compression_info(&self) -> Result<Option<CompressionInfo>, Error> {
        Ok(self.inner.compression_info()?.map(CompressionInfo::from))
    }

    /// Returns simpleperf's information on the recording by key (section SIMPLEPERF_META_INFO).
    ///
    /// It fails with [`Error::StringUtf8`] if a key or a value isn't UTF-8, and with [`Error::OutOfMemory`]
    /// if memory runs out.
    pub fn simpleperf_meta_info(&self) -> Result<Option<HashMap<&str, &str>>, Error> {
        let Some(info) = self.inner.simpleperf_meta_info(inner::Global)? else {
            return Ok(None);
        };
        let mut map = HashMap::new();
        map.try_reserve(info.len())?;
        map.extend(info);
        Ok(Some(map))
    }

    /// Returns the files that simpleperf recorded, with their symbols (section SIMPLEPERF_FILE2, or else
    /// SIMPLEPERF_FILE).
    ///
    /// It fails with [`Error::IoError`] or [`Error::FeatureSectionTooSmall`] if the section is truncated,
    /// with [`Error::ProtobufParsingSimpleperfFileSection`] or [`Error::ParsingSimpleperfFileV1Section`] if a
    /// file is invalid, and with [`Error::OutOfMemory`] if memory runs out.
    pub fn simpleperf_symbol_tables(&self) -> Result<Option<Vec<SimpleperfFileRecord>>, Error> {
        let Some(files) = self.inner.simpleperf_symbol_tables(inner::Global)? else {
            return Ok(None);
        };
        let mut named = Vec::new();
        named.try_reserve_exact(files.len())?;
        named.extend(files.into_iter().map(SimpleperfFileRecord::from));
        Ok(Some(named))
    }

    /// Returns the names of the machine's monitoring units by their numbers (section PMU_MAPPINGS), which are
    /// in the attributes' types
    /// [`PerfEventType::DynamicPmu`](crate::linux_perf_event_reader::PerfEventType::DynamicPmu).
    ///
    /// It fails with an [`Error::IoError`] if the section is truncated, and with [`Error::OutOfMemory`] if
    /// memory runs out.
    pub fn pmu_mappings(&self) -> Result<Option<PmuMappings>, Error> {
        match self.inner.pmu_mappings(inner::Global)? {
            Some(units) => Ok(Some(PmuMappings::new(units)?)),
            None => Ok(None),
        }
    }

    /// Returns the features that the file declares, or that were read from the pipe so far.
    pub fn features(&self) -> FeatureSet {
        FeatureSet(self.inner.features().0)
    }

    /// Returns the bytes of a feature's section, or `None` if the feature isn't there.
    pub fn feature_section_data(&self, feature: Feature) -> Option<&[u8]> {
        self.inner.feature_section_data(feature)
    }

    /// Returns the byte order of the file.
    pub fn endian(&self) -> Endianness {
        convert::endian(self.inner.endian())
    }
}
