/*
 * Dewikura reads recordings of Linux perf and Android simpleperf (perf.data files and pipes), and jitdumps, from memory
 * into arrays of plain structs. A call fills the caller's arrays and keeps nothing: there is nothing to open or free. A
 * call that is given capacity 0 counts, except the calls with a cursor, which continue where it points.
 *
 * The library is formally verified. No input makes a call read outside the input or write outside the arrays. The
 * written elements are exactly what the format says, in order. The elements after them are unchanged. The status is the
 * first error in the input.
 *
 * The caller has these obligations:
 *   - A pointer is valid for the number of elements that the argument beside it gives, or for one element without such
 *     an argument, and aligned for its type (8 bytes for structs and uint64_t). None is NULL: where the number is 0,
 *     pass the address of any variable of the type.
 *   - No two arguments overlap, and arrays are initialized memory (static, calloc).
 *   - Nothing changes the arguments during a call. This includes a mapped file: map it with MAP_PRIVATE, or read it.
 *   - malloc, realloc and free are of one family. They align a block to each power of two up to 16 that divides its
 *     size.
 *   - No call is made from a signal handler, or from the forked child of a process with threads.
 *
 * Any number of threads may call at once, also on the same input, with different output arrays. The header is for
 * 64-bit platforms, C99 and later, and C++11 and later.
 *
 * Link with the installed libdewikura.a or libdewikura.so, and with nothing else. The libdewikura.a that a build in a
 * clone leaves doesn't contain the three functions by which Rattle code calls malloc, realloc and free: they are
 * liblibc_c.a of Rattle's kit.
 */
#ifndef DEWIKURA_H
#define DEWIKURA_H

#include <stddef.h>
#include <stdint.h>

#if defined(__GNUC__) || defined(__clang__)
#define DEWIKURA_NONNULL __attribute__((nonnull))
#define DEWIKURA_NODISCARD __attribute__((warn_unused_result))
#else
#define DEWIKURA_NONNULL
#define DEWIKURA_NODISCARD
#endif

#ifdef __cplusplus
extern "C" {
#endif

// ---- version

#define DEWIKURA_VERSION_MAJOR 0 // changes if a call or a struct changes incompatibly
#define DEWIKURA_VERSION_MINOR 1 // changes if something is added
#define DEWIKURA_VERSION_PATCH 0
#define DEWIKURA_VERSION (DEWIKURA_VERSION_MAJOR * 10000 + DEWIKURA_VERSION_MINOR * 100 + DEWIKURA_VERSION_PATCH)

// Returns DEWIKURA_VERSION of the linked library.
uint32_t dewikura_version(void);

// ---- statuses

// The status of a call: one of the codes below.
typedef uint32_t dewikura_status;

enum dewikura_status_code {
    DEWIKURA_OK = 0,                      // no error in what was read
    DEWIKURA_OUT_OF_MEMORY = 1,           // an allocation failed; what was written is valid, and may be incomplete
    DEWIKURA_TRUNCATED = 2,               // the input ends inside a header, a section or an entry
    DEWIKURA_INVALID_DATA = 3,            // a metadata record has an attribute size of 1 to 63, or a body is malformed
    DEWIKURA_INVALID_HEADER_SIZE = 4,     // the header size can't be skipped (past 2^63)
    DEWIKURA_COMPRESSED = 5,              // a compressed record: see dewikura_decompress
    DEWIKURA_OTHER = 6,                   // the attribute of a sample selects a field that isn't known
    DEWIKURA_BAD_MAGIC = 7,               // not a perf.data file or pipe
    DEWIKURA_NO_ATTRIBUTES = 8,           // the input declares no event attributes
    DEWIKURA_BAD_DATA_SECTION = 9,        // the data section ends past 2^64 - 1
    DEWIKURA_BAD_ATTRIBUTE = 10,          // an attribute or its id section is truncated or out of range
    DEWIKURA_ATTRIBUTE_TOO_LARGE = 11,    // an attribute is larger than the entry that holds it
    DEWIKURA_MISSING_IDENTIFIER = 12,     // several attributes, and one without PERF_SAMPLE_IDENTIFIER
    DEWIKURA_SAMPLE_ID_ALL_MISMATCH = 13, // several attributes that disagree about sample_id_all
    DEWIKURA_NO_EVENT_TYPES = 14,         // simpleperf's meta info lists no event types
    DEWIKURA_INVALID_UTF8 = 15,           // simpleperf's meta info is not UTF-8
    DEWIKURA_BAD_RECORD_SIZE = 16,        // a record header gives a size below 8
    DEWIKURA_TRUNCATED_RECORD = 17,       // a record's body or aux data is truncated, or ends past 2^64 - 1
    DEWIKURA_JIT_TRUNCATED_HEADER = 18,   // the jitdump header is incomplete, or larger than 4096 bytes
    DEWIKURA_JIT_BAD_HEADER_SIZE = 19,    // the jitdump header gives a size below 40
    DEWIKURA_JIT_BAD_MAGIC = 20,          // not a jitdump
    DEWIKURA_JIT_BAD_RECORD_SIZE = 21,    // a jitdump record gives a size below 16, or ends past 2^64 - 1
    DEWIKURA_JIT_WRONG_TYPE = 22,         // the jitdump record at this offset is of another type
    DEWIKURA_JIT_BAD_BODY = 23,           // the body of the jitdump record is malformed
    DEWIKURA_BAD_SYMBOL_TABLE = 24,       // a record of simpleperf's symbol tables is malformed
    DEWIKURA_NO_SPACE = 25,               // the array is too small for the next record
    DEWIKURA_NOT_ELF = 26,                // not an ELF file
    DEWIKURA_BAD_ELF = 27,                // a table of the ELF file ends after it, or its entries are too small
    DEWIKURA_TRACING_DATA = 28,           // a pipe with tracing data, which tracepoint events have
    DEWIKURA_MORE = 29                    // the bytes so far don't say it yet: call again with more of the input
};

// ---- structs: numbers are in the machine's byte order, whatever the byte order of the input is

// Where the records of a file continue. Zeros are the first record. Any numbers are safe.
struct dewikura_cursor {
    uint64_t offset; // of the next record header, in bytes from the first record
    uint64_t round;  // FINISHED_ROUND records before it
};

// A record of a file or pipe.
struct dewikura_record {
    uint64_t offset;       // of the record header, in bytes from the first record
    uint64_t body_offset;  // of the body, in bytes from the start of the input
    uint64_t body_size;    // in bytes, aux data included
    uint64_t round;        // FINISHED_ROUND records before it
    uint64_t timestamp;    // in nanoseconds of the recording's clock; 0 if has_timestamp is 0
    uint64_t attr_index;   // index of its attribute; 0 if has_attr is 0
    uint32_t type;         // DEWIKURA_RECORD_*
    uint16_t misc;         // misc bits of the record header
    uint8_t has_timestamp; // 0 or 1
    uint8_t has_attr;      // 1 for kernel records, 0 for user (tool) records
};

// A sample (DEWIKURA_RECORD_SAMPLE), decoded. What it doesn't have is 0: `fields` says what it has.
struct dewikura_sample {
    uint64_t offset;       // of the record header, in bytes from the first record, as in dewikura_record
    uint64_t timestamp;    // in nanoseconds of the recording's clock
    uint64_t ip;           // address of the instruction
    uint64_t address;      // address in memory
    uint64_t id;           // of the event: IDENTIFIER, else ID
    uint64_t period;       // events since the previous sample
    uint64_t frames_start; // index of the first frame of its call chain in the array of frames
    uint32_t frames_count; // frames of its call chain
    uint32_t attr_index;   // index of its attribute
    uint32_t fields;       // DEWIKURA_SAMPLE_* bits of its attribute; after an error, of the fields that are decoded
    uint32_t cpu;
    int32_t pid;
    int32_t tid;
    uint16_t misc;         // misc bits of the record header; `misc & 7` is a DEWIKURA_MODE_*
    uint8_t error;         // DEWIKURA_BODY_*: whether the fields up to the call chain are decoded
    uint8_t reserved[5];   // 0
};

// A frame of a call chain. Context changes are no frames.
struct dewikura_frame {
    uint64_t address;
    uint32_t context;  // DEWIKURA_CONTEXT_*
    uint32_t reserved; // 0
};

// What else a sample has. What it doesn't have is 0. Offsets are in bytes from the start of its body.
struct dewikura_sample_details {
    uint64_t stream_id;                  // id of the event itself, also if another task inherited it
    uint64_t weight;                     // with WEIGHT_STRUCT three numbers: bits 0 to 31, 32 to 47, 48 to 63
    uint64_t data_source;                // bits of `union perf_mem_data_src`
    uint64_t transaction;                // PERF_TXN_* bits
    uint64_t physical_address;           // of the data
    uint64_t cgroup;                     // id of the control group
    uint64_t data_page_size;             // of the data, in bytes
    uint64_t code_page_size;             // of the instruction, in bytes
    uint64_t raw_offset;                 // of the raw data, as those of a tracepoint
    uint64_t raw_size;                   // in bytes
    uint64_t branches_offset;            // of the branches, three words each: from, to, flags; then any counters
    uint64_t branches_count;
    uint64_t branches_hw_index;          // of the first branch
    uint64_t user_abi;                   // 0 none, 1 of 32 bits, 2 of 64 bits
    uint64_t user_registers_offset;      // of the registers in sample_regs_user, a word each
    uint64_t user_registers_count;
    uint64_t user_stack_offset;          // of the copy of the stack
    uint64_t user_stack_size;            // in bytes
    uint64_t user_stack_dynamic_size;    // bytes of it that the kernel could copy
    uint64_t interrupt_abi;              // as user_abi
    uint64_t interrupt_registers_offset; // of the registers in sample_regs_intr, a word each
    uint64_t interrupt_registers_count;
    uint64_t aux_offset;                 // of the aux data
    uint64_t aux_size;                   // in bytes
};

// A record on a task, decoded: its name (DEWIKURA_RECORD_COMM), its start (DEWIKURA_RECORD_FORK) or its end
// (DEWIKURA_RECORD_EXIT).
struct dewikura_task {
    uint64_t offset;      // of the record header, in bytes from the first record, as in dewikura_record
    uint64_t timestamp;   // in nanoseconds of the recording's clock; 0 if the record has none
    uint64_t name_offset; // of the name, in bytes from the start of the input; 0 for a start or an end
    uint64_t name_size;   // in bytes, no NUL
    uint32_t type;        // DEWIKURA_RECORD_COMM, DEWIKURA_RECORD_FORK or DEWIKURA_RECORD_EXIT
    uint32_t is_execve;   // 1 if the task executed another program, otherwise 0
    int32_t pid;
    int32_t tid;
    int32_t ppid;         // pid of the parent, of a start or an end, otherwise 0
    int32_t ptid;         // tid of the parent
};

// A mapping, decoded (DEWIKURA_RECORD_MMAP or DEWIKURA_RECORD_MMAP2). What it doesn't have is 0.
struct dewikura_mapping {
    uint64_t offset;           // of the record header, in bytes from the first record, as in dewikura_record
    uint64_t timestamp;        // in nanoseconds of the recording's clock; 0 if the record has none
    uint64_t address;          // where the mapping starts
    uint64_t length;           // in bytes
    uint64_t page_offset;      // in the mapped file, in bytes
    uint64_t inode;            // of the mapped file, in a MMAP2 record without a build id
    uint64_t inode_generation;
    uint64_t path_offset;      // of the path, in bytes from the start of the input
    uint64_t path_size;        // in bytes, no NUL
    uint32_t type;             // DEWIKURA_RECORD_MMAP or DEWIKURA_RECORD_MMAP2
    uint32_t major;            // of the device of the mapped file, in a MMAP2 record without a build id
    uint32_t minor;
    uint32_t protection;       // PROT_* bits, in a MMAP2 record
    uint32_t flags;            // MAP_* bits, in a MMAP2 record
    int32_t pid;
    int32_t tid;
    uint8_t build_id[20];      // of the mapped file, and zeros after it
    uint8_t build_id_size;     // in bytes; 0 without a build id
    uint8_t is_data;           // 1 if the mapping isn't executable, otherwise 0
    uint16_t misc;             // misc bits of the record header; `misc & 7` is a DEWIKURA_MODE_*
    uint32_t reserved;         // 0
};

// The value of a counter in a sample or in a READ record, decoded. A record has a value for each counter of its group.
// What its attribute's read_format (DEWIKURA_READ_* bits) doesn't select is 0.
struct dewikura_counter {
    uint64_t value;
    uint64_t id;           // of the event, one of the ids of an attribute
    uint64_t time_enabled; // in nanoseconds; of the group if the values are those of a group
    uint64_t time_running; // as time_enabled
    uint64_t lost;         // how many samples of the event were lost
    uint64_t offset;       // of the record header, in bytes from the first record, as in dewikura_record
};

// A sample as a stack: its frames, and the name of its thread. What it doesn't have is 0.
struct dewikura_stack {
    uint64_t offset;       // of the record header, in bytes from the first record, as in dewikura_sample
    uint64_t timestamp;    // in nanoseconds of the recording's clock
    uint64_t period;       // events since the previous sample
    uint64_t attr_index;   // index of its attribute
    uint64_t frames_start; // index of its first frame in the array of frames
    uint64_t frames_count; // its frames, innermost first: those of its call chain, else the one of its instruction
    uint64_t name_offset;  // of the name of its thread at its time, in bytes from the start of the text
    uint64_t name_size;    // in bytes, no NUL
    int32_t pid;           // -1 if the sample has none
    int32_t tid;           // -1 if the sample has none
    uint16_t misc;         // misc bits of the record header; `misc & 7` is a DEWIKURA_MODE_*
    uint8_t has_name;      // 1 if a record names the thread, otherwise 0
    uint8_t reserved[5];   // 0
};

// A frame of a stack. Look it up at `address`, and a caller at `address - 1`: `address` is the recorded one, which the
// call returns to, and the code there may be another function's. `mapping` and `file_offset` are those of the look-up
// address.
struct dewikura_stack_frame {
    uint64_t address;     // of an instruction, or of a caller the one that its call returns to
    uint64_t file_offset; // of the look-up address in the mapped file, in bytes, modulo 2^64; 0 without a mapping
    uint64_t mapping;     // index in the array of mappings, or DEWIKURA_NO_MAPPING
    uint32_t context;     // DEWIKURA_CONTEXT_*
    uint32_t is_caller;   // 1 for a caller: the value before it in the call chain is a frame; 0 for an instruction
};

// What is mapped: a file or memory (DEWIKURA_RECORD_MMAP or DEWIKURA_RECORD_MMAP2), or a function that the kernel
// generated (DEWIKURA_RECORD_KSYMBOL). What it doesn't have is 0.
struct dewikura_stack_mapping {
    uint64_t start;         // address
    uint64_t length;        // in bytes
    uint64_t page_offset;   // of the start in the mapped file, in bytes
    uint64_t path_offset;   // of the path, or of the function's name, in bytes from the start of the text
    uint64_t path_size;     // in bytes, no NUL
    int32_t pid;
    uint32_t kind;          // DEWIKURA_MAPPING_*
    uint32_t protection;    // PROT_* bits; of a MMAP record PROT_EXEC (4) for code, otherwise 0
    uint32_t flags;         // MAP_* bits, of a MMAP2 record
    uint8_t build_id[20];   // of the mapped file, if its MMAP2 record has it, and zeros after it
    uint32_t build_id_size; // in bytes; 0 without a build id
};

// The totals over all stacks of a recording.
struct dewikura_stack_totals {
    uint64_t stack_count;   // stacks: samples
    uint64_t frame_count;   // frames of all stacks
    uint64_t mapping_count; // mappings
    uint64_t text_size;     // bytes of all names and paths
};

// An event attribute: perf_event_attr, by the kernel's names.
struct dewikura_attr {
    uint64_t config;                // which event of its type
    uint64_t sample_period_or_freq; // period, or samples per second with DEWIKURA_ATTR_FREQ
    uint64_t sample_type;           // DEWIKURA_SAMPLE_* bits
    uint64_t read_format;           // DEWIKURA_READ_* bits
    uint64_t flags;                 // DEWIKURA_ATTR_* bits
    uint64_t config1;               // bp_addr for breakpoints
    uint64_t config2;               // bp_len for breakpoints
    uint64_t branch_sample_type;    // branch stack selection
    uint64_t sample_regs_user;      // user registers in a sample
    uint64_t sample_regs_intr;      // registers at the interrupt in a sample
    uint64_t sig_data;              // data delivered with sigtrap
    uint64_t config3;               // fourth event-specific number
    uint64_t name_offset;           // of its name in the names buffer
    uint64_t name_size;             // in bytes, no NUL; 0 if has_name is 0
    uint64_t ids_start;             // index of its first id in the ids array
    uint64_t ids_count;             // how many ids
    uint32_t type;                  // DEWIKURA_TYPE_* or a PMU number
    uint32_t size;                  // own size of the attribute in bytes
    uint32_t wakeup_events;         // events, or bytes with DEWIKURA_ATTR_WATERMARK, between wakeups
    uint32_t bp_type;               // breakpoint type
    uint32_t sample_stack_user;     // bytes of user stack in a sample
    int32_t clockid;                // clock of timestamps with DEWIKURA_ATTR_USE_CLOCKID
    uint32_t aux_watermark;         // bytes of aux data between wakeups
    uint32_t aux_sample_size;       // bytes of aux data in a sample
    uint32_t sample_max_stack;      // frames of a call chain at most
    uint32_t has_name;              // 0 or 1
};

// The totals over all attributes.
struct dewikura_attr_totals {
    uint64_t attr_count; // attributes
    uint64_t names_size; // bytes of all names
    uint64_t ids_count;  // ids of all attributes
};

// A set of features: feature n is bit n % 64 of the number n / 64.
struct dewikura_feature_set {
    uint64_t bits0;
    uint64_t bits1;
    uint64_t bits2;
    uint64_t bits3;
};

// An entry of the BUILD_ID section. Offsets are in bytes from the start of the section.
struct dewikura_build_id {
    uint64_t id_offset;   // of the build id
    uint64_t id_size;     // in bytes, at most 20
    uint64_t path_offset; // of the path
    uint64_t path_size;   // in bytes, up to the first NUL
    uint64_t next_offset; // of the next entry
    int32_t pid;          // -1 mostly
    uint32_t dso_kind;    // DEWIKURA_DSO_*
    uint16_t misc;        // misc bits of the entry's header; `misc & 7` is a DEWIKURA_MODE_*
    uint8_t reserved[6];  // 0
};

// A string of a feature section. Offsets are in bytes from the start of the section.
struct dewikura_string {
    uint64_t text_offset; // of the text
    uint64_t text_size;   // in bytes, up to the first NUL
    uint64_t next_offset; // of the bytes after the string
};

// A key and its value in the section SIMPLEPERF_META_INFO. Offsets are in bytes from the start of the section.
struct dewikura_meta_pair {
    uint64_t key_offset;   // of the key
    uint64_t key_size;     // in bytes, without the NUL
    uint64_t value_offset; // of the value
    uint64_t value_size;   // in bytes, without the NUL
};

// A file of simpleperf's symbol tables.
struct dewikura_symbol_file {
    uint64_t path_offset;       // of its path in the names buffer
    uint64_t path_size;         // in bytes, no NUL
    uint64_t min_vaddr;         // lowest address of its code
    uint64_t symbols_start;     // index of its first symbol in the symbols array
    uint64_t symbols_count;     // how many symbols
    uint64_t min_vaddr_offset;  // where the lowest address is in the ELF file or the kernel module's memory; else 0
    uint64_t dex_offsets_start; // index of its first DEX offset in the offsets array
    uint64_t dex_offsets_count; // how many DEX offsets
    uint32_t type;              // DEWIKURA_SYMBOL_FILE_*
    uint32_t info_type;         // the type that its offsets are for: KERNEL_MODULE, ELF or DEX; 0 without offsets
};

// A symbol of a file of simpleperf's symbol tables.
struct dewikura_symbol {
    uint64_t vaddr;       // address in the file's own address space
    uint64_t size;        // in bytes
    uint64_t name_offset; // of its name in the names buffer
    uint64_t name_size;   // in bytes, no NUL
};

// The totals over all files of simpleperf's symbol tables.
struct dewikura_symbol_totals {
    uint64_t file_count;       // files
    uint64_t symbol_count;     // symbols of all files
    uint64_t names_size;       // bytes of all paths and names
    uint64_t dex_offset_count; // DEX offsets of all files
};

// The header of a jitdump.
struct dewikura_jit_header {
    uint64_t timestamp;     // when the file was created
    uint64_t flags;         // bit 0: timestamps are TSC values
    uint32_t version;       // of the format
    uint32_t size;          // of the header in bytes; the first record follows it
    uint32_t elf_machine;   // e_machine of the code
    uint32_t pid;           // process that wrote it
    uint32_t is_big_endian; // 0 or 1
    uint32_t reserved;      // 0
};

// A record of a jitdump.
struct dewikura_jit_record {
    uint64_t offset;    // of the record header, in bytes from the start of the file; the body follows 16 bytes later
    uint64_t timestamp;
    uint32_t type;      // DEWIKURA_JIT_*
    uint32_t size;      // in bytes, header included
};

// A code load record of a jitdump. Offsets are in bytes from the start of the file.
struct dewikura_jit_load {
    uint64_t vma;          // virtual address of the mapping
    uint64_t code_address; // address of the code
    uint64_t code_index;   // unique index of this code, named by move records
    uint64_t name_offset;  // of the function's name
    uint64_t name_size;    // in bytes, without the NUL
    uint64_t code_offset;  // of the machine code
    uint64_t code_size;    // in bytes
    uint32_t pid;
    uint32_t tid;
};

// A code move record of a jitdump.
struct dewikura_jit_move {
    uint64_t vma;              // virtual address of the mapping after the move
    uint64_t old_code_address; // address of the code before the move
    uint64_t new_code_address; // address of the code after the move
    uint64_t code_size;        // in bytes
    uint64_t code_index;       // of the code, as in its load record
    uint32_t pid;
    uint32_t tid;
};

// An unwinding info record of a jitdump. Offsets are in bytes from the start of the file.
struct dewikura_jit_unwinding {
    uint64_t mapped_size;         // how many bytes of the data are mapped
    uint64_t eh_frame_hdr_offset; // of the index
    uint64_t eh_frame_hdr_size;   // in bytes
    uint64_t eh_frame_offset;     // of the data after the index
    uint64_t eh_frame_size;       // in bytes
};

// A source location in a debug info record of a jitdump: of the code from its address up to the address of the next
// location.
struct dewikura_jit_debug_entry {
    uint64_t code_address; // address of the first byte of the code
    uint64_t path_offset;  // of the path of the source file, in bytes from the start of the file
    uint64_t path_size;    // in bytes, without the NUL
    uint32_t line;         // starting at 1
    uint32_t column;       // starting at 1; 0 if it is unknown
};

// A symbol of an ELF file: a function, an object, or a label in code. Offsets are in bytes from the start of the file.
struct dewikura_elf_symbol {
    uint64_t start;       // offset of its first byte: in a file with debug information alone, that in the file without
    uint64_t size;        // in bytes
    uint64_t name_offset; // of its name
    uint64_t name_size;   // in bytes
};

// Where the records of an input are, and the tables that its opening reads. Offsets are in bytes from the start of the
// input, sizes in bytes. What a pipe doesn't have is 0.
struct dewikura_opening {
    uint64_t records_offset;     // of the first record: of a pipe, of the first after the metadata records that open it
    uint64_t records_size;       // of the records of a file; 0 also for a file that perf is still writing
    uint64_t attrs_offset;       // of the attributes of a file
    uint64_t attrs_size;
    uint64_t event_types_offset; // of the event types of an old file
    uint64_t event_types_size;
    uint64_t features_offset;    // of the table of a file's feature sections, an offset and a size for each
    uint64_t features_size;      // of this table
    uint32_t kind;               // DEWIKURA_KIND_FILE or DEWIKURA_KIND_PIPE
    uint32_t is_big_endian;      // 0 or 1
};

// Who wrote a kernel record, when and where. What it doesn't have is 0: `fields` says what it has.
struct dewikura_common {
    uint64_t timestamp; // in nanoseconds of the recording's clock
    uint64_t id;        // of the event: IDENTIFIER, else ID
    uint64_t stream_id; // id of the event itself, also if another task inherited it
    uint32_t fields;    // DEWIKURA_SAMPLE_* bits: TID, TIME, ID, CPU, STREAM_ID and IDENTIFIER
    uint32_t cpu;
    int32_t pid;
    int32_t tid;
};

// A unit of PMU_MAPPINGS: what counts the events of a type. Offsets are in bytes from the start of the section.
struct dewikura_pmu {
    uint64_t name_offset; // of the name
    uint64_t name_size;   // in bytes, up to the first NUL
    uint64_t next_offset; // of the next unit
    uint32_t event_type;  // as `type` of attributes
    uint32_t reserved;    // 0
};

// The first error of an input, in numbers. What the error doesn't have is 0.
struct dewikura_error {
    uint64_t offset;     // of the record in error or of the round markers before it, in bytes from the first record
    uint64_t attr_size;  // own size of the attribute, in bytes (DEWIKURA_ATTRIBUTE_TOO_LARGE)
    uint64_t entry_size; // of the entry that holds the attribute, in bytes
    uint64_t attr_index; // of the attribute (DEWIKURA_MISSING_IDENTIFIER, DEWIKURA_SAMPLE_ID_ALL_MISMATCH)
    uint8_t magic[8];    // first bytes of the input (DEWIKURA_BAD_MAGIC)
    uint32_t status;     // the dewikura_status
    uint32_t has_offset; // 1 for an error of a record; 0 if the input doesn't open, or has no error
};

// The library has the same sizes.
#if defined(__cplusplus)
#define DEWIKURA_CHECK_SIZE(name, size) static_assert(sizeof(struct name) == size, "size of struct " #name)
#elif defined(__STDC_VERSION__) && __STDC_VERSION__ >= 201112L
#define DEWIKURA_CHECK_SIZE(name, size) _Static_assert(sizeof(struct name) == size, "size of struct " #name)
#else
#define DEWIKURA_CHECK_SIZE(name, size) typedef char name##_has_size[sizeof(struct name) == size ? 1 : -1]
#endif
DEWIKURA_CHECK_SIZE(dewikura_cursor, 16);
DEWIKURA_CHECK_SIZE(dewikura_record, 56);
DEWIKURA_CHECK_SIZE(dewikura_sample, 88);
DEWIKURA_CHECK_SIZE(dewikura_frame, 16);
DEWIKURA_CHECK_SIZE(dewikura_sample_details, 192);
DEWIKURA_CHECK_SIZE(dewikura_task, 56);
DEWIKURA_CHECK_SIZE(dewikura_mapping, 128);
DEWIKURA_CHECK_SIZE(dewikura_counter, 48);
DEWIKURA_CHECK_SIZE(dewikura_stack, 80);
DEWIKURA_CHECK_SIZE(dewikura_stack_frame, 32);
DEWIKURA_CHECK_SIZE(dewikura_stack_mapping, 80);
DEWIKURA_CHECK_SIZE(dewikura_stack_totals, 32);
DEWIKURA_CHECK_SIZE(dewikura_attr, 168);
DEWIKURA_CHECK_SIZE(dewikura_attr_totals, 24);
DEWIKURA_CHECK_SIZE(dewikura_feature_set, 32);
DEWIKURA_CHECK_SIZE(dewikura_build_id, 56);
DEWIKURA_CHECK_SIZE(dewikura_string, 24);
DEWIKURA_CHECK_SIZE(dewikura_meta_pair, 32);
DEWIKURA_CHECK_SIZE(dewikura_symbol_file, 72);
DEWIKURA_CHECK_SIZE(dewikura_symbol, 32);
DEWIKURA_CHECK_SIZE(dewikura_symbol_totals, 32);
DEWIKURA_CHECK_SIZE(dewikura_jit_header, 40);
DEWIKURA_CHECK_SIZE(dewikura_jit_record, 24);
DEWIKURA_CHECK_SIZE(dewikura_jit_load, 64);
DEWIKURA_CHECK_SIZE(dewikura_jit_move, 48);
DEWIKURA_CHECK_SIZE(dewikura_jit_unwinding, 40);
DEWIKURA_CHECK_SIZE(dewikura_jit_debug_entry, 32);
DEWIKURA_CHECK_SIZE(dewikura_elf_symbol, 32);
DEWIKURA_CHECK_SIZE(dewikura_opening, 72);
DEWIKURA_CHECK_SIZE(dewikura_common, 40);
DEWIKURA_CHECK_SIZE(dewikura_pmu, 32);
DEWIKURA_CHECK_SIZE(dewikura_error, 48);
#undef DEWIKURA_CHECK_SIZE
typedef char dewikura_has_64_bits[sizeof(size_t) == 8 ? 1 : -1];

// ---- record types (dewikura_record.type)

enum dewikura_record_type {
    DEWIKURA_RECORD_MMAP = 1,                            // a mapping
    DEWIKURA_RECORD_LOST = 2,                            // lost records
    DEWIKURA_RECORD_COMM = 3,                            // a process name
    DEWIKURA_RECORD_EXIT = 4,                            // a task ended
    DEWIKURA_RECORD_THROTTLE = 5,                        // sampling paused by the kernel
    DEWIKURA_RECORD_UNTHROTTLE = 6,                      // and resumed
    DEWIKURA_RECORD_FORK = 7,                            // a task started
    DEWIKURA_RECORD_READ = 8,                            // a counter value
    DEWIKURA_RECORD_SAMPLE = 9,                          // a sample
    DEWIKURA_RECORD_MMAP2 = 10,                          // a mapping with inode or build id
    DEWIKURA_RECORD_AUX = 11,                            // aux data available
    DEWIKURA_RECORD_ITRACE_START = 12,                   // instruction trace started
    DEWIKURA_RECORD_LOST_SAMPLES = 13,                   // lost samples
    DEWIKURA_RECORD_SWITCH = 14,                         // context switch
    DEWIKURA_RECORD_SWITCH_CPU_WIDE = 15,                // context switch, system-wide
    DEWIKURA_RECORD_NAMESPACES = 16,                     // namespaces of a task
    DEWIKURA_RECORD_KSYMBOL = 17,                        // kernel symbol registered
    DEWIKURA_RECORD_BPF_EVENT = 18,                      // BPF program loaded
    DEWIKURA_RECORD_CGROUP = 19,                         // a cgroup
    DEWIKURA_RECORD_TEXT_POKE = 20,                      // kernel text modified
    DEWIKURA_RECORD_AUX_OUTPUT_HW_ID = 21,               // hardware id of aux output
    DEWIKURA_RECORD_HEADER_ATTR = 64,                    // from here on written by perf: an attribute (pipe)
    DEWIKURA_RECORD_HEADER_EVENT_TYPE = 65,              // obsolete
    DEWIKURA_RECORD_HEADER_TRACING_DATA = 66,            // tracing data follows
    DEWIKURA_RECORD_HEADER_BUILD_ID = 67,                // a build id
    DEWIKURA_RECORD_FINISHED_ROUND = 68,                 // end of a round; never returned, counted in `round`
    DEWIKURA_RECORD_ID_INDEX = 69,                       // ids, CPUs and tasks
    DEWIKURA_RECORD_AUXTRACE_INFO = 70,                  // how aux data was recorded
    DEWIKURA_RECORD_AUXTRACE = 71,                       // aux data
    DEWIKURA_RECORD_AUXTRACE_ERROR = 72,                 // an aux decoding error
    DEWIKURA_RECORD_THREAD_MAP = 73,                     // threads
    DEWIKURA_RECORD_CPU_MAP = 74,                        // CPUs
    DEWIKURA_RECORD_STAT_CONFIG = 75,                    // perf stat settings
    DEWIKURA_RECORD_STAT = 76,                           // a perf stat value
    DEWIKURA_RECORD_STAT_ROUND = 77,                     // end of a perf stat interval
    DEWIKURA_RECORD_EVENT_UPDATE = 78,                   // unit, scale or name of an event
    DEWIKURA_RECORD_TIME_CONV = 79,                      // TSC conversion
    DEWIKURA_RECORD_HEADER_FEATURE = 80,                 // a feature section (pipe)
    DEWIKURA_RECORD_COMPRESSED = 81,                     // compressed records (DEWIKURA_COMPRESSED)
    DEWIKURA_RECORD_FINISHED_INIT = 82,                  // end of the synthesized records
    DEWIKURA_RECORD_COMPRESSED2 = 83,                    // as COMPRESSED
    DEWIKURA_RECORD_SIMPLEPERF_KERNEL_SYMBOL = 32769,    // from here on written by simpleperf
    DEWIKURA_RECORD_SIMPLEPERF_DSO = 32770,
    DEWIKURA_RECORD_SIMPLEPERF_SYMBOL = 32771,
    DEWIKURA_RECORD_SIMPLEPERF_SPLIT = 32772,
    DEWIKURA_RECORD_SIMPLEPERF_SPLIT_END = 32773,
    DEWIKURA_RECORD_SIMPLEPERF_EVENT_ID = 32774,
    DEWIKURA_RECORD_SIMPLEPERF_CALLCHAIN = 32775,
    DEWIKURA_RECORD_SIMPLEPERF_UNWINDING_RESULT = 32776,
    DEWIKURA_RECORD_SIMPLEPERF_TRACING_DATA = 32777
};

// ---- features (the `feature` of dewikura_read_file_feature); the contents are as Linux's perf.data-file-format.txt
// says

enum dewikura_feature {
    DEWIKURA_FEATURE_TRACING_DATA = 1,                   // tracepoint formats
    DEWIKURA_FEATURE_BUILD_ID = 2,                       // entries for dewikura_read_build_id
    DEWIKURA_FEATURE_HOSTNAME = 3,                       // string (u32 size, bytes, NUL) for 3 to 6, 8, 9
    DEWIKURA_FEATURE_OSRELEASE = 4,
    DEWIKURA_FEATURE_VERSION = 5,
    DEWIKURA_FEATURE_ARCH = 6,
    DEWIKURA_FEATURE_NRCPUS = 7,                         // u32 available, u32 online
    DEWIKURA_FEATURE_CPUDESC = 8,
    DEWIKURA_FEATURE_CPUID = 9,
    DEWIKURA_FEATURE_TOTAL_MEM = 10,                     // u64 kB
    DEWIKURA_FEATURE_CMDLINE = 11,                       // u32 count, strings
    DEWIKURA_FEATURE_EVENT_DESC = 12,                    // events with names and ids (dewikura_read_*_attrs)
    DEWIKURA_FEATURE_CPU_TOPOLOGY = 13,
    DEWIKURA_FEATURE_NUMA_TOPOLOGY = 14,
    DEWIKURA_FEATURE_BRANCH_STACK = 15,                  // no contents
    DEWIKURA_FEATURE_PMU_MAPPINGS = 16,                  // u32 count, (u32 type, string)
    DEWIKURA_FEATURE_GROUP_DESC = 17,
    DEWIKURA_FEATURE_AUXTRACE = 18,
    DEWIKURA_FEATURE_STAT = 19,                          // no contents: written by perf stat
    DEWIKURA_FEATURE_CACHE = 20,
    DEWIKURA_FEATURE_SAMPLE_TIME = 21,                   // u64 first, u64 last
    DEWIKURA_FEATURE_SAMPLE_TOPOLOGY = 22,
    DEWIKURA_FEATURE_CLOCKID = 23,                       // u64 resolution
    DEWIKURA_FEATURE_DIR_FORMAT = 24,
    DEWIKURA_FEATURE_BPF_PROG_INFO = 25,
    DEWIKURA_FEATURE_BPF_BTF = 26,
    DEWIKURA_FEATURE_COMPRESSED = 27,                    // five u32
    DEWIKURA_FEATURE_CPU_PMU_CAPS = 28,
    DEWIKURA_FEATURE_CLOCK_DATA = 29,                    // version, clock id, wall clock, clock time
    DEWIKURA_FEATURE_HYBRID_TOPOLOGY = 30,
    DEWIKURA_FEATURE_HYBRID_CPU_PMU_CAPS = 31,
    DEWIKURA_FEATURE_SIMPLEPERF_FILE = 128,              // files of older simpleperf for dewikura_read_symbol_tables
    DEWIKURA_FEATURE_SIMPLEPERF_META_INFO = 129,         // pairs for dewikura_read_meta_info
    DEWIKURA_FEATURE_SIMPLEPERF_DEBUG_UNWIND = 130,
    DEWIKURA_FEATURE_SIMPLEPERF_DEBUG_UNWIND_FILE = 131,
    DEWIKURA_FEATURE_SIMPLEPERF_FILE2 = 132              // files for dewikura_read_symbol_tables
};

// ---- event types (dewikura_attr.type)

enum dewikura_event_type {
    DEWIKURA_TYPE_HARDWARE = 0,   // CPU events
    DEWIKURA_TYPE_SOFTWARE = 1,   // kernel events
    DEWIKURA_TYPE_TRACEPOINT = 2, // config is the tracepoint id
    DEWIKURA_TYPE_HW_CACHE = 3,   // cache events
    DEWIKURA_TYPE_RAW = 4,        // raw PMU event
    DEWIKURA_TYPE_BREAKPOINT = 5  // hardware breakpoint
};

// ---- flags of an attribute (dewikura_attr.flags)

#define DEWIKURA_ATTR_DISABLED                 (UINT64_C(1) << 0)     // starts disabled
#define DEWIKURA_ATTR_INHERIT                  (UINT64_C(1) << 1)     // children too
#define DEWIKURA_ATTR_PINNED                   (UINT64_C(1) << 2)     // always on the PMU
#define DEWIKURA_ATTR_EXCLUSIVE                (UINT64_C(1) << 3)     // alone on the PMU
#define DEWIKURA_ATTR_EXCLUDE_USER             (UINT64_C(1) << 4)
#define DEWIKURA_ATTR_EXCLUDE_KERNEL           (UINT64_C(1) << 5)
#define DEWIKURA_ATTR_EXCLUDE_HV               (UINT64_C(1) << 6)
#define DEWIKURA_ATTR_EXCLUDE_IDLE             (UINT64_C(1) << 7)
#define DEWIKURA_ATTR_MMAP                     (UINT64_C(1) << 8)     // MMAP records
#define DEWIKURA_ATTR_COMM                     (UINT64_C(1) << 9)     // COMM records
#define DEWIKURA_ATTR_FREQ                     (UINT64_C(1) << 10)    // sample_period_or_freq is a frequency
#define DEWIKURA_ATTR_INHERIT_STAT             (UINT64_C(1) << 11)
#define DEWIKURA_ATTR_ENABLE_ON_EXEC           (UINT64_C(1) << 12)
#define DEWIKURA_ATTR_TASK                     (UINT64_C(1) << 13)    // FORK and EXIT records
#define DEWIKURA_ATTR_WATERMARK                (UINT64_C(1) << 14)    // wakeup_events is in bytes
#define DEWIKURA_ATTR_PRECISE_IP_1             (UINT64_C(1) << 15)    // two bits, 0 to 3
#define DEWIKURA_ATTR_PRECISE_IP_2             (UINT64_C(1) << 16)
#define DEWIKURA_ATTR_MMAP_DATA                (UINT64_C(1) << 17)
#define DEWIKURA_ATTR_SAMPLE_ID_ALL            (UINT64_C(1) << 18)    // every record ends with sample_id fields
#define DEWIKURA_ATTR_EXCLUDE_HOST             (UINT64_C(1) << 19)
#define DEWIKURA_ATTR_EXCLUDE_GUEST            (UINT64_C(1) << 20)
#define DEWIKURA_ATTR_EXCLUDE_CALLCHAIN_KERNEL (UINT64_C(1) << 21)
#define DEWIKURA_ATTR_EXCLUDE_CALLCHAIN_USER   (UINT64_C(1) << 22)
#define DEWIKURA_ATTR_MMAP2                    (UINT64_C(1) << 23)    // MMAP2 records
#define DEWIKURA_ATTR_COMM_EXEC                (UINT64_C(1) << 24)
#define DEWIKURA_ATTR_USE_CLOCKID              (UINT64_C(1) << 25)    // timestamps of clockid
#define DEWIKURA_ATTR_CONTEXT_SWITCH           (UINT64_C(1) << 26)    // SWITCH records
#define DEWIKURA_ATTR_WRITE_BACKWARD           (UINT64_C(1) << 27)
#define DEWIKURA_ATTR_NAMESPACES               (UINT64_C(1) << 28)
#define DEWIKURA_ATTR_KSYMBOL                  (UINT64_C(1) << 29)
#define DEWIKURA_ATTR_BPF_EVENT                (UINT64_C(1) << 30)
#define DEWIKURA_ATTR_AUX_OUTPUT               (UINT64_C(1) << 31)
#define DEWIKURA_ATTR_CGROUP                   (UINT64_C(1) << 32)
#define DEWIKURA_ATTR_TEXT_POKE                (UINT64_C(1) << 33)
#define DEWIKURA_ATTR_BUILD_ID                 (UINT64_C(1) << 34)    // MMAP2 records have build ids
#define DEWIKURA_ATTR_INHERIT_THREAD           (UINT64_C(1) << 35)
#define DEWIKURA_ATTR_REMOVE_ON_EXEC           (UINT64_C(1) << 36)
#define DEWIKURA_ATTR_SIGTRAP                  (UINT64_C(1) << 37)

// ---- the fields of a SAMPLE body (dewikura_attr.sample_type)

#define DEWIKURA_SAMPLE_IP             (UINT64_C(1) << 0)     // instruction pointer
#define DEWIKURA_SAMPLE_TID            (UINT64_C(1) << 1)     // pid and tid
#define DEWIKURA_SAMPLE_TIME           (UINT64_C(1) << 2)     // timestamp
#define DEWIKURA_SAMPLE_ADDR           (UINT64_C(1) << 3)     // address
#define DEWIKURA_SAMPLE_READ           (UINT64_C(1) << 4)     // counter values
#define DEWIKURA_SAMPLE_CALLCHAIN      (UINT64_C(1) << 5)     // call chain
#define DEWIKURA_SAMPLE_ID             (UINT64_C(1) << 6)     // event id
#define DEWIKURA_SAMPLE_CPU            (UINT64_C(1) << 7)     // CPU
#define DEWIKURA_SAMPLE_PERIOD         (UINT64_C(1) << 8)     // period
#define DEWIKURA_SAMPLE_STREAM_ID      (UINT64_C(1) << 9)     // stream id
#define DEWIKURA_SAMPLE_RAW            (UINT64_C(1) << 10)    // raw data
#define DEWIKURA_SAMPLE_BRANCH_STACK   (UINT64_C(1) << 11)    // branches
#define DEWIKURA_SAMPLE_REGS_USER      (UINT64_C(1) << 12)    // user registers
#define DEWIKURA_SAMPLE_STACK_USER     (UINT64_C(1) << 13)    // user stack
#define DEWIKURA_SAMPLE_WEIGHT         (UINT64_C(1) << 14)    // weight
#define DEWIKURA_SAMPLE_DATA_SRC       (UINT64_C(1) << 15)    // memory source
#define DEWIKURA_SAMPLE_IDENTIFIER     (UINT64_C(1) << 16)    // id at a fixed position
#define DEWIKURA_SAMPLE_TRANSACTION    (UINT64_C(1) << 17)    // transaction
#define DEWIKURA_SAMPLE_REGS_INTR      (UINT64_C(1) << 18)    // interrupt registers
#define DEWIKURA_SAMPLE_PHYS_ADDR      (UINT64_C(1) << 19)    // physical address
#define DEWIKURA_SAMPLE_AUX            (UINT64_C(1) << 20)    // aux data
#define DEWIKURA_SAMPLE_CGROUP         (UINT64_C(1) << 21)    // cgroup
#define DEWIKURA_SAMPLE_DATA_PAGE_SIZE (UINT64_C(1) << 22)    // page sizes
#define DEWIKURA_SAMPLE_CODE_PAGE_SIZE (UINT64_C(1) << 23)
#define DEWIKURA_SAMPLE_WEIGHT_STRUCT  (UINT64_C(1) << 24)    // weight in three parts

// ---- the fields of a counter value (dewikura_attr.read_format)

#define DEWIKURA_READ_TOTAL_TIME_ENABLED (UINT64_C(1) << 0)     // time enabled
#define DEWIKURA_READ_TOTAL_TIME_RUNNING (UINT64_C(1) << 1)     // time running
#define DEWIKURA_READ_ID                 (UINT64_C(1) << 2)     // event id
#define DEWIKURA_READ_GROUP              (UINT64_C(1) << 3)     // all events of the group
#define DEWIKURA_READ_LOST               (UINT64_C(1) << 4)     // lost samples

// ---- kinds of inputs (dewikura_input_kind)

enum dewikura_kind {
    DEWIKURA_KIND_NONE = 0,   // none of these; fewer than 16 bytes are none of perf's, fewer than 4 no jitdump
    DEWIKURA_KIND_FILE = 1,   // a perf.data file: its magic, and a header of 104 bytes or more
    DEWIKURA_KIND_PIPE = 2,   // a pipe, as `perf record -o -` writes it: the magic, and a smaller header
    DEWIKURA_KIND_JITDUMP = 3 // a jitdump: its magic
};

// ---- styles of texts (dewikura_demangle)

enum dewikura_style {
    DEWIKURA_STYLE_NAME = 0,     // the name of a function or an object
    DEWIKURA_STYLE_SIGNATURE = 1 // for C++ also the result and the parameters, and suffixes of the compiler
};

// ---- DSO kinds (dewikura_build_id.dso_kind)

enum dewikura_dso_kind {
    DEWIKURA_DSO_NONE = 0,          // no mapped object, as //anon
    DEWIKURA_DSO_KERNEL = 1,
    DEWIKURA_DSO_GUEST_KERNEL = 2,
    DEWIKURA_DSO_VDSO32 = 3,
    DEWIKURA_DSO_VDSOX32 = 4,
    DEWIKURA_DSO_VDSO64 = 5,
    DEWIKURA_DSO_VSYSCALL = 6,
    DEWIKURA_DSO_KERNEL_MODULE = 7,
    DEWIKURA_DSO_USER = 8           // a file mapped by a program
};

// ---- types of files in simpleperf's symbol tables (dewikura_symbol_file.type)

enum dewikura_symbol_file_type {
    DEWIKURA_SYMBOL_FILE_KERNEL = 0,
    DEWIKURA_SYMBOL_FILE_KERNEL_MODULE = 1,
    DEWIKURA_SYMBOL_FILE_ELF = 2,
    DEWIKURA_SYMBOL_FILE_DEX = 3,           // a file with DEX code, such as a .vdex file
    DEWIKURA_SYMBOL_FILE_SYMBOL_MAP = 4,    // a symbol map, as JIT runtimes write it
    DEWIKURA_SYMBOL_FILE_UNKNOWN = 5
};

// ---- samples and frames

// The mode of the processor (dewikura_sample.misc & 7).
enum dewikura_cpu_mode {
    DEWIKURA_MODE_UNKNOWN = 0,
    DEWIKURA_MODE_KERNEL = 1,
    DEWIKURA_MODE_USER = 2,
    DEWIKURA_MODE_HYPERVISOR = 3,
    DEWIKURA_MODE_GUEST_KERNEL = 4,
    DEWIKURA_MODE_GUEST_USER = 5
};

// The context of a frame (dewikura_frame.context): the mode of the processor, or a guest whose mode isn't known.
enum dewikura_frame_context {
    DEWIKURA_CONTEXT_UNKNOWN = 0,
    DEWIKURA_CONTEXT_KERNEL = 1,
    DEWIKURA_CONTEXT_USER = 2,
    DEWIKURA_CONTEXT_HYPERVISOR = 3,
    DEWIKURA_CONTEXT_GUEST_KERNEL = 4,
    DEWIKURA_CONTEXT_GUEST_USER = 5,
    DEWIKURA_CONTEXT_GUEST = 6
};

// Whether the fields of a sample up to its call chain are decoded (dewikura_sample.error). After an error the fields up
// to the period are decoded if they are complete.
enum dewikura_body_error {
    DEWIKURA_BODY_COMPLETE = 0,      // they are decoded
    DEWIKURA_BODY_TRUNCATED = 1,     // the record ends inside one of them
    DEWIKURA_BODY_UNKNOWN_FIELDS = 2 // the attribute selects a field that isn't known
};

// ---- stacks

// No mapping contains the address of the frame (dewikura_stack_frame.mapping).
#define DEWIKURA_NO_MAPPING UINT64_MAX

// What is mapped (dewikura_stack_mapping.kind).
enum dewikura_mapping_kind {
    DEWIKURA_MAPPING_CODE = 0,
    DEWIKURA_MAPPING_DATA = 1,         // isn't executable
    DEWIKURA_MAPPING_KERNEL_SYMBOL = 2 // a function that the kernel generated, as of a BPF program; `path` is its name
};

// ---- jitdump record types (dewikura_jit_record.type)

enum dewikura_jit_record_type {
    DEWIKURA_JIT_CODE_LOAD = 0,           // new code; dewikura_read_jit_load
    DEWIKURA_JIT_CODE_MOVE = 1,           // moved code
    DEWIKURA_JIT_CODE_DEBUG_INFO = 2,     // source locations; dewikura_read_jit_debug_info
    DEWIKURA_JIT_CODE_CLOSE = 3,          // end of the file
    DEWIKURA_JIT_CODE_UNWINDING_INFO = 4  // eh_frame data
};

// ---- calls

// Writes the English text of a status and a NUL, truncated to `capacity`. Returns the size of the whole text without
// the NUL. With 128 bytes no text is truncated.
DEWIKURA_NONNULL size_t dewikura_status_text(dewikura_status status, char *buffer, size_t capacity);

// Returns the kind of an input by its first 16 bytes: one of DEWIKURA_KIND_*. `size` may be less for a short input,
// or more.
DEWIKURA_NONNULL uint32_t dewikura_input_kind(const void *data, size_t size);

// Returns 1 if the numbers of a perf.data file or pipe are big-endian, otherwise 0.
DEWIKURA_NONNULL uint32_t dewikura_is_big_endian(const void *data, size_t size);

// Writes the records of a perf.data file from *cursor on, in the order of the file, up to `capacity`, and moves *cursor
// past the last of them. `data` is the whole file. The first call has a cursor of zeros.
//
// *count is the number of written records. If it is `capacity` and the status is DEWIKURA_OK, the next call writes the
// records that follow. If it is smaller and the status is DEWIKURA_OK, there are no more records. Calls with arrays of
// any capacity write the same records as one call with an array for all of them. FINISHED_ROUND records aren't
// returned; they are counted in `round`.
//
// A call reads the metadata that open the file, and the records that it writes. It allocates no memory for records.
// *cursor is directly after the last written record, also after an error: the next call then returns the same status,
// and *count is 0. If the file doesn't open, *cursor is unchanged.
DEWIKURA_NONNULL DEWIKURA_NODISCARD dewikura_status dewikura_read_file_records(const void *data, size_t size,
    struct dewikura_cursor *cursor, struct dewikura_record *records, size_t capacity, uint64_t *count);

// Writes the records of a pipe from index `start` on, in the order of the pipe, up to `capacity`. `data` is the whole
// pipe. The records are those after the metadata records that open the pipe, and offsets count from the first of them.
// A truncated record ends a pipe without an error.
//
// *total counts all records of the pipe; after an error those before it, and 0 if the pipe doesn't open. Each call
// reads the whole pipe: late metadata determine what the records after them belong to. Pass an array large enough for
// all records.
DEWIKURA_NONNULL DEWIKURA_NODISCARD dewikura_status dewikura_read_pipe_records(const void *data, size_t size,
    uint64_t start, struct dewikura_record *records, size_t capacity, uint64_t *total);

// Writes the samples of a perf.data file from *cursor on and the frames of their call chains, in the order of the file,
// as many as both arrays have capacity for, and moves *cursor past the last of them. `data` is the whole file. The
// first call has a cursor of zeros. With a `frames_capacity` of 0, call chains are left out, and samples have no
// frames.
//
// *count is the number of written samples, *frames_count that of written frames. A call with the moved cursor writes
// the samples that follow. If *count is 0 and the status is DEWIKURA_OK, there are no more samples. Calls with arrays
// of any capacity write the same samples as one call with arrays for all of them, but for `frames_start`, which counts
// from the start of a call's frames.
//
// DEWIKURA_NO_SPACE means that the call chain of the next sample has more frames than `frames_capacity`; *frames_count
// is their number, *count is 0, and *cursor is at the sample. A sample whose fields can't be decoded is written with
// its `error`; its offset and its attribute are valid. The other errors are those of dewikura_read_file_records.
DEWIKURA_NONNULL DEWIKURA_NODISCARD dewikura_status dewikura_read_file_samples(const void *data, size_t size,
    struct dewikura_cursor *cursor, struct dewikura_sample *samples, size_t capacity, uint64_t *count,
    struct dewikura_frame *frames, size_t frames_capacity, uint64_t *frames_count);

// Writes the samples of a pipe and the frames of their call chains, in the order of the pipe, each up to the capacity
// of its array. `data` is the whole pipe. A truncated record ends a pipe without an error.
//
// *total counts all samples of the pipe, *frames_total all of their frames; after an error those before it, and 0 if
// the pipe doesn't open. A sample whose fields can't be decoded is written with its `error`. The errors are those of
// dewikura_read_pipe_records.
DEWIKURA_NONNULL DEWIKURA_NODISCARD dewikura_status dewikura_read_pipe_samples(const void *data, size_t size,
    struct dewikura_sample *samples, size_t capacity, uint64_t *total, struct dewikura_frame *frames,
    size_t frames_capacity, uint64_t *frames_total);

// Writes what else a sample has, from its body and its attribute. `is_big_endian` is that of the recording. After an
// error *details is unchanged: DEWIKURA_TRUNCATED if the body ends inside a field, DEWIKURA_OTHER if the attribute
// selects a field that isn't known.
DEWIKURA_NONNULL DEWIKURA_NODISCARD dewikura_status dewikura_read_sample_details(const void *body, size_t size,
    uint32_t is_big_endian, const struct dewikura_attr *attr, struct dewikura_sample_details *details);

// Writes the records on tasks of a perf.data file from *cursor on, in the order of the file, up to `capacity`, and
// moves *cursor past the last of them: their names, starts and ends. `data` is the whole file. The first call has a
// cursor of zeros. A record that can't be decoded is left out.
//
// *count is the number of written tasks. If it is `capacity` and the status is DEWIKURA_OK, the next call writes the
// tasks that follow. If it is smaller and the status is DEWIKURA_OK, there are no more. The errors are those of
// dewikura_read_file_records.
DEWIKURA_NONNULL DEWIKURA_NODISCARD dewikura_status dewikura_read_file_tasks(const void *data, size_t size,
    struct dewikura_cursor *cursor, struct dewikura_task *tasks, size_t capacity, uint64_t *count);

// Does the same for a pipe: writes its records on tasks, up to `capacity`. `data` is the whole pipe. A truncated record
// ends a pipe without an error.
//
// *total counts all records on tasks; after an error those before it, and 0 if the pipe doesn't open. The errors are
// those of dewikura_read_pipe_records.
DEWIKURA_NONNULL DEWIKURA_NODISCARD dewikura_status dewikura_read_pipe_tasks(const void *data, size_t size,
    struct dewikura_task *tasks, size_t capacity, uint64_t *total);

// Writes the mappings of a perf.data file from *cursor on, as dewikura_read_file_tasks does for the records on tasks.
DEWIKURA_NONNULL DEWIKURA_NODISCARD dewikura_status dewikura_read_file_mappings(const void *data, size_t size,
    struct dewikura_cursor *cursor, struct dewikura_mapping *mappings, size_t capacity, uint64_t *count);

// Writes the mappings of a pipe, as dewikura_read_pipe_tasks does for the records on tasks.
DEWIKURA_NONNULL DEWIKURA_NODISCARD dewikura_status dewikura_read_pipe_mappings(const void *data, size_t size,
    struct dewikura_mapping *mappings, size_t capacity, uint64_t *total);

// Writes the counter values of a perf.data file's samples and READ records from *cursor on, in the order of the file,
// those of as many records as `capacity` allows, and moves *cursor past the last of these records. `data` is the whole
// file. The first call has a cursor of zeros. A record that can't be decoded is left out.
//
// *count is the number of written values. A call with the moved cursor writes the values that follow. If *count is 0
// and the status is DEWIKURA_OK, there are no more, or `capacity` is 0. Calls with arrays of any capacity write the
// same values as one call with an array for all of them.
//
// DEWIKURA_NO_SPACE means that the next record has more values than `capacity`; *count is their number, none is
// written, and *cursor is at the record. The other errors are those of dewikura_read_file_records.
DEWIKURA_NONNULL DEWIKURA_NODISCARD dewikura_status dewikura_read_file_counters(const void *data, size_t size,
    struct dewikura_cursor *cursor, struct dewikura_counter *counters, size_t capacity, uint64_t *count);

// Writes the counter values of a pipe, up to `capacity`. `data` is the whole pipe. A truncated record ends a pipe
// without an error.
//
// *total counts all values; after an error those before it, and 0 if the pipe doesn't open. The errors are those of
// dewikura_read_pipe_records.
DEWIKURA_NONNULL DEWIKURA_NODISCARD dewikura_status dewikura_read_pipe_counters(const void *data, size_t size,
    struct dewikura_counter *counters, size_t capacity, uint64_t *total);

// Writes the stacks of a perf.data file: its samples in order of time, their frames, what was mapped, and a text with
// the names of threads and the paths of mappings without a separator, each up to the capacity of its array. `data` is
// the whole file. *totals counts all of them. Pass arrays large enough for all, since each call reads the file.
//
// The records apply in order of time: a frame has the mapping that contained its address at the time of its sample, and
// a stack the name that its thread had then. A fork gives the new process the mappings of its parent and the new thread
// the name of the forking one, an exec removes the mappings of the process. Records without a time, as those that perf
// makes of what it finds at its start, apply when they are read. If the attributes have no DEWIKURA_ATTR_SAMPLE_ID_ALL,
// only samples have a time; then, and in a big-endian file, the records apply in the order of the file.
//
// A frame has its mapping and the offset in the mapped file, which symbolizers take with the build id or the path; both
// are of the address at which it is looked up (struct dewikura_stack_frame). The mappings are all those that records
// make, in the order in which they apply.
//
// No stack is unwound, since that takes the mapped files: a sample with a copy of its user stack (`perf record
// --call-graph dwarf`) has the frames of its call chain, which are the kernel's, or without one that of its
// instruction. dewikura_read_sample_details finds its registers and the copy. `perffold` unwinds.
//
// A record that can't be decoded is left out. After an error *totals counts what the records before it add, and nothing
// if the file doesn't open. The errors are those of dewikura_read_file_records. Memory is allocated for the records of
// two rounds (for all, if the recording has no rounds), for the mappings, and for the names of threads. If it runs out,
// the status is DEWIKURA_OUT_OF_MEMORY.
DEWIKURA_NONNULL DEWIKURA_NODISCARD dewikura_status dewikura_read_file_stacks(const void *data, size_t size,
    struct dewikura_stack *stacks, size_t stacks_capacity, struct dewikura_stack_frame *frames, size_t frames_capacity,
    struct dewikura_stack_mapping *mappings, size_t mappings_capacity, char *text, size_t text_capacity,
    struct dewikura_stack_totals *totals);

// Does the same for a pipe. `data` is the whole pipe. A truncated record ends a pipe without an error. The errors are
// those of dewikura_read_pipe_records.
DEWIKURA_NONNULL DEWIKURA_NODISCARD dewikura_status dewikura_read_pipe_stacks(const void *data, size_t size,
    struct dewikura_stack *stacks, size_t stacks_capacity, struct dewikura_stack_frame *frames, size_t frames_capacity,
    struct dewikura_stack_mapping *mappings, size_t mappings_capacity, char *text, size_t text_capacity,
    struct dewikura_stack_totals *totals);

// Sorts records by time. Records without a time come first, and records with one time keep their order; the times 0 and
// 2^64 - 1 count as none. Returns DEWIKURA_OK, or DEWIKURA_OUT_OF_MEMORY if a temporary array can't be allocated, which
// up to 20 records don't need: the records are then unchanged.
DEWIKURA_NONNULL DEWIKURA_NODISCARD dewikura_status dewikura_sort_records(struct dewikura_record *records,
    size_t count);

// Writes the event attributes of a file, all names without a separator, and all ids, in the order of the file, each up
// to the capacity of its array. *totals counts all of them.
//
// The status says whether the file opens, and not whether its records are complete. If it doesn't open, all totals are
// 0.
DEWIKURA_NONNULL DEWIKURA_NODISCARD dewikura_status dewikura_read_file_attrs(const void *data, size_t size,
    struct dewikura_attr *attrs, size_t attrs_capacity, char *names, size_t names_capacity, uint64_t *ids,
    size_t ids_capacity, struct dewikura_attr_totals *totals);

// Does the same for a pipe. Reads the pipe to its end, and includes the attributes after its opening. After an error
// the attributes are those before it.
DEWIKURA_NONNULL DEWIKURA_NODISCARD dewikura_status dewikura_read_pipe_attrs(const void *data, size_t size,
    struct dewikura_attr *attrs, size_t attrs_capacity, char *names, size_t names_capacity, uint64_t *ids,
    size_t ids_capacity, struct dewikura_attr_totals *totals);

// Writes the set of features of a file. The status says whether the file opens. If it doesn't open, the set is empty.
DEWIKURA_NONNULL DEWIKURA_NODISCARD dewikura_status dewikura_read_file_feature_set(const void *data, size_t size,
    struct dewikura_feature_set *set);

// Does the same for a pipe. Reads the pipe to its end; after an error the features are those before it.
DEWIKURA_NONNULL DEWIKURA_NODISCARD dewikura_status dewikura_read_pipe_feature_set(const void *data, size_t size,
    struct dewikura_feature_set *set);

// Writes the bytes of a feature section of a file, up to `capacity`. *is_present is 1 if the file has the feature,
// otherwise 0. *feature_size is the size of the whole section in bytes.
//
// The status says whether the file opens, and not whether its records are complete.
DEWIKURA_NONNULL DEWIKURA_NODISCARD dewikura_status dewikura_read_file_feature(const void *data, size_t size,
    uint32_t feature, void *buffer, size_t capacity, uint8_t *is_present, uint64_t *feature_size);

// Does the same for a pipe. Reads the pipe to its end or its first error, and uses the last data of the feature.
DEWIKURA_NONNULL DEWIKURA_NODISCARD dewikura_status dewikura_read_pipe_feature(const void *data, size_t size,
    uint32_t feature, void *buffer, size_t capacity, uint8_t *is_present, uint64_t *feature_size);

// Writes the finished recording of a file that wasn't finished, or whose end is missing, up to `capacity`: the header
// with the true size of the records, the attributes, the whole records, and the whole sections of features. If no
// section names the ids of the attributes any more, a table of event types at the end does. *needed is the size of the
// recording in bytes. If the file has no header, *needed is 0 and the status says why.
DEWIKURA_NONNULL DEWIKURA_NODISCARD dewikura_status dewikura_finish_recording(const void *data, size_t size,
    void *buffer, size_t capacity, uint64_t *needed);

// Writes a file or a pipe of `perf record -z` without compression, up to `capacity`: each compressed record is replaced
// by the records that its content completes. *needed is the size of the recording in bytes. From the first record on
// that can't be read, or whose content can't (DEWIKURA_COMPRESSED), the records are those of the input, and the status
// says why. If the input doesn't open, *needed is 0. Memory for the window of the compressed data is allocated, up to
// 128 MiB. The other calls read what is written.
DEWIKURA_NONNULL DEWIKURA_NODISCARD dewikura_status dewikura_decompress(const void *data, size_t size,
    void *buffer, size_t capacity, uint64_t *needed);

// Writes the entry at an offset of the BUILD_ID section. `section` contains the bytes of the feature, and
// `is_big_endian` is that of the recording. After an error *entry is unchanged. DEWIKURA_TRUNCATED means that the
// section has no complete entry at the offset, as at its end.
DEWIKURA_NONNULL DEWIKURA_NODISCARD dewikura_status dewikura_read_build_id(const void *section, size_t size,
    uint32_t is_big_endian, uint64_t offset, struct dewikura_build_id *entry);

// Writes what a path names: a DEWIKURA_DSO_*, as the entry of a build id has it. `misc` is that of the record of a
// mapping, or of an entry. Returns DEWIKURA_OK, or DEWIKURA_OUT_OF_MEMORY: then *kind is unchanged.
DEWIKURA_NONNULL DEWIKURA_NODISCARD dewikura_status dewikura_dso_kind(const char *path, size_t size, uint16_t misc,
    uint32_t *kind);

// Writes the positions of the string at an offset of a feature section. HOSTNAME, OSRELEASE, VERSION, ARCH, CPUDESC and
// CPUID have one string, at offset 0. CMDLINE has a count in four bytes, and then that many strings. DEWIKURA_TRUNCATED
// means that the section has no complete string at the offset; then *string is unchanged.
DEWIKURA_NONNULL DEWIKURA_NODISCARD dewikura_status dewikura_read_string(const void *section, size_t size,
    uint32_t is_big_endian, uint64_t offset, struct dewikura_string *string);

// Writes the numbers of a feature section that has nothing else, in its order, up to `capacity`. *total counts all of
// them: NRCPUS has 2 (available, online), TOTAL_MEM 1 (in KiB), SAMPLE_TIME 2 (first, last), CLOCKID 1 (resolution in
// ns), DIR_FORMAT 1 (version), COMPRESSED 5 (version, algorithm, level, ratio, mapped size), CLOCK_DATA 4 (version,
// clock id, wall clock, clock time), another feature none. `section` contains the bytes of the feature.
//
// DEWIKURA_TRUNCATED means that the section doesn't contain all of them; then *total is 0 and the array is unchanged.
DEWIKURA_NONNULL DEWIKURA_NODISCARD dewikura_status dewikura_read_numbers(const void *section, size_t size,
    uint32_t feature, uint32_t is_big_endian, uint64_t *numbers, size_t capacity, uint64_t *total);

// Writes the unit at an offset of the section PMU_MAPPINGS: the first is at offset 4, after a count of four bytes.
// DEWIKURA_TRUNCATED means that the section has no complete unit at the offset, as at its end; then *pmu is unchanged.
DEWIKURA_NONNULL DEWIKURA_NODISCARD dewikura_status dewikura_read_pmu(const void *section, size_t size,
    uint32_t is_big_endian, uint64_t offset, struct dewikura_pmu *pmu);

// Writes the positions of the keys and values in the section SIMPLEPERF_META_INFO, in its order, up to `capacity`.
// `section` contains the bytes of the feature. If a key occurs more than once, its last value counts. *total counts all
// pairs.
//
// DEWIKURA_INVALID_UTF8 means that a key or a value isn't UTF-8; then *total counts the pairs before it.
DEWIKURA_NONNULL DEWIKURA_NODISCARD dewikura_status dewikura_read_meta_info(const void *section, size_t size,
    struct dewikura_meta_pair *pairs, size_t capacity, uint64_t *total);

// Writes the files of simpleperf's symbol tables, the symbols of all files, and the DEX offsets of all files, each up
// to the capacity of its array. Writes the path of each file and then the names of its symbols, all in UTF-8 without a
// separator, up to the capacity of `names`. *totals counts all of them.
//
// `section` contains the bytes of the feature DEWIKURA_FEATURE_SIMPLEPERF_FILE2, or those of
// DEWIKURA_FEATURE_SIMPLEPERF_FILE in a recording without it, and `feature` is the number of that feature.
// `is_big_endian` is that of the recording. A recording that has neither feature has no symbol tables.
//
// After an error all totals are 0, and the arrays are unchanged.
DEWIKURA_NONNULL DEWIKURA_NODISCARD dewikura_status dewikura_read_symbol_tables(const void *section, size_t size,
    uint32_t feature, uint32_t is_big_endian, struct dewikura_symbol_file *files, size_t files_capacity,
    struct dewikura_symbol *symbols, size_t symbols_capacity, char *names, size_t names_capacity, uint64_t *dex_offsets,
    size_t dex_offsets_capacity, struct dewikura_symbol_totals *totals);

// Writes the header of a jitdump. After an error *header is unchanged.
DEWIKURA_NONNULL DEWIKURA_NODISCARD dewikura_status dewikura_read_jit_header(const void *data, size_t size,
    struct dewikura_jit_header *header);

// Writes the complete records of a jitdump from an offset on, up to `capacity`. An offset within the header, such as 0,
// is that of the first record. *count is the number of records written. *next_offset is where the next call continues,
// with new capacity or after the file has grown.
//
// If *count is less than `capacity` and the status is DEWIKURA_OK, there is no complete record at *next_offset.
DEWIKURA_NONNULL DEWIKURA_NODISCARD dewikura_status dewikura_read_jit_records(const void *data, size_t size,
    uint64_t start_offset, struct dewikura_jit_record *records, size_t capacity, uint64_t *count,
    uint64_t *next_offset);

// Writes the load record at an offset of a jitdump, which is the `offset` of a record of the type
// DEWIKURA_JIT_CODE_LOAD. After an error *load is unchanged. DEWIKURA_TRUNCATED means that there is no complete record
// at the offset.
DEWIKURA_NONNULL DEWIKURA_NODISCARD dewikura_status dewikura_read_jit_load(const void *data, size_t size,
    uint64_t offset, struct dewikura_jit_load *load);

// Writes the move record at an offset of a jitdump (DEWIKURA_JIT_CODE_MOVE). After an error *move is unchanged.
DEWIKURA_NONNULL DEWIKURA_NODISCARD dewikura_status dewikura_read_jit_move(const void *data, size_t size,
    uint64_t offset, struct dewikura_jit_move *move);

// Writes the unwinding info record at an offset of a jitdump (DEWIKURA_JIT_CODE_UNWINDING_INFO). After an error
// *unwinding is unchanged.
DEWIKURA_NONNULL DEWIKURA_NODISCARD dewikura_status dewikura_read_jit_unwinding(const void *data, size_t size,
    uint64_t offset, struct dewikura_jit_unwinding *unwinding);

// Writes the source locations in the debug info record at an offset of a jitdump (DEWIKURA_JIT_CODE_DEBUG_INFO), in its
// order, up to `capacity`. *code_address is the address of the code, and *total counts all source locations. After an
// error both numbers are 0.
DEWIKURA_NONNULL DEWIKURA_NODISCARD dewikura_status dewikura_read_jit_debug_info(const void *data, size_t size,
    uint64_t offset, uint64_t *code_address, struct dewikura_jit_debug_entry *entries, size_t capacity,
    uint64_t *total);

// Returns DEWIKURA_TRACING_DATA if a pipe has the record HEADER_TRACING_DATA, as `perf record -o -` writes it for
// tracepoint events. The bytes after it aren't records, but the other calls parse them as records. Record to a file.
// Otherwise returns DEWIKURA_OK, also if the pipe has an error, which the other calls return.
DEWIKURA_NONNULL DEWIKURA_NODISCARD dewikura_status dewikura_check_tracing_data(const void *data, size_t size);

// Writes the symbols of an ELF file, up to `capacity`: those of `.symtab` or, without one, of `.dynsym`. *total counts
// all symbols. An offset may be in several: the last one is the one that perffold shows. A symbol without a size ends
// at the next one, or with its section. `file_offset` of a frame (dewikura_stack_frame) is such an offset.
//
// Returns DEWIKURA_OK, DEWIKURA_NOT_ELF, DEWIKURA_BAD_ELF or DEWIKURA_OUT_OF_MEMORY. After an error *total is 0.
DEWIKURA_NONNULL DEWIKURA_NODISCARD dewikura_status dewikura_read_elf_symbols(const void *data, size_t size,
    struct dewikura_elf_symbol *symbols, size_t capacity, uint64_t *total);

// Writes the build id of an ELF file, up to `capacity`. *id_size is its size in bytes, and 0 for a file without one.
// The statuses are those of dewikura_read_elf_symbols. After an error *id_size is 0.
DEWIKURA_NONNULL DEWIKURA_NODISCARD dewikura_status dewikura_elf_build_id(const void *data, size_t size, uint8_t *id,
    size_t capacity, uint64_t *id_size);

// Writes the text of a mangled name of C++ (Itanium C++ ABI) or of Rust, up to `capacity`, without a NUL. `style` is
// DEWIKURA_STYLE_NAME or another number, which is as DEWIKURA_STYLE_SIGNATURE. *text_size is the size of the whole text
// in bytes, and 0 for a name without a text, which isn't mangled or isn't in these grammars.
//
// A name has no text unless it starts with `_Z` or `_R` and has at most 16,384 bytes. A text has at most 128 bytes for
// each byte of the name, and at most 65,536. It is that of `c++filt -p -i` for DEWIKURA_STYLE_NAME, and that of
// `c++filt -i` for DEWIKURA_STYLE_SIGNATURE (GNU binutils 2.40).
//
// Returns DEWIKURA_OK, or DEWIKURA_OUT_OF_MEMORY: then *text_size is 0, and the array is unchanged.
DEWIKURA_NONNULL DEWIKURA_NODISCARD dewikura_status dewikura_demangle(const char *name, size_t size, uint32_t style,
    char *text, size_t capacity, uint64_t *text_size);

// Writes the first error of an input in numbers, and returns its status: that of the calls that read the records of a
// whole file or pipe. dewikura_input_kind says as which of them the input is read; what is neither is read as a file.
// All records are read. Without an error, *error is zeros.
DEWIKURA_NONNULL DEWIKURA_NODISCARD dewikura_status dewikura_read_error(const void *data, size_t size,
    struct dewikura_error *error);

// ---- chunks: inputs larger than memory, and pipes that are still written
//
// A chunk is a part of an input that starts at a record header. The caller has the bytes that weren't consumed so far,
// reads more behind them, and calls again. The records of all calls are those of one call on all bytes, however the
// input is cut. examples/follow.c reads a pipe so.

// Writes where the records of an input are. `start` is the start of a perf.data file or of a pipe.
//
// DEWIKURA_MORE means that the header isn't complete, or of a pipe the metadata records that open it, whose end the
// next record header shows. At the end of the input it means that the opening is truncated, or that a pipe has no
// records: dewikura_read_pipe_attrs says so. The errors are DEWIKURA_BAD_MAGIC, DEWIKURA_BAD_DATA_SECTION,
// DEWIKURA_INVALID_HEADER_SIZE and DEWIKURA_BAD_RECORD_SIZE. After DEWIKURA_MORE and after an error *opening is
// unchanged.
//
// The attributes of a pipe are those of its first `records_offset` bytes (dewikura_read_pipe_attrs). The records of a
// file are its `records_size` bytes from `records_offset` on. Its attributes take its tables: map the file for
// dewikura_read_file_attrs, which doesn't read the records. Those of a file that perf is still writing are those of
// what dewikura_finish_recording makes of its first `records_offset` bytes.
DEWIKURA_NONNULL DEWIKURA_NODISCARD dewikura_status dewikura_read_opening(const void *start, size_t size,
    struct dewikura_opening *opening);

// Writes the complete records at the start of `chunk`, which begins at a record header, in order, up to `capacity`, and
// moves *cursor past them. The first call has a cursor of zeros. `attrs` and `ids` are the attributes of the input so
// far, one at least, and their ids, and `is_big_endian` is that of the input.
//
// *count is the number of written records. *consumed is the size of these records and of the round markers before and
// between them; markers after them are consumed too, unless *count is `capacity`. A record's `body_offset` counts from
// the start of `chunk`, and its `offset` from the first record. An AUXTRACE record is complete with its aux data.
//
// If *count is `capacity` and the status is DEWIKURA_OK, call again with the bytes from *consumed on. If it is smaller,
// no complete record is left: call again with these bytes and more. A truncated record is no error here, since only the
// caller knows where the input ends. A record of the type DEWIKURA_RECORD_HEADER_ATTR is the last one that a call
// writes: add its attribute (dewikura_read_late_attr), and call again with the bytes from *consumed on.
//
// Without a state, a call can't sort the ids: it searches all of them in turn for the id of a record, unless it is the
// one that it found last among those with the same remainder modulo 64.
//
// The other errors are those of dewikura_read_pipe_records, after the records before them: *consumed and *cursor are at
// the record in error, and a call there returns the same status. Among them is DEWIKURA_COMPRESSED. Without attributes
// the status is DEWIKURA_NO_ATTRIBUTES, and nothing is written or consumed.
DEWIKURA_NONNULL DEWIKURA_NODISCARD dewikura_status dewikura_read_chunk_records(const void *chunk, size_t size,
    uint32_t is_big_endian, const struct dewikura_attr *attrs, size_t attrs_count, const uint64_t *ids,
    size_t ids_count, struct dewikura_cursor *cursor, struct dewikura_record *records, size_t capacity, uint64_t *count,
    uint64_t *consumed);

// Writes what the body of a record says, as the calls for samples, tasks, mappings and counter values do: of a sample
// *sample and its frames, of DEWIKURA_RECORD_COMM, _FORK and _EXIT *task, of DEWIKURA_RECORD_MMAP and _MMAP2 *mapping,
// and of a sample or DEWIKURA_RECORD_READ its counter values. What the record isn't is unchanged.
//
// `record` is a record of the chunk, or of a whole input: `chunk` is what its `body_offset` counts from, and so do the
// offsets of names and paths. `attrs` are the attributes of the input. The frames and the counter values are written
// from the first element on, up to the capacities. *frames_count and *counters_count count all of them, and are 0 if
// the record has none.
//
// Returns DEWIKURA_TRUNCATED_RECORD if the body isn't in the chunk, otherwise DEWIKURA_NO_ATTRIBUTES if `attr_index`
// isn't in the array. Of a record that isn't a sample, returns otherwise DEWIKURA_TRUNCATED if the body ends in a
// field, and DEWIKURA_INVALID_DATA if a text has no NUL or a build id more than 20 bytes: the other calls leave such a
// record out. After an error both numbers are 0 and nothing else is written.
DEWIKURA_NONNULL DEWIKURA_NODISCARD dewikura_status dewikura_read_event(const void *chunk, size_t size,
    uint32_t is_big_endian, const struct dewikura_attr *attrs, size_t attrs_count, const struct dewikura_record *record,
    struct dewikura_sample *sample, struct dewikura_frame *frames, size_t frames_capacity, uint64_t *frames_count,
    struct dewikura_task *task, struct dewikura_mapping *mapping, struct dewikura_counter *counters,
    size_t counters_capacity, uint64_t *counters_count);

// Writes who wrote a record, when and where. The first arguments are those of dewikura_read_event. A record that isn't
// a sample has these fields only if its attribute has the flag sample_id_all, and a record that a tool wrote has none.
//
// The errors are DEWIKURA_TRUNCATED_RECORD and DEWIKURA_NO_ATTRIBUTES, as there, and DEWIKURA_TRUNCATED if the body
// doesn't contain all of the fields. Then *common is unchanged.
DEWIKURA_NONNULL DEWIKURA_NODISCARD dewikura_status dewikura_read_common(const void *chunk, size_t size,
    uint32_t is_big_endian, const struct dewikura_attr *attrs, size_t attrs_count, const struct dewikura_record *record,
    struct dewikura_common *common);

// Writes the attribute in the body of a record DEWIKURA_RECORD_HEADER_ATTR, and its ids, up to `capacity`. `ids_start`
// is how many ids the attributes before it have, and becomes its `ids_start`. It has no name: names are in the feature
// DEWIKURA_FEATURE_EVENT_DESC. *ids_count is the number of all its ids.
//
// After an error *ids_count is 0, and *attr and the array are unchanged: DEWIKURA_TRUNCATED if the attribute or its
// last id is truncated, DEWIKURA_INVALID_DATA if its size is 1 to 63, or DEWIKURA_OUT_OF_MEMORY.
DEWIKURA_NONNULL DEWIKURA_NODISCARD dewikura_status dewikura_read_late_attr(const void *body, size_t size,
    uint32_t is_big_endian, uint64_t ids_start, struct dewikura_attr *attr, uint64_t *ids, size_t capacity,
    uint64_t *ids_count);

// Writes the complete records at the start of `chunk`, a part of a jitdump that begins at a record header, up to
// `capacity`. `offset` is the offset of its first byte in the jitdump: that of the first record is the `size` of the
// header (dewikura_read_jit_header), which says the byte order too. *count is the number of written records, and
// *consumed their size.
//
// If the header of the record after them is there, but not the whole record, *has_next is 1 and *next is that record;
// otherwise *has_next is 0 and *next is unchanged. DEWIKURA_JIT_BAD_RECORD_SIZE means that no record can start there.
// Otherwise call again as for dewikura_read_chunk_records.
DEWIKURA_NONNULL DEWIKURA_NODISCARD dewikura_status dewikura_read_jit_chunk(const void *chunk, size_t size,
    uint32_t is_big_endian, uint64_t offset, struct dewikura_jit_record *records, size_t capacity, uint64_t *count,
    uint64_t *consumed, uint8_t *has_next, struct dewikura_jit_record *next);

#ifdef __cplusplus
}
#endif

#endif
