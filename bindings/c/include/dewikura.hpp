// Dewikura for C++20: spans, ranges and exceptions over the calls of dewikura.h, which says what they read and what a caller owes.
//
//     dewikura::recording recording{data};            // bytes in memory
//     for (const dewikura_record &record : recording.records()) ..
//     dewikura::chunk_reader reader;                  // an input larger than memory, or a live pipe
//     while (read_piece(piece)) {
//         reader.add(piece);
//         for (auto page = reader.next(); !page.empty(); page = reader.next()) ..
//     }
//     reader.finish();
//
// An error of an input is a dewikura::error, and std::bad_alloc if memory runs out. Objects may be used by one thread at a time.
#ifndef DEWIKURA_HPP
#define DEWIKURA_HPP

#include "dewikura.h"

#include <algorithm>
#include <array>
#include <cstddef>
#include <cstdint>
#include <new>
#include <optional>
#include <span>
#include <stdexcept>
#include <string>
#include <string_view>
#include <vector>

namespace dewikura {

using bytes = std::span<const std::byte>;

// The text of a status.
inline std::string status_text(dewikura_status status)
{
    std::array<char, 128> text{};
    std::size_t size = dewikura_status_text(status, text.data(), text.size());
    return {text.data(), std::min(size, text.size() - 1)};
}

// An error of an input. What was read before it is valid.
class error : public std::runtime_error {
public:
    explicit error(dewikura_status status) : std::runtime_error(status_text(status)), status_(status) {}

    dewikura_status status() const noexcept { return status_; }

private:
    dewikura_status status_;
};

// Throws the error of a status, unless it is DEWIKURA_OK.
inline void check(dewikura_status status)
{
    if (status == DEWIKURA_OUT_OF_MEMORY)
        throw std::bad_alloc();
    if (status != DEWIKURA_OK)
        throw error(status);
}

namespace detail {

// No pointer that a call takes is null.
inline const void *address(bytes data) noexcept
{
    static const std::byte none{};
    return data.empty() ? &none : data.data();
}

template <typename T>
T *address(std::vector<T> &array)
{
    if (array.capacity() == 0)
        array.reserve(1);
    return array.data();
}

inline std::uint32_t kind(bytes data) noexcept { return dewikura_input_kind(address(data), data.size()); }

}

// The event attributes of a recording, with their names and ids.
class attributes {
public:
    std::vector<dewikura_attr> attrs;
    std::string names;
    std::vector<std::uint64_t> ids;

    // The name of an attribute, unless it has none.
    std::optional<std::string_view> name(std::size_t index) const
    {
        const dewikura_attr &attr = attrs.at(index);
        if (!attr.has_name)
            return std::nullopt;
        return std::string_view(names).substr(attr.name_offset, attr.name_size);
    }

    // The ids of an attribute.
    std::span<const std::uint64_t> ids_of(std::size_t index) const
    {
        const dewikura_attr &attr = attrs.at(index);
        return std::span(ids).subspan(attr.ids_start, attr.ids_count);
    }
};

// What the body of a record says. What the record isn't is zeros, and empty.
struct event {
    dewikura_sample sample{};
    std::vector<dewikura_frame> frames;
    dewikura_task task{};
    dewikura_mapping mapping{};
    std::vector<dewikura_counter> counters;
};

// Returns what the body of a record says. Its `body_offset` counts from the start of `chunk`, and so do the offsets of names and paths.
inline event read_event(bytes chunk, bool is_big_endian, const attributes &events, const dewikura_record &record)
{
    event found;
    std::uint64_t frames = 0, counters = 0;
    static const dewikura_attr no_attr{};
    const dewikura_attr *attrs = events.attrs.empty() ? &no_attr : events.attrs.data();
    do {
        found.frames.resize(frames);
        found.counters.resize(counters);
        check(dewikura_read_event(detail::address(chunk), chunk.size(), is_big_endian, attrs, events.attrs.size(), &record, &found.sample,
            detail::address(found.frames), found.frames.size(), &frames, &found.task, &found.mapping, detail::address(found.counters), found.counters.size(),
            &counters));
    } while (frames > found.frames.size() || counters > found.counters.size());
    return found;
}

// Returns who wrote a record, when and where.
inline dewikura_common read_common(bytes chunk, bool is_big_endian, const attributes &events, const dewikura_record &record)
{
    static const dewikura_attr no_attr{};
    const dewikura_attr *attrs = events.attrs.empty() ? &no_attr : events.attrs.data();
    dewikura_common found{};
    check(dewikura_read_common(detail::address(chunk), chunk.size(), is_big_endian, attrs, events.attrs.size(), &record, &found));
    return found;
}

// A recording in memory, which the caller keeps.
class recording {
public:
    explicit recording(bytes data) : recording(data, detail::kind(data) == DEWIKURA_KIND_PIPE) {}

    recording(bytes data, bool is_pipe) : data_(data), is_pipe_(is_pipe) {}

    bool is_pipe() const noexcept { return is_pipe_; }

    bool is_big_endian() const noexcept { return dewikura_is_big_endian(detail::address(data_), data_.size()) != 0; }

    // All records.
    std::vector<dewikura_record> records() const
    {
        std::vector<dewikura_record> found;
        check(records_before_error(found));
        return found;
    }

    // Writes the records before the first error, and returns its status.
    dewikura_status records_before_error(std::vector<dewikura_record> &found) const
    {
        return is_pipe_ ? pipe_records(found) : file_records(found);
    }

    dewikura::attributes attributes() const
    {
        auto *read = is_pipe_ ? dewikura_read_pipe_attrs : dewikura_read_file_attrs;
        dewikura::attributes found;
        dewikura_attr_totals totals{};
        for (int pass = 0; pass < 2; pass++) {
            found.attrs.resize(totals.attr_count);
            found.names.resize(totals.names_size);
            found.ids.resize(totals.ids_count);
            check(read(detail::address(data_), data_.size(), detail::address(found.attrs), found.attrs.size(), found.names.data(), found.names.size(),
                detail::address(found.ids), found.ids.size(), &totals));
        }
        return found;
    }

    // The bytes of a feature section, unless the recording doesn't have it.
    std::optional<std::vector<std::byte>> feature(std::uint32_t number) const
    {
        auto *read = is_pipe_ ? dewikura_read_pipe_feature : dewikura_read_file_feature;
        std::vector<std::byte> section;
        std::uint8_t is_present = 0;
        std::uint64_t size = 0;
        for (int pass = 0; pass < 2; pass++) {
            section.resize(size);
            check(read(detail::address(data_), data_.size(), number, detail::address(section), section.size(), &is_present, &size));
        }
        return is_present ? std::optional(std::move(section)) : std::nullopt;
    }

    // The body of one of its records, aux data included.
    bytes body(const dewikura_record &record) const { return data_.subspan(record.body_offset, record.body_size); }

private:
    dewikura_status file_records(std::vector<dewikura_record> &found) const
    {
        dewikura_cursor cursor{};
        std::uint64_t count = 0;
        dewikura_status status;
        std::size_t used = 0;
        do {
            found.resize(used + page_size);
            status = dewikura_read_file_records(detail::address(data_), data_.size(), &cursor, found.data() + used, page_size, &count);
            used += count;
        } while (status == DEWIKURA_OK && count == page_size);
        found.resize(used);
        return status;
    }

    dewikura_status pipe_records(std::vector<dewikura_record> &found) const
    {
        std::uint64_t total = 0;
        found.resize(page_size);
        dewikura_status status = dewikura_read_pipe_records(detail::address(data_), data_.size(), 0, found.data(), found.size(), &total);
        if (total > found.size()) {
            found.resize(total);
            status = dewikura_read_pipe_records(detail::address(data_), data_.size(), 0, found.data(), found.size(), &total);
        }
        found.resize(total);
        return status;
    }

    static constexpr std::size_t page_size = 4096;
    bytes data_;
    bool is_pipe_;
};

// The records of an input that comes in pieces: a live pipe, or a file of any size. Its memory is the opening, then the bytes of an incomplete record.
// The attributes of a file are those before its records, without names, unless the caller gives others.
class chunk_reader {
public:
    explicit chunk_reader(std::size_t page_size = 4096) : records_(std::max<std::size_t>(page_size, 1)) {}

    // With the attributes of the input, as those of a mapped file.
    explicit chunk_reader(dewikura::attributes events, std::size_t page_size = 4096) : chunk_reader(page_size)
    {
        events_ = std::move(events);
        has_events_ = true;
    }

    // Adds the next bytes of the input. Pages and bodies that were returned are no longer valid.
    void add(bytes piece)
    {
        discard();
        pending_.insert(pending_.end(), piece.begin(), piece.end());
    }

    // The next records, which are valid until the next call. None: more bytes are needed.
    std::span<const dewikura_record> next()
    {
        discard();
        if (!is_open_ && !open())
            return {};
        std::uint64_t count = 0, consumed = 0;
        page_status_ = dewikura_read_chunk_records(detail::address(bytes(pending_)), limit(), opening_.is_big_endian, detail::address(events_.attrs),
            events_.attrs.size(), detail::address(events_.ids), events_.ids.size(), &cursor_, records_.data(), records_.size(), &count, &consumed);
        consumed_ = consumed;
        if (count == 0)
            check(page_status_);
        std::span<const dewikura_record> page(records_.data(), count);
        if (opening_.kind == DEWIKURA_KIND_PIPE && count != 0 && page.back().type == DEWIKURA_RECORD_HEADER_ATTR)
            add_attribute(body(page.back()));
        return page;
    }

    // The body of a record of the last page.
    bytes body(const dewikura_record &record) const { return bytes(pending_).subspan(record.body_offset, record.body_size); }

    // What the body of a record of the last page says, and who wrote the record, when and where.
    dewikura::event event(const dewikura_record &record) const { return read_event(pending_, opening_.is_big_endian, events_, record); }
    dewikura_common common(const dewikura_record &record) const { return read_common(pending_, opening_.is_big_endian, events_, record); }

    // The attributes so far; none before the opening is read.
    const dewikura::attributes &events() const noexcept { return events_; }

    // Where the records are, once the opening is read.
    std::optional<dewikura_opening> opening() const { return is_open_ ? std::optional(opening_) : std::nullopt; }

    // Says that the input ends here. Throws if it ends in its opening, or a file in a record. A pipe may end in a record, but not in aux data.
    void finish()
    {
        discard();
        if (!is_open_) {
            recording whole(bytes(pending_), detail::kind(bytes(pending_)) != DEWIKURA_KIND_FILE);
            std::vector<dewikura_record> none;
            check(whole.records_before_error(none));
            return;
        }
        if (opening_.kind == DEWIKURA_KIND_FILE && opening_.records_size > cursor_.offset)
            throw error(limit() < 8 ? DEWIKURA_TRUNCATED : DEWIKURA_TRUNCATED_RECORD);
        if (opening_.kind == DEWIKURA_KIND_PIPE && pending_.size() >= 48 && first_type() == DEWIKURA_RECORD_AUXTRACE)
            throw error(DEWIKURA_TRUNCATED_RECORD);
    }

private:
    void discard()
    {
        pending_.erase(pending_.begin(), pending_.begin() + static_cast<std::ptrdiff_t>(consumed_));
        consumed_ = 0;
    }

    bool open()
    {
        dewikura_status status = dewikura_read_opening(detail::address(bytes(pending_)), pending_.size(), &opening_);
        if (status == DEWIKURA_MORE)
            return false;
        check(status);
        if (pending_.size() < opening_.records_offset)
            return false;
        bytes start = bytes(pending_).first(opening_.records_offset);
        if (!has_events_)
            events_ = opening_.kind == DEWIKURA_KIND_PIPE ? recording(start, true).attributes() : recording(finished(start), false).attributes();
        consumed_ = opening_.records_offset;
        discard();
        is_open_ = true;
        return true;
    }

    // A recording without records, with what precedes those of a file.
    bytes finished(bytes start)
    {
        std::uint64_t needed = 0;
        for (int pass = 0; pass < 2; pass++) {
            finished_.resize(needed);
            check(dewikura_finish_recording(detail::address(start), start.size(), detail::address(finished_), finished_.size(), &needed));
        }
        return finished_;
    }

    // How many of the pending bytes are those of records: after the records of a file come its features.
    std::size_t limit() const
    {
        if (opening_.kind == DEWIKURA_KIND_PIPE || opening_.records_size == 0)
            return pending_.size();
        std::uint64_t left = opening_.records_size > cursor_.offset ? opening_.records_size - cursor_.offset : 0;
        return static_cast<std::size_t>(std::min<std::uint64_t>(left, pending_.size()));
    }

    void add_attribute(bytes body)
    {
        dewikura_attr attr{};
        std::size_t start = events_.ids.size();
        std::uint64_t count = 0;
        events_.ids.resize(start + body.size() / 8 + 1);
        dewikura_status status = dewikura_read_late_attr(detail::address(body), body.size(), opening_.is_big_endian, start, &attr, events_.ids.data() + start,
            events_.ids.size() - start, &count);
        events_.ids.resize(start + count);
        check(status);
        events_.attrs.push_back(attr);
    }

    std::uint32_t first_type() const
    {
        std::uint32_t type = 0;
        for (std::size_t i = 0; i < 4; i++)
            type |= std::to_integer<std::uint32_t>(pending_[i]) << 8 * (opening_.is_big_endian ? 3 - i : i);
        return type;
    }

    std::vector<std::byte> pending_, finished_;
    std::vector<dewikura_record> records_;
    dewikura::attributes events_;
    dewikura_opening opening_{};
    dewikura_cursor cursor_{};
    std::size_t consumed_ = 0;
    dewikura_status page_status_ = DEWIKURA_OK;
    bool is_open_ = false, has_events_ = false;
};

// The text of a mangled name of C++ or of Rust, unless the name has none. `style` is a DEWIKURA_STYLE_*.
inline std::optional<std::string> demangle(std::string_view name, std::uint32_t style = DEWIKURA_STYLE_NAME)
{
    const char *start = name.empty() ? "" : name.data();
    std::string text;
    std::uint64_t size = 256;
    do {
        text.resize(size);
        check(dewikura_demangle(start, name.size(), style, text.data(), text.size(), &size));
    } while (size > text.size());
    text.resize(size);
    return size ? std::optional(std::move(text)) : std::nullopt;
}

}

#endif
