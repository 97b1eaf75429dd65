// `ranges PATH` reads a recording by dewikura.hpp: whole, by chunks of several sizes and page sizes, and by its features. The records by chunks are those of the
// whole recording, with the same bodies, which say the same, and the same error comes after them. Prints the samples of each event, as follow.c does.
#include "dewikura.hpp"

#include <cstdio>
#include <cstdlib>
#include <cstring>
#include <fstream>
#include <iostream>
#include <iterator>
#include <ranges>

static void fail(const char *what, std::size_t number)
{
    std::cerr << "ranges: " << what << " (" << number << ")\n";
    std::exit(1);
}

static void expect(bool holds, const char *what, std::size_t number = 0)
{
    if (!holds)
        fail(what, number);
}

static bool same_body(dewikura::bytes left, dewikura::bytes right) { return std::ranges::equal(left, right); }

template <typename T>
static bool same(const T &left, const T &right) { return std::memcmp(&left, &right, sizeof left) == 0; }

// Whether two records say the same. Their names and paths are at the same offsets in their bodies.
static bool same_event(const dewikura::event &event, const dewikura_record &record, dewikura::event other, const dewikura_record &other_record)
{
    if (other.task.name_offset)
        other.task.name_offset += record.body_offset - other_record.body_offset;
    if (other.mapping.type)
        other.mapping.path_offset += record.body_offset - other_record.body_offset;
    return same(event.sample, other.sample) && same(event.task, other.task) && same(event.mapping, other.mapping)
        && std::ranges::equal(event.frames, other.frames, same<dewikura_frame>) && std::ranges::equal(event.counters, other.counters, same<dewikura_counter>);
}

// The status of a call, which throws it as an error.
template <typename F>
static dewikura_status status_of(F call)
{
    try {
        call();
        return DEWIKURA_OK;
    } catch (const dewikura::error &error) {
        return error.status();
    }
}

// Reads in pieces, and compares each page with the records of the whole recording.
static void check_pieces(dewikura::bytes data, const dewikura::recording &whole, const std::vector<dewikura_record> &records, dewikura_status wanted,
    std::size_t piece_size, std::size_t page_size)
{
    dewikura::chunk_reader reader = whole.is_pipe() ? dewikura::chunk_reader(page_size) : dewikura::chunk_reader(whole.attributes(), page_size);
    std::size_t read = 0;
    dewikura_status status = DEWIKURA_OK;
    try {
        for (std::size_t at = 0; at < data.size(); at += piece_size) {
            reader.add(data.subspan(at, std::min(piece_size, data.size() - at)));
            for (auto page = reader.next(); !page.empty(); page = reader.next())
                for (const dewikura_record &record : page) {
                    expect(read < records.size(), "more records", read);
                    const dewikura_record &other = records[read++];
                    expect(record.offset == other.offset && record.round == other.round && record.timestamp == other.timestamp
                            && record.attr_index == other.attr_index && record.type == other.type && record.misc == other.misc
                            && record.has_timestamp == other.has_timestamp && record.has_attr == other.has_attr,
                        "another record", read);
                    expect(same_body(reader.body(record), whole.body(other)), "another body", read);
                    dewikura::event event, other_event;
                    dewikura_common common{}, other_common{};
                    dewikura_status events = status_of([&] { event = reader.event(record), common = reader.common(record); });
                    expect(events == status_of([&] {
                        other_event = dewikura::read_event(data, whole.is_big_endian(), reader.events(), other);
                        other_common = dewikura::read_common(data, whole.is_big_endian(), reader.events(), other);
                    }), "another status of an event", read);
                    expect(events != DEWIKURA_OK || same_event(event, record, other_event, other), "another event", read);
                    expect(events != DEWIKURA_OK || same(common, other_common), "other common fields", read);
                }
        }
        reader.finish();
    } catch (const dewikura::error &error) {
        status = error.status();
        expect(error.what() == dewikura::status_text(status), "another text", status);
    }
    expect(read == records.size(), "fewer records", read);
    expect(status == wanted, "another status", status);
    if (status == DEWIKURA_OK && whole.is_pipe())
        expect(reader.events().attrs.size() == whole.attributes().attrs.size() && reader.events().ids == whole.attributes().ids, "other attributes");
}

static void check_names()
{
    expect(dewikura::demangle("_ZNK9LoadBNode11memory_typeEv") == "LoadBNode::memory_type", "a name");
    expect(dewikura::demangle("_ZNK9LoadBNode11memory_typeEv", DEWIKURA_STYLE_SIGNATURE) == "LoadBNode::memory_type() const", "a signature");
    expect(!dewikura::demangle("main") && !dewikura::demangle({}), "no name");
    std::string many = "_Z1f";
    for (int i = 0; i < 100; i++)
        many += "PKc";
    expect(dewikura::demangle(many, DEWIKURA_STYLE_SIGNATURE)->size() > 256, "a long text");
}

static void check_errors(dewikura::bytes data)
{
    for (std::size_t size : {std::size_t{0}, std::size_t{10}, std::size_t{60}}) {
        dewikura::chunk_reader reader;
        reader.add(data.first(std::min(size, data.size())));
        try {
            expect(reader.next().empty() && !reader.opening(), "a record of the opening");
            reader.finish();
            fail("no error", size);
        } catch (const dewikura::error &error) {
            expect(error.status() == DEWIKURA_TRUNCATED, "another error", error.status());
        }
    }
}

int main(int argc, char **argv)
{
    std::ifstream file(argc == 2 ? argv[1] : "", std::ios::binary);
    std::vector<char> content{std::istreambuf_iterator<char>(file), {}};
    dewikura::bytes data = std::as_bytes(std::span(content));
    expect(!data.empty(), "no input");
    dewikura::recording whole(data);
    std::vector<dewikura_record> records;
    dewikura_status status = whole.records_before_error(records);
    if (status == DEWIKURA_OK)
        expect(whole.records().size() == records.size(), "other records");
    for (auto [piece_size, page_size] : {std::pair{1000, 4096}, {17, 1}, {1, 7}, {1 << 20, 3}})
        check_pieces(data, whole, records, status, static_cast<std::size_t>(piece_size), static_cast<std::size_t>(page_size));
    check_names();
    check_errors(data);
    if (status != DEWIKURA_OK)
        return 0;
    dewikura::attributes events = whole.attributes();
    auto is_sample = [](const dewikura_record &record) { return record.type == DEWIKURA_RECORD_SAMPLE; };
    for (std::size_t i = 0; i < events.attrs.size(); i++) {
        auto count = std::ranges::count_if(records | std::views::filter(is_sample), [i](const auto &record) { return record.attr_index == i; });
        std::cout << count << ' ' << events.name(i).value_or("-") << '\n';
        expect(events.ids_of(i).size() == events.attrs[i].ids_count, "other ids", i);
    }
    auto machine = whole.feature(DEWIKURA_FEATURE_HOSTNAME);
    expect(!machine || machine->size() >= 4, "a feature");
    expect(!whole.feature(255), "a feature that isn't there");
    return 0;
}
