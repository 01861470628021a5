/* Reading JSON by the verified library and by simdjson (DOM), RapidJSON, yajl (tree) and jansson, in turn in one
 * program:
 *
 *     beside times|bytes KEYS TEXT...
 *
 * prints a table in markdown with a line for each file TEXT: what a reading takes by each side, in microseconds, with
 * quotients; or what a byte takes by the library, in nanoseconds. A cell has the median and the fastest of the rounds.
 * KEYS has the list of keys for the library, and beside a file x.json stands x.rows with the rows that the library must
 * read it to, their cells low byte first. Every reading must accept the text, also those that are timed. `./run` builds
 * this, writes the texts and makes the tables. */

#include "cidhomba.h"

#include <jansson.h>
#include <rapidjson/document.h>
#include <simdjson.h>
#include <yajl/yajl_tree.h>
#include <yajl/yajl_version.h>

#include <algorithm>
#include <array>
#include <chrono>
#include <cstdint>
#include <cstdio>
#include <cstdlib>
#include <filesystem>
#include <fstream>
#include <iterator>
#include <memory>
#include <string>
#include <utility>
#include <vector>

#ifndef BUILT_WITH
#define BUILT_WITH "unknown flags"
#endif

/* In a file of its own. */
bool rapidjson_accepts_checked(const char *bytes, std::size_t count);

namespace {

using Clock = std::chrono::steady_clock;
using Microseconds = std::chrono::duration<double, std::micro>;

/* Rounds; in each every side is timed, and who goes first changes from round to round. */
constexpr std::size_t ROUNDS = 31;
/* About how long a side is timed in one round; a reading that takes longer is made once. */
constexpr auto ROUND = std::chrono::milliseconds(2);

[[noreturn]] void give_up(const std::string &why)
{
    std::fprintf(stderr, "beside: %s\n", why.c_str());
    std::exit(1);
}

std::string bytes_of(const std::filesystem::path &path)
{
    std::ifstream file(path, std::ios::binary);
    std::string bytes{std::istreambuf_iterator<char>(file), {}};
    if (!file) {
        give_up("cannot read " + path.string());
    }
    return bytes;
}

/* A text with the keys to read it over and the rows that it must be read to. */
struct Text {
    std::string name;
    std::string keys;
    std::string bytes;
    std::vector<std::uint16_t> rows;

    Text(const std::string &keys, std::filesystem::path path)
        : name(path.stem().string()), keys(keys), bytes(bytes_of(path))
    {
        const std::string cells = bytes_of(path.replace_extension("rows"));
        for (std::size_t i = 0; i + 1 < cells.size(); i += 2) {
            const unsigned low = static_cast<unsigned char>(cells[i]), high = static_cast<unsigned char>(cells[i + 1]);
            rows.push_back(static_cast<std::uint16_t>(low + 256 * high));
        }
    }
};

/* A reader with its text. */
class Side {
public:
    explicit Side(const Text &text) : text(text) {}
    virtual ~Side() = default;
    /* Reads the text, gives back all memory that it allocated for it, and tells whether the text was accepted. */
    virtual bool read() = 0;
    /* Whether what was read is what is expected, where that can be told. */
    virtual bool is_right() const { return true; }

protected:
    const Text &text;
};

/* Writes the rows to one space in each reading. */
class Cidhomba : public Side {
public:
    using Side::Side;

    bool read() override
    {
        const std::uint64_t answer = cidhomba_read_json(
            reinterpret_cast<const std::uint8_t *>(text.keys.data()), text.keys.size(),
            reinterpret_cast<const std::uint8_t *>(text.bytes.data()), text.bytes.size(), rows.data(), rows.size());
        return !CIDHOMBA_REFUSED(answer) && answer * CIDHOMBA_ROW_CELLS == text.rows.size();
    }

    bool is_right() const override { return std::equal(text.rows.begin(), text.rows.end(), rows.begin()); }

private:
    std::vector<std::uint16_t> rows = std::vector<std::uint16_t>(CIDHOMBA_TABLE_CELLS);
};

/* Keeps its memory from reading to reading, and gets the text with the bytes behind it that it asks for. */
class Simdjson : public Side {
public:
    explicit Simdjson(const Text &text) : Side(text), padded(text.bytes) {}
    bool read() override { return parser.parse(padded).error() == simdjson::SUCCESS; }

private:
    simdjson::padded_string padded;
    simdjson::dom::parser parser;
};

/* By its defaults: UTF-8 is not checked. */
class Rapidjson : public Side {
public:
    using Side::Side;

    bool read() override
    {
        rapidjson::Document document;
        document.Parse(text.bytes.data(), text.bytes.size());
        return !document.HasParseError();
    }
};

/* The same up to a byte 0, so that the end is not looked for at each byte. */
class RapidjsonToZero : public Side {
public:
    using Side::Side;

    bool read() override
    {
        rapidjson::Document document;
        document.Parse(text.bytes.c_str());
        return !document.HasParseError();
    }
};

/* With UTF-8 checked and decimals rounded to the nearest. */
class RapidjsonChecked : public Side {
public:
    using Side::Side;
    bool read() override { return rapidjson_accepts_checked(text.bytes.data(), text.bytes.size()); }
};

class Yajl : public Side {
public:
    using Side::Side;

    bool read() override
    {
        char message[64];
        const yajl_val tree = yajl_tree_parse(text.bytes.c_str(), message, sizeof message);
        yajl_tree_free(tree);
        return tree != nullptr;
    }
};

class Jansson : public Side {
public:
    using Side::Side;

    bool read() override
    {
        json_error_t error;
        json_t *const tree = json_loadb(text.bytes.data(), text.bytes.size(), 0, &error);
        json_decref(tree);
        return tree != nullptr;
    }
};

enum { OURS, SIMDJSON, RAPIDJSON, RAPIDJSON_TO_ZERO, RAPIDJSON_CHECKED, YAJL, JANSSON, SIDES };
constexpr std::array<const char *, SIDES> NAMES = {
    "Cidhomba", "simdjson", "RapidJSON", "RapidJSON to a 0", "RapidJSON, checking", "yajl", "jansson"};
/* The quotients that are printed: one side's time over another's. */
constexpr std::pair<int, int> QUOTIENTS[] = {
    {OURS, SIMDJSON}, {RAPIDJSON, OURS}, {RAPIDJSON_TO_ZERO, OURS}, {RAPIDJSON_CHECKED, OURS}, {YAJL, OURS}, {JANSSON, OURS}};

/* In the order of their names. */
std::array<std::unique_ptr<Side>, SIDES> sides_of(const Text &text)
{
    return {std::make_unique<Cidhomba>(text),  std::make_unique<Simdjson>(text),
            std::make_unique<Rapidjson>(text), std::make_unique<RapidjsonToZero>(text),
            std::make_unique<RapidjsonChecked>(text), std::make_unique<Yajl>(text),
            std::make_unique<Jansson>(text)};
}

/* The time of one reading over the rounds, in microseconds. */
struct Time {
    double median;
    double fastest;
};

std::size_t readings_in_a_round(Side &side)
{
    std::size_t readings = 0;
    for (const auto start = Clock::now(); Clock::now() - start < ROUND; ++readings) {
        side.read();
    }
    return readings;
}

/* After a reading that is not timed, so that no side pays for what the one before left in caches and memory. */
double timed(Side &side, std::size_t readings)
{
    bool accepted = side.read();
    const auto start = Clock::now();
    for (std::size_t i = 0; i < readings; ++i) {
        accepted &= side.read();
    }
    const Microseconds taken = Clock::now() - start;
    if (!accepted) {
        give_up("a text that was accepted is refused");
    }
    return taken.count() / static_cast<double>(readings);
}

/* The times of the first so many sides. */
std::vector<Time> measured(const Text &text, std::size_t count)
{
    const auto sides = sides_of(text);
    std::vector<std::size_t> readings(count);
    std::vector<std::vector<double>> times(count);
    for (std::size_t k = 0; k < count; ++k) {
        if (!sides[k]->read() || !sides[k]->is_right()) {
            give_up(std::string(NAMES[k]) + " does not read \"" + text.name + "\" as it should");
        }
        readings[k] = readings_in_a_round(*sides[k]);
    }
    for (std::size_t round = 0; round < ROUNDS; ++round) {
        for (std::size_t turn = 0; turn < count; ++turn) {
            const std::size_t k = (round + turn) % count;
            times[k].push_back(timed(*sides[k], readings[k]));
        }
    }
    std::vector<Time> result;
    for (std::vector<double> &of_a_side : times) {
        std::sort(of_a_side.begin(), of_a_side.end());
        result.push_back({of_a_side[ROUNDS / 2], of_a_side.front()});
    }
    return result;
}

void print_heading(const std::vector<std::string> &columns)
{
    for (const std::string &column : columns) {
        std::printf("| %s ", column.c_str());
    }
    std::printf("|\n");
    for (std::size_t i = 0; i < columns.size(); ++i) {
        std::printf("|---");
    }
    std::printf("|\n");
}

void print_name(const Text &text)
{
    std::printf("| %s, %.1f KB |", text.name.c_str(), static_cast<double>(text.bytes.size()) / 1000);
}

/* A cell: by the medians, and by the fastest rounds. */
void print_cell(double median, double fastest, int places)
{
    std::printf(" %.*f, %.*f |", places, median, places, fastest);
}

void print_times(const std::vector<Text> &texts)
{
    std::vector<std::string> columns = {"Text"};
    for (const std::string name : NAMES) {
        columns.push_back(name + ", µs");
    }
    for (const auto &[over, under] : QUOTIENTS) {
        columns.push_back(std::string(NAMES[over]) + " / " + NAMES[under]);
    }
    print_heading(columns);
    for (const Text &text : texts) {
        const std::vector<Time> times = measured(text, SIDES);
        print_name(text);
        for (const Time &time : times) {
            print_cell(time.median, time.fastest, 1);
        }
        for (const auto &[over, under] : QUOTIENTS) {
            print_cell(times[over].median / times[under].median, times[over].fastest / times[under].fastest, 2);
        }
        std::printf("\n");
    }
}

void print_bytes(const std::vector<Text> &texts)
{
    print_heading({"Text", std::string(NAMES[OURS]) + ", ns for a byte"});
    for (const Text &text : texts) {
        const Time time = measured(text, OURS + 1)[OURS];
        const double scale = 1000 / static_cast<double>(text.bytes.size());
        print_name(text);
        print_cell(time.median * scale, time.fastest * scale, 2);
        std::printf("\n");
    }
}

void print_versions()
{
    const simdjson::implementation *const active = simdjson::get_active_implementation();
    const int yajl = yajl_version();
    std::printf("Cidhomba %s, simdjson %d.%d.%d (%s), RapidJSON %s, yajl %d.%d.%d, jansson %s; g++ %s, %s\n\n",
                CIDHOMBA_VERSION, simdjson::SIMDJSON_VERSION_MAJOR, simdjson::SIMDJSON_VERSION_MINOR,
                simdjson::SIMDJSON_VERSION_REVISION, active->name().c_str(), RAPIDJSON_VERSION_STRING, yajl / 10000,
                yajl / 100 % 100, yajl % 100, jansson_version_str(), __VERSION__, BUILT_WITH);
}

} // namespace

int main(int count, char **arguments)
{
    const std::string table = count > 1 ? arguments[1] : "";
    if (count < 4 || (table != "times" && table != "bytes")) {
        std::fprintf(stderr, "usage: beside times|bytes KEYS TEXT...\n");
        return 2;
    }
    const std::string keys = bytes_of(arguments[2]);
    std::vector<Text> texts;
    for (int i = 3; i < count; ++i) {
        texts.emplace_back(keys, arguments[i]);
    }
    if (table == "times") {
        print_versions();
        print_times(texts);
    } else {
        print_bytes(texts);
    }
}
