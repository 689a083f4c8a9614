/* simdjson, RapidJSON and nlohmann's json, for rivals.py.
 *
 *     libraries LIBRARY JOB FILE ROUNDS WORD..
 *     libraries rapidjson cases - ROUNDS < CASES
 *     libraries dom kernel - 0
 *
 * A job is `read`, `find POINTER`, `change POINTER VALUE`, `patch PATCH_FILE`, `merge PATCH_FILE` or `lines POINTER`. simdjson keeps its
 * parser, and so the parser's memory, from round to round, as its page of usage recommends. */
#include "timing.hpp"

#define RAPIDJSON_HAS_STDSTRING 1
#include <nlohmann/json.hpp>
#include <rapidjson/document.h>
#include <rapidjson/pointer.h>
#include <rapidjson/writer.h>
#include <simdjson.h>

using nlohmann::json;
using rapidjson::Document;
using rapidjson::Pointer;
using rapidjson::Value;

using Job = std::function<std::string()>;

/* What RapidJSON does by default, and what it does if it shall test and round as the others. */
static const unsigned PLAIN = rapidjson::kParseDefaultFlags;
static const unsigned CHECKED = rapidjson::kParseValidateEncodingFlag | rapidjson::kParseFullPrecisionFlag;

static std::string printed(const Value &value) {
    rapidjson::StringBuffer buffer;
    rapidjson::Writer<rapidjson::StringBuffer> writer(buffer);
    value.Accept(writer);
    return std::string(buffer.GetString(), buffer.GetSize());
}

template <unsigned FLAGS>
static void read(Document &document, const char *text, size_t length) {
    if (document.Parse<FLAGS>(text, length).HasParseError()) fail("RapidJSON: text");
}

template <unsigned FLAGS>
static Job of_rapidjson(const std::string &job, const std::string &text, char **words) {
    if (job == "read") return [&text] {
        Document document;
        read<FLAGS>(document, text.data(), text.size());
        return std::string(document.IsNull() ? "true" : "false");
    };
    if (job == "find") return [&text, words] {
        Document document;
        read<FLAGS>(document, text.data(), text.size());
        const Value *found = Pointer(words[0]).Get(document);
        if (found == nullptr) fail("RapidJSON: find");
        return printed(*found);
    };
    if (job == "change") return [&text, words] {
        Document document, value(&document.GetAllocator());
        read<FLAGS>(document, text.data(), text.size());
        read<FLAGS>(value, words[1], strlen(words[1]));
        Pointer(words[0]).Set(document, static_cast<Value &>(value));
        return printed(document);
    };
    if (job == "lines") return [&text, words] {
        std::string out;
        Pointer pointer(words[0]);
        for (size_t start = 0, end; start < text.size(); start = end + 1) {
            end = std::min(text.find('\n', start), text.size());
            Document document;
            read<FLAGS>(document, text.data() + start, end - start);
            const Value *found = pointer.Get(document);
            if (found == nullptr) fail("RapidJSON: lines");
            out += printed(*found) + "\n";
        }
        return out;
    };
    fail("RapidJSON: no such job");
}

static Job of_nlohmann(const std::string &job, const std::string &text, char **words) {
    if (job == "read") return [&text] { return std::string(json::parse(text).is_null() ? "true" : "false"); };
    if (job == "find") return [&text, words] { return json::parse(text).at(json::json_pointer(words[0])).dump(); };
    if (job == "change") return [&text, words] {
        json document = json::parse(text);
        document.at(json::json_pointer(words[0])) = json::parse(words[1]);
        return document.dump();
    };
    if (job == "patch") return [&text, patch = read_file(words[0])] {
        json document = json::parse(text);
        document.patch_inplace(json::parse(patch));
        return document.dump();
    };
    if (job == "merge") return [&text, patch = read_file(words[0])] {
        json document = json::parse(text);
        document.merge_patch(json::parse(patch));
        return document.dump();
    };
    fail("nlohmann: no such job");
}

static Job of_dom(const std::string &job, const simdjson::padded_string &text, char **words) {
    static simdjson::dom::parser parser;
    if (job == "read") return [&text] { return std::string(parser.parse(text).is_null() ? "true" : "false"); };
    if (job == "find") return [&text, words] { return simdjson::minify(parser.parse(text).at_pointer(words[0]).value()); };
    if (job == "lines") return [&text, words] {
        std::string out;
        simdjson::dom::document_stream stream;
        if (parser.parse_many(text).get(stream)) fail("simdjson: lines");
        for (auto document : stream) out += simdjson::minify(document.at_pointer(words[0]).value()) + "\n";
        return out;
    };
    fail("simdjson: no such job");
}

static Job of_on_demand(const std::string &job, const simdjson::padded_string &text, char **words) {
    static simdjson::ondemand::parser parser;
    if (job == "find") return [&text, words] {
        simdjson::ondemand::document document = parser.iterate(text);
        std::string_view found;
        if (simdjson::to_json_string(document.at_pointer(words[0])).get(found)) fail("simdjson: find");
        return std::string(found);
    };
    fail("simdjson: no such job");
}

/* ---- Calls of RapidJSON in a document that is there. The pointer is parsed before, outside of the time. ---- */

/* A document and the value that is assigned, which moves into it. */
struct State {
    Document document, value;
};

static void make(State &state, const Case &it) {
    read<CHECKED>(state.document, it.document.data(), it.document.size());
    state.value.CopyFrom(Document().Parse(it.value), state.document.GetAllocator());
}

static void change(State &state, const Case &it, const Pointer &pointer) {
    if (it.call == "delete") {
        if (!pointer.Erase(state.document)) fail("RapidJSON: case");
    } else {
        pointer.Set(state.document, static_cast<Value &>(state.value));
    }
}

static volatile size_t sink;

static void run_case(const Case &it, bool is_timed) {
    Pointer pointer(it.pointer);
    State state;
    make(state, it);
    if (!is_timed) {
        if (it.call != "resolve") change(state, it, pointer);
        const Value *found = it.call == "resolve" ? pointer.Get(state.document) : &state.document;
        if (found == nullptr) fail("RapidJSON: case");
        printf("%s\t%s\n", it.name.c_str(), printed(*found).c_str());
    } else if (it.call == "resolve") {
        write_time(it, least_of_turns([&](size_t turns) { while (turns--) sink = (size_t)pointer.Get(state.document); }));
    } else {
        write_time(it, least_of_batches<State>(it.copies, [&](State &state) { make(state, it); },
                                               [&](State &state) { change(state, it, pointer); }));
    }
}

int main(int argc, char **argv) {
    if (argc < 5) fail("usage: libraries LIBRARY JOB FILE ROUNDS WORD..");
    std::string library = argv[1], job = argv[2];
    if (job == "kernel") {
        // The code that simdjson chooses for this processor.
        puts(simdjson::get_active_implementation()->name().c_str());
        return 0;
    }
    int rounds = atoi(argv[4]);
    if (job == "cases") {
        for (const Case &it : read_cases()) run_case(it, rounds != 0);
        return 0;
    }
    if (library == "dom" || library == "on_demand") {
        simdjson::padded_string text;
        if (simdjson::padded_string::load(argv[3]).get(text)) fail("cannot read the file");
        return run(rounds, library == "dom" ? of_dom(job, text, argv + 5) : of_on_demand(job, text, argv + 5));
    }
    std::string text = read_file(argv[3]);
    if (library == "rapidjson") return run(rounds, of_rapidjson<CHECKED>(job, text, argv + 5));
    if (library == "rapidjson_unchecked") return run(rounds, of_rapidjson<PLAIN>(job, text, argv + 5));
    if (library == "nlohmann") return run(rounds, of_nlohmann(job, text, argv + 5));
    fail("no such library");
}
