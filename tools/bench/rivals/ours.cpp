/* The library for C, for rivals.py. A job is `read`, `find POINTER`, `change POINTER VALUE` or `patch PATCH_FILE`.
 *
 *     ours jsonptr JOB FILE ROUNDS WORD..       a job, by a document
 *     ours in_text JOB FILE ROUNDS WORD..       the same in the text, which keeps its layout
 *     ours jsonptr cases - ROUNDS < CASES       the calls in a document; without rounds their results */
#include "jsonptr.h"
#include "timing.hpp"

static jsonptr_document read(const std::string &text) {
    jsonptr_document document = JSONPTR_DOCUMENT_INIT;
    if (jsonptr_document_parse(&document, text.data(), text.size(), nullptr)) fail("jsonptr: document");
    return document;
}

static std::string printed(jsonptr_document &document, size_t room) {
    std::string out(room, '\0');
    size_t length = 0;
    if (jsonptr_document_print(&document, JSONPTR_COMPACT, &out[0], out.size(), &length, nullptr) == JSONPTR_NO_ROOM) {
        return printed(document, length);
    }
    out.resize(length);
    return out;
}

static std::string find(const std::string &text, const std::string &pointer) {
    std::string out(1024, '\0');
    size_t length = 0;
    if (jsonptr_resolve_in_text(text.data(), text.size(), pointer.data(), pointer.size(), JSONPTR_COMPACT, &out[0], out.size(),
                                &length, nullptr)) fail("jsonptr: find");
    out.resize(length);
    return out;
}

static std::string patch(const std::string &text, const std::string &patch) {
    jsonptr_document document = read(text);
    if (jsonptr_document_patch(&document, patch.data(), patch.size(), nullptr)) fail("jsonptr: patch");
    std::string out = printed(document, text.size() + patch.size());
    jsonptr_document_free(&document);
    return out;
}

static std::string change_document(const std::string &text, const std::string &pointer, const std::string &value) {
    jsonptr_document document = read(text);
    if (jsonptr_document_assign(&document, pointer.data(), pointer.size(), value.data(), value.size(), nullptr)) fail("jsonptr: change");
    std::string out = printed(document, text.size() + value.size());
    jsonptr_document_free(&document);
    return out;
}

/* Edits a text in a handle, and returns the new one. `longer` has the most bytes by which it grows. */
static std::string edited(const std::string &text, size_t longer, const std::function<jsonptr_status(jsonptr_text *)> &edit) {
    jsonptr_text handle = JSONPTR_TEXT_INIT;
    if (jsonptr_text_open(&handle, JSONPTR_FORMAT_JSON, text.data(), text.size(), nullptr)) fail("jsonptr: text");
    if (edit(&handle)) fail("jsonptr: edit");
    std::string out(text.size() + longer, '\0');
    size_t length = 0;
    if (jsonptr_text_copy(&handle, 0, SIZE_MAX, &out[0], out.size(), &length, nullptr)) fail("jsonptr: copy");
    out.resize(length);
    jsonptr_text_free(&handle);
    return out;
}

static std::string change_in_text(const std::string &text, const std::string &pointer, const std::string &value) {
    return edited(text, value.size(), [&](jsonptr_text *handle) {
        return jsonptr_text_assign(handle, pointer.data(), pointer.size(), value.data(), value.size(), 0, nullptr, nullptr);
    });
}

static std::string patch_in_text(const std::string &text, const std::string &patch) {
    return edited(text, 2 * patch.size(), [&](jsonptr_text *handle) {
        return jsonptr_text_patch(handle, patch.data(), patch.size(), 0, nullptr, nullptr);
    });
}

static bool resolve(jsonptr_document &document, const Case &it) {
    jsonptr_node node;
    return jsonptr_document_node(&document, it.pointer.data(), it.pointer.size(), &node, nullptr) == JSONPTR_OK;
}

static bool change(jsonptr_document &document, const Case &it) {
    if (it.call == "delete") {
        bool found = false;
        return jsonptr_document_delete(&document, it.pointer.data(), it.pointer.size(), &found, nullptr) == JSONPTR_OK && found;
    }
    return jsonptr_document_assign(&document, it.pointer.data(), it.pointer.size(), it.value.data(), it.value.size(), nullptr) == JSONPTR_OK;
}

/* A document that is freed. */
struct Owned {
    jsonptr_document document = JSONPTR_DOCUMENT_INIT;
    ~Owned() { jsonptr_document_free(&document); }
};

static void run_case(const Case &it, bool is_timed) {
    Owned own;
    own.document = read(it.document);
    if (!is_timed) {
        if (!(it.call == "resolve" ? resolve(own.document, it) : change(own.document, it))) fail("jsonptr: case");
        std::string out(it.document.size() + 1024, '\0');
        size_t length = 0;
        std::string pointer = it.call == "resolve" ? it.pointer : "";
        if (jsonptr_document_get(&own.document, pointer.data(), pointer.size(), JSONPTR_COMPACT, &out[0], out.size(), &length, nullptr)) fail("jsonptr: get");
        printf("%s\t%.*s\n", it.name.c_str(), (int)length, out.data());
    } else if (it.call == "resolve") {
        write_time(it, least_of_turns([&](size_t turns) { while (turns--) if (!resolve(own.document, it)) fail("jsonptr: case"); }));
    } else {
        write_time(it, least_of_batches<Owned>(it.copies, [&](Owned &state) { state.document = read(it.document); },
                                               [&](Owned &state) { if (!change(state.document, it)) fail("jsonptr: case"); }));
    }
}

int main(int argc, char **argv) {
    if (argc < 5) fail("usage: ours LIBRARY JOB FILE ROUNDS WORD..");
    std::string job = argv[2];
    bool in_text = std::string(argv[1]) == "in_text";
    int rounds = atoi(argv[4]);
    if (job == "cases") {
        for (const Case &it : read_cases()) run_case(it, rounds != 0);
        return 0;
    }
    std::string text = read_file(argv[3]);
    if (job == "read") return run(rounds, [&] {
        jsonptr_document document = read(text);
        jsonptr_document_free(&document);
        return std::string("false");
    });
    if (job == "find") return run(rounds, [&] { return find(text, argv[5]); });
    if (job == "change") return run(rounds, [&] { return in_text ? change_in_text(text, argv[5], argv[6]) : change_document(text, argv[5], argv[6]); });
    if (job == "patch") return run(rounds, [&, words = read_file(argv[5])] { return in_text ? patch_in_text(text, words) : patch(text, words); });
    fail("no such job");
}
