// The header is C++, too.
#include "jsonptr.h"

#include <iostream>
#include <string>
#include <type_traits>
#include <utility>
#include <vector>

static_assert(!std::is_copy_constructible<jsonptr::text>::value && !std::is_copy_assignable<jsonptr::document>::value, "copies");

// Handles that move, and are freed with their variables.
static bool moves() {
    std::vector<jsonptr::text> texts;
    for (const char *bytes : {"[1]", "[2]", "[3]"}) {
        jsonptr::text text;
        if (jsonptr_text_open(text.handle(), JSONPTR_FORMAT_JSON, bytes, 3, nullptr) != JSONPTR_OK) {
            return false;
        }
        texts.push_back(std::move(text));
    }
    texts[0] = std::move(texts[2]);
    texts[1] = jsonptr::text();
    jsonptr::text &same = texts[0];
    same = std::move(texts[0]);
    const jsonptr::text &first = texts[0];
    char out[4] = "";
    return jsonptr_text_copy(first.handle(), 0, SIZE_MAX, out, sizeof out, nullptr, nullptr) == JSONPTR_OK
        && std::string(out) == "[3]"
        && jsonptr_text_copy(texts[1].handle(), 0, 1, out, sizeof out, nullptr, nullptr) == JSONPTR_NO_DOCUMENT;
}

// Settings of a document, and its keys one after another.
static bool lists() {
    jsonptr::document document;
    const std::string name = "a \"name\"";
    char keys[2][16];
    std::size_t length = 0;
    bool found = false;
    std::string all;
    if (jsonptr_document_parse(document.handle(), "{}", 2, nullptr) != JSONPTR_OK
        || jsonptr_document_assign_string(document.handle(), "/name", 5, name.data(), name.size(), nullptr) != JSONPTR_OK
        || jsonptr_document_assign_number(document.handle(), "/big", 4, 1.5, nullptr) != JSONPTR_OK
        || jsonptr_document_first_key(document.handle(), "", 0, &found, keys[0], sizeof keys[0], &length, nullptr) != JSONPTR_OK) {
        return false;
    }
    for (int at = 0; found; at = 1 - at) {
        all.append(keys[at], length).append("|");
        if (jsonptr_document_next_key(document.handle(), "", 0, keys[at], length, &found, keys[1 - at], sizeof keys[0], &length, nullptr)
            != JSONPTR_OK) {
            return false;
        }
    }
    return all == "big|name|";
}

int main() {
    jsonptr_document document = JSONPTR_DOCUMENT_INIT;
    const std::string text = R"({"sizes": [3, 5]})", pointer = "/sizes/1";
    std::string out(8, '\0');
    std::size_t length = 0;
    if (jsonptr_document_parse(&document, text.data(), text.size(), nullptr) != JSONPTR_OK
        || jsonptr_document_get(&document, pointer.data(), pointer.size(), JSONPTR_COMPACT, &out[0], out.size(), &length,
                                nullptr) != JSONPTR_OK
        || out.substr(0, length) != "5") {
        return 1;
    }
    jsonptr_document_free(&document);
    if (!moves() || !lists()) {
        return 1;
    }
    std::cout << "header: passed\n";
    return 0;
}
