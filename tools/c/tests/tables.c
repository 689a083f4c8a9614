/* Tables of calls and results. The values are from RFC 6901, RFC 6902 and the documentation of the Rust crate. */
#include "tests.h"

#include <math.h>

#define COUNT(table) (sizeof(table) / sizeof *(table))

/* The document of RFC 6901, section 5, what its pointers evaluate to, and where these values are. */
static const char *rfc_document = "{\"foo\": [\"bar\", \"baz\"], \"\": 0, \"a/b\": 1, \"c%d\": 2, \"e^f\": 3, \"g|h\": 4,"
                                  " \"i\\\\j\": 5, \"k\\\"l\": 6, \" \": 7, \"m~n\": 8}";

static const struct {
    const char *pointer, *value;
    size_t start, end;
} rfc_pointers[] = {
    { "/foo", "[\"bar\",\"baz\"]", 8, 22 }, { "/foo/0", "\"bar\"", 9, 14 }, { "/", "0", 28, 29 },
    { "/a~1b", "1", 38, 39 }, { "/c%d", "2", 48, 49 }, { "/e^f", "3", 58, 59 }, { "/g|h", "4", 68, 69 },
    { "/i\\j", "5", 79, 80 }, { "/k\"l", "6", 90, 91 }, { "/ ", "7", 98, 99 }, { "/m~0n", "8", 108, 109 },
};

/* Checks where a value is, and the pointer at an offset. */
static void expect_location(const char *text, const char *pointer, size_t start, size_t end) {
    size_t from = 0, to = 0;
    jsonptr_error error;
    expect_number("status of locating", pointer, jsonptr_locate_in_text(TEXT(text), TEXT(pointer), &from, &to, &error),
                  JSONPTR_OK);
    expect_number("status of the error", pointer, error.status, JSONPTR_OK);
    expect_number("start", pointer, from, start);
    expect_number("end", pointer, to, end);
}

static void expect_pointer_at(const char *text, size_t offset, const char *pointer) {
    char out[64];
    size_t length = 0;
    jsonptr_error error;
    expect_number("status of the offset", pointer,
                  jsonptr_pointer_at_in_text(TEXT(text), offset, out, sizeof out, &length, &error), JSONPTR_OK);
    expect_number("status of the error", pointer, error.status, JSONPTR_OK);
    expect_text("pointer", pointer, out, length, pointer);
}

static void check_rfc_pointers(void) {
    jsonptr_document document = parsed(rfc_document);
    for (size_t i = 0; i < COUNT(rfc_pointers); i++) {
        const char *pointer = rfc_pointers[i].pointer;
        char out[64];
        size_t length = 0;
        jsonptr_error error;
        expect_number("status", pointer,
                      jsonptr_document_get(&document, TEXT(pointer), 0, out, sizeof out, &length, &error), JSONPTR_OK);
        expect_text("value", pointer, out, length, rfc_pointers[i].value);
        expect_number("status of the error", pointer, error.status, JSONPTR_OK);
        length = 0;
        expect_number("status in text", pointer,
                      jsonptr_resolve_in_text(TEXT(rfc_document), TEXT(pointer), 0, out, sizeof out, &length, &error),
                      JSONPTR_OK);
        expect_text("value in text", pointer, out, length, rfc_pointers[i].value);
        expect_location(rfc_document, pointer, rfc_pointers[i].start, rfc_pointers[i].end);
        expect_pointer_at(rfc_document, rfc_pointers[i].start, pointer);
        expect_pointer_at(rfc_document, rfc_pointers[i].end - 1, pointer);
    }
    expect_location(rfc_document, "", 0, 110);
    expect_pointer_at(rfc_document, 109, "");
    jsonptr_document_free(&document);
}

/* Texts as pointers: the status, and the number of tokens or the error. */
static const struct {
    const char *text;
    jsonptr_status status;
    size_t count;
    uint32_t kind;
    uint64_t position, slash, offset, length;
    const char *message;
} pointers[] = {
    { "", JSONPTR_OK, 0, 0, 0, 0, 0, 0, "no error" },
    { "/", JSONPTR_OK, 1, 0, 0, 0, 0, 0, "no error" },
    { "/a~1b/~0/0", JSONPTR_OK, 3, 0, 0, 0, 0, 0, "no error" },
    { "a", JSONPTR_NOT_POINTER, 0, JSONPTR_KIND_NO_LEADING_SLASH, 0, 0, 0, 0,
      "json pointer failed to parse; does not start with a slash ('/') and is not empty" },
    { "/a/b~2c", JSONPTR_NOT_POINTER, 0, JSONPTR_KIND_BAD_ESCAPE, 1, 2, 4, 2,
      "json pointer failed to parse; the first token in the partial-pointer starting at offset 2 is malformed" },
    { "/a/b/~", JSONPTR_NOT_POINTER, 0, JSONPTR_KIND_BAD_ESCAPE, 2, 4, 5, 1,
      "json pointer failed to parse; the first token in the partial-pointer starting at offset 4 is malformed" },
    { "/caf\xe9", JSONPTR_NOT_UTF8, 0, 0, 0, 0, 4, 0, "text is not UTF-8" },
};

static void check_pointers(void) {
    for (size_t i = 0; i < COUNT(pointers); i++) {
        const char *text = pointers[i].text;
        size_t count = 0;
        jsonptr_error error;
        expect_number("status", text, jsonptr_pointer_count(TEXT(text), &count, &error), pointers[i].status);
        expect_number("tokens", text, count, pointers[i].count);
        expect_number("status of the error", text, error.status, pointers[i].status);
        expect_number("kind", text, error.kind, pointers[i].kind);
        expect_number("position", text, error.position, pointers[i].position);
        expect_number("slash", text, error.slash, pointers[i].slash);
        expect_number("offset", text, error.offset, pointers[i].offset);
        expect_number("length", text, error.length, pointers[i].length);
        expect_message(text, &error, pointers[i].message);
    }
}

/* Tokens, escaped and by position. */
static const struct {
    const char *token, *escaped;
} tokens[] = { { "", "" }, { "a", "a" }, { "a/b", "a~1b" }, { "m~n", "m~0n" }, { "~1", "~01" }, { "\xc3\xa9", "\xc3\xa9" } };

static void check_tokens(void) {
    char path[64], out[64];
    size_t path_length = 0, length = 0;
    jsonptr_error error;
    for (size_t i = 0; i < COUNT(tokens); i++) {
        const char *token = tokens[i].token;
        expect_number("status of the escape", token, jsonptr_pointer_escape(TEXT(token), out, sizeof out, &length, &error),
                      JSONPTR_OK);
        expect_text("escape", token, out, length, tokens[i].escaped);
        expect_number("status of the push", token,
                      jsonptr_pointer_push(path, sizeof path, &path_length, TEXT(token), &error), JSONPTR_OK);
    }
    expect_text("path", "the tokens", path, path_length, "//a/a~1b/m~0n/~01/\xc3\xa9");
    for (size_t i = 0; i < COUNT(tokens); i++) {
        expect_number("status of the token", tokens[i].token,
                      jsonptr_pointer_token(path, path_length, i, out, sizeof out, &length, &error), JSONPTR_OK);
        expect_text("token", tokens[i].token, out, length, tokens[i].token);
    }
    expect_number("status past the end", "the tokens",
                  jsonptr_pointer_token(path, path_length, COUNT(tokens), out, sizeof out, &length, &error),
                  JSONPTR_NO_TOKEN);
    expect_message("past the end", &error, "the pointer has no such token");
    expect_number("status of a short buffer", "a~1b",
                  jsonptr_pointer_token(path, path_length, 2, out, 2, &length, &error), JSONPTR_NO_ROOM);
    expect_number("length of a short buffer", "a~1b", length, 3);
    expect_number("status of a full buffer", "x", jsonptr_pointer_push(path, path_length, &path_length, "x", 1, &error),
                  JSONPTR_NO_ROOM);
    expect_number("length that is needed", "x", error.length, path_length + 2);
    for (size_t i = COUNT(tokens); i > 0; i--) {
        expect_number("status of the pop", tokens[i - 1].token, jsonptr_pointer_pop(path, &path_length, &error),
                      JSONPTR_OK);
    }
    expect_number("length", "the root", path_length, 0);
    expect_number("status of the pop", "the root", jsonptr_pointer_pop(path, &path_length, &error), JSONPTR_NO_TOKEN);
}

/* Checks the fields of an error that can differ from 0, except its operation. */
static void expect_fields(const char *about, const jsonptr_error *error, const jsonptr_error *wanted) {
    expect_number("status of the error", about, error->status, wanted->status);
    expect_number("kind", about, error->kind, wanted->kind);
    expect_number("member", about, error->member, wanted->member);
    expect_number("position", about, error->position, wanted->position);
    expect_number("slash", about, error->slash, wanted->slash);
    expect_number("offset", about, error->offset, wanted->offset);
    expect_number("length of the error", about, error->length, wanted->length);
    expect_number("other fields", about, error->reserved + error->operation + error->reserved_2 + error->reserved_3, 0);
}

/* Pointers, their fragments, and another fragment of each: the table of RFC 6901, section 6, and what RFC 3986 allows. */
static const struct {
    const char *pointer, *fragment, *other;
} fragments[] = {
    { "", "#", "#" },
    { "/foo", "#/foo", "#%2Ffoo" },
    { "/foo/0", "#/foo/0", "#%2ffoo%2f%30" },
    { "/", "#/", "#%2F" },
    { "/a~1b", "#/a~1b", "#/a%7E1b" },
    { "/c%d", "#/c%25d", "#/c%25%64" },
    { "/e^f", "#/e%5Ef", "#/e%5ef" },
    { "/g|h", "#/g%7Ch", "#/g%7ch" },
    { "/i\\j", "#/i%5Cj", "#/i%5cj" },
    { "/k\"l", "#/k%22l", "#/%6b%22l" },
    { "/ ", "#/%20", "#%2f%20" },
    { "/m~0n", "#/m~0n", "#/m%7e0n" },
    { "/\xc3\xbc", "#/%C3%BC", "#/%c3%bC" },
    { "/aZ09-._~0!$&'()*+,;=:@?", "#/aZ09-._~0!$&'()*+,;=:@?", "#%2FaZ09%2d._%7e0!$&'()*+,;=:%40?" },
    { "/#[]{}<>`", "#/%23%5B%5D%7B%7D%3C%3E%60", "#%2f%23%5b%5d%7b%7d%3c%3e%60" },
    { "/\x7f\x01\xf4\x8f\xbf\xbf", "#/%7F%01%F4%8F%BF%BF", "#/%7f%01%f4%8f%bf%bf" },
};

/* Texts that are not the fragment of a pointer, each with its error and the end of the message. */
static const struct {
    const char *text;
    jsonptr_error error;
    const char *message;
} no_fragments[] = {
    { "", { .kind = JSONPTR_KIND_NO_HASH }, "does not start with `#`" },
    { "/foo", { .kind = JSONPTR_KIND_NO_HASH }, "does not start with `#`" },
    { "##", { .kind = JSONPTR_KIND_BAD_BYTE, .offset = 1 }, "a byte that must be percent-encoded at byte 1" },
    { "#/a b", { .kind = JSONPTR_KIND_BAD_BYTE, .offset = 3 }, "a byte that must be percent-encoded at byte 3" },
    { "#/%20\xc3\xbc", { .kind = JSONPTR_KIND_BAD_BYTE, .offset = 5 }, "a byte that must be percent-encoded at byte 5" },
    { "#/a\"%", { .kind = JSONPTR_KIND_BAD_BYTE, .offset = 3 }, "a byte that must be percent-encoded at byte 3" },
    { "#%", { .kind = JSONPTR_KIND_BAD_PERCENT, .offset = 1 }, "`%` without two hexadecimal digits at byte 1" },
    { "#/100%", { .kind = JSONPTR_KIND_BAD_PERCENT, .offset = 5 }, "`%` without two hexadecimal digits at byte 5" },
    { "#/%20%g0 ", { .kind = JSONPTR_KIND_BAD_PERCENT, .offset = 5 }, "`%` without two hexadecimal digits at byte 5" },
    { "#/%2", { .kind = JSONPTR_KIND_BAD_PERCENT, .offset = 2 }, "`%` without two hexadecimal digits at byte 2" },
    { "#/a%ff", { .kind = JSONPTR_KIND_ENCODED_NOT_UTF8, .offset = 3 }, "not UTF-8 at byte 3" },
    { "#/%C3%BC%41%C3", { .kind = JSONPTR_KIND_ENCODED_NOT_UTF8, .offset = 11 }, "not UTF-8 at byte 11" },
    { "#~%C3%28", { .kind = JSONPTR_KIND_ENCODED_NOT_UTF8, .offset = 2 }, "not UTF-8 at byte 2" },
    { "#foo", { .kind = JSONPTR_KIND_NO_LEADING_SLASH, .offset = 1 },
      "json pointer failed to parse; does not start with a slash ('/') and is not empty, at byte 1" },
    { "#%66oo", { .kind = JSONPTR_KIND_NO_LEADING_SLASH, .offset = 1 },
      "json pointer failed to parse; does not start with a slash ('/') and is not empty, at byte 1" },
    { "#/%20/~2", { .kind = JSONPTR_KIND_BAD_ESCAPE, .slash = 2, .offset = 6 },
      "json pointer failed to parse; the first token in the partial-pointer starting at offset 2 is malformed, at byte 6" },
    { "#%2Fa%7Eb", { .kind = JSONPTR_KIND_BAD_ESCAPE, .slash = 0, .offset = 5 },
      "json pointer failed to parse; the first token in the partial-pointer starting at offset 0 is malformed, at byte 5" },
    { "#/~0/%7e", { .kind = JSONPTR_KIND_BAD_ESCAPE, .slash = 3, .offset = 5 },
      "json pointer failed to parse; the first token in the partial-pointer starting at offset 3 is malformed, at byte 5" },
};

typedef jsonptr_status convert(const char *, size_t, char *, size_t, size_t *, jsonptr_error *);

/* Checks the result of a conversion, in a long buffer, in one of its length, and in a shorter one. */
static void expect_converted(convert *call, const char *text, const char *wanted) {
    static const jsonptr_error no_error;
    const size_t needed = strlen(wanted), capacities[] = { 64, needed };
    size_t length = 99;
    jsonptr_error error;
    char out[64];
    for (size_t i = 0; i < COUNT(capacities); i++) {
        memset(out, '!', sizeof out);
        expect_number("status", text, call(TEXT(text), out, capacities[i], &length, &error), JSONPTR_OK);
        expect_text("result", text, out, length, wanted);
        expect_number("byte after the result", text, (unsigned char)out[needed], capacities[i] > needed ? 0 : '!');
        expect_fields(text, &error, &no_error);
    }
    if (needed == 0) {
        return;
    }
    memset(out, '!', sizeof out);
    expect_number("status of a short buffer", text, call(TEXT(text), out, needed - 1, &length, &error), JSONPTR_NO_ROOM);
    expect_number("length of a short buffer", text, length, needed);
    expect_fields(text, &error, &(jsonptr_error){ .status = JSONPTR_NO_ROOM, .length = needed });
    expect_number("first byte of a short buffer", text, (unsigned char)out[0], '!');
}

/* Checks the error of a conversion, which leaves the buffer and the length. */
static void expect_not_converted(convert *call, const char *text, const jsonptr_error *wanted) {
    size_t length = 99;
    jsonptr_error error;
    char out[4] = "!!!!";
    expect_number("status", text, call(TEXT(text), out, sizeof out, &length, &error), wanted->status);
    expect_fields(text, &error, wanted);
    expect_number("length after an error", text, length, 99);
    expect_text("buffer after an error", text, out, sizeof out, "!!!!");
}

static void check_fragments(void) {
    for (size_t i = 0; i < COUNT(fragments); i++) {
        expect_converted(jsonptr_pointer_to_fragment, fragments[i].pointer, fragments[i].fragment);
        expect_converted(jsonptr_pointer_from_fragment, fragments[i].fragment, fragments[i].pointer);
        expect_converted(jsonptr_pointer_from_fragment, fragments[i].other, fragments[i].pointer);
    }
    for (size_t i = 0; i < COUNT(no_fragments); i++) {
        char message[256];
        jsonptr_error wanted = no_fragments[i].error;
        wanted.status = JSONPTR_NOT_FRAGMENT;
        expect_not_converted(jsonptr_pointer_from_fragment, no_fragments[i].text, &wanted);
        snprintf(message, sizeof message, "not a URI fragment of a JSON Pointer: %s", no_fragments[i].message);
        expect_message(no_fragments[i].text, &wanted, message);
    }
    expect_not_converted(jsonptr_pointer_from_fragment, "#/%20\xff",
                         &(jsonptr_error){ .status = JSONPTR_NOT_UTF8, .member = JSONPTR_ARGUMENT_TEXT, .offset = 5 });
    expect_not_converted(jsonptr_pointer_from_fragment, "/\xc3",
                         &(jsonptr_error){ .status = JSONPTR_NOT_UTF8, .member = JSONPTR_ARGUMENT_TEXT, .offset = 1 });
    for (size_t i = 0; i < COUNT(pointers); i++) {
        if (pointers[i].status != JSONPTR_OK) {
            expect_not_converted(jsonptr_pointer_to_fragment, pointers[i].text, &(jsonptr_error){
                .status = pointers[i].status, .kind = pointers[i].kind,
                .member = pointers[i].status == JSONPTR_NOT_UTF8 ? JSONPTR_ARGUMENT_POINTER : 0,
                .position = pointers[i].position, .slash = pointers[i].slash, .offset = pointers[i].offset,
                .length = pointers[i].length });
        }
    }
}

/* Pointers that do not resolve. */
static const struct {
    const char *document, *pointer;
    uint32_t kind;
    uint64_t position, slash, offset, length;
    const char *message;
} unresolved[] = {
    { "{\"sizes\": [3, 5]}", "/sizes/2/unit", JSONPTR_KIND_OUT_OF_BOUNDS, 1, 6, 7, 1,
      "resolve failed: json pointer token at offset 6 is out of bounds" },
    { "{\"sizes\": [3, 5]}", "/sizes/-", JSONPTR_KIND_OUT_OF_BOUNDS, 1, 6, 7, 1,
      "resolve failed: json pointer token at offset 6 is out of bounds" },
    { "[3, 5]", "/01", JSONPTR_KIND_NOT_AN_INDEX, 0, 0, 1, 2,
      "resolve failed: json pointer token at offset 0 failed to parse as an index" },
    { "{\"a\": 1}", "/width", JSONPTR_KIND_NO_MEMBER, 0, 0, 1, 5,
      "resolve failed: json pointer token at 0 was not found in value" },
    { "{\"a\": null}", "/a/b/c", JSONPTR_KIND_NO_CHILDREN, 1, 2, 3, 1,
      "resolve failed: json pointer token at 2 is unreachable (previous token resolved to a scalar or null value)" },
};

/* Checks the fields of an error. */
static void expect_error(const char *about, const jsonptr_error *error, jsonptr_status status, size_t i) {
    expect_number("status", about, error->status, status);
    expect_number("kind", about, error->kind, unresolved[i].kind);
    expect_number("position", about, error->position, unresolved[i].position);
    expect_number("slash", about, error->slash, unresolved[i].slash);
    expect_number("offset", about, error->offset, unresolved[i].offset);
    expect_number("length", about, error->length, unresolved[i].length);
    expect_message(about, error, unresolved[i].message);
}

static void check_unresolved(void) {
    for (size_t i = 0; i < COUNT(unresolved); i++) {
        const char *pointer = unresolved[i].pointer;
        jsonptr_document document = parsed(unresolved[i].document);
        char out[64];
        size_t length = 77;
        jsonptr_error error;
        jsonptr_node node;
        expect_number("get", pointer, jsonptr_document_get(&document, TEXT(pointer), 0, out, sizeof out, &length, &error),
                      JSONPTR_NOT_FOUND);
        expect_error(pointer, &error, JSONPTR_NOT_FOUND, i);
        expect_number("length after an error", pointer, length, 77);
        expect_number("node", pointer, jsonptr_document_node(&document, TEXT(pointer), &node, &error), JSONPTR_NOT_FOUND);
        expect_error(pointer, &error, JSONPTR_NOT_FOUND, i);
        expect_number("in text", pointer, jsonptr_resolve_in_text(TEXT(unresolved[i].document), TEXT(pointer), 0, out, sizeof out,
                                                                  &length, &error), JSONPTR_NOT_FOUND);
        expect_error(pointer, &error, JSONPTR_NOT_FOUND, i);
        size_t start = 77, end = 78;
        expect_number("locate", pointer, jsonptr_locate_in_text(TEXT(unresolved[i].document), TEXT(pointer), &start, &end,
                                                                &error), JSONPTR_NOT_FOUND);
        expect_error(pointer, &error, JSONPTR_NOT_FOUND, i);
        expect_number("start after an error", pointer, start, 77);
        expect_number("end after an error", pointer, end, 78);
        jsonptr_document_free(&document);
    }
}

/* Texts that are not JSON, and where reading stops. */
static const struct {
    const char *text;
    jsonptr_status status;
    uint64_t offset;
} unread[] = {
    { "", JSONPTR_NOT_JSON, 0 }, { "[1,", JSONPTR_NOT_JSON, 3 }, { "{\n \"a\": x}", JSONPTR_NOT_JSON, 8 },
    { "1 2", JSONPTR_NOT_JSON, 2 }, { "\"\xff\"", JSONPTR_NOT_UTF8, 1 }, { "\xef\xbb\xbf[1]", JSONPTR_NOT_JSON, 0 },
    { "[\"abc\\ud800\"]", JSONPTR_NOT_JSON, 1 }, { "[0, \"a\nb\"]", JSONPTR_NOT_JSON, 4 },
    { "[truex]", JSONPTR_NOT_JSON, 1 }, { "[0, 01]", JSONPTR_NOT_JSON, 4 }, { "[nul", JSONPTR_NOT_JSON, 4 },
    { "[1e999]", JSONPTR_NOT_JSON, 6 }, { "[123456789, 1e999, 2]", JSONPTR_NOT_JSON, 19 },
    { "[1e999, 2]", JSONPTR_NOT_JSON, 8 }, { "{1: 2}", JSONPTR_NOT_JSON, 2 }, { "[1 2]", JSONPTR_NOT_JSON, 3 },
};

static void check_unread(void) {
    for (size_t i = 0; i < COUNT(unread); i++) {
        const char *text = unread[i].text;
        jsonptr_document document = parsed("[7]");
        char out[8];
        size_t length = 0;
        jsonptr_error error;
        expect_number("status", text, jsonptr_document_parse(&document, TEXT(text), &error), unread[i].status);
        expect_number("offset", text, error.offset, unread[i].offset);
        expect_message(text, &error, unread[i].status == JSONPTR_NOT_JSON ? "text is not JSON" : "text is not UTF-8");
        expect_document(text, &document, "[7]");
        expect_number("status of assigning", text,
                      jsonptr_document_assign(&document, "/0", 2, TEXT(text), &error), unread[i].status);
        expect_number("status of patching", text, jsonptr_document_patch(&document, TEXT(text), &error),
                      unread[i].status);
        expect_number("status in text", text,
                      jsonptr_resolve_in_text(TEXT(text), "", 0, 0, out, sizeof out, &length, &error), unread[i].status);
        expect_number("offset in text", text, error.offset, unread[i].offset);
        size_t start = 77, end = 78;
        expect_number("status of locating", text, jsonptr_locate_in_text(TEXT(text), "", 0, &start, &end, &error),
                      unread[i].status);
        expect_number("offset of locating", text, error.offset, unread[i].offset);
        expect_number("start after an error", text, start, 77);
        expect_number("end after an error", text, end, 78);
        length = 79;
        memset(out, '#', sizeof out);
        expect_number("status of an offset", text,
                      jsonptr_pointer_at_in_text(TEXT(text), 0, out, sizeof out, &length, &error), unread[i].status);
        expect_number("offset of the error", text, error.offset, unread[i].offset);
        expect_number("length after an error", text, length, 79);
        expect_text("buffer after an error", text, out, sizeof out, "########");
        expect_document(text, &document, "[7]");
        jsonptr_document_free(&document);
    }
}

/* Numbers, as they are printed. */
static const struct {
    const char *read, *printed;
} numbers[] = {
    { "18446744073709551615", "18446744073709551615" }, { "-9223372036854775808", "-9223372036854775808" },
    { "18446744073709551616", "1.8446744073709552e+19" }, { "1.0", "1.0" }, { "1e2", "100.0" }, { "-0", "-0.0" },
    { "1e-999", "0.0" },
};

static void check_numbers(void) {
    for (size_t i = 0; i < COUNT(numbers); i++) {
        jsonptr_document document = parsed(numbers[i].read);
        expect_document(numbers[i].read, &document, numbers[i].printed);
        jsonptr_document_free(&document);
    }
}

/* Texts that are read with exact numbers: the status, where the number at fault is, its pointer or NULL, and the message. */
static const struct {
    const char *text;
    jsonptr_status status;
    uint64_t offset, length;
    const char *pointer, *message;
} exact[] = {
    { "[0.1, 1.10, 1e5, -0, 18446744073709551615, -9223372036854775808, 5e-324]", JSONPTR_OK, 0, 0, NULL, "no error" },
    { "{\"id\": 12345678901234567890123}", JSONPTR_NOT_EXACT, 7, 23, "/id", "the number at offset 7 loses digits" },
    { "[1 , {\"a/b\":3.14159265358979323846}]", JSONPTR_NOT_EXACT, 12, 22, "/1/a~1b", "the number at offset 12 loses digits" },
    { "18446744073709551616", JSONPTR_NOT_EXACT, 0, 20, "", "the number at offset 0 loses digits" },
    { "[1e-400, 12345678901234567890123]", JSONPTR_NOT_EXACT, 1, 6, "/0", "the number at offset 1 loses digits" },
    { "{\"a\": 12345678901234567890123, \"a\": 1}", JSONPTR_NOT_EXACT, 6, 23, NULL, "the number at offset 6 loses digits" },
    { "[12345678901234567890123, x]", JSONPTR_NOT_JSON, 26, 0, NULL, "text is not JSON" },
    { "[12345678901234567890123, \"\xff\"]", JSONPTR_NOT_UTF8, 27, 0, NULL, "text is not UTF-8" },
};

static void check_exact(void) {
    for (size_t i = 0; i < COUNT(exact); i++) {
        const char *text = exact[i].text;
        jsonptr_document document = parsed("[7]");
        jsonptr_error error;
        expect_number("status", text,
                      jsonptr_document_parse_with(&document, TEXT(text), JSONPTR_EXACT_NUMBERS, &error), exact[i].status);
        expect_number("status of the error", text, error.status, exact[i].status);
        expect_number("offset", text, error.offset, exact[i].offset);
        expect_number("length", text, error.length, exact[i].length);
        expect_message(text, &error, exact[i].message);
        if (exact[i].status != JSONPTR_OK) {
            expect_document(text, &document, "[7]");
        }
        expect_number("status without the flag", text, jsonptr_document_parse_with(&document, TEXT(text), 0, &error),
                      exact[i].status == JSONPTR_NOT_EXACT ? JSONPTR_OK : exact[i].status);
        jsonptr_document_free(&document);
        char out[16];
        size_t length = 9;
        bool found = false;
        jsonptr_status wanted = exact[i].pointer != NULL ? JSONPTR_OK : exact[i].status;
        expect_number("status of the pointer", text,
                      jsonptr_lost_number_in_text(TEXT(text), &found, out, sizeof out, &length, &error), wanted);
        expect_number("offset of the pointer", text, error.offset, wanted == JSONPTR_OK ? 0 : exact[i].offset);
        expect_number("found", text, found, exact[i].pointer != NULL);
        if (found) {
            expect_text("pointer", text, out, length, exact[i].pointer);
        } else {
            expect_number("length of the pointer", text, length, wanted == JSONPTR_OK ? 0 : 9);
        }
    }
    char out[4] = "####";
    size_t length = 0;
    jsonptr_error error;
    const char *text = exact[2].text;
    expect_number("status of a short buffer", text,
                  jsonptr_lost_number_in_text(TEXT(text), NULL, out, sizeof out, &length, &error), JSONPTR_NO_ROOM);
    expect_number("length of a short buffer", text, length, 7);
    expect_text("a short buffer", text, out, sizeof out, "####");
}

/* Where values are: with white space, escapes, characters of two bytes, equal numbers and a repeated key. */
static const struct {
    const char *text, *pointer;
    size_t start, end;
} located[] = {
    { " [ 1 ] ", "", 1, 6 },
    { " [ 1 ] ", "/0", 3, 4 },
    { "[1.0,1.00]", "/1", 5, 9 },
    { "[1.0, {\"~/\": \"\xc3\xa9\\n\"}]", "/1", 6, 20 },
    { "[1.0, {\"~/\": \"\xc3\xa9\\n\"}]", "/1/~0~1", 13, 19 },
    { "{\"\\u0061\" : -1e2 }", "/a", 12, 16 },
    { "{\"a\": [1, 2], \"a\": [3]}", "/a", 19, 22 },
    { "{\"a\": [1, 2], \"a\": [3]}", "/a/0", 20, 21 },
};

/* The pointers at the offsets of a text: NULL where no value is. */
static const struct {
    const char *text;
    size_t offset;
    const char *pointer;
} pointed[] = {
    { " [1.0, {\"~/\": 2}] ", 0, NULL },
    { " [1.0, {\"~/\": 2}] ", 1, "" },
    { " [1.0, {\"~/\": 2}] ", 4, "/0" },
    { " [1.0, {\"~/\": 2}] ", 5, "" },
    { " [1.0, {\"~/\": 2}] ", 9, "/1" },
    { " [1.0, {\"~/\": 2}] ", 13, "/1" },
    { " [1.0, {\"~/\": 2}] ", 14, "/1/~0~1" },
    { " [1.0, {\"~/\": 2}] ", 15, "/1" },
    { " [1.0, {\"~/\": 2}] ", 16, "" },
    { " [1.0, {\"~/\": 2}] ", 17, NULL },
    { " [1.0, {\"~/\": 2}] ", 18, NULL },
    { " [1.0, {\"~/\": 2}] ", SIZE_MAX, NULL },
    { "{\"a\": [1, 2], \"a\": [3]}", 7, "" },
    { "{\"a\": [1, 2], \"a\": [3]}", 20, "/a/0" },
};

static void check_locations(void) {
    for (size_t i = 0; i < COUNT(located); i++) {
        expect_location(located[i].text, located[i].pointer, located[i].start, located[i].end);
    }
    for (size_t i = 0; i < COUNT(pointed); i++) {
        const char *text = pointed[i].text;
        if (pointed[i].pointer != NULL) {
            expect_pointer_at(text, pointed[i].offset, pointed[i].pointer);
            continue;
        }
        char out[4] = "####";
        size_t length = 9;
        jsonptr_error error;
        expect_number("status outside", text,
                      jsonptr_pointer_at_in_text(TEXT(text), pointed[i].offset, out, sizeof out, &length, &error),
                      JSONPTR_NO_VALUE);
        expect_number("status of the error", text, error.status, JSONPTR_NO_VALUE);
        expect_number("offset", text, error.offset, pointed[i].offset);
        expect_number("other fields", text, error.kind + error.member + error.position + error.slash + error.length, 0);
        expect_number("length", text, length, 9);
        expect_text("buffer", text, out, sizeof out, "####");
    }
    char out[4] = "####";
    size_t length = 0;
    jsonptr_error error;
    expect_number("status of a short buffer", "/a~1b",
                  jsonptr_pointer_at_in_text(TEXT("{\"a/b\":1}"), 7, out, sizeof out, &length, &error), JSONPTR_NO_ROOM);
    expect_number("length of a short buffer", "/a~1b", length, 5);
    expect_number("length in the error", "/a~1b", error.length, 5);
    expect_text("a short buffer", "/a~1b", out, sizeof out, "####");
    expect_number("status outside", "1", jsonptr_pointer_at_in_text("1", 1, 7, out, sizeof out, &length, &error),
                  JSONPTR_NO_VALUE);
    expect_message("offset 7", &error, "no value is at offset 7");
    error = (jsonptr_error){ .status = JSONPTR_NOT_LOCATED };
    expect_message("a value that is not located", &error, "value cannot be located in the text");
}

/* Two texts that are both at fault: which one the error is of. */
static void check_two_texts(void) {
    jsonptr_document document = parsed("[7]"), empty = JSONPTR_DOCUMENT_INIT;
    char out[8];
    size_t length = 0;
    jsonptr_error error;
    expect_number("pointer first", "x in [",
                  jsonptr_resolve_in_text("[", 1, "x", 1, 0, out, sizeof out, &length, &error), JSONPTR_NOT_POINTER);
    expect_number("pointer first", "/~ in \xff",
                  jsonptr_resolve_in_text("\xff", 1, "/~", 2, 0, out, sizeof out, &length, &error), JSONPTR_NOT_POINTER);
    expect_number("whole text", "/0 in [7, x]",
                  jsonptr_resolve_in_text("[7, x]", 6, "/0", 2, 0, out, sizeof out, &length, &error), JSONPTR_NOT_JSON);
    expect_number("pointer first", "x in [", jsonptr_locate_in_text("[", 1, "x", 1, NULL, NULL, &error),
                  JSONPTR_NOT_POINTER);
    expect_number("text next", "/0 in \xff", jsonptr_locate_in_text("\xff", 1, "/0", 2, NULL, NULL, &error),
                  JSONPTR_NOT_UTF8);
    expect_number("argument", "/0 in \xff", error.member, JSONPTR_ARGUMENT_TEXT);
    expect_number("argument", "\xff in 1", jsonptr_locate_in_text("1", 1, "\xff", 1, NULL, NULL, &error),
                  JSONPTR_NOT_UTF8);
    expect_number("argument", "\xff in 1", error.member, JSONPTR_ARGUMENT_POINTER);
    expect_number("text first", "x = [", jsonptr_document_assign(&document, "x", 1, "[", 1, &error), JSONPTR_NOT_JSON);
    expect_number("text first", "\xff = [\xff", jsonptr_document_assign(&document, "\xff", 1, "[\xff", 2, &error),
                  JSONPTR_NOT_UTF8);
    expect_number("offset in the text", "\xff = [\xff", error.offset, 1);
    expect_number("argument", "\xff = [\xff", error.member, JSONPTR_ARGUMENT_TEXT);
    expect_number("pointer next", "\xff = 1", jsonptr_document_assign(&document, "\xff", 1, "1", 1, &error),
                  JSONPTR_NOT_UTF8);
    expect_number("argument", "\xff = 1", error.member, JSONPTR_ARGUMENT_POINTER);
    expect_number("text next", "/0 in \xff",
                  jsonptr_resolve_in_text("\xff", 1, "/0", 2, 0, out, sizeof out, &length, &error), JSONPTR_NOT_UTF8);
    expect_number("argument", "/0 in \xff", error.member, JSONPTR_ARGUMENT_TEXT);
    expect_number("token", "\xff", jsonptr_pointer_escape("\xff", 1, out, sizeof out, &length, &error),
                  JSONPTR_NOT_UTF8);
    expect_number("argument", "\xff", error.member, JSONPTR_ARGUMENT_TOKEN);
    expect_number("text first", "[ in no document", jsonptr_document_assign(&empty, "x", 1, "[", 1, &error),
                  JSONPTR_NOT_JSON);
    expect_number("document next", "x in no document", jsonptr_document_assign(&empty, "x", 1, "1", 1, &error),
                  JSONPTR_NO_DOCUMENT);
    expect_number("patch first", "{} in no document", jsonptr_document_patch(&empty, "{}", 2, &error),
                  JSONPTR_NOT_PATCH);
    expect_number("document first", "x in no document",
                  jsonptr_document_get(&empty, "x", 1, 0, out, sizeof out, &length, &error), JSONPTR_NO_DOCUMENT);
    length = 1;
    out[0] = 'x';
    expect_number("pointer first", "x and \xff", jsonptr_pointer_push(out, sizeof out, &length, "\xff", 1, &error),
                  JSONPTR_NOT_POINTER);
    length = 9;
    expect_number("length first", "9 of 8 bytes", jsonptr_pointer_push(out, sizeof out, &length, "\xff", 1, &error),
                  JSONPTR_BAD_ARGUMENT);
    expect_document("the document", &document, "[7]");
    jsonptr_document_free(&document);
}

/* Nodes. */
static const char *nodes_document = "{\"n\": null, \"t\": true, \"f\": false, \"i\": -7, \"u\": 18446744073709551615,"
                                    " \"d\": 2.5, \"s\": \"gr\\u00fc\\n\", \"a\": [1, 2, 3], \"o\": {\"x\": 1}}";

static const struct {
    const char *pointer;
    jsonptr_node node;
} nodes[] = {
    { "/n", { .type = JSONPTR_NULL } },
    { "/t", { .type = JSONPTR_BOOLEAN, .is_true = true } },
    { "/f", { .type = JSONPTR_BOOLEAN } },
    { "/i", { .type = JSONPTR_NUMBER, .has_integer = true, .integer = -7, .number = -7 } },
    { "/u", { .type = JSONPTR_NUMBER, .has_natural = true, .natural = UINT64_MAX, .number = 18446744073709551616.0 } },
    { "/d", { .type = JSONPTR_NUMBER, .number = 2.5 } },
    { "/a/2", { .type = JSONPTR_NUMBER, .has_integer = true, .has_natural = true, .integer = 3, .natural = 3, .number = 3 } },
    { "/s", { .type = JSONPTR_STRING, .length = 4, .byte_length = 5 } },
    { "/a", { .type = JSONPTR_ARRAY, .length = 3 } },
    { "/o", { .type = JSONPTR_OBJECT, .length = 1 } },
    { "", { .type = JSONPTR_OBJECT, .length = 9 } },
};

static void check_nodes(void) {
    jsonptr_document document = parsed(nodes_document);
    for (size_t i = 0; i < COUNT(nodes); i++) {
        const char *pointer = nodes[i].pointer;
        const jsonptr_node *wanted = &nodes[i].node;
        jsonptr_node node;
        jsonptr_error error;
        expect_number("status", pointer, jsonptr_document_node(&document, TEXT(pointer), &node, &error), JSONPTR_OK);
        expect_number("type", pointer, node.type, wanted->type);
        expect_number("is_true", pointer, node.is_true, wanted->is_true);
        expect_number("has_integer", pointer, node.has_integer, wanted->has_integer);
        expect_number("has_natural", pointer, node.has_natural, wanted->has_natural);
        expect_number("integer", pointer, (unsigned long long)node.integer, (unsigned long long)wanted->integer);
        expect_number("natural", pointer, node.natural, wanted->natural);
        expect_number("number", pointer, node.number == wanted->number, 1);
        expect_number("length", pointer, node.length, wanted->length);
        expect_number("byte_length", pointer, node.byte_length, wanted->byte_length);
        expect_number("reserved", pointer, node.reserved, 0);
    }
    char out[8];
    size_t length = 0;
    jsonptr_error error;
    expect_number("status of the string", "/s",
                  jsonptr_document_string(&document, "/s", 2, out, sizeof out, &length, &error), JSONPTR_OK);
    expect_text("string", "/s", out, length, "gr\xc3\xbc\n");
    expect_number("status of the string", "/a",
                  jsonptr_document_string(&document, "/a", 2, out, sizeof out, &length, &error), JSONPTR_OTHER_TYPE);
    expect_message("/a", &error, "the value is of another type");
    jsonptr_document_free(&document);
}

/* Assignments. */
static const struct {
    const char *document, *pointer, *value;
    jsonptr_status status;
    const char *after;
    uint32_t kind;
    const char *message;
} assignments[] = {
    { "{\"width\": 3}", "/width", "4", JSONPTR_OK, "{\"width\":4}", 0, "no error" },
    { "{\"page\": 7}", "/page/lines/0/text", "\"Hello\"", JSONPTR_OK, "{\"page\":{\"lines\":[{\"text\":\"Hello\"}]}}", 0,
      "no error" },
    { "{}", "/marks/-/at", "12", JSONPTR_OK, "{\"marks\":[{\"at\":12}]}", 0, "no error" },
    { "[3]", "/-", "5", JSONPTR_OK, "[3,5]", 0, "no error" },
    { "[3]", "/1", "5", JSONPTR_OK, "[3,5]", 0, "no error" },
    { "[3]", "", "{}", JSONPTR_OK, "{}", 0, "no error" },
    { "{\"a\": 1}", "/a/b", "2", JSONPTR_OK, "{\"a\":{\"b\":2}}", 0, "no error" },
    { "{\"a\": \"text\"}", "/a/0/b", "2", JSONPTR_OK, "{\"a\":[{\"b\":2}]}", 0, "no error" },
    { "[3]", "/2", "5", JSONPTR_NOT_ASSIGNED, "[3]", JSONPTR_KIND_INDEX_ABOVE_LENGTH,
      "assign failed: json pointer token at offset 0 is out of bounds" },
    { "{\"a\":[3]}", "/a/first", "5", JSONPTR_NOT_ASSIGNED, "{\"a\":[3]}", JSONPTR_KIND_NOT_A_NEW_INDEX,
      "assign failed: json pointer token at offset 2 failed to parse as an array index" },
    { "[3]", "0", "5", JSONPTR_NOT_POINTER, "[3]", JSONPTR_KIND_NO_LEADING_SLASH,
      "json pointer failed to parse; does not start with a slash ('/') and is not empty" },
};

static void check_assignments(void) {
    for (size_t i = 0; i < COUNT(assignments); i++) {
        const char *pointer = assignments[i].pointer;
        jsonptr_document document = parsed(assignments[i].document);
        jsonptr_error error;
        expect_number("status", pointer,
                      jsonptr_document_assign(&document, TEXT(pointer), TEXT(assignments[i].value), &error),
                      assignments[i].status);
        expect_number("kind", pointer, error.kind, assignments[i].kind);
        expect_message(pointer, &error, assignments[i].message);
        expect_document(pointer, &document, assignments[i].after);
        jsonptr_document_free(&document);
    }
}

/* Values that need no JSON text to be assigned, and the text of each. */
enum type { STRING, INTEGER, NATURAL, NUMBER, BOOLEAN, NOTHING };

static const struct {
    enum type type;
    const char *string;
    int64_t integer;
    uint64_t natural;
    double number;
    bool boolean;
    const char *text;
} settings[] = {
    { STRING, .string = "", .text = "\"\"" },
    { STRING, .string = "a\"b\\c/d", .text = "\"a\\\"b\\\\c/d\"" },
    { STRING, .string = "\n\t\x01\x7f\xc3\xa9", .text = "\"\\n\\t\\u0001\x7f\xc3\xa9\"" },
    { INTEGER, .integer = 0, .text = "0" },
    { INTEGER, .integer = -7, .text = "-7" },
    { INTEGER, .integer = INT64_MIN, .text = "-9223372036854775808" },
    { INTEGER, .integer = INT64_MAX, .text = "9223372036854775807" },
    { NATURAL, .natural = 0, .text = "0" },
    { NATURAL, .natural = UINT64_MAX, .text = "18446744073709551615" },
    { NUMBER, .number = 0.0, .text = "0.0" },
    { NUMBER, .number = -0.0, .text = "-0.0" },
    { NUMBER, .number = 3, .text = "3.0" },
    { NUMBER, .number = 0.1 + 0.2, .text = "0.30000000000000004" },
    { NUMBER, .number = 12345678901234567890123.0, .text = "1.2345678901234568e+22" },
    { NUMBER, .number = 5e-324, .text = "5e-324" },
    { NUMBER, .number = -1.7976931348623157e308, .text = "-1.7976931348623157e+308" },
    { BOOLEAN, .boolean = true, .text = "true" },
    { BOOLEAN, .boolean = false, .text = "false" },
    { NOTHING, .text = "null" },
};

/* Assigns a value by the call of its type. */
static jsonptr_status set(jsonptr_document *document, const char *pointer, size_t length, size_t i, jsonptr_error *error) {
    switch (settings[i].type) {
    case STRING:
        return jsonptr_document_assign_string(document, pointer, length, TEXT(settings[i].string), error);
    case INTEGER:
        return jsonptr_document_assign_integer(document, pointer, length, settings[i].integer, error);
    case NATURAL:
        return jsonptr_document_assign_natural(document, pointer, length, settings[i].natural, error);
    case NUMBER:
        return jsonptr_document_assign_number(document, pointer, length, settings[i].number, error);
    case BOOLEAN:
        return jsonptr_document_assign_boolean(document, pointer, length, settings[i].boolean, error);
    default:
        return jsonptr_document_assign_null(document, pointer, length, error);
    }
}

/* Where values are assigned, the document after that with %s for the value, and the pointer of the value in it. */
static const struct {
    const char *document, *pointer, *after, *found;
} places[] = {
    { "[1, {}]", "", "%s", "" },
    { "{}", "/a", "{\"a\":%s}", "/a" },
    { "{\"a\": 1, \"b\": 2}", "/a", "{\"a\":%s,\"b\":2}", "/a" },
    { "[3]", "/-", "[3,%s]", "/1" },
    { "[3, 5]", "/0", "[%s,5]", "/0" },
    { "{\"a\": \"text\"}", "/a/x~1y/0/-", "{\"a\":{\"x/y\":[[%s]]}}", "/a/x~1y/0/0" },
    { "{\"\": {}}", "//~0", "{\"\":{\"~\":%s}}", "//~0" },
};

/* Where no value can be assigned. */
static const struct {
    const char *document, *pointer;
    jsonptr_error error;
} no_places[] = {
    { "[3]", "/2", { .status = JSONPTR_NOT_ASSIGNED, .kind = JSONPTR_KIND_INDEX_ABOVE_LENGTH, .offset = 1, .length = 1 } },
    { "{\"a\":[3]}", "/a/first/x", { .status = JSONPTR_NOT_ASSIGNED, .kind = JSONPTR_KIND_NOT_A_NEW_INDEX, .position = 1, .slash = 2,
                                     .offset = 3, .length = 5 } },
    { "[3]", "0", { .status = JSONPTR_NOT_POINTER, .kind = JSONPTR_KIND_NO_LEADING_SLASH } },
    { "[3]", "/a/~b", { .status = JSONPTR_NOT_POINTER, .kind = JSONPTR_KIND_BAD_ESCAPE, .position = 1, .slash = 2, .offset = 3, .length = 2 } },
    { "[3]", "/\xff", { .status = JSONPTR_NOT_UTF8, .member = JSONPTR_ARGUMENT_POINTER, .offset = 1 } },
};

/* Checks a value that is assigned at each place, beside its text that is assigned there. */
static void check_setting(size_t i) {
    static const jsonptr_error no_error;
    const char *value = settings[i].text;
    char out[64], after[128];
    size_t length = 0;
    jsonptr_error error;
    for (size_t at = 0; at < COUNT(places); at++) {
        jsonptr_document document = parsed(places[at].document), other = parsed(places[at].document);
        expect_number("status of setting", value, set(&document, TEXT(places[at].pointer), i, &error), JSONPTR_OK);
        expect_fields(value, &error, &no_error);
        expect_number("status of getting", value,
                      jsonptr_document_get(&document, TEXT(places[at].found), 0, out, sizeof out, &length, NULL), JSONPTR_OK);
        expect_text("value", places[at].pointer, out, length, value);
        snprintf(after, sizeof after, places[at].after, value);
        expect_document(places[at].pointer, &document, after);
        expect_number("status of assigning", value,
                      jsonptr_document_assign(&other, TEXT(places[at].pointer), TEXT(value), NULL), JSONPTR_OK);
        expect_number("difference", value, jsonptr_document_diff(&document, &other, 0, out, sizeof out, &length, NULL), JSONPTR_OK);
        expect_text("difference", value, out, length, "[]");
        jsonptr_document_free(&document);
        jsonptr_document_free(&other);
    }
    for (size_t at = 0; at < COUNT(no_places); at++) {
        jsonptr_document document = parsed(no_places[at].document);
        expect_number("status of setting", value, set(&document, TEXT(no_places[at].pointer), i, &error), no_places[at].error.status);
        expect_fields(no_places[at].pointer, &error, &no_places[at].error);
        expect_document(no_places[at].pointer, &document, no_places[at].document);
        jsonptr_document_free(&document);
        expect_number("status in no document", value, set(&document, TEXT(no_places[at].pointer), i, &error), JSONPTR_NO_DOCUMENT);
        expect_fields(value, &error, &(jsonptr_error){ .status = JSONPTR_NO_DOCUMENT });
    }
}

/* Checks what is looked at before the document, zeros in a string, and the longest pointers. */
static void check_setters(void) {
    static char deep[20002];
    jsonptr_document document = parsed("{}"), empty = JSONPTR_DOCUMENT_INIT;
    jsonptr_error error;
    jsonptr_node node;
    for (size_t i = 0; i < COUNT(settings); i++) {
        check_setting(i);
    }
    const double not_finite[] = { NAN, -NAN, INFINITY, -INFINITY };
    for (size_t i = 0; i < COUNT(not_finite); i++) {
        expect_number("status", "a number that is not finite", jsonptr_document_assign_number(&document, "x", 1, not_finite[i], &error),
                      JSONPTR_BAD_ARGUMENT);
        expect_fields("a number that is not finite", &error, &(jsonptr_error){ .status = JSONPTR_BAD_ARGUMENT });
        expect_number("status", "in no document", jsonptr_document_assign_number(&empty, "", 0, not_finite[i], NULL), JSONPTR_BAD_ARGUMENT);
    }
    const jsonptr_error not_utf8 = { .status = JSONPTR_NOT_UTF8, .member = JSONPTR_ARGUMENT_TEXT, .offset = 2 };
    expect_number("status", "not UTF-8", jsonptr_document_assign_string(&document, "\xff", 1, TEXT("ab\xc3"), &error), JSONPTR_NOT_UTF8);
    expect_fields("not UTF-8", &error, &not_utf8);
    expect_number("status", "not UTF-8", jsonptr_document_assign_string(&empty, "", 0, TEXT("ab\xc3"), &error), JSONPTR_NOT_UTF8);
    expect_fields("not UTF-8", &error, &not_utf8);
    expect_document("errors", &document, "{}");
    expect_number("status", "a zero", jsonptr_document_assign_string(&document, "/a", 2, "a\0b", 3, NULL), JSONPTR_OK);
    expect_document("a zero", &document, "{\"a\":\"a\\u0000b\"}");
    expect_number("status", "3.0", jsonptr_document_assign_number(&document, "/a", 2, 3, NULL), JSONPTR_OK);
    expect_number("status", "3.0", jsonptr_document_node(&document, "/a", 2, &node, NULL), JSONPTR_OK);
    expect_number("has_integer", "3.0", node.has_integer || node.has_natural || node.number != 3, 0);
    expect_number("status", "3", jsonptr_document_assign_integer(&document, "/a", 2, 3, NULL), JSONPTR_OK);
    expect_number("status", "3", jsonptr_document_node(&document, "/a", 2, &node, NULL), JSONPTR_OK);
    expect_number("has_integer", "3", node.has_integer && node.has_natural && node.integer == 3, 1);
    for (size_t i = 0; i < sizeof deep; i++) {
        deep[i] = i % 2 == 0 ? '/' : 'a';
    }
    for (size_t i = 0; i < COUNT(settings); i++) {
        expect_number("10,001 tokens", settings[i].text, set(&document, deep, 20002, i, &error), JSONPTR_TOO_DEEP);
        expect_fields("10,001 tokens", &error, &(jsonptr_error){ .status = JSONPTR_TOO_DEEP });
        expect_document("10,001 tokens", &document, "{\"a\":3}");
    }
    expect_number("10,000 tokens", "null", jsonptr_document_assign_null(&document, deep, 20000, NULL), JSONPTR_OK);
    expect_number("10,000 tokens", "null", jsonptr_document_node(&document, deep, 20000, &node, NULL), JSONPTR_OK);
    expect_number("type", "null", node.type, JSONPTR_TYPE_NULL);
    jsonptr_document_free(&document);
}

/* Objects, and their keys in order, each with a '|' after it. */
static const struct {
    const char *document, *pointer, *keys;
} objects[] = {
    { "{}", "", "" },
    { "{\"a\": 1}", "", "a|" },
    { "{\"\": 1}", "", "|" },
    { "{\"b\": 1, \"\": 2, \"a\": 3, \"ab\": 4, \"B\": 5, \"10\": 6, \"9\": 7}", "", "|10|9|B|a|ab|b|" },
    { "{\"~\": 1, \"/\": 2, \"~1\": 3, \"a/b\": 4, \" \": 5, \"\\n\": 6}", "", "\n| |/|a/b|~|~1|" },
    { "{\"\\ud800\\udf48\": 1, \"z\": 2, \"\\u00e9\": 3, \"\\uffff\": 4}", "", "z|\xc3\xa9|\xef\xbf\xbf|\xf0\x90\x8d\x88|" },
    { "{\"o\": {\"k\": [0, {\"y\": 1, \"x\": 2}]}}", "/o/k/1", "x|y|" },
    { "{\"a/b\": {\"c\": 1}, \"d\": 2}", "/a~1b", "c|" },
    { "{\"a\": 1, \"\\u0061\": 2, \"c\": 3}", "", "a|c|" },
};

/* Checks the keys of an object, each of which is that of a member, and is found again after any key between the last one and it. */
static void check_keys_of(size_t i) {
    static const jsonptr_error no_error;
    const char *pointer = objects[i].pointer, *about = objects[i].document;
    jsonptr_document document = parsed(about);
    jsonptr_error error;
    char keys[2][16], path[64], all[64] = "";
    size_t length = 0, path_length, count = 0;
    bool found = false;
    jsonptr_node node;
    int at = 0;
    expect_number("status", about, jsonptr_document_first_key(&document, TEXT(pointer), &found, keys[0], 16, &length, &error), JSONPTR_OK);
    while (found) {
        expect_fields(about, &error, &no_error);
        expect_number("zero after a key", about, (unsigned char)keys[at][length], 0);
        strcat(strcat(all, keys[at]), "|");
        count++;
        path_length = strlen(strcpy(path, pointer));
        expect_number("status of a pointer", about, jsonptr_pointer_push(path, sizeof path, &path_length, keys[at], length, NULL), JSONPTR_OK);
        expect_number("status of a member", path, jsonptr_document_node(&document, path, path_length, &node, NULL), JSONPTR_OK);
        found = false;
        expect_number("status", about, jsonptr_document_next_key(&document, TEXT(pointer), keys[at], length, &found, keys[!at], 16, &length,
                                                                 &error), JSONPTR_OK);
        at = !at;
    }
    expect_fields(about, &error, &no_error);
    expect_number("length at the end", about, length, 0);
    expect_text("keys", about, all, strlen(all), objects[i].keys);
    expect_number("status of the object", about, jsonptr_document_node(&document, TEXT(pointer), &node, NULL), JSONPTR_OK);
    expect_number("members", about, node.length, count);
    jsonptr_document_free(&document);
}

/* Checks an error of both calls, which leaves the buffer, the length, whether a key was found, and the document. */
static void expect_no_keys(jsonptr_document *document, const char *pointer, const jsonptr_error *wanted) {
    for (int call = 0; call < 4; call++) {
        char out[2] = "!!";
        size_t length = 99;
        bool found = call % 2 != 0;
        jsonptr_error error;
        jsonptr_status status = call < 2 ? jsonptr_document_first_key(document, TEXT(pointer), &found, out, 2, &length, &error)
            : jsonptr_document_next_key(document, TEXT(pointer), "A", 1, &found, out, 2, &length, &error);
        expect_number("status", pointer, status, wanted->status);
        expect_fields(pointer, &error, wanted);
        expect_number("found after an error", pointer, found, call % 2 != 0);
        expect_number("length after an error", pointer, length, status == JSONPTR_NO_ROOM ? wanted->length : 99);
        expect_text("buffer after an error", pointer, out, 2, "!!");
    }
}

static void check_keys(void) {
    for (size_t i = 0; i < COUNT(objects); i++) {
        check_keys_of(i);
    }
    jsonptr_document document = parsed("{\"b\": 1, \"d\\u0000d\": [1, \"text\", null, 2.5, true, []], \"f\": 3}"), empty = JSONPTR_DOCUMENT_INIT;
    static const struct {
        const char *key, *next;
    } between[] = { { "", "b" }, { "a", "b" }, { "b", "d\0d" }, { "ba", "d\0d" }, { "d", "d\0d" }, { "d\x01", "f" }, { "c~/", "d\0d" },
                    { "e", "f" }, { "f", NULL }, { "fa", NULL }, { "\xc3\xa9", NULL } };
    jsonptr_error error;
    char out[8];
    size_t length = 0;
    bool found = false;
    for (size_t i = 0; i < COUNT(between); i++) {
        const char *key = between[i].key, *next = between[i].next;
        size_t wanted = next == NULL ? 0 : next[0] == 'd' ? 3 : 1;
        memset(out, '!', sizeof out);
        found = next == NULL;
        expect_number("status", key, jsonptr_document_next_key(&document, "", 0, TEXT(key), &found, out, sizeof out, &length, &error), JSONPTR_OK);
        expect_number("found", key, found, next != NULL);
        expect_number("length", key, length, wanted);
        expect_number("key", key, next == NULL || memcmp(out, next, wanted) == 0, 1);
        expect_number("byte after the key", key, (unsigned char)out[wanted], 0);
        expect_number("byte after that", key, (unsigned char)out[wanted + 1], '!');
        expect_number("status of the error", key, error.status, JSONPTR_OK);
    }
    expect_number("status after a zero", "d", jsonptr_document_next_key(&document, "", 0, "d\0d", 3, &found, out, 1, &length, NULL), JSONPTR_OK);
    expect_text("key after a zero", "d", out, length, "f");
    expect_number("status at the end", "f", jsonptr_document_next_key(&document, "", 0, "f", 1, &found, NULL, 0, &length, NULL), JSONPTR_OK);
    expect_number("found at the end", "f", found, false);
    /* Values that are no objects. */
    static const char *const others[] = { "/b", "/d%d", "/d%d/0", "/d%d/1", "/d%d/2", "/d%d/3", "/d%d/4", "/d%d/5" };
    jsonptr_document plain = parsed("{\"b\": 1, \"d%d\": [1, \"text\", null, 2.5, true, []], \"long\": {\"long\": 3}}");
    for (size_t i = 0; i < COUNT(others); i++) {
        expect_no_keys(&plain, others[i], &(jsonptr_error){ .status = JSONPTR_OTHER_TYPE });
    }
    expect_no_keys(&plain, "/long", &(jsonptr_error){ .status = JSONPTR_NO_ROOM, .length = 4 });
    expect_no_keys(&plain, "a", &(jsonptr_error){ .status = JSONPTR_NOT_POINTER, .kind = JSONPTR_KIND_NO_LEADING_SLASH });
    expect_no_keys(&plain, "/a/~2", &(jsonptr_error){ .status = JSONPTR_NOT_POINTER, .kind = JSONPTR_KIND_BAD_ESCAPE, .position = 1, .slash = 2,
                                                    .offset = 3, .length = 2 });
    expect_no_keys(&plain, "/a\xff", &(jsonptr_error){ .status = JSONPTR_NOT_UTF8, .member = JSONPTR_ARGUMENT_POINTER, .offset = 2 });
    expect_no_keys(&empty, "a", &(jsonptr_error){ .status = JSONPTR_NO_DOCUMENT });
    for (size_t i = 0; i < COUNT(unresolved); i++) {
        jsonptr_document other = parsed(unresolved[i].document);
        expect_no_keys(&other, unresolved[i].pointer, &(jsonptr_error){ .status = JSONPTR_NOT_FOUND, .kind = unresolved[i].kind,
            .position = unresolved[i].position, .slash = unresolved[i].slash, .offset = unresolved[i].offset, .length = unresolved[i].length });
        jsonptr_document_free(&other);
    }
    /* The key is looked at first. */
    const jsonptr_error not_utf8 = { .status = JSONPTR_NOT_UTF8, .member = JSONPTR_ARGUMENT_TOKEN, .offset = 1 };
    expect_number("status", "k\xc3", jsonptr_document_next_key(&plain, "a", 1, "k\xc3", 2, NULL, NULL, 0, NULL, &error), JSONPTR_NOT_UTF8);
    expect_fields("k\xc3", &error, &not_utf8);
    expect_number("status", "k\xc3", jsonptr_document_next_key(&empty, "a", 1, "k\xc3", 2, NULL, NULL, 0, NULL, &error), JSONPTR_NOT_UTF8);
    expect_fields("k\xc3", &error, &not_utf8);
    /* Members that are deleted on the way. */
    char keys[2][8] = { "", "" };
    int at = 0;
    expect_number("status", "deleting", jsonptr_document_first_key(&document, "", 0, &found, keys[0], 8, &length, NULL), JSONPTR_OK);
    while (found) {
        size_t path_length = 0;
        char path[8];
        expect_number("status", "a pointer", jsonptr_pointer_push(path, sizeof path, &path_length, keys[at], length, NULL), JSONPTR_OK);
        expect_number("status", "deleting", jsonptr_document_delete(&document, path, path_length, &found, NULL), JSONPTR_OK);
        expect_number("found", path, found, true);
        expect_number("status", "after deleting", jsonptr_document_next_key(&document, "", 0, keys[at], length, &found, keys[!at], 8, &length, NULL),
                      JSONPTR_OK);
        at = !at;
    }
    expect_document("deleting each member", &document, "{}");
    jsonptr_document_free(&document);
    jsonptr_document_free(&plain);
}

/* Deletions. */
static const struct {
    const char *document, *pointer, *after;
    bool found;
} deletions[] = {
    { "{\"page\":{\"title\":1,\"lines\":7}}", "/page/lines", "{\"page\":{\"title\":1}}", true },
    { "[3,5,8]", "/0", "[5,8]", true },
    { "[5,8]", "/2", "[5,8]", false },
    { "[5,8]", "/-", "[5,8]", false },
    { "{\"a\":1}", "/a/b", "{\"a\":1}", false },
    { "{\"a\":1}", "", "null", true },
};

static void check_deletions(void) {
    for (size_t i = 0; i < COUNT(deletions); i++) {
        const char *pointer = deletions[i].pointer;
        jsonptr_document document = parsed(deletions[i].document);
        bool found = !deletions[i].found;
        expect_number("status", pointer, jsonptr_document_delete(&document, TEXT(pointer), &found, NULL), JSONPTR_OK);
        expect_number("found", pointer, found, deletions[i].found);
        expect_document(pointer, &document, deletions[i].after);
        jsonptr_document_free(&document);
    }
}

/* Patches: RFC 6902, appendix A, and what is not a patch. */
static const struct {
    const char *document, *patch;
    jsonptr_status status;
    const char *after;
    uint32_t kind, member;
    uint64_t operation;
    const char *message;
} patches[] = {
    { "{\"foo\":\"bar\"}", "[{\"op\":\"add\",\"path\":\"/baz\",\"value\":\"qux\"}]", JSONPTR_OK,
      "{\"baz\":\"qux\",\"foo\":\"bar\"}", 0, 0, 0, "no error" },
    { "{\"foo\":[\"bar\",\"baz\"]}", "[{\"op\":\"add\",\"path\":\"/foo/1\",\"value\":\"qux\"}]", JSONPTR_OK,
      "{\"foo\":[\"bar\",\"qux\",\"baz\"]}", 0, 0, 0, "no error" },
    { "{\"baz\":\"qux\",\"foo\":\"bar\"}", "[{\"op\":\"remove\",\"path\":\"/baz\"}]", JSONPTR_OK, "{\"foo\":\"bar\"}", 0, 0,
      0, "no error" },
    { "{\"foo\":[\"bar\",\"qux\",\"baz\"]}", "[{\"op\":\"remove\",\"path\":\"/foo/1\"}]", JSONPTR_OK,
      "{\"foo\":[\"bar\",\"baz\"]}", 0, 0, 0, "no error" },
    { "{\"baz\":\"qux\",\"foo\":\"bar\"}", "[{\"op\":\"replace\",\"path\":\"/baz\",\"value\":\"boo\"}]", JSONPTR_OK,
      "{\"baz\":\"boo\",\"foo\":\"bar\"}", 0, 0, 0, "no error" },
    { "{\"foo\":{\"bar\":\"baz\",\"waldo\":\"fred\"},\"qux\":{\"corge\":\"grault\"}}",
      "[{\"op\":\"move\",\"from\":\"/foo/waldo\",\"path\":\"/qux/thud\"}]", JSONPTR_OK,
      "{\"foo\":{\"bar\":\"baz\"},\"qux\":{\"corge\":\"grault\",\"thud\":\"fred\"}}", 0, 0, 0, "no error" },
    { "{\"foo\":[\"all\",\"grass\",\"cows\",\"eat\"]}", "[{\"op\":\"move\",\"from\":\"/foo/1\",\"path\":\"/foo/3\"}]",
      JSONPTR_OK, "{\"foo\":[\"all\",\"cows\",\"eat\",\"grass\"]}", 0, 0, 0, "no error" },
    { "{\"baz\":\"qux\",\"foo\":[\"a\",2,\"c\"]}",
      "[{\"op\":\"test\",\"path\":\"/baz\",\"value\":\"qux\"},{\"op\":\"test\",\"path\":\"/foo/1\",\"value\":2}]",
      JSONPTR_OK, "{\"baz\":\"qux\",\"foo\":[\"a\",2,\"c\"]}", 0, 0, 0, "no error" },
    { "{\"baz\":\"qux\"}", "[{\"op\":\"test\",\"path\":\"/baz\",\"value\":\"bar\"}]", JSONPTR_PATCH_FAILED,
      "{\"baz\":\"qux\"}", JSONPTR_KIND_TEST_FAILED, 0, 0, "patch failed at operation 0: test failed" },
    { "{\"foo\":\"bar\"}", "[{\"op\":\"add\",\"path\":\"/child\",\"value\":{\"grandchild\":{}}}]", JSONPTR_OK,
      "{\"child\":{\"grandchild\":{}},\"foo\":\"bar\"}", 0, 0, 0, "no error" },
    { "{\"foo\":\"bar\"}", "[{\"op\":\"add\",\"path\":\"/baz\",\"value\":\"qux\",\"xyz\":123}]", JSONPTR_OK,
      "{\"baz\":\"qux\",\"foo\":\"bar\"}", 0, 0, 0, "no error" },
    { "{\"foo\":\"bar\"}", "[{\"op\":\"add\",\"path\":\"/baz/bat\",\"value\":\"qux\"}]", JSONPTR_PATCH_FAILED,
      "{\"foo\":\"bar\"}", JSONPTR_KIND_NO_MEMBER, JSONPTR_MEMBER_PATH, 0,
      "patch failed at operation 0: resolve failed: json pointer token at 0 was not found in value" },
    { "{\"/\":9,\"~1\":10}", "[{\"op\":\"test\",\"path\":\"/~01\",\"value\":10}]", JSONPTR_OK, "{\"/\":9,\"~1\":10}", 0, 0, 0,
      "no error" },
    { "{\"foo\":[\"bar\"]}", "[{\"op\":\"add\",\"path\":\"/foo/-\",\"value\":[\"abc\",\"def\"]}]", JSONPTR_OK,
      "{\"foo\":[\"bar\",[\"abc\",\"def\"]]}", 0, 0, 0, "no error" },
    { "{\"a\":1}", "[{\"op\":\"add\",\"path\":\"/b\",\"value\":2},{\"op\":\"remove\",\"path\":\"/c\"}]",
      JSONPTR_PATCH_FAILED, "{\"a\":1}", JSONPTR_KIND_NO_MEMBER, JSONPTR_MEMBER_PATH, 1,
      "patch failed at operation 1: resolve failed: json pointer token at 0 was not found in value" },
    { "[1]", "[{\"op\":\"add\",\"path\":\"/2\",\"value\":2}]", JSONPTR_PATCH_FAILED, "[1]",
      JSONPTR_KIND_INDEX_ABOVE_LENGTH, JSONPTR_MEMBER_PATH, 0,
      "patch failed at operation 0: assign failed: json pointer token at offset 0 is out of bounds" },
    { "{\"a\":{}}", "[{\"op\":\"move\",\"from\":\"/a\",\"path\":\"/a/b\"}]", JSONPTR_PATCH_FAILED, "{\"a\":{}}",
      JSONPTR_KIND_MOVE_INTO_SELF, 0, 0, "patch failed at operation 0: from is a proper prefix of path" },
    { "[1.5]", "[{\"op\":\"test\",\"path\":\"/0\",\"value\":1.5}]", JSONPTR_OK, "[1.5]", 0, 0, 0, "no error" },
    { "[1.5]", "[{\"op\":\"test\",\"path\":\"/0\",\"value\":1.25}]", JSONPTR_PATCH_FAILED, "[1.5]", JSONPTR_KIND_TEST_FAILED, 0,
      0, "patch failed at operation 0: test failed" },
    { "[1]", "[{\"op\":\"test\",\"path\":\"\",\"value\":[1.0]}]", JSONPTR_OK, "[1]", 0, 0, 0, "no error" },
    { "[9007199254740993]", "[{\"op\":\"test\",\"path\":\"/0\",\"value\":9007199254740992.0}]", JSONPTR_PATCH_FAILED,
      "[9007199254740993]", JSONPTR_KIND_TEST_FAILED, 0, 0, "patch failed at operation 0: test failed" },
    { "[1]", "[{\"op\":\"remove\",\"path\":\"\"}]", JSONPTR_OK, "null", 0, 0, 0, "no error" },
    { "[1]", "{}", JSONPTR_NOT_PATCH, "[1]", JSONPTR_KIND_NOT_AN_ARRAY, 0, 0, "not a JSON Patch document: not an array" },
    { "[1]", "[1]", JSONPTR_NOT_PATCH, "[1]", JSONPTR_KIND_NOT_AN_OBJECT, 0, 0,
      "not a JSON Patch document: operation 0 is not an object" },
    { "[1]", "[{\"op\":\"remove\",\"path\":\"/0\"},{\"op\":\"copy\",\"path\":\"/b\"}]", JSONPTR_NOT_PATCH, "[1]",
      JSONPTR_KIND_NO_SUCH_MEMBER, JSONPTR_MEMBER_FROM, 1,
      "not a JSON Patch document: operation 1 has no member `from`" },
    { "[1]", "[{\"op\":\"add\",\"path\":\"/0\"}]", JSONPTR_NOT_PATCH, "[1]", JSONPTR_KIND_NO_SUCH_MEMBER,
      JSONPTR_MEMBER_VALUE, 0, "not a JSON Patch document: operation 0 has no member `value`" },
    { "[1]", "[{\"op\":1}]", JSONPTR_NOT_PATCH, "[1]", JSONPTR_KIND_NOT_A_STRING, JSONPTR_MEMBER_OP, 0,
      "not a JSON Patch document: member `op` of operation 0 is not a string" },
    { "[1]", "[{\"op\":\"spam\",\"path\":\"\"}]", JSONPTR_NOT_PATCH, "[1]", JSONPTR_KIND_UNKNOWN_OP, JSONPTR_MEMBER_OP, 0,
      "not a JSON Patch document: member `op` of operation 0 is not an operation" },
    { "[1]", "[{\"op\":\"remove\",\"path\":\"/a/b~\"}]", JSONPTR_NOT_PATCH, "[1]", JSONPTR_KIND_BAD_ESCAPE,
      JSONPTR_MEMBER_PATH, 0,
      "not a JSON Patch document: member `path` of operation 0: json pointer failed to parse; the first token in the "
      "partial-pointer starting at offset 2 is malformed" },
};

static void check_patches(void) {
    for (size_t i = 0; i < COUNT(patches); i++) {
        const char *patch = patches[i].patch;
        jsonptr_document document = parsed(patches[i].document);
        jsonptr_error error;
        expect_number("status", patch, jsonptr_document_patch(&document, TEXT(patch), &error), patches[i].status);
        expect_number("kind", patch, error.kind, patches[i].kind);
        expect_number("member", patch, error.member, patches[i].member);
        expect_number("operation", patch, error.operation, patches[i].operation);
        expect_message(patch, &error, patches[i].message);
        expect_document(patch, &document, patches[i].after);
        jsonptr_document_free(&document);
    }
}

/* Patches with a pointer at fault: where. */
static const struct {
    const char *patch;
    jsonptr_status status;
    uint32_t kind, member;
    uint64_t position, slash, offset;
} faulty[] = {
    { "[{\"op\":\"remove\",\"path\":\"/sizes/7\"}]", JSONPTR_PATCH_FAILED, JSONPTR_KIND_OUT_OF_BOUNDS,
      JSONPTR_MEMBER_PATH, 1, 6, 7 },
    { "[{\"op\":\"add\",\"path\":\"/sizes/x\",\"value\":1}]", JSONPTR_PATCH_FAILED, JSONPTR_KIND_NOT_A_NEW_INDEX,
      JSONPTR_MEMBER_PATH, 1, 6, 7 },
    { "[{\"op\":\"add\",\"path\":\"/sizes/0/x\",\"value\":1}]", JSONPTR_PATCH_FAILED, JSONPTR_KIND_NO_CHILDREN,
      JSONPTR_MEMBER_PATH, 2, 8, 9 },
    { "[{\"op\":\"move\",\"path\":\"/no/x\",\"from\":\"/sizes/7\"}]", JSONPTR_PATCH_FAILED, JSONPTR_KIND_OUT_OF_BOUNDS,
      JSONPTR_MEMBER_FROM, 1, 6, 7 },
    { "[{\"op\":\"move\",\"path\":\"/no/x\",\"from\":\"/sizes/0\"}]", JSONPTR_PATCH_FAILED, JSONPTR_KIND_NO_MEMBER,
      JSONPTR_MEMBER_PATH, 0, 0, 1 },
    { "[{\"op\":\"move\",\"path\":\"/b/x\",\"from\":\"/a/x\"}]", JSONPTR_PATCH_FAILED, JSONPTR_KIND_NO_MEMBER,
      JSONPTR_MEMBER_FROM, 0, 0, 1 },
    { "[{\"op\":\"copy\",\"path\":\"/b/x\",\"from\":\"\"}]", JSONPTR_PATCH_FAILED, JSONPTR_KIND_NO_MEMBER,
      JSONPTR_MEMBER_PATH, 0, 0, 1 },
    { "[{\"op\":\"copy\",\"path\":\"/sizes/0/x\",\"from\":\"/sizes/1\"}]", JSONPTR_PATCH_FAILED,
      JSONPTR_KIND_NO_CHILDREN, JSONPTR_MEMBER_PATH, 2, 8, 9 },
    { "[{\"op\":\"copy\",\"path\":\"/sizes/9\",\"from\":\"/sizes/1\"}]", JSONPTR_PATCH_FAILED,
      JSONPTR_KIND_INDEX_ABOVE_LENGTH, JSONPTR_MEMBER_PATH, 1, 6, 7 },
    { "[{\"op\":\"move\",\"path\":\"/no/x\",\"from\":\"/no\"}]", JSONPTR_PATCH_FAILED, JSONPTR_KIND_MOVE_INTO_SELF, 0,
      0, 0, 0 },
    { "[{\"op\":\"test\",\"path\":\"/sizes\",\"value\":[3.5]}]", JSONPTR_PATCH_FAILED, JSONPTR_KIND_TEST_FAILED, 0, 0, 0,
      0 },
    { "[{\"op\":\"remove\",\"path\":\"/ok/a~2\"}]", JSONPTR_NOT_PATCH, JSONPTR_KIND_BAD_ESCAPE, JSONPTR_MEMBER_PATH, 0, 3,
      5 },
    { "[{\"op\":\"copy\",\"path\":\"\",\"from\":\"\\u002f~7\"}]", JSONPTR_NOT_PATCH, JSONPTR_KIND_BAD_ESCAPE,
      JSONPTR_MEMBER_FROM, 0, 0, 1 },
    { "[{\"op\":\"remove\",\"path\":\"ok\"}]", JSONPTR_NOT_PATCH, JSONPTR_KIND_NO_LEADING_SLASH, JSONPTR_MEMBER_PATH, 0, 0,
      0 },
    /* Operations before the one that fails decide whether its `from` resolves. */
    { "[{\"op\":\"remove\",\"path\":\"/sizes/1\"},{\"op\":\"move\",\"from\":\"/sizes/1\",\"path\":\"/b/x\"}]",
      JSONPTR_PATCH_FAILED, JSONPTR_KIND_OUT_OF_BOUNDS, JSONPTR_MEMBER_FROM, 1, 6, 7 },
    { "[{\"op\":\"add\",\"path\":\"/a\",\"value\":{}},{\"op\":\"copy\",\"from\":\"/a\",\"path\":\"/b/x\"}]",
      JSONPTR_PATCH_FAILED, JSONPTR_KIND_NO_MEMBER, JSONPTR_MEMBER_PATH, 0, 0, 1 },
    { "[{\"op\":\"move\",\"from\":\"/sizes\",\"path\":\"/a\"},{\"op\":\"copy\",\"from\":\"/sizes/0\",\"path\":\"/sizes/1\"}]",
      JSONPTR_PATCH_FAILED, JSONPTR_KIND_NO_MEMBER, JSONPTR_MEMBER_FROM, 0, 0, 1 },
    { "[{\"op\":\"move\",\"from\":\"/sizes\",\"path\":\"/a\"},{\"op\":\"copy\",\"from\":\"/a/0\",\"path\":\"/sizes/1\"}]",
      JSONPTR_PATCH_FAILED, JSONPTR_KIND_NO_MEMBER, JSONPTR_MEMBER_PATH, 0, 0, 1 },
};

static void check_faulty(void) {
    jsonptr_document document = parsed("{\"sizes\": [3, 5]}");
    for (size_t i = 0; i < COUNT(faulty); i++) {
        const char *patch = faulty[i].patch;
        jsonptr_error error;
        expect_number("status", patch, jsonptr_document_patch(&document, TEXT(patch), &error), faulty[i].status);
        expect_number("kind", patch, error.kind, faulty[i].kind);
        expect_number("member", patch, error.member, faulty[i].member);
        expect_number("position", patch, error.position, faulty[i].position);
        expect_number("slash", patch, error.slash, faulty[i].slash);
        expect_number("offset", patch, error.offset, faulty[i].offset);
        expect_number("length", patch, error.length, 0);
        expect_document(patch, &document, "{\"sizes\":[3,5]}");
    }
    jsonptr_document_free(&document);
}

/* The longest message: all statuses, kinds and members, also those that no error has, with the greatest numbers. */
static void check_longest_message(void) {
    static const uint32_t greatest[] = { 1000, UINT32_MAX };
    size_t longest = 0;
    for (uint32_t i = 0; i < 25 * 30 * 10; i++) {
        uint32_t status = i / 300, kind = i / 10 % 30, member = i % 10;
        jsonptr_error error = { status < 24 ? status : greatest[i % 2], kind < 29 ? kind : greatest[i % 2],
                                member < 9 ? member : greatest[i % 2], UINT32_MAX, UINT64_MAX, UINT64_MAX, UINT64_MAX,
                                UINT64_MAX, UINT64_MAX, UINT64_MAX, UINT64_MAX };
        char out[200];
        size_t length = 0;
        expect_number("status", "a message of 200 bytes", jsonptr_error_message(&error, out, sizeof out, &length),
                      JSONPTR_OK);
        longest = length > longest ? length : longest;
    }
    expect_number("bytes", "the longest message", longest, 198);
    jsonptr_error odd = { .status = JSONPTR_NOT_PATCH, .kind = JSONPTR_KIND_NO_CHILDREN };
    expect_message("a patch that does not resolve", &odd, "not a JSON Patch document: unknown kind");
}

/* Patches, the document after each, and the patch that takes it back. */
static const struct {
    const char *document, *patch, *after, *back;
} inverses[] = {
    { "{\"a\":1}", "[{\"op\":\"replace\",\"path\":\"/a\",\"value\":2}]", "{\"a\":2}",
      "[{\"op\":\"replace\",\"path\":\"/a\",\"value\":1}]" },
    { "{\"a\":1}", "[{\"op\":\"add\",\"path\":\"/b\",\"value\":2}]", "{\"a\":1,\"b\":2}", "[{\"op\":\"remove\",\"path\":\"/b\"}]" },
    { "[3,5]", "[{\"op\":\"remove\",\"path\":\"/0\"}]", "[5]", "[{\"op\":\"add\",\"path\":\"/0\",\"value\":3}]" },
    { "[3,5]", "[{\"op\":\"add\",\"path\":\"/-\",\"value\":8}]", "[3,5,8]", "[{\"op\":\"remove\",\"path\":\"/2\"}]" },
    { "{\"a\":1,\"b\":2}", "[{\"op\":\"move\",\"from\":\"/a\",\"path\":\"/c\"}]", "{\"b\":2,\"c\":1}",
      "[{\"from\":\"/c\",\"op\":\"move\",\"path\":\"/a\"}]" },
    { "{\"a\":1}", "[{\"op\":\"test\",\"path\":\"/a\",\"value\":1}]", "{\"a\":1}", "[]" },
    { "{\"a\":1}", "[]", "{\"a\":1}", "[]" },
    { "{\"a\":[1.5]}", "[{\"op\":\"remove\",\"path\":\"\"}]", "null", "[{\"op\":\"add\",\"path\":\"\",\"value\":{\"a\":[1.5]}}]" },
};

static void check_inverses(void) {
    for (size_t i = 0; i < COUNT(inverses); i++) {
        const char *patch = inverses[i].patch;
        jsonptr_document document = parsed(inverses[i].document);
        jsonptr_error error;
        char out[256];
        size_t length = 0, needed = strlen(inverses[i].back);
        memset(out, '#', sizeof out);
        expect_number("status of a short buffer", patch,
                      jsonptr_document_patch_with_inverse(&document, TEXT(patch), 0, out, needed - 1, &length, &error),
                      JSONPTR_NO_ROOM);
        expect_number("length of a short buffer", patch, length, needed);
        expect_number("length in the error", patch, error.length, needed);
        expect_number("first byte of a short buffer", patch, (unsigned char)out[0], '#');
        expect_document("after a short buffer", &document, inverses[i].document);
        length = 0;
        expect_number("status", patch,
                      jsonptr_document_patch_with_inverse(&document, TEXT(patch), 0, out, needed, &length, &error),
                      JSONPTR_OK);
        expect_number("status of the error", patch, error.status, JSONPTR_OK);
        expect_text("inverse", patch, out, length, inverses[i].back);
        expect_document(patch, &document, inverses[i].after);
        expect_number("status back", patch, jsonptr_document_patch(&document, out, length, &error), JSONPTR_OK);
        expect_document("taken back", &document, inverses[i].document);
        jsonptr_document_free(&document);
    }
}

/* A patch that fails, by both calls: the same error, and the document and the buffer stay. */
static void expect_same_error(const char *document_text, const char *patch, jsonptr_status wanted) {
    jsonptr_document document = parsed(document_text);
    jsonptr_error error, other;
    char out[64];
    size_t length = 7;
    memset(out, '#', sizeof out);
    expect_number("status", patch, jsonptr_document_patch(&document, TEXT(patch), &other), wanted);
    expect_number("status with an inverse", patch,
                  jsonptr_document_patch_with_inverse(&document, TEXT(patch), 0, out, sizeof out, &length, &error), wanted);
    expect_number("fields", patch, memcmp(&error, &other, sizeof error) == 0, 1);
    expect_number("length", patch, length, 7);
    expect_number("first byte", patch, (unsigned char)out[0], '#');
    expect_document(patch, &document, document_text);
    jsonptr_document_free(&document);
}

static void check_failing_inverses(void) {
    for (size_t i = 0; i < COUNT(patches); i++) {
        if (patches[i].status != JSONPTR_OK) {
            expect_same_error(patches[i].after, patches[i].patch, patches[i].status);
        }
    }
    for (size_t i = 0; i < COUNT(faulty); i++) {
        expect_same_error("{\"sizes\":[3,5]}", faulty[i].patch, faulty[i].status);
    }
    expect_same_error("[1]", "[", JSONPTR_NOT_JSON);
    expect_same_error("[1]", "[\"\xff\"]", JSONPTR_NOT_UTF8);
    jsonptr_document empty = JSONPTR_DOCUMENT_INIT;
    jsonptr_error error;
    expect_number("status", "an empty handle",
                  jsonptr_document_patch_with_inverse(&empty, "[]", 2, 0, NULL, 0, NULL, &error), JSONPTR_NO_DOCUMENT);
    expect_number("status", "an empty handle and no patch",
                  jsonptr_document_patch_with_inverse(&empty, "{}", 2, 0, NULL, 0, NULL, &error), JSONPTR_NOT_PATCH);
    /* A value of 126 levels needs a text of 128 to be added again, which is not read. */
    char deep[256], patch[] = "[{\"op\":\"remove\",\"path\":\"/0\"}]", out[512];
    size_t length = 0;
    memset(deep, '[', 127);
    memset(deep + 127, ']', 127);
    jsonptr_document document = JSONPTR_DOCUMENT_INIT;
    expect_number("status", "127 arrays", jsonptr_document_parse(&document, deep, 254, NULL), JSONPTR_OK);
    expect_number("status", "an inverse of 128 levels",
                  jsonptr_document_patch_with_inverse(&document, TEXT(patch), 0, out, sizeof out, &length, &error),
                  JSONPTR_TOO_DEEP);
    expect_number("kind", "an inverse of 128 levels", error.kind, JSONPTR_KIND_INVERSE_TOO_DEEP);
    expect_message("an inverse of 128 levels", &error, "the inverse of the patch would nest deeper than 127");
    expect_number("status", "printing", jsonptr_document_print(&document, 0, out, sizeof out, &length, NULL), JSONPTR_OK);
    expect_number("text", "after the error", length == 254 && memcmp(out, deep, 254) == 0, 1);
    expect_number("status", "126 arrays", jsonptr_document_parse(&document, deep + 1, 252, NULL), JSONPTR_OK);
    expect_number("status", "an inverse of 127 levels",
                  jsonptr_document_patch_with_inverse(&document, TEXT(patch), 0, out, sizeof out, &length, &error),
                  JSONPTR_OK);
    expect_document("after the removal", &document, "[]");
    expect_number("status", "the inverse", jsonptr_document_patch(&document, out, length, &error), JSONPTR_OK);
    expect_number("status", "printing", jsonptr_document_print(&document, 0, out, sizeof out, &length, NULL), JSONPTR_OK);
    expect_number("text", "taken back", length == 252 && memcmp(out, deep + 1, 252) == 0, 1);
    jsonptr_document_free(&document);
}

/* Differences: the patch of each pair turns the one into the other. */
static const struct {
    const char *from, *to, *patch;
} differences[] = {
    { "{\"a\":1}", "{\"a\":2}", "[{\"op\":\"replace\",\"path\":\"/a\",\"value\":2}]" },
    { "{\"a\":1}", "{\"a\":1}", "[]" },
    { "{\"a\":1,\"b\":2}", "{\"b\":2}", "[{\"op\":\"remove\",\"path\":\"/a\"}]" },
    { "[\"x\",\"y\"]", "[\"x\",\"z\",\"y\"]", "[{\"op\":\"add\",\"path\":\"/1\",\"value\":\"z\"}]" },
    { "[1]", "null", "[{\"op\":\"replace\",\"path\":\"\",\"value\":null}]" },
};

static void check_differences(void) {
    for (size_t i = 0; i < COUNT(differences); i++) {
        jsonptr_document from = parsed(differences[i].from), to = parsed(differences[i].to);
        char out[256];
        size_t length = 0;
        expect_number("status", differences[i].patch,
                      jsonptr_document_diff(&from, &to, 0, out, sizeof out, &length, NULL), JSONPTR_OK);
        expect_text("patch", differences[i].patch, out, length, differences[i].patch);
        expect_document("the first", &from, differences[i].from);
        expect_document("the second", &to, differences[i].to);
        expect_number("status of applying", differences[i].patch, jsonptr_document_patch(&from, out, length, NULL),
                      JSONPTR_OK);
        expect_document("the changed one", &from, differences[i].to);
        jsonptr_document_free(&from);
        jsonptr_document_free(&to);
    }
}

/* Layout, buffers and empty handles. */
static void check_handles(void) {
    jsonptr_document document = parsed("{\"b\": [1, {}], \"a\": \"x\"}"), empty = JSONPTR_DOCUMENT_INIT;
    char out[64];
    size_t length = 0;
    jsonptr_error error;
    expect_number("status", "pretty", jsonptr_document_print(&document, JSONPTR_PRETTY, out, sizeof out, &length, &error),
                  JSONPTR_OK);
    expect_text("text", "pretty", out, length, "{\n  \"a\": \"x\",\n  \"b\": [\n    1,\n    {}\n  ]\n}");
    memset(out, '#', sizeof out);
    expect_number("status", "a short buffer", jsonptr_document_print(&document, 0, out, 19, &length, &error),
                  JSONPTR_NO_ROOM);
    expect_number("length", "a short buffer", length, 20);
    expect_number("length in the error", "a short buffer", error.length, 20);
    expect_text("buffer", "a short buffer", out, 20, "####################");
    expect_message("a short buffer", &error, "the buffer is too short");
    expect_number("status", "an exact buffer", jsonptr_document_print(&document, 0, out, 20, &length, &error), JSONPTR_OK);
    expect_number("next byte", "an exact buffer", (unsigned char)out[20], '#');
    expect_number("status", "other flags", jsonptr_document_print(&document, ~JSONPTR_PRETTY, out, 20, &length, &error),
                  JSONPTR_BAD_ARGUMENT);
    jsonptr_document_free(&document);
    jsonptr_document_free(&document);
    jsonptr_document_free(&empty);
    expect_number("status", "an empty handle", jsonptr_document_print(&document, 0, out, sizeof out, &length, &error),
                  JSONPTR_NO_DOCUMENT);
    expect_message("an empty handle", &error, "the handle holds no document");
    expect_number("patch", "an empty handle", jsonptr_document_patch(&empty, "[]", 2, NULL), JSONPTR_NO_DOCUMENT);
    expect_number("assign", "an empty handle", jsonptr_document_assign(&empty, "", 0, "1", 1, NULL), JSONPTR_NO_DOCUMENT);
    expect_number("delete", "an empty handle", jsonptr_document_delete(&empty, "", 0, NULL, NULL), JSONPTR_NO_DOCUMENT);
    expect_number("diff", "an empty handle", jsonptr_document_diff(&empty, &document, 0, out, 64, NULL, NULL),
                  JSONPTR_NO_DOCUMENT);
    expect_number("status", "the emptied handle", jsonptr_document_parse(&document, "1", 1, NULL), JSONPTR_OK);
    expect_number("status", "the full handle", jsonptr_document_parse(&document, "2", 1, NULL), JSONPTR_OK);
    expect_document("the full handle", &document, "2");
    jsonptr_document_free(&document);
    char deep[256];
    memset(deep, '[', 128);
    memset(deep + 128, ']', 128);
    expect_number("status", "127 arrays", jsonptr_document_parse(&document, deep + 1, 254, NULL), JSONPTR_OK);
    jsonptr_document_free(&document);
    expect_number("status", "128 arrays", jsonptr_document_parse(&document, deep, 256, &error), JSONPTR_NOT_JSON);
    expect_number("offset", "128 arrays", error.offset, 128);
    document = parsed("[]");
    expect_number("status", "assigning 127 arrays", jsonptr_document_assign(&document, "/0", 2, deep + 1, 254, NULL),
                  JSONPTR_OK);
    char printed[256];
    expect_number("status", "printing 128 arrays",
                  jsonptr_document_print(&document, 0, printed, sizeof printed, &length, NULL), JSONPTR_OK);
    expect_number("text", "128 arrays", memcmp(printed, deep, sizeof deep) == 0, 1);
    jsonptr_document_free(&document);
}

/* Edits of texts. `value` is a value, a key or a patch, and `new` the text afterwards, or NULL if it is unchanged. Of one that is
 * changed `start`, `old_end` and `new_end` are the bytes that differ. */
#define BOM "\xEF\xBB\xBF"
#define JSON JSONPTR_FORMAT_JSON
#define JSONC JSONPTR_FORMAT_JSONC
#define TOML JSONPTR_FORMAT_TOML
#define TWO_KEYS "{\"a\": 1.0, // one\n \"a\": 2, \"b\": 3}"

enum kind { ASSIGN, DELETE, RENAME, PATCH, RELAYOUT };

static const struct {
    enum kind call;
    uint32_t format;
    const char *text, *pointer, *value;
    uint32_t flags;
    jsonptr_status status;
    const char *new;
    size_t start, old_end, new_end;
} text_edits[] = {
    { ASSIGN, JSON, "{\"a\" : 1.00,  \"b\":[ 1e5 ] }", "/a", "2.50", 0, JSONPTR_OK, "{\"a\" : 2.50,  \"b\":[ 1e5 ] }", 7, 10, 10 },
    { ASSIGN, JSON, "{\"a\": 1}", "/b", "{\"z\": 1.10, \"y\": 2}", 0, JSONPTR_OK, "{\"a\": 1, \"b\": {\"z\": 1.10, \"y\": 2}}", 7, 7, 33 },
    { ASSIGN, JSON, "[1, 2]", "", "null", 0, JSONPTR_OK, "null", 0, 6, 4 },
    { ASSIGN, JSON, "[1, 2]", "/5", "3", 0, JSONPTR_NOT_ASSIGNED, NULL, 0, 0, 0 },
    { ASSIGN, JSON, "[1, 2]", "/x", "3", 0, JSONPTR_NOT_ASSIGNED, NULL, 0, 0, 0 },
    { ASSIGN, JSON, "[1, 2]", "x", "3", 0, JSONPTR_NOT_POINTER, NULL, 0, 0, 0 },
    { ASSIGN, JSON, "[1, 2]", "x", "3 // c", 0, JSONPTR_NOT_JSON, NULL, 0, 0, 0 },
    { ASSIGN, JSON, "[1, 2]", "/\xff", "3", 0, JSONPTR_NOT_UTF8, NULL, 0, 0, 0 },
    { ASSIGN, JSON, "[1, 2]", "/0", "\"\xff\"", 0, JSONPTR_NOT_UTF8, NULL, 0, 0, 0 },
    { ASSIGN, JSON, "[\"\xC3\xA9\"]", "/0", "\"\xC3\xA8\"", 0, JSONPTR_OK, "[\"\xC3\xA8\"]", 2, 4, 4 },
    { ASSIGN, JSON, BOM "[1]", "/0", "22", 0, JSONPTR_OK, BOM "[22]", 4, 5, 6 },
    { ASSIGN, JSONC, "{\n  \"a\": 3, // px\n}\n", "/a", "4.0", 0, JSONPTR_OK, "{\n  \"a\": 4.0, // px\n}\n", 9, 10, 12 },
    { ASSIGN, JSONC, "{\n  \"a\": 3, // px\n}\n", "/b", "[]", 0, JSONPTR_OK, "{\n  \"a\": 3, // px\n  \"b\": [],\n}\n", 18, 18, 29 },
    { ASSIGN, JSONC, BOM "[1, /* b */ 2,]", "/1", "3", 0, JSONPTR_OK, BOM "[1, /* b */ 3,]", 15, 16, 16 },
    { DELETE, JSON, "{\"a\": 1, \"b\": 2}", "/a", NULL, 0, JSONPTR_OK, "{\"b\": 2}", 2, 10, 2 },
    { DELETE, JSON, "[1, 2]", "/2", NULL, 0, JSONPTR_OK, NULL, 0, 0, 0 },
    { DELETE, JSON, "[1, 2]", "/-", NULL, JSONPTR_REFORMAT, JSONPTR_OK, NULL, 0, 0, 0 },
    { DELETE, JSON, "[1, 2]", "", NULL, 0, JSONPTR_OK, "null", 0, 6, 4 },
    { DELETE, JSON, "[1, 2]", "2", NULL, 0, JSONPTR_NOT_POINTER, NULL, 0, 0, 0 },
    { DELETE, JSONC, "[\n  1, // one\n  2, // two\n  3\n]\n", "/1", NULL, 0, JSONPTR_OK, "[\n  1, // one\n  3\n]\n", 16, 28, 16 },
    { DELETE, JSONC, TWO_KEYS, "/a", NULL, 0, JSONPTR_NOT_IN_PLACE, NULL, 0, 0, 0 },
    { DELETE, JSONC, TWO_KEYS, "/a", NULL, JSONPTR_REFORMAT, JSONPTR_OK, "{\"b\":3}", 2, 32, 5 },
    { RENAME, JSON, "{\"a\": 1.0, \"b\": 2}", "/a", "cc", 0, JSONPTR_OK, "{\"cc\": 1.0, \"b\": 2}", 2, 3, 4 },
    { RENAME, JSON, "{\"a\": 1.0, \"b\": 2}", "/a", "a", 0, JSONPTR_OK, "{\"a\": 1.0, \"b\": 2}", 18, 18, 18 },
    { RENAME, JSON, "{\"a\": 1.0, \"b\": 2}", "/a", "b", 0, JSONPTR_NOT_RENAMED, NULL, 0, 0, JSONPTR_KIND_KEY_TAKEN },
    { RENAME, JSON, "{\"a\": 1.0, \"b\": 2}", "/c", "d", 0, JSONPTR_NOT_RENAMED, NULL, 0, 0, JSONPTR_KIND_NOTHING_THERE },
    { RENAME, JSON, "[{\"a\": 1}]", "/0", "d", 0, JSONPTR_NOT_RENAMED, NULL, 0, 0, JSONPTR_KIND_NOT_A_MEMBER },
    { RENAME, JSON, "[{\"a\": 1}]", "", "d", 0, JSONPTR_NOT_RENAMED, NULL, 0, 0, JSONPTR_KIND_NOT_A_MEMBER },
    { RENAME, JSON, "[{\"a\": 1}]", "/0/a", "\xff", 0, JSONPTR_NOT_UTF8, NULL, 0, 0, 0 },
    { RENAME, JSONC, "{ /* a */ \"a\" /* b */ : 1 }", "/a", "b", 0, JSONPTR_OK, "{ /* a */ \"b\" /* b */ : 1 }", 11, 12, 12 },
    { RENAME, JSON, "{\"a\": 1, \"a\": 2}", "/a", "b", 0, JSONPTR_NOT_IN_PLACE, NULL, 0, 0, 0 },
    { RENAME, JSON, "{\"a\": 1, \"a\": 2}", "/a", "b", JSONPTR_REFORMAT, JSONPTR_OK, "{\"b\":2}", 2, 14, 5 },
    { PATCH, JSON, "{\"a\": [ 2 ],\n \"b\": 1e5}\n", "", "[{\"op\": \"move\", \"from\": \"/b\", \"path\": \"/a/0\"}]", 0, JSONPTR_OK, "{\"a\": [ 1e5, 2 ]}\n", 8, 22, 16 },
    { PATCH, JSON, "[1]", "", "[{\"op\": \"test\", \"path\": \"/0\", \"value\": 2}]", 0, JSONPTR_PATCH_FAILED, NULL, 0, 0, JSONPTR_KIND_TEST_FAILED },
    { PATCH, JSON, "[1]", "", "[{\"op\": \"tst\", \"path\": \"/0\", \"value\": 2}]", 0, JSONPTR_NOT_PATCH, NULL, 0, 0, JSONPTR_KIND_UNKNOWN_OP },
    { PATCH, JSON, "[1]", "", "[{]", 0, JSONPTR_NOT_JSON, NULL, 0, 0, 0 },
    { PATCH, JSON, "[1]", "", "[\"\xff\"]", 0, JSONPTR_NOT_UTF8, NULL, 0, 0, 0 },
    { ASSIGN, TOML, "# c\na = 1 # one\n", "/a", "2.50", 0, JSONPTR_OK, "# c\na = 2.5 # one\n", 8, 9, 11 },
    { ASSIGN, TOML, "a = 1 # one\n", "/b", "\"x\\u00e9\"", 0, JSONPTR_OK, "a = 1 # one\nb = \"x\xC3\xA9\"\n", 12, 12, 22 },
    { ASSIGN, TOML, "[t]\na = 1\n", "/u/b", "true", 0, JSONPTR_OK, "[t]\na = 1\n\n[u]\nb = true\n", 10, 10, 24 },
    { ASSIGN, TOML, BOM "a = [1, 2]\n", "/a/-", "-3", 0, JSONPTR_OK, BOM "a = [1, 2, -3]\n", 12, 12, 16 },
    { ASSIGN, TOML, "a = 1\n", "/b", "{\"x\": [1.0, {}], \"y\": \"z\"}", 0, JSONPTR_OK, "a = 1\n\n[b]\nx = [1.0, {}]\ny = \"z\"\n", 6, 6, 33 },
    { ASSIGN, TOML, "a = 1\n", "/b", "9223372036854775807", 0, JSONPTR_OK, "a = 1\nb = 9223372036854775807\n", 6, 6, 30 },
    { ASSIGN, TOML, "a = 1\n", "/b", "9223372036854775808", 0, JSONPTR_NOT_TOML_VALUE, NULL, 0, 0, 0 },
    { ASSIGN, TOML, "a = 1\n", "/b", "{\"c\": [1, null]}", 0, JSONPTR_NOT_TOML_VALUE, NULL, 0, 0, 0 },
    { ASSIGN, TOML, "a = 1\n", "", "3", 0, JSONPTR_NOT_TOML_VALUE, NULL, 0, 0, JSONPTR_KIND_NO_TOML_TEXT },
    { ASSIGN, TOML, "a = [1]\n", "/a/2", "3", 0, JSONPTR_NOT_ASSIGNED, NULL, 0, 0, JSONPTR_KIND_INDEX_ABOVE_LENGTH },
    { ASSIGN, TOML, "a = 1\n", "/b", "2 # two", 0, JSONPTR_NOT_JSON, NULL, 0, 0, 0 },
    { DELETE, TOML, "a = 1 # one\nb = 2\n", "/a", NULL, 0, JSONPTR_OK, "b = 2\n", 0, 12, 0 },
    { DELETE, TOML, "a = 1\n", "/b", NULL, 0, JSONPTR_OK, NULL, 0, 0, 0 },
    { RENAME, TOML, "[a.b]\nx = 1\n[a.c]\n", "/a", "a b", 0, JSONPTR_OK, "[\"a b\".b]\nx = 1\n[\"a b\".c]\n", 1, 14, 22 },
    { RENAME, TOML, "a = 1\nb = 2\n", "/a", "b", 0, JSONPTR_NOT_RENAMED, NULL, 0, 0, JSONPTR_KIND_KEY_TAKEN },
    { PATCH, TOML, "a = 1\n", "", "[]", 0, JSONPTR_OTHER_FORMAT, NULL, 0, 0, 0 },
    { RELAYOUT, JSON, BOM "{\n  \"a\": 1.0,\n  \"b\": [ 2 ]\n}\n", "", "{\"b\":[2,3.50],\"a\":1.00}", 0, JSONPTR_OK, BOM "{\n  \"a\": 1.0,\n  \"b\": [ 2, 3.50 ]\n}\n", 27, 27, 33 },
    { RELAYOUT, JSON, "[1.0 ]", "", " [1.00]", 0, JSONPTR_OK, "[1.0 ]", 6, 6, 6 },
    { RELAYOUT, JSON, "[1.0 ]", "", "[1,]", 0, JSONPTR_NOT_JSON, NULL, 0, 0, 0 },
    { RELAYOUT, JSON, "[1.0 ]", "", "[\"\xff\"]", 0, JSONPTR_NOT_UTF8, NULL, 0, 0, 0 },
    { RELAYOUT, JSONC, "[1.0 ] // one", "", "[2]", JSONPTR_REFORMAT, JSONPTR_OTHER_FORMAT, NULL, 0, 0, 0 },
    { RELAYOUT, TOML, "a = 1\n", "", "{\"a\":2}", 0, JSONPTR_OTHER_FORMAT, NULL, 0, 0, 0 },
    { PATCH, JSONC, "[1, // one\n 2]", "", "[{\"op\": \"add\", \"path\": \"/-\", \"value\": 3.0}, {\"op\": \"remove\", \"path\": \"/1\"}]", 0, JSONPTR_OK, "[1, // one\n 3.0]", 12, 13, 15 },
};

/* Makes an edit. */
static jsonptr_status edit_text(jsonptr_text *text, size_t i, bool *found, jsonptr_change *change, jsonptr_error *error) {
    const char *pointer = text_edits[i].pointer, *value = text_edits[i].value;
    switch (text_edits[i].call) {
    case ASSIGN:
        return jsonptr_text_assign(text, TEXT(pointer), TEXT(value), text_edits[i].flags, change, error);
    case DELETE:
        return jsonptr_text_delete(text, TEXT(pointer), text_edits[i].flags, found, change, error);
    case RENAME:
        return jsonptr_text_rename(text, TEXT(pointer), TEXT(value), text_edits[i].flags, change, error);
    case RELAYOUT:
        return jsonptr_text_relayout(text, TEXT(value), text_edits[i].flags, change, error);
    default:
        return jsonptr_text_patch(text, TEXT(value), text_edits[i].flags, change, error);
    }
}

static void check_text_edits(void) {
    for (size_t i = 0; i < COUNT(text_edits); i++) {
        const char *old = text_edits[i].text, *new = text_edits[i].new;
        jsonptr_text text = opened(text_edits[i].format, old);
        jsonptr_change change = { 91, 92, 93, true, 94 };
        jsonptr_error error;
        bool found = text_edits[i].status != JSONPTR_OK;
        jsonptr_status status = edit_text(&text, i, &found, &change, &error);
        expect_number("status", old, status, text_edits[i].status);
        expect_number("status of the error", old, error.status, text_edits[i].status);
        expect_open_text(old, &text, new != NULL ? new : old);
        if (new != NULL) {
            expect_number("start", old, change.start, text_edits[i].start);
            expect_number("old end", old, change.old_end, text_edits[i].old_end);
            expect_number("new end", old, change.new_end, text_edits[i].new_end);
            expect_number("reformatted", old, change.is_reformatted, strstr(old, "\"a\": 2") != NULL && text_edits[i].flags != 0);
            expect_number("reserved", old, change.reserved, 0);
        } else {
            expect_number("start of an error", old, change.start, 91);
            if (text_edits[i].new_end != 0) {
                expect_number("kind", old, error.kind, text_edits[i].new_end);
            }
        }
        if (text_edits[i].call == DELETE) {
            expect_number("found", old, found, new != NULL || status != JSONPTR_OK);
        }
        jsonptr_text_free(&text);
    }
}

/* Texts that are not opened. */
static const struct {
    uint32_t format;
    const char *text;
    jsonptr_status status;
    uint32_t kind;
    uint64_t offset;
} not_opened[] = {
    { JSON, "[1, // one\n 2]", JSONPTR_NOT_JSON, 0, 4 }, { JSON, "", JSONPTR_NOT_JSON, 0, 0 }, { JSON, "[1,]", JSONPTR_NOT_JSON, 0, 3 },
    { JSONC, "[1,, 2]", JSONPTR_NOT_JSON, 0, 3 }, { JSONC, "/* a */ [1,] // b", JSONPTR_OK, 0, 0 }, { JSONC, "[1] /* b", JSONPTR_NOT_JSON, JSONPTR_KIND_OPEN_COMMENT, 4 },
    { JSONC, BOM "[1] /* b", JSONPTR_NOT_JSON, JSONPTR_KIND_OPEN_COMMENT, 7 }, { JSON, BOM "[x]", JSONPTR_NOT_JSON, 0, 4 }, { JSON, BOM BOM "[1]", JSONPTR_NOT_JSON, 0, 3 },
    { JSON, "[\"\xff\"]", JSONPTR_NOT_UTF8, 0, 2 }, { JSON, BOM "1", JSONPTR_OK, 0, 0 }, { TOML, "", JSONPTR_OK, 0, 0 },
    { TOML, "a = 1\nb = \n", JSONPTR_NOT_TOML, 0, 10 }, { TOML, BOM "a = 1", JSONPTR_OK, 0, 0 }, { TOML, BOM "a =", JSONPTR_NOT_TOML, 0, 6 },
    { TOML, "[1]", JSONPTR_OK, 0, 0 }, { TOML, "{\"a\": 1}", JSONPTR_NOT_TOML, 0, 0 }, { TOML, "a = '\xff'", JSONPTR_NOT_UTF8, 0, 5 },
};

static void check_opening(void) {
    for (size_t i = 0; i < COUNT(not_opened); i++) {
        const char *about = not_opened[i].text;
        jsonptr_text text = opened(JSON, "[\"before\"]");
        jsonptr_error error;
        expect_number("status", about, jsonptr_text_open(&text, not_opened[i].format, TEXT(about), &error), not_opened[i].status);
        expect_number("status of the error", about, error.status, not_opened[i].status);
        expect_number("kind", about, error.kind, not_opened[i].kind);
        expect_number("offset", about, error.offset, not_opened[i].offset);
        expect_number("member", about, error.member, error.status == JSONPTR_NOT_UTF8 ? JSONPTR_ARGUMENT_TEXT : 0);
        expect_open_text(about, &text, error.status == JSONPTR_OK ? about : "[\"before\"]");
        jsonptr_text_free(&text);
    }
}

/* Where values are in a text, and which value is at an offset: `pointer` is from `start` up to `end`. */
static const struct {
    uint32_t format;
    const char *text, *pointer;
    size_t start, end;
} text_places[] = {
    { JSON, "[1.0, {\"a\": 2 }]", "/0", 1, 4 }, { JSON, "[1.0, {\"a\": 2 }]", "/1", 6, 15 }, { JSON, "[1.0, {\"a\": 2 }]", "/1/a", 12, 13 },
    { JSON, BOM " [1.0]", "/0", 5, 8 }, { JSONC, "// one\n[1.0, /* two */ 2,]", "/1", 23, 24 }, { JSONC, BOM "/**/ [\"\xC3\xA9\"]", "/0", 9, 13 },
    { JSONC, "[/* a */]", "", 0, 9 },
};

static void check_text_places(void) {
    for (size_t i = 0; i < COUNT(text_places); i++) {
        const char *about = text_places[i].text;
        jsonptr_text text = opened(text_places[i].format, about);
        jsonptr_error error;
        char out[16];
        size_t start = 9, end = 9, length = 9;
        expect_number("status", about, jsonptr_text_locate(&text, TEXT(text_places[i].pointer), &start, &end, &error), JSONPTR_OK);
        expect_number("start", about, start, text_places[i].start);
        expect_number("end", about, end, text_places[i].end);
        expect_number("status", about, jsonptr_text_pointer_at(&text, text_places[i].start, out, sizeof out, &length, &error), JSONPTR_OK);
        expect_text("pointer", about, out, length, text_places[i].pointer);
        expect_number("status", about, jsonptr_text_pointer_at(&text, text_places[i].end - 1, out, sizeof out, &length, &error), JSONPTR_OK);
        expect_text("pointer", about, out, length, text_places[i].pointer);
        start = end = 9;
        expect_number("status", about, jsonptr_text_locate(&text, TEXT("/none/0"), &start, &end, &error), JSONPTR_NOT_FOUND);
        expect_number("start and end", about, start + end, 18);
        expect_number("status", about, jsonptr_text_locate(&text, TEXT("none"), NULL, NULL, &error), JSONPTR_NOT_POINTER);
        expect_number("status", about, jsonptr_text_pointer_at(&text, strlen(about), out, sizeof out, &length, &error), JSONPTR_NO_VALUE);
        expect_number("offset", about, error.offset, strlen(about));
        if (strncmp(about, BOM, 3) == 0) {
            expect_number("status", about, jsonptr_text_pointer_at(&text, 2, out, sizeof out, &length, &error), JSONPTR_NO_VALUE);
            expect_number("offset", about, error.offset, 2);
        }
        if (text_places[i].pointer[0] != 0) {
            expect_number("status", about, jsonptr_text_pointer_at(&text, text_places[i].start, out, 1, &length, &error), JSONPTR_NO_ROOM);
            expect_number("needed", about, length, strlen(text_places[i].pointer));
        }
        expect_number("status", about, jsonptr_text_remove_comments(&text, &error), JSONPTR_OK);
        expect_number("status", about, jsonptr_text_locate(&text, TEXT(text_places[i].pointer), &start, &end, &error), JSONPTR_OK);
        expect_number("start", about, start, text_places[i].start);
        expect_number("reopened", about, jsonptr_text_open(&text, JSON, TEXT(about), NULL), text_places[i].format == JSON ? JSONPTR_OK : JSONPTR_NOT_JSON);
        jsonptr_text_free(&text);
    }
    jsonptr_text text = opened(JSONC, BOM "[1, // one\n 2,]");
    expect_number("status", "remove", jsonptr_text_remove_comments(&text, NULL), JSONPTR_OK);
    expect_open_text("removed", &text, BOM "[1,       \n 2 ]");
    expect_number("status", "remove again", jsonptr_text_remove_comments(&text, NULL), JSONPTR_OK);
    expect_open_text("removed again", &text, BOM "[1,       \n 2 ]");
    expect_number("status", "json", jsonptr_text_assign(&text, "/0", 2, "3", 1, 0, NULL, NULL), JSONPTR_OK);
    expect_open_text("json", &text, BOM "[3,       \n 2 ]");
    jsonptr_text_free(&text);
    expect_number("status", "an empty handle", jsonptr_text_remove_comments(&text, NULL), JSONPTR_NO_DOCUMENT);
    expect_number("status", "an empty handle", jsonptr_text_locate(&text, "x", 1, NULL, NULL, NULL), JSONPTR_NO_DOCUMENT);
    expect_number("status", "an empty handle", jsonptr_text_pointer_at(&text, 0, NULL, 0, NULL, NULL), JSONPTR_NO_DOCUMENT);
}

/* Parts of a text, handles that hold none, messages, and a text that would nest too deep. */
static void check_text_handles(void) {
    jsonptr_text text = JSONPTR_TEXT_INIT;
    jsonptr_error error;
    char out[300];
    size_t length = 9;
    bool found = true;
    jsonptr_text_free(&text);
    jsonptr_text_free(NULL);
    expect_number("copy", "an empty handle", jsonptr_text_copy(&text, 0, 9, out, 9, &length, &error), JSONPTR_NO_DOCUMENT);
    expect_number("length", "an empty handle", length, 9);
    expect_number("assign", "an empty handle", jsonptr_text_assign(&text, "", 0, "1", 1, 0, NULL, NULL), JSONPTR_NO_DOCUMENT);
    expect_number("assign of no value", "an empty handle", jsonptr_text_assign(&text, "x", 1, "[", 1, 0, NULL, NULL), JSONPTR_NOT_JSON);
    expect_number("delete", "an empty handle", jsonptr_text_delete(&text, "x", 1, 0, &found, NULL, NULL), JSONPTR_NO_DOCUMENT);
    expect_number("found", "an empty handle", found, true);
    expect_number("rename", "an empty handle", jsonptr_text_rename(&text, "x", 1, "a", 1, 0, NULL, NULL), JSONPTR_NO_DOCUMENT);
    expect_number("patch", "an empty handle", jsonptr_text_patch(&text, "[]", 2, 0, NULL, NULL), JSONPTR_NO_DOCUMENT);
    expect_number("relayout", "an empty handle", jsonptr_text_relayout(&text, "[]", 2, 0, NULL, NULL), JSONPTR_NO_DOCUMENT);
    text = opened(JSON, "[1.0, 2]");
    expect_number("part", "[1.0, 2]", jsonptr_text_copy(&text, 1, 4, out, sizeof out, &length, NULL), JSONPTR_OK);
    expect_text("part", "[1.0, 2]", out, length, "1.0");
    expect_number("end", "[1.0, 2]", jsonptr_text_copy(&text, 6, 99, out, sizeof out, &length, NULL), JSONPTR_OK);
    expect_text("end", "[1.0, 2]", out, length, "2]");
    expect_number("past the end", "[1.0, 2]", jsonptr_text_copy(&text, 98, 99, NULL, 0, &length, NULL), JSONPTR_OK);
    expect_number("past the end", "[1.0, 2]", length, 0);
    expect_number("end before start", "[1.0, 2]", jsonptr_text_copy(&text, 4, 2, NULL, 0, &length, NULL), JSONPTR_OK);
    expect_number("end before start", "[1.0, 2]", length, 0);
    expect_number("short", "[1.0, 2]", jsonptr_text_copy(&text, 0, SIZE_MAX, out, 7, &length, &error), JSONPTR_NO_ROOM);
    expect_number("needed", "[1.0, 2]", length, 8);
    expect_number("needed", "the error", error.length, 8);
    char deep[256];
    memset(deep, '[', 127);
    memset(deep + 127, ']', 127);
    expect_number("127 arrays in an array", "[1.0, 2]", jsonptr_text_assign(&text, "/0", 2, deep, 254, 0, NULL, &error), JSONPTR_TOO_DEEP);
    expect_number("kind", "127 arrays in an array", error.kind, JSONPTR_KIND_TEXT_TOO_DEEP);
    expect_message("127 arrays in an array", &error, "the text would nest deeper than 127");
    expect_number("127 arrays", "[1.0, 2]", jsonptr_text_assign(&text, "", 0, deep, 254, 0, NULL, &error), JSONPTR_OK);
    expect_number("open again", "[1]", jsonptr_text_open(&text, JSONC, "[1] // a", 8, &error), JSONPTR_OK);
    expect_open_text("open again", &text, "[1] // a");
    expect_number("an open comment", "/*", jsonptr_text_open(&text, JSONC, "1/*", 3, &error), JSONPTR_NOT_JSON);
    expect_message("an open comment", &error, "comment is not closed");
    expect_number("rename", "[1]", jsonptr_text_rename(&text, "/0", 2, "a", 1, 0, NULL, &error), JSONPTR_NOT_RENAMED);
    expect_message("rename", &error, "rename failed: value is not a member of an object");
    error = (jsonptr_error){ .status = JSONPTR_NOT_IN_PLACE };
    expect_message("not in place", &error, "the edit is possible, but not in place");
    jsonptr_text_free(&text);
}

/* Strings, and their JSON texts. */
static const struct {
    const char *string, *text;
} quoted[] = {
    { "", "\"\"" }, { "a", "\"a\"" }, { "a\"b\\c/d", "\"a\\\"b\\\\c/d\"" }, { "\n\t\x01\x7f", "\"\\n\\t\\u0001\x7f\"" }, { "\xC3\xA9", "\"\xC3\xA9\"" },
};

static void check_quoting(void) {
    char out[40];
    size_t length = 9;
    jsonptr_error error;
    for (size_t i = 0; i < COUNT(quoted); i++) {
        const char *string = quoted[i].string, *text = quoted[i].text;
        expect_number("status", string, jsonptr_quote(TEXT(string), out, sizeof out, &length, &error), JSONPTR_OK);
        expect_text("text", string, out, length, text);
        expect_number("status", string, jsonptr_quote(TEXT(string), out, strlen(text) - 1, &length, &error), JSONPTR_NO_ROOM);
        expect_number("needed", string, length, strlen(text));
    }
    expect_number("status", "\xff", jsonptr_quote(TEXT("a\xff"), out, sizeof out, &length, &error), JSONPTR_NOT_UTF8);
    expect_number("offset", "\xff", error.offset, 1);
    expect_number("member", "\xff", error.member, JSONPTR_ARGUMENT_TEXT);
}

/* What has no JSON text of a TOML text, and the messages of its errors. */
static void check_toml(void) {
    jsonptr_text text = opened(TOML, "a = 1 # one\n");
    jsonptr_error error;
    char out[100], deep[512];
    size_t start = 9, end = 9, length = 9;
    expect_number("locate", "TOML", jsonptr_text_locate(&text, TEXT("/a"), &start, &end, &error), JSONPTR_OTHER_FORMAT);
    expect_number("start and end", "TOML", start + end, 18);
    expect_message("TOML", &error, "the call does not work on texts of this format");
    expect_number("pointer", "TOML", jsonptr_text_pointer_at(&text, 0, out, sizeof out, &length, &error), JSONPTR_OTHER_FORMAT);
    expect_number("comments", "TOML", jsonptr_text_remove_comments(&text, &error), JSONPTR_OTHER_FORMAT);
    expect_open_text("TOML", &text, "a = 1 # one\n");
    expect_number("null", "TOML", jsonptr_text_assign(&text, TEXT("/a"), TEXT("null"), 0, NULL, &error), JSONPTR_NOT_TOML_VALUE);
    expect_message("null", &error, "the value is null or an integer that TOML has not, or contains one");
    expect_number("no table", "TOML", jsonptr_text_assign(&text, "", 0, TEXT("[]"), JSONPTR_REFORMAT, NULL, &error), JSONPTR_NOT_TOML_VALUE);
    expect_message("no table", &error, "the document would have no TOML text");
    expect_number("not TOML", "TOML", jsonptr_text_open(&text, TOML, TEXT("a"), &error), JSONPTR_NOT_TOML);
    expect_message("not TOML", &error, "text is not TOML");
    memset(deep, '[', 80);
    memset(deep + 80, ']', 80);
    expect_number("80 arrays", "TOML", jsonptr_text_assign(&text, TEXT("/a"), deep, 160, 0, NULL, &error), JSONPTR_OK);
    expect_number("81 arrays", "TOML", jsonptr_text_assign(&text, TEXT("/b/c"), deep, 160, 0, NULL, &error), JSONPTR_TOO_DEEP);
    expect_number("kind", "81 arrays", error.kind, JSONPTR_KIND_TOML_TOO_DEEP);
    expect_message("81 arrays", &error, "values of the TOML document nest, or would nest, deeper than 80");
    /* A header of 50 keys and a pair of 50. */
    for (size_t i = 0; i < 100; i++) {
        memcpy(deep + 2 * i + (i >= 50 ? 2 : 1), "a.", 2);
    }
    deep[0] = '[';
    memcpy(deep + 100, "]\n", 2);
    memcpy(deep + 201, "=1", 2);
    expect_number("100 tables", "TOML", jsonptr_text_open(&text, TOML, deep, 203, &error), JSONPTR_TOO_DEEP);
    expect_number("kind", "100 tables", error.kind, JSONPTR_KIND_TOML_TOO_DEEP);
    jsonptr_text_free(&text);
}

/* The version of the library is that of the header. */
static void check_version(void) {
    expect_text("version", "the library", jsonptr_version(), strlen(jsonptr_version()), JSONPTR_VERSION);
}

int main(void) {
    check_version();
    check_rfc_pointers();
    check_pointers();
    check_tokens();
    check_fragments();
    check_unresolved();
    check_unread();
    check_numbers();
    check_exact();
    check_locations();
    check_two_texts();
    check_nodes();
    check_assignments();
    check_setters();
    check_keys();
    check_deletions();
    check_patches();
    check_faulty();
    check_longest_message();
    check_inverses();
    check_failing_inverses();
    check_differences();
    check_handles();
    check_text_edits();
    check_opening();
    check_text_places();
    check_text_handles();
    check_toml();
    check_quoting();
    return report("tables");
}
