/* What the tests share: texts with their lengths, and checks that count what fails. */
#ifndef TESTS_H
#define TESTS_H

#include "jsonptr.h"

#include <stdio.h>
#include <stdlib.h>
#include <string.h>

/* A text and its length. */
#define TEXT(s) (s), strlen(s)

static int failures;

/* Reports a value that is not the expected one. */
static inline void expect_number(const char *what, const char *about, unsigned long long got, unsigned long long wanted) {
    if (got != wanted) {
        printf("%s of '%s': %llu instead of %llu\n", what, about, got, wanted);
        failures++;
    }
}

/* Reports a text that is not the expected one. */
static inline void expect_text(const char *what, const char *about, const char *got, size_t length, const char *wanted) {
    if (length != strlen(wanted) || memcmp(got, wanted, length) != 0) {
        printf("%s of '%s': '%.*s' instead of '%s'\n", what, about, (int)length, got, wanted);
        failures++;
    }
}

/* Checks the message of an error. */
static inline void expect_message(const char *about, const jsonptr_error *error, const char *wanted) {
    char out[256];
    size_t length = 0;
    expect_number("status of the message", about, jsonptr_error_message(error, out, sizeof out, &length), JSONPTR_OK);
    expect_text("message", about, out, length, wanted);
}

/* Checks what a document prints. */
static inline void expect_document(const char *about, jsonptr_document *document, const char *wanted) {
    char out[1024];
    size_t length = 0;
    expect_number("status of the text", about,
                  jsonptr_document_print(document, JSONPTR_COMPACT, out, sizeof out, &length, NULL), JSONPTR_OK);
    expect_text("text", about, out, length, wanted);
}

/* Reads a document that is JSON. */
static inline jsonptr_document parsed(const char *text) {
    jsonptr_document document = JSONPTR_DOCUMENT_INIT;
    expect_number("status of reading", text, jsonptr_document_parse(&document, TEXT(text), NULL), JSONPTR_OK);
    return document;
}

/* Opens a text. */
static inline jsonptr_text opened(uint32_t format, const char *bytes) {
    jsonptr_text text = JSONPTR_TEXT_INIT;
    expect_number("status of opening", bytes, jsonptr_text_open(&text, format, TEXT(bytes), NULL), JSONPTR_OK);
    return text;
}

/* Checks what a text is. */
static inline void expect_open_text(const char *about, const jsonptr_text *text, const char *wanted) {
    char out[1024];
    size_t length = 0;
    expect_number("status of the copy", about, jsonptr_text_copy(text, 0, SIZE_MAX, out, sizeof out, &length, NULL),
                  JSONPTR_OK);
    expect_text("copy", about, out, length, wanted);
}

/* Reports the number of failures, and returns the status of the program. */
static inline int report(const char *name) {
    if (failures == 0) {
        printf("%s: passed\n", name);
    }
    return failures == 0 ? 0 : 1;
}

#endif
