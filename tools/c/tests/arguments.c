/* Arguments that no call accepts: NULL with a length, NULL handles, lengths that no object has, one document twice, a key in
 * the buffer of the next one. Each is reported, and nothing crashes. NULL with length 0 is the empty text, and NULL for what is
 * not wanted is accepted. */
#include "tests.h"

#include <math.h>

#define BAD JSONPTR_BAD_ARGUMENT

/* Checks that a call returns a status. */
#define EXPECT(call, wanted) expect_number("status", #call, (call), (wanted))

static void check_bad(void) {
    jsonptr_document document = parsed("[7]"), other = parsed("[8]");
    jsonptr_text text = opened(JSONPTR_FORMAT_JSON, "[9]");
    jsonptr_change change;
    jsonptr_error error;
    jsonptr_node node;
    char out[8];
    size_t length = 1, huge = SIZE_MAX;
    EXPECT(jsonptr_pointer_count(NULL, 1, &length, &error), BAD);
    expect_number("status of the error", "NULL", error.status, BAD);
    expect_number("kind of the error", "NULL", error.kind, 0);
    expect_message("NULL", &error, "an argument is NULL, too long, not finite or passed twice, or a flag is unknown");
    EXPECT(jsonptr_pointer_count("", huge, &length, NULL), BAD);
    EXPECT(jsonptr_pointer_token(NULL, 1, 0, out, 8, &length, NULL), BAD);
    EXPECT(jsonptr_pointer_token("/a", 2, 0, NULL, 8, &length, NULL), BAD);
    EXPECT(jsonptr_pointer_token("/a", 2, 0, out, huge, &length, NULL), BAD);
    EXPECT(jsonptr_pointer_escape(NULL, 1, out, 8, &length, NULL), BAD);
    EXPECT(jsonptr_pointer_escape("a", 1, NULL, 8, &length, NULL), BAD);
    EXPECT(jsonptr_pointer_push(NULL, 8, &length, "a", 1, NULL), BAD);
    EXPECT(jsonptr_pointer_push(out, 8, NULL, "a", 1, NULL), BAD);
    EXPECT(jsonptr_pointer_push(out, 8, &length, NULL, 1, NULL), BAD);
    length = 9;
    EXPECT(jsonptr_pointer_push(out, 8, &length, "a", 1, NULL), BAD);
    expect_number("length", "9 of 8 bytes", length, 9);
    length = 1;
    EXPECT(jsonptr_pointer_pop(NULL, &length, NULL), BAD);
    EXPECT(jsonptr_pointer_pop("", NULL, NULL), BAD);
    EXPECT(jsonptr_pointer_from_fragment(NULL, 1, out, 8, &length, NULL), BAD);
    EXPECT(jsonptr_pointer_from_fragment("#", huge, out, 8, &length, NULL), BAD);
    EXPECT(jsonptr_pointer_from_fragment("#", 1, NULL, 8, &length, NULL), BAD);
    EXPECT(jsonptr_pointer_from_fragment("#", 1, out, huge, &length, NULL), BAD);
    EXPECT(jsonptr_pointer_to_fragment(NULL, 1, out, 8, &length, NULL), BAD);
    EXPECT(jsonptr_pointer_to_fragment("", huge, out, 8, &length, NULL), BAD);
    EXPECT(jsonptr_pointer_to_fragment("", 0, NULL, 8, &length, NULL), BAD);
    EXPECT(jsonptr_pointer_to_fragment("", 0, out, huge, &length, NULL), BAD);
    EXPECT(jsonptr_document_parse(NULL, "1", 1, NULL), BAD);
    EXPECT(jsonptr_document_parse(&document, NULL, 1, NULL), BAD);
    EXPECT(jsonptr_document_parse(&document, "1", huge, NULL), BAD);
    EXPECT(jsonptr_document_parse_with(NULL, "1", 1, 0, NULL), BAD);
    EXPECT(jsonptr_document_parse_with(&document, NULL, 1, JSONPTR_EXACT_NUMBERS, NULL), BAD);
    EXPECT(jsonptr_document_parse_with(&document, "1", huge, 0, NULL), BAD);
    EXPECT(jsonptr_document_parse_with(&document, "1", 1, JSONPTR_PRETTY, NULL), BAD);
    EXPECT(jsonptr_document_parse_with(&document, "1", 1, JSONPTR_EXACT_NUMBERS | 4u, NULL), BAD);
    EXPECT(jsonptr_document_print(NULL, 0, out, 8, &length, NULL), BAD);
    EXPECT(jsonptr_document_print(&document, 0, NULL, 8, &length, NULL), BAD);
    EXPECT(jsonptr_document_get(NULL, "", 0, 0, out, 8, &length, NULL), BAD);
    EXPECT(jsonptr_document_get(&document, NULL, 1, 0, out, 8, &length, NULL), BAD);
    EXPECT(jsonptr_document_string(NULL, "", 0, out, 8, &length, NULL), BAD);
    EXPECT(jsonptr_document_string(&document, NULL, 1, out, 8, &length, NULL), BAD);
    EXPECT(jsonptr_document_string(&document, "", 0, NULL, 8, &length, NULL), BAD);
    EXPECT(jsonptr_document_node(NULL, "", 0, &node, NULL), BAD);
    EXPECT(jsonptr_document_node(&document, "", 0, NULL, NULL), BAD);
    EXPECT(jsonptr_document_node(&document, NULL, 1, &node, NULL), BAD);
    EXPECT(jsonptr_document_assign(NULL, "", 0, "1", 1, NULL), BAD);
    EXPECT(jsonptr_document_assign(&document, NULL, 1, "1", 1, NULL), BAD);
    EXPECT(jsonptr_document_assign(&document, "", 0, NULL, 1, NULL), BAD);
    EXPECT(jsonptr_document_assign_string(NULL, "", 0, "a", 1, NULL), BAD);
    EXPECT(jsonptr_document_assign_string(&document, NULL, 1, "a", 1, NULL), BAD);
    EXPECT(jsonptr_document_assign_string(&document, "", huge, "a", 1, NULL), BAD);
    EXPECT(jsonptr_document_assign_string(&document, "", 0, NULL, 1, NULL), BAD);
    EXPECT(jsonptr_document_assign_string(&document, "", 0, "a", huge, NULL), BAD);
    EXPECT(jsonptr_document_assign_integer(NULL, "", 0, 1, NULL), BAD);
    EXPECT(jsonptr_document_assign_integer(&document, NULL, 1, 1, NULL), BAD);
    EXPECT(jsonptr_document_assign_integer(&document, "", huge, 1, NULL), BAD);
    EXPECT(jsonptr_document_assign_natural(NULL, "", 0, 1, NULL), BAD);
    EXPECT(jsonptr_document_assign_natural(&document, NULL, 1, 1, NULL), BAD);
    EXPECT(jsonptr_document_assign_natural(&document, "", huge, 1, NULL), BAD);
    EXPECT(jsonptr_document_assign_number(NULL, "", 0, 1, NULL), BAD);
    EXPECT(jsonptr_document_assign_number(&document, NULL, 1, 1, NULL), BAD);
    EXPECT(jsonptr_document_assign_number(&document, "", huge, 1, NULL), BAD);
    EXPECT(jsonptr_document_assign_number(&document, "", 0, NAN, NULL), BAD);
    EXPECT(jsonptr_document_assign_number(&document, "", 0, INFINITY, NULL), BAD);
    EXPECT(jsonptr_document_assign_number(&document, "", 0, -INFINITY, NULL), BAD);
    EXPECT(jsonptr_document_assign_boolean(NULL, "", 0, true, NULL), BAD);
    EXPECT(jsonptr_document_assign_boolean(&document, NULL, 1, true, NULL), BAD);
    EXPECT(jsonptr_document_assign_boolean(&document, "", huge, true, NULL), BAD);
    EXPECT(jsonptr_document_assign_null(NULL, "", 0, NULL), BAD);
    EXPECT(jsonptr_document_assign_null(&document, NULL, 1, NULL), BAD);
    EXPECT(jsonptr_document_assign_null(&document, "", huge, NULL), BAD);
    EXPECT(jsonptr_document_first_key(NULL, "", 0, NULL, out, 8, &length, NULL), BAD);
    EXPECT(jsonptr_document_first_key(&document, NULL, 1, NULL, out, 8, &length, NULL), BAD);
    EXPECT(jsonptr_document_first_key(&document, "", huge, NULL, out, 8, &length, NULL), BAD);
    EXPECT(jsonptr_document_first_key(&document, "", 0, NULL, NULL, 8, &length, NULL), BAD);
    EXPECT(jsonptr_document_first_key(&document, "", 0, NULL, out, huge, &length, NULL), BAD);
    EXPECT(jsonptr_document_next_key(NULL, "", 0, "a", 1, NULL, out, 8, &length, NULL), BAD);
    EXPECT(jsonptr_document_next_key(&document, NULL, 1, "a", 1, NULL, out, 8, &length, NULL), BAD);
    EXPECT(jsonptr_document_next_key(&document, "", huge, "a", 1, NULL, out, 8, &length, NULL), BAD);
    EXPECT(jsonptr_document_next_key(&document, "", 0, NULL, 1, NULL, out, 8, &length, NULL), BAD);
    EXPECT(jsonptr_document_next_key(&document, "", 0, "a", huge, NULL, out, 8, &length, NULL), BAD);
    EXPECT(jsonptr_document_next_key(&document, "", 0, "a", 1, NULL, NULL, 8, &length, NULL), BAD);
    EXPECT(jsonptr_document_next_key(&document, "", 0, "a", 1, NULL, out, huge, &length, NULL), BAD);
    EXPECT(jsonptr_document_delete(NULL, "", 0, NULL, NULL), BAD);
    EXPECT(jsonptr_document_delete(&document, NULL, 1, NULL, NULL), BAD);
    EXPECT(jsonptr_document_patch(NULL, "[]", 2, NULL), BAD);
    EXPECT(jsonptr_document_patch(&document, NULL, 2, NULL), BAD);
    EXPECT(jsonptr_document_patch_with_inverse(NULL, "[]", 2, 0, out, 8, &length, NULL), BAD);
    EXPECT(jsonptr_document_patch_with_inverse(&document, NULL, 2, 0, out, 8, &length, NULL), BAD);
    EXPECT(jsonptr_document_patch_with_inverse(&document, "[]", huge, 0, out, 8, &length, NULL), BAD);
    EXPECT(jsonptr_document_patch_with_inverse(&document, "[]", 2, 0, NULL, 8, &length, NULL), BAD);
    EXPECT(jsonptr_document_patch_with_inverse(&document, "[]", 2, 2, out, 8, &length, NULL), BAD);
    EXPECT(jsonptr_document_diff(&document, &document, 0, out, 8, &length, NULL), BAD);
    EXPECT(jsonptr_document_diff(&document, NULL, 0, out, 8, &length, NULL), BAD);
    EXPECT(jsonptr_document_diff(NULL, &document, 0, out, 8, &length, NULL), BAD);
    EXPECT(jsonptr_document_diff(&document, &other, 0, NULL, 8, &length, NULL), BAD);
    EXPECT(jsonptr_text_open(NULL, 0, "1", 1, NULL), BAD);
    EXPECT(jsonptr_text_open(&text, 0, NULL, 1, NULL), BAD);
    EXPECT(jsonptr_text_open(&text, 0, "1", huge, NULL), BAD);
    EXPECT(jsonptr_text_open(&text, 3, "1", 1, &error), BAD);
    expect_number("status of the error", "a format", error.status, BAD);
    EXPECT(jsonptr_text_assign(NULL, "", 0, "1", 1, 0, &change, NULL), BAD);
    EXPECT(jsonptr_text_assign(&text, NULL, 1, "1", 1, 0, &change, NULL), BAD);
    EXPECT(jsonptr_text_assign(&text, "", 0, NULL, 1, 0, &change, NULL), BAD);
    EXPECT(jsonptr_text_assign(&text, "", huge, "1", 1, 0, &change, NULL), BAD);
    EXPECT(jsonptr_text_assign(&text, "", 0, "1", huge, 0, &change, NULL), BAD);
    EXPECT(jsonptr_text_assign(&text, "", 0, "1", 1, 1, &change, NULL), BAD);
    EXPECT(jsonptr_text_assign(&text, "", 0, "1", 1, JSONPTR_REFORMAT | 16u, &change, NULL), BAD);
    EXPECT(jsonptr_text_delete(NULL, "", 0, 0, NULL, NULL, NULL), BAD);
    EXPECT(jsonptr_text_delete(&text, NULL, 1, 0, NULL, NULL, NULL), BAD);
    EXPECT(jsonptr_text_delete(&text, "", 0, 4, NULL, NULL, NULL), BAD);
    EXPECT(jsonptr_text_rename(NULL, "", 0, "a", 1, 0, NULL, NULL), BAD);
    EXPECT(jsonptr_text_rename(&text, NULL, 1, "a", 1, 0, NULL, NULL), BAD);
    EXPECT(jsonptr_text_rename(&text, "", 0, NULL, 1, 0, NULL, NULL), BAD);
    EXPECT(jsonptr_text_rename(&text, "", 0, "a", 1, 2, NULL, NULL), BAD);
    EXPECT(jsonptr_text_patch(NULL, "[]", 2, 0, NULL, NULL), BAD);
    EXPECT(jsonptr_text_patch(&text, NULL, 2, 0, NULL, NULL), BAD);
    EXPECT(jsonptr_text_patch(&text, "[]", 2, 1, NULL, NULL), BAD);
    EXPECT(jsonptr_quote(NULL, 1, out, 8, &length, NULL), BAD);
    EXPECT(jsonptr_quote("a", huge, out, 8, &length, NULL), BAD);
    EXPECT(jsonptr_quote("a", 1, NULL, 8, &length, NULL), BAD);
    EXPECT(jsonptr_text_relayout(NULL, "[]", 2, 0, NULL, NULL), BAD);
    EXPECT(jsonptr_text_relayout(&text, NULL, 2, 0, NULL, NULL), BAD);
    EXPECT(jsonptr_text_relayout(&text, "[]", 2, 1, NULL, NULL), BAD);
    EXPECT(jsonptr_text_remove_comments(NULL, &error), BAD);
    EXPECT(jsonptr_text_locate(NULL, "", 0, NULL, NULL, NULL), BAD);
    EXPECT(jsonptr_text_locate(&text, NULL, 1, NULL, NULL, NULL), BAD);
    EXPECT(jsonptr_text_pointer_at(NULL, 0, out, 8, &length, NULL), BAD);
    EXPECT(jsonptr_text_pointer_at(&text, 0, NULL, 8, &length, NULL), BAD);
    EXPECT(jsonptr_text_copy(NULL, 0, 1, out, 8, &length, NULL), BAD);
    EXPECT(jsonptr_text_copy(&text, 0, 1, NULL, 8, &length, NULL), BAD);
    EXPECT(jsonptr_text_copy(&text, 0, 1, out, huge, &length, NULL), BAD);
    expect_open_text("bad arguments", &text, "[9]");
    EXPECT(jsonptr_resolve_in_text(NULL, 1, "", 0, 0, out, 8, &length, NULL), BAD);
    EXPECT(jsonptr_resolve_in_text("1", 1, NULL, 1, 0, out, 8, &length, NULL), BAD);
    EXPECT(jsonptr_resolve_in_text("1", 1, "", 0, 0, NULL, 8, &length, NULL), BAD);
    EXPECT(jsonptr_lost_number_in_text(NULL, 1, NULL, out, 8, &length, NULL), BAD);
    EXPECT(jsonptr_lost_number_in_text("1", huge, NULL, out, 8, &length, NULL), BAD);
    EXPECT(jsonptr_lost_number_in_text("1", 1, NULL, NULL, 8, &length, NULL), BAD);
    EXPECT(jsonptr_locate_in_text(NULL, 1, "", 0, &length, &length, NULL), BAD);
    EXPECT(jsonptr_locate_in_text("1", huge, "", 0, NULL, NULL, NULL), BAD);
    EXPECT(jsonptr_locate_in_text("1", 1, NULL, 1, NULL, NULL, NULL), BAD);
    EXPECT(jsonptr_locate_in_text("1", 1, "", huge, NULL, NULL, NULL), BAD);
    EXPECT(jsonptr_pointer_at_in_text(NULL, 1, 0, out, 8, &length, NULL), BAD);
    EXPECT(jsonptr_pointer_at_in_text("1", huge, 0, out, 8, &length, NULL), BAD);
    EXPECT(jsonptr_pointer_at_in_text("1", 1, 0, NULL, 8, &length, NULL), BAD);
    EXPECT(jsonptr_pointer_at_in_text("1", 1, 0, out, huge, &length, NULL), BAD);
    EXPECT(jsonptr_document_print(&document, 2, out, 8, &length, NULL), BAD);
    EXPECT(jsonptr_document_get(&document, "", 0, JSONPTR_PRETTY | 4u, out, 8, &length, NULL), BAD);
    EXPECT(jsonptr_document_diff(&document, &other, 0x80000000u, out, 8, &length, NULL), BAD);
    EXPECT(jsonptr_resolve_in_text("1", 1, "", 0, UINT32_MAX, out, 8, &length, NULL), BAD);
    EXPECT(jsonptr_error_message(NULL, out, 8, &length), BAD);
    EXPECT(jsonptr_error_message(&error, NULL, 8, &length), BAD);
    jsonptr_document_free(NULL);
    expect_document("after bad arguments", &document, "[7]");
    jsonptr_document_free(&document);
    jsonptr_document_free(&other);
    jsonptr_text_free(&text);
}

/* A key in the buffer of the next one: each byte in common is too much. */
static void check_overlaps(void) {
    jsonptr_document document = parsed("{\"a\": 1, \"b\": 2}");
    char bytes[12] = "aaaaaaaaaaaa";
    jsonptr_error error;
    for (size_t key = 0; key < 10; key++) {
        for (size_t key_length = 0; key_length <= 2; key_length++) {
            for (size_t capacity = 0; capacity <= 3; capacity++) {
                size_t length = 99;
                bool found = false, is_shared = key + key_length > 4 && key < 4 + capacity && key_length > 0 && capacity > 0;
                memset(bytes, 'a', sizeof bytes);
                jsonptr_status status = jsonptr_document_next_key(&document, "", 0, bytes + key, key_length, &found, bytes + 4, capacity,
                                                                  &length, &error);
                expect_number("status", "a key in the buffer", status, is_shared ? BAD : capacity == 0 ? JSONPTR_NO_ROOM : JSONPTR_OK);
                expect_number("status of the error", "a key in the buffer", error.status, status);
                expect_number("found", "a key in the buffer", found, status == JSONPTR_OK);
                expect_number("length", "a key in the buffer", length, status == BAD ? 99 : 1);
                expect_number("byte", "a key in the buffer", (unsigned char)bytes[4], status != JSONPTR_OK || key_length == 0 ? 'a' : 'b');
            }
        }
    }
    jsonptr_document_free(&document);
}

static void check_empty(void) {
    jsonptr_document document = parsed("[7]");
    jsonptr_text text = JSONPTR_TEXT_INIT;
    char out[2];
    size_t length = 9, huge = SIZE_MAX;
    EXPECT(jsonptr_pointer_count(NULL, 0, &length, NULL), JSONPTR_OK);
    expect_number("tokens", "NULL", length, 0);
    EXPECT(jsonptr_pointer_count("/a", 2, NULL, NULL), JSONPTR_OK);
    EXPECT(jsonptr_document_parse(&document, NULL, 0, NULL), JSONPTR_NOT_JSON);
    EXPECT(jsonptr_document_parse_with(&document, NULL, 0, JSONPTR_EXACT_NUMBERS, NULL), JSONPTR_NOT_JSON);
    EXPECT(jsonptr_lost_number_in_text("1", 1, NULL, NULL, 0, NULL, NULL), JSONPTR_OK);
    EXPECT(jsonptr_lost_number_in_text("1e-400", 6, NULL, NULL, 0, NULL, NULL), JSONPTR_OK);
    EXPECT(jsonptr_locate_in_text("[1]", 3, NULL, 0, NULL, NULL, NULL), JSONPTR_OK);
    EXPECT(jsonptr_locate_in_text(" [1]", 4, "/0", 2, &length, NULL, NULL), JSONPTR_OK);
    expect_number("start", "/0", length, 2);
    EXPECT(jsonptr_locate_in_text(" [1]", 4, "", 0, NULL, &length, NULL), JSONPTR_OK);
    expect_number("end", "the root", length, 4);
    EXPECT(jsonptr_locate_in_text(NULL, 0, NULL, 0, NULL, NULL, NULL), JSONPTR_NOT_JSON);
    EXPECT(jsonptr_pointer_at_in_text("[1]", 3, 0, NULL, 0, NULL, NULL), JSONPTR_OK);
    EXPECT(jsonptr_pointer_at_in_text("[1]", 3, 1, NULL, 0, &length, NULL), JSONPTR_NO_ROOM);
    expect_number("length", "/0", length, 2);
    EXPECT(jsonptr_pointer_at_in_text("[1]", 3, huge, NULL, 0, NULL, NULL), JSONPTR_NO_VALUE);
    EXPECT(jsonptr_pointer_at_in_text(NULL, 0, 0, NULL, 0, NULL, NULL), JSONPTR_NOT_JSON);
    EXPECT(jsonptr_document_get(&document, NULL, 0, 0, NULL, 0, &length, NULL), JSONPTR_NO_ROOM);
    expect_number("length", "the root", length, 3);
    EXPECT(jsonptr_document_get(&document, "/0", 2, 0, NULL, 0, NULL, NULL), JSONPTR_NO_ROOM);
    EXPECT(jsonptr_document_delete(&document, "/0", 2, NULL, NULL), JSONPTR_OK);
    EXPECT(jsonptr_document_patch_with_inverse(&document, "[]", 2, 0, NULL, 0, NULL, NULL), JSONPTR_NO_ROOM);
    EXPECT(jsonptr_document_patch_with_inverse(&document, "[]", 2, 0, out, 2, NULL, NULL), JSONPTR_OK);
    EXPECT(jsonptr_document_assign(&document, NULL, 0, "{}", 2, NULL), JSONPTR_OK);
    expect_document("NULL as the root", &document, "{}");
    EXPECT(jsonptr_pointer_from_fragment(NULL, 0, NULL, 0, NULL, NULL), JSONPTR_NOT_FRAGMENT);
    EXPECT(jsonptr_pointer_from_fragment("#", 1, NULL, 0, NULL, NULL), JSONPTR_OK);
    EXPECT(jsonptr_pointer_to_fragment(NULL, 0, NULL, 0, &length, NULL), JSONPTR_NO_ROOM);
    expect_number("length", "#", length, 1);
    EXPECT(jsonptr_pointer_to_fragment(NULL, 0, out, 1, NULL, NULL), JSONPTR_OK);
    EXPECT(jsonptr_document_first_key(&document, NULL, 0, NULL, NULL, 0, &length, NULL), JSONPTR_OK);
    expect_number("length", "no key", length, 0);
    EXPECT(jsonptr_document_assign_string(&document, "/", 1, NULL, 0, NULL), JSONPTR_OK);
    EXPECT(jsonptr_document_first_key(&document, NULL, 0, NULL, NULL, 0, NULL, NULL), JSONPTR_OK);
    EXPECT(jsonptr_document_next_key(&document, NULL, 0, NULL, 0, NULL, NULL, 0, NULL, NULL), JSONPTR_OK);
    EXPECT(jsonptr_document_assign_null(&document, "/a", 2, NULL), JSONPTR_OK);
    EXPECT(jsonptr_document_next_key(&document, NULL, 0, NULL, 0, NULL, NULL, 0, &length, NULL), JSONPTR_NO_ROOM);
    expect_number("length", "a", length, 1);
    expect_document("NULL as a string", &document, "{\"\":\"\",\"a\":null}");
    EXPECT(jsonptr_document_assign_string(&document, NULL, 0, NULL, 0, NULL), JSONPTR_OK);
    EXPECT(jsonptr_document_assign_integer(&document, NULL, 0, 7, NULL), JSONPTR_OK);
    EXPECT(jsonptr_document_assign_natural(&document, NULL, 0, 7, NULL), JSONPTR_OK);
    EXPECT(jsonptr_document_assign_number(&document, NULL, 0, 7, NULL), JSONPTR_OK);
    EXPECT(jsonptr_document_assign_boolean(&document, NULL, 0, true, NULL), JSONPTR_OK);
    EXPECT(jsonptr_document_assign_null(&document, NULL, 0, NULL), JSONPTR_OK);
    expect_document("NULL as the root", &document, "null");
    EXPECT(jsonptr_resolve_in_text(NULL, 0, NULL, 0, 0, NULL, 0, NULL, NULL), JSONPTR_NOT_JSON);
    EXPECT(jsonptr_text_open(&text, JSONPTR_FORMAT_JSON, NULL, 0, NULL), JSONPTR_NOT_JSON);
    EXPECT(jsonptr_text_open(&text, JSONPTR_FORMAT_JSONC, "{}", 2, NULL), JSONPTR_OK);
    EXPECT(jsonptr_text_assign(&text, NULL, 0, NULL, 0, 0, NULL, NULL), JSONPTR_NOT_JSON);
    EXPECT(jsonptr_text_assign(&text, "/a", 2, "1", 1, 0, NULL, NULL), JSONPTR_OK);
    EXPECT(jsonptr_text_rename(&text, "/a", 2, NULL, 0, 0, NULL, NULL), JSONPTR_OK);
    EXPECT(jsonptr_text_delete(&text, "/a", 2, 0, NULL, NULL, NULL), JSONPTR_OK);
    EXPECT(jsonptr_text_patch(&text, NULL, 0, 0, NULL, NULL), JSONPTR_NOT_JSON);
    EXPECT(jsonptr_text_patch(&text, "[]", 2, 0, NULL, NULL), JSONPTR_OK);
    EXPECT(jsonptr_text_relayout(&text, NULL, 0, 0, NULL, NULL), JSONPTR_OTHER_FORMAT);
    EXPECT(jsonptr_text_locate(&text, NULL, 0, NULL, NULL, NULL), JSONPTR_OK);
    EXPECT(jsonptr_text_pointer_at(&text, 0, NULL, 0, NULL, NULL), JSONPTR_OK);
    EXPECT(jsonptr_text_remove_comments(&text, NULL), JSONPTR_OK);
    EXPECT(jsonptr_text_copy(&text, 0, SIZE_MAX, NULL, 0, NULL, NULL), JSONPTR_NO_ROOM);
    EXPECT(jsonptr_text_copy(&text, 0, 0, NULL, 0, NULL, NULL), JSONPTR_OK);
    expect_open_text("NULL as the key", &text, "{\"\":1}");
    jsonptr_text_free(&text);
    length = 0;
    EXPECT(jsonptr_pointer_push(NULL, 0, &length, NULL, 0, NULL), JSONPTR_NO_ROOM);
    EXPECT(jsonptr_pointer_pop(NULL, &length, NULL), JSONPTR_NO_TOKEN);
    jsonptr_document_free(&document);
}

/* Checks that a result of a call that has room is followed by a zero, and that one that just fits is not. */
#define ENDS(result, call, length)                                                   \
    do {                                                                             \
        size_t capacity = strlen(result) + 1;                                        \
        memset(out, '#', sizeof out);                                                \
        EXPECT(call, JSONPTR_OK);                                                    \
        expect_text("result", #call, out, strlen(out), result);                      \
        expect_number("byte after the zero", #call, (unsigned char)out[capacity], '#'); \
        capacity--;                                                                  \
        memset(out, '#', sizeof out);                                                \
        length;                                                                      \
        EXPECT(call, JSONPTR_OK);                                                    \
        expect_number("byte after the result", #call, (unsigned char)out[capacity], '#'); \
    } while (0)

static void check_zero(void) {
    jsonptr_document document = parsed("[\"abc\"]"), other = parsed("[]"), object = parsed("{\"next\": 1, \"key\": 2}");
    jsonptr_text text = opened(JSONPTR_FORMAT_JSON, "[1.0]");
    jsonptr_error error = { .status = JSONPTR_NOT_JSON };
    char out[64];
    size_t n = 0;
    bool found;
    ENDS("text is not JSON", jsonptr_error_message(&error, out, capacity, &n), (void)0);
    ENDS("~b", jsonptr_pointer_token("/~0b", 4, 0, out, capacity, &n, NULL), (void)0);
    ENDS("~1", jsonptr_pointer_escape("/", 1, out, capacity, NULL, NULL), (void)0);
    ENDS("/a b", jsonptr_pointer_from_fragment("#/a%20b", 7, out, capacity, NULL, NULL), (void)0);
    ENDS("#/a%20b", jsonptr_pointer_to_fragment("/a b", 4, out, capacity, &n, NULL), (void)0);
    ENDS("key", jsonptr_document_first_key(&object, "", 0, NULL, out, capacity, &n, NULL), (void)0);
    ENDS("next", jsonptr_document_next_key(&object, "", 0, "key", 3, &found, out, capacity, NULL, NULL), (void)0);
    ENDS("", jsonptr_document_next_key(&object, "", 0, "next", 4, &found, out, capacity, &n, NULL), (void)0);
    ENDS("\"a\"", jsonptr_quote("a", 1, out, capacity, NULL, NULL), (void)0);
    ENDS("/a", (n = 0, jsonptr_pointer_push(out, capacity, &n, "a", 1, NULL)), n = 0);
    ENDS("[\"abc\"]", jsonptr_document_print(&document, 0, out, capacity, NULL, NULL), (void)0);
    ENDS("\"abc\"", jsonptr_document_get(&document, "/0", 2, 0, out, capacity, &n, NULL), (void)0);
    ENDS("abc", jsonptr_document_string(&document, "/0", 2, out, capacity, &n, NULL), (void)0);
    ENDS("[]", jsonptr_document_patch_with_inverse(&document, "[]", 2, 0, out, capacity, &n, NULL), (void)0);
    ENDS("[{\"op\":\"remove\",\"path\":\"/0\"}]", jsonptr_document_diff(&document, &other, 0, out, capacity, &n, NULL), (void)0);
    ENDS("7", jsonptr_resolve_in_text("[7]", 3, "/0", 2, 0, out, capacity, &n, NULL), (void)0);
    ENDS("/0", jsonptr_lost_number_in_text("[1e-400]", 8, &found, out, capacity, &n, NULL), (void)0);
    ENDS("/0", jsonptr_text_pointer_at(&text, 1, out, capacity, &n, NULL), (void)0);
    ENDS("1.0", jsonptr_text_copy(&text, 1, 4, out, capacity, &n, NULL), (void)0);
    ENDS("/0", jsonptr_pointer_at_in_text("[7]", 3, 1, out, capacity, &n, NULL), (void)0);
    memset(out, '#', sizeof out);
    EXPECT(jsonptr_document_get(&document, "/1", 2, 0, out, sizeof out, NULL, NULL), JSONPTR_NOT_FOUND);
    expect_number("first byte", "after an error", (unsigned char)out[0], '#');
    jsonptr_document_free(&document);
    jsonptr_document_free(&other);
    jsonptr_document_free(&object);
    jsonptr_text_free(&text);
}

int main(void) {
    check_bad();
    check_overlaps();
    check_zero();
    check_empty();
    return report("arguments");
}
