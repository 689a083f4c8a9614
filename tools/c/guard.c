/* The functions of jsonptr.h. Each looks for NULL, for a length that no object has, for a flag that is not defined, for
 * one document that is passed twice, and for a key in the buffer of the next one, and then calls the proved function. A
 * call that only reads a document passes a copy of its handle, so the handle of the caller is never written to. A result
 * that leaves room is ended by a zero. Nothing else is decided here. */
#include "jsonptr.h"

/* The proved functions, from crates/jsonptr_c. No pointer may be NULL. */
uint32_t jsonptrcore_error_message(const jsonptr_error *error, char *out, size_t capacity, size_t *length);
uint32_t jsonptrcore_pointer_count(const char *pointer, size_t pointer_length, size_t *count, jsonptr_error *error);
uint32_t jsonptrcore_pointer_token(const char *pointer, size_t pointer_length, size_t position, char *out,
                                   size_t capacity, size_t *length, jsonptr_error *error);
uint32_t jsonptrcore_pointer_escape(const char *token, size_t token_length, char *out, size_t capacity, size_t *length,
                                    jsonptr_error *error);
uint32_t jsonptrcore_pointer_push(char *buffer, size_t capacity, size_t *length, const char *token, size_t token_length,
                                  jsonptr_error *error);
uint32_t jsonptrcore_pointer_pop(const char *pointer, size_t pointer_length, size_t *length, jsonptr_error *error);
uint32_t jsonptrcore_pointer_from_fragment(const char *fragment, size_t fragment_length, char *out, size_t capacity,
                                           size_t *length, jsonptr_error *error);
uint32_t jsonptrcore_pointer_to_fragment(const char *pointer, size_t pointer_length, char *out, size_t capacity,
                                         size_t *length, jsonptr_error *error);
uint32_t jsonptrcore_document_parse(jsonptr_document *document, const char *text, size_t text_length,
                                    jsonptr_error *error);
uint32_t jsonptrcore_document_parse_with(jsonptr_document *document, const char *text, size_t text_length, bool is_exact,
                                         jsonptr_error *error);
void jsonptrcore_document_free(jsonptr_document *document);
uint32_t jsonptrcore_document_get(jsonptr_document *document, const char *pointer, size_t pointer_length,
                                    bool is_pretty, char *out, size_t capacity, size_t *length, jsonptr_error *error);
uint32_t jsonptrcore_document_string(jsonptr_document *document, const char *pointer, size_t pointer_length, char *out,
                                     size_t capacity, size_t *length, jsonptr_error *error);
uint32_t jsonptrcore_document_node(jsonptr_document *document, const char *pointer, size_t pointer_length,
                                   jsonptr_node *node, jsonptr_error *error);
uint32_t jsonptrcore_document_first_key(jsonptr_document *document, const char *pointer, size_t pointer_length,
                                        bool *found, char *out, size_t capacity, size_t *length, jsonptr_error *error);
uint32_t jsonptrcore_document_next_key(jsonptr_document *document, const char *pointer, size_t pointer_length,
                                       const char *key, size_t key_length, bool *found, char *out, size_t capacity,
                                       size_t *length, jsonptr_error *error);
uint32_t jsonptrcore_document_assign(jsonptr_document *document, const char *pointer, size_t pointer_length,
                                     const char *text, size_t text_length, jsonptr_error *error);
uint32_t jsonptrcore_document_assign_string(jsonptr_document *document, const char *pointer, size_t pointer_length,
                                            const char *string, size_t string_length, jsonptr_error *error);
uint32_t jsonptrcore_document_assign_integer(jsonptr_document *document, const char *pointer, size_t pointer_length,
                                             int64_t number, jsonptr_error *error);
uint32_t jsonptrcore_document_assign_natural(jsonptr_document *document, const char *pointer, size_t pointer_length,
                                             uint64_t number, jsonptr_error *error);
uint32_t jsonptrcore_document_assign_number(jsonptr_document *document, const char *pointer, size_t pointer_length,
                                            double number, jsonptr_error *error);
uint32_t jsonptrcore_document_assign_boolean(jsonptr_document *document, const char *pointer, size_t pointer_length,
                                             bool value, jsonptr_error *error);
uint32_t jsonptrcore_document_assign_null(jsonptr_document *document, const char *pointer, size_t pointer_length,
                                          jsonptr_error *error);
uint32_t jsonptrcore_document_delete(jsonptr_document *document, const char *pointer, size_t pointer_length, bool *found,
                                     jsonptr_error *error);
uint32_t jsonptrcore_document_patch(jsonptr_document *document, const char *text, size_t text_length,
                                    jsonptr_error *error);
uint32_t jsonptrcore_document_patch_with_inverse(jsonptr_document *document, const char *text, size_t text_length,
                                                 bool is_pretty, char *out, size_t capacity, size_t *length,
                                                 jsonptr_error *error);
uint32_t jsonptrcore_document_diff(jsonptr_document *from, jsonptr_document *to, bool is_pretty, char *out,
                                   size_t capacity, size_t *length, jsonptr_error *error);
uint32_t jsonptrcore_text_open(jsonptr_text *text, uint32_t format, const char *bytes, size_t bytes_length,
                               jsonptr_error *error);
void jsonptrcore_text_free(jsonptr_text *text);
uint32_t jsonptrcore_text_assign(jsonptr_text *text, const char *pointer, size_t pointer_length, const char *value,
                                 size_t value_length, bool may_reformat, jsonptr_change *change, jsonptr_error *error);
uint32_t jsonptrcore_text_delete(jsonptr_text *text, const char *pointer, size_t pointer_length, bool may_reformat,
                                 bool *found, jsonptr_change *change, jsonptr_error *error);
uint32_t jsonptrcore_text_rename(jsonptr_text *text, const char *pointer, size_t pointer_length, const char *key,
                                 size_t key_length, bool may_reformat, jsonptr_change *change, jsonptr_error *error);
uint32_t jsonptrcore_text_patch(jsonptr_text *text, const char *patch, size_t patch_length, bool may_reformat,
                                jsonptr_change *change, jsonptr_error *error);
uint32_t jsonptrcore_text_relayout(jsonptr_text *text, const char *json, size_t json_length, bool may_reformat,
                                   jsonptr_change *change, jsonptr_error *error);
uint32_t jsonptrcore_text_remove_comments(jsonptr_text *text, jsonptr_error *error);
uint32_t jsonptrcore_text_locate(jsonptr_text *text, const char *pointer, size_t pointer_length, size_t *start,
                                 size_t *end, jsonptr_error *error);
uint32_t jsonptrcore_text_pointer_at(jsonptr_text *text, size_t offset, char *out, size_t capacity, size_t *length,
                                     jsonptr_error *error);
uint32_t jsonptrcore_text_copy(jsonptr_text *text, size_t start, size_t end, char *out, size_t capacity, size_t *length,
                               jsonptr_error *error);
uint32_t jsonptrcore_quote(const char *string, size_t string_length, char *out, size_t capacity, size_t *length,
                           jsonptr_error *error);
uint32_t jsonptrcore_resolve_in_text(const char *text, size_t text_length, const char *pointer, size_t pointer_length,
                                bool is_pretty, char *out, size_t capacity, size_t *length, jsonptr_error *error);
uint32_t jsonptrcore_lost_number_in_text(const char *text, size_t text_length, bool *found, char *out, size_t capacity,
                                      size_t *length, jsonptr_error *error);
uint32_t jsonptrcore_locate_in_text(const char *text, size_t text_length, const char *pointer, size_t pointer_length,
                                 size_t *start, size_t *end, jsonptr_error *error);
uint32_t jsonptrcore_pointer_at_in_text(const char *text, size_t text_length, size_t offset, char *out, size_t capacity,
                                     size_t *length, jsonptr_error *error);

/* Whether a pointer and a length can be a slice: NULL only with length 0. */
static bool is_slice(const void *start, size_t length) {
    return start != NULL ? length <= PTRDIFF_MAX : length == 0;
}

/* Returns the start of a slice. Of an empty one it may be any address but NULL. */
static const char *start_of(const char *start) {
    static const char empty = 0;
    return start != NULL ? start : &empty;
}

/* Whether two slices have a byte in common. */
static bool is_shared(const char *first, size_t first_length, const char *second, size_t second_length) {
    uintptr_t a = (uintptr_t)first, b = (uintptr_t)second;
    return first_length != 0 && second_length != 0 && (a < b ? b - a < first_length : a - b < second_length);
}

/* What is written for an optional argument that is NULL, and where an empty buffer starts. */
typedef struct unwanted {
    jsonptr_error error;
    jsonptr_change change;
    size_t length, end;
    bool found;
    char buffer;
} unwanted;

/* Whether no other flag is set than those of a call that prints. */
static bool is_known(uint32_t flags) {
    return (flags & ~(JSONPTR_COMPACT | JSONPTR_PRETTY)) == 0;
}

/* Whether no other flag is set than that of a call that edits a text. */
static bool is_edit(uint32_t flags) {
    return (flags & ~JSONPTR_REFORMAT) == 0;
}

/* Reports a bad argument. */
static jsonptr_status bad_argument(jsonptr_error *error) {
    if (error != NULL) {
        *error = (jsonptr_error){ .status = JSONPTR_BAD_ARGUMENT };
    }
    return JSONPTR_BAD_ARGUMENT;
}

/* The argument, or the address of `instead` for one that is not wanted. */
#define OR(argument, instead) ((argument) != NULL ? (argument) : &(instead))

/* Puts a zero after a result that leaves room, and returns the status of its call. */
static jsonptr_status ended(jsonptr_status status, char *out, size_t capacity, const size_t *length) {
    if (status == JSONPTR_OK && *length < capacity) {
        out[*length] = 0;
    }
    return status;
}

jsonptr_status jsonptr_error_message(const jsonptr_error *error, char *out, size_t capacity, size_t *length) {
    unwanted none;
    if (error == NULL || !is_slice(out, capacity)) {
        return JSONPTR_BAD_ARGUMENT;
    }
    size_t *size = OR(length, none.length);
    jsonptr_status status = jsonptrcore_error_message(error, OR(out, none.buffer), capacity, size);
    return ended(status, out, capacity, size);
}

jsonptr_status jsonptr_pointer_count(const char *pointer, size_t pointer_length, size_t *count, jsonptr_error *error) {
    unwanted none;
    if (!is_slice(pointer, pointer_length)) {
        return bad_argument(error);
    }
    return jsonptrcore_pointer_count(start_of(pointer), pointer_length, OR(count, none.length), OR(error, none.error));
}

jsonptr_status jsonptr_pointer_token(const char *pointer, size_t pointer_length, size_t position, char *out,
                                     size_t capacity, size_t *length, jsonptr_error *error) {
    unwanted none;
    if (!is_slice(pointer, pointer_length) || !is_slice(out, capacity)) {
        return bad_argument(error);
    }
    size_t *size = OR(length, none.length);
    jsonptr_status status = jsonptrcore_pointer_token(start_of(pointer), pointer_length, position,
        OR(out, none.buffer), capacity, size, OR(error, none.error));
    return ended(status, out, capacity, size);
}

jsonptr_status jsonptr_pointer_escape(const char *token, size_t token_length, char *out, size_t capacity, size_t *length,
                                      jsonptr_error *error) {
    unwanted none;
    if (!is_slice(token, token_length) || !is_slice(out, capacity)) {
        return bad_argument(error);
    }
    size_t *size = OR(length, none.length);
    jsonptr_status status = jsonptrcore_pointer_escape(start_of(token), token_length, OR(out, none.buffer), capacity,
        size, OR(error, none.error));
    return ended(status, out, capacity, size);
}

jsonptr_status jsonptr_pointer_push(char *buffer, size_t capacity, size_t *length, const char *token,
                                    size_t token_length, jsonptr_error *error) {
    unwanted none;
    if (length == NULL || *length > capacity || !is_slice(buffer, capacity) || !is_slice(token, token_length)) {
        return bad_argument(error);
    }
    jsonptr_status status = jsonptrcore_pointer_push(OR(buffer, none.buffer), capacity, length, start_of(token),
        token_length, OR(error, none.error));
    return ended(status, buffer, capacity, length);
}

jsonptr_status jsonptr_pointer_pop(const char *pointer, size_t *length, jsonptr_error *error) {
    unwanted none;
    if (length == NULL || !is_slice(pointer, *length)) {
        return bad_argument(error);
    }
    return jsonptrcore_pointer_pop(start_of(pointer), *length, length, OR(error, none.error));
}

jsonptr_status jsonptr_pointer_from_fragment(const char *fragment, size_t fragment_length, char *out, size_t capacity,
                                             size_t *length, jsonptr_error *error) {
    unwanted none;
    if (!is_slice(fragment, fragment_length) || !is_slice(out, capacity)) {
        return bad_argument(error);
    }
    size_t *size = OR(length, none.length);
    jsonptr_status status = jsonptrcore_pointer_from_fragment(start_of(fragment), fragment_length,
        OR(out, none.buffer), capacity, size, OR(error, none.error));
    return ended(status, out, capacity, size);
}

jsonptr_status jsonptr_pointer_to_fragment(const char *pointer, size_t pointer_length, char *out, size_t capacity,
                                           size_t *length, jsonptr_error *error) {
    unwanted none;
    if (!is_slice(pointer, pointer_length) || !is_slice(out, capacity)) {
        return bad_argument(error);
    }
    size_t *size = OR(length, none.length);
    jsonptr_status status = jsonptrcore_pointer_to_fragment(start_of(pointer), pointer_length, OR(out, none.buffer),
        capacity, size, OR(error, none.error));
    return ended(status, out, capacity, size);
}

jsonptr_status jsonptr_document_parse(jsonptr_document *document, const char *text, size_t text_length,
                                      jsonptr_error *error) {
    unwanted none;
    if (document == NULL || !is_slice(text, text_length)) {
        return bad_argument(error);
    }
    return jsonptrcore_document_parse(document, start_of(text), text_length, OR(error, none.error));
}

jsonptr_status jsonptr_document_parse_with(jsonptr_document *document, const char *text, size_t text_length,
                                           uint32_t flags, jsonptr_error *error) {
    unwanted none;
    if (document == NULL || !is_slice(text, text_length) || (flags & ~JSONPTR_EXACT_NUMBERS) != 0) {
        return bad_argument(error);
    }
    return jsonptrcore_document_parse_with(document, start_of(text), text_length, flags & JSONPTR_EXACT_NUMBERS,
                                           OR(error, none.error));
}

void jsonptr_document_free(jsonptr_document *document) {
    if (document != NULL) {
        jsonptrcore_document_free(document);
    }
}

jsonptr_status jsonptr_document_print(const jsonptr_document *document, uint32_t flags, char *out, size_t capacity,
                                      size_t *length, jsonptr_error *error) {
    return jsonptr_document_get(document, "", 0, flags, out, capacity, length, error);
}

jsonptr_status jsonptr_document_get(const jsonptr_document *document, const char *pointer, size_t pointer_length,
                                    uint32_t flags, char *out, size_t capacity, size_t *length, jsonptr_error *error) {
    unwanted none;
    if (document == NULL || !is_slice(pointer, pointer_length) || !is_known(flags) || !is_slice(out, capacity)) {
        return bad_argument(error);
    }
    size_t *size = OR(length, none.length);
    jsonptr_document copy = *document;
    jsonptr_status status = jsonptrcore_document_get(&copy, start_of(pointer), pointer_length, flags & JSONPTR_PRETTY,
        OR(out, none.buffer), capacity, size, OR(error, none.error));
    return ended(status, out, capacity, size);
}

jsonptr_status jsonptr_document_string(const jsonptr_document *document, const char *pointer, size_t pointer_length,
                                       char *out, size_t capacity, size_t *length, jsonptr_error *error) {
    unwanted none;
    if (document == NULL || !is_slice(pointer, pointer_length) || !is_slice(out, capacity)) {
        return bad_argument(error);
    }
    size_t *size = OR(length, none.length);
    jsonptr_document copy = *document;
    jsonptr_status status = jsonptrcore_document_string(&copy, start_of(pointer), pointer_length,
        OR(out, none.buffer), capacity, size, OR(error, none.error));
    return ended(status, out, capacity, size);
}

jsonptr_status jsonptr_document_node(const jsonptr_document *document, const char *pointer, size_t pointer_length,
                                     jsonptr_node *node, jsonptr_error *error) {
    unwanted none;
    if (document == NULL || node == NULL || !is_slice(pointer, pointer_length)) {
        return bad_argument(error);
    }
    jsonptr_document copy = *document;
    return jsonptrcore_document_node(&copy, start_of(pointer), pointer_length, node, OR(error, none.error));
}

jsonptr_status jsonptr_document_first_key(const jsonptr_document *document, const char *pointer, size_t pointer_length,
                                          bool *found, char *out, size_t capacity, size_t *length,
                                          jsonptr_error *error) {
    unwanted none;
    if (document == NULL || !is_slice(pointer, pointer_length) || !is_slice(out, capacity)) {
        return bad_argument(error);
    }
    size_t *size = OR(length, none.length);
    jsonptr_document copy = *document;
    jsonptr_status status = jsonptrcore_document_first_key(&copy, start_of(pointer), pointer_length,
        OR(found, none.found), OR(out, none.buffer), capacity, size, OR(error, none.error));
    return ended(status, out, capacity, size);
}

jsonptr_status jsonptr_document_next_key(const jsonptr_document *document, const char *pointer, size_t pointer_length,
                                         const char *key, size_t key_length, bool *found, char *out, size_t capacity,
                                         size_t *length, jsonptr_error *error) {
    unwanted none;
    if (document == NULL || !is_slice(pointer, pointer_length) || !is_slice(key, key_length) ||
        !is_slice(out, capacity) || is_shared(key, key_length, out, capacity)) {
        return bad_argument(error);
    }
    size_t *size = OR(length, none.length);
    jsonptr_document copy = *document;
    jsonptr_status status = jsonptrcore_document_next_key(&copy, start_of(pointer), pointer_length, start_of(key),
        key_length, OR(found, none.found), OR(out, none.buffer), capacity, size, OR(error, none.error));
    return ended(status, out, capacity, size);
}

jsonptr_status jsonptr_document_assign(jsonptr_document *document, const char *pointer, size_t pointer_length,
                                       const char *text, size_t text_length, jsonptr_error *error) {
    unwanted none;
    if (document == NULL || !is_slice(pointer, pointer_length) || !is_slice(text, text_length)) {
        return bad_argument(error);
    }
    return jsonptrcore_document_assign(document, start_of(pointer), pointer_length, start_of(text), text_length,
                                       OR(error, none.error));
}

jsonptr_status jsonptr_document_assign_string(jsonptr_document *document, const char *pointer, size_t pointer_length,
                                              const char *string, size_t string_length, jsonptr_error *error) {
    unwanted none;
    if (document == NULL || !is_slice(pointer, pointer_length) || !is_slice(string, string_length)) {
        return bad_argument(error);
    }
    return jsonptrcore_document_assign_string(document, start_of(pointer), pointer_length, start_of(string),
                                              string_length, OR(error, none.error));
}

jsonptr_status jsonptr_document_assign_integer(jsonptr_document *document, const char *pointer, size_t pointer_length,
                                               int64_t number, jsonptr_error *error) {
    unwanted none;
    if (document == NULL || !is_slice(pointer, pointer_length)) {
        return bad_argument(error);
    }
    return jsonptrcore_document_assign_integer(document, start_of(pointer), pointer_length, number,
                                               OR(error, none.error));
}

jsonptr_status jsonptr_document_assign_natural(jsonptr_document *document, const char *pointer, size_t pointer_length,
                                               uint64_t number, jsonptr_error *error) {
    unwanted none;
    if (document == NULL || !is_slice(pointer, pointer_length)) {
        return bad_argument(error);
    }
    return jsonptrcore_document_assign_natural(document, start_of(pointer), pointer_length, number,
                                               OR(error, none.error));
}

jsonptr_status jsonptr_document_assign_number(jsonptr_document *document, const char *pointer, size_t pointer_length,
                                              double number, jsonptr_error *error) {
    unwanted none;
    if (document == NULL || !is_slice(pointer, pointer_length)) {
        return bad_argument(error);
    }
    return jsonptrcore_document_assign_number(document, start_of(pointer), pointer_length, number,
                                              OR(error, none.error));
}

jsonptr_status jsonptr_document_assign_boolean(jsonptr_document *document, const char *pointer, size_t pointer_length,
                                               bool value, jsonptr_error *error) {
    unwanted none;
    if (document == NULL || !is_slice(pointer, pointer_length)) {
        return bad_argument(error);
    }
    return jsonptrcore_document_assign_boolean(document, start_of(pointer), pointer_length, value,
                                               OR(error, none.error));
}

jsonptr_status jsonptr_document_assign_null(jsonptr_document *document, const char *pointer, size_t pointer_length,
                                            jsonptr_error *error) {
    unwanted none;
    if (document == NULL || !is_slice(pointer, pointer_length)) {
        return bad_argument(error);
    }
    return jsonptrcore_document_assign_null(document, start_of(pointer), pointer_length, OR(error, none.error));
}

jsonptr_status jsonptr_document_delete(jsonptr_document *document, const char *pointer, size_t pointer_length,
                                       bool *found, jsonptr_error *error) {
    unwanted none;
    if (document == NULL || !is_slice(pointer, pointer_length)) {
        return bad_argument(error);
    }
    return jsonptrcore_document_delete(document, start_of(pointer), pointer_length, OR(found, none.found),
                                       OR(error, none.error));
}

jsonptr_status jsonptr_document_patch(jsonptr_document *document, const char *text, size_t text_length,
                                      jsonptr_error *error) {
    unwanted none;
    if (document == NULL || !is_slice(text, text_length)) {
        return bad_argument(error);
    }
    return jsonptrcore_document_patch(document, start_of(text), text_length, OR(error, none.error));
}

jsonptr_status jsonptr_document_patch_with_inverse(jsonptr_document *document, const char *text, size_t text_length,
                                                   uint32_t flags, char *out, size_t capacity, size_t *length,
                                                   jsonptr_error *error) {
    unwanted none;
    if (document == NULL || !is_slice(text, text_length) || !is_known(flags) || !is_slice(out, capacity)) {
        return bad_argument(error);
    }
    size_t *size = OR(length, none.length);
    jsonptr_status status = jsonptrcore_document_patch_with_inverse(document, start_of(text), text_length,
        flags & JSONPTR_PRETTY, OR(out, none.buffer), capacity, size, OR(error, none.error));
    return ended(status, out, capacity, size);
}

jsonptr_status jsonptr_document_diff(const jsonptr_document *from, const jsonptr_document *to, uint32_t flags,
                                     char *out, size_t capacity, size_t *length, jsonptr_error *error) {
    unwanted none;
    if (from == NULL || to == NULL || from == to || !is_known(flags) || !is_slice(out, capacity)) {
        return bad_argument(error);
    }
    size_t *size = OR(length, none.length);
    jsonptr_document copy = *from, other = *to;
    jsonptr_status status = jsonptrcore_document_diff(&copy, &other, flags & JSONPTR_PRETTY, OR(out, none.buffer),
        capacity, size, OR(error, none.error));
    return ended(status, out, capacity, size);
}

jsonptr_status jsonptr_text_open(jsonptr_text *text, uint32_t format, const char *bytes, size_t bytes_length,
                                 jsonptr_error *error) {
    unwanted none;
    if (text == NULL || format > JSONPTR_FORMAT_TOML || !is_slice(bytes, bytes_length)) {
        return bad_argument(error);
    }
    return jsonptrcore_text_open(text, format, start_of(bytes), bytes_length, OR(error, none.error));
}

void jsonptr_text_free(jsonptr_text *text) {
    if (text != NULL) {
        jsonptrcore_text_free(text);
    }
}

jsonptr_status jsonptr_text_assign(jsonptr_text *text, const char *pointer, size_t pointer_length, const char *value,
                                   size_t value_length, uint32_t flags, jsonptr_change *change, jsonptr_error *error) {
    unwanted none;
    if (text == NULL || !is_slice(pointer, pointer_length) || !is_slice(value, value_length) || !is_edit(flags)) {
        return bad_argument(error);
    }
    return jsonptrcore_text_assign(text, start_of(pointer), pointer_length, start_of(value), value_length,
                                   flags & JSONPTR_REFORMAT, OR(change, none.change), OR(error, none.error));
}

jsonptr_status jsonptr_text_delete(jsonptr_text *text, const char *pointer, size_t pointer_length, uint32_t flags,
                                   bool *found, jsonptr_change *change, jsonptr_error *error) {
    unwanted none;
    if (text == NULL || !is_slice(pointer, pointer_length) || !is_edit(flags)) {
        return bad_argument(error);
    }
    return jsonptrcore_text_delete(text, start_of(pointer), pointer_length, flags & JSONPTR_REFORMAT,
                                   OR(found, none.found), OR(change, none.change), OR(error, none.error));
}

jsonptr_status jsonptr_text_rename(jsonptr_text *text, const char *pointer, size_t pointer_length, const char *key,
                                   size_t key_length, uint32_t flags, jsonptr_change *change, jsonptr_error *error) {
    unwanted none;
    if (text == NULL || !is_slice(pointer, pointer_length) || !is_slice(key, key_length) || !is_edit(flags)) {
        return bad_argument(error);
    }
    return jsonptrcore_text_rename(text, start_of(pointer), pointer_length, start_of(key), key_length,
                                   flags & JSONPTR_REFORMAT, OR(change, none.change), OR(error, none.error));
}

jsonptr_status jsonptr_text_patch(jsonptr_text *text, const char *patch, size_t patch_length, uint32_t flags,
                                  jsonptr_change *change, jsonptr_error *error) {
    unwanted none;
    if (text == NULL || !is_slice(patch, patch_length) || !is_edit(flags)) {
        return bad_argument(error);
    }
    return jsonptrcore_text_patch(text, start_of(patch), patch_length, flags & JSONPTR_REFORMAT,
                                  OR(change, none.change), OR(error, none.error));
}

jsonptr_status jsonptr_text_relayout(jsonptr_text *text, const char *json, size_t json_length, uint32_t flags,
                                     jsonptr_change *change, jsonptr_error *error) {
    unwanted none;
    if (text == NULL || !is_slice(json, json_length) || !is_edit(flags)) {
        return bad_argument(error);
    }
    return jsonptrcore_text_relayout(text, start_of(json), json_length, flags & JSONPTR_REFORMAT,
                                     OR(change, none.change), OR(error, none.error));
}

jsonptr_status jsonptr_text_remove_comments(jsonptr_text *text, jsonptr_error *error) {
    unwanted none;
    if (text == NULL) {
        return bad_argument(error);
    }
    return jsonptrcore_text_remove_comments(text, OR(error, none.error));
}

jsonptr_status jsonptr_text_locate(const jsonptr_text *text, const char *pointer, size_t pointer_length, size_t *start,
                                   size_t *end, jsonptr_error *error) {
    unwanted none;
    if (text == NULL || !is_slice(pointer, pointer_length)) {
        return bad_argument(error);
    }
    jsonptr_text copy = *text;
    return jsonptrcore_text_locate(&copy, start_of(pointer), pointer_length, OR(start, none.length), OR(end, none.end),
                                   OR(error, none.error));
}

jsonptr_status jsonptr_text_pointer_at(const jsonptr_text *text, size_t offset, char *out, size_t capacity,
                                       size_t *length, jsonptr_error *error) {
    unwanted none;
    if (text == NULL || !is_slice(out, capacity)) {
        return bad_argument(error);
    }
    size_t *size = OR(length, none.length);
    jsonptr_text copy = *text;
    jsonptr_status status = jsonptrcore_text_pointer_at(&copy, offset, OR(out, none.buffer), capacity, size,
                                                        OR(error, none.error));
    return ended(status, out, capacity, size);
}

jsonptr_status jsonptr_text_copy(const jsonptr_text *text, size_t start, size_t end, char *out, size_t capacity,
                                 size_t *length, jsonptr_error *error) {
    unwanted none;
    if (text == NULL || !is_slice(out, capacity)) {
        return bad_argument(error);
    }
    size_t *size = OR(length, none.length);
    jsonptr_text copy = *text;
    jsonptr_status status = jsonptrcore_text_copy(&copy, start, end, OR(out, none.buffer), capacity, size,
                                                  OR(error, none.error));
    return ended(status, out, capacity, size);
}

jsonptr_status jsonptr_quote(const char *string, size_t string_length, char *out, size_t capacity, size_t *length,
                             jsonptr_error *error) {
    unwanted none;
    if (!is_slice(string, string_length) || !is_slice(out, capacity)) {
        return bad_argument(error);
    }
    size_t *size = OR(length, none.length);
    jsonptr_status status = jsonptrcore_quote(start_of(string), string_length, OR(out, none.buffer), capacity, size,
                                              OR(error, none.error));
    return ended(status, out, capacity, size);
}

jsonptr_status jsonptr_resolve_in_text(const char *text, size_t text_length, const char *pointer, size_t pointer_length,
                                       uint32_t flags, char *out, size_t capacity, size_t *length,
                                       jsonptr_error *error) {
    unwanted none;
    if (!is_slice(text, text_length) || !is_slice(pointer, pointer_length) || !is_known(flags) ||
        !is_slice(out, capacity)) {
        return bad_argument(error);
    }
    size_t *size = OR(length, none.length);
    jsonptr_status status = jsonptrcore_resolve_in_text(start_of(text), text_length, start_of(pointer),
        pointer_length, flags & JSONPTR_PRETTY, OR(out, none.buffer), capacity, size, OR(error, none.error));
    return ended(status, out, capacity, size);
}

jsonptr_status jsonptr_lost_number_in_text(const char *text, size_t text_length, bool *found, char *out,
                                           size_t capacity, size_t *length, jsonptr_error *error) {
    unwanted none;
    if (!is_slice(text, text_length) || !is_slice(out, capacity)) {
        return bad_argument(error);
    }
    size_t *size = OR(length, none.length);
    jsonptr_status status = jsonptrcore_lost_number_in_text(start_of(text), text_length, OR(found, none.found),
        OR(out, none.buffer), capacity, size, OR(error, none.error));
    return ended(status, out, capacity, size);
}

jsonptr_status jsonptr_locate_in_text(const char *text, size_t text_length, const char *pointer, size_t pointer_length,
                                      size_t *start, size_t *end, jsonptr_error *error) {
    unwanted none;
    if (!is_slice(text, text_length) || !is_slice(pointer, pointer_length)) {
        return bad_argument(error);
    }
    return jsonptrcore_locate_in_text(start_of(text), text_length, start_of(pointer), pointer_length,
                                   OR(start, none.length), OR(end, none.end), OR(error, none.error));
}

jsonptr_status jsonptr_pointer_at_in_text(const char *text, size_t text_length, size_t offset, char *out, size_t capacity,
                                          size_t *length, jsonptr_error *error) {
    unwanted none;
    if (!is_slice(text, text_length) || !is_slice(out, capacity)) {
        return bad_argument(error);
    }
    size_t *size = OR(length, none.length);
    jsonptr_status status = jsonptrcore_pointer_at_in_text(start_of(text), text_length, offset, OR(out, none.buffer),
        capacity, size, OR(error, none.error));
    return ended(status, out, capacity, size);
}

const char *jsonptr_version(void) {
    return JSONPTR_VERSION;
}
