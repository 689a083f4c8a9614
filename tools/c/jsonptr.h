/* jsonptr.h - JSON Pointers (RFC 6901) and JSON Patches (RFC 6902) for C.
 *
 * The library reads a JSON document into a handle. It finds, copies, assigns
 * and deletes the values that pointers identify, and applies patches. It does so
 * in texts too, which then keep their layout and their comments (jsonptr_text).
 *
 *     #include <jsonptr.h>
 *     #include <stdio.h>
 *     #include <string.h>
 *
 *     int main(void) {
 *         const char *text = "{\"sizes\": [3, 5]}";
 *         jsonptr_document document = JSONPTR_DOCUMENT_INIT;
 *         jsonptr_error error;
 *         char out[256];
 *         size_t length = 0;
 *         jsonptr_status status;
 *
 *         status = jsonptr_document_parse(&document, text, strlen(text), &error);
 *         if (status == JSONPTR_OK)
 *             status = jsonptr_document_get(&document, "/sizes/1", 8, JSONPTR_COMPACT,
 *                                           out, sizeof out, &length, &error);
 *         if (status != JSONPTR_OK)
 *             jsonptr_error_message(&error, out, sizeof out, &length);
 *         printf("%.*s\n", (int)length, out);        // 5
 *         jsonptr_document_free(&document);
 *         return status != JSONPTR_OK;
 *     }
 *
 *     cc first.c $(pkg-config --cflags --libs jsonptr) -Wl,-rpath,PREFIX/lib
 *                                                             with the shared library
 *     cc first.c -I PREFIX/include PREFIX/lib/libjsonptr.a    with the static library
 *
 * CONVENTIONS
 *
 * Status      A call returns JSONPTR_OK, which is 0, or the number of an error.
 *             After an error a document is unchanged: it prints the same text
 *             as before. The buffer for a result is not written to.
 *             "Returns" lists the errors in the order in which a call looks for
 *             them. JSONPTR_BAD_ARGUMENT is always the first, and is not listed
 *             where it only means NULL, a length above PTRDIFF_MAX or an unknown flag.
 *             JSONPTR_NO_MEMORY can come at any point.
 * Texts       A text is a pointer and a length in bytes. It needs no closing
 *             zero and is never written to. Texts are UTF-8. The empty text, as
 *             a pointer, is the whole document. A byte order mark at the start
 *             of a JSON text is JSONPTR_NOT_JSON at offset 0, except in
 *             jsonptr_text_open.
 * Results     A result is copied to a buffer of the caller. If the buffer is
 *             longer, a zero follows the result, and the bytes after that are
 *             unspecified. A result can contain zeros itself. `*length` is set to
 *             the length of the result without that zero, also by JSONPTR_NO_ROOM,
 *             where the buffer is shorter: so call with capacity 0 (NULL is allowed
 *             then) to learn a length, or call again with a buffer that long. Such a
 *             call makes the result all the same, and costs as much as one that
 *             succeeds. Other errors leave `*length`.
 * Ownership   The caller owns texts, buffers and the struct of a handle. The
 *             library owns only the document in a handle, until
 *             jsonptr_document_free. It keeps no pointer to what it is passed,
 *             and no pointer into a document is ever returned.
 * NULL        NULL with length 0 is the empty text, and NULL with capacity 0
 *             the empty buffer. Where a call says "may be NULL", NULL means
 *             "not wanted". Any other NULL is JSONPTR_BAD_ARGUMENT, never a
 *             crash.
 * Memory      Blocks are from malloc, realloc and free of the program. A failed
 *             allocation is JSONPTR_NO_MEMORY.
 * Depth       A text whose arrays and objects nest deeper than 127 is
 *             JSONPTR_NOT_JSON. Assignments and patches can nest a document
 *             deeper, up to 10,127. A call that could nest it deeper than that
 *             is JSONPTR_TOO_DEEP.
 *             A document deeper than 127 prints, but this library does not read
 *             that text again.
 * Numbers     Integers from -2^63 to 2^64-1 are exact. Every other number is
 *             the nearest double, also 1.0, 1e2 (printed as 100.0) and -0
 *             (printed as -0.0). So 12345678901234567890123 loses digits: it is
 *             printed as 1.2345678901234568e+22. With JSONPTR_EXACT_NUMBERS
 *             jsonptr_document_parse_with does not read such a text, and
 *             jsonptr_lost_number_in_text looks for such a number in any text.
 *             A number that is too large for a double, such as 1e999, is
 *             JSONPTR_NOT_JSON.
 * Keys        Of a repeated key the last member counts. Members are printed in
 *             the order of their keys.
 * Threads     There are no globals. Two threads may use two documents at once.
 *             Any number of threads may read one at once, by the calls whose
 *             `document` is const: jsonptr_document_print, _get, _string, _node,
 *             _first_key, _next_key and _diff, and one text by those of which it
 *             is const. A CALL THAT CHANGES OR FREES A DOCUMENT IS ALONE: no other
 *             call uses the document at that time, so take a lock around both.
 *             The calls on pointers, and those that end in _in_text, have no
 *             document, and need no lock. No call may be made in a signal handler,
 *             nor in a process that was forked while another thread was in a call.
 * Never       The library never prints, exits, aborts or waits.
 * Tested      What a call returns is proved, except for what docs/PROVED.md of
 *             the project lists as tested. Two things are tested: that of the
 *             numbers that are read as doubles exactly those lose digits that the
 *             header says (1.10 loses none), and that the value at an offset is the
 *             innermost one.
 *
 * WHAT THE CALLER MUST UPHOLD
 *
 * The library is proved: whatever bytes it is passed, no call reads or writes
 * outside of what it was given. No proof reaches into the caller, and none
 * counts the stack. So this must hold of each call, or its behavior is undefined:
 *
 *  - A text of length n points to n bytes that no one writes to during the call.
 *  - A buffer of capacity n points to n writable bytes. Neither they need a value
 *    before a call, nor what it sets: `*found`, `*node`, `*error`, and `*length`
 *    except in jsonptr_pointer_push and jsonptr_pointer_pop.
 *  - What a call writes to (a buffer, `*length`, `*error`, a handle ...) overlaps
 *    nothing else that is passed to it.
 *  - A handle was JSONPTR_DOCUMENT_INIT (or all zeros) before its first call. It
 *    is changed by these calls alone. It may be moved by memcpy, but a copy must
 *    not be used beside the original. While a call changes or frees its document,
 *    no other call uses it.
 *  - The stack has room. In our measurements 128 KiB are enough for a call on a
 *    document that was read, and 256 KiB for one on a text (_in_text). Calls
 *    recurse into a document, with at most 660 bytes a level: 8 MiB, the usual
 *    size on Linux, are enough for one of 10,127 levels. On a thread with a
 *    smaller stack, limit the length of pointers and patches from strangers.
 *    Each byte of them deepens a document by at most one level.
 *
 * The functions fit any program for Linux on x86-64 processors with SSE4.2. The
 * numbers of statuses, kinds, types and members never change.
 */
#ifndef JSONPTR_H
#define JSONPTR_H

#if !defined(__x86_64__) || !defined(__LP64__)
#error "libjsonptr is built for x86-64 processors with pointers of 64 bits alone"
#endif

#include <stdbool.h>
#include <stddef.h>
#include <stdint.h>

/* The version of this header. jsonptr_version says that of the library. A version
 * that ends in "-dev" is not released, and has the numbers of the one that will be.
 * JSONPTR_VERSION_NUMBER is for #if, as in #if JSONPTR_VERSION_NUMBER >= 3000. */
#define JSONPTR_VERSION_MAJOR 0
#define JSONPTR_VERSION_MINOR 4
#define JSONPTR_VERSION_PATCH 0
#define JSONPTR_VERSION "0.4.0-dev"
#define JSONPTR_VERSION_NUMBER \
    (JSONPTR_VERSION_MAJOR * 1000000 + JSONPTR_VERSION_MINOR * 1000 + JSONPTR_VERSION_PATCH)

/* What the shared library exports. */
#if defined(__GNUC__)
#define JSONPTR_API __attribute__((visibility("default")))
#else
#define JSONPTR_API
#endif

/* A status that must be looked at. Define it as nothing before the header to
 * have no warnings. To pass over one status, write if (call(..)) {}: with GCC a
 * cast to void warns too. */
#ifndef JSONPTR_NODISCARD
#if defined(__GNUC__)
#define JSONPTR_NODISCARD __attribute__((warn_unused_result))
#else
#define JSONPTR_NODISCARD
#endif
#endif

#ifdef __cplusplus
extern "C" {
#endif

/* ---- Statuses ---------------------------------------------------------- */

typedef uint32_t jsonptr_status;

#define JSONPTR_OK            0u  /* the call succeeded */
#define JSONPTR_NO_MEMORY     1u  /* malloc or realloc returned NULL */
#define JSONPTR_NO_ROOM       2u  /* the buffer is shorter than the result */
#define JSONPTR_BAD_ARGUMENT  3u  /* NULL, a length that cannot be, an unknown flag, NaN, or an argument passed twice */
#define JSONPTR_NO_DOCUMENT   4u  /* the handle holds no document, or no text */
#define JSONPTR_NOT_UTF8      5u  /* a text is not UTF-8 */
#define JSONPTR_NOT_JSON      6u  /* a text is not a JSON text */
#define JSONPTR_NOT_POINTER   7u  /* a text is not a JSON Pointer */
#define JSONPTR_NO_TOKEN      8u  /* the pointer has no token at this position */
#define JSONPTR_NOT_FOUND     9u  /* the pointer does not resolve to a value */
#define JSONPTR_OTHER_TYPE   10u  /* the value is not of the type that the call reads */
#define JSONPTR_NOT_ASSIGNED 11u  /* the pointer leads to an array that has no such index */
#define JSONPTR_NOT_PATCH    12u  /* the document is not a JSON Patch */
#define JSONPTR_PATCH_FAILED 13u  /* an operation of the patch fails */
#define JSONPTR_TOO_DEEP     14u  /* the document could nest deeper than 10,127, or a text deeper than 127 */
#define JSONPTR_NOT_EXACT    15u  /* a number of a text loses digits */
#define JSONPTR_NOT_LOCATED  16u  /* the value is in the text, but its bytes are not found */
#define JSONPTR_NO_VALUE     17u  /* no value of the text is at the offset */
#define JSONPTR_NOT_IN_PLACE 18u  /* the edit is possible, but not in place */
#define JSONPTR_NOT_TOML     19u  /* a text is not a TOML text */
#define JSONPTR_NOT_TOML_VALUE 20u /* the value is null or an integer that TOML has not, or contains one */
#define JSONPTR_NOT_RENAMED  21u  /* the member cannot be renamed so */
#define JSONPTR_OTHER_FORMAT 22u  /* the call does not work on texts of this format */
#define JSONPTR_NOT_FRAGMENT 23u  /* a text is not the fragment of a JSON Pointer */

/* ---- Errors ------------------------------------------------------------ */

/* What is at fault, more exactly than by the status: jsonptr_error.kind. */
#define JSONPTR_KIND_NONE               0u
/* JSONPTR_NOT_POINTER, JSONPTR_NOT_PATCH for the `path` or `from` of an operation, and JSONPTR_NOT_FRAGMENT for the
 * text that a fragment encodes */
#define JSONPTR_KIND_NO_LEADING_SLASH   1u  /* not empty, and does not start with a slash */
#define JSONPTR_KIND_BAD_ESCAPE         2u  /* a '~' is not followed by '0' or '1' */
/* JSONPTR_NOT_FOUND, and JSONPTR_PATCH_FAILED */
#define JSONPTR_KIND_NOT_AN_INDEX       3u  /* the value is an array, the token is not an index */
#define JSONPTR_KIND_OUT_OF_BOUNDS      4u  /* the array has no element there */
#define JSONPTR_KIND_NO_MEMBER          5u  /* the object has no such key */
#define JSONPTR_KIND_NO_CHILDREN        6u  /* the value is neither an object nor an array */
/* JSONPTR_NOT_ASSIGNED, and JSONPTR_PATCH_FAILED */
#define JSONPTR_KIND_NOT_A_NEW_INDEX    7u  /* the token is neither an index nor '-' */
#define JSONPTR_KIND_INDEX_ABOVE_LENGTH 8u  /* the index is greater than the length of the array */
/* JSONPTR_PATCH_FAILED */
#define JSONPTR_KIND_MOVE_INTO_SELF     9u  /* `from` is a proper prefix of `path` */
#define JSONPTR_KIND_TEST_FLOAT        10u  /* no longer returned: a test compares such numbers */
#define JSONPTR_KIND_TEST_FAILED       11u  /* the values of a test differ */
/* JSONPTR_NOT_PATCH */
#define JSONPTR_KIND_NOT_AN_ARRAY      12u  /* the patch is not an array */
#define JSONPTR_KIND_NOT_AN_OBJECT     13u  /* an operation is not an object */
#define JSONPTR_KIND_NO_SUCH_MEMBER    14u  /* an operation lacks a member */
#define JSONPTR_KIND_NOT_A_STRING      15u  /* a member is not a string */
#define JSONPTR_KIND_UNKNOWN_OP        16u  /* `op` is not the name of an operation */
/* JSONPTR_TOO_DEEP of jsonptr_document_patch_with_inverse */
#define JSONPTR_KIND_INVERSE_TOO_DEEP  17u  /* the text that takes the patch back would nest deeper than 127 */
/* JSONPTR_NOT_JSON of jsonptr_text_open */
#define JSONPTR_KIND_OPEN_COMMENT      18u  /* a block comment is not closed */
/* JSONPTR_TOO_DEEP of jsonptr_text_assign and jsonptr_text_patch */
#define JSONPTR_KIND_TEXT_TOO_DEEP     19u  /* the text would nest deeper than 127 */
/* JSONPTR_NOT_RENAMED */
#define JSONPTR_KIND_NOTHING_THERE     20u  /* the pointer resolves to nothing */
#define JSONPTR_KIND_NOT_A_MEMBER      21u  /* it resolves to the root, or to an element of an array */
#define JSONPTR_KIND_KEY_TAKEN         22u  /* another member of the object has the key */
/* JSONPTR_TOO_DEEP of jsonptr_text_open and of edits, on TOML */
#define JSONPTR_KIND_TOML_TOO_DEEP     23u  /* the values of the text nest, or would nest, deeper than 80 */
/* JSONPTR_NOT_TOML_VALUE */
#define JSONPTR_KIND_NO_TOML_TEXT      24u  /* the whole document would have no TOML text: it would not be a table */
/* JSONPTR_NOT_FRAGMENT */
#define JSONPTR_KIND_NO_HASH           25u  /* the text does not start with '#' */
#define JSONPTR_KIND_BAD_BYTE          26u  /* a byte that a fragment may have only percent-encoded */
#define JSONPTR_KIND_BAD_PERCENT       27u  /* a '%' is not followed by two hexadecimal digits */
#define JSONPTR_KIND_ENCODED_NOT_UTF8  28u  /* the bytes that the fragment encodes are not UTF-8 */

/* A member of an operation, or an argument of the call: jsonptr_error.member. */
#define JSONPTR_MEMBER_NONE      0u
#define JSONPTR_MEMBER_OP        1u
#define JSONPTR_MEMBER_PATH      2u
#define JSONPTR_MEMBER_FROM      3u
#define JSONPTR_MEMBER_VALUE     4u
#define JSONPTR_ARGUMENT_POINTER 5u  /* JSONPTR_NOT_UTF8: the pointer of the call is not UTF-8 */
#define JSONPTR_ARGUMENT_TOKEN   6u  /* the token, or the key of jsonptr_text_rename or jsonptr_document_next_key */
#define JSONPTR_ARGUMENT_TEXT    7u  /* the JSON text, that of the value or the patch, the string, or the fragment */

/* The error of a call. A call that succeeds sets all fields to 0. Each error
 * sets `status`, and the fields in this table; the others are 0.
 *
 *     status        kind                          fields
 *     NO_ROOM       0                             length, which is needed
 *     NOT_UTF8      0                             member, offset
 *     NOT_JSON      0                             offset
 *                   OPEN_COMMENT                  kind, offset
 *     NOT_TOML      0                             offset
 *     NOT_POINTER   NO_LEADING_SLASH              kind; the fault is at offset 0
 *                   BAD_ESCAPE                    kind, position, slash, offset, length
 *     NOT_FRAGMENT  NO_HASH                       kind; the fault is at offset 0
 *                   BAD_BYTE, BAD_PERCENT,
 *                   ENCODED_NOT_UTF8,
 *                   NO_LEADING_SLASH              kind, offset
 *                   BAD_ESCAPE                    kind, slash, offset
 *     NOT_FOUND     NOT_AN_INDEX, OUT_OF_BOUNDS,
 *                   NO_MEMBER, NO_CHILDREN        kind, position, slash, offset, length
 *     NOT_ASSIGNED  NOT_A_NEW_INDEX,
 *                   INDEX_ABOVE_LENGTH            kind, position, slash, offset, length
 *     NOT_PATCH     NOT_AN_ARRAY                  kind
 *                   NOT_AN_OBJECT                 kind, operation
 *                   NO_SUCH_MEMBER, NOT_A_STRING,
 *                   UNKNOWN_OP, NO_LEADING_SLASH  kind, operation, member
 *                   BAD_ESCAPE                    kind, operation, member, slash, offset
 *     PATCH_FAILED  those of NOT_FOUND and        kind, operation, member, position, slash,
 *                   NOT_ASSIGNED                  offset
 *                   MOVE_INTO_SELF, TEST_FLOAT,
 *                   TEST_FAILED                   kind, operation
 *     TOO_DEEP      0, INVERSE_TOO_DEEP,
 *                   TEXT_TOO_DEEP, TOML_TOO_DEEP  kind
 *     NOT_TOML_VALUE 0, NO_TOML_TEXT              kind
 *     NOT_RENAMED   NOTHING_THERE, NOT_A_MEMBER,
 *                   KEY_TAKEN                     kind
 *     NOT_EXACT     0                             offset, length
 *     NO_VALUE      0                             offset, which was passed
 *     others        0                             none
 *
 * The offset of NOT_EXACT is that of the number in the text, and its length is
 * that of the number. jsonptr_lost_number_in_text has its pointer.
 *
 * The other fields position, slash, offset and length are of a pointer. A token's
 * offset is that of its first byte, and its length is that of its escaped text:
 *
 *          /sizes/2/unit     in  {"sizes": [3, 5]}
 *                ^^
 *     position 1, slash 6, offset 7, length 1
 *
 * The offset of BAD_ESCAPE is that of the '~', and its length is 2, or 1 at the
 * end of the pointer.
 *
 * The pointer of NOT_PATCH is the string `path` or `from`, as `member` says. It
 * is the decoded string, so \u002f counts as one byte. length is 0, and position
 * is 0 even if slash is not.
 *
 * The pointer of PATCH_FAILED is the string `path` of the operation, but of
 * "move" and "copy" it is `from` if that does not resolve: member says which.
 * length is 0.
 *
 * The offset of NOT_FRAGMENT is in the fragment: that of the byte or '%' at fault, or
 * of what encodes the byte at fault. The slash is in the text that the fragment
 * encodes. So #/%20/~2 encodes "/ /~2", and has offset 6 and slash 2.
 *
 * The offset of NOT_UTF8 is that of the first byte that is not UTF-8. The offset
 * of NOT_JSON is where reading stopped:
 *
 *     a string, number or word is malformed    its first byte, of a string the quote
 *     the text ends too early                  the length of the text
 *     a number is too large for a double       in the number, or after it
 *     anything else                            the fault, or just after it
 *
 * So ["abc\ud800"] and [truex] have offset 1, [1, has 3, [1e999, 2] has 8. */
typedef struct jsonptr_error {
    uint32_t status;     /* what the call returned */
    uint32_t kind;       /* JSONPTR_KIND_..: what is at fault */
    uint32_t member;     /* JSONPTR_MEMBER_.., of NOT_PATCH and PATCH_FAILED; JSONPTR_ARGUMENT_.., of NOT_UTF8 */
    uint32_t reserved;   /* 0 */
    uint64_t operation;  /* NOT_PATCH, PATCH_FAILED: the operation, from 0 */
    uint64_t position;   /* the token at fault, from 0 */
    uint64_t slash;      /* the offset of the slash before that token, in bytes */
    uint64_t offset;     /* the offset at fault, in bytes; of NOT_JSON, where reading stopped */
    uint64_t length;     /* the bytes at fault; of NO_ROOM, the length that is needed */
    uint64_t reserved_2; /* 0: a later version may use it */
    uint64_t reserved_3; /* 0 */
} jsonptr_error;

/* Copies the message of an error, such as "resolve failed: json pointer token at
 * offset 6 is out of bounds". The number after "token at", "token at offset" or
 * "starting at offset" is `slash`, and that after "operation" is `operation`.
 * NOT_UTF8 and NOT_JSON have no number in the message: print `offset` beside it.
 * The number after "at byte", of NOT_FRAGMENT, is `offset`.
 * The message of NOT_EXACT is "the number at offset 7 loses digits", and that of
 * NO_VALUE "no value is at offset 7".
 * The message of a success is "no error".
 *
 * The message is made of the struct alone, which may be copied and kept after
 * its document is freed. No message is longer than 200 bytes, whatever the struct
 * contains.
 *
 * Returns   JSONPTR_OK, JSONPTR_NO_ROOM, JSONPTR_NO_MEMORY.
 * length    may be NULL, but `error` may not.
 * Cost      linear in the message. */
JSONPTR_API jsonptr_status jsonptr_error_message(const jsonptr_error *error,
                                     char *out, size_t capacity, size_t *length);

/* ---- Pointers ---------------------------------------------------------- */

/* Tests whether a text is a JSON Pointer, and counts its tokens.
 *
 * Returns   JSONPTR_OK, JSONPTR_NOT_UTF8 with offset,
 *           JSONPTR_NOT_POINTER with kind, position, slash, offset and length.
 * count     may be NULL. "" has 0 tokens, "/" has one, which is empty.
 * error     may be NULL.
 * Cost      linear in the pointer. Allocates nothing. */
JSONPTR_API JSONPTR_NODISCARD
jsonptr_status jsonptr_pointer_count(const char *pointer, size_t pointer_length,
                                     size_t *count, jsonptr_error *error);

/* Copies a token, decoded: "~1" is "/", "~0" is "~". `position` is from 0.
 *
 * Returns   JSONPTR_OK, those of jsonptr_pointer_count, JSONPTR_NO_TOKEN,
 *           JSONPTR_NO_ROOM, JSONPTR_NO_MEMORY.
 * length    may be NULL, and so may `error`.
 * Cost      linear in the pointer. Allocates only for a token with a '~'. */
JSONPTR_API JSONPTR_NODISCARD
jsonptr_status jsonptr_pointer_token(const char *pointer, size_t pointer_length,
                                     size_t position,
                                     char *out, size_t capacity, size_t *length,
                                     jsonptr_error *error);

/* Copies a token, escaped, as it is written in a pointer: "a/b" is "a~1b".
 *
 * Returns   JSONPTR_OK, JSONPTR_NOT_UTF8 with offset, JSONPTR_NO_ROOM,
 *           JSONPTR_NO_MEMORY.
 * length    may be NULL, and so may `error`.
 * Cost      linear in the token. Allocates only for a token with '~' or '/'. */
JSONPTR_API JSONPTR_NODISCARD
jsonptr_status jsonptr_pointer_escape(const char *token, size_t token_length,
                                      char *out, size_t capacity, size_t *length,
                                      jsonptr_error *error);

/* Appends a token to a pointer in a buffer. The token is not escaped yet.
 *
 *     char path[256]; size_t length = 0;                     // ""
 *     if (jsonptr_pointer_push(path, sizeof path, &length, "a/b", 3, NULL) == JSONPTR_OK)
 *         puts(path);                                         // /a~1b
 *
 * buffer    has the pointer in its first `*length` bytes.
 * length    is the length of the pointer, and is set to that of the longer one.
 *           An error leaves it and the buffer, JSONPTR_NO_ROOM too: the length
 *           that is needed is `error->length`.
 * Returns   JSONPTR_OK, JSONPTR_BAD_ARGUMENT also if `*length` is above the capacity,
 *           those of jsonptr_pointer_count for the pointer, JSONPTR_NOT_UTF8 with
 *           offset for the token, JSONPTR_NO_ROOM, JSONPTR_NO_MEMORY.
 * error     may be NULL.
 * Cost      linear in the longer pointer. */
JSONPTR_API JSONPTR_NODISCARD
jsonptr_status jsonptr_pointer_push(char *buffer, size_t capacity, size_t *length,
                                    const char *token, size_t token_length,
                                    jsonptr_error *error);

/* Removes the last token of a pointer: sets `*length` to the length without it.
 * The bytes stay, so the removed token is after the new end.
 *
 * Returns   JSONPTR_OK, those of jsonptr_pointer_count, JSONPTR_NO_TOKEN if the
 *           pointer is "". An error leaves `*length`.
 * error     may be NULL.
 * Cost      linear in the pointer. Allocates nothing. */
JSONPTR_API JSONPTR_NODISCARD
jsonptr_status jsonptr_pointer_pop(const char *pointer, size_t *length,
                                   jsonptr_error *error);

/* Copies the pointer of a fragment (RFC 6901, section 6): of a text that begins with
 * '#', as in the "$ref" of a JSON Schema.
 *
 *     #/a%20b     has "/a b"          #     has ""
 *
 * Of a URI, pass what is from its '#' on. Any byte may be percent-encoded, with hexadecimal
 * digits in upper or lower case. One that RFC 3986 does not allow in a fragment has to
 * be, as a space, '"' or one outside ASCII.
 *
 * Returns   JSONPTR_OK, JSONPTR_NOT_UTF8 with offset, JSONPTR_NOT_FRAGMENT with kind,
 *           slash and offset, JSONPTR_NO_ROOM, JSONPTR_NO_MEMORY.
 * length    may be NULL, and so may `error`.
 * Cost      linear in the fragment. */
JSONPTR_API JSONPTR_NODISCARD
jsonptr_status jsonptr_pointer_from_fragment(const char *fragment, size_t fragment_length,
                                             char *out, size_t capacity, size_t *length,
                                             jsonptr_error *error);

/* Copies the fragment of a pointer, with its '#': "/a b" has #/a%20b. Only a byte that RFC
 * 3986 does not allow in a fragment is percent-encoded, with digits in upper case.
 *
 * Returns   JSONPTR_OK, those of jsonptr_pointer_count, JSONPTR_NO_ROOM,
 *           JSONPTR_NO_MEMORY.
 * length    may be NULL, and so may `error`.
 * Cost      linear in the pointer. */
JSONPTR_API JSONPTR_NODISCARD
jsonptr_status jsonptr_pointer_to_fragment(const char *pointer, size_t pointer_length,
                                           char *out, size_t capacity, size_t *length,
                                           jsonptr_error *error);

/* ---- Documents --------------------------------------------------------- */

/* A handle: a document, or none. Its fields are for the library alone. Threads may
 * read one document at once, and only while no call changes it ("Threads", above).
 * JSONPTR_DOCUMENT_INIT is for a declaration. memset(&document, 0, sizeof document)
 * makes the same of a variable that holds no document. */
typedef struct jsonptr_document {
    void *private_address;
    bool private_is_full;
} jsonptr_document;

#define JSONPTR_DOCUMENT_INIT { NULL, false }

/* Flags of a call that prints. Any other bit is JSONPTR_BAD_ARGUMENT. No two flags
 * of this header are the same bit. */
#define JSONPTR_COMPACT 0u  /* no spaces */
#define JSONPTR_PRETTY  1u  /* on lines, indented by two spaces, no newline at the end */

/* Reads a JSON text into a handle. A document that it holds is freed.
 *
 * Returns   JSONPTR_OK, JSONPTR_NOT_UTF8 with offset, JSONPTR_NOT_JSON with
 *           offset, JSONPTR_NO_MEMORY. An error leaves the handle.
 * error     may be NULL.
 * Cost      linear in the text, and in a document that is freed. */
JSONPTR_API JSONPTR_NODISCARD
jsonptr_status jsonptr_document_parse(jsonptr_document *document,
                                      const char *text, size_t text_length,
                                      jsonptr_error *error);

/* Flags of jsonptr_document_parse_with. Any other bit is JSONPTR_BAD_ARGUMENT. */
#define JSONPTR_EXACT_NUMBERS 2u  /* a number that loses digits is an error */

/* Reads a JSON text into a handle as jsonptr_document_parse does, which has no
 * flags.
 *
 *     {"id": 12345678901234567890123}     is printed as {"id":1.2345678901234568e+22}
 *
 * A number loses digits if it is printed with another decimal value. So 1.10 and
 * 1e5 lose none, which are printed as 1.1 and 100000.0. With
 * JSONPTR_EXACT_NUMBERS the first number that does is an error.
 *
 * flags     0 or JSONPTR_EXACT_NUMBERS.
 * Returns   those of jsonptr_document_parse, JSONPTR_NOT_EXACT with offset and
 *           length. An error leaves the handle.
 * error     may be NULL.
 * Cost      linear in the text, which JSONPTR_EXACT_NUMBERS reads twice, and in a
 *           document that is freed. */
JSONPTR_API JSONPTR_NODISCARD
jsonptr_status jsonptr_document_parse_with(jsonptr_document *document,
                                           const char *text, size_t text_length,
                                           uint32_t flags,
                                           jsonptr_error *error);

/* Frees the document of a handle, which is empty afterwards and can be used
 * again. An empty handle, and NULL, are left as they are.
 *
 * Cost      linear in the document. */
JSONPTR_API void jsonptr_document_free(jsonptr_document *document);

/* Copies the JSON text of a whole document.
 *
 * flags     JSONPTR_COMPACT or JSONPTR_PRETTY.
 * Returns   JSONPTR_OK, JSONPTR_NO_DOCUMENT, JSONPTR_NO_ROOM, JSONPTR_NO_MEMORY.
 * length    may be NULL, and so may `error`.
 * Cost      linear in the text, which is allocated and freed on the way. */
JSONPTR_API JSONPTR_NODISCARD
jsonptr_status jsonptr_document_print(const jsonptr_document *document, uint32_t flags,
                                      char *out, size_t capacity, size_t *length,
                                      jsonptr_error *error);

/* Copies the JSON text of the value that a pointer resolves to.
 *
 * Returns   JSONPTR_OK, JSONPTR_NO_DOCUMENT, those of jsonptr_pointer_count,
 *           JSONPTR_NOT_FOUND with kind, position, slash, offset and length,
 *           JSONPTR_NO_ROOM, JSONPTR_NO_MEMORY.
 * length    may be NULL, and so may `error`.
 * Cost      linear in the pointer and in the text. Here and below each object on
 *           the way takes time logarithmic in its members. */
JSONPTR_API JSONPTR_NODISCARD
jsonptr_status jsonptr_document_get(const jsonptr_document *document,
                                    const char *pointer, size_t pointer_length,
                                    uint32_t flags,
                                    char *out, size_t capacity, size_t *length,
                                    jsonptr_error *error);

/* Copies the string that a pointer resolves to, without quotes and escapes.
 *
 * Returns   as jsonptr_document_get, and JSONPTR_OTHER_TYPE if the value is not
 *           a string, before JSONPTR_NO_ROOM.
 * length    may be NULL, and so may `error`.
 * Cost      linear in the pointer and in the string. */
JSONPTR_API JSONPTR_NODISCARD
jsonptr_status jsonptr_document_string(const jsonptr_document *document,
                                       const char *pointer, size_t pointer_length,
                                       char *out, size_t capacity, size_t *length,
                                       jsonptr_error *error);

/* The type of a value: jsonptr_node.type. */
#define JSONPTR_TYPE_NULL    0u
#define JSONPTR_TYPE_BOOLEAN 1u
#define JSONPTR_TYPE_NUMBER  2u
#define JSONPTR_TYPE_STRING  3u
#define JSONPTR_TYPE_ARRAY   4u
#define JSONPTR_TYPE_OBJECT  5u

/* The same by their names of version 0.2. */
#define JSONPTR_NULL    JSONPTR_TYPE_NULL
#define JSONPTR_BOOLEAN JSONPTR_TYPE_BOOLEAN
#define JSONPTR_NUMBER  JSONPTR_TYPE_NUMBER
#define JSONPTR_STRING  JSONPTR_TYPE_STRING
#define JSONPTR_ARRAY   JSONPTR_TYPE_ARRAY
#define JSONPTR_OBJECT  JSONPTR_TYPE_OBJECT

/* What a value is. */
typedef struct jsonptr_node {
    uint32_t type;      /* JSONPTR_TYPE_NULL .. JSONPTR_TYPE_OBJECT */
    bool has_integer;   /* the value is a number, and `integer` is it */
    bool has_natural;   /* the value is a number, and `natural` is it */
    bool is_true;       /* the value is true */
    int64_t integer;    /* or 0 */
    uint64_t natural;   /* or 0 */
    double number;      /* of a number the nearest double, else 0 */
    size_t length;      /* elements, members, or characters of a string; else 0 */
    size_t byte_length; /* bytes of a string, as jsonptr_document_string copies it; else 0 */
    uint64_t reserved;  /* 0: a later version may use it */
} jsonptr_node;

/* Says what the value is that a pointer resolves to: its type, its length, its
 * number. The characters of a string are Unicode scalar values: "n\u00e9" has a
 * `length` of 2 and a `byte_length` of 3.
 *
 * Returns   JSONPTR_OK, JSONPTR_NO_DOCUMENT, those of jsonptr_pointer_count,
 *           JSONPTR_NOT_FOUND with kind, position, slash, offset and length,
 *           JSONPTR_NO_MEMORY. An error leaves `*node`.
 * error     may be NULL.
 * Cost      linear in the pointer and in a string. Allocates only for a token
 *           with a '~'. */
JSONPTR_API JSONPTR_NODISCARD
jsonptr_status jsonptr_document_node(const jsonptr_document *document,
                                     const char *pointer, size_t pointer_length,
                                     jsonptr_node *node, jsonptr_error *error);

/* Copies the first key of the object that a pointer resolves to. Keys ascend by their
 * bytes, as they are printed. A key is not escaped: jsonptr_pointer_push appends it to a
 * pointer.
 *
 *     char keys[2][64];                          // in turn: `key` and `out` do not overlap
 *     int at = 0;
 *     status = jsonptr_document_first_key(&document, "", 0, &found, keys[0], 64, &length, &error);
 *     while (status == JSONPTR_OK && found) {
 *         puts(keys[at]);
 *         status = jsonptr_document_next_key(&document, "", 0, keys[at], length, &found,
 *                                            keys[!at], 64, &length, &error);
 *         at = !at;
 *     }
 *
 * found     may be NULL: whether there is a key. If not, `*length` is set to 0. So may
 *           `length` and `error`.
 * Returns   JSONPTR_OK, JSONPTR_NO_DOCUMENT, those of jsonptr_pointer_count,
 *           JSONPTR_NOT_FOUND with kind, position, slash, offset and length,
 *           JSONPTR_OTHER_TYPE if the value is not an object, JSONPTR_NO_ROOM,
 *           JSONPTR_NO_MEMORY. An error leaves `*found`.
 * Cost      linear in the pointer and in the key, and logarithmic in the members of the
 *           object. Allocates only for a token with a '~'. */
JSONPTR_API JSONPTR_NODISCARD
jsonptr_status jsonptr_document_first_key(const jsonptr_document *document,
                                          const char *pointer, size_t pointer_length,
                                          bool *found,
                                          char *out, size_t capacity, size_t *length,
                                          jsonptr_error *error);

/* Copies the key after another one, as jsonptr_document_first_key does: the least one that
 * is greater. The other key need not be in the object, so members may be deleted
 * between two calls.
 *
 * found     may be NULL: whether there is a key. If not, `*length` is set to 0. So may
 *           `length` and `error`.
 * Returns   JSONPTR_OK, JSONPTR_BAD_ARGUMENT also if `out` overlaps `key`,
 *           JSONPTR_NOT_UTF8 with offset for the key, and then as
 *           jsonptr_document_first_key. An error leaves `*found`.
 * Cost      linear in the pointer and in both keys, and logarithmic in the members of
 *           the object. */
JSONPTR_API JSONPTR_NODISCARD
jsonptr_status jsonptr_document_next_key(const jsonptr_document *document,
                                         const char *pointer, size_t pointer_length,
                                         const char *key, size_t key_length,
                                         bool *found,
                                         char *out, size_t capacity, size_t *length,
                                         jsonptr_error *error);

/* Assigns the value of a JSON text at the location of a pointer. What is there
 * is replaced. Missing objects and arrays on the way are created: "0" and "-"
 * make an array, other tokens an object. A string, number, boolean or null on
 * the way is replaced by such an object or array. "-" appends to an array.
 *
 *     /a/b/0   in {}           makes {"a": {"b": [..]}}
 *     /a/b     in {"a": 1}     makes {"a": {"b": ..}}
 *
 * Returns   JSONPTR_OK, JSONPTR_NOT_UTF8 with offset and JSONPTR_NOT_JSON with
 *           offset for the text, JSONPTR_NO_DOCUMENT,
 *           those of jsonptr_pointer_count for the pointer,
 *           JSONPTR_TOO_DEEP if the pointer has more than 10,000 tokens,
 *           JSONPTR_NOT_ASSIGNED with kind, position, slash, offset and length,
 *           JSONPTR_NO_MEMORY. An error leaves the document.
 * error     may be NULL.
 * Cost      linear in both texts, and in a value that is replaced. */
JSONPTR_API JSONPTR_NODISCARD
jsonptr_status jsonptr_document_assign(jsonptr_document *document,
                                       const char *pointer, size_t pointer_length,
                                       const char *text, size_t text_length,
                                       jsonptr_error *error);

/* Assigns a string at the location of a pointer, as jsonptr_document_assign does with
 * the JSON text of the string: here it has neither quotation marks nor escapes.
 *
 *     jsonptr_document_assign_string(&document, "/name", 5, "a\"b", 3, &error)
 *                                          makes {"name": "a\"b"} of {}
 *
 * Returns   JSONPTR_OK, JSONPTR_NOT_UTF8 with offset for the string,
 *           JSONPTR_NO_DOCUMENT, those of jsonptr_pointer_count for the pointer,
 *           JSONPTR_TOO_DEEP if the pointer has more than 10,000 tokens,
 *           JSONPTR_NOT_ASSIGNED with kind, position, slash, offset and length,
 *           JSONPTR_NO_MEMORY. An error leaves the document.
 * error     may be NULL.
 * Cost      linear in the pointer and in the string, and in a value that is replaced. */
JSONPTR_API JSONPTR_NODISCARD
jsonptr_status jsonptr_document_assign_string(jsonptr_document *document,
                                              const char *pointer, size_t pointer_length,
                                              const char *string, size_t string_length,
                                              jsonptr_error *error);

/* Assigns an integer at the location of a pointer, as jsonptr_document_assign does with
 * its text.
 *
 * Returns   as jsonptr_document_assign_string, except JSONPTR_NOT_UTF8 for the string.
 *           An error leaves the document.
 * error     may be NULL.
 * Cost      linear in the pointer, and in a value that is replaced. */
JSONPTR_API JSONPTR_NODISCARD
jsonptr_status jsonptr_document_assign_integer(jsonptr_document *document,
                                               const char *pointer, size_t pointer_length,
                                               int64_t number, jsonptr_error *error);

/* Assigns an integer from 0 to 2^64-1 at the location of a pointer, as
 * jsonptr_document_assign does with its text.
 *
 * Returns   as jsonptr_document_assign_integer. An error leaves the document.
 * error     may be NULL.
 * Cost      linear in the pointer, and in a value that is replaced. */
JSONPTR_API JSONPTR_NODISCARD
jsonptr_status jsonptr_document_assign_natural(jsonptr_document *document,
                                               const char *pointer, size_t pointer_length,
                                               uint64_t number, jsonptr_error *error);

/* Assigns a double at the location of a pointer, as jsonptr_document_assign does with its
 * text. It is printed with a point or an exponent: 3 as 3.0, which is no integer for
 * jsonptr_document_node.
 *
 * Returns   JSONPTR_OK, JSONPTR_BAD_ARGUMENT also if the number is NaN or infinite,
 *           and then as jsonptr_document_assign_integer. An error leaves the document.
 * error     may be NULL.
 * Cost      linear in the pointer, and in a value that is replaced. */
JSONPTR_API JSONPTR_NODISCARD
jsonptr_status jsonptr_document_assign_number(jsonptr_document *document,
                                              const char *pointer, size_t pointer_length,
                                              double number, jsonptr_error *error);

/* Assigns true or false at the location of a pointer, as jsonptr_document_assign does with
 * its text.
 *
 * Returns   as jsonptr_document_assign_integer. An error leaves the document.
 * error     may be NULL.
 * Cost      linear in the pointer, and in a value that is replaced. */
JSONPTR_API JSONPTR_NODISCARD
jsonptr_status jsonptr_document_assign_boolean(jsonptr_document *document,
                                               const char *pointer, size_t pointer_length,
                                               bool value, jsonptr_error *error);

/* Assigns null at the location of a pointer, as jsonptr_document_assign does with its text.
 * It deletes nothing: jsonptr_document_delete does.
 *
 * Returns   as jsonptr_document_assign_integer. An error leaves the document.
 * error     may be NULL.
 * Cost      linear in the pointer, and in a value that is replaced. */
JSONPTR_API JSONPTR_NODISCARD
jsonptr_status jsonptr_document_assign_null(jsonptr_document *document,
                                            const char *pointer, size_t pointer_length,
                                            jsonptr_error *error);

/* Deletes the value that a pointer resolves to. If there is none, the document
 * is unchanged, and that is no error. Deleting "" leaves null.
 *
 * Returns   JSONPTR_OK, JSONPTR_NO_DOCUMENT, those of jsonptr_pointer_count,
 *           JSONPTR_NO_MEMORY. An error leaves the document and `*found`.
 * found     may be NULL: whether there was a value. So may `error`.
 * Cost      linear in the pointer, in the value, and in the elements after it. */
JSONPTR_API JSONPTR_NODISCARD
jsonptr_status jsonptr_document_delete(jsonptr_document *document,
                                       const char *pointer, size_t pointer_length,
                                       bool *found, jsonptr_error *error);

/* ---- Patches (RFC 6902) ------------------------------------------------ */

/* Applies a patch document, all of it or nothing. The text is an array, such as
 * [{"op": "add", "path": "/sizes/-", "value": 8}].
 *
 * A "test" compares numbers by their values (RFC 6902, section 4.6): 1 equals
 * 1.0, and 0 equals -0.0. Nothing is rounded: 2^53 + 1 and 9007199254740992.0
 * differ. A number that is not an integer from -2^63 to 2^64-1 is the double that
 * is nearest to its text. Where the RFC says nothing: "remove" of the path ""
 * leaves null.
 *
 * JSONPTR_TOO_DEEP comes before any operation is applied. Let `down` be the sum,
 * over each "move" and "copy", of the tokens that its path has more than its from.
 * The error comes if the path of an "add" or "replace" has more than
 * 10,000 - down tokens, if down is above 10,000, or if down is not 0 and the
 * document nests deeper than 10,127 - down. So it can come of a patch with
 * thousands of moves to longer paths, even if none of them deepens the document:
 * apply such a patch in parts.
 *
 * Returns   JSONPTR_OK, JSONPTR_NOT_UTF8 with offset, JSONPTR_NOT_JSON with
 *           offset, JSONPTR_NOT_PATCH with kind, operation and member, and of a
 *           bad escape with slash and offset, JSONPTR_NO_DOCUMENT,
 *           JSONPTR_TOO_DEEP (see above),
 *           JSONPTR_PATCH_FAILED with kind and operation, and with member,
 *           position, slash and offset if a pointer is at fault,
 *           JSONPTR_NO_MEMORY.
 *           An error leaves the document as it was before the first operation.
 * error     may be NULL.
 * Cost      linear in the text and in what the operations change, which is of an
 *           array the elements after the one that is added or removed, and in
 *           the document if `down` is not 0. A member that is removed or moved
 *           away leaves its object after the last operation. Each pointer is
 *           compared with those of the members that wait. If 1,024 wait, or an
 *           operation reads or writes above or below one of them, or in another
 *           element of an array around it, all leave before it, which takes time
 *           linear in their objects. A value that is added where a member waits
 *           takes its place. */
JSONPTR_API JSONPTR_NODISCARD
jsonptr_status jsonptr_document_patch(jsonptr_document *document,
                                      const char *text, size_t text_length,
                                      jsonptr_error *error);

/* Applies a patch document, all of it or nothing, and copies the text of a patch
 * document that takes it back: applied to the new document, it makes the old one.
 *
 *     [{"op": "replace", "path": "/a", "value": 2}]     in {"a": 1} is taken back by
 *     [{"op":"replace","path":"/a","value":1}]
 *
 * That text is always read again: JSONPTR_TOO_DEEP comes also, with the kind
 * JSONPTR_KIND_INVERSE_TOO_DEEP, if it would nest deeper than 127. It nests two
 * levels deeper than the values in it, which are some that the operations
 * remove, replace or move. Where a move leads up in a document that nests
 * thousands of levels, jsonptr_document_patch can return JSONPTR_TOO_DEEP for it.
 *
 * flags     JSONPTR_COMPACT or JSONPTR_PRETTY, of the text that is copied.
 * Returns   JSONPTR_OK, those of jsonptr_document_patch, JSONPTR_TOO_DEEP (see
 *           above), JSONPTR_NO_ROOM, JSONPTR_NO_MEMORY. An error, also
 *           JSONPTR_NO_ROOM, leaves the document and the buffer: so a call with a
 *           short buffer can be repeated with a longer one.
 * length    may be NULL, and so may `error`.
 * Cost      that of jsonptr_document_patch, and linear in the document, which is
 *           copied before the first operation, and in the values that the
 *           operations remove or replace. */
JSONPTR_API JSONPTR_NODISCARD
jsonptr_status jsonptr_document_patch_with_inverse(jsonptr_document *document,
                                                   const char *text, size_t text_length,
                                                   uint32_t flags,
                                                   char *out, size_t capacity, size_t *length,
                                                   jsonptr_error *error);

/* Copies a patch document that turns `from` into `to`. Both are unchanged.
 * Applied to `from`, it makes a document that prints as `to`. It is not always
 * the shortest one.
 *
 * Returns   JSONPTR_OK, JSONPTR_BAD_ARGUMENT also if both are one handle,
 *           JSONPTR_NO_DOCUMENT, JSONPTR_NO_ROOM, JSONPTR_NO_MEMORY.
 * length    may be NULL, and so may `error`.
 * Cost      linear in both documents, except for long arrays that differ. */
JSONPTR_API JSONPTR_NODISCARD
jsonptr_status jsonptr_document_diff(const jsonptr_document *from, const jsonptr_document *to,
                                     uint32_t flags,
                                     char *out, size_t capacity, size_t *length,
                                     jsonptr_error *error);

/* ---- Texts that keep their layout -------------------------------------- */

/* A handle: a text that is edited in place, or none. Its fields are for the library
 * alone. What the header says of jsonptr_document is true of it: of JSONPTR_TEXT_INIT,
 * of copies, and of threads, where jsonptr_text_copy, _locate and _pointer_at read.
 *
 *     jsonptr_text text = JSONPTR_TEXT_INIT;
 *     status = jsonptr_text_open(&text, JSONPTR_FORMAT_JSONC, bytes, length, &error);
 *     if (status == JSONPTR_OK)
 *         status = jsonptr_text_assign(&text, "/size", 5, "4.0", 3, 0, NULL, &error);
 *     if (status == JSONPTR_OK)
 *         status = jsonptr_text_copy(&text, 0, SIZE_MAX, out, capacity, &length, &error);
 *     jsonptr_text_free(&text);
 *
 * An edit in place changes the bytes of one value, member or element, and a patch
 * those of one for each operation, with white space and a comma beside it. Every
 * other byte stays: comments, white space, the order of members, the digits of
 * numbers. A value that is put there keeps its own digits, escapes and order. A text
 * of one line stays one line.
 *
 * TOML         A pointer is the same: a token is a key of a table, or an index of an
 *              array. A value is JSON too, and is written as TOML writes it, in the form
 *              of its siblings: a table with a header, dotted keys or braces. TOML has
 *              no null, and its integers go from -2^63 to 2^63 - 1. A date-time cannot
 *              be assigned. jsonptr_text_open, _assign, _delete, _rename and _copy
 *              work on TOML. The other calls return JSONPTR_OTHER_FORMAT.
 *
 * An error, also JSONPTR_NO_MEMORY, leaves the text. An edit is made once, so there
 * is no call to repeat. */
typedef struct jsonptr_text {
    void *private_address;
    bool private_is_full;
} jsonptr_text;

#define JSONPTR_TEXT_INIT { NULL, false }

/* The format of a text. Any other number is JSONPTR_BAD_ARGUMENT. */
#define JSONPTR_FORMAT_JSON  0u  /* JSON */
#define JSONPTR_FORMAT_JSONC 1u  /* JSON with comments and trailing commas, as in settings.json */
#define JSONPTR_FORMAT_TOML  2u  /* TOML, as in pyproject.toml */

/* Flags of an edit. Any other bit is JSONPTR_BAD_ARGUMENT. */
#define JSONPTR_REFORMAT 8u  /* an edit that cannot be made in place prints the document anew */

/* Which bytes an edit replaced: in the old text those from `start` up to `old_end`, by
 * those of the new text from `start` up to `new_end`. All other bytes are the same in
 * both texts. The bytes are those between the longest common start and the longest
 * common end of both texts, without parts of characters. */
typedef struct jsonptr_change {
    size_t start;
    size_t old_end;
    size_t new_end;
    bool is_reformatted; /* the document is printed anew, without comments: only with JSONPTR_REFORMAT */
    uint64_t reserved;   /* 0: a later version may use it */
} jsonptr_change;

/* Opens a text in a handle, which owns a copy of it. A text that it holds is freed.
 * A byte order mark is read past, and stays.
 *
 * Returns   JSONPTR_OK, JSONPTR_NOT_UTF8 with offset, JSONPTR_NOT_JSON with offset,
 *           and with kind if a block comment is not closed, JSONPTR_NO_MEMORY.
 *           Of TOML JSONPTR_NOT_TOML with offset, instead of JSONPTR_NOT_JSON, and
 *           JSONPTR_TOO_DEEP with kind if its values nest deeper than 80.
 *           An error leaves the handle.
 * error     may be NULL.
 * Cost      linear in the text, and in one that is freed. */
JSONPTR_API JSONPTR_NODISCARD
jsonptr_status jsonptr_text_open(jsonptr_text *text, uint32_t format,
                                 const char *bytes, size_t bytes_length,
                                 jsonptr_error *error);

/* Frees the text of a handle, which is empty afterwards and can be used again. An
 * empty handle, and NULL, are left as they are. */
JSONPTR_API void jsonptr_text_free(jsonptr_text *text);

/* Assigns the value of a JSON text at the location of a pointer, as
 * jsonptr_document_assign does. The value is plain JSON: it has no comments. A new
 * member or element comes after the last one, with the white space of the others.
 *
 *     /1 := 4.0      in [3, 5, ] // px      makes [3, 4.0, ] // px
 *
 * flags     0 or JSONPTR_REFORMAT.
 * change    may be NULL: which bytes are replaced. So may `error`.
 * Returns   JSONPTR_OK, JSONPTR_NOT_UTF8 with offset and JSONPTR_NOT_JSON with offset
 *           for the value, JSONPTR_NO_DOCUMENT,
 *           those of jsonptr_pointer_count for the pointer,
 *           JSONPTR_NOT_ASSIGNED with kind, position, slash, offset and length,
 *           JSONPTR_TOO_DEEP with kind if the text would nest deeper than 127,
 *           JSONPTR_NOT_IN_PLACE without JSONPTR_REFORMAT, JSONPTR_NO_MEMORY.
 *           Of TOML also JSONPTR_NOT_TOML_VALUE, with kind if the document would not
 *           be a table, and JSONPTR_TOO_DEEP with kind if it would nest deeper than 80.
 *           An error leaves the text and `*change`.
 * Cost      linear in the text and in the value: the text is read up to five times. */
JSONPTR_API JSONPTR_NODISCARD
jsonptr_status jsonptr_text_assign(jsonptr_text *text,
                                   const char *pointer, size_t pointer_length,
                                   const char *value, size_t value_length,
                                   uint32_t flags,
                                   jsonptr_change *change, jsonptr_error *error);

/* Deletes the value that a pointer resolves to, with its comma. If there is none, the
 * text is unchanged, and that is no error. Deleting "" leaves null, and of TOML an
 * empty document. Of members with the same key each is deleted.
 *
 * flags     0 or JSONPTR_REFORMAT.
 * found     may be NULL: whether there was a value.
 * change    may be NULL: which bytes are removed, if there was a value. Else it is
 *           left. So may `error`.
 * Returns   JSONPTR_OK, JSONPTR_NO_DOCUMENT, those of jsonptr_pointer_count,
 *           JSONPTR_NOT_IN_PLACE without JSONPTR_REFORMAT, JSONPTR_NO_MEMORY.
 *           An error leaves the text, `*found` and `*change`.
 * Cost      linear in the text. */
JSONPTR_API JSONPTR_NODISCARD
jsonptr_status jsonptr_text_delete(jsonptr_text *text,
                                   const char *pointer, size_t pointer_length,
                                   uint32_t flags,
                                   bool *found, jsonptr_change *change, jsonptr_error *error);

/* Renames the member of an object that a pointer resolves to: it keeps its place
 * among the others, its value and its white space. The key is not escaped. A member
 * that has the key already is left as it is.
 *
 * flags     0 or JSONPTR_REFORMAT.
 * change    may be NULL, and so may `error`.
 * Returns   JSONPTR_OK, JSONPTR_NOT_UTF8 with offset for the key, JSONPTR_NO_DOCUMENT,
 *           those of jsonptr_pointer_count, JSONPTR_NOT_RENAMED with kind,
 *           JSONPTR_NOT_IN_PLACE without JSONPTR_REFORMAT, JSONPTR_NO_MEMORY.
 *           An error leaves the text and `*change`.
 * Cost      linear in the text. */
JSONPTR_API JSONPTR_NODISCARD
jsonptr_status jsonptr_text_rename(jsonptr_text *text,
                                   const char *pointer, size_t pointer_length,
                                   const char *key, size_t key_length,
                                   uint32_t flags,
                                   jsonptr_change *change, jsonptr_error *error);

/* Applies a patch document (RFC 6902), all of it or nothing. The patch is plain JSON.
 * Its values keep their digits, their escapes and the order of their members. A
 * "test" compares as that of jsonptr_document_patch.
 *
 * flags     0 or JSONPTR_REFORMAT.
 * change    may be NULL: the bytes from the first to the last that are replaced. So
 *           may `error`.
 * Returns   JSONPTR_OK, JSONPTR_NOT_UTF8 with offset, JSONPTR_NOT_JSON with offset,
 *           JSONPTR_NOT_PATCH as jsonptr_document_patch, JSONPTR_NOT_LOCATED if the
 *           text of a value is not found in the patch, for which no text is known,
 *           JSONPTR_NO_DOCUMENT, JSONPTR_PATCH_FAILED as jsonptr_document_patch,
 *           JSONPTR_TOO_DEEP with kind if the text would nest deeper than 127,
 *           JSONPTR_NOT_IN_PLACE without JSONPTR_REFORMAT,
 *           JSONPTR_OTHER_FORMAT of TOML, JSONPTR_NO_MEMORY.
 *           An error leaves the text and `*change`.
 * Cost      linear in the text for each operation. */
JSONPTR_API JSONPTR_NODISCARD
jsonptr_status jsonptr_text_patch(jsonptr_text *text,
                                  const char *patch, size_t patch_length,
                                  uint32_t flags,
                                  jsonptr_change *change, jsonptr_error *error);

/* Puts the document of another JSON text into a text, in the layout that it has. A
 * value that is the same keeps its bytes, and a new one is laid out as its siblings
 * are. A text that already reads as that document is unchanged. The format is
 * JSONPTR_FORMAT_JSON.
 *
 * flags     0 or JSONPTR_REFORMAT: a document that cannot be laid out so takes the
 *           other text as it is.
 * change    may be NULL, and so may `error`.
 * Returns   JSONPTR_OK, JSONPTR_NOT_UTF8 with offset and JSONPTR_NOT_JSON with offset
 *           for the other text, JSONPTR_NO_DOCUMENT, JSONPTR_OTHER_FORMAT,
 *           JSONPTR_NOT_IN_PLACE without JSONPTR_REFORMAT, JSONPTR_NO_MEMORY.
 *           An error leaves the text and `*change`.
 * Cost      linear in both texts, and in the logarithm of the longest array and object. */
JSONPTR_API JSONPTR_NODISCARD
jsonptr_status jsonptr_text_relayout(jsonptr_text *text,
                                     const char *json, size_t json_length,
                                     uint32_t flags,
                                     jsonptr_change *change, jsonptr_error *error);

/* Replaces comments and trailing commas by spaces. The format is then
 * JSONPTR_FORMAT_JSON, and each offset is as before.
 *
 * Returns   JSONPTR_OK, JSONPTR_NO_DOCUMENT, JSONPTR_OTHER_FORMAT of TOML,
 *           JSONPTR_NO_MEMORY. An error leaves the text.
 * error     may be NULL.
 * Cost      linear in the text. */
JSONPTR_API JSONPTR_NODISCARD
jsonptr_status jsonptr_text_remove_comments(jsonptr_text *text, jsonptr_error *error);

/* Says where the value that a pointer resolves to is in a text, as
 * jsonptr_locate_in_text does: from the offset of its first byte to the offset after
 * its last one. The bytes are the value as it is written, with the comments in it.
 *
 * start     may be NULL, and so may `end` and `error`.
 * Returns   JSONPTR_OK, JSONPTR_NO_DOCUMENT, those of jsonptr_pointer_count,
 *           JSONPTR_NOT_FOUND with kind, position, slash, offset and length,
 *           JSONPTR_NOT_LOCATED as jsonptr_locate_in_text,
 *           JSONPTR_OTHER_FORMAT of TOML, JSONPTR_NO_MEMORY.
 *           An error leaves `*start` and `*end`.
 * Cost      linear in the text. */
JSONPTR_API JSONPTR_NODISCARD
jsonptr_status jsonptr_text_locate(const jsonptr_text *text,
                                   const char *pointer, size_t pointer_length,
                                   size_t *start, size_t *end,
                                   jsonptr_error *error);

/* Copies the pointer of the innermost value at an offset of a text, as
 * jsonptr_pointer_at_in_text does. A comment is of the value around it.
 *
 * Returns   JSONPTR_OK, JSONPTR_NO_DOCUMENT, JSONPTR_NOT_LOCATED as
 *           jsonptr_locate_in_text of "", JSONPTR_NO_VALUE with offset,
 *           JSONPTR_OTHER_FORMAT of TOML, JSONPTR_NO_ROOM, JSONPTR_NO_MEMORY.
 * length    may be NULL, and so may `error`.
 * Cost      linear in the text. */
JSONPTR_API JSONPTR_NODISCARD
jsonptr_status jsonptr_text_pointer_at(const jsonptr_text *text, size_t offset,
                                       char *out, size_t capacity, size_t *length,
                                       jsonptr_error *error);

/* Copies the bytes of a text from the offset `start` up to `end`, as far as it has
 * them. All of it is from 0 to SIZE_MAX, with its byte order mark.
 *
 * Returns   JSONPTR_OK, JSONPTR_NO_DOCUMENT, JSONPTR_NO_ROOM.
 * length    may be NULL, and so may `error`.
 * Cost      linear in the bytes that are copied. Allocates nothing. */
JSONPTR_API JSONPTR_NODISCARD
jsonptr_status jsonptr_text_copy(const jsonptr_text *text, size_t start, size_t end,
                                 char *out, size_t capacity, size_t *length,
                                 jsonptr_error *error);

/* ---- Without a document ------------------------------------------------ */

/* Copies the JSON text of a string, with quotation marks and escapes, as a value of
 * jsonptr_document_assign or jsonptr_text_assign: a"b is "a\"b".
 *
 * Returns   JSONPTR_OK, JSONPTR_NOT_UTF8 with offset, JSONPTR_NO_ROOM,
 *           JSONPTR_NO_MEMORY.
 * length    may be NULL, and so may `error`.
 * Cost      linear in the string. */
JSONPTR_API JSONPTR_NODISCARD
jsonptr_status jsonptr_quote(const char *string, size_t string_length,
                             char *out, size_t capacity, size_t *length,
                             jsonptr_error *error);

/* Copies the JSON text of the value that a pointer resolves to in a JSON text,
 * in one pass and without a document. The result is that of
 * jsonptr_document_parse and jsonptr_document_get, which is slower for one
 * pointer and faster for many. All of the text is read and must be JSON. If both
 * texts are at fault, the error is the pointer's.
 *
 * Returns   JSONPTR_OK, those of jsonptr_pointer_count for the pointer,
 *           JSONPTR_NOT_UTF8 with offset and JSONPTR_NOT_JSON with offset for the
 *           text, JSONPTR_NOT_FOUND with kind, position, slash, offset and
 *           length, JSONPTR_NO_ROOM, JSONPTR_NO_MEMORY.
 * length    may be NULL, and so may `error`.
 * Cost      linear in the text. */
JSONPTR_API JSONPTR_NODISCARD
jsonptr_status jsonptr_resolve_in_text(const char *text, size_t text_length,
                                       const char *pointer, size_t pointer_length,
                                       uint32_t flags,
                                       char *out, size_t capacity, size_t *length,
                                       jsonptr_error *error);

/* Looks for the first number of a JSON text that loses digits, as
 * jsonptr_document_parse_with does, and copies its pointer. So it identifies a number
 * of JSONPTR_NOT_EXACT by its pointer, and tests the text of a value or of a patch
 * document before it is passed to another call.
 *
 *     {"ids": [1, 12345678901234567890123]}     has "/ids/1"
 *
 * found     may be NULL: whether a number loses digits. If none does, `*length`
 *           is set to 0. So may `length` and `error`.
 * Returns   JSONPTR_OK, JSONPTR_NOT_UTF8 with offset, JSONPTR_NOT_JSON with
 *           offset, JSONPTR_NOT_EXACT with offset and length if the number has no
 *           pointer, since the key of a member that it is in comes again,
 *           JSONPTR_NO_ROOM, JSONPTR_NO_MEMORY. An error leaves `*found`.
 * Cost      linear in the text, which is read several times. Its document is
 *           allocated and freed on the way. */
JSONPTR_API JSONPTR_NODISCARD
jsonptr_status jsonptr_lost_number_in_text(const char *text, size_t text_length,
                                           bool *found,
                                           char *out, size_t capacity, size_t *length,
                                           jsonptr_error *error);

/* Says where the value that a pointer resolves to is in a JSON text, in bytes: from
 * the offset of its first byte to the offset after its last one. These bytes are
 * the value as it is written, with its digits, its escapes and the white space
 * within it, but not around it. Of a repeated key the last member counts.
 *
 *     {"sizes": [3.0, 5]}     has "/sizes/0", which is 3.0, from 11 to 14
 *
 * start     may be NULL, and so may `end` and `error`.
 * Returns   JSONPTR_OK, those of jsonptr_pointer_count for the pointer,
 *           JSONPTR_NOT_UTF8 with offset and JSONPTR_NOT_JSON with offset for the
 *           text, JSONPTR_NOT_FOUND with kind, position, slash, offset and
 *           length, JSONPTR_NOT_LOCATED if the value is there but its bytes do
 *           not pass the check of the library, for which no text is known,
 *           JSONPTR_NO_MEMORY. An error leaves `*start` and `*end`.
 * Cost      linear in the text. */
JSONPTR_API JSONPTR_NODISCARD
jsonptr_status jsonptr_locate_in_text(const char *text, size_t text_length,
                                      const char *pointer, size_t pointer_length,
                                      size_t *start, size_t *end,
                                      jsonptr_error *error);

/* Copies the pointer of the innermost value at an offset of a JSON text: of the
 * smallest value, from its first to its last byte as jsonptr_locate_in_text has
 * it, that contains the byte there. The byte of a key, of a comma or of white space
 * between two members is one of their object.
 *
 *     {"sizes": [3.0, 5]}     has "/sizes/0" at 11, 12 and 13, "/sizes" at 14, "" at 1
 *
 * If a key is repeated, the values of the other members have no pointer: there
 * the result is the pointer of a value around them, which need not be the smallest.
 *
 * offset    in bytes, from 0.
 * Returns   JSONPTR_OK, JSONPTR_NOT_UTF8 with offset and JSONPTR_NOT_JSON with
 *           offset, JSONPTR_NOT_LOCATED as jsonptr_locate_in_text of "",
 *           JSONPTR_NO_VALUE with offset if the byte is before or after the
 *           document or the text ends before it, JSONPTR_NO_ROOM,
 *           JSONPTR_NO_MEMORY.
 * length    may be NULL, and so may `error`.
 * Cost      linear in the text. */
JSONPTR_API JSONPTR_NODISCARD
jsonptr_status jsonptr_pointer_at_in_text(const char *text, size_t text_length,
                                          size_t offset,
                                          char *out, size_t capacity, size_t *length,
                                          jsonptr_error *error);

/* The version of the library, JSONPTR_VERSION of its own header, with a closing
 * zero. */
JSONPTR_API const char *jsonptr_version(void);

#ifdef __cplusplus
}
#endif

#if defined(__cplusplus) && __cplusplus >= 201103L
/* For C++: a handle that is freed with its variable. It moves, and cannot be copied.
 *
 *     jsonptr::text text;
 *     jsonptr_status status = jsonptr_text_open(text.handle(), JSONPTR_FORMAT_JSON, bytes, length, &error); */
namespace jsonptr {
template <typename Handle, void (*Free)(Handle *)> class owner {
public:
    owner() noexcept : held() {}
    owner(owner &&other) noexcept : held(other.held) { other.held = Handle(); }
    owner &operator=(owner &&other) noexcept {
        Handle taken = other.held;
        other.held = Handle();
        Free(&held);
        held = taken;
        return *this;
    }
    ~owner() { Free(&held); }
    Handle *handle() noexcept { return &held; }
    const Handle *handle() const noexcept { return &held; }

private:
    Handle held;
};
using document = owner<jsonptr_document, jsonptr_document_free>;
using text = owner<jsonptr_text, jsonptr_text_free>;
}
#endif
#endif
