/* Documents that nest deep: no call makes a document that nests deeper than 10,127, and each call on one that does nest
 * so deep fits a stack of 8 MiB.
 *
 *     depth             the tests
 *     depth --stack     prints the stack that each call takes on such a document
 *
 * Each call runs on a thread of its own, whose stack is filled with a pattern before. */
#define _GNU_SOURCE
#include "tests.h"

#include <pthread.h>
#include <sys/mman.h>

/* The greatest depth of a document, and the most tokens of a pointer to assign or add at. */
#define DEPTH 10127
#define TOKENS 10000

#define STACK ((size_t)8 << 20)
#define PATTERN 0xa5

/* A text that is made by appending. */
typedef struct text {
    char *bytes;
    size_t length;
} text;

static void append(text *t, const char *more) {
    size_t length = strlen(more);
    t->bytes = realloc(t->bytes, t->length + length + 1);
    if (t->bytes == NULL) {
        printf("no memory\n");
        exit(1);
    }
    memcpy(t->bytes + t->length, more, length + 1);
    t->length += length;
}

static text repeated(const char *part, size_t times) {
    text t = { NULL, 0 };
    append(&t, "");
    while (times-- > 0) {
        append(&t, part);
    }
    return t;
}

/* Returns the document `[[..]]` with so many levels. */
static jsonptr_document nested(size_t levels) {
    text tokens = repeated("/0", levels - 127), opened = repeated("[", 127), closed = repeated("]", 127);
    jsonptr_document document = parsed("[]");
    append(&opened, closed.bytes);
    expect_number("status", "a deep assignment",
                  jsonptr_document_assign(&document, TEXT(tokens.bytes), TEXT(opened.bytes), NULL), JSONPTR_OK);
    free(tokens.bytes);
    free(opened.bytes);
    free(closed.bytes);
    return document;
}

/* ---- The bound --------------------------------------------------------- */

/* Checks that the document prints so many opening brackets first. */
static void expect_depth(const char *about, jsonptr_document *document, size_t levels) {
    size_t length = 0, found = 0;
    expect_number("status of the length", about, jsonptr_document_print(document, 0, NULL, 0, &length, NULL),
                  JSONPTR_NO_ROOM);
    char *out = malloc(length);
    expect_number("status of the text", about, jsonptr_document_print(document, 0, out, length, NULL, NULL), JSONPTR_OK);
    while (found < length && (out[found] == '[' || out[found] == '{')) {
        found++;
    }
    expect_number("depth", about, found, levels);
    free(out);
}

/* Checks the error of a document that would nest too deep. */
static void expect_too_deep(const char *about, jsonptr_status status, const jsonptr_error *error) {
    jsonptr_error wanted = { .status = JSONPTR_TOO_DEEP };
    expect_number("status", about, status, JSONPTR_TOO_DEEP);
    expect_number("fields", about, memcmp(error, &wanted, sizeof wanted) == 0, 1);
    expect_message(about, error, "the document could nest deeper than 10,127");
}

/* Assignments at pointers of more and more tokens. */
static void check_assignments(void) {
    static const size_t tokens[] = { TOKENS + 1, 100000 };
    jsonptr_document document = parsed("{\"a\":[7]}");
    jsonptr_error error;
    for (size_t i = 0; i < sizeof tokens / sizeof *tokens; i++) {
        text pointer = repeated("/0", tokens[i]);
        expect_too_deep("a long pointer", jsonptr_document_assign(&document, TEXT(pointer.bytes), "1", 1, &error), &error);
        expect_document("after a long pointer", &document, "{\"a\":[7]}");
        free(pointer.bytes);
    }
    jsonptr_document_free(&document);
    document = nested(DEPTH);
    expect_depth("the deepest document", &document, DEPTH);
    jsonptr_document_free(&document);
}

/* Operations of a patch that add a value at pointers of more and more tokens. */
static void check_additions(void) {
    jsonptr_document document = parsed("{\"a\":[7]}");
    jsonptr_error error;
    text longest = repeated("/0", TOKENS), longer = repeated("/0", TOKENS + 1);
    const char *names[] = { "add", "replace" };
    for (size_t i = 0; i < 2; i++) {
        text patch = repeated("[{\"op\":\"remove\",\"path\":\"/a/0\"},{\"op\":\"", 1);
        append(&patch, names[i]);
        append(&patch, "\",\"value\":1,\"path\":\"");
        text within = repeated(patch.bytes, 1);
        append(&patch, longer.bytes);
        append(&patch, "\"}]");
        append(&within, longest.bytes);
        append(&within, "\"}]");
        expect_too_deep(names[i], jsonptr_document_patch(&document, TEXT(patch.bytes), &error), &error);
        expect_number("status at 10,000 tokens", names[i], jsonptr_document_patch(&document, TEXT(within.bytes), &error),
                      JSONPTR_PATCH_FAILED);
        expect_number("operation", names[i], error.operation, 1);
        expect_document("after a long path", &document, "{\"a\":[7]}");
        free(patch.bytes);
        free(within.bytes);
    }
    free(longest.bytes);
    free(longer.bytes);
    jsonptr_document_free(&document);
}

/* Puts the first element of an array into a new array: one level more. */
#define WRAP "{\"op\":\"add\",\"path\":\"/0\",\"value\":[]},{\"op\":\"move\",\"from\":\"/1\",\"path\":\"/0/0\"}"

/* Returns a patch that does so several times. */
static text wraps(size_t times) {
    text patch = repeated("[" WRAP, 1), more = repeated("," WRAP, times - 1);
    append(&patch, more.bytes);
    append(&patch, "]");
    free(more.bytes);
    return patch;
}

/* Many moves in one patch, each a level down. */
static void check_moves(void) {
    jsonptr_document document = parsed("[[]]");
    jsonptr_error error;
    text most = wraps(5000), more = wraps(TOKENS + 1);
    expect_too_deep("10,001 moves", jsonptr_document_patch(&document, TEXT(more.bytes), &error), &error);
    expect_document("after 10,001 moves", &document, "[[]]");
    expect_number("status", "5,000 moves", jsonptr_document_patch(&document, TEXT(most.bytes), NULL), JSONPTR_OK);
    expect_number("status", "10,000 moves", jsonptr_document_patch(&document, TEXT(most.bytes), NULL), JSONPTR_OK);
    expect_depth("10,000 moves", &document, 10002);
    expect_too_deep("15,000 moves", jsonptr_document_patch(&document, TEXT(most.bytes), &error), &error);
    expect_depth("after 15,000 moves", &document, 10002);
    free(most.bytes);
    free(more.bytes);
    jsonptr_document_free(&document);
}

/* Calls that each nest the document one level deeper, until one fails. */
static void check_calls(const char *about, const char *patch) {
    jsonptr_document document = parsed("[[7]]");
    jsonptr_error error;
    jsonptr_status status;
    size_t done = 0;
    while ((status = jsonptr_document_patch(&document, TEXT(patch), &error)) == JSONPTR_OK && done < 2 * DEPTH) {
        done++;
    }
    expect_too_deep(about, status, &error);
    expect_number("calls before the error", about, done, DEPTH - 2);
    expect_depth(about, &document, DEPTH);
    jsonptr_document_free(&document);
}

/* Moves that lead up, and along one level, never fail: the document may be as deep as can be. */
static void check_deepest(void) {
    static const char up[] = "[{\"op\":\"move\",\"from\":\"/0/0\",\"path\":\"/1\"},{\"op\":\"move\",\"from\":\"/1\",\"path\":\"/0\"},"
                             "{\"op\":\"copy\",\"from\":\"/0\",\"path\":\"/2\"},{\"op\":\"remove\",\"path\":\"/1\"}]";
    static const char down[] = "[{\"op\":\"copy\",\"from\":\"/0\",\"path\":\"/0/0\"}]";
    jsonptr_document document = nested(DEPTH);
    jsonptr_error error;
    expect_too_deep("a copy", jsonptr_document_patch(&document, TEXT(down), &error), &error);
    expect_depth("after a copy", &document, DEPTH);
    expect_number("status", "moves up", jsonptr_document_patch(&document, TEXT(up), NULL), JSONPTR_OK);
    expect_depth("moves up", &document, DEPTH - 1);
    expect_number("status", "a copy one level down", jsonptr_document_patch(&document, TEXT(down), NULL), JSONPTR_OK);
    expect_depth("a copy one level down", &document, DEPTH);
    jsonptr_document_free(&document);
}

static void *run_tests(void *unused) {
    check_assignments();
    check_additions();
    check_moves();
    check_calls("a move in each call", "[" WRAP "]");
    check_calls("a copy in each call", "[{\"op\":\"copy\",\"from\":\"/0\",\"path\":\"/0/0\"},{\"op\":\"remove\",\"path\":\"/0/1\"}]");
    check_deepest();
    return unused;
}

/* ---- The stack --------------------------------------------------------- */

static jsonptr_document deepest, other;
static const char *first, *second; /* the pointers of the only child of a document, and of one that is new */
static text tokens;
static char *out;

#define OUT ((size_t)1 << 20)

static jsonptr_status call_print(void) { return jsonptr_document_print(&deepest, JSONPTR_COMPACT, out, OUT, NULL, NULL); }
static jsonptr_status call_pretty(void) { return jsonptr_document_print(&deepest, JSONPTR_PRETTY, NULL, 0, NULL, NULL); }
static jsonptr_status call_get(void) { return jsonptr_document_get(&deepest, TEXT(first), 0, out, OUT, NULL, NULL); }

static jsonptr_status call_string(void) {
    return jsonptr_document_string(&deepest, TEXT(tokens.bytes), out, OUT, NULL, NULL);
}

static jsonptr_status call_node(void) {
    jsonptr_node node;
    return jsonptr_document_node(&deepest, TEXT(tokens.bytes), &node, NULL);
}

static jsonptr_status call_assign(void) {
    return jsonptr_document_assign(&deepest, TEXT(tokens.bytes), "[]", 2, NULL);
}

static jsonptr_status call_assign_string(void) {
    return jsonptr_document_assign_string(&deepest, TEXT(tokens.bytes), TEXT("text"), NULL);
}

/* The keys of a value that is an object or is not. */
static jsonptr_status call_next_key(void) {
    jsonptr_status status = jsonptr_document_next_key(&deepest, TEXT(tokens.bytes), TEXT("A"), NULL, out, OUT, NULL, NULL);
    return status == JSONPTR_OTHER_TYPE ? JSONPTR_OK : status;
}

static jsonptr_status patch_with(const char *format) {
    char patch[256];
    int length = snprintf(patch, sizeof patch, format, first, second);
    return jsonptr_document_patch(&deepest, patch, (size_t)length, NULL);
}

static jsonptr_status call_copy(void) {
    return patch_with("[{\"op\":\"copy\",\"from\":\"%s\",\"path\":\"%s\"}]");
}

static jsonptr_status call_replace(void) { return patch_with("[{\"op\":\"replace\",\"path\":\"%s\",\"value\":1}]"); }

static jsonptr_status call_failing(void) {
    return patch_with("[{\"op\":\"copy\",\"from\":\"%s\",\"path\":\"%s\"},{\"op\":\"remove\",\"path\":\"/9\"}]");
}

/* No value of the inverse is deep. The document is copied, and the old one freed. */
static jsonptr_status call_inverse(void) {
    char patch[256];
    int length = snprintf(patch, sizeof patch, "[{\"op\":\"add\",\"path\":\"%s\",\"value\":1},{\"op\":\"remove\",\"path\":\"%s\"}]",
                          second, second);
    return jsonptr_document_patch_with_inverse(&deepest, patch, (size_t)length, 0, out, OUT, NULL, NULL);
}

/* Replaces the value at the longest pointer, which nests 127 levels: two levels deeper is too deep. */
static jsonptr_status call_value_inverse(void) {
    text patch = repeated("[{\"op\":\"replace\",\"value\":1,\"path\":\"", 1);
    append(&patch, tokens.bytes);
    append(&patch, "\"}]");
    jsonptr_status status =
        jsonptr_document_patch_with_inverse(&deepest, TEXT(patch.bytes), 0, out, OUT, NULL, NULL);
    free(patch.bytes);
    return status;
}

/* The inverse would have the whole document. */
static jsonptr_status call_deep_inverse(void) {
    return jsonptr_document_patch_with_inverse(&deepest, TEXT("[{\"op\":\"remove\",\"path\":\"\"}]"), 0, out, OUT, NULL, NULL);
}

/* Looks at the depth of the document, since the path is longer. */
static jsonptr_status call_deepening(void) {
    return patch_with("[{\"op\":\"copy\",\"from\":\"\",\"path\":\"%s\"}]");
}

static jsonptr_status call_diff(void) { return jsonptr_document_diff(&deepest, &other, 0, out, OUT, NULL, NULL); }

static jsonptr_status call_diff_to(void) { return jsonptr_document_diff(&other, &deepest, 0, out, OUT, NULL, NULL); }

static jsonptr_status call_delete(void) { return jsonptr_document_delete(&deepest, TEXT(first), NULL, NULL); }

static jsonptr_status call_parse(void) { return jsonptr_document_parse(&deepest, "1", 1, NULL); }

static jsonptr_status call_parse_with(void) {
    return jsonptr_document_parse_with(&deepest, "1", 1, JSONPTR_EXACT_NUMBERS, NULL);
}

static jsonptr_status call_free(void) {
    jsonptr_document_free(&deepest);
    return JSONPTR_OK;
}

static const struct {
    const char *name;
    jsonptr_status (*call)(void);
    jsonptr_status status;
    bool is_long; /* takes long, so it is not a test */
} calls[] = {
    { "print", call_print, JSONPTR_OK, false },
    { "print on lines", call_pretty, JSONPTR_NO_ROOM, true },
    { "get", call_get, JSONPTR_OK, false },
    { "string", call_string, JSONPTR_OTHER_TYPE, false },
    { "node", call_node, JSONPTR_OK, false },
    { "assign", call_assign, JSONPTR_OK, false },
    { "assign a string", call_assign_string, JSONPTR_OK, false },
    { "next key", call_next_key, JSONPTR_OK, false },
    { "delete", call_delete, JSONPTR_OK, false },
    { "patch: replace", call_replace, JSONPTR_OK, false },
    { "patch: copy", call_copy, JSONPTR_OK, false },
    { "patch that is undone", call_failing, JSONPTR_PATCH_FAILED, false },
    { "patch with an inverse", call_inverse, JSONPTR_OK, false },
    { "patch with a value too deep for an inverse", call_value_inverse, JSONPTR_TOO_DEEP, false },
    { "patch with a deep inverse", call_deep_inverse, JSONPTR_TOO_DEEP, false },
    { "patch that is too deep", call_deepening, JSONPTR_TOO_DEEP, false },
    { "diff from it", call_diff, JSONPTR_OK, false },
    { "diff to it", call_diff_to, JSONPTR_OK, false },
    { "parse, which frees it", call_parse, JSONPTR_OK, false },
    { "parse with flags, which frees it", call_parse_with, JSONPTR_OK, false },
    { "free", call_free, JSONPTR_OK, false },
};

/* Frees both documents, on the large stack. */
static void *free_both(void *unused) {
    jsonptr_document_free(&deepest);
    jsonptr_document_free(&other);
    return unused;
}

static jsonptr_status (*current)(void);
static jsonptr_status returned;

static void *run_call(void *unused) {
    returned = current();
    return unused;
}

/* Runs a function on a thread with a stack of 8 MiB, and returns how many bytes of it were written to. */
static size_t stack_of(void *(*run)(void *)) {
    pthread_t thread;
    pthread_attr_t attributes;
    unsigned char *stack = mmap(NULL, STACK, PROT_READ | PROT_WRITE, MAP_PRIVATE | MAP_ANONYMOUS, -1, 0);
    size_t untouched = 0;
    if (stack == MAP_FAILED || pthread_attr_init(&attributes) != 0
        || pthread_attr_setstack(&attributes, stack, STACK) != 0) {
        printf("no stack\n");
        exit(1);
    }
    memset(stack, PATTERN, STACK);
    expect_number("start", "a thread", (unsigned long long)pthread_create(&thread, &attributes, run, NULL), 0);
    expect_number("end", "a thread", (unsigned long long)pthread_join(thread, NULL), 0);
    while (untouched < STACK && stack[untouched] == PATTERN) {
        untouched++;
    }
    pthread_attr_destroy(&attributes);
    munmap(stack, STACK);
    return STACK - untouched;
}

/* Runs each call on a document that nests as deep as can be. With `is_shown`, prints the stack that it takes. */
static void check_stack(const char *shape, const char *leaf, bool is_shown) {
    size_t most = 0;
    tokens = repeated(first, TOKENS);
    out = malloc(OUT);
    for (size_t i = 0; i < sizeof calls / sizeof *calls; i++) {
        if (calls[i].is_long && !is_shown) {
            continue;
        }
        deepest = parsed(leaf);
        other = parsed(leaf);
        text opened = repeated("[", 126), closed = repeated("]", 126), changed = repeated("[", 125);
        append(&opened, leaf);
        append(&opened, closed.bytes);
        append(&changed, "7");
        append(&changed, closed.bytes + 1);
        expect_number("status", "a deep assignment",
                      jsonptr_document_assign(&deepest, TEXT(tokens.bytes), TEXT(opened.bytes), NULL), JSONPTR_OK);
        expect_number("status", "a deep assignment",
                      jsonptr_document_assign(&other, TEXT(tokens.bytes), TEXT(changed.bytes), NULL), JSONPTR_OK);
        current = calls[i].call;
        size_t taken = stack_of(run_call);
        expect_number("status", calls[i].name, returned, calls[i].status);
        if (is_shown) {
            printf("%s, %s: %zu bytes, %.0f a level\n", shape, calls[i].name, taken, (double)taken / DEPTH);
        }
        most = taken > most ? taken : most;
        stack_of(free_both);
        free(opened.bytes);
        free(closed.bytes);
        free(changed.bytes);
    }
    free(tokens.bytes);
    free(out);
    if (is_shown) {
        printf("%s, the most: %.2f MiB\n", shape, (double)most / (1 << 20));
    }
}

/* A text that nests as deep as can be read, and the middle of it. */
static text shallow;
static size_t middle, start, end;

static jsonptr_status call_locate_in_text(void) {
    return jsonptr_locate_in_text(TEXT(shallow.bytes), TEXT(tokens.bytes), &start, &end, NULL);
}

static jsonptr_status call_pointer_at_in_text(void) {
    return jsonptr_pointer_at_in_text(TEXT(shallow.bytes), middle, out, OUT, NULL, NULL);
}

static jsonptr_status call_resolve_in_text(void) {
    return jsonptr_resolve_in_text(TEXT(shallow.bytes), TEXT(tokens.bytes), 0, out, OUT, NULL, NULL);
}

static jsonptr_status call_read(void) { return jsonptr_document_parse(&deepest, TEXT(shallow.bytes), NULL); }

static const struct {
    const char *name;
    jsonptr_status (*call)(void);
    size_t most;
} text_calls[] = {
    { "locate in a text", call_locate_in_text, (size_t)256 << 10 },
    { "pointer at an offset of a text", call_pointer_at_in_text, (size_t)256 << 10 },
    { "resolve in a text", call_resolve_in_text, (size_t)256 << 10 },
    { "parse a text", call_read, (size_t)128 << 10 },
    { "print it", call_print, (size_t)128 << 10 },
    { "next key", call_next_key, (size_t)128 << 10 },
    { "assign a string", call_assign_string, (size_t)128 << 10 },
    { "free it", call_free, (size_t)128 << 10 },
};

/* Runs calls on a text that nests 127 levels, and on its document. */
static void check_texts(const char *opening, const char *leaf, const char *closing, bool is_shown) {
    text closed = repeated(closing, 126);
    shallow = repeated(opening, 126);
    tokens = repeated(first, 126);
    out = malloc(OUT);
    append(&shallow, leaf);
    middle = shallow.length - 1;
    append(&shallow, closed.bytes);
    for (size_t i = 0; i < sizeof text_calls / sizeof *text_calls; i++) {
        current = text_calls[i].call;
        size_t taken = stack_of(run_call);
        expect_number("status", text_calls[i].name, returned, JSONPTR_OK);
        expect_number("enough stack", text_calls[i].name, taken <= text_calls[i].most, 1);
        if (is_shown) {
            printf("127 levels of %s, %s: %zu bytes\n", opening, text_calls[i].name, taken);
        }
    }
    free(closed.bytes);
    free(shallow.bytes);
    free(tokens.bytes);
    free(out);
}

int main(int argc, char **argv) {
    bool is_shown = argc > 1 && strcmp(argv[1], "--stack") == 0;
    first = "/0";
    second = "/1";
    check_stack("arrays", "[]", is_shown);
    check_texts("[", "[]", "]", is_shown);
    first = "/a";
    second = "/b";
    check_stack("objects", "{}", is_shown);
    check_texts("{\"a\":", "{}", "}", is_shown);
    if (!is_shown) {
        stack_of(run_tests);
    }
    return report("depth");
}
