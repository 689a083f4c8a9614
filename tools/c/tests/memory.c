/* Each request for memory fails in turn. A call whose request fails returns JSONPTR_NO_MEMORY, and the document prints as
 * before, as does the text. After each round no block is left. The linker calls these functions in place of malloc, realloc and free. */
#include "tests.h"

void *__real_malloc(size_t size);
void *__real_realloc(void *block, size_t size);
void __real_free(void *block);

/* The requests until the one that fails, or -1. */
static long left = -1;
static long blocks;

static bool fails(void) {
    return left >= 0 && left-- == 0;
}

void *__wrap_malloc(size_t size) {
    void *block = fails() ? NULL : __real_malloc(size);
    blocks += block != NULL;
    return block;
}

void *__wrap_realloc(void *block, size_t size) {
    void *moved = fails() ? NULL : __real_realloc(block, size);
    blocks += block == NULL && moved != NULL;
    return moved;
}

void __wrap_free(void *block) {
    blocks -= block != NULL;
    __real_free(block);
}

#define DOCUMENT "{\"a/b\":[1,{\"c\":null}],\"long key that is stored\":[[],{},\"a string that is stored\",15]}"
#define OTHER "{\"a/b\":[2,{\"d\":\"another string\"}],\"x\":[0]}"
#define PATCH "[{\"op\":\"copy\",\"from\":\"/a~1b\",\"path\":\"/copy\"},{\"op\":\"add\",\"path\":\"/a~1b/-\",\"value\":\"new\"}," \
              "{\"op\":\"move\",\"from\":\"/copy/0\",\"path\":\"/m~0n\"},{\"op\":\"remove\",\"path\":\"/long key that is stored/2\"}]"

#define SETTINGS "{\n  // one\n  \"a/b\": [1.0, {\"c\": null}], /* two */\n  \"long key that is stored\": \"a string that is stored\",\n}\n"
#define EDITS "[{\"op\":\"copy\",\"from\":\"/a~1b\",\"path\":\"/copy\"},{\"op\":\"add\",\"path\":\"/a~1b/-\",\"value\":\"new\"}," \
              "{\"op\":\"remove\",\"path\":\"/long key that is stored\"}]"

#define TABLES "# one\n[a] # two\nb = [1.0, 'a string that is stored']\n\n[long_key.that_is_stored]\nc = 1\n"

typedef struct state {
    jsonptr_document document, other;
    jsonptr_text text, json, toml;
    char out[1024];
} state;

static jsonptr_status parse(state *s) {
    return jsonptr_document_parse(&s->document, TEXT(DOCUMENT), NULL);
}

static jsonptr_status exact(state *s) {
    return jsonptr_document_parse_with(&s->document, TEXT(DOCUMENT), JSONPTR_EXACT_NUMBERS, NULL);
}

static jsonptr_status not_exact(state *s) {
    jsonptr_status status = jsonptr_document_parse_with(&s->document, TEXT("{\"a/b\":[1e-400]}"), JSONPTR_EXACT_NUMBERS, NULL);
    return status == JSONPTR_NOT_EXACT ? JSONPTR_OK : status;
}

static jsonptr_status lost_number(state *s) {
    return jsonptr_lost_number_in_text(TEXT("{\"a/b\":[1e-400]}"), NULL, s->out, sizeof s->out, NULL, NULL);
}

static jsonptr_status print(state *s) {
    return jsonptr_document_print(&s->document, JSONPTR_PRETTY, s->out, sizeof s->out, NULL, NULL);
}

static jsonptr_status get(state *s) {
    return jsonptr_document_get(&s->document, TEXT("/a~1b/1"), 0, s->out, sizeof s->out, NULL, NULL);
}

static jsonptr_status string(state *s) {
    return jsonptr_document_string(&s->document, TEXT("/long key that is stored/2"), s->out, sizeof s->out, NULL, NULL);
}

static jsonptr_status node(state *s) {
    jsonptr_node found;
    return jsonptr_document_node(&s->document, TEXT("/a~1b/1"), &found, NULL);
}

static jsonptr_status assign(state *s) {
    return jsonptr_document_assign(&s->document, TEXT("/new~1member/-/of/0"), TEXT("[\"a value\", {}]"), NULL);
}

static jsonptr_status assign_string(state *s) {
    return jsonptr_document_assign_string(&s->document, TEXT("/new~1member/-/of/0"), TEXT("a \"string\" that is stored"), NULL);
}

static jsonptr_status not_assign_string(state *s) {
    jsonptr_status status = jsonptr_document_assign_string(&s->document, TEXT("/a~1b/9"), TEXT("a string that is stored"), NULL);
    return status == JSONPTR_NOT_ASSIGNED ? JSONPTR_OK : status;
}

static jsonptr_status assign_integer(state *s) {
    return jsonptr_document_assign_integer(&s->document, TEXT("/new~1member/0/of"), INT64_MIN, NULL);
}

static jsonptr_status assign_natural(state *s) {
    return jsonptr_document_assign_natural(&s->document, TEXT("/a~1b/-"), UINT64_MAX, NULL);
}

static jsonptr_status assign_number(state *s) {
    return jsonptr_document_assign_number(&s->document, TEXT("/a~1b/1/d/e"), 0.1, NULL);
}

static jsonptr_status assign_boolean(state *s) {
    return jsonptr_document_assign_boolean(&s->document, TEXT("/long key that is stored/2/another key that is stored"), true, NULL);
}

static jsonptr_status assign_null(state *s) {
    return jsonptr_document_assign_null(&s->document, TEXT("/a~1b/0/-/-"), NULL);
}

/* Results that an error leaves. */
static jsonptr_status first_key(state *s) {
    bool found = false;
    size_t length = 99;
    s->out[0] = '!';
    jsonptr_status status = jsonptr_document_first_key(&s->document, TEXT("/a~1b/1"), &found, s->out, sizeof s->out, &length, NULL);
    expect_number("found", "first_key", found, status == JSONPTR_OK);
    expect_number("length", "first_key", length, status == JSONPTR_OK ? 1 : 99);
    expect_number("byte", "first_key", (unsigned char)s->out[0], status == JSONPTR_OK ? 'c' : '!');
    return status;
}

static jsonptr_status next_key(state *s) {
    bool found = false;
    size_t length = 99;
    s->out[0] = '!';
    jsonptr_status status = jsonptr_document_next_key(&s->document, TEXT(""), TEXT("a key that is not in the object"), &found, s->out,
                                                      sizeof s->out, &length, NULL);
    expect_number("found", "next_key", found, status == JSONPTR_OK);
    expect_number("length", "next_key", length, status == JSONPTR_OK ? 3 : 99);
    expect_number("byte", "next_key", (unsigned char)s->out[0], status == JSONPTR_OK ? 'a' : '!');
    return status;
}

static jsonptr_status no_next_key(state *s) {
    bool found = true;
    jsonptr_status status = jsonptr_document_next_key(&s->document, TEXT("/a~1b/1"), TEXT("c"), &found, s->out, sizeof s->out, NULL, NULL);
    expect_number("found", "no_next_key", found, status != JSONPTR_OK);
    return status;
}

static jsonptr_status delete(state *s) {
    return jsonptr_document_delete(&s->document, TEXT("/a~1b/0"), NULL, NULL);
}

static jsonptr_status patch(state *s) {
    return jsonptr_document_patch(&s->document, TEXT(PATCH), NULL);
}

/* A failed operation whose `from` does not resolve, which is found out by applying those before it again. */
static jsonptr_status fail(state *s) {
    jsonptr_status status = jsonptr_document_patch(
        &s->document, TEXT("[{\"op\":\"remove\",\"path\":\"/a~1b/1\"},{\"op\":\"move\",\"from\":\"/a~1b/1\",\"path\":\"/x/y\"}]"), NULL);
    return status == JSONPTR_PATCH_FAILED ? JSONPTR_OK : status;
}

static jsonptr_status inverse(state *s) {
    return jsonptr_document_patch_with_inverse(&s->document, TEXT(PATCH), JSONPTR_PRETTY, s->out, sizeof s->out, NULL, NULL);
}

static jsonptr_status diff(state *s) {
    return jsonptr_document_diff(&s->document, &s->other, 0, s->out, sizeof s->out, NULL, NULL);
}

static jsonptr_status in_text(state *s) {
    return jsonptr_resolve_in_text(TEXT(DOCUMENT), TEXT("/long key that is stored/2"), 0, s->out, sizeof s->out, NULL, NULL);
}

/* Texts that are not JSON, which are read again for the offset. */
static jsonptr_status not_json(state *s) {
    jsonptr_error error;
    jsonptr_status status = jsonptr_resolve_in_text(TEXT("{\"a/b\": [1, x]}"), TEXT("/a~1b"), 0, s->out, sizeof s->out, NULL, &error);
    if (status == JSONPTR_NOT_JSON) expect_number("offset", "not_json", error.offset, 12);
    return status == JSONPTR_NOT_JSON ? JSONPTR_OK : status;
}

static jsonptr_status not_located(state *s) {
    jsonptr_error error;
    jsonptr_status status = jsonptr_locate_in_text(TEXT("{\"a/b\": [1, x]}"), TEXT("/a~1b"), NULL, NULL, &error);
    if (status == JSONPTR_NOT_JSON) expect_number("offset", "not_located", error.offset, 12);
    (void)s;
    return status == JSONPTR_NOT_JSON ? JSONPTR_OK : status;
}

static jsonptr_status locate(state *s) {
    size_t start = 7, end = 7;
    jsonptr_status status = jsonptr_locate_in_text(TEXT(DOCUMENT), TEXT("/a~1b/1"), &start, &end, NULL);
    expect_number("start", "locate", start, status == JSONPTR_OK ? 10 : 7);
    expect_number("end", "locate", end, status == JSONPTR_OK ? 20 : 7);
    (void)s;
    return status;
}

static jsonptr_status pointer_at(state *s) {
    return jsonptr_pointer_at_in_text(TEXT(DOCUMENT), 11, s->out, sizeof s->out, NULL, NULL);
}

/* A byte in white space after the document: the pointer is looked for in vain. */
static jsonptr_status no_value(state *s) {
    jsonptr_status status = jsonptr_pointer_at_in_text(TEXT("{\"a\": [1, 2]} "), 13, s->out, sizeof s->out, NULL, NULL);
    return status == JSONPTR_NO_VALUE ? JSONPTR_OK : status;
}

static jsonptr_status open_text(state *s) {
    return jsonptr_text_open(&s->text, JSONPTR_FORMAT_JSONC, TEXT(SETTINGS), NULL);
}

static jsonptr_status open_json(state *s) {
    return jsonptr_text_open(&s->text, JSONPTR_FORMAT_JSON, TEXT(DOCUMENT), NULL);
}

/* A text that is not JSON, which is read again for the offset. */
static jsonptr_status open_none(state *s) {
    jsonptr_status status = jsonptr_text_open(&s->text, JSONPTR_FORMAT_JSONC, TEXT("[1, /* a */ x]"), NULL);
    return status == JSONPTR_NOT_JSON ? JSONPTR_OK : status;
}

static jsonptr_status assign_text(state *s) {
    return jsonptr_text_assign(&s->text, TEXT("/new~1member/-/of/0"), TEXT("[\"a value\", {\"z\": 1.10}]"), 0, NULL, NULL);
}

static jsonptr_status not_assign_text(state *s) {
    jsonptr_status status = jsonptr_text_assign(&s->text, TEXT("/a~1b/9"), TEXT("[\"a value\"]"), 0, NULL, NULL);
    return status == JSONPTR_NOT_ASSIGNED ? JSONPTR_OK : status;
}

static jsonptr_status delete_text(state *s) {
    return jsonptr_text_delete(&s->text, TEXT("/a~1b/0"), 0, NULL, NULL, NULL);
}

static jsonptr_status delete_nothing(state *s) {
    bool found = true;
    jsonptr_status status = jsonptr_text_delete(&s->text, TEXT("/a~1b/9"), 0, &found, NULL, NULL);
    expect_number("found", "delete_nothing", found, status != JSONPTR_OK);
    return status;
}

static jsonptr_status rename_text(state *s) {
    return jsonptr_text_rename(&s->text, TEXT("/a~1b"), TEXT("another name"), 0, NULL, NULL);
}

static jsonptr_status not_rename_text(state *s) {
    jsonptr_status status = jsonptr_text_rename(&s->text, TEXT("/none~1"), TEXT("another name"), 0, NULL, NULL);
    return status == JSONPTR_NOT_RENAMED ? JSONPTR_OK : status;
}

static jsonptr_status patch_text(state *s) {
    return jsonptr_text_patch(&s->text, TEXT(EDITS), JSONPTR_REFORMAT, NULL, NULL);
}

static jsonptr_status fail_text(state *s) {
    jsonptr_status status = jsonptr_text_patch(
        &s->text, TEXT("[{\"op\":\"remove\",\"path\":\"/a~1b/1\"},{\"op\":\"move\",\"from\":\"/a~1b/1\",\"path\":\"/x/y\"}]"), 0, NULL, NULL);
    return status == JSONPTR_PATCH_FAILED ? JSONPTR_OK : status;
}

static jsonptr_status reformat_text(state *s) {
    jsonptr_status status = jsonptr_text_open(&s->text, JSONPTR_FORMAT_JSONC, TEXT(SETTINGS), NULL);
    return status != JSONPTR_OK ? status : jsonptr_text_patch(&s->text, TEXT("[{\"op\":\"move\",\"from\":\"/a~1b\",\"path\":\"/x\"}]"), JSONPTR_REFORMAT, NULL, NULL);
}

static jsonptr_status locate_text(state *s) {
    return jsonptr_text_locate(&s->text, TEXT("/a~1b/1/c"), NULL, NULL, NULL);
}

static jsonptr_status point_text(state *s) {
    return jsonptr_text_pointer_at(&s->text, 30, s->out, sizeof s->out, NULL, NULL);
}

static jsonptr_status strip_text(state *s) {
    return jsonptr_text_remove_comments(&s->text, NULL);
}

static jsonptr_status relay_text(state *s) {
    return jsonptr_text_relayout(&s->json, TEXT(OTHER), 0, NULL, NULL);
}

static jsonptr_status open_toml(state *s) {
    return jsonptr_text_open(&s->toml, JSONPTR_FORMAT_TOML, TEXT("x = 'a string that is stored'\n"), NULL);
}

/* A text that is not TOML, which is read again for the offset. */
static jsonptr_status open_no_toml(state *s) {
    jsonptr_status status = jsonptr_text_open(&s->toml, JSONPTR_FORMAT_TOML, TEXT("x = 'a string that is stored'\ny = \n"), NULL);
    return status == JSONPTR_NOT_TOML ? JSONPTR_OK : status;
}

static jsonptr_status assign_toml(state *s) {
    return jsonptr_text_assign(&s->toml, TEXT("/new~1member/of"), TEXT("{\"k\": [\"a value\", {\"z\": 1.5}], \"l\": true}"), 0, NULL, NULL);
}

static jsonptr_status not_assign_toml(state *s) {
    jsonptr_status status = jsonptr_text_assign(&s->toml, TEXT("/a/b/9"), TEXT("[\"a value\"]"), 0, NULL, NULL);
    return status == JSONPTR_NOT_ASSIGNED ? JSONPTR_OK : status;
}

static jsonptr_status no_toml_value(state *s) {
    jsonptr_status status = jsonptr_text_assign(&s->toml, TEXT("/a/b"), TEXT("{\"k\": [\"a value\", {\"z\": null}]}"), 0, NULL, NULL);
    return status == JSONPTR_NOT_TOML_VALUE ? JSONPTR_OK : status;
}

static jsonptr_status delete_toml(state *s) {
    return jsonptr_text_delete(&s->toml, TEXT("/long_key"), 0, NULL, NULL, NULL);
}

static jsonptr_status rename_toml(state *s) {
    return jsonptr_text_rename(&s->toml, TEXT("/long_key/that_is_stored"), TEXT("another name"), 0, NULL, NULL);
}

static jsonptr_status patch_toml(state *s) {
    jsonptr_status status = jsonptr_text_patch(&s->toml, TEXT(EDITS), JSONPTR_REFORMAT, NULL, NULL);
    return status == JSONPTR_OTHER_FORMAT ? JSONPTR_OK : status;
}

static jsonptr_status copy_text(state *s) {
    return jsonptr_text_copy(&s->text, 0, SIZE_MAX, s->out, sizeof s->out, NULL, NULL);
}

static jsonptr_status token(state *s) {
    return jsonptr_pointer_token(TEXT("/a~1b"), 0, s->out, sizeof s->out, NULL, NULL);
}

static jsonptr_status from_fragment(state *s) {
    size_t length = 99;
    jsonptr_status status = jsonptr_pointer_from_fragment(TEXT("#/a~1b/%C3%BC/a%20token%20that%20is%20stored"), s->out, sizeof s->out, &length, NULL);
    expect_number("length", "from_fragment", length, status == JSONPTR_OK ? 31 : 99);
    return status;
}

static jsonptr_status not_from_fragment(state *s) {
    jsonptr_status status = jsonptr_pointer_from_fragment(TEXT("#/a~1b/%C3%BC/a%20token~that%20is%20stored"), s->out, sizeof s->out, NULL, NULL);
    return status == JSONPTR_NOT_FRAGMENT ? JSONPTR_OK : status;
}

static jsonptr_status to_fragment(state *s) {
    size_t length = 99;
    jsonptr_status status = jsonptr_pointer_to_fragment(TEXT("/a~1b/\xc3\xbc/a token that is stored"), s->out, sizeof s->out, &length, NULL);
    expect_number("length", "to_fragment", length, status == JSONPTR_OK ? 44 : 99);
    return status;
}

static jsonptr_status escape(state *s) {
    return jsonptr_pointer_escape(TEXT("a/b"), s->out, sizeof s->out, NULL, NULL);
}

static jsonptr_status quote(state *s) {
    return jsonptr_quote(TEXT("a \"string\" that is quoted"), s->out, sizeof s->out, NULL, NULL);
}

static jsonptr_status push(state *s) {
    size_t length = 0;
    return jsonptr_pointer_push(s->out, sizeof s->out, &length, TEXT("a/b"), NULL);
}

static jsonptr_status message(state *s) {
    jsonptr_error error = { .status = JSONPTR_NOT_FOUND, .kind = JSONPTR_KIND_NO_MEMBER };
    return jsonptr_error_message(&error, s->out, sizeof s->out, NULL);
}

static const struct {
    const char *name;
    jsonptr_status (*call)(state *);
} calls[] = {
    { "parse", parse }, { "exact", exact }, { "not_exact", not_exact }, { "lost_number", lost_number }, { "not_json", not_json }, { "not_located", not_located }, { "print", print }, { "get", get }, { "string", string }, { "node", node }, { "assign", assign },
    { "assign_string", assign_string }, { "not_assign_string", not_assign_string }, { "assign_integer", assign_integer },
    { "assign_natural", assign_natural }, { "assign_number", assign_number }, { "assign_boolean", assign_boolean },
    { "assign_null", assign_null }, { "first_key", first_key }, { "next_key", next_key }, { "no_next_key", no_next_key },
    { "from_fragment", from_fragment }, { "not_from_fragment", not_from_fragment }, { "to_fragment", to_fragment },
    { "delete", delete }, { "patch", patch }, { "fail", fail }, { "inverse", inverse }, { "diff", diff }, { "in_text", in_text },
    { "locate", locate }, { "pointer_at", pointer_at }, { "no_value", no_value }, { "token", token },
    { "open_text", open_text }, { "open_json", open_json }, { "open_none", open_none }, { "assign_text", assign_text },
    { "not_assign_text", not_assign_text }, { "delete_text", delete_text }, { "delete_nothing", delete_nothing },
    { "rename_text", rename_text }, { "not_rename_text", not_rename_text }, { "patch_text", patch_text },
    { "fail_text", fail_text }, { "reformat_text", reformat_text }, { "copy_text", copy_text }, { "locate_text", locate_text },
    { "point_text", point_text }, { "strip_text", strip_text }, { "relay_text", relay_text }, { "open_toml", open_toml }, { "open_no_toml", open_no_toml },
    { "assign_toml", assign_toml }, { "not_assign_toml", not_assign_toml }, { "no_toml_value", no_toml_value },
    { "delete_toml", delete_toml }, { "rename_toml", rename_toml }, { "patch_toml", patch_toml },
    { "escape", escape }, { "quote", quote }, { "push", push }, { "message", message },
};

int main(void) {
    long total = 0;
    for (size_t i = 0; i < sizeof calls / sizeof *calls; i++) {
        jsonptr_status status = JSONPTR_NO_MEMORY;
        for (long round = 0; status == JSONPTR_NO_MEMORY; round++) {
            state s = { .document = parsed(DOCUMENT), .other = parsed(OTHER), .text = opened(JSONPTR_FORMAT_JSONC, SETTINGS), .json = opened(JSONPTR_FORMAT_JSON, DOCUMENT), .toml = opened(JSONPTR_FORMAT_TOML, TABLES) };
            left = round;
            status = calls[i].call(&s);
            left = -1;
            if (status == JSONPTR_NO_MEMORY) {
                expect_document(calls[i].name, &s.document, DOCUMENT);
                expect_document(calls[i].name, &s.other, OTHER);
                expect_open_text(calls[i].name, &s.text, SETTINGS);
                expect_open_text(calls[i].name, &s.json, DOCUMENT);
                expect_open_text(calls[i].name, &s.toml, TABLES);
                total++;
            } else {
                expect_number("status", calls[i].name, status, JSONPTR_OK);
            }
            jsonptr_document_free(&s.document);
            jsonptr_document_free(&s.other);
            jsonptr_text_free(&s.text);
            jsonptr_text_free(&s.toml);
            jsonptr_text_free(&s.json);
            expect_number("blocks left", calls[i].name, (unsigned long long)blocks, 0);
        }
    }
    if (total < 100) {
        printf("only %ld requests failed\n", total);
        failures++;
    }
    return report("memory");
}
