/* The calls that only read a document or a text write neither to it nor to its handle: both are in pages that no one may write to, so
 * that a write ends the test. The linker calls these functions in place of malloc, realloc and free. */
#define _DEFAULT_SOURCE /* for MAP_ANONYMOUS */
#include "tests.h"

#include <sys/mman.h>

#define ROOM (1u << 20)

void *__real_malloc(size_t size);
void *__real_realloc(void *block, size_t size);
void __real_free(void *block);

/* The pages of the documents, of the text and of their handles, and how many bytes of them are taken. */
typedef struct pages {
    jsonptr_document from, to;
    jsonptr_text text;
    char blocks[ROOM];
} pages;

static pages *kept;
static size_t taken;
static bool is_open;

static bool is_kept(const void *block) {
    return kept != NULL && (const char *)block >= kept->blocks && (const char *)block < kept->blocks + ROOM;
}

/* A block of the pages while they are open. It begins after its size. */
void *__wrap_malloc(size_t size) {
    if (!is_open) {
        return __real_malloc(size);
    }
    char *block = kept->blocks + taken + 16;
    taken += 16 + (size + 15) / 16 * 16;
    if (taken > ROOM) {
        return NULL;
    }
    memcpy(block - sizeof size, &size, sizeof size);
    return block;
}

void __wrap_free(void *block) {
    if (!is_kept(block)) {
        __real_free(block);
    }
}

void *__wrap_realloc(void *block, size_t size) {
    if (!is_kept(block)) {
        return block == NULL ? __wrap_malloc(size) : __real_realloc(block, size);
    }
    size_t old;
    memcpy(&old, (char *)block - sizeof old, sizeof old);
    void *moved = __wrap_malloc(size);
    return moved == NULL ? NULL : memcpy(moved, block, old < size ? old : size);
}

static const char *const POINTERS[] = {"", "/a~1b", "/a~1b/1/c", "/text", "/deep/0/0/0", "/a~1b/9", "/none", "/text/0", "no", "/~", "/\xff"};

/* Reads by each call, and checks that no call returns another status than these. */
static void read_all(void) {
    char out[512];
    size_t length;
    jsonptr_node node;
    jsonptr_error error;
    for (size_t i = 0; i < sizeof POINTERS / sizeof *POINTERS; i++) {
        for (size_t room = 0; room <= sizeof out; room += 64) {
            jsonptr_status status = jsonptr_document_get(&kept->from, TEXT(POINTERS[i]), JSONPTR_PRETTY, out, room, &length, &error);
            expect_number("status of getting", POINTERS[i], status, error.status);
            status = jsonptr_document_string(&kept->from, TEXT(POINTERS[i]), out, room, &length, &error);
            expect_number("status of a string", POINTERS[i], status, error.status);
            status = jsonptr_document_first_key(&kept->from, TEXT(POINTERS[i]), NULL, out, room / 64, &length, &error);
            expect_number("status of the first key", POINTERS[i], status, error.status);
            status = jsonptr_document_next_key(&kept->from, TEXT(POINTERS[i]), "b", 1, NULL, out, room / 64, &length, &error);
            expect_number("status of the next key", POINTERS[i], status, error.status);
        }
        jsonptr_status status = jsonptr_document_node(&kept->from, TEXT(POINTERS[i]), &node, &error);
        expect_number("status of a node", POINTERS[i], status, error.status);
        status = jsonptr_text_locate(&kept->text, TEXT(POINTERS[i]), &length, NULL, &error);
        expect_number("status of locating", POINTERS[i], status, error.status);
    }
    for (size_t i = 0; i < 130; i++) {
        jsonptr_status status = jsonptr_text_pointer_at(&kept->text, i, out, sizeof out, &length, &error);
        expect_number("status of an offset", "the text", status, error.status);
        expect_number("status of a part", "the text", jsonptr_text_copy(&kept->text, i, i + 5, out, sizeof out, &length, NULL), 0);
    }
    expect_number("status of a difference", "both", jsonptr_document_diff(&kept->from, &kept->to, 0, out, sizeof out, &length, NULL), 0);
    expect_number("status of a short difference", "both", jsonptr_document_diff(&kept->to, &kept->from, 0, out, 1, &length, NULL),
                  JSONPTR_NO_ROOM);
}

int main(void) {
    const char *text = "{\"a/b\": [1.5, {\"c\": \"gr\\u00fc\\u00df\"}], \"text\": \"a string that is stored\", \"deep\": [[[-0, 1e-400]]]}";
    char out[512];
    size_t length = 0, again = 0;
    kept = mmap(NULL, sizeof *kept, PROT_READ | PROT_WRITE, MAP_PRIVATE | MAP_ANONYMOUS, -1, 0);
    expect_number("pages", "mmap", kept != MAP_FAILED, 1);
    is_open = true;
    expect_number("reading", text, jsonptr_document_parse(&kept->from, TEXT(text), NULL), JSONPTR_OK);
    expect_number("reading", "[]", jsonptr_document_parse(&kept->to, TEXT("{\"a/b\": [1, {\"d\": 5}], \"new\": null}"), NULL), JSONPTR_OK);
    expect_number("opening", "a text", jsonptr_text_open(&kept->text, JSONPTR_FORMAT_JSONC, TEXT("// one\n{\"a/b\": [1.5, {\"c\": /* two */ 5},], \"text\": \"a string that is stored\"}"), NULL), JSONPTR_OK);
    is_open = false;
    expect_number("the document is in the pages", text, is_kept(kept->from.private_address) && is_kept(kept->to.private_address) && is_kept(kept->text.private_address), 1);
    expect_number("status", "before", jsonptr_document_print(&kept->from, 0, out, sizeof out, &length, NULL), JSONPTR_OK);
    expect_number("mprotect", "reading alone", (unsigned long long)mprotect(kept, sizeof *kept, PROT_READ), 0);
    read_all();
    char after[512];
    expect_number("status", "after", jsonptr_document_print(&kept->from, 0, after, sizeof after, &again, NULL), JSONPTR_OK);
    expect_text("text", "after reading", after, again, out);
    expect_number("mprotect", "again", (unsigned long long)mprotect(kept, sizeof *kept, PROT_READ | PROT_WRITE), 0);
    jsonptr_document_free(&kept->from);
    jsonptr_document_free(&kept->to);
    jsonptr_text_free(&kept->text);
    return report("reads");
}
