/* Eight threads, each with a document of its own, with calls that need none, and with one that all of them read. */
#include "tests.h"

#include <pthread.h>

#define THREADS 8
#define ROUNDS 2000

/* What all threads read at once. */
static jsonptr_document shared = JSONPTR_DOCUMENT_INIT, other = JSONPTR_DOCUMENT_INIT;
static jsonptr_text shared_text = JSONPTR_TEXT_INIT;

/* Reads the shared document and the shared text by each call that only reads, and returns the number of wrong results. */
static size_t read_shared(void) {
    char out[64];
    size_t length = 0, wrong = 0;
    bool found = false;
    jsonptr_node node;
    wrong += jsonptr_document_node(&shared, "/a", 2, &node, NULL) != JSONPTR_OK || node.length != 2;
    wrong += jsonptr_document_string(&shared, "/a/1", 4, out, sizeof out, &length, NULL) != JSONPTR_OK || strcmp(out, "two") != 0;
    wrong += jsonptr_document_print(&shared, 0, out, sizeof out, &length, NULL) != JSONPTR_OK || strcmp(out, "{\"a\":[1,\"two\"]}") != 0;
    wrong += jsonptr_document_get(&shared, "/b", 2, 0, out, sizeof out, &length, NULL) != JSONPTR_NOT_FOUND;
    wrong += jsonptr_document_first_key(&shared, "", 0, &found, out, sizeof out, &length, NULL) != JSONPTR_OK || !found || strcmp(out, "a") != 0;
    wrong += jsonptr_document_next_key(&shared, "", 0, "a", 1, &found, out, sizeof out, &length, NULL) != JSONPTR_OK || found || length != 0;
    wrong += jsonptr_document_diff(&shared, &other, 0, out, sizeof out, &length, NULL) != JSONPTR_OK;
    wrong += strcmp(out, "[{\"op\":\"remove\",\"path\":\"/a/1\"}]") != 0;
    size_t start = 0;
    wrong += jsonptr_text_locate(&shared_text, "/1", 2, &start, NULL, NULL) != JSONPTR_OK || start != 14;
    wrong += jsonptr_text_pointer_at(&shared_text, 14, out, sizeof out, &length, NULL) != JSONPTR_OK || strcmp(out, "/1") != 0;
    wrong += jsonptr_text_copy(&shared_text, 14, 15, out, sizeof out, &length, NULL) != JSONPTR_OK || strcmp(out, "2") != 0;
    return wrong;
}

/* Returns the number of wrong results. */
static void *run(void *number) {
    size_t wrong = 0;
    char text[64], wanted[8], out[64];
    int text_length = snprintf(text, sizeof text, "{\"a\": [1, \"%d\"]}", *(int *)number);
    int wanted_length = snprintf(wanted, sizeof wanted, "\"%d\"", *(int *)number);
    for (int round = 0; round < ROUNDS; round++) {
        jsonptr_document document = JSONPTR_DOCUMENT_INIT;
        size_t length = 0;
        wrong += jsonptr_document_parse(&document, text, (size_t)text_length, NULL) != JSONPTR_OK;
        wrong += jsonptr_document_assign(&document, "/b~1c/0", 7, "[{}]", 4, NULL) != JSONPTR_OK;
        wrong += jsonptr_document_get(&document, "/a/1", 4, 0, out, sizeof out, &length, NULL) != JSONPTR_OK;
        wrong += length != (size_t)wanted_length || memcmp(out, wanted, length) != 0;
        wrong += jsonptr_resolve_in_text(text, (size_t)text_length, "/a/1", 4, 0, out, sizeof out, &length, NULL)
                 != JSONPTR_OK;
        wrong += length != (size_t)wanted_length || memcmp(out, wanted, length) != 0;
        wrong += jsonptr_document_assign_string(&document, "/a/1", 4, wanted, (size_t)wanted_length, NULL) != JSONPTR_OK;
        wrong += jsonptr_document_string(&document, "/a/1", 4, out, sizeof out, &length, NULL) != JSONPTR_OK;
        wrong += length != (size_t)wanted_length || memcmp(out, wanted, length) != 0;
        wrong += jsonptr_pointer_to_fragment(wanted, 0, out, sizeof out, &length, NULL) != JSONPTR_OK || strcmp(out, "#") != 0;
        wrong += read_shared();
        jsonptr_text edited = JSONPTR_TEXT_INIT;
        wrong += jsonptr_text_open(&edited, JSONPTR_FORMAT_JSON, text, (size_t)text_length, NULL) != JSONPTR_OK;
        wrong += jsonptr_text_assign(&edited, "/a/0", 4, wanted, (size_t)wanted_length, 0, NULL, NULL) != JSONPTR_OK;
        wrong += jsonptr_text_copy(&edited, 7, 7 + (size_t)wanted_length, out, sizeof out, &length, NULL) != JSONPTR_OK;
        wrong += length != (size_t)wanted_length || memcmp(out, wanted, length) != 0;
        jsonptr_text_free(&edited);
        jsonptr_document_free(&document);
    }
    return (void *)wrong;
}

int main(void) {
    pthread_t threads[THREADS];
    int numbers[THREADS];
    shared = parsed("{\"a\": [1, \"two\"]}");
    other = parsed("{\"a\": [1]}");
    shared_text = opened(JSONPTR_FORMAT_JSONC, "[1, /* one */ 2]");
    for (int i = 0; i < THREADS; i++) {
        numbers[i] = i;
        expect_number("start", "a thread", (unsigned long long)pthread_create(&threads[i], NULL, run, &numbers[i]), 0);
    }
    for (int i = 0; i < THREADS; i++) {
        void *wrong = NULL;
        expect_number("end", "a thread", (unsigned long long)pthread_join(threads[i], &wrong), 0);
        expect_number("wrong results", "a thread", (size_t)wrong, 0);
    }
    jsonptr_document_free(&shared);
    jsonptr_document_free(&other);
    jsonptr_text_free(&shared_text);
    return report("threads");
}
