/* Times calls of this library, of json-c and of cJSON on the same document, in one run. `speed.py` compiles and runs it.
 *
 *     times FILE ROUNDS [CASE LIBRARY]
 *
 * FILE has a JSON document. Each line of the output is a case, the library, and the least time of all rounds in
 * nanoseconds. The libraries take turns in each round. With CASE and LIBRARY only that one is run, so that valgrind can
 * count it. Debian's cJSON comes without pointers and patches, so `walk` does what a program with cJSON writes. Its arrays
 * are lists: it has no case that finds a late element of one in a document that is there. json-c 0.16 has no patches: the
 * same changes are made by its pointers. */
#include "jsonptr.h"

#include <cjson/cJSON.h>
#include <json-c/json.h>
#include <json-c/json_pointer.h>
#include <malloc.h>
#include <stdio.h>
#include <stdlib.h>
#include <string.h>
#include <time.h>

#define PATHS 10

static const char *text;
static size_t text_length;
static jsonptr_document ours;
static struct json_object *json_c;
static cJSON *c_json;
static const char *pointer;
static char paths[PATHS][64];
static unsigned round_number;
static volatile size_t sink;

static void fail(const char *what) {
    fprintf(stderr, "times: %s\n", what);
    exit(1);
}

/* Evaluates a pointer over cJSON. */
static cJSON *walk(cJSON *node, const char *path) {
    while (node != NULL && *path == '/') {
        char key[64];
        size_t length = 0;
        for (path++; *path != '\0' && *path != '/'; path++) {
            if (length + 1 >= sizeof key) {
                return NULL;
            }
            if (*path == '~') {
                path++;
                key[length++] = *path == '1' ? '/' : '~';
            } else {
                key[length++] = *path;
            }
        }
        key[length] = '\0';
        node = cJSON_IsArray(node) ? cJSON_GetArrayItem(node, atoi(key)) : cJSON_GetObjectItemCaseSensitive(node, key);
    }
    return node;
}

/* ---- Resolving in a document that is already read ---- */

static void ours_node(void) {
    jsonptr_node node;
    if (jsonptr_document_node(&ours, pointer, strlen(pointer), &node, NULL)) fail("jsonptr: node");
    sink += (size_t)node.integer;
}

static void json_c_node(void) {
    struct json_object *found;
    if (json_pointer_get(json_c, pointer, &found)) fail("json-c: node");
    sink += (size_t)json_object_get_int64(found);
}

static void c_json_node(void) {
    cJSON *found = walk(c_json, pointer);
    if (found == NULL) fail("cJSON: node");
    sink += (size_t)found->valueint;
}

static void ours_print(void) {
    char out[256];
    size_t length;
    if (jsonptr_document_get(&ours, pointer, strlen(pointer), 0, out, sizeof out, &length, NULL)) fail("jsonptr: print");
    sink += length;
}

static void json_c_print(void) {
    struct json_object *found;
    if (json_pointer_get(json_c, pointer, &found)) fail("json-c: print");
    sink += strlen(json_object_to_json_string_ext(found, JSON_C_TO_STRING_PLAIN));
}

/* ---- Reading and resolving ---- */

static void ours_read(void) {
    jsonptr_document document = JSONPTR_DOCUMENT_INIT;
    char out[256];
    size_t length;
    if (jsonptr_document_parse(&document, text, text_length, NULL)
        || jsonptr_document_get(&document, pointer, strlen(pointer), 0, out, sizeof out, &length, NULL)) fail("jsonptr: read");
    sink += length;
    jsonptr_document_free(&document);
}

static void ours_in_text(void) {
    char out[256];
    size_t length;
    if (jsonptr_resolve_in_text(text, text_length, pointer, strlen(pointer), 0, out, sizeof out, &length, NULL)) fail("in text");
    sink += length;
}

static void json_c_read(void) {
    struct json_object *document = json_tokener_parse(text), *found;
    if (document == NULL || json_pointer_get(document, pointer, &found)) fail("json-c: read");
    sink += strlen(json_object_to_json_string_ext(found, JSON_C_TO_STRING_PLAIN));
    json_object_put(document);
}

static void c_json_read(void) {
    cJSON *document = cJSON_ParseWithLength(text, text_length), *found = walk(document, pointer);
    char out[256];
    if (found == NULL || !cJSON_PrintPreallocated(found, out, sizeof out, 0)) fail("cJSON: read");
    sink += strlen(out);
    cJSON_Delete(document);
}

/* ---- Patches: `count` names are replaced ---- */

#define VALUES 10

static char values[VALUES][32];         /* JSON texts of strings */
static char patches[2][VALUES][2048];   /* for each of them, a patch of one operation, and one of all paths */

/* Writes the texts before anything is timed. */
static void write_patches(void) {
    for (unsigned value = 0; value < VALUES; value++) {
        snprintf(values[value], sizeof values[value], "\"name %u\"", value);
        for (int all = 0; all < 2; all++) {
            char *patch = patches[all][value];
            size_t length = (size_t)sprintf(patch, "[");
            for (int i = 0; i < (all ? PATHS : 1); i++) {
                length += (size_t)sprintf(patch + length, "%s{\"op\":\"replace\",\"path\":\"%s\",\"value\":%s}",
                                          i ? "," : "", paths[i], values[value]);
            }
            strcpy(patch + length, "]");
        }
    }
}

static void ours_patch(int count) {
    const char *patch = patches[count > 1][round_number % VALUES];
    if (jsonptr_document_patch(&ours, patch, strlen(patch), NULL)) fail("jsonptr: patch");
}

static void json_c_patch(int count) {
    for (int i = 0; i < count; i++) {
        struct json_object *old;
        if (json_pointer_get(json_c, paths[i], &old)
            || json_pointer_set(&json_c, paths[i], json_tokener_parse(values[round_number % VALUES]))) fail("json-c: patch");
    }
}

static void ours_patch_1(void) { ours_patch(1); }
static void json_c_patch_1(void) { json_c_patch(1); }
static void ours_patch_10(void) { ours_patch(PATHS); }
static void json_c_patch_10(void) { json_c_patch(PATHS); }

static const struct {
    const char *name, *pointer, *library;
    void (*call)(void);
    int repeats;
} cases[] = {
    { "find a member", "/size/a~1b", "jsonptr", ours_node, 2000 },
    { "find a member", "/size/a~1b", "json-c", json_c_node, 2000 },
    { "find a member", "/size/a~1b", "cJSON", c_json_node, 2000 },
    { "find in the last record", "/items/9999/deep/y/2", "jsonptr", ours_node, 2000 },
    { "find in the last record", "/items/9999/deep/y/2", "json-c", json_c_node, 2000 },
    { "find and print", "/items/9999/deep/y/2", "jsonptr", ours_print, 2000 },
    { "find and print", "/items/9999/deep/y/2", "json-c", json_c_print, 2000 },
    { "read, find and print", "/items/9999/deep/y/2", "jsonptr", ours_read, 1 },
    { "read, find and print", "/items/9999/deep/y/2", "json-c", json_c_read, 1 },
    { "read, find and print", "/items/9999/deep/y/2", "cJSON", c_json_read, 1 },
    { "find in the text and print", "/items/9999/deep/y/2", "jsonptr", ours_in_text, 1 },
    { "find in the text and print", "/items/9999/deep/y/2", "json-c", json_c_read, 1 },
    { "find in the text and print", "/items/9999/deep/y/2", "cJSON", c_json_read, 1 },
    { "a patch of 1 operation", "", "jsonptr", ours_patch_1, 200 },
    { "a patch of 1 operation", "", "json-c", json_c_patch_1, 200 },
    { "a patch of 10 operations", "", "jsonptr", ours_patch_10, 50 },
    { "a patch of 10 operations", "", "json-c", json_c_patch_10, 50 },
};

#define CASES (sizeof cases / sizeof *cases)

static double now(void) {
    struct timespec time;
    clock_gettime(CLOCK_PROCESS_CPUTIME_ID, &time);
    return (double)time.tv_sec * 1e9 + (double)time.tv_nsec;
}

/* Reads a file, with a closing zero, which json-c needs. */
static void read_file(const char *name) {
    FILE *file = fopen(name, "rb");
    if (file == NULL || fseek(file, 0, SEEK_END)) fail("cannot open the file");
    text_length = (size_t)ftell(file);
    rewind(file);
    char *bytes = malloc(text_length + 1);
    if (bytes == NULL || fread(bytes, 1, text_length, file) != text_length) fail("cannot read the file");
    bytes[text_length] = '\0';
    text = bytes;
    fclose(file);
}

int main(int argc, char **argv) {
    double least[CASES];
    if (argc != 3 && argc != 5) fail("usage: times FILE ROUNDS [CASE LIBRARY]");
    // Memory that is freed stays with the process, so that no library waits for the system by chance.
    mallopt(M_TRIM_THRESHOLD, 1 << 30);
    mallopt(M_MMAP_THRESHOLD, 1 << 25);
    read_file(argv[1]);
    json_c = json_tokener_parse(text);
    c_json = cJSON_ParseWithLength(text, text_length);
    if (jsonptr_document_parse(&ours, text, text_length, NULL) || json_c == NULL || c_json == NULL) fail("not read");
    for (int i = 0; i < PATHS; i++) {
        snprintf(paths[i], sizeof paths[i], "/items/%d/name", 999 + i * 1000);
    }
    write_patches();
    for (size_t i = 0; i < CASES; i++) {
        least[i] = 1e18;
    }
    for (int round = 0; round < atoi(argv[2]); round++) {
        for (size_t i = 0; i < CASES; i++) {
            if (argc == 5 && (strcmp(cases[i].name, argv[3]) != 0 || strcmp(cases[i].library, argv[4]) != 0)) {
                continue;
            }
            pointer = cases[i].pointer;
            // A large request sorts the blocks that the case before has freed, which would be timed here.
            void *volatile block = malloc(1 << 20);
            free(block);
            double start = now();
            for (int repeat = 0; repeat < cases[i].repeats; repeat++) {
                round_number++;
                cases[i].call();
            }
            double time = (now() - start) / cases[i].repeats;
            least[i] = time < least[i] ? time : least[i];
        }
    }
    for (size_t i = 0; i < CASES; i++) {
        if (least[i] < 1e18) {
            printf("%s\t%s\t%.1f\n", cases[i].name, cases[i].library, least[i]);
        }
    }
    jsonptr_document_free(&ours);
    json_object_put(json_c);
    cJSON_Delete(c_json);
    return 0;
}
