/* Times patches of one object with this library, cJSON and nlohmann's json, in one run. `patches.py` compiles and runs it.
 *
 *     patches CHANGE MEMBERS OPERATIONS ROUNDS
 *
 * The object has MEMBERS records. Each patch has OPERATIONS operations, spread over the object: CHANGE is `move`, of a record to
 * a new name, or `remove`, after which a test makes sure that no removal is the last operation. A patch is a text, which each
 * library reads and applies. Each line of the output is a library, and the least processor time of all rounds in
 * nanoseconds, for one of these operations. The libraries take turns in each round, each on a document that it has just
 * read. */
#include "jsonptr.h"

#include "cJSON.h"
#include "cJSON_Utils.h"
#include <nlohmann/json.hpp>

#include <algorithm>
#include <cstdio>
#include <cstdlib>
#include <cstring>
#include <ctime>
#include <malloc.h>
#include <string>
#include <vector>

using nlohmann::json;

static void fail(const char *what) {
    fprintf(stderr, "patches: %s\n", what);
    exit(1);
}

static double now() {
    timespec time;
    clock_gettime(CLOCK_PROCESS_CPUTIME_ID, &time);
    return (double)time.tv_sec * 1e9 + (double)time.tv_nsec;
}

static std::string name_of(size_t number) {
    char name[32];
    snprintf(name, sizeof name, "k%06zu", number);
    return name;
}

/* Returns the text of the object. Its first member is the one that is tested. */
static std::string object_text(size_t members) {
    std::string text = "{\"a\":1";
    for (size_t number = 0; number < members; number++) {
        text += ",\"" + name_of(number) + "\":{\"id\":" + std::to_string(number) + ",\"name\":\"some name\"}";
    }
    return text + "}";
}

/* Returns the texts of `count` patches, each of other members. */
static std::vector<std::string> patches_of(bool moves, size_t members, size_t operations, size_t count) {
    std::vector<std::string> patches;
    size_t stride = members / operations, step = std::max<size_t>(stride / count, 1);
    for (size_t number = 0; number < count; number++) {
        std::string text = "[";
        for (size_t place = 0; place < operations; place++) {
            std::string name = name_of(place * stride + number * step);
            text += place ? "," : "";
            text += moves ? "{\"op\":\"move\",\"from\":\"/" + name + "\",\"path\":\"/" + name + "x\"}"
                          : "{\"op\":\"remove\",\"path\":\"/" + name + "\"}";
        }
        text += moves ? "]" : ",{\"op\":\"test\",\"path\":\"/a\",\"value\":1}]";
        patches.push_back(text);
    }
    return patches;
}

/* Each of these reads the object, applies the patches, and returns the time of the patches. */

static double ours(const std::string &object, const std::vector<std::string> &patches) {
    jsonptr_document document = JSONPTR_DOCUMENT_INIT;
    if (jsonptr_document_parse(&document, object.data(), object.size(), nullptr)) fail("jsonptr: object");
    double start = now();
    for (const std::string &patch : patches) {
        if (jsonptr_document_patch(&document, patch.data(), patch.size(), nullptr)) fail("jsonptr: patch");
    }
    double time = now() - start;
    jsonptr_document_free(&document);
    return time;
}

static double of_cjson(const std::string &object, const std::vector<std::string> &patches) {
    cJSON *document = cJSON_Parse(object.c_str());
    if (document == nullptr) fail("cJSON: object");
    double start = now();
    for (const std::string &text : patches) {
        cJSON *patch = cJSON_Parse(text.c_str());
        if (cJSONUtils_ApplyPatchesCaseSensitive(document, patch)) fail("cJSON: patch");
        cJSON_Delete(patch);
    }
    double time = now() - start;
    cJSON_Delete(document);
    return time;
}

static double of_nlohmann(const std::string &object, const std::vector<std::string> &patches) {
    json document = json::parse(object);
    double start = now();
    for (const std::string &patch : patches) {
        document = document.patch(json::parse(patch));
    }
    return now() - start;
}

struct Library {
    const char *name;
    double (*time)(const std::string &, const std::vector<std::string> &);
    size_t patches;
    double least;
};

int main(int argc, char **argv) {
    if (argc != 5) fail("usage: patches CHANGE MEMBERS OPERATIONS ROUNDS");
    // Memory that is freed stays with the process, so that no library waits for the system by chance.
    mallopt(M_TRIM_THRESHOLD, 1 << 30);
    mallopt(M_MMAP_THRESHOLD, 1 << 25);
    bool moves = strcmp(argv[1], "move") == 0;
    size_t members = strtoul(argv[2], nullptr, 10), operations = strtoul(argv[3], nullptr, 10);
    size_t most = std::max<size_t>(std::min<size_t>(members, 1000) / (2 * operations), 1);
    // cJSON walks over the members, and json::patch copies all of them: fewer patches tell as much.
    size_t few = std::max<size_t>(std::min<size_t>(most, 3000000 / members / operations), 1);
    size_t fewer = std::max<size_t>(std::min<size_t>(most, 300000 / members), 1);
    Library libraries[] = {
        { "jsonptr", ours, most, 1e18 }, { "cJSON", of_cjson, few, 1e18 }, { "nlohmann", of_nlohmann, fewer, 1e18 },
    };
    std::string object = object_text(members);
    for (int round = 0; round < atoi(argv[4]); round++) {
        for (Library &library : libraries) {
            std::vector<std::string> patches = patches_of(moves, members, operations, library.patches);
            double time = library.time(object, patches) / (double)(library.patches * operations);
            library.least = std::min(library.least, time);
        }
    }
    for (const Library &library : libraries) {
        printf("%s\t%.1f\n", library.name, library.least);
    }
    return 0;
}
