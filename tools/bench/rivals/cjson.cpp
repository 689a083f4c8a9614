/* cJSON with its cJSON_Utils, for rivals.py: cjson cjson JOB FILE ROUNDS PATCH_FILE, where a job is `patch` or `merge`. */
#include "timing.hpp"

#include <cJSON.h>
#include <cJSON_Utils.h>

static cJSON *parsed(const std::string &text) {
    cJSON *value = cJSON_ParseWithLength(text.data(), text.size());
    if (value == nullptr) fail("cJSON: text");
    return value;
}

/* Returns the text of a document, which is freed. */
static std::string printed(cJSON *document) {
    char *text = cJSON_PrintUnformatted(document);
    std::string out = text;
    cJSON_free(text);
    cJSON_Delete(document);
    return out;
}

static std::string patched(const std::string &text, const std::string &words) {
    cJSON *document = parsed(text), *patch = parsed(words);
    if (cJSONUtils_ApplyPatchesCaseSensitive(document, patch) != 0) fail("cJSON: patch");
    cJSON_Delete(patch);
    return printed(document);
}

static std::string merged(const std::string &text, const std::string &words) {
    cJSON *document = parsed(text), *patch = parsed(words);
    document = cJSONUtils_MergePatchCaseSensitive(document, patch);
    cJSON_Delete(patch);
    return printed(document);
}

int main(int argc, char **argv) {
    if (argc < 6) fail("usage: cjson cjson JOB FILE ROUNDS PATCH_FILE");
    std::string job = argv[2], text = read_file(argv[3]), words = read_file(argv[5]);
    return run(atoi(argv[4]), [&] { return job == "merge" ? merged(text, words) : patched(text, words); });
}
