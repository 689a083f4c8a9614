/* Makes edits that standard input asks for, for random_edits.py. A request is a line with the format, the call (0 assign, 1 delete, 2
 * patch) and the lengths of the text, the pointer and the argument, and then these. The answer is a line with the status, whether the
 * document is printed anew or 2 if nothing is found, and the length of the new text, and then this. */
#include <jsonptr.h>
#include <stdio.h>
#include <stdlib.h>

/* Reads so many bytes into a block of that length. */
static char *bytes_of(size_t length) {
    char *bytes = malloc(length + 1);
    if (bytes == NULL || fread(bytes, 1, length, stdin) != length) {
        exit(3);
    }
    return bytes;
}

int main(void) {
    unsigned format, call;
    size_t text_length, pointer_length, argument_length;
    while (scanf("%u %u %zu %zu %zu", &format, &call, &text_length, &pointer_length, &argument_length) == 5) {
        if (getchar() != '\n') {
            return 3;
        }
        char *bytes = bytes_of(text_length), *pointer = bytes_of(pointer_length), *argument = bytes_of(argument_length);
        jsonptr_text text = JSONPTR_TEXT_INIT;
        jsonptr_change change = { 0 };
        bool found = true;
        jsonptr_status status = jsonptr_text_open(&text, format, bytes, text_length, NULL);
        if (status == JSONPTR_OK && call == 0) {
            status = jsonptr_text_assign(&text, pointer, pointer_length, argument, argument_length, JSONPTR_REFORMAT, &change, NULL);
        } else if (status == JSONPTR_OK && call == 1) {
            status = jsonptr_text_delete(&text, pointer, pointer_length, JSONPTR_REFORMAT, &found, &change, NULL);
        } else if (status == JSONPTR_OK) {
            status = jsonptr_text_patch(&text, argument, argument_length, JSONPTR_REFORMAT, &change, NULL);
        }
        char *out = NULL;
        size_t length = 0;
        if (jsonptr_text_copy(&text, 0, SIZE_MAX, NULL, 0, &length, NULL) == JSONPTR_NO_ROOM) {
            out = malloc(length);
            if (out == NULL || jsonptr_text_copy(&text, 0, SIZE_MAX, out, length, &length, NULL) != JSONPTR_OK) {
                return 3;
            }
        }
        printf("%u %d %zu\n", status, found ? change.is_reformatted : 2, length);
        fwrite(out, 1, length, stdout);
        jsonptr_text_free(&text);
        free(bytes);
        free(pointer);
        free(argument);
        free(out);
    }
    return 0;
}
