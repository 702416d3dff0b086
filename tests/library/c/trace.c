/* The call that answers a whole trace: the examples, each refusal, and each allocation refused in turn. Compiled with
 * -Wl,--wrap=malloc,--wrap=realloc, as tests/library/test_library.py does, and given the names of traces that have answers in the same folder. The last line
 * counts the checks. */
#include "tlbridge.h"
#include <stdio.h>
#include <stdlib.h>
#include <string.h>

enum { MAX_BYTES = 67108864 };

static long passed, failed;
#define CHECK(fact) check((fact), #fact, __LINE__)

static void check(bool fact, const char *text, int line) {
    if (fact) {
        passed++;
    } else if (failed++ < 20) {
        printf("line %d: not so: %s\n", line, text);
    }
}

/* The memory of the library: the linker leads its calls here. */
static long allocations_left = -1;
void *__real_malloc(size_t bytes);
void *__real_realloc(void *block, size_t bytes);
void *__wrap_malloc(size_t bytes);
void *__wrap_realloc(void *block, size_t bytes);

static bool is_refused(void) {
    if (allocations_left == 0) return true;
    if (allocations_left > 0) allocations_left--;
    return false;
}

void *__wrap_malloc(size_t bytes) {
    return is_refused() ? NULL : __real_malloc(bytes);
}

void *__wrap_realloc(void *block, size_t bytes) {
    return is_refused() ? NULL : __real_realloc(block, bytes);
}

static bool has_no_block(const tl_answer *answer) {
    return answer->text == NULL && answer->length == 0 && answer->impl == NULL && !answer->is_open && answer->all_done == 0;
}

static bool is_text(const tl_answer *answer, const char *want, size_t length) {
    return answer->length == length && memcmp(answer->text, want, length) == 0;
}

/* A text that has this fault on this line. */
static void refused(const char *text, size_t length, uint8_t fault, uint64_t line) {
    tl_answer answer = {0};
    CHECK(tl_answer_trace((const uint8_t *)text, length, false, &answer) == fault);
    CHECK(has_no_block(&answer) && answer.line == line);
    tl_answer_free(&answer);
}

static void refusals(void) {
    static const char header[] = "tilelink-trace 1 client 8 manager 4\n";
    static const struct {
        const char *line;
        uint8_t fault;
    } later[] = {
        {"\n", TL_CHANNEL_LETTER},
        {"F 07\n", TL_CHANNEL_LETTER},
        {"E 007\n", TL_LENGTH},
        {"E 0x\n", TL_SHAPE},
        {"A 8 0 2 07 0000000000001004 f0 1122334455667788 0\n", TL_RANGE},
        {"E 07", TL_NO_END},
    };
    refused("", 0, TL_HEADER, 1);
    refused("\n", 1, TL_HEADER, 1);
    refused("tilelink-trace 1 client 3 manager 4\n", 36, TL_HEADER, 1);
    refused("tilelink-trace 3 client 8 manager 4\n", 36, TL_HEADER, 1);
    /* only version 2 has a link of 128 bytes */
    refused("tilelink-trace 1 client 128 manager 4\n", 38, TL_HEADER, 1);
    refused("tilelink-trace 2 client 4 manager 256\n", 38, TL_HEADER, 1);
    refused("tilelink-trace 2 client 128 manager 4\nE 0x07\n", 45, TL_SHAPE, 2);
    refused(header, strlen(header) - 1, TL_NO_END, 1);
    /* version 2, whose ids have four digits */
    static const char short_id[] = "tilelink-trace 2 client 8 manager 4\nE 0107\nE 07\n";
    refused(short_id, strlen(short_id), TL_LENGTH, 3);
    for (size_t i = 0; i < sizeof later / sizeof *later; i++) {
        char text[256];
        int length = snprintf(text, sizeof text, "%sE 07\n%sE 08\n", header, later[i].line);
        if (later[i].fault == TL_NO_END) length -= (int)strlen("E 08\n");
        refused(text, (size_t)length, later[i].fault, 3);
    }
    char *zeros = calloc(1, MAX_BYTES + 1);
    CHECK(zeros != NULL);
    refused(zeros, MAX_BYTES, TL_HEADER, 1);
    refused(zeros, MAX_BYTES + 1, TL_TOO_LONG, 0);
    free(zeros);
}

/* A file's text; the caller frees it. */
static char *read_file(const char *name, size_t *length) {
    FILE *file = fopen(name, "rb");
    if (file == NULL) return NULL;
    char *text = calloc(1, MAX_BYTES);
    *length = text == NULL ? 0 : fread(text, 1, MAX_BYTES, file);
    (void)fclose(file);
    return text;
}

/* An answer without its far beats: its first line and its last five, which begin with '='. */
static size_t without_far_beats(const char *answer, size_t length, char *out) {
    size_t kept = 0, line = 0;
    for (size_t i = 0; i < length; i++) {
        if (answer[i] != '\n') continue;
        if (line == 0 || answer[line] == '=') {
            memcpy(out + kept, answer + line, i + 1 - line);
            kept += i + 1 - line;
        }
        line = i + 1;
    }
    return kept;
}

/* A trace in a file, with its answer in the same folder. */
static void example(const char *name) {
    char answer_name[512];
    size_t length = 0, due_length = 0;
    (void)snprintf(answer_name, sizeof answer_name, "%.*s.answer", (int)(strlen(name) - strlen(".trace")), name);
    char *text = read_file(name, &length), *due = read_file(answer_name, &due_length);
    CHECK(text != NULL && due != NULL);
    if (text == NULL || due == NULL) return;
    char *kept = malloc(due_length);
    CHECK(kept != NULL);
    if (kept == NULL) return;
    size_t kept_length = without_far_beats(due, due_length, kept);
    /* all five channels are done: each of the five lines says so */
    size_t done = 0;
    for (const char *at = due; (at = strstr(at, " done ")) != NULL; at++) done++;

    tl_answer answer = {0};
    CHECK(tl_answer_trace((const uint8_t *)text, length, 0, &answer) == TL_OK);
    CHECK(is_text(&answer, due, due_length) && answer.all_done == (done == 5) && answer.line == 0);
    tl_answer_free(&answer);
    CHECK(has_no_block(&answer));
    tl_answer_free(&answer);
    CHECK(has_no_block(&answer) && answer.line == 0);
    /* the second call frees the first one's text */
    CHECK(tl_answer_trace((const uint8_t *)text, length, 0, &answer) == TL_OK);
    CHECK(tl_answer_trace((const uint8_t *)text, length, 200, &answer) == TL_OK);
    CHECK(is_text(&answer, kept, kept_length) && answer.all_done == (done == 5));
    tl_answer_free(&answer);

    /* each allocation refused in turn */
    uint8_t fault = TL_OUT_OF_MEMORY;
    long granted = 0;
    while (fault == TL_OUT_OF_MEMORY && granted < 1000) {
        allocations_left = granted;
        fault = tl_answer_trace((const uint8_t *)text, length, 0, &answer);
        allocations_left = -1;
        CHECK(fault == TL_OK || (has_no_block(&answer) && answer.line == 0));
        granted++;
    }
    CHECK(fault == TL_OK && granted > 6 && is_text(&answer, due, due_length));
    tl_answer_free(&answer);
    free(text);
    free(due);
    free(kept);
}

/* The words of a fault, as those of the library for a pair of widths. */
static void texts(void) {
    tl_text text;
    memset(&text, 0xee, sizeof text);
    tl_status_text(TL_SHAPE, &text);
    CHECK(strcmp(text.name, "Shape") == 0 && strcmp(text.sentence, "a space or a lower-case hexadecimal digit is missing at its position") == 0);
    tl_status_text(TL_TOO_LONG, &text);
    CHECK(strcmp(text.name, "TooLong") == 0 && strcmp(text.sentence, "the trace has more than 67108864 bytes (64 MiB)") == 0);
    tl_status_text(24, &text);
    CHECK(text.name[0] == 0 && text.sentence[0] == 0);
}

int main(int count, char **names) {
    texts();
    refusals();
    for (int i = 1; i < count; i++) example(names[i]);
    printf("%d traces: %ld checks passed, %ld failed\n", count - 1, passed, failed);
    return failed > 0;
}
