/* Answers the trace on standard input, as `tlbridge run --sync`: docs/C.md. */
#include "tlbridge.h"
#include <stdio.h>

int main(void) {
    static uint8_t text[1 << 20];
    size_t length = fread(text, 1, sizeof text, stdin);
    tl_answer answer = {0};
    uint8_t fault = tl_answer_trace(text, length, 0, &answer);
    if (fault != TL_OK) {
        tl_text said;
        tl_status_text(fault, &said);
        (void)fprintf(stderr, "line %llu: %d %s: %s\n", (unsigned long long)answer.line, fault, said.name, said.sentence);
        return 3;
    }
    size_t written = fwrite(answer.text, 1, answer.length, stdout);
    int status = written < answer.length ? 4 : answer.all_done ? 0 : 1;
    tl_answer_free(&answer);
    return status;
}
