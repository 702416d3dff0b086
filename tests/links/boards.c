/* Counts the boards that the SystemVerilog scoreboards open and free, and prints the counts at the end of the program. With NO_BOARD in the environment, none
 * is opened, as without memory. Link with --wrap for both functions. */
#include <stdint.h>
#include <stdio.h>
#include <stdlib.h>

void *__real_tlbridge_scoreboard_open(uint32_t client, uint32_t manager, uint8_t flags);
void __real_tlbridge_scoreboard_free(void *board);

static unsigned opened, freed;

static void say(void) {
    printf("boards: %u opened, %u freed\n", opened, freed);
}

void *__wrap_tlbridge_scoreboard_open(uint32_t client, uint32_t manager, uint8_t flags) {
    if (getenv("NO_BOARD") != NULL) return NULL;
    if (opened++ == 0 && atexit(say) != 0) abort();
    return __real_tlbridge_scoreboard_open(client, manager, flags);
}

void __wrap_tlbridge_scoreboard_free(void *board) {
    freed++;
    __real_tlbridge_scoreboard_free(board);
}
