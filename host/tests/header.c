/* The header by itself: its constants, a server made, a program, a question, a sheet, a former state brought over, refusals, and null pointers with
 * the size 0. */
#include "kivzurg.h"

#include <stdio.h>
#include <string.h>

static uint8_t state[KIVZURG_BUFFER], work[KIVZURG_BUFFER], output[KIVZURG_BUFFER], former[KIVZURG_BUFFER];

static uint64_t run(size_t work_size, const char *program) {
    size_t size = program == NULL ? 0 : strlen(program);
    return kivzurg_run(state, sizeof state, work, work_size, output, sizeof output, (const uint8_t *)program, size);
}

static uint64_t sheet(size_t state_size, size_t output_size, const char *variable) {
    size_t size = variable == NULL ? 0 : strlen(variable);
    return kivzurg_sheet(state, state_size, output, output_size, (const uint8_t *)variable, size);
}

/* A former state with a password of so many bytes, brought over. */
static uint64_t bring(size_t length) {
    static const char before[] = "O\t7\nP\tadmin\t", after[] = "\nN\tanyone\nD\tanyone\n";
    memset(former, 0, sizeof former);
    memcpy(former, before, strlen(before));
    memset(former + strlen(before), 'p', length);
    memcpy(former + strlen(before) + length, after, strlen(after));
    return kivzurg_bring(former, sizeof former, state, sizeof state);
}

int main(void) {
    const char *program = "as principal admin password \"\" do\nset x = \"1\"\nreturn x\n***";
    uint64_t answer;
    printf("version %s, buffer %d, stack %d\n", KIVZURG_VERSION, KIVZURG_BUFFER, KIVZURG_STACK);
    answer = kivzurg_make(state, sizeof state, NULL, 0);
    printf("made %u\n", KIVZURG_CODE(answer));
    answer = run(sizeof work, program);
    printf("ran %u, %zu lines, %zu bytes\n", KIVZURG_CODE(answer), KIVZURG_LINES(answer), KIVZURG_BYTES(answer));
    fwrite(output, 1, KIVZURG_BYTES(answer), stdout);
    answer = kivzurg_ask(state, sizeof state, (const uint8_t *)"admin", 5, (const uint8_t *)"x", 1, 'r');
    printf("asked %u, %zu long\n", KIVZURG_CODE(answer), KIVZURG_LENGTH(answer));
    answer = kivzurg_ask(state, sizeof state, NULL, 0, NULL, 0, 'r');
    printf("refused %u\n", KIVZURG_CODE(answer));
    answer = run(1, program);
    printf("refused %u\n", KIVZURG_CODE(answer));
    answer = kivzurg_run(NULL, 0, NULL, 0, NULL, 0, NULL, 0);
    printf("refused %u\n", KIVZURG_CODE(answer));
    answer = run(sizeof work, NULL);
    printf("ran %u, %zu lines\n", KIVZURG_CODE(answer), KIVZURG_LINES(answer));
    answer = sheet(sizeof state, sizeof output, "x");
    printf("listed %u, %zu lines, %zu bytes\n", KIVZURG_CODE(answer), KIVZURG_LINES(answer), KIVZURG_BYTES(answer));
    fwrite(output, 1, KIVZURG_BYTES(answer), stdout);
    printf("refused %u\n", KIVZURG_CODE(sheet(1, 1, "y")));
    printf("refused %u\n", KIVZURG_CODE(sheet(1, sizeof output, "y")));
    printf("refused %u\n", KIVZURG_CODE(kivzurg_sheet(work, sizeof work, output, sizeof output, NULL, 0)));
    printf("refused %u\n", KIVZURG_CODE(sheet(sizeof state, sizeof output, NULL)));
    printf("refused %u\n", KIVZURG_CODE(kivzurg_sheet(NULL, 0, NULL, 0, NULL, 0)));
    answer = bring(4);
    printf("brought %u\n%s", KIVZURG_CODE(answer), (const char *)state);
    printf("refused %u\n", KIVZURG_CODE(bring(8188)));
    printf("refused %u\n", KIVZURG_CODE(bring(8189)));
    printf("refused %u\n", KIVZURG_CODE(kivzurg_bring(NULL, 0, NULL, 0)));
    return 0;
}
