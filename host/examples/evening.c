/* A host in C: it makes a server, runs two programs, prints their lines, asks who may append and prints a sheet for the wall.
 *
 *     cc -I host/include host/examples/evening.c crates/server_c/out/libserver_c.a -o evening
 */
#include "kivzurg.h"

#include <stdio.h>
#include <string.h>

/* Three buffers that do not overlap. A host keeps `state` after each completed program. */
static uint8_t state[KIVZURG_BUFFER], work[KIVZURG_BUFFER], output[KIVZURG_BUFFER];

static const uint8_t *bytes(const char *text) {
    return (const uint8_t *)text;
}

/* Runs a program and prints its lines; 0 where the call was refused. */
static int run(const char *program) {
    uint64_t answer = kivzurg_run(state, sizeof state, work, sizeof work, output, sizeof output, bytes(program), strlen(program));
    if (KIVZURG_CODE(answer) < KIVZURG_RETURNED) {
        fprintf(stderr, "refused with number %u\n", KIVZURG_CODE(answer));
        return 0;
    }
    fwrite(output, 1, KIVZURG_BYTES(answer), stdout);
    return 1;
}

static void ask(const char *name, const char *variable, char right) {
    uint64_t answer = kivzurg_ask(state, sizeof state, bytes(name), strlen(name), bytes(variable), strlen(variable), (uint8_t)right);
    switch (KIVZURG_CODE(answer)) {
    case KIVZURG_YES:
        printf("%s: yes, by a chain of %zu\n", name, KIVZURG_LENGTH(answer));
        break;
    case KIVZURG_NO:
        printf("%s: no\n", name);
        break;
    default:
        printf("%s: refused with number %u\n", name, KIVZURG_CODE(answer));
    }
}

/* Prints who may do what on a variable; 0 where the call was refused. */
static int sheet(const char *variable) {
    uint64_t answer = kivzurg_sheet(state, sizeof state, output, sizeof output, bytes(variable), strlen(variable));
    if (KIVZURG_CODE(answer) != KIVZURG_LISTED) {
        fprintf(stderr, "refused with number %u\n", KIVZURG_CODE(answer));
        return 0;
    }
    printf("%s, %zu names:\n", variable, KIVZURG_LINES(answer));
    fwrite(output, 1, KIVZURG_BYTES(answer), stdout);
    return 1;
}

int main(void) {
    if (KIVZURG_CODE(kivzurg_make(state, sizeof state, bytes("desk"), 4)) != KIVZURG_READY) {
        return 1;
    }
    if (!run("as principal admin password \"desk\" do\n"
             "create principal rosa \"r1\"\n"
             "set queue = []\n"
             "set delegation queue admin append -> rosa\n"
             "return queue\n"
             "***")
        || !run("as principal rosa password \"r1\" do\n"
                "append to queue with {song=\"Blue Moon\",key=\"F\"}\n"
                "return \"ok\"\n"
                "***")) {
        return 1;
    }
    ask("rosa", "queue", 'a');
    ask("anyone", "queue", 'a');
    ask("nobody", "queue", 'a');
    return sheet("queue") ? 0 : 1;
}
