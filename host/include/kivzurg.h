/* The functions of the proved data server that are open to a host.
 *
 * Each function is lent byte buffers for the time of the call and keeps nothing of them. Every input is answered or refused, and a refused call
 * changes no byte. Of its caller a function asks only what C cannot check:
 *
 *   - a pointer and its size name bytes that the caller owns; a null pointer goes with the size 0;
 *   - a buffer that is written (state, work and output of a run; the state of a making or of a bringing; the output of a sheet) overlaps no other
 *     buffer of the same call: the two buffers of a bringing are two, and a state is never brought over into its own place;
 *   - nobody else writes a lent buffer during the call, or reads one that is written. Calls that have no buffer in common may run at the same
 *     time, and so may questions and sheets on one state, sheets with an output each. There is no other shared data, and no heap is used;
 *   - the thread has KIVZURG_STACK bytes of stack left.
 *
 * The state holds every password in clear. It is a secret: keep it where only the host can read it. So is a former state.
 *
 * For x86-64 Linux. Build: `rt lib` in crates/server_c writes crates/server_c/out/libserver_c.a; link that archive and the
 * C library. host/README.md has all limits in one place, host/examples/evening.c a whole program.
 */
#ifndef KIVZURG_H
#define KIVZURG_H

#include <stddef.h>
#include <stdint.h>

#ifdef __cplusplus
extern "C" {
#endif

/* The version of this header and of what the functions answer. CHANGELOG.md says what changed. */
#define KIVZURG_VERSION "0.8.0"

/* The size of the state, of the work buffer and of the output. */
#define KIVZURG_BUFFER 65536

/* The stack that a call needs, with room to spare. How deep the lets of a program are inside each other does not matter. */
#define KIVZURG_STACK 524288

/* Makes a server: `state` then holds its text and zeros. Answers KIVZURG_READY, or the number 2, 8 or 9. */
uint64_t kivzurg_make(uint8_t *state, size_t state_size, const uint8_t *password, size_t password_size);

/* Brings a former state over, one that was kept by 0.3.0 or before, with one count for all programs: `state` then holds its text in the lines of
 * now and zeros. Open or closed stays, the one count goes, and every principal's count starts from 0. `former` is only read. Answers KIVZURG_READY,
 * or the number 2 (either buffer), 10 or 11. */
uint64_t kivzurg_bring(const uint8_t *former, size_t former_size, uint8_t *state, size_t state_size);

/* Runs a program. Answers an end (KIVZURG_RETURNED to KIVZURG_FULL) with its lines and bytes, or a number from 1 to 5. After an end the output
 * holds the lines and zeros, the work buffer is zero, and the state holds the new text or, where the program was not completed, what it held. A login
 * under a name that is missing is refused as one with another password, or where none is kept (since 0.7.0): by KIVZURG_DENIED and the same bytes. */
uint64_t kivzurg_run(uint8_t *state, size_t state_size, uint8_t *work, size_t work_size, uint8_t *output, size_t output_size,
                     const uint8_t *program, size_t program_size);

/* Asks whether a principal has a right ('r', 'w', 'a' or 'd') on a shared variable. Answers KIVZURG_YES with the length of a shortest chain,
 * KIVZURG_NO, or the number 2, 4, 6 or 7. Names that a state has from before they became keywords (`add`, `sub`, `times` and `per` since 0.6.0) are
 * asked about as any other, here and in a sheet, though no program can write them. */
uint64_t kivzurg_ask(const uint8_t *state, size_t state_size, const uint8_t *name, size_t name_size, const uint8_t *variable,
                     size_t variable_size, uint8_t right);

/* Prints who may do what on a shared variable: `output` then holds a line of 40 bytes for each principal, in order of creation, and zeros. A line is
 * the name, padded with spaces to 34 columns or cut to its first 33 bytes and `~`; a space; r, w, a, d, each where kivzurg_ask says yes and a point
 * where it says no; and the newline. A closed server has a sheet too. `state` and `variable` are only read. Answers KIVZURG_LISTED with the lines (at
 * most 682) and bytes, or the number 1, 2, 4 or 7. */
uint64_t kivzurg_sheet(const uint8_t *state, size_t state_size, uint8_t *output, size_t output_size, const uint8_t *variable,
                       size_t variable_size);

/* What an answer says. A code from 1 to 11 is the number of a refused call:
 *   1 output, 2 state (or former state), 3 work buffer not of 65,536 bytes; 4 state not well formed; 5 server closed; 6 principal unknown;
 *   7 shared variable unknown, or no such right; 8 password with a byte outside the string alphabet; 9 password longer than 1,024;
 *   10 former state not well formed in the former lines; 11 former state that would weigh more than 8,192. */
#define KIVZURG_CODE(answer) ((unsigned)((uint64_t)(answer) >> 48))
#define KIVZURG_LINES(answer) ((size_t)((uint64_t)(answer) >> 24 & 0xffffff))
#define KIVZURG_BYTES(answer) ((size_t)((uint64_t)(answer) & 0xffffff))
#define KIVZURG_LENGTH(answer) ((size_t)((uint64_t)(answer) & 0xffffff))

enum kivzurg_code {
    KIVZURG_RETURNED = 16, /* completed by return */
    KIVZURG_EXITED = 17,   /* completed by exit: the server is closed */
    KIVZURG_DENIED = 18,   /* the login is not right, or a command is reserved to others or needs a right that is not had */
    KIVZURG_FAILED = 19,   /* it does not parse, or a command cannot be done */
    KIVZURG_FULL = 20,     /* a value, names of `let` that live at once, or what a command leaves, would weigh more than 8,192 */
    KIVZURG_YES = 32,
    KIVZURG_NO = 33,
    KIVZURG_READY = 48,
    KIVZURG_LISTED = 64
};

#ifdef __cplusplus
}
#endif

#endif
