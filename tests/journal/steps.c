/* The order of writes of the linked library, instruction by instruction: a child makes one call,
 * and its parent lets it go a single step at a time and looks at the area after each. In an append
 * the area must always be the old one with the record's first bytes in place, and the state must
 * not change before the record is whole; in the filling of a torn slot, always the old one with the
 * slot's last bytes at 255, and the state must not change before that is done. Where the system
 * refuses to trace, it says so and passes. */
#define _GNU_SOURCE
#include "dialchisel.h"

#include <elf.h>
#include <signal.h>
#include <stdio.h>
#include <stdlib.h>
#include <string.h>
#include <sys/mman.h>
#include <sys/ptrace.h>
#include <sys/uio.h>
#include <sys/user.h>
#include <sys/wait.h>
#include <unistd.h>

#define SLOT 3 /* the one that is written */

/* What parent and child share. */
struct shared {
    uint32_t state[DIALCHISEL_STATE];
    uint8_t area[DIALCHISEL_JOURNAL];
    uint8_t room[DIALCHISEL_AT_ROOM];
};

static struct shared *shared, before, after;
static uint32_t image[DIALCHISEL_STATE];

/* The calls, each on what is shared, and a letter for each. */
static const char letters[] = "QGSJDTAR";

static struct dialchisel_answer make(char letter)
{
    static const uint8_t line[] = "AT+NFMCI=1,2,3,4,5,60,600,6000,60000,61000\r";
    uint32_t *s = shared->state;
    uint8_t *a = shared->area;
    const size_t n = DIALCHISEL_STATE, m = DIALCHISEL_JOURNAL;
    const uint32_t time = 0x01020304;
    switch (letter) {
    case 'Q': return dialchisel_journal_request(s, n, a, m, time, DIALCHISEL_MODULE_RESET);
    case 'G': return dialchisel_journal_granted(s, n, a, m, time, DIALCHISEL_GPRS);
    case 'S': return dialchisel_journal_silent(s, n, a, m, time, DIALCHISEL_GPRS);
    case 'J': return dialchisel_journal_rejected(s, n, a, m, time, DIALCHISEL_GPRS, 6, 1, DIALCHISEL_COLUMN_GMM);
    case 'D': return dialchisel_journal_dropped(s, n, a, m, time);
    case 'T': return dialchisel_journal_tick(s, n, a, m, time);
    case 'A': return dialchisel_journal_command(s, n, a, m, line, sizeof line - 1, shared->room, sizeof shared->room);
    default:  return dialchisel_restart(image, n, a, m, s, n);
    }
}

static void must(const char *what, struct dialchisel_answer a)
{
    if (a.number == DIALCHISEL_DONE)
        return;
    fprintf(stderr, "steps: %s: refused with %lu\n", what, (unsigned long)a.number);
    exit(1);
}

/* Three records from the image on: PDP is up and a GPRS registration is asked. For a restart the
 * fourth slot is torn, of bytes that are neither 0 nor 255. */
static void prepare(char letter)
{
    static const uint32_t intervals[] = {60};
    static const uint8_t params[DIALCHISEL_PARAMETER_FILE] = {0, 1};
    static const uint8_t leaks[DIALCHISEL_LEAK_FILE] = {0};
    uint32_t *s = shared->state;
    uint8_t *a = shared->area;
    const size_t n = DIALCHISEL_STATE, m = DIALCHISEL_JOURNAL;
    must("open", dialchisel_open(s, n, 1000, 1010123456789u, intervals, 1, 1, 1, 0, 0, NULL, 0, NULL, 0, NULL, 0,
                                 params, sizeof params, leaks, sizeof leaks));
    memcpy(image, s, sizeof image);
    must("erase", dialchisel_erase(a, m));
    must("PDP", dialchisel_journal_request(s, n, a, m, 1000, DIALCHISEL_PDP_ACTIVATION));
    must("PDP up", dialchisel_journal_granted(s, n, a, m, 1001, DIALCHISEL_PDP));
    must("GPRS", dialchisel_journal_request(s, n, a, m, 1002, DIALCHISEL_GPRS_REGISTRATION));
    if (letter == 'R') {
        memset(a + SLOT * DIALCHISEL_RECORD, 'Q', DIALCHISEL_RECORD);
        memset(s, 7, sizeof shared->state);
    }
}

/* How many bytes of the slot are written, by the order in which they must be; -1 where something
 * else stands there, or outside the slot. A byte that is written as it was counts as soon as the
 * one before it does. */
static int written(int filling)
{
    const uint8_t *slot = shared->area + SLOT * DIALCHISEL_RECORD;
    const uint8_t *old = before.area + SLOT * DIALCHISEL_RECORD;
    const uint8_t *new = after.area + SLOT * DIALCHISEL_RECORD;
    const size_t behind = (SLOT + 1) * DIALCHISEL_RECORD;
    int count = 0, i;
    while (count < DIALCHISEL_RECORD) {
        i = filling ? DIALCHISEL_RECORD - 1 - count : count;
        if (slot[i] != new[i])
            break;
        count++;
    }
    for (i = count; i < DIALCHISEL_RECORD; i++)
        if (slot[filling ? DIALCHISEL_RECORD - 1 - i : i] != old[filling ? DIALCHISEL_RECORD - 1 - i : i])
            return -1;
    if (memcmp(shared->area, before.area, SLOT * DIALCHISEL_RECORD) != 0 ||
        memcmp(shared->area + behind, before.area + behind, sizeof before.area - behind) != 0)
        return -1;
    return count;
}

/* Where the child goes on; 0 where that cannot be told. */
static unsigned long place(pid_t child)
{
    struct user_regs_struct regs;
    struct iovec part = {&regs, sizeof regs};
    if (ptrace(PTRACE_GETREGSET, child, (void *)NT_PRSTATUS, &part) != 0)
        return 0;
#if defined(__aarch64__)
    return regs.pc;
#elif defined(__x86_64__)
    return regs.rip;
#else
    return 0;
#endif
}

/* Is an instruction outside of this program, to which the library is linked: in the C library's
 * memcpy, memmove or memset? */
static int outside(unsigned long at)
{
    extern const char __executable_start[], etext[];
    return at != 0 && (at < (unsigned long)__executable_start || at >= (unsigned long)etext);
}

/* Steps through one call. Ends the program on any surprise; 0 where tracing is refused. */
static int stepped(char letter)
{
    const int filling = letter == 'R';
    unsigned long steps = 0, stores = 0, others = 0;
    unsigned long at;
    int status, count = 0, now, widest = 0;
    struct dialchisel_answer answer;
    pid_t child;

    prepare(letter);
    before = *shared;
    answer = make(letter);
    if (answer.number >= DIALCHISEL_REFUSED_BUFFER && answer.number <= DIALCHISEL_REFUSED_JOURNAL)
        must("the call", answer);
    after = *shared;
    *shared = before;
    if (memcmp(before.area, after.area, sizeof before.area) == 0) {
        fprintf(stderr, "steps: %c wrote nothing\n", letter);
        exit(1);
    }

    child = fork();
    if (child == 0) {
        if (ptrace(PTRACE_TRACEME, 0, NULL, NULL) != 0)
            _exit(77);
        raise(SIGSTOP);
        make(letter);
        _exit(0);
    }
    if (child < 0 || waitpid(child, &status, 0) != child || !WIFSTOPPED(status))
        return 0;
    for (;;) {
        at = place(child);
        if (ptrace(PTRACE_SINGLESTEP, child, NULL, NULL) != 0) {
            kill(child, SIGKILL);
            waitpid(child, &status, 0);
            if (steps == 0)
                return 0;
            fprintf(stderr, "steps: %c: no step more after %lu\n", letter, steps);
            exit(1);
        }
        if (waitpid(child, &status, 0) != child) {
            fprintf(stderr, "steps: %c: the child is lost after %lu steps\n", letter, steps);
            exit(1);
        }
        if (!WIFSTOPPED(status))
            break;
        steps++;
        now = written(filling);
        if (now < count) {
            fprintf(stderr, "steps: %c: after %lu steps the area is not the old one with the %s bytes in place\n", letter,
                    steps, filling ? "slot's last" : "record's first");
            exit(1);
        }
        if (now > count) {
            stores++;
            others += outside(at) != 0;
            if (now - count > widest)
                widest = now - count;
        }
        count = now;
        if (count < DIALCHISEL_RECORD && memcmp(shared->state, before.state, sizeof before.state) != 0) {
            fprintf(stderr, "steps: %c: the state has changed while %d bytes are written\n", letter, count);
            exit(1);
        }
    }
    if (!WIFEXITED(status) || WEXITSTATUS(status) != 0 || count != DIALCHISEL_RECORD ||
        memcmp(shared, &after, sizeof after) != 0) {
        fprintf(stderr, "steps: %c: it ends otherwise than without steps\n", letter);
        exit(1);
    }
    printf("steps: %c: %lu steps; the slot is written by %lu of them, at most %d byte%s at a time,"
           " %lu in memcpy, memmove or memset\n", letter, steps, stores, widest, widest == 1 ? "" : "s", others);
    return 1;
}

int main(void)
{
    const char *letter;
    shared = (struct shared *)mmap(NULL, sizeof *shared, PROT_READ | PROT_WRITE, MAP_SHARED | MAP_ANONYMOUS, -1, 0);
    if (shared == MAP_FAILED) {
        perror("steps: mmap");
        return 1;
    }
    for (letter = letters; *letter != '\0'; letter++)
        if (!stepped(*letter)) {
            printf("steps: the system refuses to trace a child: the order of writes is not looked at here\n");
            return 0;
        }
    return 0;
}
