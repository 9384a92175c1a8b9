/* dialchisel.h: a proved gate in front of a cellular module. Before each request it answers whether the request may go to the network.
 *
 * For one module and one subscription it keeps the Network Friendly Mode (NFM) back-offs, the Radio
 * Policy Manager (RPM) hourly limits and timed reset, and the card's counters of GSMA CLP.03 v2.0,
 * all in a state that you lend:
 *
 *     static uint32_t state[DIALCHISEL_STATE];
 *     static const uint32_t intervals[] = {60, 120, 240};
 *     static const uint8_t own_params[DIALCHISEL_PARAMETER_FILE] = DIALCHISEL_RTC10;
 *     static const uint8_t own_leaks[DIALCHISEL_LEAK_FILE] = {0};
 *     struct dialchisel_answer a;
 *
 *     a = dialchisel_open(state, DIALCHISEL_STATE, now(), imsi, intervals, 3, 1, 1, 0, 20,
 *                         params, params_count, leaks, leaks_count, counters, counters_count,
 *                         own_params, DIALCHISEL_PARAMETER_FILE, own_leaks, DIALCHISEL_LEAK_FILE);
 *     ...
 *     a = dialchisel_request(state, DIALCHISEL_STATE, now(), DIALCHISEL_PDP_ACTIVATION);
 *     if (a.number == DIALCHISEL_DONE) {
 *         switch (ask_the_network(&cause)) {
 *         case GRANTED:  a = dialchisel_granted(state, DIALCHISEL_STATE, now(), DIALCHISEL_PDP); break;
 *         case REJECTED: a = dialchisel_rejected(state, DIALCHISEL_STATE, now(), DIALCHISEL_PDP,
 *                                                cause, 0, DIALCHISEL_COLUMN_SM); break;
 *         default:       a = dialchisel_silent(state, DIALCHISEL_STATE, now(), DIALCHISEL_PDP); break;
 *         }
 *     } else if (a.number >= DIALCHISEL_BLOCKED_BACKOFF && a.number <= DIALCHISEL_BLOCKED_S1) {
 *         ask_again_in(a.second);
 *     }
 *     ... and regularly, each minute say:
 *     a = dialchisel_tick(state, DIALCHISEL_STATE, now());
 *     if (a.number == DIALCHISEL_RESET_ORDERED)
 *         reset_the_module();
 *
 * What you owe, in every call:
 * - Each pointer is aligned for its type and valid for the number of elements that follows it. Where that number is 0, any pointer will do,
 *   NULL too.
 * - No two buffers of a call overlap, unless both are const.
 * - No other thread or interrupt touches a buffer of the call until it returns; const ones may be read.
 * Nothing is owed about contents: for any numbers, bytes and lengths, every call is safe and answers exactly as written here.
 *
 * What you get:
 * - A refused call (numbers 1 to 7) changes nothing in any buffer. const buffers are never written.
 * - The library keeps no state of its own, allocates nothing, waits for nothing, and calls nothing
 *   but memcpy, memmove and memset. Different states may be used at the same time.
 * - The state holds no pointers: it may be copied, saved and brought back. Each call that is given
 *   it, but the three that make one, first checks all of it against the table at the end of this
 *   file, and refuses with 1 what does not fit. dialchisel_error, dialchisel_erase and
 *   dialchisel_journal_next are given none.
 * - This is version 2 of the state. One that was saved in version 1 is refused with 1 too, until
 *   dialchisel_turn_1 has made one of version 2 from it.
 * - Where the power may fail at any time, a journal keeps what a saved state does not have yet: the
 *   calls dialchisel_journal_* and dialchisel_restart, with a page of their own below. Without one,
 *   use the plain calls, as above. On a state that has a journal, make no plain call where there is
 *   a journaled form of it: it would not be in the journal.
 */
#ifndef DIALCHISEL_H
#define DIALCHISEL_H

#include <stddef.h>
#include <stdint.h>

#ifdef __cplusplus
extern "C" {
#endif

/* Sizes: the state and the room of dialchisel_why in numbers, the rest in bytes. A file that the card lacks has none. */
#define DIALCHISEL_STATE 1331         /* exactly; an image of it too */
#define DIALCHISEL_STATE_1 1330       /* exactly: a state of version 1, for dialchisel_turn_1 */
#define DIALCHISEL_RULES 8            /* exactly: a time for each bit of enum dialchisel_rule_bit */
#define DIALCHISEL_PARAMETER_FILE 32  /* exactly: N1, T1, F1, F2, F3, F4, then zeros */
#define DIALCHISEL_LEAK_FILE 6        /* exactly: LR-1, LR-2, LR-3, then zeros */
#define DIALCHISEL_COUNTER_FILE 32    /* exactly: C-BR-1, C-R-1, C-PDP-1 to C-PDP-4, then zeros */
#define DIALCHISEL_JOURNAL 65536      /* exactly: 512 slots of DIALCHISEL_RECORD bytes */
#define DIALCHISEL_RECORD 128
#define DIALCHISEL_AT_ROOM 16         /* at least; the longest answer is 15 */
#define DIALCHISEL_INTERVALS 10       /* at most, and at least one; each 1 to 65,535 s, none below the one before */
#define DIALCHISEL_LATEST 4000000000u /* the latest time, in seconds */

/* A parameter file of the module's own with RTC10's values, for an array of DIALCHISEL_PARAMETER_FILE bytes, which C fills up with zeros:
 * N1 20; T1 60 minutes, in units of 6; F1 60, F2 30, F3 60, F4 30. */
#define DIALCHISEL_RTC10 {20, 10, 60, 30, 60, 30}

/* What a request asks for. Kinds 0 to 3 ask a service of the same number. */
enum dialchisel_kind {
    DIALCHISEL_GSM_REGISTRATION = 0,
    DIALCHISEL_GPRS_REGISTRATION = 1,
    DIALCHISEL_PDP_ACTIVATION = 2,
    DIALCHISEL_SMS_SENDING = 3,
    DIALCHISEL_PDP_DEACTIVATION = 4,
    DIALCHISEL_MODULE_RESET = 5
};

/* Whom an outcome comes from. */
enum dialchisel_service { DIALCHISEL_GSM = 0, DIALCHISEL_GPRS = 1, DIALCHISEL_PDP = 2, DIALCHISEL_SMS = 3 };

/* The column of section 7.5 of CLP.03 that a cause stands in. Each belongs to one service. */
enum dialchisel_column {
    DIALCHISEL_COLUMN_MM = 0,  /* DIALCHISEL_GSM */
    DIALCHISEL_COLUMN_GMM = 1, /* DIALCHISEL_GPRS */
    DIALCHISEL_COLUMN_SM = 2,  /* DIALCHISEL_PDP */
    DIALCHISEL_COLUMN_RP = 3,  /* DIALCHISEL_SMS */
    DIALCHISEL_COLUMN_CP = 4   /* DIALCHISEL_SMS too */
};

/* The first number given back. The second is 0 but for 0 (bytes written by command and counters,
 * the number that error tells, the slot that journal_next tells), 10 (seconds left), 11 and 13 to
 * 18 (seconds until that limit by itself would permit) and 20 (the wait in seconds); in
 * dialchisel_why it is the bits of the rules, and there a block moves and counts nothing. Checks
 * run in the order 1, 2, 3, 4, or 1, 5 for an AT line; then 6 in a journaled call; then 10, then
 * the limits in the order of their numbers: the first that blocks is the one told, and it alone
 * counts. Treat a number that is not here as "no": later versions may add some. */
enum dialchisel_number {
    DIALCHISEL_DONE = 0,              /* done or permitted */
    /* Refused: nothing changed. */
    DIALCHISEL_REFUSED_BUFFER = 1,    /* state not 1,331 numbers, not of version 2 or damaged (the
                                       * calls that make one ask the length only), AT room under 16,
                                       * counter room not 32, room of why not 8, area of a journal
                                       * not 65,536 bytes; in turn_1 also an old state not 1,330
                                       * numbers, not of version 1 or damaged */
    DIALCHISEL_REFUSED_RANGE = 2,     /* service, kind, cause, flag, column or setting out of range;
                                       * a column of another service; at opening, a bad file */
    DIALCHISEL_REFUSED_TIME = 3,      /* time below the last one or above 4,000,000,000; opening needs no earlier time */
    DIALCHISEL_REFUSED_STANDING = 4,  /* the service does not stand where the call needs it */
    DIALCHISEL_REFUSED_LINE = 5,      /* not an AT line of the four forms below */
    DIALCHISEL_REFUSED_FULL = 6,      /* the journal is full: no slot begins with 255 */
    DIALCHISEL_REFUSED_JOURNAL = 7,   /* from restart alone: the image is bad, or the journal is, or
                                       * has a record that the gate would not write there */
    /* Blocked: do not send. The clock moved, counters leaked, and the limit's own counter rose by one, to 255 at most. Second of a limit: 1
     * to 3,600 seconds. To wait so long is enough for that limit, unless something is permitted in between, and a second less is not.
     * Another rule may still block, so ask again then. */
    DIALCHISEL_BLOCKED_BACKOFF = 10,  /* a back-off runs; second: seconds left. No counter */
    DIALCHISEL_BLOCKED_N1 = 11,       /* resets in the hour, ordered ones too. C-BR-1 */
    DIALCHISEL_BLOCKED_F1 = 13,       /* activations in the hour, after one was ignored. C-PDP-1 */
    DIALCHISEL_BLOCKED_F2 = 14,       /* the same, after a permanent rejection. C-PDP-2 */
    DIALCHISEL_BLOCKED_F3 = 15,       /* the same, after a temporary rejection. C-PDP-3 */
    DIALCHISEL_BLOCKED_F4 = 16,       /* activations and deactivations in the hour. C-PDP-4 */
    DIALCHISEL_BLOCKED_A1 = 17,       /* attaches in the hour: a limit of this house. No counter */
    DIALCHISEL_BLOCKED_S1 = 18,       /* SMS in the hour: a limit of this house. No counter */
    /* Ordered, in answer to dialchisel_tick alone: no request is answered so. Reset the module now,
     * and do not ask for a DIALCHISEL_MODULE_RESET: this one is on the reset list and in C-R-1. */
    DIALCHISEL_RESET_ORDERED = 12,
    /* Advice, from rejected and silent. The outcome is taken. All but 20 leave failures and
     * back-offs as they are and hold no later request: whether the PLMN, the area or the cell is
     * still the same, and whether somebody outside prompts, the gate cannot know. */
    DIALCHISEL_BACKED_OFF = 20,       /* a back-off began; second: the wait in seconds, at least the interval and less than twice it */
    DIALCHISEL_REATTACH = 21,         /* detach from GPRS and attach again */
    DIALCHISEL_OTHER_NETWORK = 22,    /* try the second network */
    DIALCHISEL_AS_3GPP = 23,          /* go on as 3GPP says; also in place of 20 while NFM is 0 */
    DIALCHISEL_NOT_SAME_PLMN = 24,    /* not again on the same PLMN unless prompted from outside */
    DIALCHISEL_NOT_SAME_AREA = 25,    /* not again in the same location area, likewise */
    DIALCHISEL_NOT_SAME_CELL = 26,    /* not again in the same cell, likewise */
    DIALCHISEL_MAY_REACTIVATE = 27,   /* PDP may be activated again at once */
    DIALCHISEL_MAY_REESTABLISH = 28   /* PDP may be established again at once; whether it backs off
                                       * if that fails too is for that next outcome to say */
};

/* The rules that can stand against a request, in the order of their numbers: bit i of the second number of dialchisel_why, and times[i]. */
enum dialchisel_rule_bit {
    DIALCHISEL_BIT_BACKOFF = 1u << 0, /* DIALCHISEL_BLOCKED_BACKOFF */
    DIALCHISEL_BIT_N1 = 1u << 1,      /* DIALCHISEL_BLOCKED_N1, and so on */
    DIALCHISEL_BIT_F1 = 1u << 2,
    DIALCHISEL_BIT_F2 = 1u << 3,
    DIALCHISEL_BIT_F3 = 1u << 4,
    DIALCHISEL_BIT_F4 = 1u << 5,
    DIALCHISEL_BIT_A1 = 1u << 6,
    DIALCHISEL_BIT_S1 = 1u << 7
};

struct dialchisel_answer {
    uint32_t number; /* enum dialchisel_number */
    uint32_t second; /* 0 where nothing else is said */
};

/* Opens the state for a module and its subscription; what was in it does not matter. A new state is
 * idle, with no failures, back-offs, permits or due time, and its counters come from the card.
 *   time      now, in whole seconds of a clock that never goes back
 *   imsi      as a number, at most 999,999,999,999,999; it spreads the waits
 *   intervals 1 to 10 base intervals of the back-offs, in seconds
 *   nfm, rpm  0 or 1: are back-offs timed; do N1, T1 and F1 to F4 apply. The latter is the card's
 *             flag, or the module's own where the card has none
 *   a1, s1    attaches and SMS permitted in an hour, at most 255; 0 is no limit
 *   params, leaks, counters  the three card files as they were read; a limit of 0 is no limit, a T1
 *             of 0 no timed reset, a leak rate of 0 no leak. A file that the card lacks has the
 *             count 0
 *   own_params, own_leaks    the module's own two files, always of their full size: each rules where the card lacks that one. Counters
 *             that the card lacks begin at 0. Each file is taken by itself
 * Answers 0, or refuses with 1, 2 or 3: with 2 also for a card file whose count is neither 0 nor the file's size, for a byte other than 0
 * after those in use, and for a file of the module's own that is bad or empty, whether it rules or not. */
struct dialchisel_answer dialchisel_open(uint32_t *state, size_t state_count, uint32_t time, uint64_t imsi,
                                         const uint32_t *intervals, size_t intervals_count,
                                         uint32_t nfm, uint32_t rpm, uint32_t a1, uint32_t s1,
                                         const uint8_t *params, size_t params_count,
                                         const uint8_t *leaks, size_t leaks_count,
                                         const uint8_t *counters, size_t counters_count,
                                         const uint8_t *own_params, size_t own_params_count,
                                         const uint8_t *own_leaks, size_t own_leaks_count);

/* May a request of this kind go to the network now? Kinds 0 to 3 need their service idle and make
 * it asked; 4 needs PDP up and makes it idle; 5 fits always and makes all idle, but ends no
 * back-off. A permitted 5 also ends a due time that is set: the module has its reset, which C-R-1
 * does not count. Answers 0 (send it: it counts as sent), 10, 11 or 13 to 18 (do not: ask again in
 * `second` seconds), or refuses with 1 to 4. */
struct dialchisel_answer dialchisel_request(uint32_t *state, size_t state_count, uint32_t time, uint32_t kind);

/* Why would the gate say no to a request of this kind at this time? Nothing changes but `times`, a room of exactly 8 numbers.
 *   number  what dialchisel_request would answer: the first rule that stands against the request, or 0 where none does
 *   second  the bits (enum dialchisel_rule_bit) of all rules that stand: of each one that, taken alone, would block
 *   times   for the limit of bit i, times[i] is the permit time that has to leave the hour before that limit permits, which it does 3,600 s
 *           after it: with a limit of L, the time L places from the newest on the limit's list, the newest counted as one. Where that
 *           limit is the first, dialchisel_request gives times[i] + 3600 - time as its seconds. For the back-off and for a rule that
 *           does not stand it is 0; a permit of time 0 is 0 too, and its bit tells that it stands
 * Answers 0, 10, 11 or 13 to 18, or refuses with 1 to 4 as dialchisel_request would, and with 1
 * where the room is not of 8 numbers; second is 0 then. `times` is written, whole, only where the
 * number is 0 or 10 and up. */
struct dialchisel_answer dialchisel_why(const uint32_t *state, size_t state_count, uint32_t time, uint32_t kind,
                                        uint32_t *times, size_t times_count);

/* The network granted what was asked of a service. Needs the service asked; makes it idle (PDP: up), its failures and back-off 0.
 * Answers 0, or refuses with 1 to 4. */
struct dialchisel_answer dialchisel_granted(uint32_t *state, size_t state_count, uint32_t time, uint32_t service);

/* The network rejected what was asked of a service, with a cause of 0 to 255 in a column that
 * belongs to the service: GSM's is MM, GPRS's GMM, PDP's SM, SMS's RP or CP. `second` is 1 if a
 * second network exists, else 0. Needs the service asked; makes it idle. The answer is the action
 * that section 7.5 of CLP.03 has for the cause, and 23 for every cause that is not here:
 *
 *            20                                         21  22  24      25      26  27  28
 *     MM     2, 3, 5, 6, 8, 9, 17, 22, 34                       11      12, 13  15
 *     GMM    2, 3, 6, 7, 8, 9, 16, 17, 22                       11, 14  12, 13  15
 *     SM     8, 26, 27, 29 to 33, 35, 38                28  34                      36  39
 *     RP     8, 10, 21, 22, 28, 29, 30, 38, 41, 42,
 *            47, 50, 69, 81
 *     CP     17, 21
 *
 * SM 34 is 20 where no second network exists. MM 8 and 9 and GMM 2, 3, 6, 8 and 9 back off both
 * registrations, each by its own failures: 20 has the wait of the rejected one, and the other,
 * asked or idle, stays so. Each failure in a row takes the next interval, or the last.
 *
 * MM 2, 3 and 6 and GMM 2, 3, 6, 7 and 8 also set a due time for a reset, whatever NFM is, where
 * RPM is 1, T1 is not 0 and none is set:
 *
 *     time + 324 * T1 + x % (72 * T1 + 1)
 *
 * This is T1 times 6 minutes, a tenth less to a tenth more; x is imsi * 16 in 64 bits after
 * x ^= x << 13, x ^= x >> 7 and x ^= x << 17. No answer tells it; DIALCHISEL_PLACE_DUE does. It
 * stays through everything, a grant too, until dialchisel_tick orders the reset, a
 * DIALCHISEL_MODULE_RESET is permitted, or the state is opened anew.
 *
 * Answers 20 to 28, or refuses with 1 to 4. */
struct dialchisel_answer dialchisel_rejected(uint32_t *state, size_t state_count, uint32_t time, uint32_t service,
                                             uint32_t cause, uint32_t second, uint32_t column);

/* The number for the AT side that section 7.5 of CLP.03 has beside a cause: one of +CME ERROR in
 * the columns MM, GMM and SM, one of +CMS ERROR in RP and CP. It needs no state. Answers 0 and that
 * number, or 0 and 0 where none is printed; refuses with 2 for a column above 4 or a cause above
 * 255. */
struct dialchisel_answer dialchisel_error(uint32_t column, uint32_t cause);

/* The network did not answer what was asked of a service. Needs the service asked; makes it idle,
 * and backs off, that service alone. Answers 20 or 23, or refuses with 1 to 4. */
struct dialchisel_answer dialchisel_silent(uint32_t *state, size_t state_count, uint32_t time, uint32_t service);

/* PDP, which was up, was dropped. Makes it idle. Answers 0, or refuses with 1, 3 or 4. */
struct dialchisel_answer dialchisel_dropped(uint32_t *state, size_t state_count, uint32_t time);

/* Time has passed: the clock moves and counters leak, as they do in every other call that is given
 * a time. If a due time is set (see dialchisel_rejected) and not after this time, RPM is 1, and N1
 * is 0 or above the resets in the hour, then a reset is ordered: C-R-1 rises by one, to 255 at
 * most, after its leak, the time goes on the reset list, all services become idle, and the due time
 * ends; failures and back-offs stay. While N1 holds it back the due time stays, and the next of
 * these calls asks anew. No other call orders a reset: without this one there is never any. Make it
 * regularly, each minute or more often. Answers 0 or 12, or refuses with 1 or 3. */
struct dialchisel_answer dialchisel_tick(uint32_t *state, size_t state_count, uint32_t time);

/* Obeys an AT line, which ends in its CR, and writes what goes back to the terminal. The clock does not move. The forms:
 *   AT+NFM=a      NFM becomes a (0 or 1); 0 also sets failures and back-offs to 0
 *   AT+NFM=a,s    the same, and Start Timer becomes s (0 or 1)
 *   AT+NFM=?      reads both: "+NFM: a,s" CR LF comes before the "OK" CR LF that every form writes
 *   AT+NFMCI=...  1 to 10 new intervals, with commas; running back-offs stay
 * Answers 0 and the bytes written, 4 or 15 (those beyond are left), or refuses with 1 or 5: what to print then is yours to say. */
struct dialchisel_answer dialchisel_command(uint32_t *state, size_t state_count, const uint8_t *line, size_t line_count,
                                            uint8_t *room, size_t room_count);

/* Writes the counter file for the card. The state and its clock stay as they are; for counters of now, call dialchisel_tick before.
 * Answers 0 and 32, or refuses with 1. */
struct dialchisel_answer dialchisel_counters(uint32_t *state, size_t state_count, uint8_t *room, size_t room_count);

/* Makes a state of version 2 from a saved one of version 1: it holds all that the old one does, and
 * no due time is set. The old one has to be a good state of version 1, of exactly 1,330 numbers,
 * and is not written; the new one has exactly 1,331, and what was in it does not matter. No time is
 * given: the last time stays. Answers 0, or refuses with 1. */
struct dialchisel_answer dialchisel_turn_1(const uint32_t *old, size_t old_count,
                                           uint32_t *state, size_t state_count);

/* The journal. Each call that changes the state or may change it, an opening and a turning aside,
 * has a journaled form. Where the call is accepted, the form first writes it with its answer as a
 * record of 128 bytes into the area that you lend, and only then changes the state and answers.
 * From the image, a copy of the state as it was when the journal was begun, and from the records,
 * dialchisel_restart makes the state anew: that of before the call that was cut off or that of
 * after it, and every call whose answer you have is in it.
 *
 *     static uint32_t state[DIALCHISEL_STATE];
 *     uint8_t *area = ...;              this and the image survive a cut of the power
 *     const uint32_t *image = ...;
 *
 *     at each power-up, before any other call on them:
 *     a = dialchisel_restart(image, DIALCHISEL_STATE, area, DIALCHISEL_JOURNAL,
 *                            state, DIALCHISEL_STATE);
 *     ...
 *     a = dialchisel_journal_request(state, DIALCHISEL_STATE, area, DIALCHISEL_JOURNAL,
 *                                    now(), DIALCHISEL_PDP_ACTIVATION);
 *     if (a.number == DIALCHISEL_REFUSED_FULL) {
 *         begin_a_new_pair();           then make the call again
 *     }
 *
 * What you owe besides:
 * - The area is what survives a cut, and it does so byte by byte in the order written: an append
 *   writes its slot from the first byte to the last, restart fills a slot from the last byte to the
 *   first. Mapped FRAM or MRAM is so, where nothing between the processor and it changes the order
 *   of its writes. Where it is not mapped, lend a mirror of it in RAM. Ask dialchisel_journal_next
 *   before the call: it names the one slot, 128 bytes from 128 * second on, that an accepted call
 *   will write. After the call write these 128 bytes through, front to back, and only then act on
 *   the answer. After a restart, where a torn slot was filled, write it through back to front,
 *   before the next call: it is the one that dialchisel_journal_next names then.
 * - At a power-up dialchisel_restart comes before the next journaled call. A call made before it
 *   may go behind a slot that was torn, and such a journal is refused with 7 for ever.
 * - An image goes with the journal that was begun with it. A new image beside the old journal may
 *   be answered with 0 and have a permit counted twice; an old image beside a new journal may be
 *   answered with 0 and lack permits.
 * - Every accepted call since the image went through this journal.
 *
 * To begin a journal, make a pair: an image, which is a copy of the state, and an erased area. This
 * is due after dialchisel_open and after dialchisel_turn_1, which no journal has; when a call is
 * refused with 6, or before that, at an hour of your choice; and when a pair was refused with 7 and
 * you have opened anew. Keep two pairs and one selector, a byte say, that tells which of them
 * rules. Write the new image and erase the new area beside the pair that rules; when both are
 * written through, write the selector, last. A cut before that finds the old pair whole, a cut
 * after it the new one, and never a part of each. No journaled call may come between the copy of
 * the state and the selector.
 *
 * A call that is refused with 6 has not happened: it is in no record and counts nowhere, so nothing
 * may be sent by it. Making room means a new pair, with an image of the state as it is now: the 512
 * records are in it already. Erasing the area beside the old image would lose them.
 *
 * The records, for who wants to read them: byte 0 is the letter of the call, Q a request, G
 * granted, S silent, J rejected, D dropped, T a tick, A an AT line; then its numbers in the order
 * of the call's arguments, the time first, four bytes each, the lowest first, or of an AT line its
 * length in four bytes and its bytes, CR included; then the two numbers of the answer, four bytes
 * each; then zeros to byte 127. A slot that begins with 255 is free. One that does not, and whose
 * last byte is not 0, is torn. */

/* The calls of the same names without "journal", through a journal. Each answers, changes the state
 * and writes its room as the plain call does, and the record goes to the first slot that begins
 * with 255. Refused are also: with 1 an area that is not of 65,536 bytes; with 6, where all the
 * checks of the plain call have passed, a journal without a free slot. A block (10, 11, 13 to 18)
 * is no refusal: it moves the clock, so it is in the journal; AT+NFM=? is in it too. What stands in
 * the other slots is not looked at. */
struct dialchisel_answer dialchisel_journal_request(uint32_t *state, size_t state_count,
                                                    uint8_t *area, size_t area_count,
                                                    uint32_t time, uint32_t kind);
struct dialchisel_answer dialchisel_journal_granted(uint32_t *state, size_t state_count,
                                                    uint8_t *area, size_t area_count,
                                                    uint32_t time, uint32_t service);
struct dialchisel_answer dialchisel_journal_rejected(uint32_t *state, size_t state_count,
                                                     uint8_t *area, size_t area_count,
                                                     uint32_t time, uint32_t service,
                                                     uint32_t cause, uint32_t second,
                                                     uint32_t column);
struct dialchisel_answer dialchisel_journal_silent(uint32_t *state, size_t state_count,
                                                   uint8_t *area, size_t area_count,
                                                   uint32_t time, uint32_t service);
struct dialchisel_answer dialchisel_journal_dropped(uint32_t *state, size_t state_count,
                                                    uint8_t *area, size_t area_count,
                                                    uint32_t time);
struct dialchisel_answer dialchisel_journal_tick(uint32_t *state, size_t state_count,
                                                 uint8_t *area, size_t area_count, uint32_t time);
struct dialchisel_answer dialchisel_journal_command(uint32_t *state, size_t state_count,
                                                    uint8_t *area, size_t area_count,
                                                    const uint8_t *line, size_t line_count,
                                                    uint8_t *room, size_t room_count);

/* Makes the area a journal without records: every byte becomes 255. Answers 0, or refuses with 1.
 * The image that goes with it is the state as it is now. */
struct dialchisel_answer dialchisel_erase(uint8_t *area, size_t area_count);

/* Which slot will the next accepted call write? Nothing changes. Answers 0 and its number, 0 to
 * 511: its bytes begin at 128 times that; 6 where the journal is full; or refuses with 1. */
struct dialchisel_answer dialchisel_journal_next(const uint8_t *area, size_t area_count);

/* Makes the state that the image and the journal begun with it tell: that of the image after the
 * calls of all whole records. A torn slot behind them, which a cut has left, is dropped: it is
 * filled with 255, from its last byte to its first, so that a cut there is found the same way. All
 * is judged before anything is written. What was in the state does not matter; the image is not
 * written. Answers 0, or refuses with 1 for the length of the area or the state, with 7 where
 *   - the image is not a good state of this version, of exactly 1,331 numbers, or
 *   - the area is not whole records from its begin on, then at most one torn slot, then 255s, or
 *   - a whole record is none that the gate would write there: the call, made on the state that the
 *     image and the records before it give, would be refused or get another answer, or another byte
 *     of the record would be different.
 * It works on a copy of the state: it takes some 6,200 bytes of stack, 6,160 on 64-bit Arm and
 * 6,072 on x86-64 as compiled here. It looks through the area and makes every call of the journal
 * anew. */
struct dialchisel_answer dialchisel_restart(const uint32_t *image, size_t image_count,
                                            uint8_t *area, size_t area_count,
                                            uint32_t *state, size_t state_count);

/* Where things stand in the state, for reading. Do not write there: a place changed by hand is either refused with 1 from then on or,
 * worse, believed. */
enum dialchisel_place {
    DIALCHISEL_PLACE_LETTERS = 0,        /* 0x00575250 */
    DIALCHISEL_PLACE_VERSION = 1,        /* 2 */
    DIALCHISEL_PLACE_OPENED = 2,         /* opening time */
    DIALCHISEL_PLACE_LAST = 3,           /* last time */
    DIALCHISEL_PLACE_IMSI = 4,           /* 2 places: quotient and remainder by 2^32 */
    DIALCHISEL_PLACE_NFM = 6,            /* 0 or 1 */
    DIALCHISEL_PLACE_START_TIMER = 7,    /* 0 or 1: kept and shown, without effect */
    DIALCHISEL_PLACE_RPM = 8,            /* 0 or 1 */
    DIALCHISEL_PLACE_INTERVAL_COUNT = 9, /* 1 to 10 */
    DIALCHISEL_PLACE_INTERVALS = 10,     /* 10 places; unused ones 0 */
    DIALCHISEL_PLACE_N1 = 20,
    DIALCHISEL_PLACE_T1 = 21,            /* in units of 6 minutes; 0 is no timed reset */
    DIALCHISEL_PLACE_F1 = 22,
    DIALCHISEL_PLACE_F2 = 23,
    DIALCHISEL_PLACE_F3 = 24,
    DIALCHISEL_PLACE_F4 = 25,
    DIALCHISEL_PLACE_A1 = 26,
    DIALCHISEL_PLACE_S1 = 27,
    DIALCHISEL_PLACE_LEAK_RATES = 28,    /* 3 places: LR-1, LR-2, LR-3, in hours */
    DIALCHISEL_PLACE_FAILURES = 31,      /* 4 places, one for each service: failures in a row, to 255 */
    DIALCHISEL_PLACE_ENDS = 35,          /* 4 places, one for each service: when its back-off ends; 0 is none */
    DIALCHISEL_PLACE_STANDINGS = 39,     /* 4 places, one for each service: 0 idle, 1 asked, 2 up (PDP alone) */
    DIALCHISEL_PLACE_MOOD = 43,          /* how PDP last failed: 0 clear, 1 ignored, 2 permanent, 3 temporary */
    DIALCHISEL_PLACE_C_BR_1 = 44,
    DIALCHISEL_PLACE_C_R_1 = 45,         /* resets that were ordered */
    DIALCHISEL_PLACE_C_PDP_1 = 46,       /* 4 places: C-PDP-1 to C-PDP-4 */
    DIALCHISEL_PLACE_LENGTHS = 50,       /* 5 places: how many times each list holds, 0 to 255 */
    DIALCHISEL_PLACE_LISTS = 55,         /* 5 lists of 255 places: enum dialchisel_list */
    DIALCHISEL_PLACE_DUE = 1330          /* due time of a reset; 0 is none. Any number is good */
};

/* The five lists of permit times: the newest 255, oldest first; unused places are 0. List k begins at DIALCHISEL_PLACE_LISTS + 255 * k. */
enum dialchisel_list {
    DIALCHISEL_LIST_ATTACH = 0,     /* kinds 0 and 1 */
    DIALCHISEL_LIST_ACTIVATION = 1, /* kind 2 */
    DIALCHISEL_LIST_PDP = 2,        /* kinds 2 and 4 */
    DIALCHISEL_LIST_SMS = 3,        /* kind 3 */
    DIALCHISEL_LIST_RESET = 4       /* kind 5, and resets that were ordered */
};

#ifdef __cplusplus
}
#endif

#endif
