/* A C program on the archive: document 01's printed example, refusals, AT lines, why the gate says
 * no and when to come back, the counter file, a card that lacks its files, the columns of causes, a
 * timed reset, a state of version 1, a journal and cuts of the power. It ends in failure on any
 * surprise. It is C99, and C++17 too. */
#include "dialchisel.h"

#include <stdio.h>
#include <string.h>

static int looked, surprises;

static void same(const char *what, struct dialchisel_answer got, uint32_t number, uint32_t second)
{
    looked++;
    if (got.number == number && got.second == second)
        return;
    surprises++;
    fprintf(stderr, "use.c: %s: %lu %lu, expected %lu %lu\n", what, (unsigned long)got.number, (unsigned long)got.second,
            (unsigned long)number, (unsigned long)second);
}

static void is(const char *what, int holds)
{
    looked++;
    if (holds)
        return;
    surprises++;
    fprintf(stderr, "use.c: %s: not so\n", what);
}

static uint32_t state[DIALCHISEL_STATE];
static const size_t count = DIALCHISEL_STATE;
static const uint32_t intervals[] = {60, 120, 240};
static const uint8_t zeros[32] = {0};
static const uint8_t own_params[DIALCHISEL_PARAMETER_FILE] = DIALCHISEL_RTC10;

/* Opens the state as the example has it, but for the state's count, the IMSI and the leak rate file's length. */
static struct dialchisel_answer opened(size_t state_count, uint64_t imsi, size_t leaks_count)
{
    uint8_t counters[DIALCHISEL_COUNTER_FILE] = {0};
    counters[5] = 255; /* C-PDP-4 */
    return dialchisel_open(state, state_count, 1000, imsi, intervals, 3, 1, 1, 0, 2, zeros, DIALCHISEL_PARAMETER_FILE, zeros, leaks_count,
                           counters, DIALCHISEL_COUNTER_FILE, own_params, DIALCHISEL_PARAMETER_FILE, zeros, DIALCHISEL_LEAK_FILE);
}

/* The printed example of document 01, with the wait of request 3. */
static void example(void)
{
    same("O", opened(count, 1010123456789u, DIALCHISEL_LEAK_FILE), DIALCHISEL_DONE, 0);
    same("Q 1000 2", dialchisel_request(state, count, 1000, DIALCHISEL_PDP_ACTIVATION), DIALCHISEL_DONE, 0);
    same("J 1010 2 26 0 2",
         dialchisel_rejected(state, count, 1010, DIALCHISEL_PDP, 26, 0, DIALCHISEL_COLUMN_SM),
         DIALCHISEL_BACKED_OFF, 103);
    same("Q 1112 2", dialchisel_request(state, count, 1112, DIALCHISEL_PDP_ACTIVATION), DIALCHISEL_BLOCKED_BACKOFF, 1);
    same("Q 1113 2", dialchisel_request(state, count, 1113, DIALCHISEL_PDP_ACTIVATION), DIALCHISEL_DONE, 0);
    same("G 1114 2", dialchisel_granted(state, count, 1114, DIALCHISEL_PDP), DIALCHISEL_DONE, 0);
    same("Q 1115 2", dialchisel_request(state, count, 1115, DIALCHISEL_PDP_ACTIVATION), DIALCHISEL_REFUSED_STANDING, 0);

    is("last time", state[DIALCHISEL_PLACE_LAST] == 1114);
    is("PDP is up", state[DIALCHISEL_PLACE_STANDINGS + DIALCHISEL_PDP] == 2);
    is("two activations", state[DIALCHISEL_PLACE_LENGTHS + DIALCHISEL_LIST_ACTIVATION] == 2);
    is("the newest", state[DIALCHISEL_PLACE_LISTS + 255 * DIALCHISEL_LIST_ACTIVATION + 1] == 1113);
}

/* Each refusal, and that none of them changes the state. */
static void refusals(void)
{
    uint32_t before[DIALCHISEL_STATE];
    const uint32_t sevens[DIALCHISEL_RULES] = {7, 7, 7, 7, 7, 7, 7, 7};
    uint32_t times[DIALCHISEL_RULES];
    uint8_t room[DIALCHISEL_COUNTER_FILE];
    memcpy(before, state, sizeof before);
    memcpy(times, sevens, sizeof times);
    same("short state", opened(count - 1, 1, DIALCHISEL_LEAK_FILE), DIALCHISEL_REFUSED_BUFFER, 0);
    same("no state", dialchisel_tick(NULL, 0, 1114), DIALCHISEL_REFUSED_BUFFER, 0);
    same("small AT room", dialchisel_command(state, count, (const uint8_t *)"AT+NFM=?\r", 9, room, 15), DIALCHISEL_REFUSED_BUFFER, 0);
    same("wrong counter room", dialchisel_counters(state, count, room, 31), DIALCHISEL_REFUSED_BUFFER, 0);
    same("IMSI too large", opened(count, 1000000000000000u, DIALCHISEL_LEAK_FILE), DIALCHISEL_REFUSED_RANGE, 0);
    same("leak rate file too long", opened(count, 1, DIALCHISEL_LEAK_FILE + 1), DIALCHISEL_REFUSED_RANGE, 0);
    same("no such kind", dialchisel_request(state, count, 1114, 6), DIALCHISEL_REFUSED_RANGE, 0);
    same("no such service", dialchisel_silent(state, count, 1114, 4), DIALCHISEL_REFUSED_RANGE, 0);
    same("no such column", dialchisel_rejected(state, count, 1114, DIALCHISEL_SMS, 8, 0, 5),
         DIALCHISEL_REFUSED_RANGE, 0);
    same("PDP's column",
         dialchisel_rejected(state, count, 1114, DIALCHISEL_SMS, 8, 0, DIALCHISEL_COLUMN_SM),
         DIALCHISEL_REFUSED_RANGE, 0);
    same("nothing asked",
         dialchisel_rejected(state, count, 1114, DIALCHISEL_SMS, 8, 0, DIALCHISEL_COLUMN_RP),
         DIALCHISEL_REFUSED_STANDING, 0);
    same("time went back", dialchisel_tick(state, count, 1113), DIALCHISEL_REFUSED_TIME, 0);
    same("time too late", dialchisel_dropped(state, count, DIALCHISEL_LATEST + 1), DIALCHISEL_REFUSED_TIME, 0);
    same("no CR", dialchisel_command(state, count, (const uint8_t *)"AT+NFM=1", 8, room, sizeof room), DIALCHISEL_REFUSED_LINE, 0);
    same("no line", dialchisel_command(state, count, NULL, 0, room, sizeof room), DIALCHISEL_REFUSED_LINE, 0);
    same("seven times", dialchisel_why(state, count, 1114, DIALCHISEL_MODULE_RESET, times, 7), DIALCHISEL_REFUSED_BUFFER, 0);
    same("why, no such kind", dialchisel_why(state, count, 1114, 6, times, DIALCHISEL_RULES), DIALCHISEL_REFUSED_RANGE, 0);
    same("why, PDP is up", dialchisel_why(state, count, 1114, DIALCHISEL_PDP_ACTIVATION, times, DIALCHISEL_RULES),
         DIALCHISEL_REFUSED_STANDING, 0);
    is("refusals change nothing", memcmp(before, state, sizeof before) == 0);
    is("refusals tell no times", memcmp(sevens, times, sizeof times) == 0);
}

/* Why the gate says no to a third SMS, after two at 1200 and 1202 with S1 = 2; the state stays as it is. */
static void reasons(void)
{
    uint32_t before[DIALCHISEL_STATE];
    uint32_t times[DIALCHISEL_RULES];
    memcpy(before, state, sizeof before);
    same("why, third SMS", dialchisel_why(state, count, 4799, DIALCHISEL_SMS_SENDING, times, DIALCHISEL_RULES), DIALCHISEL_BLOCKED_S1,
         DIALCHISEL_BIT_S1);
    is("the first SMS has to leave the hour", times[7] == 1200);
    is("no other time", (times[0] | times[1] | times[2] | times[3] | times[4] | times[5] | times[6]) == 0);
    same("why, in the next hour", dialchisel_why(state, count, 4800, DIALCHISEL_SMS_SENDING, times, DIALCHISEL_RULES), DIALCHISEL_DONE, 0);
    is("no time", times[7] == 0);
    is("why changes nothing", memcmp(before, state, sizeof before) == 0);
}

/* The third SMS comes back when it was told to, and a second before. */
static void come_back(void)
{
    struct dialchisel_answer a = dialchisel_request(state, count, 1300, DIALCHISEL_SMS_SENDING);
    same("third SMS", a, DIALCHISEL_BLOCKED_S1, 3500);
    same("a second too early", dialchisel_request(state, count, 1300 + a.second - 1, DIALCHISEL_SMS_SENDING), DIALCHISEL_BLOCKED_S1, 1);
    same("as told", dialchisel_request(state, count, 1300 + a.second, DIALCHISEL_SMS_SENDING), DIALCHISEL_DONE, 0);
    same("granted", dialchisel_granted(state, count, 4800, DIALCHISEL_SMS), DIALCHISEL_DONE, 0);
    same("fourth SMS", dialchisel_request(state, count, 4800, DIALCHISEL_SMS_SENDING), DIALCHISEL_BLOCKED_S1, 2);
}

/* AT lines, a limit, the counter file. */
static void bytes(void)
{
    uint8_t room[DIALCHISEL_AT_ROOM];
    uint8_t file[DIALCHISEL_COUNTER_FILE];
    uint8_t expected[DIALCHISEL_COUNTER_FILE] = {0};
    expected[5] = 255;
    memset(room, '.', sizeof room);
    same("AT line", dialchisel_command(state, count, (const uint8_t *)"AT+NFM=0,1\r", 11, room, sizeof room), DIALCHISEL_DONE, 4);
    is("its answer", memcmp(room, "OK\r\n............", sizeof room) == 0);
    same("AT read", dialchisel_command(state, count, (const uint8_t *)"AT+NFM=?\r", 9, room, sizeof room), DIALCHISEL_DONE, 15);
    is("its answer", memcmp(room, "+NFM: 0,1\r\nOK\r\n.", sizeof room) == 0);

    same("first SMS", dialchisel_request(state, count, 1200, DIALCHISEL_SMS_SENDING), DIALCHISEL_DONE, 0);
    same("silence, NFM off", dialchisel_silent(state, count, 1201, DIALCHISEL_SMS), DIALCHISEL_AS_3GPP, 0);
    same("second SMS", dialchisel_request(state, count, 1202, DIALCHISEL_SMS_SENDING), DIALCHISEL_DONE, 0);
    same("granted", dialchisel_granted(state, count, 1203, DIALCHISEL_SMS), DIALCHISEL_DONE, 0);
    reasons();
    come_back();

    memset(file, 1, sizeof file);
    same("counters", dialchisel_counters(state, count, file, sizeof file), DIALCHISEL_DONE, DIALCHISEL_COUNTER_FILE);
    is("counter file", memcmp(file, expected, sizeof file) == 0);
}

/* Opens the state for a card without a leak rate file, with this parameter file and counter file of the card or without them, and so many
 * bytes of the module's own parameter file. */
static struct dialchisel_answer opened_for(const uint8_t *params, size_t params_count, const uint8_t *counters, size_t counters_count,
                                           size_t own_params_count)
{
    return dialchisel_open(state, count, 5000, 1010123456789u, intervals, 3, 1, 1, 0, 2, params, params_count, NULL, 0, counters,
                           counters_count, own_params, own_params_count, zeros, DIALCHISEL_LEAK_FILE);
}

/* A card that lacks its files, the module's own in their place, and the counter file written for it. */
static void lacking(void)
{
    const uint32_t rtc10[6] = {20, 10, 60, 30, 60, 30};
    uint32_t before[DIALCHISEL_STATE];
    uint8_t file[DIALCHISEL_COUNTER_FILE];
    int i;
    same("no files", opened_for(NULL, 0, NULL, 0, DIALCHISEL_PARAMETER_FILE), DIALCHISEL_DONE, 0);
    is("RTC10's values", memcmp(state + DIALCHISEL_PLACE_N1, rtc10, sizeof rtc10) == 0);
    is("no leak", memcmp(state + DIALCHISEL_PLACE_LEAK_RATES, zeros, 3 * sizeof *state) == 0);
    is("counters begin at 0", memcmp(state + DIALCHISEL_PLACE_C_BR_1, zeros, 6 * sizeof *state) == 0);

    for (i = 0; i < 20; i++)
        same("reset", dialchisel_request(state, count, 5000, DIALCHISEL_MODULE_RESET), DIALCHISEL_DONE, 0);
    same("one reset more", dialchisel_request(state, count, 5000, DIALCHISEL_MODULE_RESET), DIALCHISEL_BLOCKED_N1, 3600);
    same("counters", dialchisel_counters(state, count, file, sizeof file), DIALCHISEL_DONE, DIALCHISEL_COUNTER_FILE);

    memcpy(before, state, sizeof before);
    same("no own file", opened_for(zeros, DIALCHISEL_PARAMETER_FILE, file, sizeof file, 0), DIALCHISEL_REFUSED_RANGE, 0);
    same("own file too short", opened_for(zeros, DIALCHISEL_PARAMETER_FILE, file, sizeof file, 31), DIALCHISEL_REFUSED_RANGE, 0);
    same("card file too short", opened_for(zeros, 31, file, sizeof file, DIALCHISEL_PARAMETER_FILE), DIALCHISEL_REFUSED_RANGE, 0);
    is("refusals change nothing", memcmp(before, state, sizeof before) == 0);

    same("with counters", opened_for(NULL, 0, file, sizeof file, DIALCHISEL_PARAMETER_FILE), DIALCHISEL_DONE, 0);
    is("the block was counted", state[DIALCHISEL_PLACE_C_BR_1] == 1);
    is("the other counters", memcmp(state + DIALCHISEL_PLACE_C_R_1, zeros, 5 * sizeof *state) == 0);
    is("RTC10's values again", memcmp(state + DIALCHISEL_PLACE_N1, rtc10, sizeof rtc10) == 0);
    same("with parameters", opened_for(zeros, DIALCHISEL_PARAMETER_FILE, NULL, 0, DIALCHISEL_PARAMETER_FILE), DIALCHISEL_DONE, 0);
    is("the card's limits", memcmp(state + DIALCHISEL_PLACE_N1, zeros, sizeof rtc10) == 0);
}

/* A service asked and rejected in one second, with a second network there. */
static void rejected(const char *what, uint32_t time, uint32_t service, uint32_t column,
                     uint32_t cause, uint32_t number, uint32_t wait)
{
    same(what, dialchisel_request(state, count, time, service), DIALCHISEL_DONE, 0);
    same(what, dialchisel_rejected(state, count, time, service, cause, 1, column), number, wait);
}

/* An outcome names its column: the actions of its rows, a row that holds both registrations, and
 * the numbers for the AT side. */
static void columns(void)
{
    same("opened", opened_for(NULL, 0, NULL, 0, DIALCHISEL_PARAMETER_FILE), DIALCHISEL_DONE, 0);
    rejected("MM 11", 5000, DIALCHISEL_GSM, DIALCHISEL_COLUMN_MM, 11, DIALCHISEL_NOT_SAME_PLMN, 0);
    rejected("MM 13", 5000, DIALCHISEL_GSM, DIALCHISEL_COLUMN_MM, 13, DIALCHISEL_NOT_SAME_AREA, 0);
    rejected("GMM 15", 5000, DIALCHISEL_GPRS, DIALCHISEL_COLUMN_GMM, 15,
             DIALCHISEL_NOT_SAME_CELL, 0);
    rejected("SM 28", 5000, DIALCHISEL_PDP, DIALCHISEL_COLUMN_SM, 28, DIALCHISEL_REATTACH, 0);
    rejected("SM 34", 5000, DIALCHISEL_PDP, DIALCHISEL_COLUMN_SM, 34, DIALCHISEL_OTHER_NETWORK, 0);
    rejected("SM 36", 5000, DIALCHISEL_PDP, DIALCHISEL_COLUMN_SM, 36, DIALCHISEL_MAY_REACTIVATE, 0);
    rejected("SM 39", 5000, DIALCHISEL_PDP, DIALCHISEL_COLUMN_SM, 39,
             DIALCHISEL_MAY_REESTABLISH, 0);
    rejected("RP 17", 5000, DIALCHISEL_SMS, DIALCHISEL_COLUMN_RP, 17, DIALCHISEL_AS_3GPP, 0);
    rejected("CP 17", 5000, DIALCHISEL_SMS, DIALCHISEL_COLUMN_CP, 17, DIALCHISEL_BACKED_OFF, 103);
    is("nobody else backs off",
       memcmp(state + DIALCHISEL_PLACE_ENDS, zeros, 3 * sizeof *state) == 0);

    rejected("GMM 6", 5001, DIALCHISEL_GPRS, DIALCHISEL_COLUMN_GMM, 6, DIALCHISEL_BACKED_OFF, 103);
    is("both have failed once", state[DIALCHISEL_PLACE_FAILURES + DIALCHISEL_GSM] == 1 &&
                                    state[DIALCHISEL_PLACE_FAILURES + DIALCHISEL_GPRS] == 1);
    same("GSM is held too", dialchisel_request(state, count, 5002, DIALCHISEL_GSM_REGISTRATION),
         DIALCHISEL_BLOCKED_BACKOFF, 102);

    same("CME beside MM 3", dialchisel_error(DIALCHISEL_COLUMN_MM, 3), DIALCHISEL_DONE, 103);
    same("CME beside GMM 3", dialchisel_error(DIALCHISEL_COLUMN_GMM, 3), DIALCHISEL_DONE, 106);
    same("CME beside SM 38", dialchisel_error(DIALCHISEL_COLUMN_SM, 38), DIALCHISEL_DONE, 615);
    same("CMS beside RP 22", dialchisel_error(DIALCHISEL_COLUMN_RP, 22), DIALCHISEL_DONE, 27);
    same("none beside CP 17", dialchisel_error(DIALCHISEL_COLUMN_CP, 17), DIALCHISEL_DONE, 0);
    same("none, no row", dialchisel_error(DIALCHISEL_COLUMN_RP, 255), DIALCHISEL_DONE, 0);
    same("error, no such column", dialchisel_error(5, 17), DIALCHISEL_REFUSED_RANGE, 0);
    same("error, no such cause", dialchisel_error(DIALCHISEL_COLUMN_CP, 256),
         DIALCHISEL_REFUSED_RANGE, 0);
}

/* A registration is rejected for good, and no application resets the module: the gate orders it
 * once T1, 6 minutes within a tenth, is over. With N1 = 1 the next reset has to wait for an
 * hour. */
static void timed(void)
{
    const uint8_t params[DIALCHISEL_PARAMETER_FILE] = {1, 1};
    uint32_t times[DIALCHISEL_RULES];
    uint32_t due;
    same("opened", opened_for(params, sizeof params, NULL, 0, DIALCHISEL_PARAMETER_FILE),
         DIALCHISEL_DONE, 0);
    rejected("MM 2", 5001, DIALCHISEL_GSM, DIALCHISEL_COLUMN_MM, 2, DIALCHISEL_BACKED_OFF, 103);
    due = state[DIALCHISEL_PLACE_DUE];
    is("due", due == 5001 + 331);
    rejected("GMM 7", 5003, DIALCHISEL_GPRS, DIALCHISEL_COLUMN_GMM, 7, DIALCHISEL_BACKED_OFF, 103);
    is("still due then", state[DIALCHISEL_PLACE_DUE] == due);
    same("SMS", dialchisel_request(state, count, due - 1, DIALCHISEL_SMS_SENDING),
         DIALCHISEL_DONE, 0);
    same("a second early", dialchisel_tick(state, count, due - 1), DIALCHISEL_DONE, 0);
    same("a request orders nothing",
         dialchisel_request(state, count, due, DIALCHISEL_PDP_ACTIVATION), DIALCHISEL_DONE, 0);
    same("ordered", dialchisel_tick(state, count, due), DIALCHISEL_RESET_ORDERED, 0);
    is("all idle", memcmp(state + DIALCHISEL_PLACE_STANDINGS, zeros, 4 * sizeof *state) == 0);
    is("counted", state[DIALCHISEL_PLACE_C_R_1] == 1);
    is("not due any more", state[DIALCHISEL_PLACE_DUE] == 0);
    same("again", dialchisel_tick(state, count, due), DIALCHISEL_DONE, 0);
    same("outcome of before", dialchisel_granted(state, count, due, DIALCHISEL_SMS),
         DIALCHISEL_REFUSED_STANDING, 0);
    same("registered anew",
         dialchisel_request(state, count, due + 1, DIALCHISEL_GSM_REGISTRATION), DIALCHISEL_DONE, 0);
    same("why no reset now",
         dialchisel_why(state, count, due + 1, DIALCHISEL_MODULE_RESET, times, DIALCHISEL_RULES),
         DIALCHISEL_BLOCKED_N1, DIALCHISEL_BIT_N1);
    is("the ordered one has to leave the hour", times[1] == due);
    same("no reset now", dialchisel_request(state, count, due + 1, DIALCHISEL_MODULE_RESET),
         DIALCHISEL_BLOCKED_N1, 3599);

    rejected("GMM 6", due + 3500, DIALCHISEL_GPRS, DIALCHISEL_COLUMN_GMM, 6,
             DIALCHISEL_BACKED_OFF, 152);
    is("due anew", state[DIALCHISEL_PLACE_DUE] == due + 3500 + 331);
    same("the application resets",
         dialchisel_request(state, count, due + 3600, DIALCHISEL_MODULE_RESET), DIALCHISEL_DONE, 0);
    same("nothing is due", dialchisel_tick(state, count, due + 9000), DIALCHISEL_DONE, 0);
    is("not counted", state[DIALCHISEL_PLACE_C_R_1] == 1);
    printf("use.c: rejected at 5001 with MM 2, reset ordered at %lu\n", (unsigned long)due);
}

/* A state as version 1 had it: refused, and turned. */
static void turned(void)
{
    uint32_t old[DIALCHISEL_STATE_1], before[DIALCHISEL_STATE];
    memcpy(before, state, sizeof before);
    memcpy(old, state, sizeof old);
    old[DIALCHISEL_PLACE_VERSION] = 1;
    same("version 1", dialchisel_tick(old, DIALCHISEL_STATE_1, 20000), DIALCHISEL_REFUSED_BUFFER, 0);
    same("version 2", dialchisel_turn_1(before, count, state, count), DIALCHISEL_REFUSED_BUFFER, 0);
    same("too little room", dialchisel_turn_1(old, DIALCHISEL_STATE_1, state, count - 1),
         DIALCHISEL_REFUSED_BUFFER, 0);
    is("refusals change nothing", memcmp(before, state, sizeof before) == 0);

    memset(state, 7, sizeof state);
    same("turned", dialchisel_turn_1(old, DIALCHISEL_STATE_1, state, count), DIALCHISEL_DONE, 0);
    is("as before", memcmp(before, state, sizeof before) == 0);
    same("and goes on", dialchisel_tick(state, count, 20000), DIALCHISEL_DONE, 0);
}

/* What survives a cut of the power: two pairs of an image and the journal begun with it, and a
 * selector that tells which of them rules. */
struct pair {
    uint32_t image[DIALCHISEL_STATE];
    uint8_t area[DIALCHISEL_JOURNAL];
};
static struct pair pairs[2];
static uint8_t selector;
static const size_t size = DIALCHISEL_JOURNAL;

static uint8_t *area(void)
{
    return pairs[selector].area;
}

/* A new image and an erased area replace the old pair in one step: the selector is written last. */
static void new_pair(void)
{
    struct pair *other = &pairs[1 - selector];
    memcpy(other->image, state, sizeof state);
    same("erase", dialchisel_erase(other->area, size), DIALCHISEL_DONE, 0);
    selector = (uint8_t)(1 - selector);
}

/* The state is lost, and is made anew. */
static struct dialchisel_answer power_up(void)
{
    memset(state, 0xa5, sizeof state);
    return dialchisel_restart(pairs[selector].image, count, area(), size, state, count);
}

/* Every journaled call, and the bytes of two records. */
static void journaled(void)
{
    static const uint8_t record_1[] = {'J', 0x8a, 0x13, 0, 0, 2, 0, 0, 0, 26, 0, 0, 0, 0, 0, 0, 0,
                                       2, 0, 0, 0, 20, 0, 0, 0, 103, 0, 0, 0, 0};
    static const uint8_t record_5[] = "A\x09\0\0\0AT+NFM=?\r\0\0\0\0\x0f\0\0";
    uint8_t *a, room[DIALCHISEL_AT_ROOM];
    same("opened", opened_for(zeros, DIALCHISEL_PARAMETER_FILE, NULL, 0, DIALCHISEL_PARAMETER_FILE),
         DIALCHISEL_DONE, 0);
    new_pair();
    a = area();
    same("first slot", dialchisel_journal_next(a, size), DIALCHISEL_DONE, 0);
    same("asked", dialchisel_journal_request(state, count, a, size, 5000, DIALCHISEL_PDP_ACTIVATION),
         DIALCHISEL_DONE, 0);
    same("rejected", dialchisel_journal_rejected(state, count, a, size, 5002, DIALCHISEL_PDP, 26, 0,
                                                 DIALCHISEL_COLUMN_SM),
         DIALCHISEL_BACKED_OFF, 103);
    same("held", dialchisel_journal_request(state, count, a, size, 5003, DIALCHISEL_PDP_ACTIVATION),
         DIALCHISEL_BLOCKED_BACKOFF, 102);
    same("asked", dialchisel_journal_request(state, count, a, size, 5105, DIALCHISEL_PDP_ACTIVATION),
         DIALCHISEL_DONE, 0);
    same("granted", dialchisel_journal_granted(state, count, a, size, 5106, DIALCHISEL_PDP),
         DIALCHISEL_DONE, 0);
    memset(room, '.', sizeof room);
    same("AT read", dialchisel_journal_command(state, count, a, size, (const uint8_t *)"AT+NFM=?\r", 9,
                                               room, sizeof room), DIALCHISEL_DONE, 15);
    is("its answer", memcmp(room, "+NFM: 1,0\r\nOK\r\n.", sizeof room) == 0);
    same("dropped", dialchisel_journal_dropped(state, count, a, size, 5107), DIALCHISEL_DONE, 0);
    same("SMS", dialchisel_journal_request(state, count, a, size, 5107, DIALCHISEL_SMS_SENDING),
         DIALCHISEL_DONE, 0);
    same("silence", dialchisel_journal_silent(state, count, a, size, 5108, DIALCHISEL_SMS),
         DIALCHISEL_BACKED_OFF, 103);
    same("tick", dialchisel_journal_tick(state, count, a, size, 5109), DIALCHISEL_DONE, 0);
    same("ten are written", dialchisel_journal_next(a, size), DIALCHISEL_DONE, 10);
    is("a rejection", memcmp(a + 1 * DIALCHISEL_RECORD, record_1, sizeof record_1) == 0);
    is("an AT line", memcmp(a + 5 * DIALCHISEL_RECORD, record_5, sizeof record_5) == 0);
    is("its end", memcmp(a + 6 * DIALCHISEL_RECORD - 32, zeros, 32) == 0);
}

/* Refusals of the journal, and that none of them changes anything. */
static void journal_refusals(void)
{
    uint32_t before[DIALCHISEL_STATE], old[DIALCHISEL_STATE_1];
    static struct pair pair;
    uint8_t *a = area(), room[DIALCHISEL_AT_ROOM];
    pair = pairs[selector];
    memcpy(before, state, sizeof before);
    same("short area", dialchisel_journal_tick(state, count, a, size - 1, 5110),
         DIALCHISEL_REFUSED_BUFFER, 0);
    same("no such kind", dialchisel_journal_request(state, count, a, size, 5110, 6),
         DIALCHISEL_REFUSED_RANGE, 0);
    same("time went back", dialchisel_journal_tick(state, count, a, size, 5108),
         DIALCHISEL_REFUSED_TIME, 0);
    same("not up", dialchisel_journal_dropped(state, count, a, size, 5110),
         DIALCHISEL_REFUSED_STANDING, 0);
    same("no line", dialchisel_journal_command(state, count, a, size, NULL, 0, room, sizeof room),
         DIALCHISEL_REFUSED_LINE, 0);
    same("no area", dialchisel_erase(NULL, 0), DIALCHISEL_REFUSED_BUFFER, 0);
    same("no area", dialchisel_journal_next(NULL, 0), DIALCHISEL_REFUSED_BUFFER, 0);
    same("no area", dialchisel_restart(pair.image, count, NULL, 0, state, count),
         DIALCHISEL_REFUSED_BUFFER, 0);
    memcpy(old, pair.image, sizeof old);
    old[DIALCHISEL_PLACE_VERSION] = 1;
    same("image of version 1", dialchisel_restart(old, DIALCHISEL_STATE_1, a, size, state, count),
         DIALCHISEL_REFUSED_JOURNAL, 0);
    is("refusals change nothing", memcmp(before, state, sizeof before) == 0);
    is("nor the area", memcmp(pair.area, a, size) == 0);

    a[2 * DIALCHISEL_RECORD + 1] ^= 1; /* the time of the third record */
    same("a bit turned", power_up(), DIALCHISEL_REFUSED_JOURNAL, 0);
    a[2 * DIALCHISEL_RECORD + 1] ^= 1;
    same("turned back", power_up(), DIALCHISEL_DONE, 0);
    is("as it was", memcmp(before, state, sizeof before) == 0);
}

/* The power is cut when so many bytes of a request's record are written. The state is found as it
 * was before it or after it, and goes on. */
static void cut(size_t bytes)
{
    uint32_t before[DIALCHISEL_STATE], after[DIALCHISEL_STATE];
    uint32_t time = state[DIALCHISEL_PLACE_LAST];
    struct dialchisel_answer next = dialchisel_journal_next(area(), size);
    uint8_t *slot = area() + DIALCHISEL_RECORD * next.second;
    memcpy(before, state, sizeof before);
    same("reset", dialchisel_journal_request(state, count, area(), size, time, DIALCHISEL_MODULE_RESET),
         DIALCHISEL_DONE, 0);
    memcpy(after, state, sizeof after);
    memset(slot + bytes, 255, DIALCHISEL_RECORD - bytes);
    same("power up", power_up(), DIALCHISEL_DONE, 0);
    if (bytes == DIALCHISEL_RECORD) {
        is("as after the call", memcmp(after, state, sizeof after) == 0);
        return;
    }
    is("as before the call", memcmp(before, state, sizeof before) == 0);
    same("its slot is free", dialchisel_journal_next(area(), size), DIALCHISEL_DONE, next.second);
    is("all of it", slot[0] == 255 && memcmp(slot, slot + 1, DIALCHISEL_RECORD - 1) == 0);
}

/* A memory that is not mapped: the area is its mirror, and the one slot is written through, front
 * to back, before the answer is acted on. The power is cut in the middle of that. */
static void mirrored(void)
{
    static uint8_t chip[DIALCHISEL_JOURNAL];
    uint32_t time = state[DIALCHISEL_PLACE_LAST];
    uint32_t resets = state[DIALCHISEL_PLACE_LENGTHS + DIALCHISEL_LIST_RESET];
    size_t i, from;
    memcpy(chip, area(), size);
    from = DIALCHISEL_RECORD * (size_t)dialchisel_journal_next(area(), size).second;
    same("reset", dialchisel_journal_request(state, count, area(), size, time, DIALCHISEL_MODULE_RESET),
         DIALCHISEL_DONE, 0);
    for (i = 0; i < 50; i++)
        chip[from + i] = area()[from + i];

    memcpy(area(), chip, size);
    same("power up", power_up(), DIALCHISEL_DONE, 0);
    from = DIALCHISEL_RECORD * (size_t)dialchisel_journal_next(area(), size).second;
    for (i = DIALCHISEL_RECORD; i-- > 0;)
        chip[from + i] = area()[from + i];
    is("the chip is as its mirror", memcmp(chip, area(), size) == 0);
    is("nothing was sent, nothing is counted",
       state[DIALCHISEL_PLACE_LENGTHS + DIALCHISEL_LIST_RESET] == resets);
}

/* The journal is filled up: the call that is refused has not happened, and a new pair has room. */
static void full(void)
{
    uint32_t before[DIALCHISEL_STATE];
    uint32_t time = state[DIALCHISEL_PLACE_LAST], first = dialchisel_journal_next(area(), size).second, i;
    for (i = first; i < 512; i++)
        same("tick", dialchisel_journal_tick(state, count, area(), size, ++time), DIALCHISEL_DONE, 0);
    memcpy(before, state, sizeof before);
    same("full", dialchisel_journal_next(area(), size), DIALCHISEL_REFUSED_FULL, 0);
    same("one more", dialchisel_journal_tick(state, count, area(), size, time + 1),
         DIALCHISEL_REFUSED_FULL, 0);
    same("the checks come first", dialchisel_journal_tick(state, count, area(), size, time - 1),
         DIALCHISEL_REFUSED_TIME, 0);
    is("nothing has changed", memcmp(before, state, sizeof before) == 0);
    same("power up", power_up(), DIALCHISEL_DONE, 0);
    is("all 512 are in it", memcmp(before, state, sizeof before) == 0);
    new_pair();
    same("power up, new pair", power_up(), DIALCHISEL_DONE, 0);
    is("the same state", memcmp(before, state, sizeof before) == 0);
    same("again", dialchisel_journal_tick(state, count, area(), size, time + 1), DIALCHISEL_DONE, 0);
}

/* A journal and cuts of the power. */
static void power(void)
{
    static const size_t cuts[] = {0, 1, 60, 127, 128};
    size_t i;
    journaled();
    journal_refusals();
    for (i = 0; i < sizeof cuts / sizeof *cuts; i++)
        cut(cuts[i]);
    mirrored();
    full();
}

int main(void)
{
    example();
    refusals();
    bytes();
    lacking();
    columns();
    timed();
    turned();
    power();
    printf("use.c: %d answers and places as document 01 has them, %d surprises\n", looked - surprises, surprises);
    return surprises != 0;
}
