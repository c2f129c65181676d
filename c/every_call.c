/* Every call once with an answer and once with a refusal, over three actions: print 1, print 2 (needs label 1), void both. It prints what
 * rust/examples/every_call.rs prints. */
#include "wyndhopper.h"
#include <stdio.h>
#include <string.h>

static const uint8_t *bytes(const char *text) { return (const uint8_t *)text; }

static void told(const char *call, uint8_t refused) {
    printf("%s: %s\n", call, wyh_refusal_sentence(refused));
}

static void states(const struct wyh_job *job) {
    uint32_t state;
    uint8_t refused = wyh_job_state(job, 2, &state);
    told("state at 2", refused);
    printf("  %08lx\n", (unsigned long)state);
    refused = wyh_job_state(job, 5, &state);
    told("state at 5", refused);
    printf("  %08lx\n", (unsigned long)state);
}

static void reach(const struct wyh_job *job, const char *walk, size_t then) {
    struct wyh_reached reached;
    uint8_t refused = wyh_job_reach(job, bytes(walk), strlen(walk), then, job->log_len, &reached);
    told("reach", refused);
    printf("  set %lx, count %lu, earliest %lu\n", (unsigned long)reached.set[0], (unsigned long)reached.count, (unsigned long)reached.earliest);
}

static void verdict(const struct wyh_job *job, const char *test) {
    uint8_t yes;
    uint8_t refused = wyh_job_verdict(job, bytes(test), strlen(test), job->log_len, job->log_len, &yes);
    told("verdict", refused);
    printf("  %s\n", yes ? "yes" : "no");
}

/* The bytes that are told, and one behind them that is not touched. */
static void board(const struct wyh_job *job, const char *tests, size_t room) {
    uint8_t out[WYH_BOARD_ROOM + 1];
    size_t count, k;
    memset(out, 99, sizeof out);
    told("board", wyh_job_board(job, bytes(tests), strlen(tests), job->log_len, job->log_len, out, room, &count));
    printf("  %lu tests:", (unsigned long)count);
    for (k = 0; k <= count; k++) printf(" %d", out[k]);
    printf("\n");
}

static void possible(const struct wyh_job *job, size_t action, size_t position) {
    uint8_t yes;
    uint8_t refused = wyh_job_possible(job, action, position, &yes);
    told("possible", refused);
    printf("  %s\n", yes ? "yes" : "no");
}

static void next(const struct wyh_job *job, const char *run) {
    uint64_t actions;
    uint8_t refused = wyh_job_next(job, bytes(run), strlen(run), &actions);
    told("next", refused);
    printf("  %lx\n", (unsigned long)actions);
}

static void finish(const struct wyh_job *job, const char *run, size_t more) {
    uint8_t left[WYH_FINISH_ROOM];
    size_t count, k;
    uint8_t refused = wyh_job_finish(job, bytes(run), strlen(run), more, left, sizeof left, &count);
    told("finish", refused);
    printf("  %lu left:", (unsigned long)count);
    for (k = 0; k < count; k++) printf(" %02d", left[k]);
    printf("\n");
}

static void read_rule(const struct wyh_job *job, uint8_t kind, const char *text) {
    size_t rest;
    uint8_t refused = wyh_job_read_rule(job, kind, bytes(text), strlen(text), &rest);
    told("read_rule", refused);
    printf("  unread: \"%s\"\n", text + rest);
}

static void normal(const struct wyh_job *job, const char *walk, size_t room) {
    uint8_t form[WYH_RULE_ROOM];
    size_t count;
    uint8_t refused = wyh_job_normal(job, WYH_WALK, bytes(walk), strlen(walk), form, room, &count);
    told("normal", refused);
    printf("  \"%.*s\"\n", (int)count, (const char *)form);
}

/* The tally of the log; one action appended; one that the theory lacks. Each time: counts and places of the three actions, the rest, and which have happened. */
static void show_tally(const struct wyh_job *job, const struct wyh_tally *tally) {
    size_t a;
    printf("  counts %d %d %d, last %d %d %d, ", tally->counts[0], tally->counts[1], tally->counts[2], tally->last[0], tally->last[1], tally->last[2]);
    printf("impossible %d, %d steps, state %08lx, happened:", tally->impossible, tally->steps, (unsigned long)tally->state);
    for (a = 0; a < 3; a++) {
        uint8_t yes;
        wyh_tally_happened(job, tally, a, &yes);
        printf(" %s", yes ? "yes" : "no");
    }
    printf("\n");
}

static void tallies(const struct wyh_job *job) {
    struct wyh_tally tally;
    uint8_t yes;
    memset(&tally, 0, sizeof tally);
    told("tally", wyh_job_tally(job, &tally));
    show_tally(job, &tally);
    told("append 2", wyh_job_append(job, &tally, 2));
    told("append 1", wyh_job_append(job, &tally, 1));
    show_tally(job, &tally);
    told("append 3", wyh_job_append(job, &tally, 3));
    show_tally(job, &tally);
    told("happened 3", wyh_tally_happened(job, &tally, 3, &yes));
}

/* Variables: three actions, and as many values. Some action, twice; the same one twice; what may come next; the converse. */
static void variables(const struct wyh_job *job) {
    struct wyh_job some = *job;
    some.domain = 3;
    reach(&some, "pvpw;b00vb00w", 0);
    reach(&some, "pv;b00vb00v", 0);
    next(&some, ";*npvb00v");
    finish(&some, ";*npv;b00vb00v", 2);
    normal(&some, "-pv;b00va01", WYH_RULE_ROOM);
    reach(&some, "pvb00w", 0);
    reach(&some, "pvb01v", 0);
    reach(job, "pvb00v", 0);
    some.domain = 2;
    verdict(&some, "evg00v");
    board(&some, "evg00v\ng00v\nevg01v\n", WYH_BOARD_ROOM);
    some.domain = 17;
    verdict(&some, "1");
    board(&some, "1\n", WYH_BOARD_ROOM);
}

/* Tests that see the whole log: the same questions with tests inside a walk that see up to their own place, and up to the outer now. */
static void readings(const struct wyh_job *job) {
    struct wyh_job end = *job;
    end.reading = WYH_END;
    reach(job, "*;n?<a011", 0);
    reach(&end, "*;n?<a011", 0);
    verdict(job, "<-;a00;?<;*na021*n1");
    verdict(&end, "<-;a00;?<;*na021*n1");
    finish(job, ";*n?<-;a00;?<a021*n1", 2);
    finish(&end, ";*n?<-;a00;?<a021*n1", 2);
    next(job, ";a00;a01;a02;a00;?<-;a00;?<a011*n1a01");
    next(&end, ";a00;a01;a02;a00;?<-;a00;?<a011*n1a01");
}

/* Effects that depend: 00 puts label 01 when the carton, 00, is open; 01 closes it; 02 opens it. The states, what is left to do, and a table of the wrong length. */
static void depends(void) {
    const uint32_t masks[] = {0, 0, 1, 0, 2, 0, 0, 0, 0, 0, WYH_PLAIN_ROW(0, 0, 0, 1), WYH_PLAIN_ROW(0, 0, 1, 0)};
    const uint8_t log[] = {0, 1, 0};
    struct wyh_job job = WYH_JOB_EMPTY;
    uint32_t state;
    size_t position;
    job.fluents = 2;
    job.actions = 3;
    job.start = 1;
    job.masks = masks;
    job.masks_len = 3 * WYH_ROW_MASKS;
    job.log = log;
    job.log_len = 3;
    for (position = 0; position <= 3; position++) {
        told("state", wyh_job_state(&job, position, &state));
        printf("  %08lx\n", (unsigned long)state);
    }
    job.log = log + 1;
    job.log_len = 2;
    finish(&job, ";*n?f01", 2);
    job.masks_len = 12;
    told("four masks an action", wyh_job_state(&job, 0, &state));
}

static void read_sheet(const char *text) {
    uint32_t masks[WYH_MASKS_ROOM];
    uint8_t log[WYH_LOG_ROOM];
    struct wyh_sheet sheet;
    uint8_t yes, refused = wyh_job_read_sheet(bytes(text), strlen(text), masks, log, &sheet);
    told("read_sheet", refused);
    printf("  line %lu, %lu fluents, %lu actions, domain %lu, %lu masks, %lu steps, reading %lu\n", (unsigned long)sheet.line, (unsigned long)sheet.job.fluents,
           (unsigned long)sheet.job.actions, (unsigned long)sheet.job.domain, (unsigned long)sheet.job.masks_len, (unsigned long)sheet.job.log_len,
           (unsigned long)sheet.job.reading);
    printf("  ask \"%.*s\", run \"%.*s\", more %lu\n", (int)sheet.ask_len, (const char *)(sheet.ask ? sheet.ask : bytes("")), (int)sheet.run_len,
           (const char *)(sheet.run ? sheet.run : bytes("")), (unsigned long)sheet.more);
    if (refused) return;
    told("its ask", wyh_job_verdict(&sheet.job, sheet.ask, sheet.ask_len, sheet.job.log_len, sheet.job.log_len, &yes));
    printf("  %s\n", yes ? "yes" : "no");
    finish(&sheet.job, ";a00;a01;a02;a00a01", sheet.more);
}

static void answer(const char *sheet) {
    uint8_t out[WYH_ANSWER_ROOM];
    size_t count = wyh_answer(bytes(sheet), strlen(sheet), out);
    printf("answer\n%.*s", (int)count, (const char *)out);
}

/* Where a length is 0, the pointer may be NULL. */
static void nothing(const struct wyh_job *job) {
    const struct wyh_job empty = WYH_JOB_EMPTY;
    struct wyh_reached reached;
    struct wyh_sheet sheet;
    struct wyh_tally tally;
    uint32_t state, masks[WYH_MASKS_ROOM];
    uint64_t set;
    uint8_t yes, log[WYH_LOG_ROOM];
    size_t count;
    told("no theory", wyh_job_state(&empty, 0, &state));
    told("no walk", wyh_job_reach(job, NULL, 0, 0, 0, &reached));
    told("no test", wyh_job_verdict(job, NULL, 0, 0, 0, &yes));
    told("no tests and no output", wyh_job_board(job, NULL, 0, 0, 0, NULL, 0, &count));
    told("no run", wyh_job_next(job, NULL, 0, &set));
    told("no tally", wyh_job_tally(&empty, &tally));
    told("no sheet", wyh_job_read_sheet(NULL, 0, masks, log, &sheet));
    told("no output for no action", wyh_job_finish(job, bytes("*n"), 2, 0, NULL, 0, &count));
    told("no output for one action", wyh_job_finish(job, bytes("*n"), 2, 1, NULL, 0, &count));
    told("no rule to read", wyh_job_read_rule(job, WYH_TEST, NULL, 0, &count));
    told("no output for a normal form", wyh_job_normal(job, WYH_WALK, bytes("n"), 1, NULL, 0, &count));
}

static const char *const sheet =
    "sheet=1\nfluents=02\nactions=03\nstart=00000000\nact=00000000,00000000,00000001,00000000\nact=00000001,00000000,00000002,00000000\n"
    "act=00000000,00000000,00000000,00000003\nlog=00010200\nask=<-;a00*n!<;*na011\nrun=;a00;a01;a02;a00a01\nmore=2\n";

static const char *const sheet_2 =
    "sheet=2\nfluents=02\nactions=03\ndomain=02\nstart=00000000\nact=00000000,00000000,00000001,00000000\nact=00000001,00000000,00000002,00000000\n"
    "act=00000000,00000000,00000000,00000003\nlog=00010200\nask=evg00v\nrun=;*n?!ev!g00v\nmore=2\n";

static const char *const sheet_3 =
    "sheet=3\nfluents=02\nactions=03\ndomain=01\nstart=00000001\n"
    "act=00000000,00000000,00000001,00000000,00000002,00000000,00000000,00000000,00000000,00000000\n"
    "act=00000000,00000000,00000000,00000000,00000000,00000001,00000000,00000000,00000000,00000000\n"
    "act=00000000,00000000,00000000,00000000,00000001,00000000,00000000,00000000,00000000,00000000\nlog=0100\nask=f01\nrun=;*n?f01\nmore=2\n";

static const char *const sheet_4 =
    "sheet=4\nfluents=02\nactions=03\ndomain=01\nstart=00000000\n"
    "act=00000000,00000000,00000000,00000000,00000001,00000000,00000000,00000000,00000000,00000000\n"
    "act=00000001,00000000,00000000,00000000,00000002,00000000,00000000,00000000,00000000,00000000\n"
    "act=00000000,00000000,00000000,00000000,00000000,00000003,00000000,00000000,00000000,00000000\nlog=00020001\nnow=end\nask=<-;a00;?<;*na021*n1\nrun=;a00;a02;a00a01\nmore=0\n";

int main(void) {
    const uint32_t masks[] = {WYH_PLAIN_ROW(0, 0, 1, 0), WYH_PLAIN_ROW(1, 0, 2, 0), WYH_PLAIN_ROW(0, 0, 0, 3)};
    const uint8_t log[4] = {0, 1, 2, 0};
    struct wyh_job job = WYH_JOB_EMPTY;
    job.fluents = 2;
    job.actions = 3;
    job.masks = masks;
    job.masks_len = 3 * WYH_ROW_MASKS;
    printf("version %s\n", WYH_VERSION);
    /* The log is still empty: its pointer is NULL. */
    verdict(&job, "f00");
    job.log = log;
    job.log_len = 4;
    states(&job);
    reach(&job, "*n", 2);
    reach(&job, "a01", 0);
    reach(&job, "a03", 0);
    verdict(&job, "<-;a00*n!<;*na011");
    verdict(&job, "");
    board(&job, "1\n!1\n\nf02\n!!!!!!!!!!!!!!!!!!!!!!!!1\n<-;a00*n!<;*na011\n", WYH_BOARD_ROOM);
    board(&job, "1\nf00", WYH_BOARD_ROOM);
    board(&job, "1\nf00\n", 1);
    possible(&job, 1, 4);
    possible(&job, 1, 0);
    possible(&job, 3, 0);
    next(&job, ";a00;a01;a02;a00|a01a02");
    next(&job, "*n");
    next(&job, "r00");
    finish(&job, ";a00;a01;a02;a00a01", 2);
    finish(&job, ";a00;a01;a02;a00a01", 0);
    finish(&job, "-a00", 2);
    read_rule(&job, WYH_TEST, "f00rest");
    read_rule(&job, WYH_RUN, "u");
    normal(&job, "-;a00*n", WYH_RULE_ROOM);
    normal(&job, "-;a00*n", 5);
    variables(&job);
    tallies(&job);
    depends();
    readings(&job);
    nothing(&job);
    read_sheet(sheet);
    read_sheet(sheet_2);
    read_sheet(sheet_3);
    read_sheet(sheet_4);
    read_sheet("sheet=0\n");
    answer(sheet);
    answer(sheet_2);
    answer(sheet_3);
    answer(sheet_4);
    answer("sheet=0\n");
    return 0;
}
