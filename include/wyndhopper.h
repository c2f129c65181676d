/* Wyndhopper: the order of labels within a job, settled by the rule on the job's sheet.
 *
 * Each call takes every input and returns the number of its refusal, 0 for none (WYH_REFUSED_.. below; docs/REFUSALS.md says what to look for). Where several
 * numbers apply the smallest is given, except that 13 comes before 10, and 12 before 11. Slots for single answers are always written, on a refusal with the values named
 * here; lent output keeps every byte then, and behind what is written otherwise.
 *
 * What a program must see to: pointers are valid and aligned for what they point to; lent memory (output and slots) overlaps nothing else that is passed.
 *
 * What a call may cost.
 *   Time: every call ends; a usual question takes about a microsecond, and no verdict or reach of a rule without variables more than some milliseconds; a board takes less than its tests
 *         asked one by one. A binder goes over its part once for each value, so binders nested k deep can take the domain to the power of k times as long as their part alone. A finish whose
 *         run names its labels tries one action a step. A run that leaves open which actions come, and says only what has to be on in the end, is searched: up to `actions` to the power of
 *         `more` sequences, of those actions that matter to it; with more than ten such actions and `more` 6 that is over 10 milliseconds. docs/BENCHMARKS.md has the times.
 *   Stack: measured, less than 44 kilobytes (a text of 255 signs that is refused; a call with no refused rule takes less than 23); no heap.
 *   Threads: nothing is kept between calls, so any number of threads may call at once, each with lent memory of its own.
 *
 * A job is a theory and a log. The theory: `fluents` (0 to 32), `actions` (1 to 64), the start state, and a mask table of ten masks an action, need, ban, then twice when,
 * unless, put, drop, in order of action number: masks_len is WYH_ROW_MASKS * actions. An action is possible where its need bits are on and its ban bits off. The last eight masks are the two
 * clauses of its effects: a clause acts if its when bits are on and its unless bits off before the step; then a fluent is on if an acting clause puts it, or it was on and no acting clause
 * drops it. WYH_PLAIN_ROW makes the row of an action whose effects do not depend. The log: 0 to 63 bytes, one action each; steps that were not possible are accepted. A rule is 1 to 255 bytes
 * of text (docs/LANGUAGE.md). The domain, 1 to 16, is how many values a variable in a rule has, from 0 on; with domain 0 a rule has no variables. The reading says what the now of a test
 * inside a walk is: its own position (WYH_STEP), or the outer now (WYH_END); a run's own test, outside every `<`, keeps its own position either way. Calls without a rule look at neither.
 *
 * An answer with its now stands: which actions follow position now in the log does not matter for reach and verdict, nor for the state at a position up to now.
 */
#ifndef WYNDHOPPER_H
#define WYNDHOPPER_H

#include <stddef.h>
#include <stdint.h>

#define WYH_VERSION "0.7.0"

#ifdef __cplusplus
extern "C" {
#endif

/* What a rule is used as: a test, a walk (questions only), or a walk to be carried out, as on a sheet's run line. Any other number has no rule of its kind, so it is
 * refused as 6. */
enum { WYH_TEST = 0, WYH_WALK = 1, WYH_RUN = 2 };

/* The refusals. */
enum {
    WYH_REFUSED_SHEET_TOO_LONG = 1,
    WYH_REFUSED_BAD_LINE = 2,
    WYH_REFUSED_BAD_NUMBER = 3,
    WYH_REFUSED_LACKS_FLUENT = 4,
    WYH_REFUSED_BAD_LOG = 5,
    WYH_REFUSED_BAD_RULE = 6,
    WYH_REFUSED_LACKS_NAME = 7,
    WYH_REFUSED_TOO_DEEP = 8,
    WYH_REFUSED_BACKWARD = 9,
    WYH_REFUSED_BAD_POSITION = 10,
    WYH_REFUSED_NO_FINISH = 11,
    WYH_REFUSED_SHORT_OUTPUT = 12,
    WYH_REFUSED_UNBOUND = 13
};

/* How a test inside a walk, `?T`, is read: its now is its own position, or the outer now. Any other number is refused as 3. */
enum { WYH_STEP = 0, WYH_END = 1 };

/* A set of positions has so many words of 64, lowest positions first; bit q of the first word is position q. */
enum { WYH_SET_WORDS = 1 };

/* The earliest position of an empty set. */
enum { WYH_NO_POSITION = 64 };

/* The longest normal form and the longest finishing sequence. */
enum { WYH_RULE_ROOM = 255, WYH_FINISH_ROOM = 6 };

/* A board has so many tests at most, and a byte for each: no, yes, or so much more than the number of the test's own refusal. */
enum { WYH_BOARD_ROOM = 64, WYH_BOARD_NO = 0, WYH_BOARD_YES = 1, WYH_BOARD_REFUSED = 16 };

/* The longest answer to a sheet fits in so many bytes. */
enum { WYH_ANSWER_ROOM = 64 };

/* So many masks of a table belong to one action. */
enum { WYH_ROW_MASKS = 10 };

/* A row from four masks, for the initializer of a table: one clause without conditions, and an empty one. */
#define WYH_PLAIN_ROW(need, ban, put, drop) (need), (ban), 0, 0, (put), (drop), 0, 0, 0, 0

/* What reading a sheet is lent: a row for each of 64 actions, a log and a byte, and so many numbers. */
enum { WYH_MASKS_ROOM = 640, WYH_LOG_ROOM = 64, WYH_SHEET_NUMBERS = 12 };

/* ---- The calls over a job --------------------------------------------------------------------------------------------------------------------------------- */

/* A job. Begin with `struct wyh_job job = WYH_JOB_EMPTY;` and set what it has: later versions add fields, and zero in them means what this version does. */
struct wyh_job {
    size_t fluents, actions;
    uint32_t start;
    const uint32_t *masks;
    size_t masks_len;
    const uint8_t *log;
    size_t log_len;
    size_t domain;
    size_t reading;
};

#define WYH_JOB_EMPTY {0, 0, 0, NULL, 0, NULL, 0, 0, WYH_STEP}

/* The positions that a walk leads to. */
struct wyh_reached {
    uint64_t set[WYH_SET_WORDS];
    size_t count;
    size_t earliest;
};

/* A running tally beside the log of one job, lent to be updated at every append. A place is kept as the position after the step, 0 for none. Two bytes at the end are unused, so compare two
 * tallies field by field. A tally that the library did not make is taken by its fields as they stand. */
enum { WYH_TALLY_ACTIONS = 64 };

struct wyh_tally {
    uint8_t counts[WYH_TALLY_ACTIONS]; /* of each action, how often it was taken where it was possible */
    uint8_t last[WYH_TALLY_ACTIONS];   /* of each action, the place of the last such step */
    uint32_t state;                    /* the state at the log's end */
    uint8_t steps;                     /* the log's steps */
    uint8_t impossible;                /* the place of the last step that was not possible */
};

/* What a sheet says: the job, whose masks and log stand in the lent arrays; the rules of its ask and run lines, which stand in the sheet's text; the bound on actions still to come. For a refused sheet
 * the line of the fault (0 for a sheet that is too long), and zero in all else. */
struct wyh_sheet {
    size_t line;
    struct wyh_job job;
    const uint8_t *ask;
    size_t ask_len;
    const uint8_t *run;
    size_t run_len;
    size_t more;
};

/* In these calls a pointer whose length is 0 may be NULL.
 *
 *   wyh_job_state       the state at a position of the log, 0 to log_len, in *state. Refusals 3, 4, 5, 10; *state is then 0.
 *   wyh_job_reach       the positions that a walk leads to from `then` with `now`. Refusals 3 to 8, 13, 10; then the set is empty, the count 0, the earliest WYH_NO_POSITION.
 *   wyh_job_verdict     whether a test is true at (then, now): *yes is 1 or 0. Refusals 3 to 8, 13, 10; *yes is then 0.
 *   wyh_job_board       the verdicts of up to 64 tests at one (then, now), each test ended by one LF: byte k of out is WYH_BOARD_NO, WYH_BOARD_YES or, where test k is refused as 6, 7, 8
 *                       or 13, WYH_BOARD_REFUSED and that number; it is what wyh_job_verdict says of that test, and no test changes what another is told. *count is how many they are. Bytes behind
 *                       them keep what they hold. Refusals of the whole call: 2 (the last LF is missing; no text is no tests), 3 (also more than 64 tests), 4, 5, 10, 12 (room is less than
 *                       the tests are many); then *count is 0.
 *   wyh_job_possible    whether an action may be taken at a position: its need bits are on and its ban bits off in the state there; *yes is 1 or 0. Refusals 3, 4, 5, 7 (the theory
 *                       lacks the action), 10; *yes is then 0.
 *   wyh_job_next        the actions that may come next: those that the run waits for at the log's end and that are possible there; bit a of *actions is action a. Refusals 3 to 9,
 *                       13; *actions is then 0.
 *   wyh_job_finish      the first sequence of at most `more` (0 to 6) actions that finishes the run, at the front of out; *count is its length. Refusals 3 to 9, 13,
 *                       12 (room is less than more), 11 (no such sequence); then *count is 0.
 *   wyh_job_read_rule   reads one rule: *rest is where the unread rest of the text begins; a rest is no fault. Refusals 3, 6 to 9, 13; *rest is then text_len.
 *   wyh_job_normal      the normal form of a rule, in which no `-` is left, at the front of out; *count is its length. Refusals 3, 6 to 9, 13, 12 (room is less than
 *                       that); then *count is 0.
 *
 * The last two look at the job's counts and domain alone, and not at its reading.
 *
 *   wyh_job_tally       the tally of the job's log, made afresh in *tally. Refusals 3, 4, 5; *tally then keeps every field.
 *   wyh_job_append      takes one action more into *tally; the job's own log is not looked at. An action that is not possible is taken in too: its effects apply, and the last impossible step
 *                       moves. Refusals 3, 4, 5 (the tally has 63 steps or more, or the theory lacks the action); *tally then keeps every field. A count of 63 or more stays as it is.
 *   wyh_tally_happened  whether an action has happened, with only possible steps since: its last place is greater than that of the last impossible step; *yes is 1 or 0. It is the verdict of
 *                       `<-;aNN*n1` at the log's end, for a tally made from that theory and log, afresh or by appends. Of the job it looks at the count of actions alone. Refusals 3 (that count),
 *                       7 (the theory lacks the action); *yes is then 0.
 *
 *   wyh_job_read_sheet  reads a whole sheet: masks and log go to the front of the lent arrays, and *sheet says the rest. Refusals 1 to 9 and 13, for the first faulty line; then masks
 *                       and log keep what they hold. */
static inline uint8_t wyh_job_state(const struct wyh_job *job, size_t position, uint32_t *state);
static inline uint8_t wyh_job_reach(const struct wyh_job *job, const uint8_t *walk, size_t walk_len, size_t then, size_t now, struct wyh_reached *reached);
static inline uint8_t wyh_job_verdict(const struct wyh_job *job, const uint8_t *test, size_t test_len, size_t then, size_t now, uint8_t *yes);
static inline uint8_t wyh_job_board(const struct wyh_job *job, const uint8_t *tests, size_t tests_len, size_t then, size_t now, uint8_t *out, size_t room, size_t *count);
static inline uint8_t wyh_job_possible(const struct wyh_job *job, size_t action, size_t position, uint8_t *yes);
static inline uint8_t wyh_job_next(const struct wyh_job *job, const uint8_t *run, size_t run_len, uint64_t *actions);
static inline uint8_t wyh_job_finish(const struct wyh_job *job, const uint8_t *run, size_t run_len, size_t more, uint8_t *out, size_t room, size_t *count);
static inline uint8_t wyh_job_read_rule(const struct wyh_job *job, uint8_t kind, const uint8_t *text, size_t text_len, size_t *rest);
static inline uint8_t wyh_job_normal(const struct wyh_job *job, uint8_t kind, const uint8_t *text, size_t text_len, uint8_t *out, size_t room, size_t *count);
static inline uint8_t wyh_job_tally(const struct wyh_job *job, struct wyh_tally *tally);
static inline uint8_t wyh_job_append(const struct wyh_job *job, struct wyh_tally *tally, size_t action);
static inline uint8_t wyh_tally_happened(const struct wyh_job *job, const struct wyh_tally *tally, size_t action, uint8_t *yes);
static inline uint8_t wyh_job_read_sheet(const uint8_t *text, size_t text_len, uint32_t masks[WYH_MASKS_ROOM], uint8_t log[WYH_LOG_ROOM], struct wyh_sheet *sheet);

/* The refusal of one test of a board, by its byte: 0 where it was answered. */
static inline uint8_t wyh_board_refusal(uint8_t byte);

/* A refusal's sentence, for a message; 0 is "not refused". */
static inline const char *wyh_refusal_sentence(uint8_t number);

/* ---- The exported functions ------------------------------------------------------------------------------------------------------------------------------- *
 * The same calls with loose numbers. Here a pointer with length 0 may be anything but NULL. */

uint8_t wyh_state(size_t fluents, size_t actions, uint32_t start, const uint32_t *masks, size_t masks_len, const uint8_t *log, size_t log_len,
                  size_t position, uint32_t *state);

uint8_t wyh_reach(size_t fluents, size_t actions, size_t domain, uint32_t start, size_t reading, const uint32_t *masks, size_t masks_len, const uint8_t *log, size_t log_len,
                  const uint8_t *walk, size_t walk_len, size_t then, size_t now, uint64_t *set, uint32_t *count, uint32_t *earliest);

uint8_t wyh_verdict(size_t fluents, size_t actions, size_t domain, uint32_t start, size_t reading, const uint32_t *masks, size_t masks_len, const uint8_t *log, size_t log_len,
                    const uint8_t *test, size_t test_len, size_t then, size_t now, uint8_t *yes);

uint8_t wyh_board(size_t fluents, size_t actions, size_t domain, uint32_t start, size_t reading, const uint32_t *masks, size_t masks_len, const uint8_t *log, size_t log_len,
                  const uint8_t *tests, size_t tests_len, size_t then, size_t now, uint8_t *out, size_t room, size_t *count);

uint8_t wyh_possible(size_t fluents, size_t actions, uint32_t start, const uint32_t *masks, size_t masks_len, const uint8_t *log, size_t log_len,
                     size_t action, size_t position, uint8_t *yes);

uint8_t wyh_next(size_t fluents, size_t actions, size_t domain, uint32_t start, size_t reading, const uint32_t *masks, size_t masks_len, const uint8_t *log, size_t log_len,
                 const uint8_t *run, size_t run_len, uint64_t *next);

uint8_t wyh_finish(size_t fluents, size_t actions, size_t domain, uint32_t start, size_t reading, const uint32_t *masks, size_t masks_len, const uint8_t *log, size_t log_len,
                   const uint8_t *run, size_t run_len, size_t more, uint8_t *out, size_t room, size_t *count);

uint8_t wyh_read_rule(const uint8_t *text, size_t text_len, uint8_t kind, size_t fluents, size_t actions, size_t domain, size_t *rest);

uint8_t wyh_normal(const uint8_t *text, size_t text_len, uint8_t kind, size_t fluents, size_t actions, size_t domain, uint8_t *out, size_t room, size_t *count);

uint8_t wyh_tally(size_t fluents, size_t actions, uint32_t start, const uint32_t *masks, size_t masks_len, const uint8_t *log, size_t log_len,
                  struct wyh_tally *tally);

uint8_t wyh_append(size_t fluents, size_t actions, uint32_t start, const uint32_t *masks, size_t masks_len, struct wyh_tally *tally, size_t action);

/* The quick yes by the two fields of a tally that it looks at. */
uint8_t wyh_happened(size_t actions, const uint8_t last[WYH_TALLY_ACTIONS], uint8_t impossible, size_t action, uint8_t *yes);

/* Reads a sheet. The numbers are: the line of the refusal, fluents, actions, domain (0 on a sheet of version 1), start, steps of the log, reading (0 on a sheet of version 1 to 3), where the ask
 * rule begins and ends in the sheet, where the run rule does, more; on a refusal all are 0 but the line. */
uint8_t wyh_read_sheet(const uint8_t *sheet, size_t sheet_len, uint32_t masks[WYH_MASKS_ROOM], uint8_t log[WYH_LOG_ROOM], size_t numbers[WYH_SHEET_NUMBERS]);

/* Writes what the program jobsheet prints for a sheet to the front of out, which has WYH_ANSWER_ROOM bytes, and returns how many bytes that is. A refused sheet
 * gives `refused=N,line=M`. */
size_t wyh_answer(const uint8_t *sheet, size_t sheet_len, uint8_t *out);

/* ---- How the calls over a job are made of the exported functions ------------------------------------------------------------------------------------------ */

/* Something to point to where a length is 0. */
static inline const uint8_t *wyh_bytes(const uint8_t *bytes, size_t length) {
    static const uint8_t nothing[1] = {0};
    return length == 0 ? nothing : bytes;
}

static inline const uint32_t *wyh_masks(const struct wyh_job *job) {
    static const uint32_t nothing[1] = {0};
    return job->masks_len == 0 ? nothing : job->masks;
}

static inline uint8_t wyh_job_state(const struct wyh_job *job, size_t position, uint32_t *state) {
    return wyh_state(job->fluents, job->actions, job->start, wyh_masks(job), job->masks_len, wyh_bytes(job->log, job->log_len), job->log_len,
                     position, state);
}

static inline uint8_t wyh_job_reach(const struct wyh_job *job, const uint8_t *walk, size_t walk_len, size_t then, size_t now, struct wyh_reached *reached) {
    uint32_t count, earliest;
    uint8_t refused = wyh_reach(job->fluents, job->actions, job->domain, job->start, job->reading, wyh_masks(job), job->masks_len, wyh_bytes(job->log, job->log_len), job->log_len,
                                wyh_bytes(walk, walk_len), walk_len, then, now, &reached->set[0], &count, &earliest);
    reached->count = count;
    reached->earliest = earliest;
    return refused;
}

static inline uint8_t wyh_job_verdict(const struct wyh_job *job, const uint8_t *test, size_t test_len, size_t then, size_t now, uint8_t *yes) {
    return wyh_verdict(job->fluents, job->actions, job->domain, job->start, job->reading, wyh_masks(job), job->masks_len, wyh_bytes(job->log, job->log_len), job->log_len,
                       wyh_bytes(test, test_len), test_len, then, now, yes);
}

static inline uint8_t wyh_job_board(const struct wyh_job *job, const uint8_t *tests, size_t tests_len, size_t then, size_t now, uint8_t *out, size_t room, size_t *count) {
    uint8_t nothing[1] = {0};
    return wyh_board(job->fluents, job->actions, job->domain, job->start, job->reading, wyh_masks(job), job->masks_len, wyh_bytes(job->log, job->log_len), job->log_len,
                     wyh_bytes(tests, tests_len), tests_len, then, now, room == 0 ? nothing : out, room, count);
}

static inline uint8_t wyh_job_possible(const struct wyh_job *job, size_t action, size_t position, uint8_t *yes) {
    return wyh_possible(job->fluents, job->actions, job->start, wyh_masks(job), job->masks_len, wyh_bytes(job->log, job->log_len), job->log_len,
                        action, position, yes);
}

static inline uint8_t wyh_job_next(const struct wyh_job *job, const uint8_t *run, size_t run_len, uint64_t *actions) {
    return wyh_next(job->fluents, job->actions, job->domain, job->start, job->reading, wyh_masks(job), job->masks_len, wyh_bytes(job->log, job->log_len), job->log_len,
                    wyh_bytes(run, run_len), run_len, actions);
}

static inline uint8_t wyh_job_finish(const struct wyh_job *job, const uint8_t *run, size_t run_len, size_t more, uint8_t *out, size_t room, size_t *count) {
    uint8_t nothing[1] = {0};
    return wyh_finish(job->fluents, job->actions, job->domain, job->start, job->reading, wyh_masks(job), job->masks_len, wyh_bytes(job->log, job->log_len), job->log_len,
                      wyh_bytes(run, run_len), run_len, more, room == 0 ? nothing : out, room, count);
}

static inline uint8_t wyh_job_read_rule(const struct wyh_job *job, uint8_t kind, const uint8_t *text, size_t text_len, size_t *rest) {
    return wyh_read_rule(wyh_bytes(text, text_len), text_len, kind, job->fluents, job->actions, job->domain, rest);
}

static inline uint8_t wyh_job_normal(const struct wyh_job *job, uint8_t kind, const uint8_t *text, size_t text_len, uint8_t *out, size_t room, size_t *count) {
    uint8_t nothing[1] = {0};
    return wyh_normal(wyh_bytes(text, text_len), text_len, kind, job->fluents, job->actions, job->domain, room == 0 ? nothing : out, room, count);
}

static inline uint8_t wyh_job_tally(const struct wyh_job *job, struct wyh_tally *tally) {
    return wyh_tally(job->fluents, job->actions, job->start, wyh_masks(job), job->masks_len, wyh_bytes(job->log, job->log_len), job->log_len, tally);
}

static inline uint8_t wyh_job_append(const struct wyh_job *job, struct wyh_tally *tally, size_t action) {
    return wyh_append(job->fluents, job->actions, job->start, wyh_masks(job), job->masks_len, tally, action);
}

static inline uint8_t wyh_tally_happened(const struct wyh_job *job, const struct wyh_tally *tally, size_t action, uint8_t *yes) {
    return wyh_happened(job->actions, tally->last, tally->impossible, action, yes);
}

static inline uint8_t wyh_job_read_sheet(const uint8_t *text, size_t text_len, uint32_t masks[WYH_MASKS_ROOM], uint8_t log[WYH_LOG_ROOM], struct wyh_sheet *sheet) {
    const struct wyh_job empty = WYH_JOB_EMPTY;
    size_t numbers[WYH_SHEET_NUMBERS];
    uint8_t refused = wyh_read_sheet(wyh_bytes(text, text_len), text_len, masks, log, numbers);
    sheet->line = numbers[0];
    sheet->job = empty;
    sheet->ask = refused ? NULL : text + numbers[7];
    sheet->ask_len = numbers[8] - numbers[7];
    sheet->run = refused ? NULL : text + numbers[9];
    sheet->run_len = numbers[10] - numbers[9];
    sheet->more = numbers[11];
    if (refused) return refused;
    sheet->job.fluents = numbers[1];
    sheet->job.actions = numbers[2];
    sheet->job.domain = numbers[3];
    sheet->job.start = (uint32_t)numbers[4];
    sheet->job.masks = masks;
    sheet->job.masks_len = WYH_ROW_MASKS * numbers[2];
    sheet->job.log = log;
    sheet->job.log_len = numbers[5];
    sheet->job.reading = numbers[6];
    return 0;
}

static inline uint8_t wyh_board_refusal(uint8_t byte) {
    return byte < WYH_BOARD_REFUSED ? 0 : (uint8_t)(byte - WYH_BOARD_REFUSED);
}

static inline const char *wyh_refusal_sentence(uint8_t number) {
    switch (number) {
    case 0: return "not refused";
    case WYH_REFUSED_SHEET_TOO_LONG: return "the sheet is longer than 6,738 bytes";
    case WYH_REFUSED_BAD_LINE: return "the expected key and '=' do not open the line, or its LF is missing, or bytes follow the last line, or a board lacks its last LF";
    case WYH_REFUSED_BAD_NUMBER: return "a count, the domain, the start state, a mask, the reading, the version or more is not written as it should be or out of its range, or a mask table has the wrong length, or a board has more than 64 tests";
    case WYH_REFUSED_LACKS_FLUENT: return "start or an action's mask names a fluent the theory lacks";
    case WYH_REFUSED_BAD_LOG: return "the log has an odd number of digits, a non-digit, more than 63 actions, or an action the theory lacks";
    case WYH_REFUSED_BAD_RULE: return "a rule is empty, over 255 bytes, not exactly one rule of its kind, or has a sign of variables where there is no domain";
    case WYH_REFUSED_LACKS_NAME: return "a rule, or the call, names an action or fluent the theory lacks";
    case WYH_REFUSED_TOO_DEEP: return "a rule is nested more than 24 deep";
    case WYH_REFUSED_BACKWARD: return "a backward sign stands in a run outside every '<' walk";
    case WYH_REFUSED_BAD_POSITION: return "then is after now, or now or the position asked is past the log's end";
    case WYH_REFUSED_NO_FINISH: return "no sequence of so many actions finishes the run";
    case WYH_REFUSED_SHORT_OUTPUT: return "the lent output is shorter than the normal form, or than more, or than a board has tests";
    case WYH_REFUSED_UNBOUND: return "a variable stands in a rule outside every binder of its name";
    default: return "no refusal has this number";
    }
}

#ifdef __cplusplus
}
#endif

#endif
