/* The library from C: checks rules texts, takes a device from its fresh outcome record over a run to its run list, asks an answer sheet,
 * runs a set of files, converts the record to edition 1 and back, asks who of two holds a link, runs a text for two devices at once, plans a link
 * for a device, and writes rules back. */
#include <stdio.h>
#include <string.h>

#include "spillfinch.h"

/* ttyUSB0 with one property and no parents; the README of rust/reference shows how such records are packed from text. */
static const uint8_t device[] = "\x10\x10\xbc\x00\x00\x00\x40"            /* one device; add; node 188:0; 1 property */
                                "\x10\x07" "ID_MODEL" "counter"           /* key 8 bytes, value 7 */
                                "\x0a\x86\x00\x00" "/devices/usb1/ttyUSB0" "tty"; /* path 21 bytes, subsystem 3, no driver, no attributes */

static const char rules[] = "KERNEL==\"ttyUSB[0-9]*\", SYMLINK+=\"counter%n\", RUN+=\"tally $env{ID_MODEL}\"\n";

static const size_t device_length = sizeof device - 1;

static const uint8_t no_replies[] = {0};
static const uint8_t sheet[] = "\x01"                                    /* one reply */
                               "\x81\x40\x28" "id ttyUSB0" "RC-7\n";    /* a success, command 10 bytes, output 5 */
static const size_t sheet_length = sizeof sheet - 1;

static uint8_t fresh[SPILLFINCH_OUTCOME_ROOM];
static uint8_t outcome[SPILLFINCH_OUTCOME_ROOM];
static uint8_t next[SPILLFINCH_OUTCOME_ROOM];
static uint8_t old[SPILLFINCH_OLD_OUTCOME_ROOM];
static uint8_t run_list[SPILLFINCH_RUN_LIST_ROOM];
static uint8_t written[SPILLFINCH_TEXT_MOST];
static uint8_t list[SPILLFINCH_CONTEST_ROOM];
static uint8_t targets[2 * SPILLFINCH_OUTCOME_ROOM];
static uint32_t answers[2 * SPILLFINCH_ANSWER_LENGTH];

static void show_answer(const char *what, const uint32_t *answer)
{
    if (answer[SPILLFINCH_NUMBER] == SPILLFINCH_ACCEPTED)
        printf("%s: accepted, %u visited, %u bytes\n", what, (unsigned)answer[SPILLFINCH_VISITED], (unsigned)answer[SPILLFINCH_USED]);
    else
        printf("%s: refused %u line %u\n", what, (unsigned)answer[SPILLFINCH_NUMBER], (unsigned)answer[SPILLFINCH_LINE]);
}

static void show_bytes(const uint8_t *bytes, size_t length)
{
    for (size_t i = 0; i < length; i++)
        printf(i + 1 == length ? "%02x\n" : "%02x ", bytes[i]);
}

static void check(const char *what, const char *text)
{
    uint32_t answer[SPILLFINCH_ANSWER_LENGTH];
    spillfinch_check((const uint8_t *)text, strlen(text), answer);
    show_answer(what, answer);
}

/* The outcome with a mode of one octal digit: with a digit that lets others write it is no record any more. */
static void try_mode(unsigned digit, size_t outcome_length)
{
    uint32_t answer[SPILLFINCH_ANSWER_LENGTH];
    outcome[2] |= 0x02;
    outcome[4] = (uint8_t)(digit << 5);

    spillfinch_run((const uint8_t *)rules, strlen(rules), device, device_length, outcome, outcome_length, no_replies, sizeof no_replies, next,
                   sizeof next, answer);
    printf("mode %u, ", digit);
    show_answer("run", answer);
    spillfinch_close(device, device_length, outcome, outcome_length, run_list, sizeof run_list, answer);
    printf("mode %u, ", digit);
    show_answer("close", answer);
}

/* A rule that asks a program: with its reply, without it, and with a sheet that is cut short. */
static void ask(size_t fresh_length)
{
    uint32_t answer[SPILLFINCH_ANSWER_LENGTH];
    const char *asks = "PROGRAM==\"id $kernel\", RESULT==\"RC-*\", SYMLINK+=\"counter/%c\"\n";
    const size_t length = strlen(asks);

    spillfinch_run((const uint8_t *)asks, length, device, device_length, fresh, fresh_length, sheet, sheet_length, next, sizeof next, answer);
    show_answer("run with an answer sheet", answer);
    show_bytes(next, answer[SPILLFINCH_USED]);
    spillfinch_run((const uint8_t *)asks, length, device, device_length, fresh, fresh_length, no_replies, sizeof no_replies, next, sizeof next,
                   answer);
    show_answer("run with an empty one", answer);
    spillfinch_run((const uint8_t *)asks, length, device, device_length, fresh, fresh_length, sheet, sheet_length - 1, next, sizeof next,
                   answer);
    show_answer("run with one that is cut short", answer);
}

/* A file put into a set; where it ends. */
static size_t put_file(uint8_t *set, size_t at, enum spillfinch_rank rank, const char *name, const char *text)
{
    const size_t name_length = strlen(name), text_length = strlen(text);
    set[0]++;
    set[at] = (uint8_t)rank;
    set[at + 1] = (uint8_t)name_length;
    memcpy(set + at + 2, name, name_length);
    at += 2 + name_length;
    set[at] = (uint8_t)(text_length >> 8);
    set[at + 1] = (uint8_t)text_length;
    memcpy(set + at + 2, text, text_length);
    return at + 2 + text_length;
}

static void run_set(const char *what, const uint8_t *set, size_t set_length, size_t fresh_length)
{
    uint32_t answer[SPILLFINCH_ANSWER_LENGTH];
    spillfinch_run_files(set, set_length, device, device_length, fresh, fresh_length, no_replies, sizeof no_replies, next, sizeof next, answer);
    show_answer(what, answer);
    if (answer[SPILLFINCH_POSITION] > 0)
        printf("it is file %u\n", (unsigned)answer[SPILLFINCH_POSITION]);
}

/* One name in all four ranks, of which the lowest has a fault; then more files. */
static void run_files(size_t fresh_length)
{
    uint8_t set[1024] = {0};
    size_t end = put_file(set, 1, SPILLFINCH_RANK_LIB, "70-counters.rules", "SYMLINK=\"lib\n");
    end = put_file(set, end, SPILLFINCH_RANK_USR_LOCAL_LIB, "70-counters.rules", "SYMLINK=\"local\"\n");
    end = put_file(set, end, SPILLFINCH_RANK_RUN, "70-counters.rules", "SYMLINK=\"run\"\n");
    end = put_file(set, end, SPILLFINCH_RANK_ETC, "70-counters.rules", "SYMLINK=\"etc\"\n");
    end = put_file(set, end, SPILLFINCH_RANK_ETC, "README", "no rules");
    run_set("run of files", set, end, fresh_length);
    show_bytes(next, 17);

    end = put_file(set, end, SPILLFINCH_RANK_LIB, "10-first.rules", "\nMODE=\"8\"\n");
    run_set("run of files, the first of which is refused when it runs", set, end, fresh_length);
    end = put_file(set, end, SPILLFINCH_RANK_LIB, "90-last.rules", "GOTO=\"end\"\n");
    run_set("run of files, the last of which has a fault too", set, end, fresh_length);
    end = put_file(set, end, SPILLFINCH_RANK_ETC, "README", "");
    run_set("run of files with a name twice in one rank", set, end, fresh_length);
}

/* The outcome as a record of edition 1, and that as one of edition 2 again. */
static void convert(size_t outcome_length)
{
    uint32_t answer[SPILLFINCH_ANSWER_LENGTH];

    spillfinch_older(device, device_length, outcome, outcome_length, old, sizeof old, answer);
    show_answer("to edition 1", answer);
    const size_t old_length = answer[SPILLFINCH_USED];
    show_bytes(old, old_length);

    spillfinch_run((const uint8_t *)rules, strlen(rules), device, device_length, old, old_length, no_replies, sizeof no_replies, next,
                   sizeof next, answer);
    show_answer("run from edition 1", answer);

    spillfinch_newer(device, device_length, old, old_length, next, sizeof next, answer);
    show_answer("to edition 2", answer);
    printf("the same record: %s\n",
           answer[SPILLFINCH_USED] == outcome_length && memcmp(next, outcome, sizeof next) == 0 ? "yes" : "no");

    const char *watch = "OPTIONS=\"watch\"\n";
    spillfinch_run((const uint8_t *)watch, strlen(watch), device, device_length, outcome, outcome_length, no_replies, sizeof no_replies, next,
                   sizeof next, answer);
    spillfinch_older(device, device_length, next, answer[SPILLFINCH_USED], old, sizeof old, answer);
    show_answer("to edition 1 with watch", answer);
}

/* A record behind its length, in a set; where it ends. */
static size_t put_record(uint8_t *set, size_t at, const uint8_t *bytes, size_t length)
{
    set[at] = (uint8_t)(length >> 8);
    set[at + 1] = (uint8_t)length;
    memcpy(set + at + 2, bytes, length);
    return at + 2 + length;
}

/* Two outcomes of one device that claim one link, the second with a higher link priority. */
static void contest(size_t outcome_length)
{
    uint32_t answer[SPILLFINCH_ANSWER_LENGTH];
    uint8_t set[1024] = {2};

    const char *priority = "OPTIONS=\"link_priority=1\"\n";
    spillfinch_run((const uint8_t *)priority, strlen(priority), device, device_length, outcome, outcome_length, no_replies,
                   sizeof no_replies, next, sizeof next, answer);
    const size_t next_length = answer[SPILLFINCH_USED];
    size_t end = put_record(set, 1, device, device_length);
    end = put_record(set, end, outcome, outcome_length);
    const size_t second = put_record(set, end, device, device_length);
    end = put_record(set, second, next, next_length);

    spillfinch_contest(set, end, list, sizeof list, answer);
    show_answer("contest", answer);
    printf("%u name listed\n", (unsigned)answer[SPILLFINCH_COUNT]);
    show_bytes(list, answer[SPILLFINCH_USED]);

    spillfinch_contest(set, end - 1, list, sizeof list, answer);
    show_answer("contest of a set that is cut short", answer);
    end = put_record(set, second, next, next_length - 1);
    spillfinch_contest(set, end, list, sizeof list, answer);
    show_answer("contest with a record that is cut short", answer);
    printf("it is record %u\n", (unsigned)answer[SPILLFINCH_POSITION]);
}

/* A text for two devices with one fresh record, ttyUSB0 and ttyUSB1; the records that it leaves stand in their places of `targets`. */
static void run_each(const char *text, const uint8_t *set, size_t set_length)
{
    uint32_t answer[SPILLFINCH_ANSWER_LENGTH];

    spillfinch_run_each((const uint8_t *)text, strlen(text), set, set_length, no_replies, sizeof no_replies, targets, sizeof targets, answers,
                        sizeof answers / sizeof *answers, answer);
    show_answer("run for each", answer);
    printf("%u records run\n", (unsigned)answer[SPILLFINCH_COUNT]);
    show_answer("the first", answers);
    show_answer("the second", answers + SPILLFINCH_ANSWER_LENGTH);
}

/* From two devices to the holders of their links. */
static void two_devices(size_t fresh_length)
{
    uint32_t answer[SPILLFINCH_ANSWER_LENGTH];
    uint8_t set[1024] = {2};
    uint8_t other[sizeof device];

    memcpy(other, device, sizeof device);
    other[device_length - 4] = '1';
    size_t end = put_record(set, 1, device, device_length);
    end = put_record(set, end, fresh, fresh_length);
    end = put_record(set, end, other, device_length);
    end = put_record(set, end, fresh, fresh_length);
    run_each("GOTO=\"end\"\n", set, end);
    run_each("SYMLINK+=\"counter%n all\"\nKERNEL==\"ttyUSB1\", OPTIONS=\"link_priority=1\"\n", set, end);

    end = put_record(set, 1, device, device_length);
    end = put_record(set, end, targets, answers[SPILLFINCH_USED]);
    end = put_record(set, end, other, device_length);
    end = put_record(set, end, targets + SPILLFINCH_OUTCOME_ROOM, answers[SPILLFINCH_ANSWER_LENGTH + SPILLFINCH_USED]);
    spillfinch_contest(set, end, list, sizeof list, answer);
    show_answer("contest of both", answer);
    show_bytes(list, answer[SPILLFINCH_USED]);
}

static void check_plan(const char *what, const uint8_t *set, size_t set_length, const uint8_t *text, size_t text_length)
{
    uint32_t answer[SPILLFINCH_ANSWER_LENGTH];
    spillfinch_plan_check(set, set_length, text, text_length, answer);
    show_answer(what, answer);
    printf("as wanted: %s\n", answer[SPILLFINCH_COUNT] == 1 ? "yes" : "no");
}

/* The link that a device is to have: a plan for it, the check of that plan and of the rules above, and a link that no plan gives. */
static void plan(void)
{
    uint32_t answer[SPILLFINCH_ANSWER_LENGTH];
    static const uint8_t link[] = "\x0arope/trip0"; /* 10 bytes */
    uint8_t set[1024] = {1};
    size_t end = put_record(set, 1, device, device_length);
    memcpy(set + end, link, sizeof link - 1);
    end += sizeof link - 1;

    spillfinch_plan(set, end, written, sizeof written, answer);
    show_answer("plan", answer);
    const size_t used = answer[SPILLFINCH_USED];
    printf("%u plan\n%.*s", (unsigned)answer[SPILLFINCH_COUNT], (int)used, (const char *)written);
    check_plan("check of the plan", set, end, written, used);
    check_plan("check of the rules above as a plan", set, end, (const uint8_t *)rules, strlen(rules));

    set[end - 1] = ' ';
    spillfinch_plan(set, end, written, sizeof written, answer);
    show_answer("plan of a link with a space", answer);
    printf("%u plans\n", (unsigned)answer[SPILLFINCH_COUNT]);
    spillfinch_plan(set, end - 1, written, sizeof written, answer);
    show_answer("plan for a set that is cut short", answer);
    set[3] = 0;
    spillfinch_plan(set, end, written, sizeof written, answer);
    show_answer("plan for a faulty device", answer);
    printf("it is device %u\n", (unsigned)answer[SPILLFINCH_POSITION]);
}

int main(void)
{
    uint32_t answer[SPILLFINCH_ANSWER_LENGTH];

    check("check of a rule", rules);
    check("check of a jump without its label", "# counters\nKERNEL!=\"tty*\", GOTO=\"end\"\n");

    spillfinch_fresh(device, device_length, fresh, sizeof fresh, answer);
    show_answer("fresh", answer);
    const size_t fresh_length = answer[SPILLFINCH_USED];
    show_bytes(fresh, fresh_length);

    spillfinch_run((const uint8_t *)rules, strlen(rules), device, device_length, fresh, fresh_length, no_replies, sizeof no_replies, outcome,
                   sizeof outcome, answer);
    show_answer("run", answer);
    const size_t outcome_length = answer[SPILLFINCH_USED];
    show_bytes(outcome, outcome_length);

    spillfinch_close(device, device_length, outcome, outcome_length, run_list, sizeof run_list, answer);
    show_answer("close", answer);
    show_bytes(run_list, answer[SPILLFINCH_USED]);

    spillfinch_close(device, device_length - 1, outcome, outcome_length, run_list, sizeof run_list, answer);
    show_answer("close beside a device record that is cut short", answer);

    ask(fresh_length);
    run_files(fresh_length);

    convert(outcome_length);
    contest(outcome_length);
    two_devices(fresh_length);
    plan();

    try_mode(5, outcome_length);
    try_mode(2, outcome_length);
    try_mode(6, outcome_length);
    try_mode(7, outcome_length);

    spillfinch_fresh(device, device_length, fresh, SPILLFINCH_OUTCOME_ROOM - 1, answer);
    show_answer("fresh into a target that is too short", answer);

    const char *spaced = "# counters\n  KERNEL == \"tty*\" ,\tTAG += \"a\"\n";
    spillfinch_write((const uint8_t *)spaced, strlen(spaced), written, sizeof written, answer);
    show_answer("rules written back", answer);
    printf("%.*s", (int)answer[SPILLFINCH_USED], (const char *)written);
    return 0;
}
