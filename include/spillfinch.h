/* Spillfinch: udev rules tried against recorded devices.
 *
 * Every function takes any bytes of any length and comes back; there is no state between calls and no memory of the heap. A call
 * takes less than 128 KB of stack; 97 KB were measured of a check of a plan, 94 KB of a strike, 80 KB of a run.
 *
 * A pointer must not be null, not even beside a length of 0. What is written (target, targets, strikes, answers, answer) must not overlap anything
 * else that the same call is given.
 *
 * All 8 numbers of `answer` are written in every call:
 *   answer[SPILLFINCH_NUMBER]   0, or why the input is refused (enum spillfinch_refusal)
 *   answer[SPILLFINCH_LINE]     the line of the rules text that is refused, of a set of files within its file, from 1; 0 if the refusal is about no line
 *   answer[SPILLFINCH_VISITED]  how many rules had their matching begun; 0 for all but a run
 *   answer[SPILLFINCH_USED]     the length of the record, list or text at the start of the target; 0 after a refusal and for a check
 *   answer[SPILLFINCH_TRIED]    how many devices were tried for the parent keys (KERNELS, SUBSYSTEMS, DRIVERS, ATTRS) of all rules: for a
 *                               visited rule with such keys whose other keys hold, the place of the nearest device that has them all, from 1, or
 *                               the length of the chain if none has; at most the visited count times that length; 0 for all but a run
 *   answer[SPILLFINCH_POSITION] the record or file of a set that is refused, from 1 in the lent order; 0 if the refusal is about none
 *   answer[SPILLFINCH_COUNT]    how many lines were struck, how many names a contest lists, or how many records of a set were run; 1 for a text
 *                               that names all devices as wanted, and for a plan; 0 after a refusal and for all else
 *   answer[7]                   0
 *
 * All bytes of `target` and `targets` are written in every call, and all numbers of `strikes` and `answers`: behind what was made they are zero,
 * after a refusal all of them are.
 */
#ifndef SPILLFINCH_H
#define SPILLFINCH_H

#include <stddef.h>
#include <stdint.h>

#ifdef __cplusplus
extern "C" {
#endif

/* The room that a target must have: the length of the fullest outcome record, of the fullest one of edition 1, of the fullest run list, and of
 * the fullest list of a contest. */
#define SPILLFINCH_OUTCOME_ROOM 18125
#define SPILLFINCH_OLD_OUTCOME_ROOM 17611
#define SPILLFINCH_RUN_LIST_ROOM 8225
#define SPILLFINCH_CONTEST_ROOM 134144

/* The longest input that can be accepted. A target for a rules text must have the room of the longest. */
#define SPILLFINCH_TEXT_MOST 32768
#define SPILLFINCH_DEVICE_MOST 16384
#define SPILLFINCH_SHEET_MOST 32768

/* The numbers that a list of strikes must have room for: two for each of the 16,384 lines that can be struck. */
#define SPILLFINCH_STRIKES_ROOM 32768

/* Limits of a rules text: bytes of a line without its joins, bytes of a value after unescaping, pairs of a line, rules. */
#define SPILLFINCH_LINE_MOST 1024
#define SPILLFINCH_VALUE_MOST 256
#define SPILLFINCH_PAIRS_MOST 32
#define SPILLFINCH_RULES_MOST 512

/* Limits of the records: devices of a chain (the event device, then its parents), attributes of a device, properties; entries of an
 * outcome record; bytes of the output that it or a reply may hold; bytes of a substituted text. */
#define SPILLFINCH_CHAIN_MOST 16
#define SPILLFINCH_ATTRIBUTES_MOST 31
#define SPILLFINCH_PROPERTIES_MOST 32
#define SPILLFINCH_LINKS_MOST 16
#define SPILLFINCH_TAGS_MOST 16
#define SPILLFINCH_RUNS_MOST 16
#define SPILLFINCH_OUTPUT_MOST 512
#define SPILLFINCH_SUBSTITUTED_MOST 512

/* Limits of a set: its records; its files, and the bytes of a file's name; its devices with wanted links, and the bytes of such a link; the bytes
 * of each record or text. */
#define SPILLFINCH_RECORDS_MOST 64
#define SPILLFINCH_FILES_MOST 32
#define SPILLFINCH_FILE_NAME_MOST 64
#define SPILLFINCH_WANTED_MOST 16
#define SPILLFINCH_WANTED_LINK_MOST 255
#define SPILLFINCH_LENT_MOST 65535

/* Limits of an answer sheet: replies, bytes of a command. */
#define SPILLFINCH_REPLIES_MOST 64
#define SPILLFINCH_COMMAND_MOST 512

enum spillfinch_answer {
    SPILLFINCH_NUMBER = 0,
    SPILLFINCH_LINE = 1,
    SPILLFINCH_VISITED = 2,
    SPILLFINCH_USED = 3,
    SPILLFINCH_TRIED = 4,
    SPILLFINCH_POSITION = 5,
    SPILLFINCH_COUNT = 6,
    SPILLFINCH_ANSWER_LENGTH = 8
};

/* Why an input is refused. */
enum spillfinch_refusal {
    SPILLFINCH_ACCEPTED = 0,
    SPILLFINCH_TARGET_SHORT = 1,
    SPILLFINCH_TEXT_LONG = 2,
    SPILLFINCH_DEVICE_BAD = 3,
    SPILLFINCH_OUTCOME_BAD = 4,        /* an outcome record that is faulty: one whose mode lets others write, or of another edition, is, too */
    SPILLFINCH_TOO_NEW = 5,            /* an outcome record that says what edition 1 cannot: an output, watch or nowatch */
    SPILLFINCH_SHEET_BAD = 6,          /* an answer sheet that is faulty */
    SPILLFINCH_SET_BAD = 7,            /* a set over its size, or bytes that are not laid out as one */
    SPILLFINCH_LINE_BAD = 10,          /* a line that is too long or holds NUL */
    SPILLFINCH_KEY_BAD = 11,           /* a key that is unknown or missing */
    SPILLFINCH_ARGUMENT_BAD = 12,      /* an argument in braces that is missing, faulty or not taken by the key */
    SPILLFINCH_OPERATOR_BAD = 13,      /* an operator that is missing or not one of the key's */
    SPILLFINCH_VALUE_BAD = 14,         /* a value without its quotation marks, with an escape that is not known, or too long */
    SPILLFINCH_CONTENT_BAD = 15,       /* a value that is no pattern, template, setting, label or tag, as its key asks */
    SPILLFINCH_PAIR_EXTRA = 16,        /* a pair too many, or a second LABEL or GOTO */
    SPILLFINCH_COMMA_MISSING = 17,     /* neither a comma nor the line's end behind a pair */
    SPILLFINCH_RULE_EXTRA = 18,        /* a rule too many */
    SPILLFINCH_LABEL_MISSING = 19,     /* a GOTO without a later LABEL */
    SPILLFINCH_LINE_OPEN = 20,         /* a backslash that joins the next line, at the end of the text; before the line's 10 */
    SPILLFINCH_FILE_TWICE = 21,        /* two files of a set with one name and one rank */
    SPILLFINCH_SUBSTITUTION_LONG = 30, /* a substituted text that is too long */
    SPILLFINCH_LINK_BAD = 31,          /* a link that is too long, absolute, or has an empty, `.` or `..` component */
    SPILLFINCH_LIST_FULL = 32,         /* one more link, tag, program or property than there is room for */
    SPILLFINCH_OWNER_BAD = 33,         /* an owner or a group that is faulty */
    SPILLFINCH_MODE_BAD = 34,          /* a mode that is not 1 to 4 octal digits */
    SPILLFINCH_COMMAND_MISSING = 35,   /* a command that PROGRAM asks and that is not on the answer sheet */
    SPILLFINCH_MODE_SHARED = 36        /* a mode that lets others write: it has the bit 0002 */
};

/* The directories that rules files stand in, the highest rank first. */
enum spillfinch_rank {
    SPILLFINCH_RANK_ETC = 0,
    SPILLFINCH_RANK_RUN = 1,
    SPILLFINCH_RANK_USR_LOCAL_LIB = 2,
    SPILLFINCH_RANK_LIB = 3
};

/* Reads a rules text without a device: whether it is accepted, else the number and the line of its first refusal (2, 10 to 20).
 *
 * A newline directly behind a backslash joins the next line to this one, wherever it stands, and both bytes go: what is read, and the
 * limit of a line, are about the joined bytes. A line that is blank or a comment by its first physical line joins nothing. Lines are
 * counted as they stand in the text; a joined line has the number of its first one. */
void spillfinch_check(const uint8_t *text, size_t text_length, uint32_t answer[SPILLFINCH_ANSWER_LENGTH]);

/* Writes the outcome record that a device starts with: its properties, and nothing else set. Refusals: 1, 3. */
void spillfinch_fresh(const uint8_t *device, size_t device_length, uint8_t *target, size_t target_length,
                      uint32_t answer[SPILLFINCH_ANSWER_LENGTH]);

/* Runs a rules text for a device: starts from an outcome record and writes the one that the rules leave. Refusals: 1, 2, 10 to 20, 3, 4, 6, and
 * 30 to 36 with the line of the rule that was running.
 *
 * No program is run: what PROGRAM asks is looked up on the answer sheet, which says of each command whether its program succeeded and what it
 * wrote. A packed sheet is the number of its replies in a byte, 0 to 64, and then each reply: success in 1 bit, the length of the command in 10, of
 * the output in 10, 3 bits that are zero, the bytes of the command (1 to 512), the bytes of the output (0 to 512). Bits run most significant first.
 * No byte of either is NUL, no two commands are equal, the whole has at most 32,768 bytes. So one zero byte is the sheet without replies. */
void spillfinch_run(const uint8_t *text, size_t text_length, const uint8_t *device, size_t device_length, const uint8_t *outcome,
                    size_t outcome_length, const uint8_t *sheet, size_t sheet_length, uint8_t *target, size_t target_length,
                    uint32_t answer[SPILLFINCH_ANSWER_LENGTH]);

/* Runs a rules text for each record of a set, with one answer sheet. The text is read once and the sheet judged once, and nothing of one run is seen by
 * another: `targets` holds SPILLFINCH_OUTCOME_ROOM bytes for each record, one behind the other in lent order, `answers` SPILLFINCH_ANSWER_LENGTH
 * numbers, and what is written there is what spillfinch_run writes for the text with that device, record and sheet. So a text that is refused is
 * refused in the answer of each record, and a faulty record in its own.
 *
 * The set is that of spillfinch_contest, which takes what the runs leave, each cut at its used length. `answer` is about the set. Refusals: 7; then 1,
 * for targets or answers that are too short for its records. Else the number is 0, whatever the runs give, answer[SPILLFINCH_COUNT] is the number of
 * records, and all else in it is 0. */
void spillfinch_run_each(const uint8_t *text, size_t text_length, const uint8_t *set, size_t set_length, const uint8_t *sheet,
                         size_t sheet_length, uint8_t *targets, size_t targets_length, uint32_t *answers, size_t answers_length,
                         uint32_t answer[SPILLFINCH_ANSWER_LENGTH]);

/* Runs a set of rules files for a device. Files whose name does not end in `.rules` are ignored, and of files with one name only that of the
 * highest rank counts; if its text is empty, the name is disabled. Those that count run in the byte order of their names, each from what the
 * one before left, all with one sheet; labels and limits are those of one file. In whatever order they are lent, the record and the counts are
 * the same, and so is a refusal, of the file of the same name.
 *
 * The set: a byte with the number of files, 0 to 32; for each its rank in a byte, its name behind its length in a byte (1 to 64), its text
 * behind its length in two bytes, the higher one first. Refusals: 1, 7, 21 (for names that are ignored, too); then 2 and 10 to 20 of the texts
 * that count, in the order of their names; 3, 4, 6; and 30 to 36 of the first run that is refused. Those of a text or a run have the position of
 * their file. Texts that do not count are not read. */
void spillfinch_run_files(const uint8_t *set, size_t set_length, const uint8_t *device, size_t device_length, const uint8_t *outcome,
                          size_t outcome_length, const uint8_t *sheet, size_t sheet_length, uint8_t *target, size_t target_length,
                          uint32_t answer[SPILLFINCH_ANSWER_LENGTH]);

/* Writes the run list of an outcome record: each program or builtin, its template substituted with the record's properties and
 * output and with the device. Refusals: 1, 3, 4, 30, all with line 0. */
void spillfinch_close(const uint8_t *device, size_t device_length, const uint8_t *outcome, size_t outcome_length, uint8_t *target,
                      size_t target_length, uint32_t answer[SPILLFINCH_ANSWER_LENGTH]);

/* Outcome records are of edition 2 everywhere but here. */

/* Writes an outcome record of edition 1 as one of edition 2. Refusals: 1, 3, 4. */
void spillfinch_newer(const uint8_t *device, size_t device_length, const uint8_t *outcome, size_t outcome_length, uint8_t *target,
                      size_t target_length, uint32_t answer[SPILLFINCH_ANSWER_LENGTH]);

/* Writes an outcome record of edition 2 as one of edition 1, into a target of SPILLFINCH_OLD_OUTCOME_ROOM. Refusals: 1, 3, 4, 5. */
void spillfinch_older(const uint8_t *device, size_t device_length, const uint8_t *outcome, size_t outcome_length, uint8_t *target,
                      size_t target_length, uint32_t answer[SPILLFINCH_ANSWER_LENGTH]);

/* Writes the rules of a text back, each on a line of its own that ends in a newline: its pairs with a comma and nothing else between them, and neither
 * comments nor blank lines. A value has the form e"..." only if there is a newline in it, or a backslash at its end. What is written reads back to
 * the same rules in the same order, is written the same again, and is no longer than the text and one newline. Refusals: 1, 2, those of the
 * check with their lines, and last 2 where the written text has 32,769 bytes, with line 0. */
void spillfinch_write(const uint8_t *text, size_t text_length, uint8_t *target, size_t target_length,
                      uint32_t answer[SPILLFINCH_ANSWER_LENGTH]);

/* Writes a text without its faulty lines: each of them keeps its newlines and nothing else, all physical lines of a join together. Struck are the lines
 * with 10 to 17 or 20, then of the other rules all behind the 512th (18), then, the last line first, each rule whose GOTO has no LABEL behind it that is
 * kept (19). `strikes` lists each struck line by two numbers, its line (of a join the first one) and the number that struck it, by line;
 * answer[SPILLFINCH_COUNT] says how many. What is written is accepted by a check, and an accepted text is written as it is. Refusals: 1, for
 * a target below SPILLFINCH_TEXT_MOST bytes or strikes below SPILLFINCH_STRIKES_ROOM numbers, and 2. */
void spillfinch_strike(const uint8_t *text, size_t text_length, uint8_t *target, size_t target_length, uint16_t *strikes,
                       size_t strikes_length, uint32_t answer[SPILLFINCH_ANSWER_LENGTH]);

/* Lists every link that outcome records claim, each once, in the order of the first claims: which record holds it, and which others claim it.
 * Of the records that claim a link the one with the highest link priority (with its sign) holds it, of equals the earliest.
 *
 * The set: a byte with the number of records, 0 to 64; for each its device record and then the outcome record, each behind its length in two bytes,
 * the higher one first. The list: for each name a byte with its length, one with the holder's position (from 1 in the lent order), one with the
 * number of other claimants; the name; the positions of those others, a byte each, in lent order. Refusals: 1, 7; then record by record 3 and 4
 * with the position. */
void spillfinch_contest(const uint8_t *set, size_t set_length, uint8_t *target, size_t target_length,
                        uint32_t answer[SPILLFINCH_ANSWER_LENGTH]);

/* Says whether a rules text names devices as wanted: answer[SPILLFINCH_COUNT] is 1 exactly if its run for each of them, from the fresh record and with
 * the answer sheet without replies, is not refused and leaves the wanted link and no other. Any other text has 0, whatever is wrong with it.
 *
 * The set: a byte with the number of devices, 1 to 16; for each its device record behind its length in two bytes, the higher one first, and the wanted
 * link behind its length in a byte. Refusals, before the text is looked at: 7; then 3 with the position of the first faulty record. */
void spillfinch_plan_check(const uint8_t *set, size_t set_length, const uint8_t *text, size_t text_length,
                           uint32_t answer[SPILLFINCH_ANSWER_LENGTH]);

/* Writes a rules text that names the devices of such a set as wanted: spillfinch_plan_check accepts it for that set. There is one exactly if the paths
 * of the event devices differ and have no more than 128 bytes, each one of A-Z a-z 0-9 / : . _ -, and the wanted links differ, are clean (of A-Z a-z 0-9 # + - . :
 * = @ _ / alone) and would not be refused as 31; answer[SPILLFINCH_COUNT] is then 1, else 0, and nothing is written. The target has
 * SPILLFINCH_TEXT_MOST bytes. Refusals: 1, 7, 3 with the position. */
void spillfinch_plan(const uint8_t *set, size_t set_length, uint8_t *target, size_t target_length,
                     uint32_t answer[SPILLFINCH_ANSWER_LENGTH]);

#ifdef __cplusplus
}
#endif

#endif
