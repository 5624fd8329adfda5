/* The slot record. */
#include "commands.h"
#include "record.h"

#include <stdio.h>
#include <string.h>

/* What was answered stands in the record file; where the disk is in doubt, the words say what that means. */
static enum status keep_record(
    const struct place *place, uint32_t number, const uint8_t *record, const uint64_t *answer)
{
    bool starts = answer[TARPAULARK_SLOTS_KIND] == TARPAULARK_STARTS;
    bool recovers = answer[TARPAULARK_SLOTS_KIND] == TARPAULARK_RECOVERY;
    int error;

    if (number != 0)
        return refuse(number, 0);
    error = put_bytes(place, record, TARPAULARK_RECORD);
    say_plain("answer", starts ? "starts" : recovers ? "recovery" : "ok");
    if (starts)
        say_letter("slot", (char)('a' + answer[TARPAULARK_SLOTS_STARTED]));
    end_line();
    return starts || recovers ? start_stands(place, error) : stands(place, error);
}

static void say_slot(char letter, const uint8_t *slot)
{
    open_item();
    say_letter("slot", letter);
    say_number("tries", slot[TARPAULARK_SLOT_TRIES]);
    say_flag("unbootable", slot[TARPAULARK_SLOT_UNBOOTABLE] != 0);
    say_flag("successful", slot[TARPAULARK_SLOT_SUCCESSFUL] != 0);
    say_flag("corrupted", slot[TARPAULARK_SLOT_CORRUPTED] != 0);
    close_item();
}

static void say_record(const uint8_t *record, uint64_t startable)
{
    say_text("current", (const char[]){current_of(record), '\0'});
    say_number("startable", startable);
    end_line();
    open_list("slots");
    for (char letter = 'a'; letter <= 'd'; letter++)
        if (slot_in(record, letter)[TARPAULARK_SLOT_USED] != 0)
            say_slot(letter, slot_in(record, letter));
    close_list();
}

/* A word that is said of a slot where it is set, after a mark; the mark before the next one. */
static const char *say_also(const char *mark, const char *name, bool set)
{
    if (set)
        say_word(mark);
    say_flag(name, set);
    return set ? "," : mark;
}

/* Text leaves out the tries of a slot that is not startable: what makes it startable again sets them to 3. */
static void say_tries(const char *mark, const uint8_t *slot)
{
    uint8_t tries = slot[TARPAULARK_SLOT_TRIES];

    if (slot[TARPAULARK_SLOT_UNBOOTABLE] != 0 || slot[TARPAULARK_SLOT_CORRUPTED] != 0) {
        say_only_json_number("tries", tries);
        return;
    }
    say_word(mark);
    say_in_words("tries", tries);
    say_word(tries == 1 ? " try" : " tries");
}

static void say_state(char letter, const uint8_t *slot, bool is_current)
{
    const char *mark = ":";

    open_item();
    say_word("slot");
    say_letter("slot", letter);
    mark = say_also(mark, "current", is_current);
    mark = say_also(mark, "unbootable", slot[TARPAULARK_SLOT_UNBOOTABLE] != 0);
    mark = say_also(mark, "successful", slot[TARPAULARK_SLOT_SUCCESSFUL] != 0);
    mark = say_also(mark, "corrupted", slot[TARPAULARK_SLOT_CORRUPTED] != 0);
    say_tries(mark, slot);
    close_item();
}

static void say_not_used(char letter)
{
    char line[24];

    snprintf(line, sizeof line, "slot %c: not in use", letter);
    say_line(line);
}

/* The states of all slots; how many are in use. */
static uint64_t say_states(const uint8_t *record)
{
    uint64_t used = 0;

    open_list("slots");
    for (char letter = 'a'; letter <= 'd'; letter++) {
        const uint8_t *slot = slot_in(record, letter);
        bool is_used = slot[TARPAULARK_SLOT_USED] != 0;

        if (is_used)
            say_state(letter, slot, letter == current_of(record));
        else
            say_not_used(letter);
        used += is_used;
    }
    close_list();
    return used;
}

/* The record in words, for whoever wants to know how its slots stand. */
static void say_status(const uint8_t *record, uint64_t startable)
{
    uint64_t used;

    say_only_json("current", (const char[]){current_of(record), '\0'});
    used = say_states(record);
    say_in_words("startable", startable);
    say_word(" of");
    say_in_words("used", used);
    say_word(used == 1 ? " slot in use" : " slots in use");
    say_word(startable == 1 ? " is" : " are");
    say_word(" neither unbootable nor corrupted");
    end_line();
}

/* Needs no lock: a record file is never changed, only replaced. */
static enum status look(const char *path, void (*say)(const uint8_t *record, uint64_t startable))
{
    uint8_t record[TARPAULARK_RECORD];
    uint64_t answer[TARPAULARK_STARTABLE_ANSWER];
    struct mapped file = open_file(path, READ_IMAGE);
    ssize_t length;

    if (!S_ISREG(file.before.st_mode))
        misused(path, "is no file; name one");
    length = read_record(path, file.file, record);
    if (length != TARPAULARK_RECORD || tarpaulark_slots_startable(record, answer) != 0)
        return refuse_record(length);
    say(record, answer[TARPAULARK_SLOTS_STARTABLE]);
    return DONE;
}

/* What changes a record: each operation has one of the two functions, by whether it takes a slot. */
static const struct operation {
    const char *name;
    uint32_t (*run)(uint8_t *record, uint64_t *answer);
    uint32_t (*run_on)(uint8_t *record, uint32_t slot, uint64_t *answer);
} operations[] = {
    {"start", tarpaulark_slots_start, NULL},
    {"confirm", tarpaulark_slots_confirm, NULL},
    {"set-active", NULL, tarpaulark_slots_set_active},
    {"modified", NULL, tarpaulark_slots_modified},
    {"corrupted", NULL, tarpaulark_slots_corrupted},
};

static const struct operation *operation_named(const char *name)
{
    for (size_t i = 0; i < sizeof operations / sizeof operations[0]; i++)
        if (strcmp(name, operations[i].name) == 0)
            return operations + i;
    return NULL;
}

static enum status change(const char *path, const struct operation *operation, uint32_t slot)
{
    uint8_t record[TARPAULARK_RECORD];
    uint64_t answer[TARPAULARK_SLOTS_ANSWER];
    struct place place;
    ssize_t length = hold_record(path, &place, record);
    uint32_t number;

    if (length != TARPAULARK_RECORD)
        return refuse_record(length);
    number = operation->run != NULL ? operation->run(record, answer) : operation->run_on(record, slot, answer);
    return keep_record(&place, number, record, answer);
}

/* Only an empty file, or one as long as a record, is replaced; an old record is neither. */
static void expect_replaceable(const struct place *place)
{
    const char *old;

    if (place->held < 0 || place->old.st_size == 0 || place->old.st_size == TARPAULARK_RECORD)
        return;
    old = words_on_old(
        place->old.st_size, "is there already and by its length", "; else name another file, or remove it");
    misused(place->path, old != NULL ? old : "is there already and is no record, which has 22 bytes; name another"
                                             " file, or remove it");
}

static enum status fresh(const char *path, const char *operand)
{
    uint8_t record[TARPAULARK_RECORD] = {0};
    uint64_t answer[TARPAULARK_SLOTS_ANSWER], count;
    struct place place;
    uint32_t number;

    if (operand == NULL || !as_number(operand, UINT32_MAX, &count))
        misused(NULL, "fresh takes a number of slots");
    place = hold_place(path);
    expect_replaceable(&place);
    number = tarpaulark_slots_fresh((uint32_t)count, record, answer);
    return keep_record(&place, number, record, answer);
}

/* A slot's letter, a for 0. Letters past d are slots that no record has. */
static uint32_t as_slot(const char *text)
{
    if (text[0] < 'a' || text[0] > 'z' || text[1] != '\0')
        misused(NULL, "SLOT is a letter from a on");
    return (uint32_t)(text[0] - 'a');
}

enum status slots(const struct request *request)
{
    const char *path = request->words[0], *name = request->words[1], *operand = request->words[2];
    const struct operation *operation = operation_named(name);

    if (strcmp(name, "fresh") == 0)
        return fresh(path, operand);
    if (strcmp(name, "show") == 0 && operand == NULL)
        return look(path, say_record);
    if (strcmp(name, "status") == 0 && operand == NULL)
        return look(path, say_status);
    if (operation != NULL && operation->run != NULL && operand == NULL)
        return change(path, operation, 0);
    if (operation != NULL && operation->run_on != NULL && operand != NULL)
        return change(path, operation, as_slot(operand));
    misused(NULL, "slots takes RECORD and an operation: fresh with a COUNT, set-active, modified or corrupted with"
                  " a SLOT, start, confirm, show or status with nothing");
}
