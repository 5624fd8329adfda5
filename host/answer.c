#include "answer.h"

#include "characters.h"
#include "progress.h"
#include "refusals.h"

#include <inttypes.h>
#include <stdio.h>
#include <stdlib.h>
#include <string.h>

enum { DEEPEST = 4 };

static struct {
    bool json;
    bool begun;           /* the object has been opened */
    bool after;           /* something stands before, on the line or in the object */
    bool ended;
    const char *command;
    char closers[DEEPEST];
    size_t depth;
} answer;

void answer_in_json(void)
{
    answer.json = true;
}

bool answers_in_json(void)
{
    return answer.json;
}

void answer_to(const char *command)
{
    answer.command = command;
}

/* A string of so many bytes, zero bytes among them too; one stands after them, so that no character goes on there. */
static void put_string_of(const char *text, size_t count)
{
    const char *end = text + count;

    putchar('"');
    while (text < end) {
        int length = character_length(text);

        if (length == 0)
            fputs("\\ufffd", stdout);
        else if (*text == '"' || *text == '\\')
            printf("\\%c", *text);
        else if (is_control(text))
            printf("\\u%04x", (unsigned)(unsigned char)text[length - 1]);
        else
            printf("%.*s", length, text);
        text += length == 0 ? 1 : length;
    }
    putchar('"');
}

static void put_string(const char *text)
{
    put_string_of(text, strlen(text));
}

static void put_key(const char *name)
{
    if (answer.after)
        putchar(',');
    answer.after = true;
    if (name != NULL) {
        put_string(name);
        putchar(':');
    }
}

/* Comes before each value: the name, and what parts it from the value before. */
static void begin_member(const char *name, bool named)
{
    if (answer.json && !answer.begun) {
        answer.begun = true;
        putchar('{');
        put_key("command");
        put_string(answer.command == NULL ? "" : answer.command);
    }
    if (answer.json) {
        put_key(name);
        return;
    }
    if (answer.after)
        putchar(' ');
    answer.after = true;
    if (named)
        printf("%s ", name);
}

void say_word(const char *word)
{
    if (answer.json)
        return;
    fputs(word, stdout);
    answer.after = true;
}

static void put_text(const char *text)
{
    if (answer.json)
        put_string(text);
    else
        fputs(text, stdout);
}

void say_text(const char *name, const char *text)
{
    begin_member(name, true);
    put_text(text);
}

void say_plain(const char *name, const char *text)
{
    begin_member(name, false);
    put_text(text);
}

void say_bytes(const char *name, const char *bytes, size_t length)
{
    begin_member(name, false);
    if (answer.json)
        put_string_of(bytes, length);
    else
        fwrite(bytes, 1, length, stdout);
}

void say_letter(const char *name, char letter)
{
    const char text[] = {letter, '\0'};

    say_plain(name, text);
}

void say_number(const char *name, uint64_t value)
{
    begin_member(name, true);
    printf("%" PRIu64, value);
}

void say_once_more(const char *name, uint64_t value)
{
    if (!answer.json)
        say_number(name, value);
}

void say_flag(const char *name, bool set)
{
    if (!answer.json && !set)
        return;
    begin_member(name, false);
    fputs(!answer.json ? name : set ? "true" : "false", stdout);
}

void say_in_words(const char *name, uint64_t value)
{
    static const char *const words[] = {"zero", "one", "two", "three", "four", "five", "six", "seven"};

    begin_member(name, false);
    if (answer.json || value >= sizeof words / sizeof words[0])
        printf("%" PRIu64, value);
    else
        fputs(words[value], stdout);
}

void say_column(const char *name, int width, uint64_t value)
{
    begin_member(name, false);
    printf("%*" PRIu64, answer.json ? 0 : width, value);
}

void say_name_column(const char *name, int width, const char *text)
{
    begin_member(name, false);
    if (answer.json)
        put_string(text);
    else
        printf("%-*s", width, text);
}

static void put_hex(uint32_t value)
{
    printf(answer.json ? "%" PRIu32 : "0x%08" PRIx32, value);
}

void say_hex(const char *name, uint32_t value)
{
    begin_member(name, false);
    put_hex(value);
}

void say_hex_or_none(const char *name, uint32_t value)
{
    begin_member(name, true);
    if (value == 0 && !answer.json)
        fputs("none", stdout);
    else
        put_hex(value);
}

void say_line(const char *line)
{
    if (!answer.json)
        puts(line);
}

void say_only_json(const char *name, const char *text)
{
    if (answer.json)
        say_text(name, text);
}

void say_only_json_number(const char *name, uint64_t value)
{
    if (answer.json)
        say_number(name, value);
}

void say_only_json_flag(const char *name, bool set)
{
    if (answer.json)
        say_flag(name, set);
}

void end_line(void)
{
    if (answer.json)
        return;
    putchar('\n');
    answer.after = false;
}

static void open_bracket(const char *name, char opener, char closer)
{
    if (!answer.json || answer.depth == DEEPEST)
        return;
    begin_member(name, false);
    putchar(opener);
    answer.closers[answer.depth++] = closer;
    answer.after = false;
}

static void close_bracket(void)
{
    if (!answer.json || answer.depth == 0)
        return;
    putchar(answer.closers[--answer.depth]);
    answer.after = true;
}

void open_list(const char *name)
{
    open_bracket(name, '[', ']');
}

void open_item(void)
{
    open_bracket(NULL, '{', '}');
}

void close_item(void)
{
    close_bracket();
    end_line();
}

void close_only_json_item(void)
{
    close_bracket();
}

void close_list(void)
{
    close_bracket();
}

static void end_object(enum status status)
{
    static const char *const results[] = {
        [DONE] = "ok", [REFUSED] = "refused", [BAD_USE] = "misused", [FAILED] = "failed"};

    if (!answer.json || answer.ended)
        return;
    answer.ended = true;
    while (answer.depth > 0)
        close_bracket();
    say_text("result", results[status]);
    say_number("status", status);
    puts("}");
}

/* The status to leave with, where not all may have been printed. */
static enum status printed(enum status status)
{
    if (fflush(stdout) == 0 && ferror(stdout) == 0)
        return status;
    fputs("tarpaulark: not all could be printed", stderr);
    fputs(status == DONE ? ", but what was asked is done\n" : "\n", stderr);
    return status == DONE ? NOT_PRINTED : status;
}

enum status finish(enum status status)
{
    end_object(status);
    return printed(status);
}

enum status finish_text(void)
{
    return printed(DONE);
}

void advise(const char *name, const char *words)
{
    if (answer.json) {
        say_text(name, words);
        return;
    }
    fflush(stdout);
    fprintf(stderr, "%s\n", words);
}

enum status refuse_because(uint32_t number, uint64_t place, const char *meaning)
{
    if (answer.json) {
        say_number("number", number);
        say_number("place", place);
    } else {
        fprintf(stderr, "refused %" PRIu32 " at %" PRIu64 "\n", number, place);
    }
    advise("meaning", meaning);
    return REFUSED;
}

enum status refuse(uint32_t number, uint64_t place)
{
    return refuse_because(number, place, refusal_meaning(number));
}

/* A name may hold anything; what is no text, or would steer the terminal, shows as a question mark. */
static void put_name(const char *name)
{
    while (*name != '\0') {
        int length = character_length(name);
        bool shows = length != 0 && !is_control(name);

        fprintf(stderr, "%.*s", shows ? length : 1, shows ? name : "?");
        name += length == 0 ? 1 : length;
    }
}

/* The name of an image: a member, or a line that begins with these words. */
static void say_name(const char *words, const char *path)
{
    if (answer.json) {
        say_text("name", path);
        return;
    }
    fprintf(stderr, "%s ", words);
    put_name(path);
    fputc('\n', stderr);
}

void name_image(const char *which, const char *path)
{
    char words[32];

    snprintf(words, sizeof words, "in the %s image,", which);
    say_only_json("image", which);
    say_name(words, path);
}

void name_image_of(char slot, const char *path)
{
    char words[32];

    snprintf(words, sizeof words, "in the image of slot %c,", slot);
    say_name(words, path);
}

void name_image_counted(const char *path)
{
    say_name("in counting", path);
}

void say_refused_image(const char *path, uint32_t number)
{
    const char *meaning = refusal_meaning(number);

    if (answer.json) {
        open_item();
        say_text("name", path);
        say_number("number", number);
        say_text("meaning", meaning);
        close_bracket();
        return;
    }
    fputs("tarpaulark: ", stderr);
    put_name(path);
    fprintf(stderr, ": refused %" PRIu32 ": %s\n", number, meaning);
}

static void explain(const char *path, const char *what, int error)
{
    end_progress();
    if (answer.json) {
        while (answer.depth > 0)
            close_bracket();
        if (path != NULL)
            say_text("name", path);
        say_text("words", what);
        if (error != 0)
            say_text("error", strerror(error));
        return;
    }
    fflush(stdout);
    fputs("tarpaulark: ", stderr);
    put_name(path == NULL ? "" : path);
    fprintf(stderr, "%s%s", path == NULL ? "" : ": ", what);
    fprintf(stderr, error != 0 ? " (%s)\n" : "\n", strerror(error));
}

void misused(const char *path, const char *what)
{
    explain(path, what, 0);
    if (!answer.json && path == NULL)
        fputs("see tarpaulark --help\n", stderr);
    exit((int)finish(BAD_USE));
}

void failed(const char *path, const char *what, int error)
{
    exit((int)finish(troubled(path, what, error)));
}

enum status troubled(const char *path, const char *what, int error)
{
    explain(path, what, error);
    return FAILED;
}
