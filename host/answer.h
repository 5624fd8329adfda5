/* What the tool prints, as lines of text or with --json as one object with the same numbers, and how it
   ends. An answer is said member by member; in text the members stand on a line, one after the other. */
#ifndef ANSWER_H
#define ANSWER_H

#include <stdbool.h>
#include <stddef.h>
#include <stdint.h>

enum status { DONE = 0, REFUSED = 1, BAD_USE = 2, FAILED = 3, NOT_PRINTED = 4 };

/* From now on one object is printed; whether it is. */
void answer_in_json(void);
bool answers_in_json(void);

/* The command that is answered. */
void answer_to(const char *command);

/* A word that text has and the object does not, whose members have names and which ends with its result. */
void say_word(const char *word);

/* Members; the plain ones show no name in text, the others their name and value. */
void say_text(const char *name, const char *text);
void say_plain(const char *name, const char *text);
void say_letter(const char *name, char letter);
void say_number(const char *name, uint64_t value);
void say_flag(const char *name, bool set);

/* A plain member of so many bytes, whatever they are; a zero byte stands after them. */
void say_bytes(const char *name, const char *bytes, size_t length);

/* A number that text says as a word, up to seven, and without its name. */
void say_in_words(const char *name, uint64_t value);

/* A number that text says in two places and the object, which has a name only once, in the other. */
void say_once_more(const char *name, uint64_t value);

/* Members in columns of so many characters; the name shows in the object alone. */
void say_column(const char *name, int width, uint64_t value);
void say_name_column(const char *name, int width, const char *text);

/* Numbers that text shows as 0x and eight digits: a plain one, and one with its name, none where it is 0. */
void say_hex(const char *name, uint32_t value);
void say_hex_or_none(const char *name, uint32_t value);

/* A line of text that the object does not have, and members that text does not have. */
void say_line(const char *line);
void say_only_json(const char *name, const char *text);
void say_only_json_number(const char *name, uint64_t value);
void say_only_json_flag(const char *name, bool set);
void end_line(void);

/* A list of items, each with members; in text each item is a line, but for one that only the object has. */
void open_list(const char *name);
void open_item(void);
void close_item(void);
void close_only_json_item(void);
void close_list(void);

/* Ends the answer; the status to leave with. */
enum status finish(enum status status);

/* Ends what is no answer, as the help; the status to leave with. */
enum status finish_text(void);

/* Says a refusal, its place and what it means, or what it means here. */
enum status refuse(uint32_t number, uint64_t place);
enum status refuse_because(uint32_t number, uint64_t place, const char *meaning);

/* Says after a refusal in which of two images it is, or in the image of which slot, or when which one was counted. */
void name_image(const char *which, const char *path);
void name_image_of(char slot, const char *path);
void name_image_counted(const char *path);

/* Says of one of many images that it is refused, in a line of its own on standard error or as an item of a list. */
void say_refused_image(const char *path, uint32_t number);

/* More words to an answer or a refusal, a line of their own on standard error. */
void advise(const char *name, const char *words);

/* Say what went wrong with a file, or with the words where `path` is null, and end the program.
   `error` is an errno, or 0. */
_Noreturn void misused(const char *path, const char *what);
_Noreturn void failed(const char *path, const char *what, int error);

/* Says what went wrong after an answer; the status to leave with. */
enum status troubled(const char *path, const char *what, int error);

#endif
