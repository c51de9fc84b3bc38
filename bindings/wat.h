/* wat.h: reads, lists, prints and formats the WebAssembly text format, as the program `wat` does.
 *
 * Each function takes a text: TEXT points to LENGTH bytes, which should be UTF-8. The output of a function
 * is bytes, without a 0 at the end. If the output fits in the ROOM bytes at SAID, it is written at their
 * start. Otherwise nothing is written. *NEEDED becomes the length of the output: if *NEEDED > ROOM, call
 * again with a greater buffer.
 *
 * Each function returns WAT_OK, WAT_REFUSED or WAT_NO_MEMORY. With WAT_NO_MEMORY, SAID and *NEEDED are
 * unchanged.
 *
 * No pointer may be null; with LENGTH, NAME_LENGTH or ROOM 0 it may point anywhere. SAID and NEEDED must not
 * overlap each other, TEXT or NAME. A call keeps nothing for the next one, and frees all its memory. Several
 * threads can call at the same time: tests/bindings tests this, no contract describes it.
 *
 * A report begins with these lines, and calls the text <text>. Lines and columns count from 1. A column is
 * one character.
 *
 *     <text>:5:5: error: no instruction is called `i32.ad`
 *         i32.ad))
 *         ^
 *     hint: did you mean `i32.add`, `i32.and`, `f32.add`?
 *
 * Without a hint, a line `expected: ..` may list what could be at this position.
 *
 * The functions that end in _named do the same as those without _named, and take the name of the text for
 * reports: NAME points to NAME_LENGTH bytes, such as a path. A name that isn't UTF-8 is not an error: in the
 * report, each invalid sequence of its bytes is U+FFFD. Any other byte of the name is written as it is.
 */
#ifndef WAT_H
#define WAT_H

#include <stdbool.h>
#include <stddef.h>
#include <stdint.h>

#ifdef __cplusplus
extern "C" {
#endif

enum { WAT_OK = 0, WAT_REFUSED = 1, WAT_NO_MEMORY = 2 };

/* wat_check: checks that the text is one module, `(module ..)` with its parentheses, and that its names, blocks
 * and imports have no errors. WAT_OK: there is no error; the output is empty. WAT_REFUSED: there is one; the output
 * is the report. It doesn't validate: numbers of indices and types aren't checked. A float literal is checked by
 * its spelling only: a value out of range is accepted. */
int32_t wat_check(const uint8_t *text, size_t length, uint8_t *said, size_t room, size_t *needed);
int32_t wat_check_named(const uint8_t *name, size_t name_length, const uint8_t *text, size_t length,
    uint8_t *said, size_t room, size_t *needed);

/* The same, without the errors of names, blocks and imports. */
int32_t wat_check_syntax(const uint8_t *text, size_t length, uint8_t *said, size_t room, size_t *needed);

/* The numbers of faults: docs/GRAMMAR.md, "Faults", describes 1 to 21, and "Faults of names, blocks and imports"
 * 101 to 109. */
enum {
    WAT_FAULT_MORE = 0, /* no fault: the number of further invalid fields, or of further errors */
    WAT_FAULT_MEMORY = 1,
    WAT_FAULT_LEX_CHAR = 2,
    WAT_FAULT_LEX_STRING = 3,
    WAT_FAULT_LEX_COMMENT = 4,
    WAT_FAULT_LEX_ANNOTATION = 5,
    WAT_FAULT_UNEXPECTED = 6,
    WAT_FAULT_RANGE = 7,
    WAT_FAULT_UTF8 = 8,
    WAT_FAULT_FLOAT_LITERAL = 9,
    WAT_FAULT_ALIGNMENT = 10,
    WAT_FAULT_PAGE_SIZE = 11,
    WAT_FAULT_OPERATOR = 12,
    WAT_FAULT_PARAM_AFTER_RESULT = 13,
    WAT_FAULT_IF_WITHOUT_THEN = 14,
    WAT_FAULT_IF_TOO_MANY = 15,
    WAT_FAULT_HINT_VALUE = 16,
    WAT_FAULT_HINT_TWICE = 17,
    WAT_FAULT_HINT_PLACE = 18,
    WAT_FAULT_IMPORT_MIXED = 19,
    WAT_FAULT_IMPORT_ID = 20,
    WAT_FAULT_HINT_TARGET = 21,
    WAT_FAULT_UNKNOWN_NAME = 101,
    WAT_FAULT_DOUBLED_NAME = 102,
    WAT_FAULT_UNKNOWN_LABEL = 103,
    WAT_FAULT_OTHER_LABEL = 104,
    WAT_FAULT_SURPLUS_END = 105,
    WAT_FAULT_UNCLOSED_BLOCK = 106,
    WAT_FAULT_MISPLACED_ELSE = 107,
    WAT_FAULT_MISPLACED_CATCH = 108,
    WAT_FAULT_LATE_IMPORT = 109
};

/* A fault of a text. Offsets and lengths are in bytes; LINE and COLUMN count from 1, and a column is one
 * character.
 *
 * MESSAGE, HINT, EXPECTED and END are offsets into the messages. The message is the bytes from MESSAGE up to
 * HINT. The words after `hint: ` in the report are the bytes from HINT up to EXPECTED; the words after
 * `expected: ` are the bytes from EXPECTED up to END. If the report has no such line, the range is empty.
 *
 * FAULT is the number of the fault, a constant WAT_FAULT_X. If more than 20 fields are invalid, one record has
 * FAULT WAT_FAULT_MORE, and OFFSET, LENGTH, LINE and COLUMN 0: its message is `N more fields are invalid`. So
 * has the last record if a module has more than 20 errors of names, blocks and imports. */
typedef struct {
    size_t offset; /* of the fault, from the start of the text */
    size_t length; /* of the word or character to underline; 0 at the end of the text */
    size_t line;
    size_t column;
    size_t fault;
    size_t message;
    size_t hint;
    size_t expected;
    size_t end;
} wat_fault;

/* wat_faults: returns the faults that wat_check reports, in the same order, as numbers and messages.
 * *COUNT becomes the number of faults. If they fit in the SPACE records at FAULTS, they are written at their
 * start; otherwise no record is written. *NEEDED becomes the length of all messages. If they fit in the ROOM bytes
 * at MESSAGES, they are written at their start; otherwise no message is written. Messages are UTF-8.
 * WAT_OK: the text is a module; *COUNT and *NEEDED are 0. WAT_REFUSED: it isn't. With WAT_NO_MEMORY all outputs
 * are unchanged. The pointers follow the rules above: none is null, and what they point to doesn't overlap. */
int32_t wat_faults(const uint8_t *text, size_t length, wat_fault *faults, size_t space, size_t *count,
    uint8_t *messages, size_t room, size_t *needed);

/* The same, without the errors of names, blocks and imports. */
int32_t wat_faults_syntax(const uint8_t *text, size_t length, wat_fault *faults, size_t space, size_t *count,
    uint8_t *messages, size_t room, size_t *needed);

/* wat_list: lists the contents of a module.
 * WAT_OK: the output has one field or instruction per line. WAT_REFUSED: the text isn't a module, or has a
 * float literal; the output is the report. */
int32_t wat_list(const uint8_t *text, size_t length, uint8_t *said, size_t room, size_t *needed);
int32_t wat_list_named(const uint8_t *name, size_t name_length, const uint8_t *text, size_t length,
    uint8_t *said, size_t room, size_t *needed);

/* wat_print: prints a module as a text that parses back to the same module, flat and without comments.
 * If LINE is true, the output is one line; otherwise each instruction has its own line. WAT_OK: the output is
 * the text. WAT_REFUSED: the output is the report, as for wat_list. */
int32_t wat_print(const uint8_t *text, size_t length, bool line, uint8_t *said, size_t room, size_t *needed);
int32_t wat_print_named(const uint8_t *name, size_t name_length, const uint8_t *text, size_t length, bool line,
    uint8_t *said, size_t room, size_t *needed);

/* wat_format: formats any text with valid tokens: modules, scripts, fragments. It changes white space only;
 * tokens and comments stay, byte for byte. WAT_OK: the output is the formatted text. WAT_REFUSED: the
 * output is the report of the first invalid token or byte. */
int32_t wat_format(const uint8_t *text, size_t length, uint8_t *said, size_t room, size_t *needed);
int32_t wat_format_named(const uint8_t *name, size_t name_length, const uint8_t *text, size_t length,
    uint8_t *said, size_t room, size_t *needed);

/* wat_version: the output is `wat 0.1.0, a port of wast 263.0.0`. Returns WAT_OK. */
int32_t wat_version(uint8_t *said, size_t room, size_t *needed);

#ifdef __cplusplus
}
#endif

#endif
