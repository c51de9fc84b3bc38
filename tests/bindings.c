/* tests/bindings calls the library by this program: NAME calls the function with the text on standard input, writes
   the output, and exits with the status. The output of `faults` is its records: numbers and words, each with a byte 31
   after it, and a byte 30 after each record. NAME TIMES does so often, also with too little room. It fails if a call
   writes where it must not, or if the memory of the process grows after the hundredth turn. */
#include "wat.h"
#include <stdio.h>
#include <stdlib.h>
#include <string.h>
#include <sys/resource.h>
#include <unistd.h>

enum { MOST = 1 << 22, MANY = 64 };
static uint8_t text[MOST], said[MOST];
static wat_fault faults[MANY];
static size_t count;
/* a name that isn't UTF-8 */
static const uint8_t file[] = {'a', '/', 0xff, 'b', '.', 'w', 'a', 't'};

static void fail(const char *why) {
    if (write(2, why, strlen(why)) && write(2, "\n", 1))
        _exit(3);
    _exit(4);
}

static int32_t call_named(const char *name, size_t length, size_t room, size_t *needed) {
    if (!strcmp(name, "check_named")) return wat_check_named(file, sizeof file, text, length, said, room, needed);
    if (!strcmp(name, "list_named")) return wat_list_named(file, sizeof file, text, length, said, room, needed);
    if (!strcmp(name, "format_named")) return wat_format_named(file, sizeof file, text, length, said, room, needed);
    bool line = !strcmp(name, "line_named");
    return wat_print_named(file, sizeof file, text, length, line, said, room, needed);
}

static int32_t call(const char *name, size_t length, size_t room, size_t *needed) {
    if (strstr(name, "_named")) return call_named(name, length, room, needed);
    if (!strcmp(name, "check")) return wat_check(text, length, said, room, needed);
    if (!strcmp(name, "faults")) return wat_faults(text, length, faults, MANY, &count, said, room, needed);
    if (!strcmp(name, "list")) return wat_list(text, length, said, room, needed);
    if (!strcmp(name, "print")) return wat_print(text, length, false, said, room, needed);
    if (!strcmp(name, "line")) return wat_print(text, length, true, said, room, needed);
    if (!strcmp(name, "format")) return wat_format(text, length, said, room, needed);
    return wat_version(said, room, needed);
}

static long peak(void) {
    struct rusage usage;
    getrusage(RUSAGE_SELF, &usage);
    return usage.ru_maxrss;
}

/* One call, with enough room. */
static int32_t once(const char *name, size_t length, size_t *needed) {
    *needed = 0;
    said[0] = 170;
    int32_t status = call(name, length, MOST, needed);
    if (status == WAT_NO_MEMORY && (*needed || said[0] != 170)) fail("no memory, and yet something was written");
    return status;
}

/* With one record too few, wat_faults writes no record, and the messages. */
static void with_few_records(size_t length, size_t whole) {
    size_t needed = 0, all = count;
    if (!all) return;
    faults[0].end = whole + 1;
    said[0] = 170;
    if (wat_faults(text, length, faults, all - 1, &count, said, MOST, &needed) != WAT_REFUSED) fail("not refused");
    if (count != all || needed != whole || said[0] == 170) fail("too few records, and no messages");
    if (faults[0].end != whole + 1) fail("too few records, and one was written");
}

/* A call with no room, one with a byte too little, and one with enough: the last one's status. */
static int32_t thrice(const char *name, size_t length, size_t *needed) {
    size_t whole = 0, again = 0;
    said[0] = 170;
    int32_t status = call(name, length, 0, &whole);
    if (whole && (call(name, length, whole - 1, &again) != status || again != whole)) fail("two calls, and two answers");
    if (said[0] != 170) fail("too little room, and yet something was written");
    if (!strcmp(name, "faults")) with_few_records(length, whole);
    if (once(name, length, needed) != status || *needed != whole) fail("two calls, and two answers");
    return status;
}

static void write_bytes(const void *from, size_t length) {
    if (write(1, from, length) != (ssize_t)length) fail("cannot write");
}

static void write_words(size_t start, size_t end) {
    write_bytes(said + start, end - start);
    write_bytes("\37", 1);
}

static void write_fault(const wat_fault *it) {
    char numbers[128];
    int length = snprintf(numbers, sizeof numbers, "%zu\37%zu\37%zu\37%zu\37%zu\37", it->offset, it->length, it->line,
        it->column, it->fault);
    write_bytes(numbers, (size_t)length);
    write_words(it->message, it->hint);
    write_words(it->hint, it->expected);
    write_words(it->expected, it->end);
    write_bytes("\36", 1);
}

int main(int words_count, char **words) {
    size_t length = 0, needed = 0;
    for (ssize_t more; (more = read(0, text + length, MOST - length)) > 0;)
        length += (size_t)more;
    int32_t status = once(words[1], length, &needed);
    long before = 0;
    for (int turn = 0; turn < (words_count > 2 ? atoi(words[2]) : 0); turn++) {
        if (turn == 100) before = peak();
        status = thrice(words[1], length, &needed);
    }
    if (before && peak() > before) fail("memory grows");
    if (strcmp(words[1], "faults"))
        write_bytes(said, needed);
    else
        for (size_t it = 0; it < count; it++)
            write_fault(&faults[it]);
    return status;
}
