/* tests/refused_calls puts this library in front of the C library. It refuses the call of the number REFUSE_CALL, and
   each behind it if REFUSE_LASTS is 1: of those for memory, or of those that read standard input or write standard
   output if REFUSE_IO is 1. It tells the file REFUSE_TELLS '!' of a call that is refused, then 's' if that asked for no
   more bytes than its block has, '<' if the next asks for less; '+' of a block that is taken, '-' of one given back. */
typedef unsigned long size;
extern void *__libc_realloc(void *old, size bytes);
extern void __libc_free(void *block);
extern size malloc_usable_size(void *block);
extern long __read(int file, void *to, size bytes), __write(int file, const void *from, size bytes);
extern char *getenv(const char *name);
extern int atoi(const char *digits), *__errno_location(void);

static int tell(const char *what) { return (int)__write(atoi(getenv("REFUSE_TELLS")), what, 1); }

/* Counts a call of the kind that is refused, and answers whether it is. */
static int is_refused(int is_io, int error) {
    static int calls;
    if (atoi(getenv("REFUSE_IO")) != is_io)
        return 0;
    int behind = ++calls - atoi(getenv("REFUSE_CALL"));
    if (behind < 0 || (behind && !atoi(getenv("REFUSE_LASTS"))))
        return 0;
    *__errno_location() = error;
    return tell("!");
}

void *realloc(void *old, size bytes) {
    static size refused;
    if (bytes < refused)
        tell("<");
    refused = is_refused(0, 12 /* ENOMEM */) ? bytes : 0;
    if (refused && old && bytes <= malloc_usable_size(old))
        tell("s");
    void *block = refused ? 0 : __libc_realloc(old, bytes);
    if (!old && block)
        tell("+");
    return block;
}

void *malloc(size bytes) { return realloc(0, bytes); }

void free(void *block) {
    if (block)
        tell("-");
    __libc_free(block);
}

/* (5 is EIO) */
long read(int file, void *to, size bytes) { return file == 0 && is_refused(1, 5) ? -1 : __read(file, to, bytes); }
long write(int to, const void *from, size bytes) { return to == 1 && is_refused(1, 5) ? -1 : __write(to, from, bytes); }
