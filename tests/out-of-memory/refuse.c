// Loaded before a program (LD_PRELOAD), refuses requests for memory. They are counted from 1: all of them, or, with REFUSE_BEGIN
// and REFUSE_END, those after a request for as many bytes as the one says and before the next for as many as the other. The one
// of the number REFUSE is refused, with REFUSE_ON all after it too. One for less than a block has is none. To the file descriptor
// REFUSE_TO goes a letter for each mark (b, e) and for the first request that is refused (r). What it takes of the C library is
// declared here, so that the compiler of the toolchain, which has no headers, is enough.
typedef unsigned long size_t;
#define NULL ((void *)0)
#define RTLD_NEXT ((void *)-1L)
#define ENOMEM 12
extern void *dlsym(void *handle, const char *name);
extern char *getenv(const char *name);
extern unsigned long strtoul(const char *text, char **end, int base);
extern long write(int to, const void *bytes, size_t count);
extern void abort(void);
extern int *__errno_location(void);
extern size_t malloc_usable_size(void *block);

static size_t first, begin, end, made;
static int goes_on, counts, to;

static size_t number_of(const char *name) {
    const char *value = getenv(name);
    return value ? strtoul(value, NULL, 10) : 0;
}

__attribute__((constructor)) static void read_environment(void) {
    first = number_of("REFUSE");
    begin = number_of("REFUSE_BEGIN");
    end = number_of("REFUSE_END");
    goes_on = getenv("REFUSE_ON") != NULL;
    to = (int)number_of("REFUSE_TO");
    counts = first && !begin;
}

static void tell(const char *letter) {
    if (write(to, letter, 1) != 1)
        abort();
}

static int is_refused(size_t size) {
    if (first && begin && (size == begin || size == end)) {
        counts = size == begin;
        tell(size == begin ? "b" : "e");
        return 0;
    }
    if (!counts)
        return 0;
    made++;
    if (made == first)
        tell("r");
    if (made < first || (made > first && !goes_on))
        return 0;
    *__errno_location() = ENOMEM;
    return 1;
}

void *malloc(size_t size) {
    static void *(*real)(size_t);
    if (!real)
        real = (void *(*)(size_t))dlsym(RTLD_NEXT, "malloc");
    return is_refused(size) ? NULL : real(size);
}

void *calloc(size_t count, size_t size) {
    static void *(*real)(size_t, size_t);
    if (!real)
        real = (void *(*)(size_t, size_t))dlsym(RTLD_NEXT, "calloc");
    return is_refused(count * size) ? NULL : real(count, size);
}

// Whether a block is asked to hold less than it was made for: no want of memory, so it isn't refused. A block of more than 24 bytes
// has at most 15 more than were asked for.
static int is_less(void *block, size_t size) {
    size_t held = block ? malloc_usable_size(block) : 0;
    return held > 24 && size + 15 <= held;
}

void *realloc(void *block, size_t size) {
    static void *(*real)(void *, size_t);
    if (!real)
        real = (void *(*)(void *, size_t))dlsym(RTLD_NEXT, "realloc");
    return !is_less(block, size) && is_refused(size) ? NULL : real(block, size);
}
