/* A library to be loaded before a program. It refuses the allocation whose number is in the variable REFUSE, counted from 1, and no other. It
   writes a line to the file named by REFUSE_SEEN, if there is one, when it does. It needs no headers. */
typedef unsigned long size;

extern void *__libc_malloc(size);
extern void *__libc_realloc(void *, size);
extern void *__libc_calloc(size, size);
extern char *getenv(const char *);
extern int open(const char *, int, ...);
extern long write(int, const void *, size);
extern int close(int);

/* How many allocations are left until the one that is refused, 0 when none is to be; -1 before the first. */
static long left = -1;

static void note(void)
{
    const char *name = getenv("REFUSE_SEEN");
    int file;
    if (!name)
        return;
    /* to write only, made where it is missing, and emptied */
    file = open(name, 01 | 0100 | 01000, 0600);
    if (file >= 0) {
        write(file, "refused\n", 8);
        close(file);
    }
}

static int refused(void)
{
    if (left < 0) {
        const char *text = getenv("REFUSE");
        left = 0;
        for (; text && *text >= '0' && *text <= '9'; text++)
            left = 10 * left + (*text - '0');
    }
    if (left <= 0 || --left != 0)
        return 0;
    note();
    return 1;
}

void *malloc(size n) { return refused() ? 0 : __libc_malloc(n); }
void *calloc(size m, size n) { return refused() ? 0 : __libc_calloc(m, n); }
void *realloc(void *p, size n) { return refused() ? 0 : __libc_realloc(p, n); }
