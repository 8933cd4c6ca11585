/* Loaded before the C library (LD_PRELOAD): allocation number REFUSE (counted from 1) fails, as if
   malloc returned NULL. An `x` and a newline are then written to standard output, so that they
   appear between what the program prints before and after. A read returns at most MOST bytes. Read
   number FAILING_READ fails, and so does write number FAILING_WRITE, counting all writes except those
   to standard error. A variable that is not set changes nothing. Needs no header, no library but
   glibc, and Linux on x86-64. */
typedef unsigned long size;
extern void *__libc_malloc(size), *__libc_realloc(void *, size);
extern char *getenv(const char *);
extern long syscall(long, ...);
extern int *__errno_location(void);

enum { READ, WRITE, EIO = 5 };

static long left = -1, begun, most, reads, writes;

static long number(const char *text) {
    long n = 0;
    while (text && *text >= '0' && *text <= '9') n = 10 * n + (*text++ - '0');
    return n;
}

static void begin(void) {
    if (begun) return;
    begun = 1;
    left = number(getenv("REFUSE"));
    most = number(getenv("MOST"));
    reads = number(getenv("FAILING_READ"));
    writes = number(getenv("FAILING_WRITE"));
}

static int refused(void) {
    begin();
    if (left == 0 || --left) return 0;
    syscall(WRITE, 1, "x\n", 2);
    return 1;
}

static long failed(void) {
    *__errno_location() = EIO;
    return -1;
}

void *malloc(size n) { return refused() ? 0 : __libc_malloc(n); }
void *realloc(void *p, size n) { return refused() ? 0 : __libc_realloc(p, n); }

long read(int file, void *to, size n) {
    begin();
    if (reads && !--reads) return failed();
    return syscall(READ, file, to, most && (size)most < n ? (size)most : n);
}

long write(int file, const void *from, size n) {
    begin();
    if (file != 2 && writes && !--writes) return failed();
    return syscall(WRITE, file, from, n);
}

long __write(int file, const void *from, size n) { return write(file, from, n); }
