/* Notes what a program asks of its files, for tools/check-sync. To be loaded before the program (LD_PRELOAD).

   NOTE_CALLS names a file, to which a line goes for each write to a file (`write`), for each sync (`sync`), and for each write
   to the standard output (`put`). Where FAIL_SYNC is a number, each sync fails with this error.
   For Linux on x86-64, without headers and without a library, so that any C compiler makes it. */

enum { SYS_WRITE = 1, SYS_OPEN = 2, SYS_CLOSE = 3, SYS_FSYNC = 74 };
enum { APPEND = 02001, OUTPUT = 1, GREATEST_ERROR = 4095 };

extern char *getenv(const char *name);
extern int *__errno_location(void);

static long ask(long call, long first, long second, long third)
{
    long answer;
    __asm__ volatile("syscall"
                     : "=a"(answer)
                     : "a"(call), "D"(first), "S"(second), "d"(third)
                     : "rcx", "r11", "memory");
    return answer;
}

/* The answer as the C library tells it. */
static long told(long answer)
{
    if (answer >= 0 || answer < -GREATEST_ERROR)
        return answer;
    *__errno_location() = (int)-answer;
    return -1;
}

static void note(const char *line, long length)
{
    const char *name = getenv("NOTE_CALLS");
    long file = name ? ask(SYS_OPEN, (long)name, APPEND, 0) : -1;
    if (file >= 0) {
        ask(SYS_WRITE, file, (long)line, length);
        ask(SYS_CLOSE, file, 0, 0);
    }
}

static long error_of_sync(void)
{
    const char *digit = getenv("FAIL_SYNC");
    long error = 0;
    for (; digit && *digit >= '0' && *digit <= '9'; digit++)
        error = error * 10 + (*digit - '0');
    return error;
}

long write(int file, const void *bytes, unsigned long length)
{
    if (file == OUTPUT)
        note("put\n", 4);
    else
        note("write\n", 6);
    return told(ask(SYS_WRITE, file, (long)bytes, (long)length));
}

int fsync(int file)
{
    long error = error_of_sync();
    note("sync\n", 5);
    return (int)told(error ? -error : ask(SYS_FSYNC, file, 0, 0));
}
