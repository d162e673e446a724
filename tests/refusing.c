/* Refuses growths of memory to the program that this library is preloaded into. Growths are counted from 1 on, those of
 * all threads together. Of those from REFUSE_FROM to REFUSE_UNTIL one in REFUSE_ONE_IN is refused, drawn by its number
 * and REFUSE_SEED. At the program's end the file REFUSE_TOLD says how many growths there were, and how many were refused.
 */
#include <errno.h>
#include <fcntl.h>
#include <stdatomic.h>
#include <stdio.h>
#include <stdlib.h>
#include <sys/syscall.h>
#include <unistd.h>

extern long syscall(long number, ...);
extern void *__libc_malloc(size_t size);
extern void *__libc_realloc(void *old, size_t size);

static unsigned long from, until, one_in, seed;
static atomic_ulong growths, refused;

static unsigned long number_in(const char *name, unsigned long otherwise)
{
    const char *word = getenv(name);
    return word ? strtoul(word, NULL, 10) : otherwise;
}

__attribute__((constructor)) static void begin(void)
{
    from = number_in("REFUSE_FROM", 0);
    until = number_in("REFUSE_UNTIL", from);
    one_in = number_in("REFUSE_ONE_IN", 1);
    seed = number_in("REFUSE_SEED", 0);
    atomic_store(&growths, 0);
}

/* A number of which each bit hangs on each bit of the other: the mixing step of splitmix64. */
static unsigned long mixed(unsigned long number)
{
    number = (number ^ number >> 30) * 0xbf58476d1ce4e5b9;
    number = (number ^ number >> 27) * 0x94d049bb133111eb;
    return number ^ number >> 31;
}

/* Counts a growth, and says whether the growth is refused. */
static int is_refused(void)
{
    unsigned long number = atomic_fetch_add(&growths, 1) + 1;
    if (from == 0 || number < from || number > until || mixed(number + seed * 0x9e3779b97f4a7c15) % one_in)
        return 0;
    atomic_fetch_add(&refused, 1);
    errno = ENOMEM;
    return 1;
}

void *malloc(size_t size)
{
    return is_refused() ? NULL : __libc_malloc(size);
}

void *realloc(void *old, size_t size)
{
    return is_refused() ? NULL : __libc_realloc(old, size);
}

static void tell(void)
{
    char said[64];
    const char *told = getenv("REFUSE_TOLD");
    int length = snprintf(said, sizeof said, "%lu %lu\n", atomic_load(&growths), atomic_load(&refused));
    int file = told ? open(told, O_WRONLY | O_CREAT | O_TRUNC, 0600) : -1;
    if (file >= 0 && write(file, said, length) == length)
        close(file);
}

/* The end of the program, which calls no handlers of the C library. */
void _exit(int status)
{
    tell();
    syscall(SYS_exit_group, status);
    __builtin_unreachable();
}
