/* Loaded before the C library, it refuses growths of a program: calls of malloc and realloc.

   REFUSED_FROM and REFUSED_TO are the numbers, from 1, of the first and the last growth that is refused; none is where
   they are absent. With REFUSED_EACH, a descriptor of a file, the program itself is refused nothing: at each growth, up
   to REFUSED_TO where that is given, a copy of it is made, which is refused this one alone, and goes on with that file as
   its standard output and error. What became of a copy goes to the descriptor REFUSED_TELL: the number of the growth, the
   status, how many bytes it wrote, and these. When the program ends, one line goes there: how many growths there were,
   and how many line feeds had been read from standard input when the first was refused. */
#include <stdio.h>
#include <stdlib.h>
#include <sys/syscall.h>
#include <sys/wait.h>
#include <unistd.h>

void *__libc_malloc(size_t size);
void *__libc_realloc(void *kept, size_t size);

static unsigned long from, to, growths, feeds, feeds_then;
static int tell = -1, each = -1;

static long number(const char *name, long absent)
{
    const char *word = getenv(name);
    return word ? strtol(word, 0, 10) : absent;
}

__attribute__((constructor)) static void begin(void)
{
    from = number("REFUSED_FROM", 0);
    to = number("REFUSED_TO", 0);
    tell = number("REFUSED_TELL", -1);
    each = number("REFUSED_EACH", -1);
}

static void say(int file, const char *bytes, long count)
{
    if (write(file, bytes, count) != count)
        abort();
}

__attribute__((destructor)) static void end(void)
{
    char line[64];
    int to_tell = tell;
    tell = -1;
    if (to_tell >= 0)
        say(to_tell, line, snprintf(line, sizeof line, "%lu %lu\n", growths, feeds_then));
}

/* A program that may make threads ends so, without what is told at an ordinary end. */
void _exit(int status)
{
    end();
    for (;;)
        syscall(SYS_exit_group, status);
}

/* Makes a copy of the program, in which alone the answer is true, and tells what became of it. */
static int is_refused_copy(void)
{
    char bytes[4096], line[64];
    int status;
    pid_t copy = fork();
    if (copy == 0) {
        alarm(60);
        dup2(each, 1);
        dup2(each, 2);
        tell = each = -1;
        to = 0;
        return 1;
    }
    if (waitpid(copy, &status, 0) != copy)
        abort();
    status = WIFEXITED(status) ? WEXITSTATUS(status) : 128 + WTERMSIG(status);
    long count = pread(each, bytes, sizeof bytes, 0);
    say(tell, line, snprintf(line, sizeof line, "%lu %d %ld\n", growths, status, count));
    say(tell, bytes, count);
    if (ftruncate(each, 0) || lseek(each, 0, SEEK_SET))
        abort();
    return 0;
}

static int is_refused(void)
{
    /* Threads may ask at once. */
    unsigned long growth = __atomic_add_fetch(&growths, 1, __ATOMIC_RELAXED);
    if (each >= 0)
        return (to == 0 || growth <= to) && is_refused_copy();
    if (growth == from)
        feeds_then = feeds;
    return from <= growth && growth <= to;
}

void *malloc(size_t size)
{
    return is_refused() ? 0 : __libc_malloc(size);
}

void *realloc(void *kept, size_t size)
{
    return is_refused() ? 0 : __libc_realloc(kept, size);
}

ssize_t read(int file, void *bytes, size_t size)
{
    ssize_t count = syscall(SYS_read, file, bytes, size);
    for (ssize_t i = 0; file == 0 && i < count; i++)
        feeds += ((char *)bytes)[i] == '\n';
    return count;
}
