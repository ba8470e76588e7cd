#define _POSIX_C_SOURCE 200809L
#include "trial.h"

#include <fcntl.h>
#include <spawn.h>
#include <stdbool.h>
#include <stdio.h>
#include <stdlib.h>
#include <string.h>
#include <sys/wait.h>
#include <unistd.h>

extern char **environ;

enum { STATUS_BYTES = 64 };

static int given = -1, wrote = -1, nowhere = -1; /* the program's 0, 1 and 2 */
static int said = -1; /* its 2 and 3 where they are heard */
static char *answer, *saying;

static _Noreturn void fail(const char *what)
{
    perror(what);
    exit(2);
}

static int scratch(void)
{
    FILE *file = tmpfile();

    if (!file)
        fail("a scratch file");
    return fileno(file);
}

static void prepare(void)
{
    given = scratch();
    wrote = scratch();
    said = scratch();
    nowhere = open("/dev/null", O_WRONLY);
    if (nowhere < 0)
        fail("/dev/null");
}

static void write_all(int file, const uint8_t *bytes, size_t length)
{
    while (length > 0) {
        const ssize_t done = write(file, bytes, length);
        if (done <= 0)
            fail("a scratch file");
        bytes += done;
        length -= (size_t)done;
    }
}

static void read_all(int file, char *bytes, size_t length)
{
    while (length > 0) {
        const ssize_t done = read(file, bytes, length);
        if (done <= 0)
            fail("a scratch file");
        bytes += done;
        length -= (size_t)done;
    }
}

static void empty(int file)
{
    if (ftruncate(file, 0) != 0 || lseek(file, 0, SEEK_SET) != 0)
        fail("a scratch file");
}

/* Its status, as waitpid gives it; these are its descriptors 2 and 3. */
static int run_program(char *const *program, int errors, int ending)
{
    posix_spawn_file_actions_t actions;
    pid_t child;
    int status;

    posix_spawn_file_actions_init(&actions);
    posix_spawn_file_actions_adddup2(&actions, given, 0);
    posix_spawn_file_actions_adddup2(&actions, wrote, 1);
    posix_spawn_file_actions_adddup2(&actions, ending, 3);
    posix_spawn_file_actions_adddup2(&actions, errors, 2);
    if (posix_spawn(&child, program[0], &actions, NULL, program, environ) != 0
        || waitpid(child, &status, 0) != child)
        fail(program[0]);
    posix_spawn_file_actions_destroy(&actions);
    return status;
}

/* All that a scratch file has, with room for a status behind it. */
static size_t read_scratch(int file, char **bytes)
{
    const off_t length = lseek(file, 0, SEEK_END);

    if (length < 0 || lseek(file, 0, SEEK_SET) != 0)
        fail("a scratch file");
    *bytes = realloc(*bytes, (size_t)length + STATUS_BYTES);
    if (!*bytes)
        fail("memory");
    read_all(file, *bytes, (size_t)length);
    (*bytes)[length] = '\0';
    return (size_t)length;
}

static int is_cut_short(size_t length)
{
    static const char last[] = "cut short\n";
    const size_t size = sizeof last - 1;

    return length >= size && memcmp(answer + length - size, last, size) == 0;
}

static void give(const uint8_t *input, size_t length)
{
    if (given < 0)
        prepare();
    empty(given);
    write_all(given, input, length);
    if (lseek(given, 0, SEEK_SET) != 0)
        fail("a scratch file");
    empty(wrote);
}

/* What a proved program says of its end is not kept. */
const char *try_program(char *const *program, const uint8_t *input,
                        size_t length, size_t *written)
{
    give(input, length);
    const int status = run_program(program, nowhere, 2);
    *written = read_scratch(wrote, &answer);
    if (WIFSIGNALED(status))
        *written += (size_t)sprintf(answer + *written, "(ended by signal %d)\n",
                                    WTERMSIG(status));
    else if (WEXITSTATUS(status) != 0
             && !(WEXITSTATUS(status) == 1 && is_cut_short(*written)))
        *written += (size_t)sprintf(answer + *written,
                                    "(ended with status %d)\n",
                                    WEXITSTATUS(status));
    return answer;
}

/* Takes the word that it is done, and its name, from the lines. */
static void clean_saying(const char *name)
{
    const size_t size = strlen(name);
    char *to = saying;

    for (const char *from = saying; *from != '\0';) {
        const size_t length = strcspn(from, "\n");
        const size_t line = length + (from[length] == '\n');
        if (length != 4 || memcmp(from, "done", 4) != 0) {
            const bool named = length > size + 2
                && memcmp(from, name, size) == 0
                && memcmp(from + size, ": ", 2) == 0;
            const size_t before = named ? size + 2 : 0;
            memmove(to, from + before, line - before);
            to += line - before;
        }
        from += line;
    }
    *to = '\0';
}

struct told tell_program(char *const *program, const char *name,
                         const uint8_t *input, size_t length)
{
    struct told told;

    give(input, length);
    empty(said);
    const int status = run_program(program, said, said);
    told.length = read_scratch(wrote, &answer);
    read_scratch(said, &saying);
    clean_saying(name);
    if (WIFSIGNALED(status))
        sprintf(saying, "(ended by signal %d)\n", WTERMSIG(status));
    else if (WEXITSTATUS(status) != 0 && *saying == '\0')
        sprintf(saying, "(ended with status %d)\n", WEXITSTATUS(status));
    told.wrote = answer;
    told.said = saying;
    return told;
}
