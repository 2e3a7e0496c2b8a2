/* stickerpeck NAME [ARGS]: all programs in one file, with the exit statuses of `run`.
 *
 * The programs are the proved ones: the objects that the kit links to what `run` starts, with their `main` under another name (programs.h,
 * which `build` makes), and over musl in the place of glibc. This front is not proved. It hands out the arguments, and reads the status off the answer, since a program cannot set its own: 0
 * answered, 1 refused or stopped, 2 for all else, which is a bad call, a bad file, and an answer that was not written whole. It keeps a few
 * bytes of the line that is written, and no more: `desk` may run for months. */
#include <errno.h>
#include <fcntl.h>
#include <signal.h>
#include <stddef.h>
#include <string.h>
#include <sys/stat.h>
#include <sys/syscall.h>
#include <sys/types.h>
#include <unistd.h>

struct program {
    const char *name;
    int (*start)(void);
    int saved; /* which of its words names the file that it saves; 0 for none */
    const char *usage;
};

#include "programs.h"

/* ---- the arguments, in the place of the kit's own functions, which C libraries other than glibc do not tell them to. A program asks for
 * them one by one, by the number, until there is none. */

static size_t count;
static char **words;

size_t rattle_arg_count(void) {
    return count;
}

/* The length; -1 where there is no such argument; -2 where it does not fit, and then the buffer is full. */
ssize_t rattle_arg(size_t i, unsigned char *buffer, size_t room) {
    if (i >= count)
        return -1;
    size_t length = strlen(words[i]);
    size_t held = length < room ? length : room;
    memcpy(buffer, words[i], held);
    return length <= room ? (ssize_t)length : -2;
}

/* ---- what goes to standard output, and the first bytes of its last line */

enum { KEPT = 16 };
static char line[KEPT + 1], last[KEPT + 1];
static size_t held;
static int open_line;
static char other_end = '\n';

static void follow(const char *bytes, size_t n) {
    for (size_t i = 0; i < n; i++) {
        if (bytes[i] == '\n' || bytes[i] == other_end) {
            if (held != 0)
                memcpy(last, line, sizeof last);
            memset(line, 0, sizeof line);
            held = 0;
        } else if (held < KEPT) {
            line[held++] = bytes[i];
        }
        open_line = bytes[i] != '\n';
    }
}

ssize_t __real_write(int to, const void *bytes, size_t n);

/* A program that cannot say what it found has not answered: it ends here, with 2. */
ssize_t __wrap_write(int to, const void *bytes, size_t n) {
    ssize_t done = __real_write(to, bytes, n);
    if (to == 1) {
        if (done < 0 && errno != EINTR)
            _exit(2);
        if (done > 0)
            follow(bytes, (size_t)done);
    }
    return done;
}

/* glibc's other name for it, by which a program says that the processor lacks what it needs. */
ssize_t __write(int to, const void *bytes, size_t n) {
    return __wrap_write(to, bytes, n);
}

/* ---- what the processor can do, which a program asks of glibc as it starts: it is compiled for x86-64-v2. Number 0 stands for cpuid's leaf 1,
 * 2 for its leaf 80000001. What is asked of either is of use wherever the processor has it. */

struct feature_leaf {
    unsigned found[4];
    unsigned of_use[4];
};

const struct feature_leaf *__x86_get_cpuid_feature_leaf(unsigned number) {
    static struct feature_leaf told[3];
    static const unsigned leaves[] = {1, 7, 0x80000001};
    static const struct feature_leaf none;
    if (number >= sizeof leaves / sizeof *leaves)
        return &none;
    unsigned *found = told[number].found;
    __asm__("cpuid" : "=a"(found[0]), "=b"(found[1]), "=c"(found[2]), "=d"(found[3]) : "a"(leaves[number]), "c"(0));
    memcpy(told[number].of_use, found, sizeof told[number].of_use);
    return &told[number];
}

/* ---- what is asked of a file by its name, which Debian's musl does not have yet: the system's own call */

int statx(int folder, const char *path, int flags, unsigned mask, void *to) {
    return (int)syscall(SYS_statx, folder, path, flags, mask, to);
}

static int starts(const char *word) {
    size_t n = strlen(word);
    return strncmp(last, word, n) == 0 && (last[n] == ' ' || last[n] == ':' || last[n] == '\t' || last[n] == 0);
}

static int status(void) {
    if (open_line)
        return 2;
    for (size_t i = 0; answered[i]; i++)
        if (starts(answered[i]))
            return 0;
    for (size_t i = 0; refused[i]; i++)
        if (starts(refused[i]))
            return 1;
    return 2;
}

/* ---- the call */

static void say(int to, const char *text) {
    size_t n = strlen(text);
    while (n > 0) {
        ssize_t done = __real_write(to, text, n);
        if (done < 0 && errno != EINTR)
            _exit(2);
        if (done > 0) {
            text += done;
            n -= (size_t)done;
        }
    }
}

/* Ended from outside, a program has not answered. Who told it to stay, with nohup, is heard. */
static void ended(int signal_number) {
    (void)signal_number;
    _exit(2);
}

static void take_signals(void) {
    const int taken[] = {SIGHUP, SIGINT, SIGTERM};
    for (size_t i = 0; i < sizeof taken / sizeof *taken; i++)
        if (signal(taken[i], ended) == SIG_IGN)
            signal(taken[i], SIG_IGN);
    signal(SIGPIPE, SIG_IGN);
}

/* A closed input takes a place that cannot be read, so that no file gets its number; nothing is run for nobody. */
static void keep_streams(void) {
    if (fcntl(0, F_GETFD) < 0)
        open("/dev/null", O_WRONLY);
    if (fcntl(2, F_GETFD) < 0 && fcntl(1, F_GETFD) >= 0)
        open("/dev/null", O_WRONLY);
    if (fcntl(1, F_GETFD) < 0) {
        say(2, "stickerpeck: standard output is closed\n");
        _exit(2);
    }
}

/* A file that gives way keeps its mode. A program cannot ask for it, and makes the new file with what the mask leaves: so the mask is what
 * the old file's mode leaves out. No new file is marked as a program; that mark is put back at the end. */

static const char *saved;
static mode_t mode;

static size_t is_option(size_t i) {
    return i < count && (strcmp(words[i], "--words") == 0 || strcmp(words[i], "--text") == 0);
}

/* Behind --words and --text, in the place of a book, the words stand one further back. joining has two books. */
static size_t shift_of(const struct program *program) {
    size_t first = is_option(1);
    if (strcmp(program->name, "joining") == 0)
        return first + is_option(2 + first);
    return first;
}

static void mask_for(const struct program *program) {
    struct stat there;
    size_t at = (size_t)program->saved;
    if (at != 0)
        at += shift_of(program);
    if (at == 0 || at >= count || stat(words[at], &there) != 0 || !S_ISREG(there.st_mode))
        return;
    saved = words[at];
    mode = there.st_mode & 07777;
    umask(0777 & ~mode);
}

static int keep_mode(int ended) {
    struct stat there;
    if (!saved || ended != 0)
        return ended;
    if (stat(saved, &there) == 0 && ((there.st_mode & 07777) == mode || chmod(saved, mode) == 0))
        return 0;
    say(2, "stickerpeck: the file that was saved has not kept its mode\n");
    return 2;
}

static int help(const struct program *program) {
    if (program) {
        say(1, program->usage);
        return 0;
    }
    say(1, "stickerpeck NAME [ARGS]\n\n");
    for (size_t i = 0; programs[i].name; i++)
        say(1, programs[i].usage);
    say(1, "\nstickerpeck NAME --help tells of one program, stickerpeck --version of this file.\n"
           "Exit status: 0 answered; 1 refused or stopped; 2 bad call, bad file, or the answer could not be written.\n");
    return 0;
}

static int is_help(const char *word) {
    return strcmp(word, "--help") == 0 || strcmp(word, "-h") == 0;
}

int main(int argc, char **argv) {
    keep_streams();
    take_signals();
    if (argc < 2) {
        say(2, "stickerpeck: a program's name is missing; stickerpeck --help lists them\n");
        return 2;
    }
    if (is_help(argv[1]) || strcmp(argv[1], "help") == 0)
        return help(NULL);
    if (strcmp(argv[1], "--version") == 0) {
        say(1, VERSION_LINE);
        return 0;
    }
    const struct program *program = programs;
    while (program->name && strcmp(program->name, argv[1]) != 0)
        program++;
    if (!program->name) {
        say(2, "stickerpeck: there is no such program; stickerpeck --help lists them\n");
        return 2;
    }
    if (argc == 3 && is_help(argv[2]))
        return help(program);
    count = (size_t)argc - 1;
    words = argv + 1;
    if (strcmp(program->name, "desk") == 0)
        other_end = '|';
    mask_for(program);
    program->start();
    return keep_mode(status());
}
