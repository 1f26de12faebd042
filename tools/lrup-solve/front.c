// The front: all of lrup-solve that is trusted. It runs two verified programs on the user's formula,
// the checkers, and prints what the exit status of one of them says.
//
//     front --+-- supervisor -- lrup-engines -- engines, filters, solvers, and what they leave
//             +-- lrupd checks proofs meanwhile
//             +-- lrup-model checks a model, once the others have ended
//
// No other process can bring about a wrong answer. The front opens the formula before it starts
// anything, and gives that open file to both checkers, or a sealed copy of what a program of the
// user's unpacked. The model is a file in memory: the front writes and seals it, has lrup-model
// check it, and then prints it if it has nothing but values. The front starts lrup-model once, and
// lrupd once more only in place of one that it has killed itself, without that one's output. It
// collects each exit status through a pidfd, opened while only the front can wait for that child.
// Process ids are never compared, and orphans go to the supervisor. Only a checker's own exit
// status and last line set `verdict`, in one place. No other process gets the front's standard
// output. From lrup-engines the front prints only comments, in ASCII. Lines on which this rests are
// marked `trusted`; others can at worst prevent an answer. Other processes mustn't trace the front
// or a checker, replace a checker, or write to the formula's file or the user's output
// (docs/SECURITY.md). Of the files that the front includes, options.def is a list of option names,
// and packers.h one of programs that unpack files.
//
// The front reads all words of its command line, and refuses wrong ones, before it starts anything.
// lrup-engines gets the same words, and checks values that only it uses. It also gets a line for
// each child that has ended, and one for a signal. It sends blocks of BLOCK bytes, each a line that
// is padded with zeros:
//
//     check STREAMS LINES ROOM TRIES PID FILE    start lrupd; the streams are in the folder that
//                                                process PID has open as FILE
//     v SIGNS      + or - for each of the next variables
//     model        the model is whole
//     c WORDS      a comment
//     refused      standard error says what can't be used: without an answer, the status is 1
//     busy         after the verdict, the file of --core or --lrat is still being made
//     over         kill lrupd, which isn't needed any more. The front says `over` once it has ended
//                  without a verdict: a proof may be begun again, with another `check`
#define _GNU_SOURCE
#include <assert.h>
#include <err.h>
#include <errno.h>
#include <fcntl.h>
#include <getopt.h>
#include <libgen.h>
#include <limits.h>
#include <poll.h>
#include <stdarg.h>
#include <stdbool.h>
#include <stdio.h>
#include <stdlib.h>
#include <string.h>
#include <sys/mman.h>
#include <sys/pidfd.h>
#include <sys/prctl.h>
#include <sys/signalfd.h>
#include <sys/stat.h>
#include <sys/wait.h>
#include <time.h>
#include <unistd.h>
#include "../lib/packers.h"
#include "supervisor.h"
#include "with_cadical.h"

enum { BLOCK = 4096, MOST_STREAMS = 64, MOST_SIZE = 1 << 28, MOST_TRIES = 1000000 };
enum { MOST_VARIABLES = 16777215, VALUES_ON_A_LINE = 10 };  // of the model
enum { SEALS = F_SEAL_WRITE | F_SEAL_GROW | F_SEAL_SHRINK | F_SEAL_SEAL };
enum { UNSATISFIABLE = 0, UNKNOWN = 3, UNDER_ASSUMPTIONS = 8, SATISFIES = 10 };  // of checkers
enum { GRACE = 8000, ENDING_TIME = 14000 };                                      // milliseconds
enum which { SUPERVISOR, LRUPD, LRUP_MODEL, CHILDREN };
// Codes of words, for getopt_long(), which options.def names. OTHER: only lrup-engines reads that
// option.
enum {
    FORMULA = 1,
    ASSUME,
    CORE_OR_LRAT,
    ENGINES_PATH,
    EXPECT,
    LRUPD_PATH,
    MPI,
    TIME,
    SHOW_VERSION,
    SHOW_HELP = 'h',
    OTHER = 'j',
    QUIET = 'q',
    VERBOSE = 'v',
    CODES
};

static const char HELP[] =
#include "lrup-solve.help.h"
    ;
static const char HELP_OF_CHECK[] =
#include "lrup-check.help.h"
    ;

// What was given last, by its code: "" for an option without a value, NULL if it wasn't given.
static const char *given[CODES];
static bool is_check;    // lrup-check: words after FORMULA are proofs
static int files_given;  // FORMULA and proofs

static struct child {
    const char *name;
    int handle;  // -1: it isn't running
    int output;  // in memory, so that a full disk can't prevent an answer
    pid_t pid;   // 0: it hasn't been started
    siginfo_t end;
} children[CHILDREN] = { { .name = "supervisor", .handle = -1 },
                         { .name = "lrupd", .handle = -1 },
                         { .name = "lrup-model", .handle = -1 } };
// All answers but UNKNOWN.
static const struct verdict {
    const char *name;  // for --expect
    enum which checker;
    int exit_status;   // the checker's, which lrup-check ends with, too
    const char *line;  // the checker's last one, which is printed
    int status;        // of lrup-solve
} verdicts[] = {
    { "unsat", LRUPD, UNSATISFIABLE, "s UNSATISFIABLE", 20 },
    { "unsat-under-assumptions", LRUPD, UNDER_ASSUMPTIONS, "s UNSATISFIABLE UNDER ASSUMPTIONS",
      20 },
    { "sat", LRUP_MODEL, SATISFIES, "s SATISFIABLE", 10 },
};
enum { VERDICTS = sizeof verdicts / sizeof *verdicts };
static const struct verdict *expected, *verdict;  // NULL: none; what --expect names
static bool is_solving = true;
static long deadline, run_ends;  // by now(); of what is being done, and of --time
static const char *proc_self, *lrupd, *lrup_model, *formula, *assume;  // paths
static FILE *model;                 // in memory: lines with a literal for each of the variables
static const char *checked_lines;   // of the model, once lrup-model has accepted them; NULL before
static long values;                 // how many these are
static bool is_whole, has_refused;  // the model; lrup-engines
static bool is_over;                // lrupd was killed for lrup-engines
static int ended_by;                // a signal; 0: none
static int dev_null, signals_held;  // files
static int to_engines[2], from_engines[2];  // pipes: the end to read, the end to write
static sigset_t mask_before;

static char *text(const char *format, ...) {
    char *made;
    va_list words;
    va_start(words, format);
    if (vasprintf(&made, format, words) < 0) err(1, "no memory");
    va_end(words);
    return made;
}

// A word in a message: in quotes if a shell would need them, and with '?' for control characters.
// Of these U+0080 to U+009F have two bytes, or just the second in other encodings than UTF-8.
static const char *shown(const char *word) {
    static const char plain[] = "abcdefghijklmnopqrstuvwxyzABCDEFGHIJKLMNOPQRSTUVWXYZ0123456789"
                                "-_./+=,:@%";
    bool is_plain = *word != 0 && word[strspn(word, plain)] == 0;
    char *made = text(is_plain ? "%s" : "'%s'", word);
    char *end = made;
    for (const char *at = made; *at != 0; at++) {
        unsigned char byte = (unsigned char)*at;
        unsigned char before = at > made ? (unsigned char)at[-1] : 0;
        bool is_c1 = byte >= 128 && byte < 160 && (before < 128 || before == 0xc2);
        if (is_c1 && before == 0xc2) end--;
        *end++ = byte < ' ' || byte == 127 || is_c1 ? '?' : *at;
    }
    *end = 0;
    return made;
}

static void take_file(const char *word) {
    if (given[FORMULA] != NULL && !is_check) errx(1, "unexpected argument: %s", shown(word));
    if (given[FORMULA] == NULL) given[FORMULA] = word;  // trusted (file)
    files_given++;
}

// Reads all words, and refuses those that no option and no file can be. lrup-check passes --check
// as the first word. Option names can't be abbreviated. A value that begins with -- has to be in
// the option's word, after =, so that an option whose value is missing doesn't take the next one.
static void read_words(int count, char **words) {
    static const struct option list[] = {
#define FLAG(place, name, code, alone) { name, 0, NULL, code },
#define VALUE(place, name, code, alone) { name, 1, NULL, code },
#define VALUES VALUE
#include "options.def"
        { NULL, 0, NULL, 0 },
    };
    static char name_of_check[] = "lrup-check";
    is_check = count > 1 && strcmp(words[1], "--check") == 0;
    if (is_check) program_invocation_short_name = name_of_check;  // in messages
    if (is_check) optind = 2;
    opterr = 0;
    int code;
    int at = optind;  // of the word that is read
    int index = -1;   // in the list; -1: not an option that begins with --
    while ((code = getopt_long(count, words, "-:j:qvh", list, &index)) != -1) {
        const char *name = index < 0 ? text("-%c", code) : text("--%s", list[index].name);
        bool is_abbreviated = index >= 0 && strcspn(words[at], "=") < strlen(name);
        bool is_next = optarg != NULL && optarg == words[at + 1];
        if (code == ':' || (is_next && strncmp(optarg, "--", 2) == 0))
            errx(1, "no value after %s", shown(words[at]));  // trusted (no value)
        bool is_like_time =
            strncmp(words[at], "--time", 6) == 0 || strncmp(words[at], "-t", 2) == 0;
        const char *hint = is_like_time ? "did you mean --time?" : "--help lists them";
        if (code == '?' || is_abbreviated)
            errx(1, "no such option: %s (%s)", shown(words[at]), hint);  // trusted (name)
        if (code == FORMULA)
            take_file(optarg);  // trusted (word)
        else if (optarg != NULL && *optarg == 0)
            errx(1, "%s takes a value, not ''", name);  // trusted (empty)
        else
            given[code] = optarg ? optarg : "";  // trusted (options)
        at = optind;
        index = -1;
    }
    while (optind < count) take_file(words[optind++]);  // trusted (after --)
}

// Prints the help, or the version, in place of an answer.
static void show(void) {
    if (given[EXPECT]) errx(1, "--expect, but nothing is solved");  // trusted (help)
    if (given[SHOW_HELP])
        printf("%s", is_check ? HELP_OF_CHECK : HELP);
    else
        puts(is_check ? "lrup-check " VERSION : "lrup-solve " VERSION WITH_CADICAL);
    // a help that is longer than the buffer fails before its end is flushed
    if (fflush(stdout) != 0 || ferror(stdout)) err(1, "cannot write to standard output");
    exit(is_check ? 2 : 0);  // for lrup-check 0 would be a proof
}

static void read_expect(const char *word) {
    for (size_t k = 0; k < VERDICTS; k++)
        if (strcmp(word, verdicts[k].name) == 0) expected = &verdicts[k];
    if (is_check && expected != NULL && expected->checker == LRUP_MODEL) expected = NULL;
    const char *names =
        is_check ? "unsat or unsat-under-assumptions" : "sat, unsat or unsat-under-assumptions";
    if (expected == NULL) errx(1, "--expect takes %s, not %s", names, shown(word));
}

// The milliseconds of --time; more than a run can last, if it isn't given or very long.
static long read_time(const char *word) {
    const double longest = 1e9;
    if (word == NULL) return (long)(1000 * longest);
    char *end;
    double seconds = strtod(word, &end);
    bool is_number = strspn(word, "0123456789.") == strlen(word) && *end == 0;
    if (!is_number || !(seconds > 0)) errx(1, "--time takes seconds above 0, not %s", shown(word));
    return (long)(1000 * (seconds < longest ? seconds : longest));
}

static bool is_program(const char *path) {
    struct stat found;
    return stat(path, &found) == 0 && S_ISREG(found.st_mode) && access(path, X_OK) == 0;
}

static const char *beside_this(const char *name) {
    char *path = realpath("/proc/self/exe", NULL);
    if (path == NULL) return NULL;  // trusted (current folder): none of its programs
    const char *found = text("%s/%s", dirname(path), name);
    return is_program(found) ? found : NULL;
}

// Sets `found` if there is such a program.
static void find_on_the_path(const char *name, const char **found) {
    const char *list = getenv("PATH");
    char *rest = text("%s", list ? list : "");
    char *folder;
    while (*found == NULL && (folder = strsep(&rest, ":")) != NULL) {
        if (folder[0] != '/') continue;  // trusted (PATH): skips relative and empty elements
        const char *path = text("%s/%s", folder, name);
        if (is_program(path)) *found = path;
    }
}

// The program that the user has named, or else the one that is installed with lrup-solve.
static const char *find_program(const char *named, const char *name) {
    const char *word = named ? named : beside_this(name);
    if (word == NULL) word = beside_this(text("../libexec/lrupd/%s", name));
    if (word == NULL) word = name;
    const char *found = NULL;
    if (strchr(word, '/') != NULL)
        found = word;  // a mere name isn't in the current folder
    else
        find_on_the_path(word, &found);
    if (found != NULL && is_program(found)) return found;
    errx(1, "no %s that can be run: %s", name, named ? named : "none beside lrup-solve or on PATH");
}

// A name of the open file that works in all processes, even once its path leads to another file.
static const char *name_of(int file) { return text("%s/fd/%d", proc_self, file); }

// A sealed copy of what can't be read twice. lrupd accepts at most 2^28 literals and clauses. Each
// needs at most ten bytes here, a sign, eight digits and a blank, unless there are more blanks or
// comments. lrupd has no limit of bytes.
static int copied(int file, const char *name) {
    static char bytes[1 << 16];
    int copy = memfd_create("lrup-solve", MFD_ALLOW_SEALING | MFD_CLOEXEC);
    long left = 10L << 28;
    ssize_t count;
    while ((count = read(file, bytes, sizeof bytes)) > 0 && (left -= count) >= 0)
        if (write(copy, bytes, (size_t)count) != count) err(1, "cannot copy %s", name);
    if (left < 0)
        errx(1, "%s: more than 2684354560 bytes, which lrup-solve doesn't copy: give a file", name);
    if (count < 0) err(1, "cannot read %s", name);
    if (fcntl(copy, F_ADD_SEALS, SEALS) != 0) err(1, "cannot seal %s", name);  // trusted (copy)
    return copy;
}

// The program that unpacks a file with this name; NULL: none.
static const char *unpacker_of(const char *path) {
    const char *ending = strrchr(path, '.');
    for (size_t k = 0; ending != NULL && k < PACKED_FORMS; k++)
        if (strcmp(ending, PACKED[k].ending) == 0) return PACKED[k].program;
    return NULL;
}

// A sealed copy of what the user's program writes when it unpacks the file. The answer is about
// these bytes.
static int unpacked(int file, const char *path, const char *program) {
    const char *found = NULL;
    int ends[2];
    int status;
    find_on_the_path(program, &found);
    if (found == NULL) errx(1, "%s: no %s on the PATH", shown(path), program);
    if (pipe2(ends, O_CLOEXEC) != 0) err(1, "cannot make a pipe");
    const char *const words[] = { program, "-dcq", NULL };
    pid_t parent = getpid();
    pid_t child = fork();
    if (child < 0) err(1, "cannot start %s", program);
    if (child == 0) {
        if (prctl(PR_SET_PDEATHSIG, SIGKILL) != 0 || getppid() != parent) _exit(127);
        signal(SIGPIPE, SIG_DFL);
        packers_forget_options();
        if (dup2(file, 0) == 0 && dup2(ends[1], 1) == 1) execv(found, (char **)words);
        _exit(127);
    }
    if (close(ends[1]) != 0) err(1, "cannot close a pipe");  // or reading it never ends
    int copy = copied(ends[0], shown(path));
    bool is_right = waitpid(child, &status, 0) == child && status == 0;
    if (!is_right) errx(1, "%s: %s can't unpack it", shown(path), program);  // trusted (unpacked)
    return copy;
}

// If a path can't be opened, lrup-engines says why, by the number of the error.
static const char *open_input(const char *path) {
    struct stat found;
    bool is_standard = strcmp(path, "-") == 0;
    int file = is_standard ? STDIN_FILENO : open(path, O_RDONLY | O_CLOEXEC);
    if (file < 0 || fstat(file, &found) != 0) return name_of(-errno);
    const char *program = unpacker_of(path);
    if (program != NULL && !S_ISDIR(found.st_mode)) return name_of(unpacked(file, path, program));
    bool is_read_again = S_ISREG(found.st_mode) || S_ISDIR(found.st_mode);
    return name_of(is_read_again && !is_standard ? file : copied(file, shown(path)));
}

static long now(void) {
    struct timespec time;
    clock_gettime(CLOCK_MONOTONIC, &time);
    return time.tv_sec * 1000 + time.tv_nsec / 1000000;
}

static long least(long one, long other) { return one < other ? one : other; }

static void stop_solving_within(long milliseconds) {
    if (is_solving) deadline = least(deadline, now() + milliseconds);
}

static bool is_running(enum which which) { return children[which].handle >= 0; }

// Signals only a child that hasn't been waited for: no other process can have its id yet.
static void signal_group(enum which which, int number) {
    if (is_running(which)) kill(-children[which].pid, number);
}

// Starts a child, in a process group of its own. It gets a signal if the front ends first.
static void start(enum which which, const char *const *words, int in, int out, int error) {
    assert(children[which].pid == 0);
    pid_t parent = getpid();
    pid_t pid = fork();
    if (pid < 0) err(1, "cannot start %s", words[0]);
    if (pid == 0) {
        int number = which == SUPERVISOR ? SIGTERM : SIGKILL;
        if (prctl(PR_SET_PDEATHSIG, number) != 0 || getppid() != parent) _exit(127);
        if (setpgid(0, 0) != 0 || dup2(in, 0) < 0 || dup2(error, 2) < 0) _exit(127);
        if (dup2(out, 1) < 0) _exit(127);  // trusted (output): not the front's
        if (which == SUPERVISOR) supervise(words, &mask_before, from_engines[1], given[MPI]);
        signal(SIGPIPE, SIG_DFL);
        sigprocmask(SIG_SETMASK, &mask_before, NULL);
        execv(words[0], (char **)words);  // execvp() would have a shell run an empty file
        err(127, "cannot start %s", words[0]);
    }
    setpgid(pid, pid);  // here too, since its group may be signalled at once
    children[which].pid = pid;
    children[which].handle = pidfd_open(pid, 0);
    if (children[which].handle < 0) err(1, "cannot watch %s", words[0]);
}

struct request {
    unsigned long streams, lines, room, tries, pid, file;
};

// An option and its value are one word, so that no value can be taken for the formula.
static void start_lrupd(const struct request *request) {
    const char *folder = text("/proc/%lu/fd/%lu", request->pid, request->file);
    int output = children[LRUPD].output;
    const char *words[MOST_STREAMS + 16] = { lrupd };
    size_t count = 1;
    words[count++] = text("--tries=%lu", request->tries);
    words[count++] = text("--lines=%lu", request->lines);
    words[count++] = text("--room=%lu", request->room);
    if (assume) words[count++] = text("--assume=%s", assume);
    words[count++] = text("--rounds=%s", folder);
    if (given[VERBOSE]) words[count++] = "--watch";
    words[count++] = formula;  // trusted (formula): before the streams
    for (unsigned long k = 1; k <= request->streams; k++)
        words[count++] = text("%s/round-1.stream-%lu", folder, k);
    if (lseek(output, 0, SEEK_SET) != 0) err(1, "cannot begin lrupd's output again");
    if (ftruncate(output, 0) != 0) err(1, "cannot empty lrupd's output");  // trusted (emptied)
    start(LRUPD, words, dev_null, output, output);
}

// lrup-engines doesn't need this lrupd any more, and may request another one.
static void end_lrupd(void) {
    is_over = is_running(LRUPD);
    signal_group(LRUPD, SIGKILL);
}

// Reads a blank and a number within this range, and moves behind both.
static bool read_number(const char **line, unsigned long least, unsigned long most,
                        unsigned long *number) {
    const char *digits = *line + 1;
    char *end;
    if (**line != ' ' || *digits < '0' || *digits > '9') return false;
    errno = 0;
    *number = strtoul(digits, &end, 10);
    *line = end;
    return errno == 0 && least <= *number && *number <= most;
}

// Only numbers within their ranges reach lrupd's command line. Any other request, or one for an
// lrupd beside or after another one that `over` didn't end, ends the run.
static void handle_request(const char *words) {
    struct request request;
    bool is_right = read_number(&words, 1, MOST_STREAMS, &request.streams) &&
                    read_number(&words, 0, MOST_SIZE, &request.lines) &&
                    read_number(&words, 0, MOST_SIZE, &request.room) &&
                    read_number(&words, 0, MOST_TRIES, &request.tries) &&
                    read_number(&words, 1, INT_MAX, &request.pid) &&
                    read_number(&words, 0, INT_MAX, &request.file) && *words == 0;
    if (is_right && children[LRUPD].pid == 0)
        start_lrupd(&request);
    else
        stop_solving_within(0);
}

static void add_value(long literal) {
    if (values % VALUES_ON_A_LINE == 0) fputs(values == 0 ? "v" : "\nv", model);
    fprintf(model, " %ld", literal);
    values++;
}

static void take_signs(const char *signs) {
    for (; *signs != 0 && values < MOST_VARIABLES; signs++)
        add_value(*signs == '+' ? values + 1 : -values - 1);
}

// A line in ASCII, short enough for a pipe to take it whole. It is left out if it would block.
static void print_comment(const char *words) {
    struct pollfd output = { STDOUT_FILENO, POLLOUT, 0 };
    char line[BLOCK] = "c ";
    strncat(line, words, BLOCK - sizeof "c ");
    for (char *at = line; *at != 0; at++)
        if (*at < ' ' || *at > '~') *at = '?';  // trusted (one line)
    if (!given[QUIET] && !has_refused && poll(&output, 1, 0) > 0) puts(line);
    fflush(stdout);
}

// Reads a line of lrup-engines; false if there is none.
static bool read_line(void) {
    char line[BLOCK + 1] = "";
    if (read(from_engines[0], line, BLOCK) <= 0) return false;
    if (strncmp(line, "check", 5) == 0) handle_request(line + 5);
    if (strncmp(line, "v ", 2) == 0 && !is_whole) take_signs(line + 2);
    if (strcmp(line, "model") == 0) is_whole = !is_check;  // lrup-check takes none
    if (strncmp(line, "c ", 2) == 0) print_comment(line + 2);
    if (strcmp(line, "refused") == 0) has_refused = true;
    if (strcmp(line, "over") == 0) end_lrupd();
    if (strcmp(line, "busy") == 0 && verdict && given[CORE_OR_LRAT] && !ended_by)
        deadline = least(run_ends, now()) + GRACE;
    return true;
}

static bool exited_with(enum which which, int status) {
    if (children[which].end.si_code != CLD_EXITED) return false;  // trusted (signal): no exit
    if (children[which].end.si_status != status) return false;    // trusted (status)
    return true;
}

// The only place that sets the verdict.
static void set_verdict(const struct verdict *found) {
    char bytes[64] = "";
    size_t length = strlen(found->line) + 1;  // with its line feed
    int output = children[found->checker].output;
    off_t at = lseek(output, 0, SEEK_END) - (off_t)length;
    if (pread(output, bytes, length, at) < 0) return;
    if (!exited_with(found->checker, found->exit_status)) return;  // trusted (exit)
    if (strcmp(bytes, text("%s\n", found->line)) != 0) return;     // trusted (last line): its own
    if (found->exit_status == UNDER_ASSUMPTIONS && assume == NULL) return;
    assert(verdict == NULL);
    verdict = found;
}

// Says why lrup-model hasn't accepted the model.
static void explain_model(void) {
    const siginfo_t *end = &children[LRUP_MODEL].end;
    char said[BLOCK] = "";
    if (pread(children[LRUP_MODEL].output, said, BLOCK - 1, 0) < 0) return;
    said[strcspn(said, "\n")] = 0;
    const char *why = strncmp(said, "c ", 2) == 0 ? said + 2 : said;
    if (end->si_code == CLD_EXITED)
        print_comment(text("lrup-model ended with status %d: %s", end->si_status, why));
    else
        print_comment(text("lrup-model ended by a signal: %s", strsignal(end->si_status)));
}

// Called once the child's handle says that it has ended.
static void collect_end(enum which which) {
    struct child *child = &children[which];
    signal_group(which, SIGKILL);  // whatever it leaves in its group
    if (waitid(P_PIDFD, (id_t)child->handle, &child->end, WEXITED | WNOHANG) != 0)
        err(1, "cannot collect the end of %s", child->name);
    if (child->end.si_pid == 0) {  // another process still traces it: looks again soon
        usleep(100000);
        return;
    }
    close(child->handle);
    child->handle = -1;
    for (size_t k = 0; k < VERDICTS; k++)
        if (verdicts[k].checker == which) set_verdict(&verdicts[k]);
    if (which == LRUP_MODEL && verdict == NULL) explain_model();
    bool may_be_next = which == LRUPD && is_over && verdict == NULL;  // another lrupd
    if (may_be_next) child->pid = 0;
    if (may_be_next) is_over = false;
    if (which == LRUPD && !may_be_next) stop_solving_within(GRACE);
    dprintf(to_engines[1], "%s %d %d\n", may_be_next ? "over" : child->name, child->end.si_code,
            child->end.si_status);
}

static void handle_signal(void) {
    struct signalfd_siginfo found;
    if (read(signals_held, &found, sizeof found) != sizeof found) return;
    if (found.ssi_signo == SIGTSTP) {
        signal_group(SUPERVISOR, SIGSTOP);  // lrupd then waits for streams
        raise(SIGSTOP);
        signal_group(SUPERVISOR, SIGCONT);
    }
    if (found.ssi_signo != SIGTSTP && ended_by != 0) stop_solving_within(0);  // a second signal
    if (found.ssi_signo == SIGTSTP || ended_by != 0) return;
    ended_by = (int)found.ssi_signo;
    stop_solving_within(GRACE);
    dprintf(to_engines[1], "signal ended by a signal: %s\n", strsignal(ended_by));
}

static void await_event(void) {
    struct pollfd files[] = {
        { children[SUPERVISOR].handle, POLLIN, 0 },       { children[LRUPD].handle, POLLIN, 0 },
        { children[LRUP_MODEL].handle, POLLIN, 0 },       { signals_held, POLLIN, 0 },
        { is_solving ? from_engines[0] : -1, POLLIN, 0 }, { is_solving ? STDOUT_FILENO : -1, 0, 0 }
    };
    long left = least(deadline - now(), 60000);
    int ready = poll(files, CHILDREN + 3, left > 0 ? (int)left : 0);
    if (ready < 0 && errno != EINTR) err(1, "cannot wait");
    if (ready <= 0) return;
    if (files[CHILDREN].revents != 0) handle_signal();
    if (files[CHILDREN + 1].revents != 0) read_line();
    if (files[CHILDREN + 2].revents != 0) stop_solving_within(0);  // nobody can read the answer
    for (int which = 0; which < CHILDREN; which++)
        if (files[which].revents != 0) collect_end((enum which)which);
}

// Ends when lrup-engines has ended, or has a model.
static void solve(void) {
    deadline = run_ends + GRACE;  // lrup-engines ends by itself before then
    while (is_running(SUPERVISOR) && !is_whole && now() < deadline) await_event();
    for (int k = 0; k < 1000 && read_line(); k++) {}  // not for ever
    if (is_running(SUPERVISOR) && verdict && given[CORE_OR_LRAT])
        print_comment("the file of --core or --lrat is missing: lrup-engines is late");
    if (is_running(SUPERVISOR) && !verdict && !is_whole)
        print_comment("no answer: lrup-engines is late");
    is_solving = false;
}

static void end_engines(void) {
    if (is_running(SUPERVISOR)) kill(children[SUPERVISOR].pid, SIGTERM);
    signal_group(SUPERVISOR, SIGCONT);
    signal_group(LRUPD, SIGKILL);  // it writes to the folder that is removed now
    deadline = now() + ENDING_TIME;
    while ((is_running(SUPERVISOR) || is_running(LRUPD)) && now() < deadline) await_event();
    signal_group(SUPERVISOR, SIGKILL);
}

// Has lrup-model check the model, which nobody can change from then on.
static void check_model(void) {
    int file = fileno(model);
    int output = children[LRUP_MODEL].output;
    const char *name = name_of(file);
    const char *words[] = { lrup_model, formula, name, NULL };
    const char *with_assume[] = { lrup_model, "--assume", assume, formula, name, NULL };
    add_value(0);
    fputs("\n", model);
    if (fflush(model) != 0 || ferror(model)) err(1, "cannot keep the model");
    if (fcntl(file, F_ADD_SEALS, SEALS) != 0) err(1, "cannot seal the model");  // trusted (seal)
    start(LRUP_MODEL, assume ? with_assume : words, dev_null, output, output);
    deadline = run_ends + GRACE;
    while (is_running(LRUP_MODEL) && !ended_by && now() < deadline) await_event();
    if (is_running(LRUP_MODEL))
        print_comment("the run ended before lrup-model had checked the model");
    signal_group(LRUP_MODEL, SIGKILL);
}

// Reads the lines that lrup-model has checked. Before they were sealed, another process may have
// written others, which lrup-model would accept if they begin with c or s.
static void read_checked_lines(void) {
    ssize_t size = lseek(fileno(model), 0, SEEK_END);
    char *lines = size < 0 ? NULL : calloc((size_t)size + 1, 1);
    bool is_read = lines != NULL && pread(fileno(model), lines, (size_t)size, 0) == size;
    if (!is_read) err(1, "cannot read the model");
    bool is_model = strspn(lines, "v -0123456789\n") == (size_t)size;
    if (!is_model) errx(1, "another process has changed the model");  // trusted (lines)
    checked_lines = lines;
}

// Prints the answer, and returns the status. If there is an answer, the status is the answer's,
// whatever else lrup-engines couldn't do.
static int answer(void) {
    const char *line = verdict ? verdict->line : "s UNKNOWN";
    bool has_model = verdict != NULL && verdict->checker == LRUP_MODEL;
    bool is_expected = verdict != NULL && verdict == expected;
    if (has_model) read_checked_lines();
    sigprocmask(SIG_SETMASK, &mask_before, NULL);  // signals may end a long write
    if (verdict || !has_refused) puts(line);
    if (has_model) fputs(checked_lines, stdout);  // trusted (values)
    bool is_printed = fflush(stdout) == 0 && !ferror(stdout);
    if (!is_printed && errno == EPIPE) {  // nobody reads: ends as other programs do
        signal(SIGPIPE, SIG_DFL);
        raise(SIGPIPE);
    }
    if (!is_printed) err(1, "cannot write the answer");  // trusted (end)
    if (ended_by != 0) raise(ended_by);
    if (has_refused && !verdict) return 1;
    if (given[EXPECT] && !is_expected)
        warnx("--expect %s, but the answer is %s", given[EXPECT], line);
    if (given[EXPECT]) return is_expected ? 0 : 1;  // trusted (expected)
    // lrup-check ends as its checker does, so that only a proved formula gives 0.
    if (is_check) return verdict ? verdict->exit_status : UNKNOWN;  // trusted (unproved)
    return verdict ? verdict->status : 0;
}

// From now on these signals are read as they come, unless the caller ignores them, as nohup does.
static void hold_signals(void) {
    static const int numbers[] = { SIGINT, SIGQUIT, SIGTERM, SIGHUP, SIGTSTP };
    sigset_t held;
    sigemptyset(&held);
    for (size_t k = 0; k < sizeof numbers / sizeof *numbers; k++)
        if (signal(numbers[k], SIG_DFL) == SIG_IGN)
            signal(numbers[k], SIG_IGN);
        else
            sigaddset(&held, numbers[k]);
    sigprocmask(SIG_BLOCK, &held, &mask_before);
    signals_held = signalfd(-1, &held, SFD_CLOEXEC | SFD_NONBLOCK);
    signal(SIGXFSZ, SIG_IGN);
    signal(SIGPIPE, SIG_IGN);
}

int main(int count, char **words) {
    if (getenv("LRUP_FRONT")) errx(1, "started by another lrup-solve");  // or it might never end
    while ((dev_null = open("/dev/null", O_RDONLY)) >= 0 && dev_null <= 2) {}  // opens 0 to 2
    read_words(count, words);                                                  // trusted (words)
    if (given[SHOW_HELP] || given[SHOW_VERSION]) show();
    if (is_check && files_given < 2) errx(1, "no proof: lrup-check FORMULA PROOF");
    if (given[EXPECT]) read_expect(given[EXPECT]);
    long time = read_time(given[TIME]);
    words[0] = (char *)find_program(given[ENGINES_PATH], "lrup-engines");
    lrupd = find_program(given[LRUPD_PATH], "lrupd");
    lrup_model = find_program(NULL, "lrup-model");
    signal(SIGCHLD, SIG_DFL);                  // if ignored, the system would reap children
    proc_self = realpath("/proc/self", NULL);  // this /proc may belong to another namespace
    if (proc_self == NULL || dev_null < 0) err(1, "cannot open /proc/self or /dev/null");
    formula = open_input(given[FORMULA] ? given[FORMULA] : "-");
    if (given[ASSUME]) assume = open_input(given[ASSUME]);  // trusted (assume)
    hold_signals();
    children[LRUPD].output = memfd_create("output", MFD_CLOEXEC);
    children[LRUP_MODEL].output = memfd_create("output", MFD_CLOEXEC);
    model = fdopen(memfd_create("model", MFD_ALLOW_SEALING | MFD_CLOEXEC), "w");
    if (model == NULL) err(1, "cannot make a file in memory");
    if (pipe2(to_engines, O_CLOEXEC | O_NONBLOCK) != 0) err(1, "cannot make a pipe");
    if (pipe2(from_engines, O_CLOEXEC | O_NONBLOCK) != 0) err(1, "cannot make a pipe");
    if (signals_held < 0) err(1, "cannot hold signals");
    const char *files = text("%d %d %d %s %s %s", to_engines[0], from_engines[1],
                             children[LRUPD].output, formula, assume ? assume : "-", lrupd);
    if (setenv("LRUP_FRONT", files, 1) != 0) err(1, "no memory");
    run_ends = now() + time;
    start(SUPERVISOR, (const char *const *)words, STDIN_FILENO, dev_null, STDERR_FILENO);
    solve();
    end_engines();
    if (is_whole && !verdict) check_model();
    return answer();  // trusted (answer)
}
