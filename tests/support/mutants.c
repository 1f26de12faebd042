// The filter, forked for each mutant of test_filter_mutants.py, since with sanitizers a process
// takes longer to start than to filter a small proof. With --wrap=main, the linker puts this main
// in place of the filter's.
//
//     exact-forking SECONDS
//
// A line of standard input has words with tabs between them: the files that become the fork's
// standard input, output and error, and the filter's arguments. Once the fork has ended, a line of
// standard output has its status, or minus the number of the signal that ended it; after SECONDS,
// that is SIGALRM.
// A tool for tests, not part of the program.
#include <sanitizer/lsan_interface.h>
#include <stdio.h>
#include <stdlib.h>
#include <string.h>
#include <sys/wait.h>
#include <unistd.h>

enum { LINE = 65536, WORDS = 64 };

int __real_main(int count, char **words);
int __wrap_main(int count, char **words);

static int filter(char *line) {
    static char name[] = "lrup-exact";
    static char *words[WORDS] = { name };
    int count = 1;
    if (!freopen(strtok(line, "\t"), "r", stdin) || !freopen(strtok(NULL, "\t"), "w", stdout) ||
        !freopen(strtok(NULL, "\t"), "w", stderr))
        abort();
    for (char *word; (word = strtok(NULL, "\t\n")); words[count++] = word)
        if (count == WORDS - 1) abort();
    return __real_main(count, words);
}

int __wrap_main(int count, char **words) {
    static char line[LINE];
    __lsan_do_recoverable_leak_check();  // maps what each fork's own check will read
    while (fgets(line, sizeof line, stdin)) {
        int status;
        pid_t child = fork();
        if (child == 0) {
            alarm((unsigned)atoi(count > 1 ? words[1] : "0"));
            return filter(line);
        }
        if (child < 0 || waitpid(child, &status, 0) < 0) return 1;
        printf("%d\n", WIFSIGNALED(status) ? -WTERMSIG(status) : WEXITSTATUS(status));
        fflush(stdout);
    }
    return 0;
}
