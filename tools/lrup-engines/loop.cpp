// Unverified, like the whole solver. How a first process waits, and others for it.
#include <csignal>

#include <poll.h>
#include <sys/signalfd.h>
#include <unistd.h>

#include "loop.h"

// Event counts: one process waits for what others store in shared memory. It reads the count, looks
// for what it needs, and waits only if the count is still the same; a process that has stored
// something advances the count. Neither makes a system call if nobody has to wait. These functions
// run in any process.

uint64_t events_so_far(const EventCount *events) {
    return __atomic_load_n(&events->count, __ATOMIC_SEQ_CST);
}

// At least one side sees the other: the count advances before `waits` is read, and `waits` is set
// before the count is read.
void events_advance(EventCount *events) {
    static const uint64_t one = 1;
    __atomic_fetch_add(&events->count, 1, __ATOMIC_SEQ_CST);
    if (!__atomic_load_n(&events->waits, __ATOMIC_SEQ_CST)) return;
    if (write(events->file, &one, sizeof one) < 0) return;  // the eventfd is readable anyway
}

// False if something came after `seen`.
static bool begin_wait(EventCount *events, uint64_t seen) {
    __atomic_store_n(&events->waits, 1, __ATOMIC_SEQ_CST);
    return events_so_far(events) == seen;
}

static void end_wait(EventCount *events, bool is_readable) {
    uint64_t count;
    STORE(events->waits, 0);
    if (is_readable && read(events->file, &count, sizeof count) < 0) return;
}

bool events_await(EventCount *events, uint64_t seen, int file) {
    pollfd list[] = { { events->file, POLLIN, 0 }, { file, POLLIN, 0 } };
    bool waits = begin_wait(events, seen);
    poll(list, 2, waits ? -1 : 0);
    end_wait(events, list[0].revents != 0);
    return list[1].revents != 0;
}

// The loop.

// Ignored signals stay ignored, as under nohup.
void Loop::begin() {
    sigset_t taken;
    sigemptyset(&taken);
    struct sigaction found;
    for (int number : { SIGCHLD, SIGINT, SIGTERM, SIGHUP })
        if (sigaction(number, nullptr, &found) != 0 || found.sa_handler != SIG_IGN)
            sigaddset(&taken, number);
    sigprocmask(SIG_BLOCK, &taken, nullptr);
    signals = signalfd(-1, &taken, SFD_CLOEXEC | SFD_NONBLOCK);
    if (signals < 0) refuse("cannot wait for signals: " + error_text());
    signal(SIGPIPE, SIG_IGN);
}

void Loop::wait(EventCount &events, std::vector<pollfd> &files, double time,
                const std::vector<Child *> &children) {
    files.push_back({ events.file, POLLIN, 0 });
    files.push_back({ signals, POLLIN, 0 });
    bool waits = begin_wait(&events, seen) && !polls_only;
    poll(files.data(), files.size(), waits ? milliseconds_to(time) : 0);
    end_wait(&events, files[files.size() - 2].revents != 0);
    seen = events_so_far(&events);
    polls_only = false;
    if (files.back().revents != 0) take_signals(children);
}

void Loop::take_signals(const std::vector<Child *> &children) {
    signalfd_siginfo found;
    while (read(signals, &found, sizeof found) == sizeof found)
        if (found.ssi_signo != SIGCHLD) ended_by = int(found.ssi_signo);
    while (reap(children)) {}
}
