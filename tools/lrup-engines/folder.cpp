// Unverified, like the whole solver. The run's temporary folder, for FIFOs and checkpoints, and the
// process that removes it however the run ends.
#include <cerrno>
#include <csignal>
#include <cstdlib>

#include <dirent.h>
#include <fcntl.h>
#include <sys/prctl.h>
#include <sys/random.h>
#include <sys/stat.h>
#include <sys/statvfs.h>
#include <sys/wait.h>
#include <unistd.h>

#include "folder.h"
#include "solve.h"

namespace {

std::string path, last_name;       // last_name: without the parent folder
int place = -1, folder_file = -1;  // the parent folder; the folder itself
Pipe life;                         // closed when this process ends
pid_t cleaner = 0;

// In the first process or the cleaner's, like the next three. Removes everything in the folder, or
// only files, using only descriptors, since a name may lead to another file by now. Closes `file`.
void remove_within(int file, bool removes_folders) {
    DIR *list = file < 0 ? nullptr : fdopendir(file);
    while (const dirent *entry = list ? readdir(list) : nullptr) {
        const std::string name = entry->d_name;
        if (name == "." || name == ".." || unlinkat(file, name.c_str(), 0) == 0) continue;
        if (!removes_folders) continue;
        remove_within(openat(file, name.c_str(), O_RDONLY | O_DIRECTORY | O_NOFOLLOW | O_CLOEXEC),
                      true);
        unlinkat(file, name.c_str(), AT_REMOVEDIR);
    }
    if (list) closedir(list);
}

// Whether the folder's name still names this folder.
bool is_named(int file) {
    struct stat ours, found;
    return fstat(file, &ours) == 0 &&
           fstatat(place, last_name.c_str(), &found, AT_SYMLINK_NOFOLLOW) == 0 &&
           ours.st_dev == found.st_dev && ours.st_ino == found.st_ino;
}

int open_folder() {
    return openat(place, last_name.c_str(), O_PATH | O_DIRECTORY | O_NOFOLLOW | O_CLOEXEC);
}

// Tries again if lrupd, which may still run, has put a file there meanwhile.
void remove_folder() {
    for (int tries = 0; tries < 100; tries++) {
        remove_within(openat(folder_file, ".", O_RDONLY | O_DIRECTORY | O_CLOEXEC), true);
        if (!is_named(folder_file)) return;
        if (unlinkat(place, last_name.c_str(), AT_REMOVEDIR) == 0 || errno != ENOTEMPTY) return;
    }
}

// In the cleaner's process. The front waits for the cleaner. Nothing is put into the folder until
// the cleaner knows which folder it is.
[[noreturn]] void become_cleaner() {
    struct stat made, found;
    close_all_but({ life.read, place });
    prctl(PR_SET_NAME, "cleaner");
    bool is_told = read(life.read, &made, sizeof made) == sizeof made;
    if (is_told) folder_file = open_folder();
    bool is_ours = fstat(folder_file, &found) == 0 && found.st_dev == made.st_dev &&
                   found.st_ino == made.st_ino;
    while (is_told && read(life.read, &made, sizeof made) != 0) {}
    if (is_ours) remove_folder();
    if (!is_told) unlinkat(place, last_name.c_str(), AT_REMOVEDIR);
    _exit(0);
}

// Call before the folder is made, so that the folder is removed however this process ends.
void start_cleaner() {
    sigset_t all, before;
    life = make_pipe(0);
    sigfillset(&all);
    sigprocmask(SIG_BLOCK, &all, &before);  // signals that end the others don't end the cleaner
    cleaner = fork();
    if (cleaner == 0) become_cleaner();
    if (cleaner < 0) refuse("cannot start a process: " + error_text());
    setpgid(cleaner, cleaner);  // here, since the front may kill this process's group at any time
    sigprocmask(SIG_SETMASK, &before, nullptr);
    close_file(life.read);
}

void end_cleaner() {
    kill(cleaner, SIGKILL);
    while (waitpid(cleaner, nullptr, 0) < 0 && errno == EINTR) {}
    close_file(life.write);
    cleaner = 0;
}

}  // namespace

// Returns the cause if the folder can't be made.
std::string Folder::make_if_possible() {
    if (cleaner > 0) return "";
    const char *given = getenv("TMPDIR");
    const std::string within = given && *given ? given : "/tmp";
    uint64_t number;
    struct stat made;
    place = kept_open(open(within.c_str(), O_PATH | O_DIRECTORY | O_CLOEXEC));
    if (place >= 0 && others_may_write(place))
        return within + ": others may write there: choose another TMPDIR";
    if (place < 0 || getrandom(&number, sizeof number, 0) != sizeof number)
        return "cannot make a folder " + within + "/lrup-solve-XXXXXX: " + error_text();
    last_name = "lrup-solve-" + std::to_string(number);
    path = within + "/" + last_name;
    start_cleaner();
    if (mkdirat(place, last_name.c_str(), 0700) != 0) {
        std::string cause = error_text();
        end_cleaner();
        return "cannot make a folder " + path + ": " + cause;
    }
    folder_file = kept_open(open_folder());
    signal(SIGPIPE, SIG_IGN);
    // a cleaner that was killed isn't needed unless this process is killed, too
    bool is_kept = fstat(folder_file, &made) == 0 &&
                   (write(life.write, &made, sizeof made) == sizeof made || errno == EPIPE);
    std::string cause = error_text();
    if (is_kept) return "";
    unlinkat(place, last_name.c_str(), AT_REMOVEDIR);
    end_cleaner();
    return "cannot open " + path + ": " + cause;
}

void Folder::make() {
    std::string cause = make_if_possible();
    if (!cause.empty()) refuse(cause);
}

const std::string &Folder::name() { return path; }

std::string Folder::numbers() {
    return std::to_string(getpid()) + " " + std::to_string(folder_file);
}

std::string Folder::open_name() { return name_of_file(folder_file); }

std::string Folder::room() {
    struct statvfs found;
    uint64_t left = fstatvfs(place, &found) == 0 ? uint64_t(found.f_bavail) * found.f_frsize : 0;
    std::string within = quoted(path.substr(0, path.rfind('/')));
    return "TMPDIR (" + within + ") has " + std::to_string(left / 1000000) + " MB left";
}

// Removes the pipes to an lrupd that has ended, and what it has saved.
void Folder::clear() {
    remove_within(openat(folder_file, ".", O_RDONLY | O_DIRECTORY | O_CLOEXEC), false);
}

// This process removes the folder itself, since the cleaner may be stopped.
void Folder::remove() {
    if (cleaner <= 0) return;
    remove_folder();
    end_cleaner();
}
