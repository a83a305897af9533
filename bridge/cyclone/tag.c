#include "tag.h"
#include "fault.h"

#include <errno.h>
#include <fcntl.h>
#include <inttypes.h>
#include <stdio.h>
#include <stdlib.h>
#include <string.h>
#include <sys/random.h>
#include <sys/stat.h>
#include <unistd.h>

enum { TAG_DIGITS = 16, MOST_RUNS = 64 };

// What the file holds of each run of the deployment: its tag, and which participants have had a process in it.
struct run {
    char tag[TAG_DIGITS];
    char is_taken[MOST_PARTICIPANTS];
};

// Where the file has its locks: one on each participant of each run, which its process holds, and behind these one on the whole.
enum { WHOLE = MOST_RUNS * MOST_PARTICIPANTS };

static _Noreturn void no_file(const char *path)
{
    fail(STATUS_DDS, "the tag of the run finds no place in %s (%s); give one with --tag", path, strerror(errno));
}

static void draw(char *tag)
{
    uint64_t drawn;
    if (getrandom(&drawn, sizeof drawn, 0) != sizeof drawn) {
        fail(STATUS_DDS, "no tag can be drawn");
    }
    char digits[TAG_DIGITS + 1];
    snprintf(digits, sizeof digits, "%016" PRIx64, drawn);
    memcpy(tag, digits, TAG_DIGITS);
}

// A folder that is this user's alone.
static void own_folder(char *path, size_t size)
{
    const char *parent = getenv("XDG_RUNTIME_DIR");
    int length = snprintf(path, size, "%s/run-on-cyclone-%u", parent != NULL && *parent != '\0' ? parent : "/tmp", (unsigned)getuid());
    if (length < 0 || (size_t)length >= size) {
        errno = ENAMETOOLONG;
        no_file("XDG_RUNTIME_DIR");
    }
    struct stat found;
    if ((mkdir(path, 0700) != 0 && errno != EEXIST) || lstat(path, &found) != 0) {
        no_file(path);
    }
    if (!S_ISDIR(found.st_mode) || found.st_uid != getuid() || (found.st_mode & 077) != 0) {
        errno = EPERM;
        no_file(path);
    }
}

static int open_runs(uint64_t fingerprint)
{
    char folder[512], path[544];
    own_folder(folder, sizeof folder);
    snprintf(path, sizeof path, "%s/%016" PRIx64, folder, fingerprint);
    int file = open(path, O_RDWR | O_CREAT | O_NOFOLLOW | O_CLOEXEC, 0600);
    if (file < 0) {
        no_file(path);
    }
    return file;
}

// Sets or tests locks from a place on. They end with the process.
static struct flock locked(int file, int command, short kind, off_t place, off_t length)
{
    struct flock lock = {.l_type = kind, .l_whence = SEEK_SET, .l_start = place, .l_len = length};
    if (fcntl(file, command, &lock) != 0) {
        no_file("its file");
    }
    return lock;
}

static bool is_alive(int file, int run)
{
    return locked(file, F_OFD_GETLK, F_WRLCK, run * MOST_PARTICIPANTS, MOST_PARTICIPANTS).l_type != F_UNLCK;
}

// Whether a process of the run has had one of the participants that are here.
static bool is_taken(const struct run *run, const struct deployment *lists, const bool *is_here)
{
    for (int at = 0; at < lists->participants; at++) {
        if (is_here[at] && run->is_taken[at]) {
            return true;
        }
    }
    return false;
}

static void join(int file, int number, struct run *run, const struct deployment *lists, const bool *is_here)
{
    for (int at = 0; at < lists->participants; at++) {
        if (is_here[at]) {
            run->is_taken[at] = 1;
            locked(file, F_OFD_SETLK, F_WRLCK, number * MOST_PARTICIPANTS + at, 1);
        }
    }
    if (pwrite(file, run, sizeof *run, number * (off_t)sizeof *run) != sizeof *run) {
        no_file("its file");
    }
}

// Joins the first run that has these participants still to come. The file stays open, for its locks.
static void join_some(int file, struct run *run, const struct deployment *lists, const bool *is_here)
{
    for (int number = 0; number < MOST_RUNS; number++) {
        ssize_t got = pread(file, run, sizeof *run, number * (off_t)sizeof *run);
        if (got != sizeof *run || !is_alive(file, number)) {
            *run = (struct run){.tag = ""};
            draw(run->tag);
        }
        if (!is_taken(run, lists, is_here)) {
            join(file, number, run, lists, is_here);
            return;
        }
    }
    fail(STATUS_DDS, "this deployment runs %d times already", MOST_RUNS);
}

char *drawn_tag(const struct deployment *lists, const bool *is_here)
{
    bool is_alone = true;
    for (int at = 0; at < lists->participants; at++) {
        is_alone = is_alone && is_here[at];
    }
    struct run run = {.tag = ""};
    if (is_alone) {
        draw(run.tag);
    } else {
        int file = open_runs(lists->fingerprint);
        locked(file, F_OFD_SETLKW, F_WRLCK, WHOLE, 1);
        join_some(file, &run, lists, is_here);
        locked(file, F_OFD_SETLK, F_UNLCK, WHOLE, 1);
    }
    char *tag = room(TAG_DIGITS + 1, 1);
    memcpy(tag, run.tag, TAG_DIGITS);
    return tag;
}

char *escaped_tag(const char *tag)
{
    static const char DIGITS[] = "0123456789ABCDEF";
    char *found = room(3 * strlen(tag) + 1, 1), *end = found;
    for (const unsigned char *at = (const unsigned char *)tag; *at != '\0'; at++) {
        bool is_plain = (*at >= '0' && *at <= '9') || (*at >= 'A' && *at <= 'Z') || (*at >= 'a' && *at <= 'z') || strchr("._-", *at) != NULL;
        if (is_plain) {
            *end++ = (char)*at;
        } else {
            *end++ = '%';
            *end++ = DIGITS[*at >> 4];
            *end++ = DIGITS[*at & 15];
        }
    }
    return found;
}
