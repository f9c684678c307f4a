/* Running a command. Its input is a temporary file, so that it need not be read; its output is a pipe. */
#include "process.h"

#include <errno.h>
#include <fcntl.h>
#include <poll.h>
#include <signal.h>
#include <string.h>
#include <sys/wait.h>
#include <time.h>
#include <unistd.h>

/* The process group of the command, 0 if none runs: it ends with the tool. */
static volatile sig_atomic_t running;

static void stop(int number) {
    if (running > 0) kill(-running, SIGKILL);
    signal(number, SIG_DFL);
    raise(number);
}

static void stop_at(int number) {
    if (signal(number, stop) == SIG_IGN) signal(number, SIG_IGN);
}

static uint64_t now(void) {
    struct timespec time;
    clock_gettime(CLOCK_MONOTONIC, &time);
    return (uint64_t)time.tv_sec * 1000 + (uint64_t)time.tv_nsec / 1000000;
}

static int left_until(uint64_t deadline) {
    uint64_t time = now();
    return time < deadline ? (int)(deadline - time) : 0;
}

/* A descriptor that a command does not inherit by itself. */
static int own(int descriptor) {
    if (descriptor < 0 || fcntl(descriptor, F_SETFD, FD_CLOEXEC) < 0) fail("try: %s", strerror(errno));
    return descriptor;
}

/* The temporary file, with the input in it, at its start. */
static int input_file(contents input) {
    static FILE *file;
    if (file == NULL && (file = tmpfile()) == NULL) fail("temporary file: %s", strerror(errno));
    int descriptor = own(fileno(file));
    size_t written = 0;
    ssize_t more = 0;
    if (lseek(descriptor, 0, SEEK_SET) < 0 || ftruncate(descriptor, 0) < 0) fail("temporary file: %s", strerror(errno));
    for (; written < input.length && more >= 0; written += (size_t)more) more = write(descriptor, input.bytes + written, input.length - written);
    if (more < 0 || lseek(descriptor, 0, SEEK_SET) < 0) fail("temporary file: %s", strerror(errno));
    return descriptor;
}

static pid_t start(const char *command, int input, int output) {
    pid_t process = fork();
    if (process < 0) fail("try: %s", strerror(errno));
    if (process > 0) {
        setpgid(process, process);
        return process;
    }
    setpgid(0, 0);
    if (dup2(input, 0) >= 0 && dup2(output, 1) >= 0) execl("/bin/sh", "sh", "-c", command, (char *)NULL);
    _exit(127);
}

/* Reads until the output is closed, is too long, or time is up. */
static void read_output(int from, size_t most, uint64_t deadline, outcome *done) {
    struct pollfd output = {from, POLLIN, 0};
    while (done->output.length <= most) {
        int ready = poll(&output, 1, left_until(deadline));
        if (ready < 0 && errno == EINTR) continue;
        if (ready <= 0) {
            done->end = HUNG;
            return;
        }
        ssize_t more = read(from, done->output.bytes + done->output.length, most + 1 - done->output.length);
        if (more <= 0) return;
        done->output.length += (size_t)more;
    }
    done->end = WROTE_TOO_MUCH;
}

/* Waits for the end of a process that closed its output; then nothing of its group is left. */
static void end_process(pid_t process, uint64_t deadline, outcome *done) {
    const struct timespec moment = {0, 100000};
    siginfo_t ended = {0};
    while (done->end == ENDED && waitid(P_PID, (id_t)process, &ended, WEXITED | WNOHANG | WNOWAIT) == 0 && ended.si_pid == 0) {
        if (left_until(deadline) == 0) done->end = HUNG;
        nanosleep(&moment, NULL);
    }
    kill(-process, SIGKILL);
    running = 0;
    waitpid(process, &done->status, 0);
}

outcome run_process(const char *command, contents input, size_t most, uint64_t limit) {
    outcome done = {{need(most + 1), 0}, ENDED, 0, 0, 0};
    int ends[2], file = input_file(input);
    uint64_t started = now();
    if (pipe(ends) < 0) fail("try: %s", strerror(errno));
    stop_at(SIGINT);
    stop_at(SIGTERM);
    running = start(command, file, own(ends[1]));
    close(ends[1]);
    read_output(own(ends[0]), most, started + limit, &done);
    end_process(running, started + limit, &done);
    close(ends[0]);
    off_t at = lseek(file, 0, SEEK_CUR);
    done.unread = at < 0 || (uint64_t)at > input.length ? 0 : input.length - (size_t)at;
    done.milliseconds = now() - started;
    return done;
}
