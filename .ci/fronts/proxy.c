/* Stands between bin/ksv-shell and the program, as crates/ksv_cli/out/ksv_cli of a copied tree: it passes lines and replies, and at the n-th event after
   it was armed does what a plan of the control file says. Events are the begin of a process, each line, and begin and end of a process that saves. */
#define _GNU_SOURCE
#include <fcntl.h>
#include <signal.h>
#include <stdint.h>
#include <stdio.h>
#include <stdlib.h>
#include <string.h>
#include <sys/mman.h>
#include <sys/prctl.h>
#include <sys/stat.h>
#include <sys/wait.h>
#include <unistd.h>

enum { SIGNALS = 64, DIED = 100, HALF, NO_MEMORY, TWICE };
struct plan { uint32_t at, kind, delay; };
struct control { uint32_t is_armed, count, fired, dump, begun, second, num; struct plan plans[8]; };

static struct control *control;
static pid_t shell;
static FILE *to, *from;
static char *line, *reply;
static size_t line_room, reply_room;
static ssize_t line_length, reply_length;

/* What is planned for the next event, apart from what is done at once: a signal to the shell, a second one a while later. */
static uint32_t event(void) {
    if (!control || !control->is_armed) return 0;
    uint32_t number = __sync_add_and_fetch(&control->count, 1), kind = 0;
    for (uint32_t it = 0; it < control->num && it < 8; it++) {
        struct plan *plan = &control->plans[it];
        if (plan->at != number) continue;
        kind = plan->kind;
        __sync_add_and_fetch(&control->fired, 1);
        if (kind < SIGNALS) kill(shell, (int)kind);
        if (kind == TWICE) {
            kill(shell, SIGINT);
            if (!fork()) {
                setsid();
                for (int end = 0; end < 256; end++) close(end);
                usleep(plan->delay);
                kill(shell, SIGINT);
                control->second = 1;
                _exit(0);
            }
        }
    }
    if (kind == DIED) raise(SIGKILL);
    return kind;
}

/* Begins the program, which ends when this process does. */
static pid_t begun(char **words, int in, int out, int other_in, int other_out) {
    pid_t self = getpid(), child = fork();
    if (child) return child;
    prctl(PR_SET_PDEATHSIG, SIGKILL);
    if (getppid() != self) _exit(1);
    if (in >= 0) dup2(in, 0), dup2(out, 1), close(in), close(out), close(other_in), close(other_out);
    words[0] = getenv("KSV_REAL");
    execv(words[0], words);
    _exit(127);
}

/* Ends as the program did. */
static void end_as(pid_t child) {
    int status = 0;
    waitpid(child, &status, 0);
    if (WIFSIGNALED(status)) raise(WTERMSIG(status));
    _exit(WEXITSTATUS(status));
}

static int asked(const char *text, size_t length) {
    if (fwrite(text, 1, length, to) != length || fflush(to)) return 0;
    return (reply_length = getline(&reply, &reply_room, from)) > 0;
}

/* Writes the bytes that the program has to a file, as they are told. */
static void dump(void) {
    char text[64];
    FILE *file = fopen(getenv("KSV_DUMP"), "w");
    unsigned long size = asked("size\n", 5) ? strtoul(reply + 5, 0, 10) : 0;
    for (unsigned long at = 0; at < size; at += 4096) {
        int length = sprintf(text, "bytes %lu %lu\n", at, size - at < 4096 ? size - at : 4096);
        if (asked(text, (size_t)length)) fputs(reply + 4, file);
    }
    fclose(file);
    control->dump = 0;
}

static void saving(char **words) {
    if (event() == NO_MEMORY) fputs("ksv: OUT: cannot write\n", stderr), _exit(3);
    pid_t child = begun(words, -1, -1, -1, -1);
    siginfo_t info;
    waitid(P_PID, (id_t)child, &info, WEXITED | WNOWAIT);
    event();
    end_as(child);
}

static void passing(pid_t child) {
    while ((line_length = getline(&line, &line_room, stdin)) > 0 && line[line_length - 1] == '\n') {
        if (control && control->dump) dump();
        uint32_t kind = event();
        const char *told = "error: no memory\n";
        size_t length = strlen(told);
        if (kind != NO_MEMORY) {
            if (!asked(line, (size_t)line_length)) break;
            told = reply, length = (size_t)reply_length;
        }
        if (kind == HALF) length = length / 2;
        for (size_t at = 0; at < length;) {
            ssize_t count = write(1, told + at, length - at);
            if (count <= 0) break;
            at += (size_t)count;
        }
        if (kind == HALF) raise(SIGKILL);
    }
    fclose(to);
    end_as(child);
}

int main(int count, char **words) {
    int in[2], out[2], number = getenv("KSV_CONTROL") ? open(getenv("KSV_CONTROL"), O_RDWR | O_CLOEXEC) : -1;
    void *map = number < 0 ? MAP_FAILED : mmap(0, 4096, PROT_READ | PROT_WRITE, MAP_SHARED, number, 0);
    control = map == MAP_FAILED ? 0 : map;
    shell = getppid();
    struct stat input;
    int is_silent = !fstat(0, &input) && S_ISCHR(input.st_mode);
    for (int it = 1; it < count; it++)
        if (is_silent && !strncmp(words[it], "--save", 6)) saving(words);
    if (event() == NO_MEMORY) fputs("ksv: no memory\n", stderr), _exit(1);
    if (pipe2(in, O_CLOEXEC) || pipe2(out, O_CLOEXEC)) _exit(126);
    pid_t child = begun(words, in[0], out[1], in[1], out[0]);
    close(in[0]), close(out[1]);
    to = fdopen(in[1], "w"), from = fdopen(out[0], "r");
    if (control) __sync_add_and_fetch(&control->begun, 1);
    signal(SIGPIPE, SIG_IGN);
    passing(child);
}
