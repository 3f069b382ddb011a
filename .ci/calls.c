/* Tells the calls to the system of a program that it is loaded into, and does something at one of them.

   Each call is told by a line on the descriptor KSV_TELL: its name, and the descriptor or the path that it is for. At the call of the number KSV_AT
   (of those named KSV_NAME, or of all) it does what KSV_DO says, before the call: `kill` ends the program, `fail` lets the call fail by the error
   KSV_ERROR, and `wait` waits for a byte on the descriptor KSV_GO. Of the names that the program makes up, the first KSV_SAME are the same one. */
typedef unsigned long size;
enum { KILL = 9 };
extern void *dlsym(void *from, const char *name);
extern char *getenv(const char *name);
extern int raise(int signal), *__errno_location(void);

#define NEXT(name) ((__typeof__(&name))dlsym((void *)-1L, #name))

long read(int file, void *bytes, size count);
long write(int file, const void *bytes, size count);

static int number_in(const char *name, int otherwise) {
    const char *at = getenv(name);
    int number = 0;
    if (!at || !*at) return otherwise;
    for (; *at; at++) number = number * 10 + *at - '0';
    return number;
}

static size length(const char *text) {
    size count = 0;
    while (text[count]) count++;
    return count;
}

static int is_same(const char *one, const char *other) {
    while (*one && *one == *other) one++, other++;
    return *one == *other;
}

static void say(const char *text) { NEXT(write)(number_in("KSV_TELL", 2), text, length(text)); }

/* Whether a call of this name, for this path, is to fail. */
static int fails(const char *name, const char *path) {
    static int count;
    const char *only = getenv("KSV_NAME"), *what = getenv("KSV_DO");
    char byte;
    if (!getenv("KSV_TELL")) return 0;
    say(name), say(" "), say(path), say("\n");
    if ((only && *only && !is_same(only, name)) || ++count != number_in("KSV_AT", 0)) return 0;
    if (is_same(what, "kill")) raise(KILL);
    if (is_same(what, "wait")) return NEXT(read)(number_in("KSV_GO", 0), &byte, 1) < 0;
    return *__errno_location() = number_in("KSV_ERROR", 5), is_same(what, "fail");
}

/* The same, for a descriptor. */
static int fails_at(const char *name, int file) {
    char text[] = {(char)('0' + file / 10 % 10), (char)('0' + file % 10), 0};
    return fails(name, text);
}

int open(const char *path, int flags, unsigned mode) { return fails("open", path) ? -1 : NEXT(open)(path, flags, mode); }
int close(int file) { return fails_at("close", file) ? -1 : NEXT(close)(file); }
long read(int file, void *bytes, size count) { return fails_at("read", file) ? -1 : NEXT(read)(file, bytes, count); }
long write(int file, const void *bytes, size count) { return fails_at("write", file) ? -1 : NEXT(write)(file, bytes, count); }
int fsync(int file) { return fails_at("fsync", file) ? -1 : NEXT(fsync)(file); }
int fchown(int file, unsigned owner, unsigned group) { return fails_at("fchown", file) ? -1 : NEXT(fchown)(file, owner, group); }
int fchmod(int file, unsigned mode) { return fails_at("fchmod", file) ? -1 : NEXT(fchmod)(file, mode); }
int chown(const char *path, unsigned owner, unsigned group) { return fails("chown", path) ? -1 : NEXT(chown)(path, owner, group); }
int chmod(const char *path, unsigned mode) { return fails("chmod", path) ? -1 : NEXT(chmod)(path, mode); }
int rename(const char *from, const char *to) { return fails("rename", from) ? -1 : NEXT(rename)(from, to); }
int unlink(const char *path) { return fails("unlink", path) ? -1 : NEXT(unlink)(path); }
long readlink(const char *path, char *bytes, size count) { return fails("readlink", path) ? -1 : NEXT(readlink)(path, bytes, count); }
char *realpath(const char *path, char *room) { return fails("realpath", path) ? 0 : NEXT(realpath)(path, room); }
int statx(int folder, const char *path, int flags, unsigned mask, void *room) { return fails("statx", path) ? -1 : NEXT(statx)(folder, path, flags, mask, room); }

int getentropy(void *room, size count) {
    static int made;
    if (fails("getentropy", "")) return -1;
    if (++made > number_in("KSV_SAME", 0)) return NEXT(getentropy)(room, count);
    for (size at = 0; at < count; at++) ((char *)room)[at] = 0;
    return 0;
}
