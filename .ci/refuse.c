/* Refuses one request for memory of a program that it is loaded into, the one of the number in KSV_REFUSE, and says so by a byte on the descriptor KSV_TELL.

   Requests are counted from 1, all of them; or, where KSV_ROOM is a number, those that come after a request for exactly so many bytes, up to
   the next such request, and so on by turns. The requests for so many bytes themselves are granted. */
extern char *getenv(const char *name);
extern long write(int file, const void *bytes, unsigned long count);
extern void *__libc_malloc(unsigned long size), *__libc_calloc(unsigned long count, unsigned long size), *__libc_realloc(void *old, unsigned long size);

static unsigned long number_in(const char *name) {
    unsigned long number = 0;
    for (const char *at = getenv(name); at && *at; at++) number = number * 10 + (unsigned long)(*at - '0');
    return number;
}

static int is_refused(unsigned long size) {
    static unsigned long refused, room, count;
    static int is_read, is_counting;
    if (!is_read) refused = number_in("KSV_REFUSE"), room = number_in("KSV_ROOM"), is_read = 1, is_counting = !room;
    if (room && size == room) return is_counting = !is_counting, 0;
    return is_counting && ++count == refused && write((int)number_in("KSV_TELL"), "r", 1) == 1;
}

void *malloc(unsigned long size) { return is_refused(size) ? 0 : __libc_malloc(size); }
void *calloc(unsigned long count, unsigned long size) { return is_refused(count * size) ? 0 : __libc_calloc(count, size); }
void *realloc(void *old, unsigned long size) { return is_refused(size) ? 0 : __libc_realloc(old, size); }
