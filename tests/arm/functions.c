/* The C functions that firmware/linux gives the console for Arm, each by what C and POSIX say of it. The words are `word`, an empty one, a file that may be made, and one in no folder. */
#include "system.h"

#define ROOM 96
#define MODE 0600

/* How a file is opened: to read; to write, where it is made if it isn't there, and emptied. O_NOCTTY and O_CLOEXEC go with both, as the library os has them. */
#define TO_READ 02000400
#define TO_OVERWRITE 02001501

/* Errors' numbers, and a signal's. */
#define NO_FILE 2
#define BAD_FILE 9
#define IS_FOLDER 21
#define BROKEN_PIPE 13

static int made, failed;

/* check TRUTH, WORDS: one thing that must be so; what isn't is told. */
static void check(int truth, const char *words)
{
    size_t n = 0;

    made++;
    if (truth)
        return;
    failed++;
    while (words[n] != 0)
        n++;
    write(1, "FAILED: ", 8);
    write(1, words, n);
    write(1, "\n", 1);
}

/* Bytes that tell their places. */
static void number(unsigned char *bytes)
{
    int i;

    for (i = 0; i < ROOM; i++)
        bytes[i] = (unsigned char)(3 * i + 1);
}

/* Is a room as it was numbered, but for so many bytes at `to`, which are those that stood at `from`? */
static int is_moved(const unsigned char *bytes, int to, int from, int count)
{
    unsigned char was[ROOM];
    int i;

    number(was);
    for (i = 0; i < ROOM; i++)
        if (bytes[i] != was[i >= to && i < to + count ? from + i - to : i])
            return 0;
    return 1;
}

/* Every count to 40 at every two places to 40, so the two overlap in all ways. */
static void see_moved(void)
{
    unsigned char room[ROOM], other[ROOM];
    int to, from, count, moved = 1, copied = 1, given = 1;

    number(other);
    for (to = 0; to <= 40; to++)
        for (from = 0; from <= 40; from++)
            for (count = 0; count <= 40; count++) {
                number(room);
                given &= memmove(room + to, room + from, (size_t)count) == room + to;
                moved &= is_moved(room, to, from, count);
                number(room);
                given &= memcpy(room + to, other + from, (size_t)count) == room + to;
                copied &= is_moved(room, to, from, count);
            }
    check(moved, "memmove");
    check(copied, "memcpy");
    check(given, "memmove and memcpy give where they moved to");
}

/* Is a room as it was numbered, but for so many bytes at a place? */
static int is_set(const unsigned char *bytes, int to, int count, int byte)
{
    unsigned char was[ROOM];
    int i;

    number(was);
    for (i = 0; i < ROOM; i++)
        if (bytes[i] != (i >= to && i < to + count ? (unsigned char)byte : was[i]))
            return 0;
    return 1;
}

static void see_set(void)
{
    unsigned char room[ROOM];
    int to, count, set = 1;

    for (to = 0; to <= 40; to++)
        for (count = 0; count <= 40; count++) {
            number(room);
            set &= memset(room + to, 0x1A5, (size_t)count) == room + to;
            set &= is_set(room, to, count, 0xA5);
        }
    check(set, "memset");
}

/* The first byte that differs decides, as an unsigned one. */
static void see_compared(void)
{
    unsigned char one[ROOM], other[ROOM];
    int at;

    number(one);
    number(other);
    check(memcmp(one, other, ROOM) == 0, "memcmp of the same bytes");
    for (at = 0; at < ROOM; at++) {
        one[at] = 0x80, other[at] = 0x7F;
        check(memcmp(one, other, ROOM) > 0 && memcmp(other, one, ROOM) < 0, "memcmp of bytes that differ");
        check(memcmp(one, other, (size_t)at) == 0, "memcmp up to where they differ");
        one[at] = other[at] = 0;
    }
}

static void see_words(void)
{
    unsigned char buffer[9] = "........";

    check(rattle_arg_count() == 5, "the count of the words");
    check(rattle_arg(1, buffer, 8) == 4 && memcmp(buffer, "word....", 8) == 0, "a word that is shorter than the buffer");
    check(rattle_arg(1, buffer, 4) == 4, "a word that just fits");
    check(rattle_arg(2, buffer, 8) == 0 && rattle_arg(2, buffer, 0) == 0, "an empty word");
    check(memcmp(buffer, "word....", 8) == 0, "an empty word alters nothing");
    check(rattle_arg(1, buffer + 4, 3) == -2 && memcmp(buffer, "wordwor.", 8) == 0, "a word that is too long fills the buffer");
    check(rattle_arg(5, buffer, 8) == -1 && rattle_arg((size_t)-1, buffer, 8) == -1, "a word that isn't there");
}

/* A file is made, written and read back; made again it is empty. */
static void see_files(const char *path)
{
    unsigned char bytes[9] = "........";
    int file = open(path, TO_OVERWRITE, MODE), other;

    check(file > 2, "a file is made");
    check(write(file, "abcdef", 6) == 6 && write(file, "", 0) == 0, "bytes are written");
    check(read(file, bytes, 8) == -1, "a file that is open for writing isn't read");
    other = open(path, TO_READ);
    check(other > file, "a file is opened for reading");
    check(write(other, "x", 1) == -1, "a file that is open for reading isn't written");
    check(read(other, bytes, 4) == 4 && read(other, bytes + 4, 4) == 2 && memcmp(bytes, "abcdef..", 8) == 0, "the bytes are read");
    check(read(other, bytes, 8) == 0, "a file's end");
    check(close(file) == 0 && close(file) == -1, "a file is closed once");
    check(write(file, "x", 1) == -1 && read(file, bytes, 8) == -1, "a file that is closed");
    check(close(other) == 0, "the other is closed");
    file = open(path, TO_OVERWRITE, MODE);
    check(write(file, "xy", 2) == 2 && close(file) == 0, "a file is written anew");
    file = open(path, TO_READ);
    check(read(file, bytes, 8) == 2 && memcmp(bytes, "xycdef..", 8) == 0 && close(file) == 0, "and what it had is gone");
}

/* Calls that fail answer -1, and the error's number is kept until another fails or it is set. */
static void see_failures(const char *nowhere)
{
    unsigned char byte;
    int folder = open(".", TO_READ);

    check(open(nowhere, TO_READ) == -1 && open(nowhere, TO_OVERWRITE, MODE) == -1, "a file in no folder");
    check(rattle_errno() == NO_FILE, "the error of a file in no folder");
    check(open(".", TO_OVERWRITE, MODE) == -1, "a folder isn't written");
    check(rattle_errno() == IS_FOLDER, "the error of a folder that is written");
    check(folder > 2 && read(folder, &byte, 1) == -1 && close(folder) == 0, "a folder isn't read");
    check(read(-1, &byte, 1) == -1 && write(-1, &byte, 1) == -1 && close(-1) == -1, "no file");
    check(rattle_errno() == BAD_FILE, "the error of no file");
    rattle_set_errno(22);
    check(rattle_errno() == 22, "an error that is set");
}

/* A signal that is ignored, which what was done at first tells. */
static void see_signals(void)
{
    check(__sysv_signal(BROKEN_PIPE, 1) == 0, "a signal that nothing was said of");
    check(__sysv_signal(BROKEN_PIPE, 1) == 1, "a signal that is ignored");
    check(__sysv_signal(0, 1) == (size_t)-1, "no signal");
}

/* main's three words are those that a C library would give it. Its number must be the exit status: 40 more than the failures. */
int main(int count, char **words, char **environment)
{
    check(count == 5 && words[count] == 0 && environment == words + count + 1, "main's words");
    see_moved();
    see_set();
    see_compared();
    see_words();
    see_files(words[3]);
    see_failures(words[4]);
    see_signals();
    check(made > 200, "all checks are made");
    return 40 + failed;
}
