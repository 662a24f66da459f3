/* line STREAM RATE AT STALL PROGRAM WORD..: runs a program with the name of a pty for each word LINE, and sends it the stream over that pty,
   RATE bytes a second; before byte AT nothing is sent for STALL milliseconds. The line stays open until the program ends, and its status is
   the program's. */
#define _XOPEN_SOURCE 600
#include <fcntl.h>
#include <stdint.h>
#include <stdio.h>
#include <stdlib.h>
#include <string.h>
#include <sys/wait.h>
#include <termios.h>
#include <time.h>
#include <unistd.h>

enum { MOST = 1 << 20, PIECES = 200, FAILED = 3 };

static uint8_t stream[MOST];

static int fail(const char *what) {
    perror(what);
    return FAILED;
}

static void pause_ms(long ms) {
    struct timespec time = {ms / 1000, ms % 1000 * 1000000};
    nanosleep(&time, NULL);
}

/* Hands on every byte as it is, from the first: a program that sets this itself may come after it. */
static int make_raw(int terminal) {
    struct termios about;
    if (tcgetattr(terminal, &about) != 0) return 0;
    about.c_iflag = 0;
    about.c_oflag = 0;
    about.c_lflag = 0;
    about.c_cflag |= CS8 | CREAD | CLOCAL;
    return tcsetattr(terminal, TCSANOW, &about) == 0;
}

/* Starts the program with its words; its number. */
static pid_t start(char **word, char *line) {
    size_t k;
    pid_t program = fork();
    if (program != 0) return program;
    for (k = 1; word[k]; k++)
        if (strcmp(word[k], "LINE") == 0) word[k] = line;
    execv(word[0], word);
    _exit(fail(word[0]));
}

/* Sends the stream in pieces, so many a second. A program that has ended takes no more. */
static void send(int master, size_t length, size_t rate, size_t at, long stall) {
    size_t sent = 0, piece = rate / PIECES + 1;
    while (sent < length) {
        size_t part = length - sent < piece ? length - sent : piece;
        ssize_t took;
        if (sent == at) pause_ms(stall);
        if (sent < at && part > at - sent) part = at - sent;
        took = write(master, stream + sent, part);
        if (took <= 0) return;
        sent += (size_t)took;
        pause_ms(1000 / PIECES);
    }
}

int main(int words, char **word) {
    FILE *in = words > 5 ? fopen(word[1], "rb") : NULL;
    int master = posix_openpt(O_RDWR | O_NOCTTY), slave, status;
    size_t length;
    pid_t program;
    if (!in) return fprintf(stderr, "usage: line STREAM RATE AT STALL PROGRAM WORD..\n"), FAILED;
    length = fread(stream, 1, sizeof stream, in);
    fclose(in);
    if (master < 0 || grantpt(master) != 0 || unlockpt(master) != 0) return fail("pty");
    slave = open(ptsname(master), O_RDWR | O_NOCTTY);
    if (slave < 0 || !make_raw(slave)) return fail("pty");
    program = start(word + 5, ptsname(master));
    if (program < 0) return fail(word[5]);
    send(master, length, (size_t)atol(word[2]), (size_t)atol(word[3]), atol(word[4]));
    if (waitpid(program, &status, 0) < 0) return fail(word[5]);
    return WIFEXITED(status) ? WEXITSTATUS(status) : FAILED;
}
