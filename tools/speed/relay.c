/* A line that takes its time: hands the standard input and output of a command on, each byte so many milliseconds later.
 *
 *     cc -O3 -o relay relay.c
 *     relay MILLISECONDS COMMAND ..     a request and its answer take twice as long more; there may be a fraction
 *
 * Each way keeps up to 8 MiB on the line, and has no limit on its rate. It ends as the command does. */
#define _GNU_SOURCE
#include <errno.h>
#include <fcntl.h>
#include <poll.h>
#include <signal.h>
#include <stdio.h>
#include <stdlib.h>
#include <string.h>
#include <sys/wait.h>
#include <time.h>
#include <unistd.h>

#define MOST (8u << 20)
#define PIECE 65536

/* Bytes on the line, and when they arrive. */
struct piece {
    struct piece *next;
    double arrives;
    size_t at, length;
    char bytes[];
};

/* One of the two ways, with its pieces in their order. */
struct way {
    int from, to, ended, open;
    size_t held;
    struct piece *first, **last;
};

static double delay;

static double now(void) {
    struct timespec time;
    clock_gettime(CLOCK_MONOTONIC, &time);
    return (double)time.tv_sec + (double)time.tv_nsec / 1e9;
}

static void begin(struct way *way, int from, int to) {
    *way = (struct way){.from = from, .to = to, .open = 1};
    way->last = &way->first;
    fcntl(to, F_SETFL, fcntl(to, F_GETFL) | O_NONBLOCK);
}

/* Takes what there is to read. */
static void take(struct way *way) {
    static char room[PIECE];
    ssize_t count = read(way->from, room, sizeof room);
    if (count < 0 && errno == EINTR) return;
    if (count <= 0) {
        way->ended = 1;
        return;
    }
    struct piece *piece = malloc(sizeof *piece + (size_t)count);
    if (!piece) exit(1);
    *piece = (struct piece){.arrives = now() + delay, .length = (size_t)count};
    memcpy(piece->bytes, room, (size_t)count);
    *way->last = piece;
    way->last = &piece->next;
    way->held += (size_t)count;
}

/* Writes what has arrived; closes the way behind its end, or where nobody reads. */
static void give(struct way *way) {
    double time = now();
    int is_read = 1;
    while (way->first && way->first->arrives <= time) {
        struct piece *piece = way->first;
        ssize_t count = write(way->to, piece->bytes + piece->at, piece->length - piece->at);
        if (count < 0 && (errno == EAGAIN || errno == EINTR)) return;
        is_read = count >= 0;
        if (!is_read) break;
        piece->at += (size_t)count;
        way->held -= (size_t)count;
        if (piece->at < piece->length) return;
        way->first = piece->next;
        if (!way->first) way->last = &way->first;
        free(piece);
    }
    if (is_read && (way->first || !way->ended)) return;
    way->open = 0;
    close(way->to);
}

/* What is waited for; `reads` gets the place of the way's input, or -1. Gives the seconds until something arrives, or `least`. */
static double ask(struct way *way, struct pollfd *polls, int *count, int *reads, double least) {
    *reads = -1;
    if (!way->open) return least;
    if (!way->ended && way->held < MOST) {
        *reads = *count;
        polls[(*count)++] = (struct pollfd){way->from, POLLIN, 0};
    }
    if (!way->first) return least;
    double left = way->first->arrives - now();
    if (left <= 0) polls[(*count)++] = (struct pollfd){way->to, POLLOUT, 0};
    return left > 0 && (least < 0 || left < least) ? left : least;
}

static void hand_on(struct way *ways) {
    while (ways[1].open) {
        struct pollfd polls[4];
        int count = 0, reads[2];
        double left = -1;
        for (int k = 0; k < 2; k++) left = ask(&ways[k], polls, &count, &reads[k], left);
        struct timespec wait = {.tv_sec = (time_t)left, .tv_nsec = (long)((left - (double)(time_t)left) * 1e9)};
        if (ppoll(polls, (nfds_t)count, left < 0 ? NULL : &wait, NULL) < 0 && errno != EINTR) exit(1);
        for (int k = 0; k < 2; k++) {
            if (reads[k] >= 0 && polls[reads[k]].revents) take(&ways[k]);
            if (ways[k].open) give(&ways[k]);
        }
    }
}

int main(int argc, char **argv) {
    int in[2], out[2], status;
    if (argc < 3) return 2;
    delay = atof(argv[1]) / 1e3;
    if (pipe(in) || pipe(out)) return 1;
    pid_t child = fork();
    if (child == 0) {
        dup2(in[0], 0);
        dup2(out[1], 1);
        close(in[0]), close(in[1]), close(out[0]), close(out[1]);
        execvp(argv[2], argv + 2);
        _exit(127);
    }
    close(in[0]), close(out[1]);
    signal(SIGPIPE, SIG_IGN);
    struct way ways[2];
    begin(&ways[0], 0, in[1]);
    begin(&ways[1], out[0], 1);
    hand_on(ways);
    if (ways[0].open) close(in[1]);
    waitpid(child, &status, 0);
    return WIFEXITED(status) ? WEXITSTATUS(status) : 1;
}
