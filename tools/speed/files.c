/* How long the calls of a put or a get take over folders, by C that does nothing else: FOLDERS folders of FILES files of BYTES bytes.
 *
 *     cc -O3 -o files files.c
 *     files make FOLDER FOLDERS FILES BYTES     makes, writes and reads each file
 *     files keep FOLDER FOLDERS FILES BYTES     writes, syncs and renames each file
 *     files store FOLDER FOLDERS FILES BYTES    does both, as hail stores a block
 *     files fetch FOLDER FOLDERS FILES BYTES    looks at, opens and reads each file, as hail fetches a block; they are there
 *
 * It tells 'WHAT in N ns' on standard error. */
#include <fcntl.h>
#include <stdint.h>
#include <stdio.h>
#include <stdlib.h>
#include <string.h>
#include <sys/stat.h>
#include <time.h>
#include <unistd.h>

#include "calls.h"

enum { LONGEST = 2048, PATH = 4096 };

static uint8_t bytes[LONGEST], back[LONGEST + 1];
static int size;

/* Makes a file, which is not there, and writes it. */
static void write_new(const char *path, int syncs)
{
    int file = open(path, O_WRONLY | O_CREAT | O_EXCL | O_CLOEXEC, 0600);
    expect(file >= 0 && write(file, bytes, (size_t)size) == size);
    expect(!syncs || fsync(file) == 0);
    expect(close(file) == 0);
}

/* Opens a file and reads it to its end. */
static void read_whole(const char *path)
{
    int file = open(path, O_RDONLY | O_CLOEXEC);
    expect(file >= 0 && read(file, back, (size_t)size + 1) == size && read(file, back + size, 1) == 0);
    expect(close(file) == 0 && memcmp(bytes, back, (size_t)size) == 0);
}

/* Looks at a file, opens it and reads it. */
static void fetch(const char *path)
{
    struct stat look;
    expect(lstat(path, &look) == 0 && S_ISREG(look.st_mode) && look.st_size == size);
    int file = open(path, O_RDONLY | O_CLOEXEC);
    expect(file >= 0 && read(file, back, (size_t)size) == size && close(file) == 0);
}

static void one(const char *what, const char *folder, int k, int file)
{
    char path[PATH], new_path[PATH];
    snprintf(path, PATH, "%s/%d/1-%d", folder, k, file);
    if (strcmp(what, "fetch") == 0) {
        fetch(path);
        return;
    }
    if (strcmp(what, "make") == 0) {
        write_new(path, 0);
        read_whole(path);
        return;
    }
    snprintf(new_path, PATH, "%s/%d/new", folder, k);
    write_new(new_path, 1);
    expect(rename(new_path, path) == 0);
    if (strcmp(what, "store") == 0) read_whole(path);
}

int main(int count, char **words)
{
    if (count != 6) return 2;
    int folders = atoi(words[3]), files = atoi(words[4]);
    size = atoi(words[5]);
    if (folders < 1 || files < 1 || size < 1 || size > LONGEST) return 2;
    for (int k = 0; k < size; k++) bytes[k] = (uint8_t)(k * 167 + (k >> 8));
    for (int k = 0; k < folders; k++) {
        char path[PATH];
        snprintf(path, PATH, "%s/%d", words[2], k);
        mkdir(path, 0700);
    }
    double start = now();
    for (int file = 0; file < files; file++)
        for (int k = 0; k < folders; k++) one(words[1], words[2], k, file);
    fprintf(stderr, "%s in %.0f ns\n", words[1], now() - start);
    return 0;
}
