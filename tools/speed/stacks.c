/* How long the calls of a put or a get take over stacks, by C that does nothing else: FILES folders with one file each, of BLOCKS blocks of BYTES
 * bytes, each with 8 bytes behind it and all behind 16.
 *
 *     cc -O3 -o stacks stacks.c
 *     stacks keep FOLDER FILES BLOCKS BYTES      writes each block, and syncs each file and its folder at the end
 *     stacks store FOLDER FILES BLOCKS BYTES     the same, with each block read back through another opening, and before and behind all a record of
 *                                                a journal, which is written and synced, and then its gate
 *     stacks fetch FOLDER FILES BLOCKS BYTES     reads each block; they are there
 *
 * It tells 'WHAT in N ns' on standard error. */
#include <fcntl.h>
#include <stdint.h>
#include <stdio.h>
#include <stdlib.h>
#include <string.h>
#include <sys/stat.h>
#include <time.h>
#include <unistd.h>

#include "calls.h"

enum { LONGEST = 2056, MOST_FILES = 16, PATH = 4096, HEADER = 16 };

static uint8_t place[LONGEST], back[LONGEST];
static int size, writers[MOST_FILES], readers[MOST_FILES];

static int opened(const char *path, int how)
{
    int file = open(path, how | O_CLOEXEC, 0600);
    expect(file >= 0);
    return file;
}

static void sync_path(const char *path)
{
    int file = opened(path, O_RDONLY);
    expect(fsync(file) == 0 && close(file) == 0);
}

/* Opens the file of each folder; makes the folders and the files where they are written. */
static void open_all(const char *folder, int files, int writes)
{
    char path[PATH];
    for (int k = 0; k < files; k++) {
        snprintf(path, PATH, "%s/%d", folder, k);
        if (writes) mkdir(path, 0700);
        snprintf(path, PATH, "%s/%d/1", folder, k);
        if (writes) {
            writers[k] = opened(path, O_WRONLY | O_CREAT | O_EXCL);
            expect(write(writers[k], "HAILstk1\0\0\0\0\0\0\0\0", HEADER) == HEADER);
        }
        readers[k] = opened(path, O_RDONLY);
    }
}

static void store(int file, int block, int reads)
{
    off_t at = HEADER + (off_t)block * size;
    memcpy(place + size - 4, &block, 4);
    expect(pwrite(writers[file], place, (size_t)size, at) == size);
    if (reads) expect(pread(readers[file], back, (size_t)size, at) == size && memcmp(place, back, (size_t)size) == 0);
}

static void fetch(int file, int block)
{
    expect(pread(readers[file], back, (size_t)size, HEADER + (off_t)block * size) == size && memcmp(back + size - 4, &block, 4) == 0);
}

static void sync_all(const char *folder, int files)
{
    char path[PATH];
    for (int k = 0; k < files; k++) {
        snprintf(path, PATH, "%s/%d", folder, k);
        expect(fsync(writers[k]) == 0);
        sync_path(path);
    }
}

/* Adds a record to the journal, and syncs it; and then its gate. */
static void record(const char *folder)
{
    char path[PATH];
    snprintf(path, PATH, "%s/journal", folder);
    int file = opened(path, O_WRONLY | O_CREAT | O_APPEND);
    expect(write(file, place, 32) == 32 && fsync(file) == 0);
    expect(write(file, place, 1) == 1 && fsync(file) == 0 && close(file) == 0);
}

int main(int count, char **words)
{
    if (count != 6) return 2;
    int files = atoi(words[3]), blocks = atoi(words[4]), keeps = strcmp(words[1], "keep") == 0, stores = strcmp(words[1], "store") == 0;
    size = atoi(words[5]) + 8;
    if (files < 1 || files > MOST_FILES || blocks < 1 || size < 9 || size > LONGEST) return 2;
    for (int k = 0; k < size; k++) place[k] = (uint8_t)(k * 167 + (k >> 8));
    double start = now();
    if (stores) record(words[2]);
    open_all(words[2], files, keeps || stores);
    for (int block = 0; block < blocks; block++)
        for (int k = 0; k < files; k++)
            if (keeps || stores) store(k, block, stores);
            else fetch(k, block);
    if (keeps || stores) sync_all(words[2], files);
    if (stores) record(words[2]);
    fprintf(stderr, "%s in %.0f ns\n", words[1], now() - start);
    return 0;
}
