/* The system calls of kvell alone: no index, no checks, no cache. Keys are decimal numbers, and item n has slot n.
 *
 *     loop FILE < requests > replies       requests in groups of 64 at most, which a Flush ends
 *     loop FILE.. --read PIECE             reads the files from front to end, PIECE bytes a call
 *     loop FILE.. --open PIECE             the same, once each file or folder was synced
 *
 * Of a group each page that its puts touch is read once, where the file has it, and written once, in rising order; then
 * one fdatasync, one pread for each get, and one write for all replies. */
#include <fcntl.h>
#include <stdint.h>
#include <stdio.h>
#include <stdlib.h>
#include <string.h>
#include <unistd.h>

enum { PAGE = 4096, ROOM = 132008, GROUP = 64 };

typedef struct { const unsigned char *frame; uint32_t length; uint32_t slot; } Request;
typedef struct { uint64_t page; unsigned char bytes[PAGE]; } Page;

static unsigned char buffer[GROUP * 8192], replies[GROUP * (PAGE + 16)];
static Page pages[GROUP];
static Request group[GROUP];
static int file;
static uint64_t pages_there, stamp;

static uint32_t number_at(const unsigned char *at) {
    uint32_t number;
    memcpy(&number, at, 4);
    return number;
}

static uint64_t decimal(const unsigned char *key, uint32_t length) {
    uint64_t number = 0;
    while (length--) number = number * 10 + (*key++ - '0');
    return number;
}

static uint32_t slot_size(uint32_t content) {
    uint32_t size = 64;
    while (size < content + 16) size *= 2;
    return size;
}

static int compare(const void *a, const void *b) {
    uint64_t left = ((const Page *)a)->page, right = ((const Page *)b)->page;
    return left < right ? -1 : left > right;
}

static Page *page_of(uint64_t number, int *count) {
    for (int i = 0; i < *count; i++)
        if (pages[i].page == number) return &pages[i];
    Page *page = &pages[(*count)++];
    page->page = number;
    if (number >= pages_there) memset(page->bytes, 0, PAGE);
    else if (pread(file, page->bytes, PAGE, (off_t)(number * PAGE)) != PAGE) exit(1);
    return page;
}

/* Writes the group's puts. */
static void put_all(int requests) {
    int count = 0;
    for (int i = 0; i < requests; i++) {
        const unsigned char *frame = group[i].frame;
        if (frame[0] != 1) continue;
        uint32_t key = frame[1], content = group[i].length - 2, size = slot_size(content);
        uint64_t at = decimal(frame + 2, key) * size;
        unsigned char *slot = page_of(at / PAGE, &count)->bytes + at % PAGE;
        uint32_t value = content - key;
        uint64_t drawn = stamp + i;
        memcpy(slot, &drawn, 8);
        slot[8] = 1;
        memcpy(slot + 12, &value, 4);
        memcpy(slot + 16, frame + 2, content);
    }
    if (count == 0) return;
    qsort(pages, count, sizeof(Page), compare);
    for (int i = 0; i < count; i++) {
        if (pwrite(file, pages[i].bytes, PAGE, (off_t)(pages[i].page * PAGE)) != PAGE) exit(1);
        if (pages[i].page >= pages_there) pages_there = pages[i].page + 1;
    }
    if (fdatasync(file)) exit(1);
}

/* Puts one reply behind the others; answers where it ends. */
static size_t reply(size_t end, unsigned char kind, uint64_t drawn, const unsigned char *value, uint32_t length) {
    uint32_t stated = 9 + length;
    memcpy(replies + end, &stated, 4);
    replies[end + 4] = kind;
    memcpy(replies + end + 5, &drawn, 8);
    memcpy(replies + end + 13, value, length);
    return end + 13 + length;
}

static void answer(int requests, uint32_t value_size) {
    static unsigned char page[PAGE];
    put_all(requests);
    size_t end = 0;
    for (int i = 0; i < requests; i++, stamp++) {
        const unsigned char *frame = group[i].frame;
        if (frame[0] == 1) {
            end = reply(end, 0x81, stamp, NULL, 0);
            continue;
        }
        uint32_t key = group[i].length - 1, size = slot_size(key + value_size);
        uint64_t at = decimal(frame + 1, key) * size;
        if (pread(file, page, PAGE, (off_t)(at / PAGE * PAGE)) != PAGE) exit(1);
        const unsigned char *slot = page + at % PAGE;
        end = reply(end, 0x82, stamp, slot + 16 + key, number_at(slot + 12));
    }
    if (end && write(1, replies, end) != (ssize_t)end) exit(1);
}

static int serve(const char *path) {
    file = open(path, O_RDWR | O_CREAT, 0644);
    if (file < 0) return 2;
    pages_there = (uint64_t)lseek(file, 0, SEEK_END) / PAGE;
    stamp = 1;
    size_t start = 0, end = 0, used = 0;
    uint32_t value_size = 0;
    int requests = 0;
    for (;;) {
        while (end - used >= 4 && end - used >= 4 + number_at(buffer + used)) {
            uint32_t length = number_at(buffer + used);
            const unsigned char *frame = buffer + used + 4;
            used += 4 + length;
            if (frame[0] != 5) {
                if (frame[0] == 1) value_size = length - 2 - frame[1];
                group[requests++] = (Request){frame, length, 0};
            }
            if (requests == GROUP || frame[0] == 5) {
                answer(requests, value_size);
                requests = 0;
                start = used;
            }
        }
        if (sizeof buffer - end < ROOM) {
            size_t moved = start;
            memmove(buffer, buffer + start, end - start);
            for (int i = 0; i < requests; i++) group[i].frame -= moved;
            end -= moved;
            used -= moved;
            start = 0;
        }
        size_t room = sizeof buffer - end;
        ssize_t n = read(0, buffer + end, room < ROOM ? room : ROOM);
        if (n < 0) return 1;
        if (n == 0) break;
        end += n;
    }
    answer(requests, value_size);
    return 0;
}

static int read_all(int files, char **paths, size_t piece, int synced) {
    unsigned char *bytes = malloc(piece);
    int *from = malloc(files * sizeof(int));
    uint64_t sum = 0;
    for (int i = 0; i < files; i++) {
        from[i] = open(paths[i], O_RDONLY);
        if (synced && from[i] >= 0 && fdatasync(from[i])) exit(1);
    }
    for (int i = 0; i < files; i++) {
        ssize_t n;
        off_t at = 0;
        while (from[i] >= 0 && (n = pread(from[i], bytes, piece, at)) > 0) {
            sum += bytes[0];
            at += n;
        }
    }
    return sum == UINT64_MAX;
}

int main(int argc, char **argv) {
    int reads = argc > 3 && strcmp(argv[argc - 2], "--read") == 0;
    int opens = argc > 3 && strcmp(argv[argc - 2], "--open") == 0;
    if (reads || opens) return read_all(argc - 3, argv + 1, strtoul(argv[argc - 1], NULL, 10), opens);
    return argc == 2 ? serve(argv[1]) : 2;
}
