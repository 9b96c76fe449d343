/* The system calls of kvell with many sessions and workers: no index, no checks, no cache. Keys are
 * decimal numbers below 2^24, all items have one size, and the folder is new.
 *
 *     mesh serve DIR N IN OUT [IN OUT ..]
 *
 * Worker w, a thread, has the file DIR/w; a session, a thread too, has a pair of paths, which are
 * opened in their order. A session reads a group of 64 requests at most, which a Flush ends, hands
 * each worker those of its keys, and writes all replies at once when all workers have answered. A
 * worker takes what sessions have handed it as one batch, with stamps from one counter: each page
 * that its puts touch is read once, where the file has it, and written once, in rising order; then
 * one fdatasync, and one pread for each get. Who finds nothing to do looks 200 times and sleeps. */
#include <fcntl.h>
#include <linux/futex.h>
#include <pthread.h>
#include <stdatomic.h>
#include <stdint.h>
#include <stdio.h>
#include <stdlib.h>
#include <string.h>
#include <sys/stat.h>
#include <sys/syscall.h>
#include <unistd.h>

enum { PAGE = 4096, ROOM = 132008, GROUP = 64, WORKERS = 16, SESSIONS = 8 };
enum { BATCH = SESSIONS * GROUP, BUCKETS = 2 * BATCH, NUMBERS = 1 << 24, LOOKS = 200 };
enum { LEFT = 1 << SESSIONS }; /* the bit of session 0 when it has ended */

/* What others have told a thread, as bits. */
typedef struct { atomic_uint told, sleeps; } Bell;

typedef struct {
    const unsigned char *frame;
    uint32_t length, found;
    uint64_t stamp;
    unsigned char value[PAGE];
} Request;

typedef struct { uint64_t number; unsigned char bytes[PAGE]; } Page;

typedef struct {
    Bell bell; /* the sessions that have handed something, or left */
    int file;
    uint64_t pages_there;
    uint32_t next_slot, slot_bytes, count, sessions_left;
    Page pages[BATCH], *order[BATCH];
    uint16_t buckets[BUCKETS];
    Request *batch[BATCH];
    uint32_t requests;
    uint32_t slots[NUMBERS]; /* of each key that it owns its slot, and 1 */
} Worker;

/* A group's requests to one worker. */
typedef struct { uint32_t count; Request *tasks[GROUP]; } Part;

typedef struct {
    Bell bell; /* the workers that have answered */
    int in, out;
    size_t used, end;
    Request group[GROUP];
    uint32_t requests;
    Part parts[WORKERS];
    unsigned char buffer[GROUP * 8192], replies[GROUP * (PAGE + 16)];
} Session;

static Worker *workers[WORKERS];
static Session *sessions[SESSIONS];
static unsigned worker_count, session_count;
static atomic_ullong stamp = 1;

static void tell(Bell *bell, unsigned bits) {
    atomic_fetch_or(&bell->told, bits);
    if (atomic_load(&bell->sleeps)) syscall(SYS_futex, &bell->told, FUTEX_WAKE_PRIVATE, 1, NULL);
}

/* Waits until something was told, and takes it. */
static unsigned hear(Bell *bell) {
    unsigned bits;
    for (int look = 0; look < LOOKS; look++)
        if (atomic_load(&bell->told) && (bits = atomic_exchange(&bell->told, 0))) return bits;
    atomic_store(&bell->sleeps, 1);
    while (!(bits = atomic_exchange(&bell->told, 0)))
        syscall(SYS_futex, &bell->told, FUTEX_WAIT_PRIVATE, 0, NULL);
    atomic_store(&bell->sleeps, 0);
    return bits;
}

static void *room_for(size_t bytes) {
    void *room = calloc(1, bytes);
    if (!room) exit(4);
    return room;
}

static uint32_t number_at(const unsigned char *at) {
    uint32_t number;
    memcpy(&number, at, 4);
    return number;
}

static const unsigned char *key_of(const Request *request, uint32_t *length) {
    int put = request->frame[0] == 1;
    *length = put ? request->frame[1] : request->length - 1;
    return request->frame + (put ? 2 : 1);
}

static uint32_t owner_of(const unsigned char *key, uint32_t length) {
    uint64_t hash = 14695981039346656037u;
    while (length--) hash = (hash ^ *key++) * 1099511628211u;
    return (uint32_t)(hash % worker_count);
}

static uint32_t decimal(const unsigned char *key, uint32_t length) {
    uint32_t number = 0;
    while (length--) number = number * 10 + (*key++ - '0');
    return number % NUMBERS;
}

/* ---- Workers ---- */

/* Where the key's item begins in the file; a new key has the next slot. */
static uint64_t place_of(Worker *me, const unsigned char *key, uint32_t length) {
    uint32_t *slot = &me->slots[decimal(key, length)];
    if (!*slot) *slot = ++me->next_slot;
    return (uint64_t)(*slot - 1) * me->slot_bytes;
}

static Page *page_of(Worker *me, uint64_t number) {
    uint32_t bucket = number * 2654435761u % BUCKETS;
    Page *page;
    for (; me->buckets[bucket]; bucket = (bucket + 1) % BUCKETS) {
        page = &me->pages[me->buckets[bucket] - 1];
        if (page->number == number) return page;
    }
    page = me->order[me->count] = &me->pages[me->count];
    me->buckets[bucket] = ++me->count;
    page->number = number;
    if (number >= me->pages_there) memset(page->bytes, 0, PAGE);
    else if (pread(me->file, page->bytes, PAGE, (off_t)(number * PAGE)) != PAGE) exit(1);
    return page;
}

static void put(Worker *me, const Request *request) {
    uint32_t length, content = request->length - 2, size = 64;
    const unsigned char *key = key_of(request, &length);
    while (size < content + 16) size *= 2;
    me->slot_bytes = size;
    uint64_t at = place_of(me, key, length);
    uint32_t value = content - length;
    unsigned char *slot = page_of(me, at / PAGE)->bytes + at % PAGE;
    memcpy(slot, &request->stamp, 8);
    slot[8] = 1;
    memcpy(slot + 12, &value, 4);
    memcpy(slot + 16, key, content);
}

static int compare(const void *a, const void *b) {
    uint64_t left = (*(Page *const *)a)->number, right = (*(Page *const *)b)->number;
    return left < right ? -1 : left > right;
}

static void write_pages(Worker *me) {
    if (me->count == 0) return;
    qsort(me->order, me->count, sizeof(Page *), compare);
    for (uint32_t i = 0; i < me->count; i++) {
        const Page *page = me->order[i];
        if (pwrite(me->file, page->bytes, PAGE, (off_t)(page->number * PAGE)) != PAGE) exit(1);
        if (page->number >= me->pages_there) me->pages_there = page->number + 1;
    }
    if (fdatasync(me->file)) exit(1);
    memset(me->buckets, 0, sizeof me->buckets);
    me->count = 0;
}

static void get(Worker *me, Request *request) {
    unsigned char page[PAGE];
    uint32_t length;
    const unsigned char *key = key_of(request, &length);
    uint64_t at = place_of(me, key, length);
    if (pread(me->file, page, PAGE, (off_t)(at / PAGE * PAGE)) != PAGE) exit(1);
    const unsigned char *slot = page + at % PAGE;
    request->found = number_at(slot + 12);
    memcpy(request->value, slot + 16 + length, request->found);
}

static void answer(Worker *me) {
    uint64_t drawn = atomic_fetch_add(&stamp, me->requests);
    for (uint32_t i = 0; i < me->requests; i++) {
        me->batch[i]->stamp = drawn + i;
        if (me->batch[i]->frame[0] == 1) put(me, me->batch[i]);
    }
    write_pages(me);
    for (uint32_t i = 0; i < me->requests; i++)
        if (me->batch[i]->frame[0] == 2) get(me, me->batch[i]);
    me->requests = 0;
}

static void *work(void *worker) {
    Worker *me = worker;
    unsigned number = 0;
    while (workers[number] != me) number++;
    while (me->sessions_left) {
        unsigned from = hear(&me->bell);
        for (unsigned s = 0; s < session_count; s++) {
            if (from & LEFT << s) me->sessions_left--;
            if (!(from & 1u << s)) continue;
            const Part *part = &sessions[s]->parts[number];
            memcpy(me->batch + me->requests, part->tasks, part->count * sizeof(Request *));
            me->requests += part->count;
        }
        if (me->requests == 0) continue;
        answer(me);
        for (unsigned s = 0; s < session_count; s++)
            if (from & 1u << s) tell(&sessions[s]->bell, 1u << number);
    }
    return NULL;
}

/* ---- Sessions ---- */

/* Takes a frame off the buffer; false where none is whole. */
static int next_frame(Session *me, const unsigned char **frame, uint32_t *length) {
    size_t there = me->end - me->used;
    if (there < 4 || there < 4 + (size_t)number_at(me->buffer + me->used)) return 0;
    *length = number_at(me->buffer + me->used);
    *frame = me->buffer + me->used + 4;
    me->used += 4 + *length;
    return 1;
}

/* Reads a group, whose frames stay in the buffer until the next call; false behind the last one. */
static int gather(Session *me) {
    const unsigned char *frame;
    uint32_t length;
    me->requests = 0;
    memmove(me->buffer, me->buffer + me->used, me->end - me->used);
    me->end -= me->used;
    me->used = 0;
    for (;;) {
        while (next_frame(me, &frame, &length)) {
            if (frame[0] != 5) {
                Request *request = &me->group[me->requests++];
                request->frame = frame;
                request->length = length;
            }
            if (me->requests == GROUP || (frame[0] == 5 && me->requests)) return 1;
        }
        size_t room = sizeof me->buffer - me->end;
        ssize_t n = read(me->in, me->buffer + me->end, room < ROOM ? room : ROOM);
        if (n < 0) exit(1);
        if (n == 0) return me->requests != 0;
        me->end += n;
    }
}

/* Hands each worker its requests, and waits until all have answered. */
static void hand_out(Session *me, unsigned bit) {
    unsigned owed = 0;
    for (unsigned w = 0; w < worker_count; w++) me->parts[w].count = 0;
    for (uint32_t i = 0; i < me->requests; i++) {
        uint32_t length;
        const unsigned char *key = key_of(&me->group[i], &length);
        unsigned w = owner_of(key, length);
        me->parts[w].tasks[me->parts[w].count++] = &me->group[i];
        owed |= 1u << w;
    }
    for (unsigned w = 0; w < worker_count; w++)
        if (owed & 1u << w) tell(&workers[w]->bell, bit);
    while (owed) owed &= ~hear(&me->bell);
}

static void write_replies(Session *me) {
    size_t end = 0, out = 0;
    for (uint32_t i = 0; i < me->requests; i++) {
        const Request *request = &me->group[i];
        uint32_t value = request->frame[0] == 1 ? 0 : request->found, stated = 9 + value;
        memcpy(me->replies + end, &stated, 4);
        me->replies[end + 4] = request->frame[0] == 1 ? 0x81 : 0x82;
        memcpy(me->replies + end + 5, &request->stamp, 8);
        memcpy(me->replies + end + 13, request->value, value);
        end += 13 + value;
    }
    while (out < end) {
        ssize_t n = write(me->out, me->replies + out, end - out);
        if (n <= 0) exit(1);
        out += n;
    }
}

static void *converse(void *session) {
    Session *me = session;
    unsigned number = 0;
    while (sessions[number] != me) number++;
    while (gather(me)) {
        hand_out(me, 1u << number);
        write_replies(me);
    }
    for (unsigned w = 0; w < worker_count; w++) tell(&workers[w]->bell, LEFT << number);
    return NULL;
}

int main(int argc, char **argv) {
    if (argc < 6 || argc % 2) return 2;
    worker_count = atoi(argv[3]);
    session_count = (argc - 4) / 2;
    if (worker_count < 1 || worker_count > WORKERS || session_count > SESSIONS) return 2;
    mkdir(argv[2], 0755);
    for (unsigned w = 0; w < worker_count; w++) {
        char path[4096];
        Worker *worker = workers[w] = room_for(sizeof(Worker));
        snprintf(path, sizeof path, "%s/%u", argv[2], w);
        worker->file = open(path, O_RDWR | O_CREAT | O_TRUNC, 0644);
        if (worker->file < 0) return 3;
        worker->sessions_left = session_count;
    }
    for (unsigned s = 0; s < session_count; s++) {
        Session *session = sessions[s] = room_for(sizeof(Session));
        session->in = open(argv[4 + 2 * s], O_RDONLY);
        session->out = open(argv[5 + 2 * s], O_WRONLY | O_CREAT | O_TRUNC, 0644);
        if (session->in < 0 || session->out < 0) return 3;
    }
    pthread_t threads[WORKERS + SESSIONS];
    for (unsigned w = 0; w < worker_count; w++)
        if (pthread_create(&threads[w], NULL, work, workers[w])) return 4;
    for (unsigned s = 0; s < session_count; s++)
        if (pthread_create(&threads[worker_count + s], NULL, converse, sessions[s])) return 4;
    for (unsigned i = 0; i < worker_count + session_count; i++) pthread_join(threads[i], NULL);
    return 0;
}
