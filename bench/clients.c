/* Clients of a store's sessions, a thread and a pair of pipes each, which are opened in their
 * order: IN is what the session reads. A client has one group on its way, which a Flush ends, and
 * waits for its replies.
 *
 *     clients rate COUNT SIZE GROUP IN OUT [IN OUT ..]
 *
 * shares among all clients COUNT puts of new items with values of SIZE bytes, as many updates in
 * another order, as many gets, and updates and gets in turn, in groups of GROUP; it prints how many
 * seconds each of these four took.
 *
 *     clients lone COUNT SIZE IN OUT [IN OUT ..]
 *
 * has the first client put COUNT new items, and then a hundred times one update, and a hundred
 * times one get, each after a rest of two milliseconds; it prints how many microseconds each took.
 * The other clients only have their pipes open. */
#include <fcntl.h>
#include <pthread.h>
#include <stdint.h>
#include <stdio.h>
#include <stdlib.h>
#include <string.h>
#include <time.h>
#include <unistd.h>

enum { MOST = 64, LARGEST = 4000, FRAME = LARGEST + 32, CLIENTS = 8, PHASES = 4, LONE = 100 };
enum { NEW, UPDATES, GETS, BOTH };

typedef struct {
    int in, out;
    unsigned number;
    unsigned char requests[MOST * FRAME + 5], replies[MOST * FRAME], kinds[MOST];
    size_t length, expected;
    unsigned count;
} Client;

static Client clients[CLIENTS];
static unsigned client_count, items, size, group, step;
static unsigned char value[LARGEST];
static pthread_barrier_t barrier;

static double seconds(void) {
    struct timespec now;
    clock_gettime(CLOCK_MONOTONIC, &now);
    return now.tv_sec + now.tv_nsec / 1e9;
}

static void fail(const char *what) {
    fprintf(stderr, "clients: %s\n", what);
    exit(1);
}

/* Puts a request behind those of the group. */
static void add(Client *me, int put, unsigned number) {
    unsigned char *at = me->requests + me->length;
    char key[11];
    uint32_t length = put ? 12 + size : 11;
    snprintf(key, sizeof key, "%010u", number);
    memcpy(at, &length, 4);
    at[4] = put ? 1 : 2;
    if (put) at[5] = 10;
    memcpy(at + (put ? 6 : 5), key, 10);
    if (put) memcpy(at + 16, value, size);
    me->length += 4 + length;
    me->expected += put ? 13 : 13 + size;
    me->kinds[me->count++] = put ? 0x81 : 0x82;
}

/* Sends the group and a Flush, and waits for the replies. */
static void ask(Client *me) {
    static const unsigned char flush[5] = {1, 0, 0, 0, 5};
    memcpy(me->requests + me->length, flush, 5);
    for (size_t sent = 0, end = me->length + 5; sent < end;) {
        ssize_t n = write(me->in, me->requests + sent, end - sent);
        if (n <= 0) fail("a session takes no more requests");
        sent += n;
    }
    for (size_t taken = 0; taken < me->expected;) {
        ssize_t n = read(me->out, me->replies + taken, me->expected - taken);
        if (n <= 0) fail("replies ended");
        taken += n;
    }
    const unsigned char *reply = me->replies;
    for (unsigned i = 0; i < me->count; i++) {
        uint32_t length = me->kinds[i] == 0x81 ? 9 : 9 + size;
        if (memcmp(reply, &length, 4) || reply[4] != me->kinds[i]) fail("a reply is another one");
        if (length > 9 && memcmp(reply + 13, value, size)) fail("a value is another one");
        reply += 4 + length;
    }
    me->length = me->expected = me->count = 0;
}

/* The phase's requests of this client: every one whose place has its number modulo the clients. */
static void do_phase(Client *me, int phase) {
    for (unsigned place = me->number; place < items; place += client_count) {
        unsigned other = (uint64_t)place * step % items;
        int even = place / client_count % 2 == 0;
        int put = phase == NEW || phase == UPDATES || (phase == BOTH && even);
        add(me, put, phase == NEW ? place : other);
        if (me->count == group) ask(me);
    }
    if (me->count) ask(me);
}

static void *run(void *client) {
    for (int phase = 0; phase < PHASES; phase++) {
        pthread_barrier_wait(&barrier);
        do_phase(client, phase);
        pthread_barrier_wait(&barrier);
    }
    return NULL;
}

static void measure_rate(void) {
    pthread_t threads[CLIENTS];
    pthread_barrier_init(&barrier, NULL, client_count + 1);
    for (unsigned i = 0; i < client_count; i++)
        if (pthread_create(&threads[i], NULL, run, &clients[i])) fail("no thread");
    for (int phase = 0; phase < PHASES; phase++) {
        pthread_barrier_wait(&barrier);
        double begin = seconds();
        pthread_barrier_wait(&barrier);
        printf("%.6f\n", seconds() - begin);
    }
    for (unsigned i = 0; i < client_count; i++) pthread_join(threads[i], NULL);
}

static void measure_lone(void) {
    const struct timespec rest = {0, 2000000};
    Client *me = &clients[0];
    client_count = 1;
    do_phase(me, NEW);
    for (int put = 1; put >= 0; put--)
        for (unsigned i = 0; i < LONE; i++) {
            add(me, put, (uint64_t)i * step % items);
            nanosleep(&rest, NULL);
            double begin = seconds();
            ask(me);
            printf("%.3f\n", (seconds() - begin) * 1e6);
        }
}

static unsigned divisor(unsigned a, unsigned b) { return b ? divisor(b, a % b) : a; }

int main(int argc, char **argv) {
    int rate = argc > 1 && strcmp(argv[1], "rate") == 0, first = rate ? 5 : 4;
    if (argc < first + 2 || (argc - first) % 2 || argc - first > 2 * CLIENTS) return 2;
    items = atoi(argv[2]);
    size = atoi(argv[3]);
    group = rate ? atoi(argv[4]) : MOST;
    if (items < 1 || size > LARGEST || group < 1 || group > MOST) return 2;
    for (unsigned i = 0; i < size; i++) value[i] = i % 250;
    for (step = items / 8 * 5 + 1; divisor(step, items) != 1;) step++;
    client_count = (argc - first) / 2;
    for (unsigned i = 0; i < client_count; i++) {
        clients[i].number = i;
        clients[i].in = open(argv[first + 2 * i], O_WRONLY);
        clients[i].out = open(argv[first + 2 * i + 1], O_RDONLY);
        if (clients[i].in < 0 || clients[i].out < 0) fail("a pipe can't be opened");
    }
    if (rate) measure_rate();
    else measure_lone();
    return 0;
}
