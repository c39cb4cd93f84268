/* Drives a server of lines: load SECONDS DEPTH LINE PORT.. [-- FIRST..]
 * One connection a PORT (a port may stand there more than once), each in a thread of its own: it sends the lines FIRST and
 * waits for their replies, and then, for so many seconds, sends DEPTH lines at once and waits for as many replies.
 * Writes three numbers: the replies a second of all connections together, and the median and the 99th percentile of the
 * microseconds from a batch's first byte sent to its last byte received. With DEPTH 0 it opens SECONDS connections to each
 * port instead, one after the other, each for the one line, and writes the connections a second. */
#include <arpa/inet.h>
#include <netinet/tcp.h>
#include <pthread.h>
#include <stdio.h>
#include <stdlib.h>
#include <string.h>
#include <time.h>
#include <unistd.h>

#define MOST 4000000

static double seconds;
static int depth, firsts;
static char **first, *line;

struct client {
    int port;
    long replies, batches;
    float *times;
};

static double now(void) {
    struct timespec t;
    clock_gettime(CLOCK_MONOTONIC, &t);
    return t.tv_sec + t.tv_nsec / 1e9;
}

static void fail(const char *what) {
    perror(what);
    exit(1);
}

static void send_all(int s, const char *text, size_t n) {
    while (n) {
        ssize_t k = write(s, text, n);
        if (k <= 0) fail("write");
        text += k;
        n -= k;
    }
}

static void wait_for(int s, int lines) {
    char buffer[65536];
    while (lines > 0) {
        ssize_t k = read(s, buffer, sizeof buffer);
        if (k <= 0) fail("read");
        for (ssize_t i = 0; i < k; i++) lines -= buffer[i] == '\n';
    }
}

static int open_to(int port) {
    struct sockaddr_in to = {.sin_family = AF_INET, .sin_port = htons(port)};
    to.sin_addr.s_addr = htonl(INADDR_LOOPBACK);
    int s = socket(AF_INET, SOCK_STREAM, 0), yes = 1;
    if (connect(s, (struct sockaddr *)&to, sizeof to)) fail("connect");
    setsockopt(s, IPPROTO_TCP, TCP_NODELAY, &yes, sizeof yes);
    return s;
}

static void ask(int s, const char *text) {
    send_all(s, text, strlen(text));
    send_all(s, "\n", 1);
    wait_for(s, 1);
}

static void *knock(void *arg) {
    struct client *c = arg;
    for (; c->replies < (long)seconds; c->replies++) {
        int s = open_to(c->port);
        ask(s, line);
        close(s);
    }
    return NULL;
}

static void *drive(void *arg) {
    struct client *c = arg;
    int s = open_to(c->port);
    for (int i = 0; i < firsts; i++) ask(s, first[i]);
    size_t n = strlen(line) + 1;
    char *batch = malloc(n * depth);
    for (int i = 0; i < depth; i++) {
        memcpy(batch + i * n, line, n - 1);
        batch[i * n + n - 1] = '\n';
    }
    double end = now() + seconds;
    for (double t = now(); t < end && c->batches < MOST;) {
        send_all(s, batch, n * depth);
        wait_for(s, depth);
        double u = now();
        c->times[c->batches++] = u - t;
        c->replies += depth;
        t = u;
    }
    close(s);
    return NULL;
}

static int by_time(const void *a, const void *b) {
    float x = *(const float *)a, y = *(const float *)b;
    return (x > y) - (x < y);
}

int main(int argc, char **argv) {
    if (argc < 5) {
        fprintf(stderr, "usage: load SECONDS DEPTH LINE PORT.. [-- FIRST..]\n");
        return 2;
    }
    seconds = atof(argv[1]);
    depth = atoi(argv[2]);
    line = argv[3];
    int clients = 0;
    while (4 + clients < argc && strcmp(argv[4 + clients], "--")) clients++;
    first = argv + 5 + clients;
    firsts = argc > 5 + clients ? argc - 5 - clients : 0;
    struct client *c = calloc(clients, sizeof *c);
    pthread_t *t = calloc(clients, sizeof *t);
    double start = now();
    for (int i = 0; i < clients; i++) {
        c[i].port = atoi(argv[4 + i]);
        c[i].times = malloc(MOST * sizeof(float));
        pthread_create(&t[i], NULL, depth ? drive : knock, &c[i]);
    }
    long replies = 0, batches = 0;
    for (int i = 0; i < clients; i++) {
        pthread_join(t[i], NULL);
        replies += c[i].replies;
        batches += c[i].batches;
    }
    double took = now() - start;
    if (depth == 0) {
        printf("%.0f\n", replies / took);
        return 0;
    }
    float *all = malloc(batches * sizeof *all);
    for (long i = 0, k = 0; i < clients; k += c[i++].batches) memcpy(all + k, c[i].times, c[i].batches * sizeof *all);
    qsort(all, batches, sizeof *all, by_time);
    printf("%.0f %.1f %.1f\n", replies / took, all[batches / 2] * 1e6, all[batches * 99 / 100] * 1e6);
    return 0;
}
