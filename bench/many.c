/* Drives a server of lines over many connections on one thread:
 *     many SECONDS DEPTH CONNECTIONS PORT LINE [FIRST..]
 * Opens so many connections to the port, sends the lines FIRST on each and waits for their replies, and then, for so many
 * seconds, sends DEPTH lines at once on each and waits for as many replies before the next DEPTH. Writes three numbers: the
 * replies a second of all connections together, and the median and the 99th percentile of the microseconds from a batch's
 * first byte sent to its last byte received. A connection that is refused or ends ends the run with status 1. */
#include <arpa/inet.h>
#include <errno.h>
#include <fcntl.h>
#include <netinet/tcp.h>
#include <stdio.h>
#include <stdlib.h>
#include <string.h>
#include <sys/epoll.h>
#include <sys/resource.h>
#include <time.h>
#include <unistd.h>

#define MOST 8000000

struct link {
    int socket, waits;
    size_t left;
    double since;
};

static char *batch, buffer[65536];
static size_t whole;

static double now(void) {
    struct timespec t;
    clock_gettime(CLOCK_MONOTONIC, &t);
    return t.tv_sec + t.tv_nsec / 1e9;
}

static void fail(const char *what) {
    perror(what);
    exit(1);
}

static int open_to(int port) {
    struct sockaddr_in to = {.sin_family = AF_INET, .sin_port = htons(port)};
    to.sin_addr.s_addr = htonl(INADDR_LOOPBACK);
    int s = socket(AF_INET, SOCK_STREAM, 0), yes = 1;
    if (s < 0 || connect(s, (struct sockaddr *)&to, sizeof to)) fail("connect");
    setsockopt(s, IPPROTO_TCP, TCP_NODELAY, &yes, sizeof yes);
    return s;
}

static void ask(int s, const char *text) {
    char byte = 0;
    dprintf(s, "%s\n", text);
    while (byte != '\n')
        if (read(s, &byte, 1) != 1) fail("first lines");
}

/* Sends what is left of a link's batch, as far as its socket takes it. */
static void push(struct link *l) {
    while (l->left) {
        ssize_t k = write(l->socket, batch + whole - l->left, l->left);
        if (k < 0 && errno == EAGAIN) return;
        if (k <= 0) fail("write");
        l->left -= k;
    }
}

static int by_time(const void *a, const void *b) {
    float x = *(const float *)a, y = *(const float *)b;
    return (x > y) - (x < y);
}

int main(int argc, char **argv) {
    if (argc < 6) {
        fprintf(stderr, "usage: many SECONDS DEPTH CONNECTIONS PORT LINE [FIRST..]\n");
        return 2;
    }
    double seconds = atof(argv[1]);
    int depth = atoi(argv[2]), many = atoi(argv[3]), port = atoi(argv[4]);
    size_t n = strlen(argv[5]) + 1;
    whole = n * depth;
    batch = malloc(whole);
    for (int i = 0; i < depth; i++) {
        memcpy(batch + i * n, argv[5], n - 1);
        batch[i * n + n - 1] = '\n';
    }
    struct rlimit files = {many + 64, many + 64};
    setrlimit(RLIMIT_NOFILE, &files);
    struct link *links = calloc(many, sizeof *links);
    float *times = malloc(MOST * sizeof *times);
    int poll = epoll_create1(0);
    for (int i = 0; i < many; i++) {
        links[i].socket = open_to(port);
        for (int k = 6; k < argc; k++) ask(links[i].socket, argv[k]);
        fcntl(links[i].socket, F_SETFL, O_NONBLOCK);
        struct epoll_event e = {.events = EPOLLIN | EPOLLOUT | EPOLLET, .data.ptr = &links[i]};
        epoll_ctl(poll, EPOLL_CTL_ADD, links[i].socket, &e);
    }
    long replies = 0, batches = 0;
    double start = now(), end = start + seconds;
    for (int i = 0; i < many; i++) {
        links[i].waits = depth;
        links[i].left = whole;
        links[i].since = now();
        push(&links[i]);
    }
    struct epoll_event events[256];
    while (now() < end && batches < MOST) {
        int found = epoll_wait(poll, events, 256, 100);
        for (int i = 0; i < found; i++) {
            struct link *l = events[i].data.ptr;
            push(l);
            for (;;) {
                ssize_t k = read(l->socket, buffer, sizeof buffer);
                if (k < 0 && errno == EAGAIN) break;
                if (k <= 0) fail("read");
                for (ssize_t j = 0; j < k; j++) l->waits -= buffer[j] == '\n';
                if (l->waits > 0) continue;
                double t = now();
                if (batches < MOST) times[batches++] = t - l->since;
                replies += depth;
                l->waits = depth;
                l->left = whole;
                l->since = t;
                push(l);
            }
        }
    }
    double took = now() - start;
    if (batches == 0) fail("no batch");
    qsort(times, batches, sizeof *times, by_time);
    printf("%.0f %.1f %.1f\n", replies / took, times[batches / 2] * 1e6, times[batches * 99 / 100] * 1e6);
    return 0;
}
