/* load: a load generator for NBD servers (fixed newstyle, GO, simple replies).
 *
 *   load [-t SECONDS] [-w SECONDS] [-s MILLISECONDS] CLIENTS..
 *
 * -t  how long is measured (default 1), -w  how long the clients run before that (default 0.2),
 * -s  counts requests in slices of so many milliseconds too, over the whole run.
 *
 * CLIENTS is key=value pairs joined by ';':
 *   name=TEXT            what the result is called
 *   at=unix:PATH         or tcp:ADDRESS:PORT
 *   export=NAME          the export that GO asks for (default: the server's first)
 *   connections=N        each has a thread of its own (default 1)
 *   operation=WORD       read, write, mixed (connections in turn), trim, zero, zero-keep, flush, cache (default read)
 *   bytes=N              of each request (default 4096)
 *   depth=N              requests under way at a time (default 1)
 *   order=WORD           random or sequential, in steps of `step` (default random)
 *   step=N               requests lie at multiples of so many bytes (default: `bytes`)
 *   rate=N               requests a second of each connection, sent at fixed moments; 0: as fast as replies come (default 0)
 *   from=S until=S       seconds from the start between which requests are sent (default: all the time)
 *
 * A paced client's latency counts from the moment at which a request was planned, and each request that was planned within
 * the time that is measured is sent and counted, however late. So a server that stalls is charged for the requests that
 * couldn't be sent meanwhile. Prints one line of JSON: an object for each CLIENTS, whose `waits_us` are the waits that the
 * parts of the requests in `parts` don't pass.
 */
#define _GNU_SOURCE
#include <arpa/inet.h>
#include <errno.h>
#include <fcntl.h>
#include <netinet/tcp.h>
#include <poll.h>
#include <pthread.h>
#include <stdarg.h>
#include <stdint.h>
#include <stdio.h>
#include <stdlib.h>
#include <string.h>
#include <sys/prctl.h>
#include <sys/socket.h>
#include <sys/uio.h>
#include <sys/un.h>
#include <time.h>
#include <unistd.h>

enum { FINE = 64, BUCKETS = 40 * FINE, MOST_CLIENTS = 64, MOST_PACED = 4096, MOST_SLICES = 20000, PIECE = 1 << 20, NANOS = 1000000000 };
enum { READ = 0, WRITE = 1, DISC = 2, FLUSH = 3, TRIM = 4, CACHE = 5, ZERO = 6 };

/* Latencies in nanoseconds, by buckets of 1 part in 64. */
struct latency { uint64_t count, sum, most, buckets[BUCKETS]; };

struct clients {
    char *name, *at, *export, *operation;
    int connections, depth, sequential;
    uint32_t bytes;
    uint64_t step;
    double rate, from, until;
};

struct connection {
    const struct clients *clients;
    int index, socket, kind, flags;
    uint64_t size, random, requests, bytes, errors, under_way;
    struct latency latency;
    uint32_t *slices;
    char failure[160];
    pthread_t thread;
};

/* The parts of the requests whose waits are printed, and more of them the rarer they are. */
static const double parts[] = {0.1, 0.25, 0.5, 0.75, 0.9, 0.95, 0.98, 0.99, 0.995, 0.998, 0.999, 0.9995, 0.9998, 0.9999};

/* A request under way: when it was sent, or planned, and whether its slot is used. */
struct slot { uint64_t at; };

static double measured = 1, warm = 0.2;
static uint64_t slice_nanos, started;
static pthread_barrier_t ready;
static unsigned char *payload;

static uint64_t now(void)
{
    struct timespec t;
    clock_gettime(CLOCK_MONOTONIC, &t);
    return (uint64_t)t.tv_sec * NANOS + (uint64_t)t.tv_nsec;
}

static uint64_t next_random(uint64_t *state)
{
    uint64_t x = (*state += 0x9E3779B97F4A7C15ull);
    x = (x ^ (x >> 30)) * 0xBF58476D1CE4E5B9ull;
    x = (x ^ (x >> 27)) * 0x94D049BB133111EBull;
    return x ^ (x >> 31);
}

static int bucket_of(uint64_t nanos)
{
    if (nanos < FINE)
        return (int)nanos;
    int top = 63 - __builtin_clzll(nanos);
    int at = (top - 5) * FINE + (int)((nanos >> (top - 6)) & (FINE - 1));
    return at < BUCKETS ? at : BUCKETS - 1;
}

static double middle_of(int bucket)
{
    if (bucket < FINE)
        return bucket;
    int top = bucket / FINE + 5;
    double width = (double)(1ull << (top - 6));
    return (double)(1ull << top) + width * (bucket % FINE) + width / 2;
}

static void note(struct latency *l, uint64_t nanos)
{
    l->count++;
    l->sum += nanos;
    if (nanos > l->most)
        l->most = nanos;
    l->buckets[bucket_of(nanos)]++;
}

static void add(struct latency *all, const struct latency *one)
{
    all->count += one->count;
    all->sum += one->sum;
    if (one->most > all->most)
        all->most = one->most;
    for (int i = 0; i < BUCKETS; i++)
        all->buckets[i] += one->buckets[i];
}

/* In microseconds, the latency that so great a part of the requests doesn't pass. */
static double within(const struct latency *l, double part)
{
    uint64_t wanted = (uint64_t)(part * (double)l->count), seen = 0;
    for (int i = 0; i < BUCKETS && l->count; i++)
        if ((seen += l->buckets[i]) > wanted)
            return middle_of(i) / 1000;
    return (double)l->most / 1000;
}

static void put16(unsigned char *to, unsigned v) { to[0] = (unsigned char)(v >> 8); to[1] = (unsigned char)v; }
static void put32(unsigned char *to, uint32_t v) { put16(to, v >> 16); put16(to + 2, v & 0xffff); }
static void put64(unsigned char *to, uint64_t v) { put32(to, (uint32_t)(v >> 32)); put32(to + 4, (uint32_t)v); }
static uint32_t get32(const unsigned char *at) { return (uint32_t)at[0] << 24 | (uint32_t)at[1] << 16 | (uint32_t)at[2] << 8 | at[3]; }
static uint64_t get64(const unsigned char *at) { return (uint64_t)get32(at) << 32 | get32(at + 4); }

static int fail(struct connection *c, const char *format, ...)
{
    va_list words;
    va_start(words, format);
    if (!c->failure[0])
        vsnprintf(c->failure, sizeof c->failure, format, words);
    va_end(words);
    return -1;
}

static int wait_for(int socket, short events, int milliseconds)
{
    struct pollfd one = {socket, events, 0};
    return poll(&one, 1, milliseconds);
}

static int send_all(int socket, const void *from, size_t length)
{
    const char *at = from;
    while (length) {
        ssize_t sent = send(socket, at, length, MSG_NOSIGNAL);
        if (sent < 0 && errno == EAGAIN && wait_for(socket, POLLOUT, 10000) > 0)
            continue;
        if (sent <= 0)
            return -1;
        at += sent;
        length -= (size_t)sent;
    }
    return 0;
}

static int receive_all(int socket, void *to, size_t length)
{
    char *at = to;
    while (length) {
        ssize_t got = recv(socket, at, length, 0);
        if (got < 0 && errno == EAGAIN && wait_for(socket, POLLIN, 10000) > 0)
            continue;
        if (got <= 0)
            return -1;
        at += got;
        length -= (size_t)got;
    }
    return 0;
}

static int dial(const char *at)
{
    int socket_fd = -1;
    if (!strncmp(at, "unix:", 5)) {
        struct sockaddr_un address = {.sun_family = AF_UNIX};
        snprintf(address.sun_path, sizeof address.sun_path, "%s", at + 5);
        socket_fd = socket(AF_UNIX, SOCK_STREAM, 0);
        for (int tries = 0; connect(socket_fd, (void *)&address, sizeof address); tries++) {
            if (errno != EAGAIN || tries == 400)
                goto refused;
            usleep(5000);
        }
    } else if (!strncmp(at, "tcp:", 4)) {
        char host[64];
        const char *colon = strrchr(at, ':');
        snprintf(host, sizeof host, "%.*s", (int)(colon - at - 4), at + 4);
        struct sockaddr_in address = {.sin_family = AF_INET, .sin_port = htons((uint16_t)atoi(colon + 1))};
        if (inet_pton(AF_INET, host, &address.sin_addr) != 1)
            return -1;
        socket_fd = socket(AF_INET, SOCK_STREAM, 0);
        if (connect(socket_fd, (void *)&address, sizeof address))
            goto refused;
        setsockopt(socket_fd, IPPROTO_TCP, TCP_NODELAY, &(int){1}, sizeof(int));
    }
    if (socket_fd >= 0)
        fcntl(socket_fd, F_SETFL, O_NONBLOCK);
    return socket_fd;
refused:
    close(socket_fd);
    return -1;
}

static int handshake(struct connection *c)
{
    unsigned char text[4096];
    uint32_t name = (uint32_t)strlen(c->clients->export);
    if (receive_all(c->socket, text, 18) || memcmp(text, "NBDMAGICIHAVEOPT", 16))
        return fail(c, "no greeting");
    put32(text, (text[17] & 2) ? 3 : 1);
    memcpy(text + 4, "IHAVEOPT", 8);
    put32(text + 12, 7);
    put32(text + 16, name + 6);
    put32(text + 20, name);
    memcpy(text + 24, c->clients->export, name);
    put16(text + 24 + name, 0);
    if (send_all(c->socket, text, 26 + name))
        return fail(c, "GO isn't taken: %s", strerror(errno));
    for (;;) {
        if (receive_all(c->socket, text, 20))
            return fail(c, "no answer to GO");
        uint32_t kind = get32(text + 12), length = get32(text + 16);
        if (length > sizeof text || receive_all(c->socket, text, length))
            return fail(c, "a reply to GO of %u bytes", length);
        if (kind & 0x80000000u)
            return fail(c, "GO is refused: %u", kind & 0xffff);
        if (kind == 3 && length == 12 && !text[0] && !text[1])
            c->size = get64(text + 2);
        if (kind == 1)
            return c->size < c->clients->bytes ? fail(c, "the export is too small") : 0;
    }
}

/* What one connection has in its hands. */
struct traffic {
    struct connection *c;
    struct slot *slots;
    int *free, free_count, slot_count;
    uint64_t planned, period, position, blocks, from, until, end;
    unsigned char (*heads)[28];
    struct iovec *out;
    int out_at, out_count, heads_count;
    unsigned char reply[16], *piece;
    unsigned reply_count;
    uint64_t data_left;
};

static void plan(struct traffic *t, uint64_t at)
{
    struct connection *c = t->c;
    uint64_t block = c->clients->sequential ? t->position++ % t->blocks : next_random(&c->random) % t->blocks;
    int slot = t->free[--t->free_count];
    unsigned char *head = t->heads[t->heads_count++];
    put32(head, 0x25609513);
    put16(head + 4, (unsigned)c->flags);
    put16(head + 6, (unsigned)c->kind);
    put64(head + 8, (uint64_t)slot);
    put64(head + 16, c->kind == FLUSH ? 0 : block * c->clients->step);
    put32(head + 24, c->kind == FLUSH ? 0 : c->clients->bytes);
    t->out[t->out_count++] = (struct iovec){head, 28};
    if (c->kind == WRITE)
        t->out[t->out_count++] = (struct iovec){payload + (next_random(&c->random) & 0xfff), c->clients->bytes};
    t->slots[slot].at = at;
    c->under_way++;
}

/* Whether a request is still to be planned: a paced client plans all that belong to its time, also behind it. */
static int has_plans(const struct traffic *t, uint64_t at)
{
    return at < t->until || (t->period && t->planned && t->planned < t->until);
}

/* Plans what is to go now. */
static void plan_all(struct traffic *t, uint64_t at)
{
    if (t->out_at < t->out_count || !has_plans(t, at) || at < t->from)
        return;
    t->out_at = t->out_count = t->heads_count = 0;
    if (!t->planned)
        t->planned = at;
    while (t->free_count && t->heads_count < 256 && (!t->period || (t->planned <= at && t->planned < t->until))) {
        plan(t, t->period ? t->planned : at);
        t->planned += t->period;
    }
}

static int send_some(struct traffic *t)
{
    while (t->out_at < t->out_count) {
        int count = t->out_count - t->out_at;
        ssize_t sent = writev(t->c->socket, t->out + t->out_at, count > 512 ? 512 : count);
        if (sent < 0)
            return errno == EAGAIN ? 0 : fail(t->c, "send: %s", strerror(errno));
        while (sent > 0) {
            struct iovec *one = t->out + t->out_at;
            size_t part = (size_t)sent < one->iov_len ? (size_t)sent : one->iov_len;
            one->iov_base = (char *)one->iov_base + part;
            one->iov_len -= part;
            sent -= (ssize_t)part;
            if (!one->iov_len)
                t->out_at++;
        }
    }
    return 0;
}

static void count_reply(struct traffic *t, uint64_t slot, uint64_t at)
{
    struct connection *c = t->c;
    uint64_t first = started + (uint64_t)(warm * NANOS), counts = t->period ? t->slots[slot].at : at;
    if (counts >= first && counts < t->end) {
        c->requests++;
        c->bytes += c->clients->bytes;
        note(&c->latency, at - t->slots[slot].at);
    }
    if (slice_nanos && (at - started) / slice_nanos < MOST_SLICES)
        c->slices[(at - started) / slice_nanos]++;
    t->slots[slot].at = 0;
    t->free[t->free_count++] = (int)slot;
    c->under_way--;
}

/* Reads what has come. */
static int take_in(struct traffic *t)
{
    struct connection *c = t->c;
    ssize_t got = recv(c->socket, t->piece, PIECE, 0);
    if (got <= 0)
        return got < 0 && errno == EAGAIN ? 0 : fail(c, got ? "receive: %s" : "the server closed", strerror(errno));
    uint64_t at = now();
    for (unsigned char *from = t->piece; got;) {
        if (t->reply_count < 16) {
            unsigned part = 16 - t->reply_count < got ? 16 - t->reply_count : (unsigned)got;
            memcpy(t->reply + t->reply_count, from, part);
            t->reply_count += part;
            from += part;
            got -= part;
            if (t->reply_count < 16)
                break;
            uint64_t slot = get64(t->reply + 8);
            if (get32(t->reply) != 0x67446698 || slot >= (uint64_t)t->slot_count || !t->slots[slot].at)
                return fail(c, "a reply to no request");
            c->errors += get32(t->reply + 4) != 0;
            t->data_left = c->kind == READ && !get32(t->reply + 4) ? c->clients->bytes : 0;
        }
        uint64_t part = t->data_left < (uint64_t)got ? t->data_left : (uint64_t)got;
        t->data_left -= part;
        from += part;
        got -= (ssize_t)part;
        if (!t->data_left) {
            count_reply(t, get64(t->reply + 8), at);
            t->reply_count = 0;
        }
    }
    return 0;
}

static int exchange(struct traffic *t)
{
    struct connection *c = t->c;
    uint64_t late = t->end + 10ull * NANOS;
    for (;;) {
        uint64_t at = now();
        if (!has_plans(t, at) && t->out_at == t->out_count && !c->under_way)
            return 0;
        if (at >= late)
            return fail(c, "no reply for 10 s, %d under way", (int)c->under_way);
        plan_all(t, at);
        if (send_some(t))
            return -1;
        int sends = t->out_at < t->out_count;
        uint64_t wake = late;
        if (at < t->from)
            wake = t->from;
        else if (has_plans(t, at) && t->period && t->free_count && !sends)
            wake = t->planned;
        if (!t->period && !sends && c->under_way && take_in(t))
            return -1;
        at = now();
        if (!t->period && !sends && t->free_count && at >= t->from && at < t->until)
            continue;
        if (!sends && !c->under_way && !has_plans(t, at))
            continue; /* the last reply has just come: no other is waited for */
        uint64_t nanos = wake > at ? wake - at : 0;
        struct timespec most = {(time_t)(nanos / NANOS), (long)(nanos % NANOS)};
        struct pollfd one = {c->socket, (short)(POLLIN | (sends ? POLLOUT : 0)), 0};
        if (ppoll(&one, 1, &most, NULL) > 0 && (one.revents & ~POLLOUT) && take_in(t))
            return -1;
    }
}

static int begin(struct connection *c)
{
    const char *word = c->clients->operation;
    c->kind = !strcmp(word, "read")    ? READ
              : !strcmp(word, "write") ? WRITE
              : !strcmp(word, "mixed") ? c->index & 1
              : !strcmp(word, "trim")  ? TRIM
              : !strcmp(word, "flush") ? FLUSH
              : !strcmp(word, "cache") ? CACHE
                                       : ZERO;
    c->flags = !strcmp(word, "zero-keep") ? 2 : 0;
    c->socket = dial(c->clients->at);
    return c->socket < 0 ? fail(c, "connect: %s", strerror(errno)) : handshake(c);
}

static void part(struct connection *c)
{
    unsigned char head[28] = {0}, rest[4096];
    put32(head, 0x25609513);
    put16(head + 6, DISC);
    if (send_all(c->socket, head, 28))
        return;
    while (wait_for(c->socket, POLLIN, 10000) > 0 && recv(c->socket, rest, sizeof rest, 0) > 0) {
    }
}

static void *run(void *given)
{
    struct connection *c = given;
    const struct clients *k = c->clients;
    int well = !begin(c);
    prctl(PR_SET_TIMERSLACK, 1);
    pthread_barrier_wait(&ready);
    pthread_barrier_wait(&ready);
    if (!well)
        return NULL;
    struct traffic t = {.c = c, .slot_count = k->rate > 0 ? MOST_PACED : k->depth};
    t.slots = calloc((size_t)t.slot_count, sizeof *t.slots);
    t.free = calloc((size_t)t.slot_count, sizeof *t.free);
    t.heads = calloc((size_t)t.slot_count + 256, 28);
    t.out = calloc(2 * (size_t)t.slot_count + 512, sizeof *t.out);
    t.piece = malloc(PIECE);
    for (int i = 0; i < t.slot_count; i++)
        t.free[t.free_count++] = t.slot_count - 1 - i;
    t.blocks = (c->size - k->bytes) / k->step + 1;
    t.position = t.blocks * (uint64_t)c->index / (uint64_t)k->connections;
    t.period = k->rate > 0 ? (uint64_t)(NANOS / k->rate) : 0;
    t.end = started + (uint64_t)((warm + measured) * NANOS);
    t.from = started + (uint64_t)(k->from * NANOS);
    t.until = k->until > 0 ? started + (uint64_t)(k->until * NANOS) : t.end;
    if (!exchange(&t))
        part(c);
    close(c->socket);
    return NULL;
}

static void read_clients(struct clients *k, char *words)
{
    *k = (struct clients){.name = "clients", .export = "", .operation = "read", .connections = 1, .depth = 1, .bytes = 4096};
    for (char *rest, *word = strtok_r(words, ";", &rest); word; word = strtok_r(NULL, ";", &rest)) {
        char *value = strchr(word, '=');
        if (!value)
            exit((fprintf(stderr, "load: %s isn't key=value\n", word), 2));
        *value++ = 0;
        if (!strcmp(word, "name")) k->name = value;
        else if (!strcmp(word, "at")) k->at = value;
        else if (!strcmp(word, "export")) k->export = value;
        else if (!strcmp(word, "operation")) k->operation = value;
        else if (!strcmp(word, "connections")) k->connections = atoi(value);
        else if (!strcmp(word, "bytes")) k->bytes = (uint32_t)strtoul(value, NULL, 10);
        else if (!strcmp(word, "step")) k->step = strtoull(value, NULL, 10);
        else if (!strcmp(word, "depth")) k->depth = atoi(value);
        else if (!strcmp(word, "order")) k->sequential = *value == 's';
        else if (!strcmp(word, "rate")) k->rate = atof(value);
        else if (!strcmp(word, "from")) k->from = atof(value);
        else if (!strcmp(word, "until")) k->until = atof(value);
        else exit((fprintf(stderr, "load: what is %s?\n", word), 2));
    }
    if (!k->at || k->connections < 1 || k->depth < 1 || k->bytes < 1)
        exit((fprintf(stderr, "load: at=, and numbers from 1\n"), 2));
    k->step = k->step ? k->step : k->bytes;
}

static void print_clients(const struct clients *k, struct connection *all, int count, uint64_t slices)
{
    static struct latency sum;
    uint64_t requests = 0, bytes = 0, errors = 0, least = UINT64_MAX, most = 0;
    const char *failure = "";
    int failed = 0;
    memset(&sum, 0, sizeof sum);
    for (int i = 0; i < count; i++) {
        struct connection *c = all + i;
        if (c->clients != k)
            continue;
        requests += c->requests;
        bytes += c->bytes;
        errors += c->errors;
        least = c->requests < least ? c->requests : least;
        most = c->requests > most ? c->requests : most;
        add(&sum, &c->latency);
        if (c->failure[0])
            failed++, failure = c->failure;
    }
    printf("{\"name\":\"%s\",\"requests\":%llu,\"errors\":%llu,\"failed\":%d,\"failure\":\"%s\",", k->name, (unsigned long long)requests,
           (unsigned long long)errors, failed, failure);
    printf("\"a_second\":%.1f,\"mib_a_second\":%.2f,\"least\":%llu,\"most\":%llu,", (double)requests / measured, (double)bytes / measured / 1048576,
           (unsigned long long)least, (unsigned long long)most);
    printf("\"mean_us\":%.1f,\"p50_us\":%.1f,\"p99_us\":%.1f,\"p999_us\":%.1f,\"most_us\":%.1f", sum.count ? (double)sum.sum / (double)sum.count / 1000 : 0.0,
           within(&sum, 0.5), within(&sum, 0.99), within(&sum, 0.999), (double)sum.most / 1000);
    printf(",\"waits_us\":[");
    for (size_t i = 0; i < sizeof parts / sizeof *parts; i++)
        printf("%s%.1f", i ? "," : "", within(&sum, parts[i]));
    printf("]");
    for (uint64_t s = 0; s < slices; s++) {
        uint64_t in_slice = 0;
        for (int i = 0; i < count; i++)
            in_slice += all[i].clients == k ? all[i].slices[s] : 0;
        printf("%s%llu", s ? "," : ",\"slices\":[", (unsigned long long)in_slice);
    }
    printf("%s}", slices ? "]" : "");
}

int main(int count, char **words)
{
    struct clients kinds[MOST_CLIENTS];
    int option, kind_count = 0, connections = 0;
    uint32_t longest = 4096;
    while ((option = getopt(count, words, "t:w:s:")) != -1) {
        if (option == 't') measured = atof(optarg);
        else if (option == 'w') warm = atof(optarg);
        else if (option == 's') slice_nanos = (uint64_t)(atof(optarg) * 1e6);
        else return 2;
    }
    for (; optind < count && kind_count < MOST_CLIENTS; optind++) {
        struct clients *k = &kinds[kind_count++];
        read_clients(k, words[optind]);
        connections += k->connections;
        longest = k->bytes > longest ? k->bytes : longest;
    }
    if (!kind_count)
        return fprintf(stderr, "usage: load [-t SECONDS] [-w SECONDS] [-s MILLISECONDS] CLIENTS..\n"), 2;
    payload = malloc(longest + 8192ul);
    uint64_t seed = 1, slices = slice_nanos ? (uint64_t)((warm + measured) * NANOS) / slice_nanos : 0;
    for (size_t i = 0; i < longest + 8192ul; i++)
        payload[i] = (unsigned char)next_random(&seed);
    struct connection *all = calloc((size_t)connections, sizeof *all), *c = all;
    pthread_barrier_init(&ready, NULL, (unsigned)connections + 1);
    for (int k = 0; k < kind_count; k++)
        for (int i = 0; i < kinds[k].connections; i++, c++) {
            *c = (struct connection){.clients = &kinds[k], .index = i, .random = (uint64_t)(c - all) + 1};
            c->slices = slice_nanos ? calloc(MOST_SLICES, sizeof *c->slices) : NULL;
            if (pthread_create(&c->thread, NULL, run, c))
                return perror("load: a thread"), 3;
        }
    pthread_barrier_wait(&ready);
    started = now();
    pthread_barrier_wait(&ready);
    for (int i = 0; i < connections; i++)
        pthread_join(all[i].thread, NULL);
    printf("[");
    for (int k = 0; k < kind_count; k++) {
        printf("%s", k ? "," : "");
        print_clients(&kinds[k], all, connections, slices < MOST_SLICES ? slices : MOST_SLICES);
    }
    printf("]\n");
    return 0;
}
