/* Sends CoAP requests to a server on 127.0.0.1 and counts what comes back.
 *
 *     load -p PORT [-f PORT] [-s N] [-w N] [-n N] [-r N] [-b BODY] TARGET
 *
 * TARGET is a path and a query, as `rd?ep=n#&lt=600`. With a BODY the requests are POSTs of links,
 * else GETs. Each `#` stands for the number of a name, from 1 to that of -n. -s sockets are bound
 * to ports from that of -f on. Each has at most one request out, and all together at most -w. Each
 * socket goes round its own names: request k of socket s is for the name s + k * sockets, counted
 * from 0, so that -r requests for as many names are one for each. Messages are confirmable, with
 * fresh Message IDs and tokens, and none is sent twice: one without an answer for two seconds is
 * lost. At the end one line says how many answers there were of each class of code, how many
 * datagrams belonged to no request that was out, how many requests were lost, and how many seconds
 * passed from the first request to the last answer.
 */
#define _GNU_SOURCE
#include <arpa/inet.h>
#include <errno.h>
#include <getopt.h>
#include <netinet/in.h>
#include <stdbool.h>
#include <stdint.h>
#include <stdio.h>
#include <stdlib.h>
#include <string.h>
#include <sys/epoll.h>
#include <sys/resource.h>
#include <sys/socket.h>
#include <time.h>
#include <unistd.h>

enum {
    HEADER = 4,
    TOKEN = 4,
    MOST_OCTETS = 1280,
    MOST_DIGITS = 12,
    MOST_EVENTS = 256,
    POLL_MILLISECONDS = 100,
    CLASSES = 8,
};

/* Codes and numbers of options (RFC 7252 sections 12.1 and 5.10). */
enum { GET = 1, POST = 2, URI_PATH = 11, CONTENT_FORMAT = 12, URI_QUERY = 15 };

static const uint64_t ANSWER_NANOSECONDS = 2000000000;

struct message {
    size_t length;
    uint8_t octets[MOST_OCTETS];
};

struct client {
    int socket;
    bool is_waiting;
    uint64_t sent_at;
    unsigned left;                  /* requests that it has still to send */
    unsigned name;                  /* the name of the next one */
    uint16_t id;                    /* the Message ID of the last one */
    uint8_t key[2 + TOKEN];         /* the Message ID and token that are out */
};

static unsigned server_port, first_port = 20000, sockets = 64, window = 64, names = 1;
static unsigned requests = 1;
static const char *body, *target;

static struct message *prepared;    /* one for each name */
static struct client *clients;
static struct client **idle;        /* a ring of those that may send */
static unsigned first_idle, idle_count;

static unsigned in_flight, lost, wrong, answered, classes[CLASSES];
static uint32_t last_token;
static uint64_t begun_at, ended_at;

static void fail(const char *what)
{
    fprintf(stderr, "load: %s: %s\n", what, strerror(errno));
    exit(1);
}

static void fail_long(void)
{
    errno = EMSGSIZE;
    fail("request");
}

static void *room(size_t count, size_t size)
{
    void *memory = calloc(count, size);
    if (memory == NULL)
        fail("memory");
    return memory;
}

static uint64_t now(void)
{
    struct timespec time;
    clock_gettime(CLOCK_MONOTONIC, &time);
    return (uint64_t)time.tv_sec * 1000000000 + (uint64_t)time.tv_nsec;
}

/* Requests. */

static void add(struct message *message, const void *octets, size_t length)
{
    if (message->length + length > MOST_OCTETS)
        fail_long();
    memcpy(message->octets + message->length, octets, length);
    message->length += length;
}

/* Adds an option; `last` is the number of the one before it. Numbers and lengths are below 269. */
static void add_option(struct message *message, unsigned *last, unsigned number,
                       const char *value, size_t length)
{
    unsigned delta = number - *last;
    bool is_long = length >= 13;
    uint8_t head[2] = {(uint8_t)(delta << 4 | (is_long ? 13 : length)), (uint8_t)(length - 13)};
    add(message, head, is_long ? 2 : 1);
    add(message, value, length);
    *last = number;
}

/* Adds an option for each part of a text between separators. */
static void add_options(struct message *message, unsigned *last, unsigned number,
                        const char *text, const char *end, char separator)
{
    while (text < end) {
        const char *stop = memchr(text, separator, (size_t)(end - text));
        if (stop == NULL)
            stop = end;
        add_option(message, last, number, text, (size_t)(stop - text));
        text = stop + 1;
    }
}

/* A text with each `#` replaced by a number. */
static void with_number(char *into, size_t size, const char *text, unsigned number)
{
    size_t length = 0;
    for (; *text != '\0' && length + MOST_DIGITS < size; text++)
        if (*text == '#')
            length += (size_t)sprintf(into + length, "%u", number);
        else
            into[length++] = *text;
    if (*text != '\0')
        fail_long();
    into[length] = '\0';
}

static void prepare(struct message *message, unsigned number)
{
    char text[MOST_OCTETS], links[MOST_OCTETS];
    with_number(text, sizeof text, target, number);
    const char *end = text + strlen(text), *question = strchr(text, '?');
    const char *path_end = question == NULL ? end : question;
    unsigned last = 0;
    uint8_t head[HEADER + TOKEN] = {0x40 | TOKEN, body == NULL ? GET : POST};
    add(message, head, sizeof head);
    add_options(message, &last, URI_PATH, text, path_end, '/');
    if (body != NULL)
        add_option(message, &last, CONTENT_FORMAT, "\x28", 1);
    if (question != NULL)
        add_options(message, &last, URI_QUERY, question + 1, end, '&');
    if (body != NULL) {
        with_number(links, sizeof links, body, number);
        add(message, "\xff", 1);
        add(message, links, strlen(links));
    }
}

/* Clients. */

static void set_idle(struct client *client)
{
    if (client->left == 0)
        return;
    idle[(first_idle + idle_count) % sockets] = client;
    idle_count++;
}

static struct client *next_idle(void)
{
    struct client *client = idle[first_idle];
    first_idle = (first_idle + 1) % sockets;
    idle_count--;
    return client;
}

static struct sockaddr_in address(unsigned port)
{
    struct sockaddr_in at = {.sin_family = AF_INET, .sin_port = htons((uint16_t)port)};
    at.sin_addr.s_addr = htonl(INADDR_LOOPBACK);
    return at;
}

static void open_client(unsigned number, int events)
{
    struct client *client = &clients[number];
    struct sockaddr_in here = address(first_port + number), there = address(server_port);
    struct epoll_event event = {.events = EPOLLIN, .data.ptr = client};
    client->socket = socket(AF_INET, SOCK_DGRAM | SOCK_NONBLOCK, 0);
    if (client->socket < 0)
        fail("socket");
    if (bind(client->socket, (struct sockaddr *)&here, sizeof here) < 0)
        fail("bind");
    if (connect(client->socket, (struct sockaddr *)&there, sizeof there) < 0)
        fail("connect");
    if (epoll_ctl(events, EPOLL_CTL_ADD, client->socket, &event) < 0)
        fail("epoll");
    client->left = requests / sockets + (number < requests % sockets);
    client->name = number % names;
    set_idle(client);
}

static void send_next(struct client *client)
{
    struct message *message = &prepared[client->name];
    uint16_t id = htons(++client->id);
    uint32_t token = htonl(++last_token);
    memcpy(client->key, &id, sizeof id);
    memcpy(client->key + sizeof id, &token, sizeof token);
    memcpy(message->octets + 2, client->key, sizeof client->key);
    if (send(client->socket, message->octets, message->length, 0) < 0)
        fail("send");
    client->sent_at = now();
    client->is_waiting = true;
    client->left--;
    client->name = (client->name + sockets) % names;
    in_flight++;
}

static void set_done(struct client *client)
{
    client->is_waiting = false;
    in_flight--;
    set_idle(client);
}

static void receive(struct client *client)
{
    uint8_t answer[MOST_OCTETS];
    ssize_t length = recv(client->socket, answer, sizeof answer, 0);
    if (length < 0)
        return;
    if (!client->is_waiting || length < HEADER + TOKEN
        || memcmp(answer + 2, client->key, sizeof client->key) != 0) {
        wrong++;
        return;
    }
    answered++;
    classes[answer[1] >> 5]++;
    ended_at = now();
    set_done(client);
}

static void give_up_late(void)
{
    uint64_t moment = now();
    for (unsigned number = 0; number < sockets; number++) {
        struct client *client = &clients[number];
        if (client->is_waiting && moment - client->sent_at > ANSWER_NANOSECONDS) {
            lost++;
            set_done(client);
        }
    }
}

static void run(int events)
{
    struct epoll_event ready[MOST_EVENTS];
    uint64_t looked_at = now();
    begun_at = ended_at = looked_at;
    while (answered + lost < requests) {
        while (in_flight < window && idle_count > 0)
            send_next(next_idle());
        int count = epoll_wait(events, ready, MOST_EVENTS, POLL_MILLISECONDS);
        for (int place = 0; place < count; place++)
            receive(ready[place].data.ptr);
        if (now() - looked_at > POLL_MILLISECONDS * 1000000ull) {
            looked_at = now();
            give_up_late();
        }
    }
}

/* The command line. */

static unsigned number_of(const char *text)
{
    char *end;
    unsigned long number = strtoul(text, &end, 10);
    if (*end != '\0' || number == 0 || number > 1000000000) {
        fprintf(stderr, "load: %s is no number above 0\n", text);
        exit(1);
    }
    return (unsigned)number;
}

static void read_words(int count, char **words)
{
    for (int option; (option = getopt(count, words, "p:f:s:w:n:r:b:")) != -1;)
        switch (option) {
        case 'p': server_port = number_of(optarg); break;
        case 'f': first_port = number_of(optarg); break;
        case 's': sockets = number_of(optarg); break;
        case 'w': window = number_of(optarg); break;
        case 'n': names = number_of(optarg); break;
        case 'r': requests = number_of(optarg); break;
        case 'b': body = optarg; break;
        default: exit(1);
        }
    if (optind + 1 != count || server_port == 0) {
        fprintf(stderr, "usage: load -p PORT [-f PORT] [-s N] [-w N] [-n N] [-r N] [-b BODY] "
                        "TARGET\n");
        exit(1);
    }
    target = words[optind];
}

static void allow_sockets(void)
{
    struct rlimit files;
    if (getrlimit(RLIMIT_NOFILE, &files) == 0) {
        files.rlim_cur = files.rlim_max;
        setrlimit(RLIMIT_NOFILE, &files);
    }
}

int main(int count, char **words)
{
    read_words(count, words);
    allow_sockets();
    prepared = room(names, sizeof *prepared);
    clients = room(sockets, sizeof *clients);
    idle = room(sockets, sizeof *idle);
    for (unsigned name = 0; name < names; name++)
        prepare(&prepared[name], name + 1);
    int events = epoll_create1(0);
    for (unsigned number = 0; number < sockets; number++)
        open_client(number, events);
    run(events);
    printf("class0=%u class2=%u class4=%u class5=%u wrong=%u lost=%u seconds=%.6f\n",
           classes[0], classes[2], classes[4], classes[5], wrong, lost,
           (double)(ended_at - begun_at) / 1e9);
    return 0;
}
