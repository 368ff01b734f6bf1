/*  A small peer of RFC 36 over libzmq, for tests/peers: what the node says to it goes through a foreign ZMTP and a
 *  foreign reader, and what it says to the node through a foreign writer.
 *
 *      peer ID HOST PORT NAME TO [HEADER=VALUE]..
 *
 *  Its mailbox is a ROUTER with handover; for each peer that it knows it has one DEALER with the identity 01 and its
 *  own UUID. Beacons go and come by plain sockets. It takes lines as `zre chat` does: join GROUP, leave GROUP, shout
 *  GROUP TEXT, whisper ID TEXT, quit; and besides ping ID, and mute, which ends its beacons. It writes the same lines:
 *  ENTER, JOIN, LEAVE, WHISPER, SHOUT, EXIT, STOP; and besides PINGOK ID name. Whatever a node must not do is a line
 *  BAD.
 *
 *  It keeps no deadlines: it forgets a peer by its last beacon, or by a new HELLO. It ends by itself after LIFE
 *  seconds, a minute unless it is compiled with another number; so is HIGH_WATER, how many messages libzmq holds on a
 *  connection (0: all), and BEATS, the milliseconds between heartbeats of libzmq (0: none), for whose answer it waits
 *  three times as long.
 */
#include <arpa/inet.h>
#include <stdbool.h>
#include <stdint.h>
#include <stdio.h>
#include <stdlib.h>
#include <string.h>
#include <time.h>
#include <unistd.h>
#include <zmq.h>

#ifndef LIFE
#define LIFE 60
#endif
#ifndef HIGH_WATER
#define HIGH_WATER 1000
#endif
#ifndef BEATS
#define BEATS 0
#endif

enum { HELLO = 1, WHISPER, SHOUT, JOIN, LEAVE, PING, PING_OK };
enum { PEERS = 16, GROUPS = 32, LINE = 100000, BEACON_PORT = 5670, INTERVAL = 200 };

struct octets { const uint8_t *at; size_t len; };
struct name { uint8_t at[255]; size_t len; };
struct groups { struct name at[GROUPS]; int len; };
struct peer {
    bool is_known, is_entered;
    uint8_t id[16], status;
    uint16_t sent, heard;
    void *link;
    struct name name;
    struct groups groups;
};

static struct peer peers[PEERS];
static struct groups own;
static uint8_t own_id[16], own_status;
static char endpoint[64];
static const char *name, *to;
static char **headers;
static int port, udp, headers_len;
static void *context, *mailbox;
static bool is_muted;

/* ---- Text ---- */

static void give_up(const char *why)
{
    perror(why);
    exit(1);
}

static void put_quoted(const uint8_t *at, size_t len)
{
    if (len == 0) putchar('~');
    for (size_t i = 0; i < len; i++)
        if (at[i] > 0x20 && at[i] < 0x7f && !strchr("%~=,", at[i])) putchar(at[i]);
        else printf("%%%02X", at[i]);
}

/* Heartbeats of libzmq on the connections of a socket, where there are any. */
static int beat(void *socket)
{
    return BEATS && (zmq_setsockopt(socket, ZMQ_HEARTBEAT_IVL, &(int){ BEATS }, sizeof(int))
        || zmq_setsockopt(socket, ZMQ_HEARTBEAT_TIMEOUT, &(int){ 3 * BEATS }, sizeof(int)));
}

/* The beginning of a line about a peer. */
static void tell(const char *what, const struct peer *p)
{
    printf("%s ", what);
    for (int i = 0; i < 16; i++) printf("%02X", p->id[i]);
    putchar(' ');
    put_quoted(p->name.at, p->name.len);
}

static void tell_of(const char *what, const struct peer *p, struct octets text)
{
    tell(what, p);
    putchar(' ');
    put_quoted(text.at, text.len);
}

static bool read_id(const char *text, uint8_t *id)
{
    for (int i = 0; i < 16; i++)
        if (sscanf(text + 2 * i, "%2hhx", &id[i]) != 1) return false;
    return true;
}

static struct name unquoted(const char *text)
{
    struct name n = { .len = 0 };
    if (!strcmp(text, "~")) return n;
    for (; *text && n.len < sizeof n.at; text++)
        if (*text != '%') n.at[n.len++] = *text;
        else if (sscanf(text + 1, "%2hhx", &n.at[n.len]) == 1) n.len++, text += 2;
    return n;
}

/* ---- Groups ---- */

static int place_of(const struct groups *g, struct octets group)
{
    for (int i = 0; i < g->len; i++)
        if (g->at[i].len == group.len && !memcmp(g->at[i].at, group.at, group.len)) return i;
    return -1;
}

static bool change(struct groups *g, bool joins, struct octets group)
{
    int i = place_of(g, group);
    if (joins == (i >= 0) || group.len > 255 || (joins && g->len == GROUPS)) return false;
    if (joins) {
        memcpy(g->at[g->len].at, group.at, group.len);
        g->at[g->len++].len = group.len;
    } else g->at[i] = g->at[--g->len];
    return true;
}

/* ---- Messages out ---- */

static uint8_t out[1 << 16];
static size_t out_len;

static void add(const void *at, size_t len)
{
    if (len > sizeof out - out_len) give_up("a message is too large");
    memcpy(out + out_len, at, len);
    out_len += len;
}

static void add_number(uint32_t value, int size)
{
    for (int i = size - 1; i >= 0; i--) add(&(uint8_t){ value >> 8 * i }, 1);
}

static void add_text(const void *at, size_t len, int size)
{
    add_number(len, size);
    add(at, len);
}

static void begin(struct peer *p, int command)
{
    out_len = 0;
    add("\xaa\xa1", 2);
    add_number(command, 1);
    add_number(2, 1);
    add_number(++p->sent, 2);
}

static void send_out(struct peer *p, const char *content)
{
    if (zmq_send(p->link, out, out_len, ZMQ_DONTWAIT | (content ? ZMQ_SNDMORE : 0)) < 0
        || (content && zmq_send(p->link, content, strlen(content), ZMQ_DONTWAIT) < 0))
        puts("BAD link takes no message");
}

static void send_simple(struct peer *p, int command, const struct name *group, bool has_status, const char *content)
{
    begin(p, command);
    if (group) add_text(group->at, group->len, 1);
    if (has_status) add_number(own_status, 1);
    send_out(p, content);
}

static void send_hello(struct peer *p)
{
    begin(p, HELLO);
    add_text(endpoint, strlen(endpoint), 1);
    add_number(own.len, 4);
    for (int i = 0; i < own.len; i++) add_text(own.at[i].at, own.at[i].len, 4);
    add_number(own_status, 1);
    add_text(name, strlen(name), 1);
    add_number(headers_len, 4);
    for (int i = 0; i < headers_len; i++) {
        size_t len = strcspn(headers[i], "=");
        add_text(headers[i], len, 1);
        add_text(headers[i] + len + 1, strlen(headers[i] + len + 1), 4);
    }
    send_out(p, NULL);
}

/* ---- Peers ---- */

static struct peer *peer_of(const uint8_t *id)
{
    for (int i = 0; i < PEERS; i++)
        if (peers[i].is_known && !memcmp(peers[i].id, id, 16)) return &peers[i];
    return NULL;
}

static void forget(struct peer *p, const char *cause)
{
    if (p->is_entered) {
        tell("EXIT", p);
        printf(" %s\n", cause);
    }
    zmq_close(p->link);
    memset(p, 0, sizeof *p);
}

static struct peer *meet(const uint8_t *id, const char *at)
{
    struct peer *p = peers;
    while (p < peers + PEERS && p->is_known) p++;
    if (p == peers + PEERS) give_up("too many peers");
    uint8_t identity[17] = { 1 };
    memcpy(identity + 1, own_id, 16);
    memcpy(p->id, id, 16);
    p->is_known = true;
    p->link = zmq_socket(context, ZMQ_DEALER);
    if (!p->link || zmq_setsockopt(p->link, ZMQ_ROUTING_ID, identity, 17)
        || zmq_setsockopt(p->link, ZMQ_SNDHWM, &(int){ HIGH_WATER }, sizeof(int))
        || zmq_setsockopt(p->link, ZMQ_LINGER, &(int){ 0 }, sizeof(int))
        || beat(p->link) || zmq_connect(p->link, at)) give_up(at);
    send_hello(p);
    return p;
}

/* ---- Messages in ---- */

struct cursor { const uint8_t *at, *end; bool is_short; };

static struct octets take(struct cursor *c, size_t len)
{
    if (c->is_short || len > (size_t)(c->end - c->at)) {
        c->is_short = true;
        return (struct octets){ (const uint8_t *)"", 0 };
    }
    c->at += len;
    return (struct octets){ c->at - len, len };
}

static uint32_t number(struct cursor *c, int size)
{
    struct octets o = take(c, size);
    uint32_t value = 0;
    for (size_t i = 0; i < o.len; i++) value = value << 8 | o.at[i];
    return value;
}

static struct octets text(struct cursor *c, int size) { return take(c, number(c, size)); }

/* What a HELLO says is told at once: ENTER, then JOIN for each group. */
static void hear_hello(const uint8_t *id, struct cursor *c)
{
    char at[256] = "";
    struct octets place = text(c, 1);
    memcpy(at, place.at, place.len);
    struct cursor groups = *c;
    for (uint32_t n = number(c, 4); n > 0 && !c->is_short; n--) text(c, 4);
    uint8_t status = number(c, 1);
    struct octets its_name = text(c, 1);
    struct cursor pairs = *c;
    for (uint32_t n = number(c, 4); n > 0 && !c->is_short; n--) text(c, 1), text(c, 4);
    if (c->is_short || c->at != c->end) { puts("BAD HELLO"); return; }
    struct peer *p = peer_of(id);
    if (p && p->is_entered) forget(p, "hello"), p = NULL;
    if (!p) p = meet(id, at);
    p->is_entered = true;
    p->heard = 1;
    p->status = status;
    memcpy(p->name.at, its_name.at, p->name.len = its_name.len);
    tell_of("ENTER", p, place);
    uint32_t n = number(&pairs, 4);
    putchar(' ');
    if (n == 0) putchar('%');
    for (uint32_t i = 0; i < n; i++) {
        struct octets key = text(&pairs, 1), value = text(&pairs, 4);
        if (i) putchar(',');
        put_quoted(key.at, key.len);
        putchar('=');
        put_quoted(value.at, value.len);
    }
    putchar('\n');
    for (n = number(&groups, 4); n > 0; n--) {
        struct octets group = text(&groups, 4);
        if (!change(&p->groups, true, group)) puts("BAD groups of HELLO");
        tell_of("JOIN", p, group);
        putchar('\n');
    }
}

static void hear(const uint8_t *id, struct octets first, const struct octets *content, int frames)
{
    struct cursor c = { first.at, first.at + first.len, false };
    uint32_t signature = number(&c, 2), command = number(&c, 1), version = number(&c, 1), sequence = number(&c, 2);
    struct peer *p = peer_of(id);
    uint32_t due = command == HELLO ? 1 : p && p->is_entered ? (uint16_t)(p->heard + 1) : 0x10000;
    if (c.is_short || signature != 0xaaa1 || version != 2 || sequence != due) {
        printf("BAD message %u with the number %u, due was %u, of ", command, sequence, due);
        for (int i = 0; i < 16; i++) printf("%02X", id[i]);
        putchar('\n');
        return;
    }
    if (command == HELLO) { hear_hello(id, &c); return; }
    p->heard = sequence;
    struct octets group = { (const uint8_t *)"", 0 };
    if (command >= SHOUT && command <= LEAVE) group = text(&c, 1);
    uint8_t status = command == JOIN || command == LEAVE ? number(&c, 1) : 0;
    if (c.is_short || c.at != c.end || (frames > 0) != (command == WHISPER || command == SHOUT)) {
        printf("BAD frames of message %u\n", command);
        return;
    }
    if (command == JOIN || command == LEAVE) {
        if (!change(&p->groups, command == JOIN, group) || status != ++p->status) puts("BAD group or status");
        tell_of(command == JOIN ? "JOIN" : "LEAVE", p, group);
    } else if (command == SHOUT) {
        if (place_of(&own, group) < 0) puts("BAD shout to a group that this peer isn't in");
        tell_of("SHOUT", p, group);
    } else if (command == WHISPER) tell("WHISPER", p);
    else if (command == PING_OK) tell("PINGOK", p);
    else if (command == PING) { send_simple(p, PING_OK, NULL, false, NULL); return; }
    else printf("BAD command %u", command);
    for (int i = 0; i < frames; i++) {
        putchar(i ? ',' : ' ');
        put_quoted(content[i].at, content[i].len);
    }
    putchar('\n');
}

/* The identity, the first frame, and a few frames of content. */
static void receive(void)
{
    zmq_msg_t frames[6];
    struct octets o[6];
    int n = 0;
    do {
        if (n == 6) { puts("BAD number of frames"); exit(1); }
        zmq_msg_init(&frames[n]);
        if (zmq_msg_recv(&frames[n], mailbox, 0) < 0) give_up("mailbox");
        o[n] = (struct octets){ zmq_msg_data(&frames[n]), zmq_msg_size(&frames[n]) };
    } while (zmq_msg_more(&frames[n++]));
    if (n < 2 || o[0].len != 17 || o[0].at[0] != 1) printf("BAD identity of %zu octets\n", o[0].len);
    else hear(o[0].at + 1, o[1], o + 2, n - 2);
    while (n > 0) zmq_msg_close(&frames[--n]);
}

/* ---- Beacons ---- */

static void open_udp(void)
{
    struct sockaddr_in a = { .sin_family = AF_INET, .sin_port = htons(BEACON_PORT) };
    udp = socket(AF_INET, SOCK_DGRAM, 0);
    if (udp < 0 || setsockopt(udp, SOL_SOCKET, SO_BROADCAST, &(int){ 1 }, sizeof(int))
        || bind(udp, (struct sockaddr *)&a, sizeof a)) give_up("beacons");
}

static void send_beacon(int its_port)
{
    struct sockaddr_in a = { .sin_family = AF_INET, .sin_port = htons(BEACON_PORT) };
    uint8_t beacon[22] = { 'Z', 'R', 'E', 1 };
    memcpy(beacon + 4, own_id, 16);
    beacon[20] = its_port >> 8;
    beacon[21] = its_port & 255;
    inet_pton(AF_INET, to, &a.sin_addr);
    if (sendto(udp, beacon, sizeof beacon, 0, (struct sockaddr *)&a, sizeof a) != sizeof beacon) give_up(to);
}

static void receive_beacon(void)
{
    uint8_t b[64];
    char from[INET_ADDRSTRLEN], at[64];
    struct sockaddr_in a;
    ssize_t n = recvfrom(udp, b, sizeof b, 0, (struct sockaddr *)&a, &(socklen_t){ sizeof a });
    if (n != 22 || memcmp(b, "ZRE\1", 4)) { puts("BAD beacon"); return; }
    if (!memcmp(b + 4, own_id, 16)) return;
    struct peer *p = peer_of(b + 4);
    int its_port = b[20] << 8 | b[21];
    if (its_port == 0 && p) forget(p, "beacon");
    if (its_port == 0 || p) return;
    inet_ntop(AF_INET, &a.sin_addr, from, sizeof from);
    snprintf(at, sizeof at, "tcp://%s:%d", from, its_port);
    meet(b + 4, at);
}

/* ---- Lines ---- */

static char *cut(char **rest)
{
    char *word = strsep(rest, " ");
    if (!*rest) *rest = "";
    return word;
}

/* Whether to go on. */
static bool obey(char *line)
{
    char *rest = line, *verb = cut(&rest);
    bool joins = !strcmp(verb, "join"), leaves = !strcmp(verb, "leave");
    if (!strcmp(verb, "quit")) return false;
    if (!strcmp(verb, "mute")) is_muted = true;
    else if (joins || leaves) {
        struct name group = unquoted(rest);
        if (!change(&own, joins, (struct octets){ group.at, group.len })) { puts("REFUSED"); return true; }
        own_status++;
        for (struct peer *p = peers; p < peers + PEERS; p++)
            if (p->is_known) send_simple(p, joins ? JOIN : LEAVE, &group, true, NULL);
    } else if (!strcmp(verb, "shout")) {
        struct name group = unquoted(cut(&rest));
        for (struct peer *p = peers; p < peers + PEERS; p++)
            if (p->is_entered && place_of(&p->groups, (struct octets){ group.at, group.len }) >= 0)
                send_simple(p, SHOUT, &group, false, rest);
    } else if (!strcmp(verb, "whisper") || !strcmp(verb, "ping")) {
        uint8_t id[16];
        struct peer *p = read_id(cut(&rest), id) ? peer_of(id) : NULL;
        if (!p) puts("REFUSED");
        else if (*verb == 'w') send_simple(p, WHISPER, NULL, false, rest);
        else send_simple(p, PING, NULL, false, NULL);
    } else puts("REFUSED");
    return true;
}

/* Whether to go on. The end of input is quit. */
static bool read_lines(void)
{
    static char line[LINE];
    static size_t len;
    ssize_t n = read(STDIN_FILENO, line + len, LINE - len);
    if (n <= 0) return false;
    len += n;
    for (char *end; (end = memchr(line, '\n', len)); memmove(line, end + 1, len)) {
        *end = 0;
        len -= end + 1 - line;
        if (!obey(line)) return false;
    }
    return len < LINE;
}

static int64_t now(void)
{
    struct timespec t;
    clock_gettime(CLOCK_MONOTONIC, &t);
    return (int64_t)t.tv_sec * 1000 + t.tv_nsec / 1000000;
}

int main(int count, char **words)
{
    if (count < 6 || !read_id(words[1], own_id)) { puts("USAGE"); return 2; }
    port = atoi(words[3]);
    name = words[4];
    to = words[5];
    headers = words + 6;
    headers_len = count - 6;
    for (int i = 0; i < headers_len; i++)
        if (!strchr(headers[i], '=')) { puts("USAGE"); return 2; }
    snprintf(endpoint, sizeof endpoint, "tcp://%s:%d", words[2], port);
    setvbuf(stdout, NULL, _IOLBF, 0);
    alarm(LIFE);
    context = zmq_ctx_new();
    mailbox = zmq_socket(context, ZMQ_ROUTER);
    if (!mailbox || beat(mailbox) || zmq_setsockopt(mailbox, ZMQ_ROUTER_HANDOVER, &(int){ 1 }, sizeof(int))
        || zmq_setsockopt(mailbox, ZMQ_RCVHWM, &(int){ HIGH_WATER }, sizeof(int))
        || zmq_bind(mailbox, endpoint)) give_up(endpoint);
    open_udp();
    int64_t due = now();
    for (bool goes_on = true; goes_on;) {
        zmq_pollitem_t items[] = {
            { mailbox, 0, ZMQ_POLLIN, 0 }, { NULL, udp, ZMQ_POLLIN, 0 }, { NULL, STDIN_FILENO, ZMQ_POLLIN, 0 } };
        int64_t wait = due - now();
        if (zmq_poll(items, 3, wait > 0 ? wait : 0) < 0) give_up("poll");
        if (items[0].revents) receive();
        if (items[1].revents) receive_beacon();
        if (items[2].revents) goes_on = read_lines();
        if (now() < due) continue;
        if (!is_muted) send_beacon(port);
        due = now() + INTERVAL;
    }
    /* The last beacon arrives before its connections end, since a node may tell either as the cause. */
    send_beacon(0);
    usleep(500000);
    puts("STOP");
    return 0;
}
