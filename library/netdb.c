/* The calls of netdb.h over the exports of crates/netdb_c: what an export takes as a place is tested here for null, and a slice of no bytes
   gets an address. Nothing else is decided here. */
#define _POSIX_C_SOURCE 200809L
#include "netdb.h"
#include <errno.h>
#include <stdio.h>
#include <unistd.h>

typedef uint32_t status_number;

/* The exports, which take places that are not null. The kinds of handle are one struct to them. */
status_number netdb_c_open(netdb *of, const uint8_t *bytes, size_t length);
void netdb_c_close(netdb *of);
size_t netdb_c_text_length(netdb *of);
size_t netdb_c_text(netdb *of, uint8_t *room, size_t length);
status_number netdb_c_pin(netdb *of, uint32_t seat, uint64_t *version);
status_number netdb_c_pin_at(netdb *of, uint32_t seat, uint64_t wanted, uint64_t *version);
status_number netdb_c_begin(netdb *of, uint32_t seat);
status_number netdb_c_line(netdb *of, uint32_t seat, const uint8_t *line, size_t length);
status_number netdb_c_commit(netdb *of, uint32_t seat, uint64_t *version);
status_number netdb_c_abandon(netdb *of, uint32_t seat);
status_number netdb_c_release(netdb *of, uint32_t seat);
status_number netdb_c_collect(netdb *of, uint32_t seat, uint64_t *dropped);
status_number netdb_c_view(netdb *of, uint32_t seat, netdb_view *out);
status_number netdb_c_version(netdb_view *of, uint64_t *version);
status_number netdb_c_walk(netdb_view *of);
status_number netdb_c_walk_at(netdb_view *of, const uint32_t *path, size_t steps);
status_number netdb_c_next(netdb_view *of);
status_number netdb_c_field(netdb_view *of, uint32_t which);
status_number netdb_c_write(netdb_view *of, uint32_t what, int32_t fd);
status_number netdb_c_report(netdb *of, int32_t fd);
status_number netdb_c_ask(netdb *of, uint32_t seat, netdb_ask *out);
status_number netdb_c_ask_version(netdb_ask *of, uint64_t *version);
status_number netdb_c_ask_at(netdb_ask *of, const uint8_t *path, size_t path_length);
status_number netdb_c_ask_net_of(netdb_ask *of, const uint8_t *path, size_t path_length, const uint8_t *port, size_t port_length, uint32_t bit);
status_number netdb_c_ask_inner_net_of(netdb_ask *of, const uint8_t *path, size_t path_length, const uint8_t *port, size_t port_length, uint32_t bit);
status_number netdb_c_ask_first_of(netdb_ask *of, const uint8_t *path, size_t path_length, const uint8_t *net, size_t net_length);
status_number netdb_c_ask_same(netdb_ask *of, const uint8_t *path, size_t path_length, const uint8_t *net, size_t net_length,
                               const uint8_t *other_path, size_t other_path_length, const uint8_t *other_net, size_t other_net_length);
status_number netdb_c_ask_pins(netdb_ask *of, const uint8_t *path, size_t path_length, const uint8_t *net, size_t net_length, uint32_t role);
status_number netdb_c_ask_insts(netdb_ask *of, const uint8_t *path, size_t path_length);
status_number netdb_c_ask_nets(netdb_ask *of, const uint8_t *path, size_t path_length);
status_number netdb_c_ask_next(netdb_ask *of);

uint32_t netdb_interface(void) { return NETDB_INTERFACE; }

const char *netdb_status_name(netdb_status status) {
    switch (status) {
    case NETDB_DONE: return "done";
    case NETDB_WRONG_USE: return "wrong use";
    case NETDB_BAD_DESIGN: return "bad design";
    case NETDB_BAD_LINE: return "bad line";
    case NETDB_CONFLICT: return "conflict";
    case NETDB_LOG_FULL: return "log full";
    case NETDB_NO_MEMORY: return "no memory";
    case NETDB_END: return "end";
    case NETDB_NO_TOP: return "no top";
    case NETDB_TOO_LARGE: return "too large";
    case NETDB_NO_VERSION: return "no version";
    case NETDB_GONE: return "gone";
    case NETDB_NO_PATH: return "no path";
    case NETDB_WRITE_FAULT: return "write fault";
    case NETDB_NO_FIELD: return "no field";
    case NETDB_STOPPED: return "stopped";
    case NETDB_TEXT_LOST: return "text lost";
    case NETDB_NO_NAME: return "no name";
    case NETDB_NO_NET: return "no net";
    case NETDB_APART: return "apart";
    }
    return "unknown";
}

/* An address for a length of 0. */
static uint64_t nowhere;

static int is_there(const void *at, size_t length) { return at || !length; }
static const void *from(const void *at) { return at ? at : &nowhere; }

netdb_status netdb_open(netdb *db, const void *bytes, size_t length) {
    if (!db || !is_there(bytes, length)) return NETDB_WRONG_USE;
    return (netdb_status)netdb_c_open(db, (const uint8_t *)from(bytes), length);
}

void netdb_close(netdb *db) {
    if (db) netdb_c_close(db);
}

size_t netdb_text(const netdb *db, char *room, size_t length) {
    netdb *of = (netdb *)db;
    if (!of) return 0;
    if (room && length) {
        size_t copied = netdb_c_text(of, (uint8_t *)room, length);
        if (copied < length) return copied; /* the whole text, since there was room for more */
    }
    return netdb_c_text_length(of);
}

netdb_status netdb_pin(netdb *db, uint32_t seat, uint64_t *version) {
    return db && version ? (netdb_status)netdb_c_pin(db, seat, version) : NETDB_WRONG_USE;
}

netdb_status netdb_pin_at(netdb *db, uint32_t seat, uint64_t wanted, uint64_t *version) {
    return db && version ? (netdb_status)netdb_c_pin_at(db, seat, wanted, version) : NETDB_WRONG_USE;
}

netdb_status netdb_begin(netdb *db, uint32_t seat) {
    return db ? (netdb_status)netdb_c_begin(db, seat) : NETDB_WRONG_USE;
}

netdb_status netdb_line(netdb *db, uint32_t seat, const char *line, size_t length) {
    if (!db || !is_there(line, length)) return NETDB_WRONG_USE;
    return (netdb_status)netdb_c_line(db, seat, (const uint8_t *)from(line), length);
}

netdb_status netdb_commit(netdb *db, uint32_t seat, uint64_t *version) {
    return db && version ? (netdb_status)netdb_c_commit(db, seat, version) : NETDB_WRONG_USE;
}

netdb_status netdb_abandon(netdb *db, uint32_t seat) {
    return db ? (netdb_status)netdb_c_abandon(db, seat) : NETDB_WRONG_USE;
}

netdb_status netdb_release(netdb *db, uint32_t seat) {
    return db ? (netdb_status)netdb_c_release(db, seat) : NETDB_WRONG_USE;
}

netdb_status netdb_collect(netdb *db, uint32_t seat, uint64_t *dropped) {
    return db && dropped ? (netdb_status)netdb_c_collect(db, seat, dropped) : NETDB_WRONG_USE;
}

netdb_status netdb_view_open(netdb_view *view, const netdb *db, uint32_t seat) {
    if (!view || !db || (const void *)view == (const void *)db) return NETDB_WRONG_USE;
    return (netdb_status)netdb_c_view((netdb *)db, seat, view);
}

void netdb_view_close(netdb_view *view) { netdb_close((netdb *)view); }

size_t netdb_view_text(const netdb_view *view, char *room, size_t length) { return netdb_text((const netdb *)view, room, length); }

netdb_status netdb_view_version(const netdb_view *view, uint64_t *version) {
    return view && version ? (netdb_status)netdb_c_version((netdb_view *)view, version) : NETDB_WRONG_USE;
}

netdb_status netdb_walk(netdb_view *view) { return view ? (netdb_status)netdb_c_walk(view) : NETDB_WRONG_USE; }

netdb_status netdb_walk_at(netdb_view *view, const uint32_t *path, size_t steps) {
    if (!view || !is_there(path, steps)) return NETDB_WRONG_USE;
    return (netdb_status)netdb_c_walk_at(view, (const uint32_t *)from(path), steps);
}

netdb_status netdb_next(netdb_view *view) { return view ? (netdb_status)netdb_c_next(view) : NETDB_WRONG_USE; }

netdb_status netdb_view_field(netdb_view *view, netdb_field which) {
    return view ? (netdb_status)netdb_c_field(view, (uint32_t)which) : NETDB_WRONG_USE;
}

netdb_status netdb_write_fd(const netdb_view *view, netdb_what what, int fd) {
    return view ? (netdb_status)netdb_c_write((netdb_view *)view, (uint32_t)what, fd) : NETDB_WRONG_USE;
}

/* Hands what stands in a file from its beginning on to a function. */
static netdb_status hand_on(int fd, netdb_take *take, void *context) {
    char piece[65536];
    ssize_t got;
    if (lseek(fd, 0, SEEK_SET)) return NETDB_WRITE_FAULT;
    for (;;) {
        got = read(fd, piece, sizeof piece);
        if (got < 0 && errno == EINTR) continue;
        if (got <= 0) return got ? NETDB_WRITE_FAULT : NETDB_DONE;
        if (take(context, piece, (size_t)got)) return NETDB_STOPPED;
    }
}

/* What was written to a temporary file, handed on: all of it, or the front that there is. */
static netdb_status closed(FILE *file, netdb_status status, netdb_take *take, void *context) {
    netdb_status handed = NETDB_DONE;
    if (status == NETDB_DONE || status == NETDB_NO_MEMORY || status == NETDB_WRITE_FAULT) handed = hand_on(fileno(file), take, context);
    fclose(file);
    return status == NETDB_DONE ? handed : status;
}

netdb_status netdb_write(const netdb_view *view, netdb_what what, netdb_take *take, void *context) {
    FILE *file;
    if (!view || !take) return NETDB_WRONG_USE;
    if (!(file = tmpfile())) return NETDB_WRITE_FAULT;
    return closed(file, netdb_write_fd(view, what, fileno(file)), take, context);
}

netdb_status netdb_report_fd(const netdb *db, int fd) { return db ? (netdb_status)netdb_c_report((netdb *)db, fd) : NETDB_WRONG_USE; }

netdb_status netdb_report(const netdb *db, netdb_take *take, void *context) {
    FILE *file;
    if (!db || !take) return NETDB_WRONG_USE;
    if (!(file = tmpfile())) return NETDB_WRITE_FAULT;
    return closed(file, netdb_report_fd(db, fileno(file)), take, context);
}

netdb_status netdb_ask_open(netdb_ask *ask, const netdb *db, uint32_t seat) {
    if (!ask || !db || (const void *)ask == (const void *)db) return NETDB_WRONG_USE;
    return (netdb_status)netdb_c_ask((netdb *)db, seat, ask);
}

void netdb_ask_close(netdb_ask *ask) { netdb_close((netdb *)ask); }

size_t netdb_ask_text(const netdb_ask *ask, char *room, size_t length) { return netdb_text((const netdb *)ask, room, length); }

netdb_status netdb_ask_version(const netdb_ask *ask, uint64_t *version) {
    return ask && version ? (netdb_status)netdb_c_ask_version((netdb_ask *)ask, version) : NETDB_WRONG_USE;
}

/* A text as a row of bytes. */
static const uint8_t *bytes_of(const char *text) { return (const uint8_t *)from(text); }

netdb_status netdb_ask_at(netdb_ask *ask, const char *path, size_t path_length) {
    if (!ask || !is_there(path, path_length)) return NETDB_WRONG_USE;
    return (netdb_status)netdb_c_ask_at(ask, bytes_of(path), path_length);
}

netdb_status netdb_ask_net_of(netdb_ask *ask, const char *path, size_t path_length, const char *port, size_t port_length, uint32_t bit) {
    if (!ask || !is_there(path, path_length) || !is_there(port, port_length)) return NETDB_WRONG_USE;
    return (netdb_status)netdb_c_ask_net_of(ask, bytes_of(path), path_length, bytes_of(port), port_length, bit);
}

netdb_status netdb_ask_inner_net_of(netdb_ask *ask, const char *path, size_t path_length, const char *port, size_t port_length, uint32_t bit) {
    if (!ask || !is_there(path, path_length) || !is_there(port, port_length)) return NETDB_WRONG_USE;
    return (netdb_status)netdb_c_ask_inner_net_of(ask, bytes_of(path), path_length, bytes_of(port), port_length, bit);
}

netdb_status netdb_ask_first_of(netdb_ask *ask, const char *path, size_t path_length, const char *net, size_t net_length) {
    if (!ask || !is_there(path, path_length) || !is_there(net, net_length)) return NETDB_WRONG_USE;
    return (netdb_status)netdb_c_ask_first_of(ask, bytes_of(path), path_length, bytes_of(net), net_length);
}

netdb_status netdb_ask_same(netdb_ask *ask, const char *path, size_t path_length, const char *net, size_t net_length,
                            const char *other_path, size_t other_path_length, const char *other_net, size_t other_net_length) {
    if (!ask || !is_there(path, path_length) || !is_there(net, net_length)) return NETDB_WRONG_USE;
    if (!is_there(other_path, other_path_length) || !is_there(other_net, other_net_length)) return NETDB_WRONG_USE;
    return (netdb_status)netdb_c_ask_same(ask, bytes_of(path), path_length, bytes_of(net), net_length, bytes_of(other_path), other_path_length,
                                          bytes_of(other_net), other_net_length);
}

netdb_status netdb_ask_pins(netdb_ask *ask, const char *path, size_t path_length, const char *net, size_t net_length, netdb_role role) {
    if (!ask || !is_there(path, path_length) || !is_there(net, net_length)) return NETDB_WRONG_USE;
    return (netdb_status)netdb_c_ask_pins(ask, bytes_of(path), path_length, bytes_of(net), net_length, (uint32_t)role);
}

netdb_status netdb_ask_insts(netdb_ask *ask, const char *path, size_t path_length) {
    if (!ask || !is_there(path, path_length)) return NETDB_WRONG_USE;
    return (netdb_status)netdb_c_ask_insts(ask, bytes_of(path), path_length);
}

netdb_status netdb_ask_nets(netdb_ask *ask, const char *path, size_t path_length) {
    if (!ask || !is_there(path, path_length)) return NETDB_WRONG_USE;
    return (netdb_status)netdb_c_ask_nets(ask, bytes_of(path), path_length);
}

netdb_status netdb_ask_next(netdb_ask *ask) { return ask ? (netdb_status)netdb_c_ask_next(ask) : NETDB_WRONG_USE; }
