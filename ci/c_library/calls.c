/* Calls of netdb.h on the example of two stages: two seats that conflict, walks, texts, and each status at least once. It ends with 0,
   or with 1 and the line of the first check that fails.

       calls DESIGN         all that wants no failing allocator
       calls DESIGN K       a small run in which the Kth allocation fails: each call is done, or answers that there is no memory and is
                            done when it is made again. It ends with 3 where there are fewer than K allocations.
       calls DESIGN items   walks over all items by `next`, and writes how many there are. */
#include "netdb.h"
#include <stdio.h>
#include <stdlib.h>
#include <string.h>

#define WANT(x) do { if (!(x)) { fprintf(stderr, "calls: line %d: %s\n", __LINE__, #x); exit(1); } } while (0)

/* The allocator: the Kth call of malloc or realloc fails, where K is not 0. Linked with --wrap. */
static unsigned long fails_at, asked;
void *__real_malloc(size_t size);
void *__real_realloc(void *at, size_t size);
void *__wrap_malloc(size_t size);
void *__wrap_realloc(void *at, size_t size);
void *__wrap_malloc(size_t size) { return fails_at && ++asked == fails_at ? NULL : __real_malloc(size); }
void *__wrap_realloc(void *at, size_t size) { return fails_at && ++asked == fails_at ? NULL : __real_realloc(at, size); }

static unsigned char bytes[1 << 24];
static size_t length;

static void read_design(const char *path) {
    FILE *file = fopen(path, "rb");
    WANT(file);
    length = fread(bytes, 1, sizeof bytes, file);
    WANT(length > 0 && length < sizeof bytes);
    fclose(file);
}

static netdb_status line(netdb *db, uint32_t seat, const char *text) { return netdb_line(db, seat, text, strlen(text)); }

/* Whether the text of a handle is this. */
static int says(const netdb *db, const char *want) {
    char room[4096];
    size_t whole = netdb_text(db, room, sizeof room);
    return whole == strlen(want) && !memcmp(room, want, whole);
}

static int view_says(const netdb_view *view, const char *want) {
    char room[4096];
    size_t whole = netdb_view_text(view, room, sizeof room);
    return whole == strlen(want) && !memcmp(room, want, whole);
}

static int ask_says(const netdb_ask *ask, const char *want) {
    char room[4096];
    size_t whole = netdb_ask_text(ask, room, sizeof room);
    return whole == strlen(want) && !memcmp(room, want, whole);
}

/* Whether a text comes as far as there is room, for each length of room up to two bytes more than it has. */
static int comes_to_each_room(const netdb *db) {
    char text[4096], room[4096];
    size_t whole = netdb_text(db, text, sizeof text), k;
    if (!whole || whole + 2 > sizeof room) return 0;
    for (k = 0; k <= whole + 2; k++) {
        size_t part = k < whole ? k : whole;
        memset(room, '#', sizeof room);
        if (netdb_text(db, room, k) != whole || memcmp(room, text, part) || room[part] != '#') return 0;
    }
    return netdb_text(db, NULL, 0) == whole;
}

/* Gathers pieces, as many bytes as there is room for; stops where it is told so. */
struct gathered {
    size_t length, calls;
    int stops;
    char bytes[1 << 16];
};

static int gather(void *context, const void *piece, size_t count) {
    struct gathered *to = context;
    to->calls++;
    if (to->stops || count > sizeof to->bytes - to->length) return 1;
    memcpy(to->bytes + to->length, piece, count);
    to->length += count;
    return 0;
}

static void misuse(void) {
    netdb db = NETDB_CLOSED;
    netdb_view view = NETDB_CLOSED;
    netdb_ask ask = NETDB_CLOSED;
    uint64_t number = 99;
    uint32_t step = 0;
    /* null addresses */
    WANT(netdb_open(NULL, bytes, length) == NETDB_WRONG_USE);
    WANT(netdb_open(&db, NULL, 1) == NETDB_WRONG_USE);
    WANT(netdb_pin(NULL, 0, &number) == NETDB_WRONG_USE);
    WANT(netdb_pin(&db, 0, NULL) == NETDB_WRONG_USE);
    WANT(netdb_pin_at(NULL, 0, 0, &number) == NETDB_WRONG_USE && netdb_pin_at(&db, 0, 0, NULL) == NETDB_WRONG_USE);
    WANT(netdb_begin(NULL, 0) == NETDB_WRONG_USE && netdb_abandon(NULL, 0) == NETDB_WRONG_USE && netdb_release(NULL, 0) == NETDB_WRONG_USE);
    WANT(netdb_line(NULL, 0, "x", 1) == NETDB_WRONG_USE && netdb_line(&db, 0, NULL, 1) == NETDB_WRONG_USE);
    WANT(netdb_commit(NULL, 0, &number) == NETDB_WRONG_USE && netdb_commit(&db, 0, NULL) == NETDB_WRONG_USE);
    WANT(netdb_collect(NULL, 0, &number) == NETDB_WRONG_USE && netdb_collect(&db, 0, NULL) == NETDB_WRONG_USE);
    WANT(netdb_view_open(NULL, &db, 0) == NETDB_WRONG_USE && netdb_view_open(&view, NULL, 0) == NETDB_WRONG_USE);
    WANT(netdb_view_open((netdb_view *)&db, &db, 0) == NETDB_WRONG_USE);
    WANT(netdb_walk(NULL) == NETDB_WRONG_USE && netdb_walk_at(NULL, &step, 1) == NETDB_WRONG_USE && netdb_walk_at(&view, NULL, 1) == NETDB_WRONG_USE);
    WANT(netdb_next(NULL) == NETDB_WRONG_USE && netdb_view_field(NULL, NETDB_KIND) == NETDB_WRONG_USE);
    WANT(netdb_view_version(NULL, &number) == NETDB_WRONG_USE && netdb_view_version(&view, NULL) == NETDB_WRONG_USE);
    WANT(netdb_write(NULL, NETDB_EDIF, gather, NULL) == NETDB_WRONG_USE && netdb_write(&view, NETDB_EDIF, NULL, NULL) == NETDB_WRONG_USE);
    WANT(netdb_write_fd(NULL, NETDB_EDIF, 1) == NETDB_WRONG_USE && netdb_report_fd(NULL, 1) == NETDB_WRONG_USE);
    WANT(netdb_report(NULL, gather, NULL) == NETDB_WRONG_USE && netdb_report(&db, NULL, NULL) == NETDB_WRONG_USE);
    WANT(netdb_text(NULL, NULL, 0) == 0 && netdb_view_text(NULL, NULL, 0) == 0 && netdb_ask_text(NULL, NULL, 0) == 0);
    WANT(netdb_ask_open(NULL, &db, 0) == NETDB_WRONG_USE && netdb_ask_open(&ask, NULL, 0) == NETDB_WRONG_USE);
    WANT(netdb_ask_open((netdb_ask *)&db, &db, 0) == NETDB_WRONG_USE);
    WANT(netdb_ask_version(NULL, &number) == NETDB_WRONG_USE && netdb_ask_version(&ask, NULL) == NETDB_WRONG_USE);
    WANT(netdb_ask_at(NULL, "/", 1) == NETDB_WRONG_USE && netdb_ask_at(&ask, NULL, 1) == NETDB_WRONG_USE);
    WANT(netdb_ask_net_of(NULL, "/", 1, "A", 1, 0) == NETDB_WRONG_USE && netdb_ask_net_of(&ask, NULL, 1, "A", 1, 0) == NETDB_WRONG_USE);
    WANT(netdb_ask_net_of(&ask, "/", 1, NULL, 1, 0) == NETDB_WRONG_USE && netdb_ask_inner_net_of(NULL, "/", 1, "A", 1, 0) == NETDB_WRONG_USE);
    WANT(netdb_ask_inner_net_of(&ask, NULL, 1, "A", 1, 0) == NETDB_WRONG_USE && netdb_ask_inner_net_of(&ask, "/", 1, NULL, 1, 0) == NETDB_WRONG_USE);
    WANT(netdb_ask_first_of(NULL, "/", 1, "a", 1) == NETDB_WRONG_USE && netdb_ask_first_of(&ask, "/", 1, NULL, 1) == NETDB_WRONG_USE);
    WANT(netdb_ask_same(NULL, "/", 1, "a", 1, "/", 1, "a", 1) == NETDB_WRONG_USE && netdb_ask_same(&ask, "/", 1, "a", 1, "/", 1, NULL, 1) == NETDB_WRONG_USE);
    WANT(netdb_ask_pins(NULL, "/", 1, "a", 1, NETDB_ANY) == NETDB_WRONG_USE && netdb_ask_pins(&ask, NULL, 1, "a", 1, NETDB_ANY) == NETDB_WRONG_USE);
    WANT(netdb_ask_insts(NULL, "/", 1) == NETDB_WRONG_USE && netdb_ask_insts(&ask, NULL, 1) == NETDB_WRONG_USE);
    WANT(netdb_ask_nets(NULL, "/", 1) == NETDB_WRONG_USE && netdb_ask_nets(&ask, NULL, 1) == NETDB_WRONG_USE && netdb_ask_next(NULL) == NETDB_WRONG_USE);
    netdb_close(NULL);
    netdb_view_close(NULL);
    netdb_ask_close(NULL);
    /* closed handles */
    WANT(netdb_pin(&db, 0, &number) == NETDB_WRONG_USE && number == 99);
    WANT(netdb_text(&db, NULL, 0) == 0);
    WANT(netdb_next(&view) == NETDB_WRONG_USE && netdb_walk(&view) == NETDB_WRONG_USE);
    WANT(netdb_view_open(&view, &db, 0) == NETDB_WRONG_USE && netdb_ask_open(&ask, &db, 0) == NETDB_WRONG_USE);
    WANT(netdb_ask_at(&ask, "/", 1) == NETDB_WRONG_USE && netdb_ask_next(&ask) == NETDB_WRONG_USE && netdb_ask_text(&ask, NULL, 0) == 0);
    netdb_close(&db);
    netdb_view_close(&view);
    netdb_ask_close(&ask);
    /* bytes that are no design, also none at all */
    WANT(netdb_open(&db, NULL, 0) == NETDB_BAD_DESIGN && netdb_text(&db, NULL, 0) > 0);
    WANT(netdb_open(&db, "(edif x)", 8) == NETDB_BAD_DESIGN && comes_to_each_room(&db));
    WANT(netdb_pin(&db, 0, &number) == NETDB_WRONG_USE);
    netdb_close(&db);
}

static void seats(void) {
    netdb db = NETDB_CLOSED;
    netdb_view view = NETDB_CLOSED;
    uint64_t number = 99;
    static char long_line[200001];
    uint32_t seat;
    WANT(netdb_open(&db, bytes, length) == NETDB_DONE);
    /* wrong seats and wrong times */
    WANT(netdb_pin(&db, NETDB_SEATS, &number) == NETDB_WRONG_USE && netdb_pin(&db, UINT32_MAX, &number) == NETDB_WRONG_USE && number == 99);
    WANT(netdb_collect(&db, NETDB_SEATS, &number) == NETDB_WRONG_USE);
    WANT(netdb_begin(&db, 0) == NETDB_WRONG_USE && netdb_release(&db, 0) == NETDB_WRONG_USE && netdb_abandon(&db, 0) == NETDB_WRONG_USE);
    WANT(line(&db, 0, "add-net work stage n") == NETDB_WRONG_USE && netdb_commit(&db, 0, &number) == NETDB_WRONG_USE);
    WANT(netdb_view_open(&view, &db, 0) == NETDB_WRONG_USE);
    WANT(netdb_pin_at(&db, 0, 7, &number) == NETDB_NO_VERSION && number == 0);
    for (seat = 0; seat < NETDB_SEATS; seat++) WANT(netdb_pin(&db, seat, &number) == NETDB_DONE && number == 0);
    WANT(netdb_pin(&db, 5, &number) == NETDB_WRONG_USE);
    for (seat = 2; seat < NETDB_SEATS; seat++) WANT(netdb_release(&db, seat) == NETDB_DONE);
    WANT(netdb_begin(&db, 0) == NETDB_DONE && netdb_begin(&db, 1) == NETDB_DONE && netdb_begin(&db, 0) == NETDB_WRONG_USE);
    /* a handle of the other kind */
    WANT(netdb_next((netdb_view *)&db) == NETDB_WRONG_USE && netdb_walk((netdb_view *)&db) == NETDB_WRONG_USE);
    /* lines */
    WANT(line(&db, 0, "add-instance nowhere") == NETDB_BAD_LINE && line(&db, 0, "commit") == NETDB_BAD_LINE && line(&db, 0, "# no") == NETDB_BAD_LINE);
    WANT(netdb_line(&db, 0, NULL, 0) == NETDB_BAD_LINE);
    WANT(line(&db, 0, "add-net work stage m\nadd-net work stage n") == NETDB_BAD_LINE);
    memset(long_line, ' ', sizeof long_line);
    WANT(netdb_line(&db, 0, long_line, sizeof long_line) == NETDB_TOO_LARGE);
    WANT(line(&db, 0, "set-prop work stage inst i SIZE int 2") == NETDB_DONE && says(&db, "done\n"));
    WANT(line(&db, 0, "add-net work nowhere n") == NETDB_DONE && says(&db, "no-cell\n"));
    WANT(line(&db, 1, "set-prop work stage inst i SIZE int 3") == NETDB_DONE && says(&db, "done\n"));
    /* a conflict names the object and the version, and the transaction goes on */
    WANT(netdb_commit(&db, 0, &number) == NETDB_DONE && number == 1);
    WANT(netdb_commit(&db, 1, &number) == NETDB_CONFLICT && number == 1 && says(&db, "conflict contents work stage version 1\n"));
    WANT(line(&db, 1, "show-cell work stage") == NETDB_DONE);
    WANT(netdb_view_open(&view, &db, 1) == NETDB_DONE && netdb_view_version(&view, &number) == NETDB_DONE && number == 0);
    WANT(netdb_abandon(&db, 1) == NETDB_DONE && netdb_release(&db, 1) == NETDB_DONE && netdb_release(&db, 0) == NETDB_DONE);
    WANT(netdb_collect(&db, 63, &number) == NETDB_DONE && number == 1);
    WANT(netdb_pin_at(&db, 3, 0, &number) == NETDB_GONE && number == 1);
    WANT(netdb_pin_at(&db, 3, 1, &number) == NETDB_DONE && number == 1);
    netdb_close(&db);
    /* the view lives on */
    WANT(netdb_walk(&view) == NETDB_DONE && netdb_next(&view) == NETDB_DONE);
    netdb_view_close(&view);
}

static void views(void) {
    static const char no_top[] = "(edif e (edifVersion 2 0 0) (edifLevel 0) (keywordMap (keywordLevel 0)))";
    netdb db = NETDB_CLOSED;
    netdb_view view = NETDB_CLOSED;
    uint64_t number = 99;
    uint32_t path[2] = {0, 99};
    size_t items = 0;
    struct gathered *text = calloc(1, sizeof *text);
    netdb_status status;
    int what;
    WANT(text && netdb_open(&db, bytes, length) == NETDB_DONE && netdb_pin(&db, 0, &number) == NETDB_DONE);
    WANT(netdb_view_open(&view, &db, 0) == NETDB_DONE);
    WANT(netdb_next(&view) == NETDB_WRONG_USE && netdb_view_field(&view, NETDB_KIND) == NETDB_NO_FIELD);
    WANT(netdb_walk(&view) == NETDB_DONE && netdb_view_field(&view, NETDB_PATH) == NETDB_NO_FIELD);
    while ((status = netdb_next(&view)) == NETDB_DONE) {
        items++;
        WANT(netdb_view_text(&view, NULL, 0) > 0);
        WANT(netdb_view_field(&view, NETDB_KIND) == NETDB_DONE);
        if (view_says(&view, "inst")) WANT(netdb_view_field(&view, NETDB_CELL) == NETDB_DONE && netdb_view_field(&view, NETDB_NET) == NETDB_NO_FIELD);
        else if (view_says(&view, "net")) WANT(netdb_view_field(&view, NETDB_FIRST_NET) == NETDB_DONE && netdb_view_field(&view, NETDB_BIT) == NETDB_NO_FIELD);
        else WANT(view_says(&view, "pin") && netdb_view_field(&view, NETDB_PORT) == NETDB_DONE && netdb_view_field(&view, NETDB_DIRECTION) == NETDB_DONE);
    }
    WANT(status == NETDB_END && items > 10 && netdb_next(&view) == NETDB_END);
    WANT(netdb_view_field(&view, (netdb_field)10) == NETDB_NO_FIELD);
    WANT(netdb_walk_at(&view, path, 1) == NETDB_DONE && netdb_next(&view) == NETDB_DONE);
    WANT(netdb_walk_at(&view, path, 2) == NETDB_NO_PATH && netdb_walk_at(&view, path + 1, 1) == NETDB_NO_PATH);
    WANT(netdb_walk_at(&view, NULL, 0) == NETDB_DONE && netdb_next(&view) == NETDB_DONE);
    for (what = NETDB_EDIF; what <= NETDB_USES; what++) {
        text->length = 0;
        WANT(netdb_write(&view, (netdb_what)what, gather, text) == NETDB_DONE && text->length > 0);
    }
    text->stops = 1;
    WANT(netdb_write(&view, NETDB_EDIF, gather, text) == NETDB_STOPPED);
    WANT(netdb_write_fd(&view, NETDB_EDIF, -1) == NETDB_WRITE_FAULT && netdb_write_fd(&view, (netdb_what)5, 1) == NETDB_WRONG_USE);
    WANT(netdb_report_fd((netdb *)&view, 1) == NETDB_WRONG_USE && netdb_begin((netdb *)&view, 0) == NETDB_WRONG_USE);
    text->stops = 0;
    text->length = 0;
    WANT(netdb_report(&db, gather, text) == NETDB_DONE && !memcmp(text->bytes, "history\n0 caller 0 pin -> pin 0 version 0\n", 41));
    WANT(netdb_open(&db, no_top, sizeof no_top - 1) == NETDB_DONE && netdb_pin(&db, 0, &number) == NETDB_DONE);
    WANT(netdb_view_open(&view, &db, 0) == NETDB_DONE);
    WANT(netdb_walk(&view) == NETDB_NO_TOP && netdb_walk_at(&view, path, 1) == NETDB_NO_TOP && netdb_write_fd(&view, NETDB_CSV, 1) == NETDB_NO_TOP);
    netdb_view_close(&view);
    netdb_close(&db);
    free(text);
}

static netdb_status at(netdb_ask *ask, const char *path) { return netdb_ask_at(ask, path, strlen(path)); }

static netdb_status net_of(netdb_ask *ask, const char *path, const char *port, uint32_t bit) {
    return netdb_ask_net_of(ask, path, strlen(path), port, strlen(port), bit);
}

static netdb_status inner_net_of(netdb_ask *ask, const char *path, const char *port, uint32_t bit) {
    return netdb_ask_inner_net_of(ask, path, strlen(path), port, strlen(port), bit);
}

static netdb_status first_of(netdb_ask *ask, const char *path, const char *net) {
    return netdb_ask_first_of(ask, path, strlen(path), net, strlen(net));
}

static netdb_status same(netdb_ask *ask, const char *path, const char *net, const char *other_path, const char *other_net) {
    return netdb_ask_same(ask, path, strlen(path), net, strlen(net), other_path, strlen(other_path), other_net, strlen(other_net));
}

static netdb_status pins(netdb_ask *ask, const char *path, const char *net, netdb_role role) {
    return netdb_ask_pins(ask, path, strlen(path), net, strlen(net), role);
}

/* What is left of the list are these lines, each of which is one item's. */
static int lists(netdb_ask *ask, const char *const *lines) {
    for (; *lines; lines++)
        if (netdb_ask_next(ask) != NETDB_DONE || !ask_says(ask, *lines)) return 0;
    return netdb_ask_next(ask) == NETDB_END && netdb_ask_next(ask) == NETDB_END;
}

static void questions(void) {
    static const char no_top[] = "(edif e (edifVersion 2 0 0) (edifLevel 0) (keywordMap (keywordLevel 0)))";
    static const char *const of_m[] = {"pin /s0/i Y 0 / m\n", "pin /s1/i A 0 / m\n", NULL};
    static const char *const drive_a[] = {"pin / A 0 / a\n", NULL}, *const load_a[] = {"pin /s0/i A 0 / a\n", NULL};
    static const char *const inside[] = {"inst /s0 work stage\n", "inst /s1 work stage\n", NULL};
    static const char *const nets[] = {"net /s1 a / m\n", "net /s1 y / y\n", NULL}, *const none[] = {NULL};
    netdb db = NETDB_CLOSED;
    netdb_ask ask = NETDB_CLOSED;
    uint64_t number = 99;
    WANT(netdb_open(&db, bytes, length) == NETDB_DONE && netdb_ask_open(&ask, &db, 0) == NETDB_WRONG_USE);
    WANT(netdb_pin(&db, 0, &number) == NETDB_DONE && netdb_ask_open(&ask, &db, 0) == NETDB_DONE);
    WANT(netdb_pin((netdb *)&ask, 0, &number) == NETDB_WRONG_USE && netdb_walk((netdb_view *)&ask) == NETDB_WRONG_USE);
    WANT(netdb_ask_at((netdb_ask *)&db, "/", 1) == NETDB_WRONG_USE && netdb_write_fd((netdb_view *)&ask, NETDB_EDIF, 1) == NETDB_WRONG_USE);
    netdb_close(&db);
    /* the questions live on */
    WANT(netdb_ask_version(&ask, &number) == NETDB_DONE && number == 0);
    WANT(at(&ask, "/") == NETDB_DONE && ask_says(&ask, "inst / work top\n") && at(&ask, "s1/i") == NETDB_DONE && ask_says(&ask, "inst /s1/i cells INV\n"));
    WANT(at(&ask, "s2") == NETDB_NO_PATH && netdb_ask_at(&ask, NULL, 0) == NETDB_NO_PATH && ask_says(&ask, "inst /s1/i cells INV\n"));
    WANT(net_of(&ask, "/s1/i", "A", 0) == NETDB_DONE && ask_says(&ask, "net / m / m\n"));
    WANT(net_of(&ask, "s3", "A", 0) == NETDB_NO_PATH && net_of(&ask, "s1", "B", 0) == NETDB_NO_NAME && net_of(&ask, "s1", "A", 1) == NETDB_NO_NAME);
    WANT(inner_net_of(&ask, "s1", "Y", 0) == NETDB_DONE && ask_says(&ask, "net / y / y\n"));
    WANT(inner_net_of(&ask, "s1/i", "Y", 0) == NETDB_NO_NET && inner_net_of(&ask, "s1/i", "y", 0) == NETDB_NO_NAME);
    WANT(first_of(&ask, "s0", "y") == NETDB_DONE && ask_says(&ask, "net / m / m\n"));
    WANT(first_of(&ask, "s0", "m") == NETDB_NO_NAME && first_of(&ask, "s0/", "y") == NETDB_NO_PATH);
    WANT(same(&ask, "s0", "y", "s1", "a") == NETDB_DONE && same(&ask, "s0", "y", "/", "y") == NETDB_APART);
    WANT(same(&ask, "s0", "z", "s9", "a") == NETDB_NO_NAME && same(&ask, "s0", "y", "s9", "a") == NETDB_NO_PATH);
    WANT(netdb_ask_next(&ask) == NETDB_WRONG_USE && pins(&ask, "/", "m", (netdb_role)3) == NETDB_WRONG_USE && netdb_ask_next(&ask) == NETDB_WRONG_USE);
    WANT(pins(&ask, "s0", "y", NETDB_ANY) == NETDB_DONE && lists(&ask, of_m));
    WANT(pins(&ask, "/", "a", NETDB_DRIVERS) == NETDB_DONE && lists(&ask, drive_a) && pins(&ask, "/", "a", NETDB_LOADS) == NETDB_DONE && lists(&ask, load_a));
    WANT(pins(&ask, "/", "n", NETDB_ANY) == NETDB_NO_NAME && pins(&ask, "/n", "n", NETDB_ANY) == NETDB_NO_PATH);
    WANT(netdb_ask_insts(&ask, "/", 1) == NETDB_DONE && lists(&ask, inside) && netdb_ask_insts(&ask, "s1/i", 4) == NETDB_DONE && lists(&ask, none));
    WANT(netdb_ask_nets(&ask, "s1", 2) == NETDB_DONE && lists(&ask, nets));
    WANT(netdb_ask_insts(&ask, "i", 1) == NETDB_NO_PATH && netdb_ask_nets(&ask, "i", 1) == NETDB_NO_PATH);
    WANT(netdb_open(&db, no_top, sizeof no_top - 1) == NETDB_DONE && netdb_pin(&db, 0, &number) == NETDB_DONE);
    WANT(netdb_ask_open(&ask, &db, 0) == NETDB_NO_TOP && at(&ask, "s0") == NETDB_DONE);
    netdb_ask_close(&ask);
    netdb_close(&db);
}

/* A history has 4,194,304 places. */
static void full_log(void) {
    netdb db = NETDB_CLOSED;
    uint64_t number;
    netdb_status status;
    WANT(netdb_open(&db, bytes, length) == NETDB_DONE);
    while ((status = netdb_pin(&db, 0, &number)) == NETDB_DONE) WANT(netdb_release(&db, 0) == NETDB_DONE);
    WANT(status == NETDB_LOG_FULL && netdb_collect(&db, 0, &number) == NETDB_LOG_FULL);
    netdb_close(&db);
}

static void names(void) {
    int status;
    WANT(netdb_interface() == NETDB_INTERFACE);
    WANT(!strcmp(netdb_status_name(NETDB_CONFLICT), "conflict") && !strcmp(netdb_status_name((netdb_status)99), "unknown"));
    for (status = NETDB_DONE; status <= NETDB_APART; status++) WANT(strcmp(netdb_status_name((netdb_status)status), "unknown"));
}

/* Makes a call again that found no memory, and gives its status otherwise. */
#define AGAIN(status, call) do { status = (call); if (status == NETDB_NO_MEMORY) status = (call); } while (0)

static void small_run(void) {
    netdb db = NETDB_CLOSED;
    netdb_view view = NETDB_CLOSED;
    netdb_ask ask = NETDB_CLOSED;
    uint64_t number;
    netdb_status status;
    AGAIN(status, netdb_open(&db, bytes, length));
    WANT(status == NETDB_DONE);
    AGAIN(status, netdb_pin(&db, 0, &number));
    WANT(status == NETDB_DONE && number == 0);
    AGAIN(status, netdb_begin(&db, 0));
    WANT(status == NETDB_DONE);
    AGAIN(status, line(&db, 0, "add-net work stage n"));
    WANT((status == NETDB_DONE && says(&db, "done\n")) || (status == NETDB_TEXT_LOST && says(&db, "")));
    AGAIN(status, netdb_commit(&db, 0, &number));
    WANT(status == NETDB_DONE && number == 1);
    AGAIN(status, netdb_view_open(&view, &db, 0));
    WANT(status == NETDB_DONE);
    AGAIN(status, netdb_walk(&view));
    WANT(status == NETDB_DONE);
    do {
        AGAIN(status, netdb_next(&view));
        WANT(status == NETDB_DONE || status == NETDB_END || status == NETDB_TEXT_LOST);
    } while (status != NETDB_END);
    AGAIN(status, netdb_report_fd(&db, 1));
    WANT(status == NETDB_DONE);
    AGAIN(status, netdb_ask_open(&ask, &db, 0));
    WANT(status == NETDB_DONE);
    AGAIN(status, at(&ask, "s0/i"));
    WANT(status == NETDB_DONE && ask_says(&ask, "inst /s0/i cells INV\n"));
    AGAIN(status, net_of(&ask, "s0/i", "Y", 0));
    WANT(status == NETDB_DONE && ask_says(&ask, "net / m / m\n"));
    AGAIN(status, pins(&ask, "/", "m", NETDB_ANY));
    WANT(status == NETDB_DONE);
    do {
        AGAIN(status, netdb_ask_next(&ask));
        WANT(status == NETDB_DONE || status == NETDB_END || status == NETDB_TEXT_LOST);
    } while (status != NETDB_END);
    netdb_ask_close(&ask);
    netdb_view_close(&view);
    netdb_close(&db);
}

static void all_items(void) {
    netdb db = NETDB_CLOSED;
    netdb_view view = NETDB_CLOSED;
    uint64_t number;
    char text[4096];
    unsigned long items = 0, written = 0;
    WANT(netdb_open(&db, bytes, length) == NETDB_DONE && netdb_pin(&db, 0, &number) == NETDB_DONE && netdb_view_open(&view, &db, 0) == NETDB_DONE);
    netdb_close(&db);
    WANT(netdb_walk(&view) == NETDB_DONE);
    for (; netdb_next(&view) == NETDB_DONE; items++) written += netdb_view_text(&view, text, sizeof text);
    netdb_view_close(&view);
    printf("%lu items, %lu bytes\n", items, written);
}

int main(int count, char **words) {
    WANT(count > 1);
    read_design(words[1]);
    if (count > 2 && !strcmp(words[2], "items")) {
        all_items();
        return 0;
    }
    if (count > 2) {
        fails_at = strtoul(words[2], NULL, 10);
        small_run();
        return asked < fails_at ? 3 : 0;
    }
    names();
    misuse();
    seats();
    views();
    questions();
    full_log();
    return 0;
}
