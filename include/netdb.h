/* The netdb database for tools in C and C++: link libnetdb_c.a. docs/c-library.md has a page on it, library/netdb.py the same for Python.

   A handle is a struct of the caller's, a `netdb`, a `netdb_view` or a `netdb_ask`. It begins as NETDB_CLOSED, is passed by its address, and
   is never copied. A call on a null address, on a closed handle, on one of another kind, for a seat that is none, or at a wrong time answers
   NETDB_WRONG_USE and changes nothing. No call ends the process, waits for another one, or starts a thread.

   A database has 64 seats, numbered from 0. Each is a caller of its own, with its pin, its transaction and its conflicts.

   A parameter that is `const` holds afterwards what it held before.

   Threads: a handle is in one call at a time, also where it is `const`, so callers in threads put a lock of their own round the calls on a
   database, whatever the seat. A view stands alone, and so do questions: they share no lock with their database or with others, and stay
   readable when these are closed. A handle goes to another thread only with the threads' own ordering, as by a lock, a start or a join; no
   proof covers that.

   What nothing checks, and a caller owes:
   - A handle begins as NETDB_CLOSED: what stands in fresh memory is none.
   - An address that is not null is that of a live object of its type, and no other of the call's addresses is within it.
   - The bytes of a length that is not 0 are there, and nothing writes them meanwhile.
   - A handle is closed before its memory goes; else what it owns is lost.
   - A handle is not copied: two copies of one would free it twice.
   - malloc, realloc and free come from one allocator, which aligns blocks as C wants it.
   - No call is made from a signal handler, or from a forked child of a process with threads.
   - Where a file descriptor may be a pipe that nobody reads, SIGPIPE is ignored: else the system ends the process at the write. */
#ifndef NETDB_H
#define NETDB_H
#include <stdbool.h>
#include <stddef.h>
#include <stdint.h>

#ifdef __cplusplus
extern "C" {
#endif

/* The version of this interface. `netdb_interface` gives that of the library that is linked. */
#define NETDB_INTERFACE 1
uint32_t netdb_interface(void);

typedef enum netdb_status {
    NETDB_DONE = 0,
    NETDB_WRONG_USE = 1,
    NETDB_BAD_DESIGN = 2,  /* the text says what is wrong with the bytes, and where */
    NETDB_BAD_LINE = 3,    /* the line says no operation */
    NETDB_CONFLICT = 4,    /* the text says the object and the version; an empty text: there was no memory for it */
    NETDB_LOG_FULL = 5,    /* the history has no room for the call */
    NETDB_NO_MEMORY = 6,   /* nothing was changed but a text that the call would have had */
    NETDB_END = 7,         /* no item is left */
    NETDB_NO_TOP = 8,      /* the design has no top */
    NETDB_TOO_LARGE = 9,   /* more than 134,217,728 bytes of a design, or 200,000 of a line */
    NETDB_NO_VERSION = 10, /* there is no such version yet */
    NETDB_GONE = 11,       /* the version is kept no longer */
    NETDB_NO_PATH = 12,    /* the design has no occurrence there */
    NETDB_WRITE_FAULT = 13,/* a write failed; a front of the text was written */
    NETDB_NO_FIELD = 14,   /* the item has no such field */
    NETDB_STOPPED = 15,    /* the function that takes pieces said so */
    NETDB_TEXT_LOST = 16,  /* the call was done; there was no memory for its text */
    NETDB_NO_NAME = 17,    /* the occurrence has no such net or port, or the port no such bit */
    NETDB_NO_NET = 18,     /* no net joins the bit there */
    NETDB_APART = 19       /* the two nets are not connected */
} netdb_status;

/* The name of a status in lower case, as "wrong use"; "unknown" for any other number. */
const char *netdb_status_name(netdb_status status);

typedef struct netdb {
    bool is_open;
    void *inside;
} netdb;

typedef struct netdb_view {
    bool is_open;
    void *inside;
} netdb_view;

typedef struct netdb_ask {
    bool is_open;
    void *inside;
} netdb_ask;

#define NETDB_CLOSED { false, NULL }
#define NETDB_SEATS 64

/* ---- databases */

/* Opens the database of the design that bytes of EDIF mean, as version 0. After NETDB_DONE and NETDB_BAD_DESIGN what the handle held before
   is closed; after the latter it holds the text alone. */
netdb_status netdb_open(netdb *db, const void *bytes, size_t length);
/* Closes a handle. A closed one stays so. */
void netdb_close(netdb *db);
/* The text of the last call that has one, without a zero at its end: copies as much as there is room for, and gives its whole length. */
size_t netdb_text(const netdb *db, char *room, size_t length);

/* Pins the last version for a seat that holds nothing, and gives its number. */
netdb_status netdb_pin(netdb *db, uint32_t seat, uint64_t *version);
/* Pins that version. At NETDB_NO_VERSION the number is that of the last version, at NETDB_GONE that of the least that is kept. */
netdb_status netdb_pin_at(netdb *db, uint32_t seat, uint64_t wanted, uint64_t *version);
/* Begins a transaction on the seat's pin. */
netdb_status netdb_begin(netdb *db, uint32_t seat);
/* Runs one line of a script's transaction; docs/scripts.md has the lines. The text is the reply, which may be a refusal. */
netdb_status netdb_line(netdb *db, uint32_t seat, const char *line, size_t length);
/* Commits the transaction and gives the version that it makes; the seat holds its pin then, on the version that it was on. At
   NETDB_CONFLICT the number is that of the version that clashes, and the transaction goes on. An empty text after NETDB_CONFLICT means that
   there was no memory for it: the line of a conflict is never empty. */
netdb_status netdb_commit(netdb *db, uint32_t seat, uint64_t *version);
/* Ends the transaction without a commit; the seat holds its pin then. */
netdb_status netdb_abandon(netdb *db, uint32_t seat);
/* Releases the seat's pin. */
netdb_status netdb_release(netdb *db, uint32_t seat);
/* Drops the versions that no seat holds, all but the last one, and gives how many. */
netdb_status netdb_collect(netdb *db, uint32_t seat, uint64_t *dropped);

/* ---- views */

/* Opens a view of the version that a seat holds. What the view held before is closed where the call is done. */
netdb_status netdb_view_open(netdb_view *view, const netdb *db, uint32_t seat);
void netdb_view_close(netdb_view *view);
/* The number of its version. */
netdb_status netdb_view_version(const netdb_view *view, uint64_t *version);
size_t netdb_view_text(const netdb_view *view, char *room, size_t length);

/* Begins a walk over the whole flattening, or over what stands at and below an occurrence, whose path is a row of places of instances. */
netdb_status netdb_walk(netdb_view *view);
netdb_status netdb_walk_at(netdb_view *view, const uint32_t *path, size_t steps);
/* Goes on to the next item. The text is its line, as of `netdb flat`. */
netdb_status netdb_next(netdb_view *view);

typedef enum netdb_field {
    NETDB_KIND = 0,       /* inst, net or pin */
    NETDB_PATH = 1,
    NETDB_LIBRARY = 2,    /* of an instance */
    NETDB_CELL = 3,       /* of an instance */
    NETDB_NET = 4,        /* the name of a net */
    NETDB_PORT = 5,       /* of a pin */
    NETDB_BIT = 6,        /* of a pin */
    NETDB_DIRECTION = 7,  /* of a pin: input, output or inout */
    NETDB_FIRST_PATH = 8, /* of the first net that is connected with the net, or with that of the pin */
    NETDB_FIRST_NET = 9
} netdb_field;

/* A field of the item at which the walk is, as the text of the view. */
netdb_status netdb_view_field(netdb_view *view, netdb_field which);

typedef enum netdb_what {
    NETDB_EDIF = 0, /* the canonical text */
    NETDB_FLAT = 1, /* the flattening, line by line, and `end` */
    NETDB_CSV = 2,  /* the pin table */
    NETDB_ERC = 3,  /* what the electrical check finds, and `end` */
    NETDB_USES = 4  /* where each cell is used */
} netdb_what;

/* Takes the next bytes of a text. Another answer than 0 stops the call that writes. */
typedef int netdb_take(void *context, const void *bytes, size_t length);

/* Writes a text of the view's version into a function, piece by piece, by way of a temporary file; and straight to a file descriptor. The
   whole text is never in memory. After NETDB_NO_MEMORY, NETDB_WRITE_FAULT and NETDB_STOPPED a front of it was written. */
netdb_status netdb_write(const netdb_view *view, netdb_what what, netdb_take *take, void *context);
netdb_status netdb_write_fd(const netdb_view *view, netdb_what what, int fd);

/* Writes the history of a database so, as the report of `netdb run` has it: the events of all seats, and the canonical text of the last
   version. There are no transcripts. */
netdb_status netdb_report(const netdb *db, netdb_take *take, void *context);
netdb_status netdb_report_fd(const netdb *db, int fd);

/* ---- questions

   What is asked of one version without walking it; docs/questions.md says more. A path is a text as a script writes it, identifiers with `/`
   between them, or with one more `/` before them all; `/` alone is the top. Nets and ports go by their identifiers, and case counts. The
   answer is the text of the handle, the line of an item as of `netdb flat`. Of each refusal the cause comes in this order: NETDB_NO_PATH
   where the text leads to no occurrence, NETDB_NO_NAME where the occurrence has no such net or port, or the port no such bit, and then
   NETDB_NO_NET where no net joins the bit. After a refusal the text is as before. */

/* Opens questions about the version that a seat holds, and makes their index: it takes time in proportion to the cells of the design, and
   never to the occurrences. NETDB_NO_TOP comes where the design has no top. What the handle held before is closed where the call is done. */
netdb_status netdb_ask_open(netdb_ask *ask, const netdb *db, uint32_t seat);
void netdb_ask_close(netdb_ask *ask);
/* The number of its version. */
netdb_status netdb_ask_version(const netdb_ask *ask, uint64_t *version);
size_t netdb_ask_text(const netdb_ask *ask, char *room, size_t length);

/* The occurrence at a path: `inst PATH LIBRARY CELL` and its effective properties. */
netdb_status netdb_ask_at(netdb_ask *ask, const char *path, size_t path_length);
/* The first of the nets that are connected with the net at a bit of an occurrence, seen from outside: `net PATH NET PATH NET`. */
netdb_status netdb_ask_net_of(netdb_ask *ask, const char *path, size_t path_length, const char *port, size_t port_length, uint32_t bit);
/* The same, seen from inside the occurrence: of the net of its own contents that joins the bit. */
netdb_status netdb_ask_inner_net_of(netdb_ask *ask, const char *path, size_t path_length, const char *port, size_t port_length, uint32_t bit);
/* The first of the nets that are connected with a net of an occurrence, by which the flattening names them all. */
netdb_status netdb_ask_first_of(netdb_ask *ask, const char *path, size_t path_length, const char *net, size_t net_length);
/* Whether two nets are connected: NETDB_DONE, or NETDB_APART. The first is refused, and else the other. The text stays. */
netdb_status netdb_ask_same(netdb_ask *ask, const char *path, size_t path_length, const char *net, size_t net_length,
                            const char *other_path, size_t other_path_length, const char *other_net, size_t other_net_length);

typedef enum netdb_role {
    NETDB_ANY = 0,
    NETDB_DRIVERS = 1, /* outputs of leaves and inputs of the top, and pins that lead both ways or whose direction is not told */
    NETDB_LOADS = 2    /* inputs of leaves and outputs of the top, and those others too */
} netdb_role;

/* Begin a list, in place of one that was begun before: of the pins of a net on all levels that stand in a role at it, of the occurrences
   right below an occurrence, of its nets. The text stays. */
netdb_status netdb_ask_pins(netdb_ask *ask, const char *path, size_t path_length, const char *net, size_t net_length, netdb_role role);
netdb_status netdb_ask_insts(netdb_ask *ask, const char *path, size_t path_length);
netdb_status netdb_ask_nets(netdb_ask *ask, const char *path, size_t path_length);
/* Goes on to the next item of the list, in the order of the flattening. The text is its line. Each is found when it is asked for: the first
   pin of a net of a million comes as soon as that of one of ten. NETDB_END comes where none is left, and NETDB_WRONG_USE where no list was
   begun. */
netdb_status netdb_ask_next(netdb_ask *ask);

#ifdef __cplusplus
}
#endif
#endif
