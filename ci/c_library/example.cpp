// A netlist opened, edited and walked from C++: handles are closed where they go out of scope.
#include "netdb.h"
#include <cstdint>
#include <fstream>
#include <iostream>
#include <iterator>
#include <stdexcept>
#include <string>

static void want(netdb_status status) {
    if (status != NETDB_DONE) throw std::runtime_error(netdb_status_name(status));
}

struct Database {
    netdb handle = NETDB_CLOSED;
    explicit Database(const std::string &edif) { want(netdb_open(&handle, edif.data(), edif.size())); }
    Database(const Database &) = delete;
    Database &operator=(const Database &) = delete;
    ~Database() { netdb_close(&handle); }
};

struct View {
    netdb_view handle = NETDB_CLOSED;
    View(const Database &db, std::uint32_t seat) { want(netdb_view_open(&handle, &db.handle, seat)); }
    View(const View &) = delete;
    View &operator=(const View &) = delete;
    ~View() { netdb_view_close(&handle); }
};

int main(int, char **words) {
    std::ifstream file(words[1], std::ios::binary);
    Database db(std::string(std::istreambuf_iterator<char>(file), {}));
    std::uint64_t version = 0;
    const std::string line = "set-prop work stage inst i SIZE int 2";
    want(netdb_pin(&db.handle, 0, &version));
    want(netdb_begin(&db.handle, 0));
    want(netdb_line(&db.handle, 0, line.data(), line.size()));
    want(netdb_commit(&db.handle, 0, &version));
    want(netdb_release(&db.handle, 0));
    want(netdb_pin(&db.handle, 0, &version));
    View view(db, 0);
    std::string text(4096, '\0');
    want(netdb_walk(&view.handle));
    while (netdb_next(&view.handle) == NETDB_DONE) std::cout.write(text.data(), static_cast<std::streamsize>(netdb_view_text(&view.handle, &text[0], text.size())));
}
