// The clients of bench/serve: connections to a mapper server over a Unix socket, each on a thread of its own.
//
//   serve_load SOCKET blocks CONNECTIONS BLOCK REQUESTS   each connection sends so many requests, in blocks of BLOCK lines,
//                                                         a block when the replies to the one before have come
//   serve_load SOCKET waiters COUNT BLOCK REQUESTS        the same by one connection, which holds a unit; before it COUNT
//                                                         others come, each of which holds a unit too and imports that one
//   serve_load SOCKET links COUNT                         COUNT connections, one after another, with a block of two each
//
// It writes `ready` once all have said hello, and begins at a line of standard input. After three seconds at most it writes
// how many requests were answered, in how many microseconds, and how many the half and 99 of 100 blocks (or connections)
// took at most. At the end of standard input it hangs up. Each reply has to begin as its request asks, the same for every
// server.
#include <sys/socket.h>
#include <sys/time.h>
#include <sys/un.h>
#include <unistd.h>

#include <algorithm>
#include <chrono>
#include <cstdio>
#include <cstdlib>
#include <cstring>
#include <string>
#include <thread>
#include <vector>

namespace {

using Clock = std::chrono::steady_clock;

// How long requests are sent, and how long a run may take.
constexpr std::chrono::seconds LONGEST{3};
constexpr unsigned LONGEST_RUN = 60;

// Of ten requests three are imports of modules that were built, the others are questions about headers, as those of a
// compilation with textual includes are.
constexpr int MODULES = 1000;
constexpr int HEADERS = 700;

[[noreturn]] void fail(const char* what) {
    std::perror(what);
    std::exit(1);
}

struct Block {
    std::string text;
    // The first octets of the replies.
    std::string first;
};

void add(Block& block, const std::string& request, char first) {
    if (!block.first.empty()) {
        block.text.insert(block.text.size() - 1, " ;");
    }
    block.text += request + "\n";
    block.first += first;
}

void add_request(Block& block, int number) {
    char request[100];
    if (number % 10 < 3) {
        std::snprintf(request, sizeof request, "MODULE-IMPORT acme.warehouse.inventory.component_%05d", number * 7 % MODULES);
        add(block, request, 'P');
    } else {
        std::snprintf(request, sizeof request, "INCLUDE-TRANSLATE /usr/include/c++/12/bits/header_%05d.h", number % HEADERS);
        add(block, request, 'B');
    }
}

// The blocks of so many requests.
std::vector<Block> blocks_of(int requests, int lines) {
    std::vector<Block> blocks;
    for (int number = 0; number < requests; number++) {
        if (number % lines == 0) {
            blocks.emplace_back();
        }
        add_request(blocks.back(), number);
    }
    return blocks;
}

Block greeting(const std::string& ident) {
    Block block;
    add(block, "HELLO 1 GCC " + ident, 'H');
    add(block, "MODULE-REPO", 'P');
    return block;
}

Block of_one(const std::string& request, char first) {
    Block block;
    add(block, request, first);
    return block;
}

class Connection {
public:
    explicit Connection(const char* path) : link(socket(AF_UNIX, SOCK_STREAM, 0)) {
        sockaddr_un address{};
        address.sun_family = AF_UNIX;
        std::strncpy(address.sun_path, path, sizeof address.sun_path - 1);
        if (link < 0 || connect(link, reinterpret_cast<sockaddr*>(&address), sizeof address) != 0) {
            fail("connect");
        }
    }

    Connection(Connection&& other) noexcept : link(other.link) { other.link = -1; }

    ~Connection() {
        if (link >= 0) {
            close(link);
        }
    }

    void send(const Block& block) const {
        const std::string& text = block.text;
        for (std::size_t sent = 0; sent < text.size();) {
            const ssize_t amount = write(link, text.data() + sent, text.size() - sent);
            if (amount <= 0) {
                fail("write");
            }
            sent += amount;
        }
    }

    // Reads the replies to the block.
    void hear(const Block& block) const {
        char room[1 << 16];
        std::size_t replies = 0;
        bool begins = true;
        while (replies < block.first.size()) {
            const ssize_t amount = read(link, room, sizeof room);
            if (amount <= 0) {
                fail("read");
            }
            for (ssize_t place = 0; place < amount; place++) {
                if (begins && (replies == block.first.size() || room[place] != block.first[replies])) {
                    std::fprintf(stderr, "another reply than asked for: %.*s\n", static_cast<int>(amount - place), room + place);
                    std::exit(1);
                }
                begins = room[place] == '\n';
                replies += begins;
            }
        }
    }

    void ask(const Block& block) const {
        send(block);
        hear(block);
    }

    // Hangs up, and waits until the server has done so.
    void end() const {
        char octet;
        shutdown(link, SHUT_WR);
        if (read(link, &octet, 1) != 0) {
            fail("end");
        }
    }

private:
    int link;
};

double micros_since(Clock::time_point begun) {
    return std::chrono::duration<double, std::micro>(Clock::now() - begun).count();
}

// What was answered, and how long each block or connection took, in microseconds.
struct Answered {
    std::size_t requests = 0;
    std::vector<double> times;

    void add(std::size_t more, Clock::time_point begun) {
        requests += more;
        times.push_back(micros_since(begun));
    }

    void add(const Answered& other) {
        requests += other.requests;
        times.insert(times.end(), other.times.begin(), other.times.end());
    }
};

// Whether a line came on standard input.
bool is_told() {
    char line[16];
    return std::fgets(line, sizeof line, stdin) != nullptr;
}

void wait_for_go() {
    std::puts("ready");
    std::fflush(stdout);
    is_told();
}

// Says how long all took, and waits for the end of standard input.
void report(double all, Answered& answered) {
    std::vector<double>& times = answered.times;
    std::sort(times.begin(), times.end());
    std::printf("%zu %.3f %.3f %.3f\n", answered.requests, all, times[times.size() / 2], times[times.size() * 99 / 100]);
    std::fflush(stdout);
    while (is_told()) {
    }
}

Answered ask_all(const Connection& connection, const std::vector<Block>& blocks) {
    Answered answered;
    answered.times.reserve(blocks.size());
    const auto end = Clock::now() + LONGEST;
    for (const Block& block : blocks) {
        const auto begun = Clock::now();
        if (begun >= end) {
            break;
        }
        connection.ask(block);
        answered.add(block.first.size(), begun);
    }
    return answered;
}

void run_blocks(const char* path, int count, int lines, int requests) {
    const std::vector<Block> blocks = blocks_of(requests, lines);
    std::vector<Connection> connections;
    for (int k = 0; k < count; k++) {
        connections.emplace_back(path);
        connections.back().ask(greeting("guest.cc"));
    }
    wait_for_go();
    std::vector<Answered> parts(count);
    std::vector<std::thread> threads;
    const auto begun = Clock::now();
    for (int k = 0; k < count; k++) {
        threads.emplace_back([&, k] { parts[k] = ask_all(connections[k], blocks); });
    }
    for (std::thread& thread : threads) {
        thread.join();
    }
    const double all = micros_since(begun);
    Answered answered;
    for (const Answered& part : parts) {
        answered.add(part);
    }
    report(all, answered);
}

void run_waiters(const char* path, int count, int lines, int requests) {
    const std::vector<Block> blocks = blocks_of(requests, lines);
    const Block awaited = of_one("MODULE-IMPORT slow", 'P');
    std::vector<Connection> waiters;
    for (int k = 0; k < count; k++) {
        waiters.emplace_back(path);
        waiters.back().ask(greeting("waiter_" + std::to_string(k) + ".cc"));
        waiters.back().send(awaited);
    }
    const Connection holder(path);
    holder.ask(greeting("slow.cc"));
    wait_for_go();
    const auto begun = Clock::now();
    Answered answered = ask_all(holder, blocks);
    report(micros_since(begun), answered);
    holder.ask(of_one("MODULE-EXPORT slow", 'P'));
    holder.ask(of_one("MODULE-COMPILED slow", 'O'));
    for (const Connection& waiter : waiters) {
        waiter.hear(awaited);
    }
}

void run_links(const char* path, int count) {
    const Block hello = greeting("guest.cc");
    Answered answered;
    answered.times.reserve(count);
    wait_for_go();
    const auto first = Clock::now();
    for (int k = 0; k < count && Clock::now() < first + LONGEST; k++) {
        const auto begun = Clock::now();
        const Connection connection(path);
        connection.ask(hello);
        connection.end();
        answered.add(hello.first.size(), begun);
    }
    report(micros_since(first), answered);
}

}  // namespace

int main(int count, char** words) {
    alarm(LONGEST_RUN);
    const std::string shape = count > 2 ? words[2] : "";
    if (shape == "links" && count == 4) {
        run_links(words[1], std::atoi(words[3]));
    } else if (shape == "blocks" && count == 6) {
        run_blocks(words[1], std::atoi(words[3]), std::atoi(words[4]), std::atoi(words[5]));
    } else if (shape == "waiters" && count == 6) {
        run_waiters(words[1], std::atoi(words[3]), std::atoi(words[4]), std::atoi(words[5]));
    } else {
        std::fputs("bad words\n", stderr);
        return 2;
    }
}
