// Sends recorded messages to players, each on a separate connection, and waits for the answers.
//
//     client one|roles RECORDING PORT ..
//
// `one` sends the messages one after another; `roles` has a thread for each role, and sends the messages of a turn in parallel. There is a port for
// each role. For each message, a recording has a line with the role and the length, and then the bytes. The messages of a turn are in the order of
// the roles.
#include <arpa/inet.h>
#include <barrier>
#include <cstdio>
#include <cstdlib>
#include <fstream>
#include <netinet/in.h>
#include <string>
#include <string_view>
#include <sys/socket.h>
#include <thread>
#include <unistd.h>
#include <vector>

[[noreturn]] static void stop(const char *what) {
    std::perror(what);
    std::_Exit(1);
}

// Whether these bytes are a whole reply.
static bool is_whole(std::string_view reply) {
    const std::string_view field = "Content-Length: ";
    const size_t end = reply.find("\r\n\r\n"), at = reply.find(field);
    if (end == reply.npos || at > end) return false;
    return reply.size() >= end + 4 + std::strtoul(reply.data() + at + field.size(), nullptr, 10);
}

static void exchange(int port, const std::string &message) {
    sockaddr_in address{};
    address.sin_family = AF_INET;
    address.sin_port = htons(port);
    address.sin_addr.s_addr = htonl(INADDR_LOOPBACK);
    const int stream = socket(AF_INET, SOCK_STREAM | SOCK_CLOEXEC, 0);
    if (stream < 0 || connect(stream, reinterpret_cast<sockaddr *>(&address), sizeof address)) stop("connect");
    for (size_t sent = 0; sent < message.size();) {
        const ssize_t count = send(stream, message.data() + sent, message.size() - sent, MSG_NOSIGNAL);
        if (count <= 0) stop("send");
        sent += count;
    }
    std::string reply;
    char chunk[4096];
    while (!is_whole(reply)) {
        const ssize_t count = recv(stream, chunk, sizeof chunk, 0);
        if (count <= 0) stop("recv");
        reply.append(chunk, count);
    }
    close(stream);
}

// The messages of each role, in their order.
static std::vector<std::vector<std::string>> recorded(const char *name, size_t roles) {
    std::vector<std::vector<std::string>> messages(roles);
    std::ifstream file(name, std::ios::binary);
    for (size_t role, length; file >> role >> length;) {
        file.get();
        std::string message(length, '\0');
        if (role >= roles || !file.read(message.data(), length)) stop("the recording");
        messages[role].push_back(std::move(message));
    }
    return messages;
}

int main(int count, char **words) {
    if (count < 4) return 2;
    std::vector<int> ports;
    for (int k = 3; k < count; k++) ports.push_back(std::atoi(words[k]));
    const auto messages = recorded(words[2], ports.size());
    const size_t turns = messages[0].size();
    if (std::string_view(words[1]) == "one") {
        for (size_t turn = 0; turn < turns; turn++)
            for (size_t role = 0; role < ports.size(); role++) exchange(ports[role], messages[role][turn]);
        return 0;
    }
    std::barrier turn_ends(ports.size());
    std::vector<std::jthread> threads;
    for (size_t role = 0; role < ports.size(); role++)
        threads.emplace_back([&, role] {
            for (const auto &message : messages[role]) {
                exchange(ports[role], message);
                turn_ends.arrive_and_wait();
            }
        });
}
