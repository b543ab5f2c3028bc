/* A server of sd-bus for each connection to the Unix socket that its word is the address of. */
#include <signal.h>
#include <stdint.h>
#include <string.h>
#include <sys/socket.h>
#include <sys/un.h>
#include <systemd/sd-bus.h>
#include <unistd.h>

static int serve(int end) {
    sd_bus *bus = NULL;
    sd_id128_t id;
    int status = 1;
    if (sd_id128_randomize(&id) < 0 || sd_bus_new(&bus) < 0 || sd_bus_set_fd(bus, end, end) < 0 || sd_bus_set_server(bus, 1, id) < 0 ||
        sd_bus_negotiate_fds(bus, 1) < 0 || sd_bus_start(bus) < 0)
        return 1;
    while (status >= 0)
        status = (status = sd_bus_process(bus, NULL)) == 0 ? sd_bus_wait(bus, UINT64_MAX) : status;
    return 0;
}

int main(int count, char **words) {
    struct sockaddr_un name = {.sun_family = AF_UNIX};
    int listens = socket(AF_UNIX, SOCK_STREAM, 0), end;
    strncpy(name.sun_path, strchr(words[count - 1], '=') + 1, sizeof name.sun_path - 1);
    if (bind(listens, (struct sockaddr *)&name, sizeof name) < 0 || listen(listens, 64) < 0)
        return 1;
    signal(SIGCHLD, SIG_IGN);
    while ((end = accept(listens, NULL, NULL)) >= 0) {
        if (fork() == 0)
            return serve(end);
        close(end);
    }
    return 0;
}
