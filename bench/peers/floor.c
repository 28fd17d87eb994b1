/* What a put and a get of a file cost at least: the calls of the system that `ftam` makes for them, in its order and sizes,
   over memory that has the file once at each end, with nothing computed.

       floor serve STORE PORT          one connection after another
       floor put STORE PORT < FILE     has the whole input before it connects
       floor get STORE PORT > FILE     has the whole file before it writes its output

   The responder has memory at hand for a file before it listens. It has the file's creation on the disk before it answers
   it, and the file before it answers the end of a put. In the first get after a put it has the whole file there once more,
   as the new area of its journal, and in each get a record of 80 octets, before it answers the end. Each record is synced,
   then the octet of the head that tells it is written and synced. Of a store and of an output the system is asked to begin
   with each MiB on the disk as soon as it is written. A STORE is a file of 34 octets. Status 1 where a call fails. */

#include <arpa/inet.h>
#include <fcntl.h>
#include <netinet/tcp.h>
#include <stdio.h>
#include <stdlib.h>
#include <string.h>
#include <sys/socket.h>
#include <unistd.h>

enum { PIECE = 65536, BLOCK = 262144, STRETCH = 1048576, MOST = 17825792, HEAD = 34, TOLD = 33 };

static void fail(const char *what)
{
    perror(what);
    exit(1);
}

static size_t least(size_t one, size_t other)
{
    return one < other ? one : other;
}

static void send_all(int link, const char *octets, size_t count)
{
    ssize_t sent;

    for (; count > 0; octets += sent, count -= sent)
        if ((sent = send(link, octets, least(count, PIECE), MSG_NOSIGNAL)) <= 0)
            fail("send");
}

static void receive_all(int link, char *into, size_t count)
{
    ssize_t received;

    for (; count > 0; into += received, count -= received)
        if ((received = recv(link, into, least(count, PIECE), 0)) <= 0)
            fail("recv");
}

/* A message of so many octets, said or heard. */
static void say(int link, size_t count)
{
    char octets[256] = {0};

    send_all(link, octets, count);
}

static void hear(int link, size_t count)
{
    char octets[256];

    receive_all(link, octets, count);
}

/* Has the system begin with what was written since a place, once that is a stretch; what it says to it is passed over. */
static void hasten(int file, off_t *begun, off_t place)
{
    if (place - *begun < STRETCH)
        return;
    posix_fadvise(file, *begun, place - *begun, POSIX_FADV_DONTNEED);
    *begun = place;
}

static void write_at(int store, const char *octets, size_t count, off_t place)
{
    off_t begun = place;
    ssize_t written;

    for (; count > 0; octets += written, count -= written) {
        if ((written = pwrite(store, octets, least(count, BLOCK), place)) <= 0)
            fail("pwrite");
        place += written;
        hasten(store, &begun, place);
    }
}

/* A record, and then what tells it, each on the disk; the place after it. */
static off_t keep(int store, const char *record, size_t count, off_t place)
{
    write_at(store, record, count, place);
    if (fsync(store))
        fail("fsync");
    write_at(store, "1", 1, TOLD);
    if (fdatasync(store))
        fail("fdatasync");
    return place + count;
}

static int opened(const char *path)
{
    char head[HEAD];
    int store = open(path, O_RDWR | O_CLOEXEC);

    if (store < 0 || fsync(store) || pread(store, head, HEAD, 0) != HEAD)
        fail(path);
    return store;
}

static char *room(void)
{
    char *found = malloc(MOST);

    if (!found)
        fail("malloc");
    return found;
}

static struct sockaddr_in address(const char *port)
{
    struct sockaddr_in it = {.sin_family = AF_INET, .sin_port = htons(atoi(port))};

    it.sin_addr.s_addr = htonl(INADDR_LOOPBACK);
    return it;
}

static int listening(const char *port)
{
    struct sockaddr_in at = address(port);
    int on = 1, it = socket(AF_INET, SOCK_STREAM | SOCK_CLOEXEC, 0);

    setsockopt(it, SOL_SOCKET, SO_REUSEADDR, &on, sizeof on);
    if (bind(it, (struct sockaddr *)&at, sizeof at) || listen(it, 16))
        fail(port);
    return it;
}

static int without_delay(int link)
{
    int on = 1;

    if (link < 0 || setsockopt(link, IPPROTO_TCP, TCP_NODELAY, &on, sizeof on))
        fail("a connection");
    return link;
}

static int connected(const char *port)
{
    struct sockaddr_in at = address(port);
    int it = socket(AF_INET, SOCK_STREAM | SOCK_CLOEXEC, 0);

    if (it < 0 || connect(it, (struct sockaddr *)&at, sizeof at))
        fail(port);
    return without_delay(it);
}

/* The messages up to the transfer; the first octet says which it is. */
static void begin(int link, char kind)
{
    char first[11] = {kind};

    send_all(link, first, sizeof first), hear(link, 11);
    say(link, 169), hear(link, 128);
    say(link, 40), hear(link, 22);
    say(link, 25), hear(link, 31);
}

static void end(int link)
{
    say(link, 22), hear(link, 22);
    say(link, 22), hear(link, 22);
    say(link, 33), hear(link, 33);
    close(link);
}

/* What the responder has. */
static struct {
    int store, is_due;
    off_t end;
    char *file;
    size_t length;
} served = {.end = HEAD};

static void answer_put(int link)
{
    receive_all(link, (char *)&served.length, sizeof served.length);
    receive_all(link, served.file, served.length);
    served.end = keep(served.store, served.file, served.length, served.end);
    served.is_due = 1;
}

static void answer_get(int link)
{
    char closed[80] = {0};

    send_all(link, (char *)&served.length, sizeof served.length);
    send_all(link, served.file, served.length);
    hear(link, 23);
    if (served.is_due)
        served.end = keep(served.store, served.file, served.length, served.end);
    served.is_due = 0;
    served.end = keep(served.store, closed, sizeof closed, served.end);
}

static void answer(int link)
{
    char kind, created[55] = {0};

    if (recv(link, &kind, 1, MSG_PEEK) < 1)
        return;
    hear(link, 11), say(link, 11);
    hear(link, 169), say(link, 128);
    hear(link, 40);
    if (kind == 'p')
        served.end = keep(served.store, created, sizeof created, served.end);
    say(link, 22);
    hear(link, 25), say(link, 31);
    if (kind == 'p')
        answer_put(link);
    else
        answer_get(link);
    say(link, 23);
    hear(link, 22), say(link, 22);
    hear(link, 22), say(link, 22);
    hear(link, 33), say(link, 33);
}

static void serve(const char *port)
{
    int listener;

    served.file = memset(room(), 0, MOST);
    listener = listening(port);

    for (;;) {
        int link = without_delay(accept(listener, NULL, NULL));

        answer(link);
        close(link);
    }
}

static void put(const char *port)
{
    char *file = room();
    size_t length = 0;
    ssize_t count;
    int link;

    for (; (count = read(0, file + length, least(PIECE, MOST - length))) != 0; length += count)
        if (count < 0)
            fail("read");
    link = connected(port);
    begin(link, 'p');
    send_all(link, (char *)&length, sizeof length);
    send_all(link, file, length);
    hear(link, 23);
    end(link);
}

static void get(const char *port)
{
    char *file = room();
    size_t length, done;
    ssize_t count;
    off_t begun = 0;
    int link = connected(port);

    begin(link, 'g');
    receive_all(link, (char *)&length, sizeof length);
    receive_all(link, file, length);
    say(link, 23), hear(link, 23);
    end(link);
    for (done = 0; done < length; done += count) {
        if ((count = write(1, file + done, least(BLOCK, length - done))) <= 0)
            fail("write");
        hasten(1, &begun, done + count);
    }
}

int main(int argc, char **argv)
{
    if (argc != 4)
        return 2;
    served.store = opened(argv[2]);
    if (strcmp(argv[1], "serve") == 0)
        serve(argv[3]);
    else if (strcmp(argv[1], "put") == 0)
        put(argv[3]);
    else if (strcmp(argv[1], "get") == 0)
        get(argv[3]);
    else
        return 2;
    return 0;
}
