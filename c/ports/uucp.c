/* Taylor UUCP's TLI port over libxti: it dials, listens, accepts and copies 1 MB each way. Linked with the objects of the
   unmodified source by tools/port-uucp. Server and client are two threads, since both ends are in one process. */
#include "uucp.h"

#include "uudefs.h"
#include "uuconf.h"
#include "conn.h"
#include "system.h"

#include <pthread.h>

enum { BYTES = 1 << 20, PIECE = 4096, SECONDS = 100 };

static char *dialer[] = { (char *)"TLI", (char *)"uucp-server", NULL };

/* The server forks once a caller is accepted, and again: the thread goes on as the child of both. */
pid_t ixsfork(void)
{
    return 0;
}

static void stop(const char *what)
{
    fprintf(stderr, "port-uucp: %s\n", what);
    exit(EXIT_FAILURE);
}

static void open_port(struct sconnection *conn, struct uuconf_port *port, int is_server)
{
    memset(port, 0, sizeof *port);
    port->uuconf_zname = (char *)"ticotsord";
    port->uuconf_ttype = UUCONF_PORTTYPE_TLI;
    port->uuconf_u.uuconf_stli.uuconf_pzdialer = dialer;
    port->uuconf_u.uuconf_stli.uuconf_zservaddr = dialer[1];
    if (!fconn_init(port, conn, UUCONF_PORTTYPE_TLI) || !fconn_open(conn, 0, 0, is_server, FALSE))
        stop("the port isn't opened");
}

static void receive(struct sconnection *conn, char *bytes, size_t count)
{
    size_t got = 0;

    while (got < count) {
        size_t len = count - got;
        if (!fconn_read(conn, bytes + got, &len, len, SECONDS, TRUE) || len == 0)
            stop("nothing is received");
        got += len;
    }
}

static void send_piece(struct sconnection *conn, const char *bytes)
{
    if (!fconn_write(conn, bytes, PIECE))
        stop("nothing is sent");
}

/* Sends back what it receives. */
static void *serve(void *unused)
{
    struct sconnection conn;
    struct uuconf_port port;
    char bytes[PIECE];
    int i;

    open_port(&conn, &port, TRUE);
    for (i = 0; i < BYTES / PIECE; i++) {
        receive(&conn, bytes, PIECE);
        send_piece(&conn, bytes);
    }
    return unused;
}

static void dial(struct sconnection *conn, struct uuconf_port *port)
{
    enum tdialerfound found;
    struct uuconf_dialer used;

    open_port(conn, port, FALSE);
    if (!fconn_dial(conn, NULL, NULL, NULL, &used, &found))
        stop("the server isn't reached");
}

int main(int count, char **words)
{
    struct sconnection conn;
    struct uuconf_port port;
    char sent[PIECE], received[PIECE];
    pthread_t server;
    int i, k;

    (void)count;
    (void)words;
    if (pthread_create(&server, NULL, serve, NULL) != 0)
        stop("no thread is started");
    sleep(1);
    dial(&conn, &port);
    for (i = 0; i < BYTES / PIECE; i++) {
        for (k = 0; k < PIECE; k++)
            sent[k] = (char)(i * 7 + k * 31 + k / 251);
        send_piece(&conn, sent);
        receive(&conn, received, PIECE);
        if (memcmp(sent, received, PIECE) != 0)
            stop("other bytes came back");
    }
    pthread_join(server, NULL);
    if (!fconn_close(&conn, NULL, NULL, TRUE))
        stop("the port isn't closed");
    printf("%d bytes each way\n", BYTES);
    return EXIT_SUCCESS;
}
