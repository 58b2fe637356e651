/* U-Boot's net/tftp.c over a UDP socket: client ADDR PORT NAME LOCAL [BLKSIZE]
 *
 * It stands in for the rest of U-Boot, and gets a file into static memory as U-Boot's command tftpboot does. With DEEPEST
 * it says how much stack a call of the handler took at the most. */
#include "uboot.h"
#ifdef DEEPEST
#include "stack.h"
#endif
#undef printf
#undef puts
#undef putc
#include "../../examples/c/udp.h"

#define OWN_PORT "1024" /* as the handler knows it, whatever the socket's is */
enum { ROOM = 1 << 26, HEADERS = 14 + IP_UDP_HDR_SIZE };

static uchar image[ROOM], sent[2048], received[2048];
static rxhand_f *on_datagram;
static thand_f *on_timeout;
static double interval, due;
static enum { GOES_ON, COMPLETE, FAILED } state;
static struct tftp_endpoint to;
static size_t send_len;
static const char *port, *blksize;

static struct global_data global;
struct global_data *gd = &global;
uchar *net_tx_packet = sent, net_server_ethaddr[6];
struct in_addr net_ip, net_server_ip, net_gateway, net_netmask;
struct in6_addr net_ip6, net_server_ip6, net_gateway6;
unsigned net_prefix_length, net_boot_file_size, net_boot_file_expected_size_in_blocks;
char net_boot_file_name[1024];
bool use_ip6;
ulong image_load_addr = (ulong)0;

/* the datagram is sent once the handler has returned */
int net_send_udp_packet(uchar *ether, struct in_addr ip, int to_port, int own_port, int len) {
    (void)ether, (void)own_port;
    memcpy(to.ip, &ip, 4);
    to.port = (uint16_t)to_port;
    send_len = (size_t)len;
    return 0;
}

void net_set_timeout_handler(ulong millis, thand_f *handler) {
    on_timeout = handler;
    interval = (double)millis / 1000;
    due = 0; /* begins anew */
}

void net_set_udp_handler(rxhand_f *handler) { on_datagram = handler; }
void net_set_state(enum net_loop_state now) { state = now == NETLOOP_SUCCESS ? COMPLETE : FAILED; }
int net_start_again(void) { return state = FAILED; }
int net_eth_hdr_size(void) { return HEADERS - IP_UDP_HDR_SIZE; }
void eth_halt(void) {}
const char *eth_get_name(void) { return "none"; }
ulong get_timer(ulong base) { return (ulong)(now() * 1000) - base; }
void *map_sysmem(ulong address, ulong len) { return (void)len, image + address; }
void unmap_sysmem(const void *address) { (void)address; }
void lmb_init_and_reserve(struct lmb *lmb, void *board, void *tree) { (void)lmb, (void)board, (void)tree; }
phys_size_t lmb_get_free_size(struct lmb *lmb, ulong address) { return (void)lmb, ROOM - address; }
ulong dectoul(const char *text, char **end) { return strtoul(text, end, 10); }
long simple_strtol(const char *text, char **end, unsigned base) { return strtol(text, end, (int)base); }

char *env_get(const char *name) {
    const char *values[][2] = {{"tftpdstp", port}, {"tftpsrcp", OWN_PORT}, {"tftpblocksize", blksize}};
    for (size_t i = 0; i < sizeof values / sizeof *values; i++)
        if (!strcmp(name, values[i][0])) return (char *)values[i][1];
    return NULL;
}

bool net_parse_bootfile(struct in_addr *server, char *name, int room) {
    (void)server;
    snprintf(name, (size_t)room, "%s", net_boot_file_name);
    return true;
}

static void send_it(int fd) {
    udp_send(fd, &to, sent + HEADERS, send_len);
    send_len = 0;
}

/* one call of the handler */
static struct tftp_endpoint from;
static size_t received_len;

static void handle(void) {
    struct in_addr ip;
    memcpy(&ip, from.ip, 4);
    on_datagram(received, (unsigned)atoi(OWN_PORT), ip, from.port, (unsigned)received_len);
}

static void handle_received(void) {
#ifdef DEEPEST
    static size_t most;
    size_t depth = depth_of(handle);
    if (depth > most) most = depth;
    if (state != GOES_ON) printf("%zu\n", most);
#else
    handle();
#endif
}

int main(int argc, char **argv) {
    if (argc < 5) return 2;
    port = argv[2];
    blksize = argc > 5 ? argv[5] : "512";
    snprintf(net_boot_file_name, sizeof net_boot_file_name, "%s", argv[3]);
    struct tftp_endpoint server = udp_endpoint(argv[1], port);
    memcpy(&net_server_ip, server.ip, 4);
    int fd = udp_socket((struct tftp_endpoint){0});
    tftp_start(TFTPGET);
    while (state == GOES_ON) {
        send_it(fd);
        if (due == 0) due = now() + interval;
        ssize_t len = udp_receive(fd, due, &from, received, sizeof received);
        received_len = len < 0 ? 0 : (size_t)len;
        if (len < 0)
            on_timeout();
        else
            handle_received();
    }
    send_it(fd);
    FILE *local = fopen(argv[4], "wb");
    if (!local || fwrite(image, 1, net_boot_file_size, local) != net_boot_file_size || fclose(local)) return 2;
    return state == COMPLETE ? 0 : 1;
}
