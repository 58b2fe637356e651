/* What U-Boot's net/tftp.c takes of the rest of U-Boot, by its names: types, constants, and what uboot.c is in place of.
 * Its options are the defaults of net/Kconfig, and the port by the environment. Nothing is printed. */
#ifndef UBOOT_H
#define UBOOT_H
#include <arpa/inet.h>
#include <ctype.h>
#include <limits.h>
#include <stdbool.h>
#include <stdint.h>
#include <stdio.h>
#include <stdlib.h>
#include <string.h>
#include <strings.h>

#define CONFIG_NET_RETRY_COUNT 5
#define CONFIG_TFTP_BLOCKSIZE 1468
#define CONFIG_LMB 1
#define CONFIG_TFTP_PORT 1
#define CONFIG_NET_TFTP_VARS 1
#define CONFIG_IPV6 0
#define CONFIG_CMD_BOOTEFI 0
#define IS_ENABLED(option) (option)
#define config_opt_enabled(option, on, off) (off)

typedef unsigned char uchar;
typedef unsigned short ushort;
typedef unsigned long ulong;
typedef uint16_t u16, __be16;
typedef size_t phys_size_t;

#define __maybe_unused __attribute__((unused))
#define fallthrough __attribute__((fallthrough))
#define min(one, other) ((one) < (other) ? (one) : (other))
#define DECLARE_GLOBAL_DATA_PTR extern struct global_data *gd
#define debug(...) ((void)0)
#undef putc
#define putc(character) ((void)(character))
#define puts(text) ((void)(text))
#define printf(...) ((void)0)
#define print_size(size, text) ((void)(size))

/* the network */
enum { IP_UDP_HDR_SIZE = 28, IP6_HDR_SIZE = 40, UDP_HDR_SIZE = 8 };
enum proto_t { TFTPGET, TFTPPUT };
enum net_loop_state { NETLOOP_SUCCESS, NETLOOP_FAIL };
typedef void rxhand_f(uchar *packet, unsigned port, struct in_addr from, unsigned from_port, unsigned len);
typedef void thand_f(void);
extern uchar *net_tx_packet, net_server_ethaddr[6];
extern struct in_addr net_ip, net_server_ip, net_gateway, net_netmask;
extern struct in6_addr net_ip6, net_server_ip6, net_gateway6;
extern unsigned net_prefix_length, net_boot_file_size, net_boot_file_expected_size_in_blocks;
extern char net_boot_file_name[1024];
extern bool use_ip6;
int net_eth_hdr_size(void);
int net_send_udp_packet(uchar *ether, struct in_addr to, int to_port, int port, int len);
int net_send_udp_packet6(uchar *ether, struct in6_addr *to, int to_port, int port, int len);
void net_set_udp_handler(rxhand_f *handler);
void net_set_timeout_handler(ulong millis, thand_f *handler);
void net_set_state(enum net_loop_state state);
int net_start_again(void);
bool net_parse_bootfile(struct in_addr *server, char *name, int room);
bool ip6_addr_in_subnet(struct in6_addr *one, struct in6_addr *other, unsigned prefix);
int string_to_ip6(const char *text, size_t len, struct in6_addr *address);
void eth_halt(void);
const char *eth_get_name(void);

/* memory, the clock and texts */
struct global_data { void *bd, *fdt_blob; };
struct lmb { int none; };
extern ulong image_load_addr;
void lmb_init_and_reserve(struct lmb *lmb, void *board, void *tree);
phys_size_t lmb_get_free_size(struct lmb *lmb, ulong address);
void *map_sysmem(ulong address, ulong len);
void unmap_sysmem(const void *address);
void efi_set_bootdev(const char *device, const char *number, const char *path, void *buffer, size_t len);
ulong get_timer(ulong base);
char *env_get(const char *name);
ulong dectoul(const char *text, char **end);
long simple_strtol(const char *text, char **end, unsigned base);
size_t strlcpy(char *to, const char *from, size_t room);

void tftp_start(enum proto_t protocol);
#endif
