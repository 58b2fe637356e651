/* A loader's part that gets a file: an EFI application that gets NAME from SERVER by TFTP, checks that its length is the one
 * that the server stated, and prints the length and the SHA-256. A loader would then check a signature and start the image.
 *
 * It links libtftp-bare.a, whose code has no register of floating point and no red zone, and no C library: the firmware has
 * the UDP port (EFI_UDP4_PROTOCOL, with an address by DHCP), the clock and the memory. The Makefile says how it is built;
 * copy loader.efi to EFI/BOOT/BOOTX64.EFI of a FAT disk, or to BOOTAA64.EFI for ARM64. */
#include <efi.h>
#include <efilib.h>
#include <efiudp.h>
#include "sha256.h"
#include "tftp.h"

/* whom it asks, and for what: `make SERVER=10,0,2,2 PORT=6969 NAME=boot.img` */
#ifndef SERVER
#define SERVER 10, 0, 2, 2
#define PORT 69
#define NAME "boot.img"
#endif
enum { ROOM = 8 << 20, BLOCK = 1428, SECOND = 10000000 /* of 100 nanoseconds */, PATIENCE = 30 };

static EFI_UDP4 *udp;
static EFI_EVENT timer, sent;
static EFI_UDP4_COMPLETION_TOKEN incoming;

/* ---- The heap of the library (tftp.h): pools, which align to 8, as much as the library asks for */

void *tftp_alloc(size_t size, size_t align) {
    void *block = NULL;
    return align <= 8 && !EFI_ERROR(BS->AllocatePool(EfiLoaderData, size, &block)) ? block : NULL;
}

void *tftp_realloc(void *block, size_t kept, size_t size, size_t align) {
    void *moved = tftp_alloc(size, align);
    if (!moved) return NULL;
    BS->CopyMem(moved, block, kept);
    BS->FreePool(block);
    return moved;
}

void tftp_free(void *block) { BS->FreePool(block); }

/* what else the library calls, of <string.h>: gnu-efi has memcpy and memset */
void *memmove(void *to, const void *from, size_t len) {
    BS->CopyMem(to, (void *)from, len);
    return to;
}

/* ---- The network */

/* Every driver of the firmware takes its device: a loader may be started before that. */
static void connect_all(void) {
    EFI_HANDLE *handles;
    UINTN count;
    if (EFI_ERROR(BS->LocateHandleBuffer(AllHandles, NULL, NULL, &count, &handles))) return;
    for (UINTN i = 0; i < count; i++) BS->ConnectController(handles[i], NULL, NULL, TRUE);
    BS->FreePool(handles);
}

/* A UDP port of the first network card that has an address, or gets one by DHCP. It takes datagrams from every endpoint:
 * the server answers from a port of its own. */
static EFI_STATUS open_port(void) {
    EFI_GUID binding_id = EFI_UDP4_SERVICE_BINDING_PROTOCOL, udp_id = EFI_UDP4_PROTOCOL;
    EFI_UDP4_CONFIG_DATA config = {.AllowDuplicatePort = TRUE, .TimeToLive = 64, .UseDefaultAddress = TRUE};
    EFI_SERVICE_BINDING *binding;
    EFI_HANDLE port = NULL;
    EFI_STATUS status = LibLocateProtocol(&binding_id, (void **)&binding);
    if (!EFI_ERROR(status)) status = binding->CreateChild(binding, &port);
    if (!EFI_ERROR(status)) status = BS->HandleProtocol(port, &udp_id, (void **)&udp);
    if (!EFI_ERROR(status)) status = BS->CreateEvent(EVT_TIMER, 0, NULL, NULL, &timer);
    if (!EFI_ERROR(status)) status = BS->CreateEvent(0, 0, NULL, NULL, &sent);
    if (!EFI_ERROR(status)) status = BS->CreateEvent(0, 0, NULL, NULL, &incoming.Event);
    /* no mapping: DHCP is not done yet */
    for (int tries = 0; !EFI_ERROR(status) && tries < 10 * PATIENCE; tries++) {
        EFI_STATUS configured = udp->Configure(udp, &config);
        if (configured != EFI_NO_MAPPING) return configured;
        BS->Stall(100000);
    }
    return EFI_ERROR(status) ? status : EFI_TIMEOUT;
}

/* Sends a datagram; one that the firmware refuses is lost. */
static void send(const struct tftp_endpoint *to, uint8_t *bytes, size_t len) {
    EFI_UDP4_SESSION_DATA session = {.DestinationPort = to->port};
    EFI_UDP4_TRANSMIT_DATA data = {&session, NULL, (UINT32)len, 1, {{(UINT32)len, bytes}}};
    EFI_UDP4_COMPLETION_TOKEN token = {.Event = sent, .Packet.TxData = &data};
    if (len == 0) return;
    CopyMem(&session.DestinationAddress, (void *)to->ip, 4);
    if (EFI_ERROR(udp->Transmit(udp, &token))) return;
    while (BS->CheckEvent(sent) == EFI_NOT_READY) udp->Poll(udp);
}

static void set_timer(unsigned seconds) { BS->SetTimer(timer, TimerRelative, (UINT64)seconds * SECOND); }

/* Waits for a datagram until the timer ends. Returns its length, or SIZE_MAX. */
static size_t receive(struct tftp_endpoint *from, uint8_t *bytes, size_t room) {
    EFI_STATUS status = udp->Receive(udp, &incoming); /* already started: the last wait ended by the timer */
    if (EFI_ERROR(status) && status != EFI_ALREADY_STARTED && status != EFI_ACCESS_DENIED) return SIZE_MAX;
    while (BS->CheckEvent(incoming.Event) == EFI_NOT_READY) {
        if (BS->CheckEvent(timer) == EFI_SUCCESS) return SIZE_MAX;
        udp->Poll(udp);
    }
    if (EFI_ERROR(incoming.Status)) return receive(from, bytes, room); /* an ICMP message, as of a port that is closed */
    EFI_UDP4_RECEIVE_DATA *data = incoming.Packet.RxData;
    size_t len = 0;
    for (UINTN i = 0; i < data->FragmentCount; i++) {
        size_t more = data->FragmentTable[i].FragmentLength;
        if (more > room - len) more = room - len;
        CopyMem(bytes + len, data->FragmentTable[i].FragmentBuffer, more);
        len += more;
    }
    CopyMem(from->ip, &data->UdpSession.SourceAddress, 4);
    from->port = data->UdpSession.SourcePort;
    BS->SignalEvent(data->RecycleSignal);
    return len;
}

/* ---- The transfer */

static uint8_t datagram[TFTP_HEADER + BLOCK + 1], reply[TFTP_MAX_REQUEST];

/* Gets the file into `image`. Returns its length, or SIZE_MAX. */
static size_t get(uint8_t *image, size_t room) {
    struct tftp_endpoint server = {{SERVER}, PORT}, from;
    struct tftp_options options = TFTP_OPTIONS_INIT;
    struct tftp_end end = {0};
    struct tftp_event event = {0};
    struct tftp_info info = TFTP_INFO_INIT;
    size_t total = 0;
    options.max_file = room; /* a longer file is refused at once, if its length is stated */
    options.blksize = BLOCK;
    options.asks_tsize = true;
    options.backoff = true;

    uint8_t fault = tftp_get(&end, &server, (const uint8_t *)NAME, sizeof NAME - 1, &options, reply, sizeof reply, &event);
    if (!fault) send(&event.to, reply, event.send_len);
    set_timer(event.interval);
    while (!fault && !event.outcome) {
        size_t len = receive(&from, datagram, sizeof datagram);
        if (len != SIZE_MAX) /* the block goes to its place in the image */
            fault = tftp_receive(&end, &from, datagram, len, image + total, room - total, reply, sizeof reply, &event);
        else
            fault = tftp_timeout(&end, reply, sizeof reply, &event);
        if (fault == TFTP_FAULT_MEMORY) {
            fault = 0; /* nothing has changed: the peer sends again */
            continue;
        }
        if (fault) break;
        total += event.file_len;
        send(&event.to, reply, event.send_len);
        if (len == SIZE_MAX || event.progress) set_timer(event.interval);
    }
    bool is_whole = !fault && event.complete;
    if (is_whole && tftp_end_info(&end, &info) == 0 && info.has_length) is_whole = info.length == total;
    if (!is_whole) Print(L"loader: fault %d, outcome %d, %ld bytes\n", fault, event.outcome, (UINT64)total);
    tftp_close(&end);
    return is_whole ? total : SIZE_MAX;
}

EFI_STATUS efi_main(EFI_HANDLE self, EFI_SYSTEM_TABLE *system) {
    InitializeLib(self, system);
    connect_all();
    EFI_STATUS status = open_port();
    uint8_t *image = NULL;
    if (!EFI_ERROR(status)) status = BS->AllocatePool(EfiLoaderData, ROOM, (void **)&image);
    if (EFI_ERROR(status)) {
        Print(L"loader: no network: %r\n", status);
        return status;
    }
    size_t len = get(image, ROOM);
    if (len == SIZE_MAX) return EFI_LOAD_ERROR;
    uint8_t hash[32];
    sha256(image, len, hash);
    Print(L"loader: %ld bytes ", (UINT64)len);
    for (int i = 0; i < 32; i++) Print(L"%02x", hash[i]);
    Print(L"\n");
    return EFI_SUCCESS; /* where a loader would start the image */
}
