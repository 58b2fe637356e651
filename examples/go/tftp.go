// Package tftp has the ends of a TFTP transfer, by the proved steps of libtftp: a client that gets or puts, as a state
// machine without IO. tftp.h says what each call does. Build it with CGO_CFLAGS and CGO_LDFLAGS of pkg-config.
package tftp

// #cgo LDFLAGS: -ltftp
// #include <tftp.h>
import "C"

import (
	"fmt"
	"net"
	"runtime"
	"time"
	"unsafe"
)

// Outcomes of a transfer, as in tftp.h.
const (
	Open        Outcome = C.TFTP_OUTCOME_OPEN
	Complete    Outcome = C.TFTP_OUTCOME_COMPLETE
	TimedOut    Outcome = C.TFTP_OUTCOME_TIMED_OUT
	PeerError   Outcome = C.TFTP_OUTCOME_PEER_ERROR
	Illegal     Outcome = C.TFTP_OUTCOME_ILLEGAL
	Refused     Outcome = C.TFTP_OUTCOME_REFUSED
	TooLarge    Outcome = C.TFTP_OUTCOME_TOO_LARGE
	StoreFault  Outcome = C.TFTP_OUTCOME_STORE_FAULT
	SourceFault Outcome = C.TFTP_OUTCOME_SOURCE_FAULT
	NotNetascii Outcome = C.TFTP_OUTCOME_NOT_NETASCII
	Aborted     Outcome = C.TFTP_OUTCOME_ABORTED
)

// Lengths in bytes, and the code of an ERROR.
const (
	MaxBlock = C.TFTP_MAX_BLOCK
	Header   = C.TFTP_HEADER
	DiskFull = C.TFTP_ERROR_DISK_FULL
)

// Fault says why a call did nothing. Nothing has changed then.
type Fault uint8

func (fault Fault) Error() string { return C.GoString(C.tftp_strfault(C.uint8_t(fault))) }

// OutOfMemory is the fault after which the peer sends again.
const OutOfMemory = Fault(C.TFTP_FAULT_MEMORY)

// Outcome is how a transfer ended.
type Outcome uint8

func (outcome Outcome) String() string { return C.GoString(C.tftp_stroutcome(C.uint8_t(outcome))) }

// Options of a request; its zero value asks for none, has no limit and sends a datagram five times more.
type Options struct {
	Blksize   uint16
	Timeout   uint8 // in seconds
	AsksTsize bool
	Netascii  bool   // a put then takes what ToWire makes of a text, and a get gives LF for CR LF
	Retries   uint8  // how often a datagram is sent again, or 0 for five times
	MaxFile   uint64 // the longest length that a peer may state, or 0 for any
	Backoff   bool   // each timeout without progress doubles the wait, up to eight times
}

// Event is what a call did: Send goes to To, and Moved bytes of the file were stored in the buffer, or taken from it.
type Event struct {
	Send      []byte // valid until the next call
	To        *net.UDPAddr
	Moved     int
	PeerCode  uint16
	Number    uint16
	BlockSize uint16
	Outcome   Outcome
	Interval  time.Duration
	Progress  bool
	Complete  bool
}

// Client is one end of one transfer, used by one goroutine at a time. Close frees it; so does the collector.
type Client struct {
	end   C.struct_tftp_end
	event C.struct_tftp_event
	reply []byte
}

func pointer(bytes []byte) *C.uint8_t {
	if len(bytes) == 0 {
		return nil
	}
	return (*C.uint8_t)(unsafe.Pointer(&bytes[0]))
}

func size(bytes []byte) C.size_t { return C.size_t(len(bytes)) }

// endpoint fails for an address that is none of IPv4, and for a port that has more than 16 bits.
func endpoint(at *net.UDPAddr) (to C.struct_tftp_endpoint, err error) {
	if at == nil || at.IP.To4() == nil {
		return to, fmt.Errorf("tftp: no IPv4 address: %v", at)
	}
	if at.Port < 0 || at.Port > 65535 {
		return to, fmt.Errorf("tftp: no port: %d", at.Port)
	}
	for place, part := range at.IP.To4() {
		to.ip[place] = C.uint8_t(part)
	}
	to.port = C.uint16_t(at.Port)
	return to, nil
}

func (options Options) of() (made C.struct_tftp_options) {
	made = C.struct_tftp_options{max_file: C.UINT64_MAX, retries: 5}
	made.size = C.size_t(unsafe.Sizeof(made))
	made.blksize, made.timeout = C.uint16_t(options.Blksize), C.uint8_t(options.Timeout)
	made.asks_tsize, made.is_netascii = C.bool(options.AsksTsize), C.bool(options.Netascii)
	made.backoff = C.bool(options.Backoff)
	if options.Retries > 0 {
		made.retries = C.uint8_t(options.Retries)
	}
	if options.MaxFile > 0 {
		made.max_file = C.uint64_t(options.MaxFile)
	}
	return made
}

// ToWire is a text of this host as it is sent in netascii, with CR LF for LF and CR NUL for CR.
func ToWire(text []byte) []byte {
	wire := make([]byte, C.tftp_wire_length(pointer(text), size(text)))
	C.tftp_to_wire(pointer(text), size(text), pointer(wire), size(wire))
	return wire
}

func newClient(blksize uint16) *Client {
	if blksize < C.TFTP_DEFAULT_BLOCK {
		blksize = C.TFTP_DEFAULT_BLOCK
	}
	client := &Client{reply: make([]byte, int(blksize)+Header)}
	runtime.SetFinalizer(client, (*Client).Close)
	return client
}

func (client *Client) did(fault C.uint8_t) (Event, error) {
	it := &client.event
	if fault != C.TFTP_OK {
		return Event{}, Fault(fault)
	}
	event := Event{Moved: int(it.file_len), PeerCode: uint16(it.peer_code), Number: uint16(it.number),
		BlockSize: uint16(it.block_size), Outcome: Outcome(it.outcome), Interval: time.Duration(it.interval) * time.Second,
		Progress: bool(it.progress), Complete: bool(it.complete)}
	if it.send_len > 0 {
		event.Send = client.reply[:it.send_len]
		event.To = &net.UDPAddr{IP: net.IPv4(byte(it.to.ip[0]), byte(it.to.ip[1]), byte(it.to.ip[2]), byte(it.to.ip[3])),
			Port: int(it.to.port)}
	}
	return event, nil
}

// Get opens a client that gets a file.
func Get(server *net.UDPAddr, name string, options Options) (*Client, Event, error) {
	to, err := endpoint(server)
	if err != nil {
		return nil, Event{}, err
	}
	client, made, asked := newClient(options.Blksize), options.of(), []byte(name)
	event, fault := client.did(C.tftp_get(&client.end, &to, pointer(asked), size(asked), &made, pointer(client.reply),
		size(client.reply), &client.event))
	return client, event, fault
}

// Put opens a client that puts a file of this length.
func Put(server *net.UDPAddr, name string, length uint64, options Options) (*Client, Event, error) {
	to, err := endpoint(server)
	if err != nil {
		return nil, Event{}, err
	}
	client, made, asked := newClient(options.Blksize), options.of(), []byte(name)
	event, fault := client.did(C.tftp_put(&client.end, &to, pointer(asked), size(asked), C.uint64_t(length), &made,
		pointer(client.reply), size(client.reply), &client.event))
	return client, event, fault
}

// Receive handles a datagram of a get: the next event.Moved bytes of the file are at the start of block. Store them before
// event.Send is sent, which acknowledges them.
func (client *Client) Receive(from *net.UDPAddr, datagram, block []byte) (Event, error) {
	at, err := endpoint(from)
	if err != nil {
		return Event{}, err
	}
	return client.did(C.tftp_receive(&client.end, &at, pointer(datagram), size(datagram), pointer(block), size(block),
		pointer(client.reply), size(client.reply), &client.event))
}

// Send handles a datagram of a put: event.Moved bytes were taken from the start of next.
func (client *Client) Send(from *net.UDPAddr, datagram, next []byte) (Event, error) {
	at, err := endpoint(from)
	if err != nil {
		return Event{}, err
	}
	return client.did(C.tftp_send(&client.end, &at, pointer(datagram), size(datagram), pointer(next), size(next),
		pointer(client.reply), size(client.reply), &client.event))
}

// Timeout says that event.Interval has passed.
func (client *Client) Timeout() (Event, error) {
	return client.did(C.tftp_timeout(&client.end, pointer(client.reply), size(client.reply), &client.event))
}

// Abort ends a transfer that cannot go on, by an ERROR for its peer.
func (client *Client) Abort(code uint16, why string) (Event, error) {
	text := []byte(why)
	return client.did(C.tftp_abort(&client.end, C.uint16_t(code), pointer(text), size(text), pointer(client.reply),
		size(client.reply), &client.event))
}

// Info is what a client and its peer have agreed: the length of the file and the timeout, where they were answered.
type Info struct {
	Length    uint64
	HasLength bool
	Timeout   time.Duration
}

// Info of a client that is open.
func (client *Client) Info() (Info, error) {
	var info C.struct_tftp_info
	info.size = C.size_t(unsafe.Sizeof(info))
	if fault := C.tftp_end_info(&client.end, &info); fault != C.TFTP_OK {
		return Info{}, Fault(fault)
	}
	return Info{Length: uint64(info.length), HasLength: bool(info.has_length),
		Timeout: time.Duration(info.timeout) * time.Second}, nil
}

// Close frees the client. Closing twice is allowed.
func (client *Client) Close() { C.tftp_close_end(&client.end) }
