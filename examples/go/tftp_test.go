package tftp

import (
	"bytes"
	"net"
	"testing"
	"time"
)

var (
	server = &net.UDPAddr{IP: net.IPv4(127, 0, 0, 1), Port: 69}
	peer   = &net.UDPAddr{IP: net.IPv4(127, 0, 0, 1), Port: 1024}
)

func same(t *testing.T, what string, found, expected []byte) {
	t.Helper()
	if !bytes.Equal(found, expected) {
		t.Fatalf("%s: %q; expected %q", what, found, expected)
	}
}

func TestGet(t *testing.T) {
	client, event, fault := Get(server, "boot.img", Options{})
	if fault != nil || event.To.Port != 69 {
		t.Fatal(fault, event)
	}
	defer client.Close()
	same(t, "the request", event.Send, []byte("\x00\x01boot.img\x00octet\x00"))
	block := make([]byte, 512)
	event, fault = client.Receive(peer, []byte("\x00\x03\x00\x01abc"), block)
	if fault != nil || !event.Complete {
		t.Fatal(fault, event)
	}
	same(t, "the file", block[:event.Moved], []byte("abc"))
	same(t, "the ACK", event.Send, []byte("\x00\x04\x00\x01"))
}

func TestInfo(t *testing.T) {
	client, _, fault := Get(server, "a", Options{Timeout: 3, AsksTsize: true})
	if fault != nil {
		t.Fatal(fault)
	}
	if info, fault := client.Info(); fault != nil || info != (Info{}) {
		t.Fatal(fault, info)
	}
	if _, fault = client.Receive(peer, []byte("\x00\x06tsize\x000\x00timeout\x003\x00"), make([]byte, 512)); fault != nil {
		t.Fatal(fault)
	}
	if info, fault := client.Info(); fault != nil || info != (Info{HasLength: true, Timeout: 3 * time.Second}) {
		t.Fatal(fault, info)
	}
	client.Close()
	if _, fault = client.Info(); fault == nil {
		t.Fatal("the info of a closed client")
	}
}

func TestPut(t *testing.T) {
	client, _, fault := Put(server, "a", 3, Options{})
	if fault != nil {
		t.Fatal(fault)
	}
	event, fault := client.Send(peer, []byte("\x00\x04\x00\x00"), []byte("abc"))
	if fault != nil || event.Moved != 3 {
		t.Fatal(fault, event)
	}
	same(t, "the DATA", event.Send, []byte("\x00\x03\x00\x01abc"))
	event, fault = client.Timeout()
	if fault != nil {
		t.Fatal(fault)
	}
	same(t, "the DATA again", event.Send, []byte("\x00\x03\x00\x01abc"))
	event, fault = client.Abort(DiskFull, "full")
	if fault != nil || event.Outcome != Aborted {
		t.Fatal(fault, event)
	}
	same(t, "the ERROR", event.Send, []byte("\x00\x05\x00\x03full\x00"))
	if _, fault = client.Timeout(); fault == nil {
		t.Fatal("a closed client has had a timeout")
	}
}

func TestRefusals(t *testing.T) {
	if _, _, fault := Get(server, "", Options{}); fault == nil || fault.Error() != "the request is not allowed" {
		t.Fatal(fault)
	}
	if _, _, fault := Get(server, "a", Options{Blksize: 7}); fault == nil {
		t.Fatal("a block size of 7 was asked")
	}
}

func TestAddresses(t *testing.T) {
	none := []*net.UDPAddr{nil, {}, {IP: net.ParseIP("::1"), Port: 69}, {IP: net.IPv4(127, 0, 0, 1), Port: 65536}}
	for _, at := range none {
		if _, _, fault := Get(at, "a", Options{}); fault == nil {
			t.Fatalf("a get from %v", at)
		}
		if _, _, fault := Put(at, "a", 1, Options{}); fault == nil {
			t.Fatalf("a put to %v", at)
		}
	}
	client, _, fault := Get(server, "a", Options{})
	if fault != nil {
		t.Fatal(fault)
	}
	defer client.Close()
	if _, fault = client.Receive(none[2], []byte("\x00\x03\x00\x01abc"), make([]byte, 512)); fault == nil {
		t.Fatal("a datagram from an IPv6 address")
	}
}

func TestNetasciiAndWaits(t *testing.T) {
	same(t, "a text on the wire", ToWire([]byte("a\nb\rc")), []byte("a\r\nb\r\x00c"))
	if ToWire(nil) == nil || len(ToWire(nil)) != 0 {
		t.Fatal("no text on the wire")
	}
	client, event, fault := Get(server, "a", Options{Netascii: true, Backoff: true, Retries: 2})
	if fault != nil {
		t.Fatal(fault)
	}
	defer client.Close()
	same(t, "the request", event.Send, []byte("\x00\x01a\x00netascii\x00"))
	for _, wait := range []time.Duration{1, 2, 4} {
		if event.Interval != wait*time.Second {
			t.Fatal(event)
		}
		if event, fault = client.Timeout(); fault != nil {
			t.Fatal(fault)
		}
	}
	if event.Outcome != TimedOut {
		t.Fatal(event)
	}
}
