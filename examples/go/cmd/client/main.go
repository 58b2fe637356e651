// Gets or puts a file by TFTP: client get|put ADDR PORT NAME LOCAL [BLKSIZE [netascii]]
package main

import (
	"errors"
	"fmt"
	"net"
	"os"
	"strconv"
	"time"

	"example.org/tftp"
)

func main() {
	if err := run(os.Args[1:]); err != nil {
		fmt.Println(err)
		os.Exit(1)
	}
	fmt.Println("complete")
}

func run(words []string) error {
	server, err := net.ResolveUDPAddr("udp4", net.JoinHostPort(words[1], words[2]))
	if err != nil {
		return err
	}
	options := tftp.Options{AsksTsize: true, Netascii: len(words) > 6, Backoff: true}
	if len(words) > 5 {
		number, err := strconv.ParseUint(words[5], 10, 16)
		if err != nil {
			return err
		}
		options.Blksize = uint16(number)
	}
	port, err := net.ListenUDP("udp4", nil)
	if err != nil {
		return err
	}
	defer port.Close()
	var file []byte
	var client *tftp.Client
	var event tftp.Event
	puts := words[0] == "put"
	if puts {
		if file, err = os.ReadFile(words[4]); err != nil {
			return err
		}
		if options.Netascii {
			file = tftp.ToWire(file)
		}
		client, event, err = tftp.Put(server, words[3], uint64(len(file)), options)
	} else {
		client, event, err = tftp.Get(server, words[3], options)
	}
	if err != nil {
		return err
	}
	defer client.Close()
	datagram, block := make([]byte, tftp.Header+tftp.MaxBlock+1), make([]byte, tftp.MaxBlock)
	send := func() {
		if event.Send != nil {
			port.WriteToUDP(event.Send, event.To) // one that fails is as one that was lost
		}
	}
	send()
	due := time.Now().Add(event.Interval)
	for event.Outcome == tftp.Open {
		port.SetReadDeadline(due)
		count, from, err := port.ReadFromUDP(datagram)
		waited := errors.Is(err, os.ErrDeadlineExceeded)
		if err != nil && !waited {
			continue // an ICMP error, which anyone may send
		}
		before := event
		switch {
		case waited:
			event, err = client.Timeout()
		case puts:
			event, err = client.Send(from, datagram[:count], file)
		default:
			event, err = client.Receive(from, datagram[:count], block)
		}
		if err == tftp.OutOfMemory {
			event = before
			continue
		}
		if err != nil {
			return err
		}
		if puts {
			file = file[event.Moved:]
		} else {
			file = append(file, block[:event.Moved]...)
		}
		// the whole file is stored before its last block is acknowledged
		if !puts && event.Complete && event.Progress {
			if err := os.WriteFile(words[4], file, 0o644); err != nil {
				if event, fault := client.Abort(tftp.DiskFull, "file not stored"); fault == nil {
					port.WriteToUDP(event.Send, event.To)
				}
				return err
			}
		}
		send()
		if waited || event.Progress {
			due = time.Now().Add(event.Interval)
		}
	}
	if !event.Complete {
		return fmt.Errorf("%s %d", event.Outcome, event.PeerCode)
	}
	return nil
}
