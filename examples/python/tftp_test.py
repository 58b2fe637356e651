"""python3 -m unittest tftp_test: what the module refuses, and steps of a client without a socket."""
import unittest

import tftp

SERVER, PEER = ("127.0.0.1", 69), ("127.0.0.1", 1024)


class Numbers(unittest.TestCase):
    def test_a_number_out_of_range_is_refused_and_not_cut(self) -> None:
        for options in [{"blksize": 65544}, {"blksize": 7}, {"blksize": -1}, {"timeout": 256}, {"timeout": -1},
                        {"retries": 256}, {"max_file": 2**64}, {"max_file": -1}]:
            with self.subTest(options), self.assertRaises(ValueError):
                tftp.Client(**options)
        with tftp.Client() as client:
            for address in [("127.0.0.1", 65536 + 69), ("127.0.0.1", -1)]:
                with self.assertRaises(ValueError):
                    client.start_get(address, "a")
            with self.assertRaises(OSError):
                client.start_get(("::1", 69), "a")
            client.start_get(SERVER, "a")
            with self.assertRaises(ValueError):
                client.abort(65536, "given up")


class Steps(unittest.TestCase):
    def test_a_text_is_got_with_the_line_ends_of_this_host(self) -> None:
        with tftp.Client(netascii=True, asks_tsize=False) as client:
            self.assertEqual(client.start_get(SERVER, "a"), b"\0\1a\0netascii\0")
            self.assertEqual(client.receive(PEER, b"\0\3\0\1one\r\ntwo\r\0"), b"\0\4\0\1")
            self.assertEqual((bytes(client.received), client.event.complete), (b"one\ntwo\r", True))

    def test_a_text_is_put_with_those_of_the_wire(self) -> None:
        self.assertEqual(tftp.to_wire(b"a\nb\r"), b"a\r\nb\r\0")
        with tftp.Client(netascii=True) as client:
            client.start_put(SERVER, "a", b"a\nb\r")
            self.assertEqual(client.send(PEER, b"\0\4\0\0"), b"\0\3\0\1a\r\nb\r\0")

    def test_the_waits_grow(self) -> None:
        with tftp.Client(retries=2) as client:
            request, waits = client.start_get(SERVER, "a"), []
            while client.is_open:
                waits.append(client.event.interval)
                client.timeout()
            self.assertEqual((waits, client.event.outcome), ([1, 2, 4], tftp.Outcome.TIMED_OUT))
            self.assertTrue(request)


if __name__ == "__main__":
    unittest.main()
