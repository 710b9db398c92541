"""Connections that tests make to ports of this machine."""
import socket
import unittest
import unittest.mock

from tests.common.connections import open_connection

LIMIT = 20.0  # seconds to connect, and to receive


class Connecting(unittest.TestCase):
    """Connections with and without a program that listens."""

    def test_a_connection_to_a_listening_port_carries_bytes(self) -> None:
        """It comes from the address that was asked for."""
        with socket.create_server(("127.0.0.1", 0)) as listening:
            port = int(listening.getsockname()[1])
            for source in (None, "127.0.0.1", "127.0.0.7"):
                with open_connection(port, LIMIT, source) as it, listening.accept()[0] as accepted:
                    it.sendall(b"look")
                    self.assertEqual(accepted.recv(4), b"look")
                    self.assertEqual(accepted.getpeername()[0], source or "127.0.0.1")

    def test_a_socket_that_the_system_connects_to_itself_is_refused_and_closed(self) -> None:
        it = socket.socket()
        it.bind(("127.0.0.1", 0))
        it.connect(it.getsockname())
        it.sendall(b"look")
        self.assertEqual(it.recv(4), b"look")  # It receives what it sent.
        port = int(it.getsockname()[1])
        with unittest.mock.patch("socket.create_connection", return_value=it), self.assertRaises(ConnectionRefusedError):
            open_connection(port, LIMIT)
        self.assertEqual(it.fileno(), -1)


if __name__ == "__main__":
    unittest.main()
