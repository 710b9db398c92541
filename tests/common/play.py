"""Plays a script on a server, with one connection for each number in the script.

    python3 -m tests.common.play SCRIPT PORT

Each line is sent after the reply to the one before, and each reply is printed in the form of a script's output.
All connections are closed at the end.
"""
import socket
import sys


def main() -> None:
    """Plays the script, and prints the replies."""
    script, port = sys.argv[1], int(sys.argv[2])
    with open(script, encoding="utf-8") as it:
        lines = [(int(number), request) for number, request in (line.rstrip("\n").split(" ", 1) for line in it)]
    connections = {}
    # Connections are opened in the order of their numbers, which the server gives as it accepts.
    for number in sorted({number for number, _ in lines}):
        opened = socket.create_connection(("127.0.0.1", port), timeout=300)
        connections[number] = opened, opened.makefile("r", encoding="utf-8")
    for number, request in lines:
        opened, replies = connections[number]
        opened.sendall(request.encode() + b"\n")
        print(number, replies.readline(), end="")
    for opened, _ in connections.values():
        opened.close()


if __name__ == "__main__":
    main()
