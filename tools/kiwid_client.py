#!/usr/bin/env python3
"""Sends its standard input to a server that `./kiwid` runs, and prints the replies.

  tools/kiwid_client.py PORT < LINES

What was sent is answered while more is sent. The status is 0 where the server ended the connection
once all was sent, and 1 where it could not be reached or broke the connection."""

import shutil
import socket
import sys
import threading


def print_replies(connection):
    while piece := connection.recv(1 << 16):
        sys.stdout.buffer.write(piece)
        sys.stdout.buffer.flush()


def main():
    if len(sys.argv) != 2 or not sys.argv[1].isdigit():
        print(__doc__, file=sys.stderr)
        return 2
    try:
        with socket.create_connection(("127.0.0.1", int(sys.argv[1]))) as connection:
            printing = threading.Thread(target=print_replies, args=(connection,))
            printing.start()
            try:
                shutil.copyfileobj(sys.stdin.buffer, connection.makefile("wb", buffering=0))
                connection.shutdown(socket.SHUT_WR)
            except (BrokenPipeError, ConnectionResetError):
                pass  # the server ended the connection, as at a bad line: its last reply is still to come
            printing.join()
    except OSError as error:
        print(f"kiwid_client: {error}", file=sys.stderr)
        return 1
    return 0


if __name__ == "__main__":
    sys.exit(main())
