"""One connection to a PostgreSQL server on a socket in a folder, by its simple query protocol."""

import socket
import struct


class Fault(Exception):
    """What the server refuses a statement with."""

    def __init__(self, sqlstate, message, ends_connection):
        super().__init__(f"{sqlstate}: {message}")
        self.sqlstate = sqlstate
        self.ends_connection = ends_connection


class Connection:
    def __init__(self, socket_path, user, database):
        self.socket = socket.socket(socket.AF_UNIX, socket.SOCK_STREAM)
        try:
            self.socket.connect(socket_path)
            self.incoming = self.socket.makefile("rb")
            words = ("user", user, "database", database, "client_encoding", "UTF8")
            payload = struct.pack("!i", 3 << 16) + b"".join(word.encode() + b"\0" for word in words) + b"\0"
            self.socket.sendall(struct.pack("!i", len(payload) + 4) + payload)
            self._rows_until_ready()
        except BaseException:
            self.socket.close()
            raise

    def run(self, text):
        """The rows that the last statement of the text answers; a value is a str, or None for NULL."""
        payload = text.encode() + b"\0"
        self.socket.sendall(b"Q" + struct.pack("!i", len(payload) + 4) + payload)
        return self._rows_until_ready()

    def close(self):
        self.socket.close()

    def _read(self, count):
        piece = self.incoming.read(count)
        if len(piece) < count:
            raise ConnectionError("the server closed the connection")
        return piece

    def _rows_until_ready(self):
        rows, fault = [], None
        while True:
            kind, length = struct.unpack("!ci", self._read(5))
            payload = self._read(length - 4)
            if kind == b"T":
                rows = []
            elif kind == b"D":
                rows.append(_row(payload))
            elif kind == b"E":
                fault = _fault(payload)
            elif kind == b"R" and payload[:4] != b"\0\0\0\0":
                raise ConnectionError("the server asks for a password")
            if kind == b"Z" or (kind == b"E" and fault.ends_connection):
                break
        if fault:
            raise fault
        return rows


def _row(payload):
    (count,) = struct.unpack_from("!h", payload)
    place, values = 2, []
    for _ in range(count):
        (length,) = struct.unpack_from("!i", payload, place)
        place += 4
        if length < 0:
            values.append(None)
        else:
            values.append(payload[place:place + length].decode())
            place += length
    return values


def _fault(payload):
    fields = {field[:1]: field[1:].decode() for field in payload.split(b"\0") if field}
    return Fault(fields[b"C"], fields[b"M"], fields[b"V"] in ("FATAL", "PANIC"))


def literal(value, type_name):
    """A literal of the type; `\\N` is NULL, as it is where away reads an argument or a field."""
    written = "NULL" if value == "\\N" else "'" + value.replace("'", "''") + "'"
    return f"CAST({written} AS {type_name})"
