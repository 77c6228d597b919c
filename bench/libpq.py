"""Connections to a PostgreSQL server by way of the C library libpq: all answers to a text of several statements are had."""

import ctypes
import ctypes.util
import select

EMPTY, COMMAND, ROWS = 0, 1, 2
STATE_FIELD = ord("C")
ANSWERS = {
    "PQconnectdb": ctypes.c_void_p,
    "PQgetResult": ctypes.c_void_p,
    "PQerrorMessage": ctypes.c_char_p,
    "PQresultErrorField": ctypes.c_char_p,
    "PQcmdStatus": ctypes.c_char_p,
    "PQfname": ctypes.c_char_p,
    "PQgetvalue": ctypes.c_char_p,
}


def load():
    """The library, or None where it isn't installed."""
    try:
        library = ctypes.CDLL(ctypes.util.find_library("pq") or "libpq.so.5")
    except OSError:
        return None
    for name, kind in ANSWERS.items():
        getattr(library, name).restype = kind
    return library


LIBRARY = load()


class Connection:
    """One connection, which can be asked without waiting for its answer."""

    def __init__(self, settings=""):
        self.handle = ctypes.c_void_p(LIBRARY.PQconnectdb(settings.encode()))
        self.lines = []
        if LIBRARY.PQstatus(self.handle) != 0:
            raise self.fault()
        self.process = LIBRARY.PQbackendPID(self.handle)

    def fault(self):
        return ConnectionError(LIBRARY.PQerrorMessage(self.handle).decode().strip())

    def send(self, text):
        self.lines = []
        if not LIBRARY.PQsendQuery(self.handle, text.encode()):
            raise self.fault()

    def reply(self):
        """The lines of the answers to what was sent, once all are there; None before."""
        if not LIBRARY.PQconsumeInput(self.handle):
            raise self.fault()
        while not LIBRARY.PQisBusy(self.handle):
            result = ctypes.c_void_p(LIBRARY.PQgetResult(self.handle))
            if not result:
                return self.lines
            self.lines += lines_of(result)
            LIBRARY.PQclear(result)
        return None

    def wait(self, seconds=None):
        """Waits until something has come, or so long."""
        select.select([LIBRARY.PQsocket(self.handle)], [], [], seconds)

    def ask(self, text):
        self.send(text)
        while (lines := self.reply()) is None:
            self.wait()
        return lines

    def value(self, text):
        """The one value that a query answers."""
        return self.ask(text)[1]

    def close(self):
        LIBRARY.PQfinish(self.handle)


def lines_of(result):
    """The lines of a report for one statement's result; of a refusal the SQLSTATE alone."""
    status = LIBRARY.PQresultStatus(result)
    if status == EMPTY:
        return []
    if status == COMMAND:
        return [LIBRARY.PQcmdStatus(result).decode()]
    if status == ROWS:
        return lines_of_rows(result)
    return [f"ERROR: {LIBRARY.PQresultErrorField(result, STATE_FIELD).decode()}"]


def lines_of_rows(result):
    count, width = LIBRARY.PQntuples(result), LIBRARY.PQnfields(result)
    lines = ["|".join(LIBRARY.PQfname(result, column).decode() for column in range(width))]
    for row in range(count):
        lines.append("|".join(LIBRARY.PQgetvalue(result, row, column).decode() for column in range(width)))
    return lines + [f"({count} row{'' if count == 1 else 's'})"]
