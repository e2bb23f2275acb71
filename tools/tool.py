"""What the tools share: whole input, whole output, and words in place of a traceback."""
import os
import signal


def read(name):
    """The bytes of a file."""
    with open(name, "rb") as file:
        return file.read()


def read_input(most):
    """The bytes of standard input, if there are not more than `most`."""
    data = bytearray()
    try:
        while part := os.read(0, 1 << 16):
            data += part
            if len(data) > most:
                raise Bad(f"standard input has more than {most} bytes")
    except OSError as error:
        raise OSError(error.errno, error.strerror, "standard input") from None
    return bytes(data)


def write(data):
    """Writes bytes to standard output."""
    try:
        while data:
            data = data[os.write(1, data) :]
    except OSError as error:
        raise OSError(error.errno, error.strerror, "standard output") from None


class Bad(Exception):
    """What a tool says of an input that it cannot take."""


def ended(name, work):
    """Does the work and ends with the status that it returns; a failure is a line of words and status 2."""
    signal.signal(signal.SIGPIPE, signal.SIG_DFL)
    try:
        status, said = work(), ""
    except Bad as bad:
        status, said = 2, str(bad)
    except OSError as error:
        status, said = 2, f"{error.filename or 'a file'}: {error.strerror}"
    except MemoryError:
        status, said = 2, "the memory does not suffice"
    except KeyboardInterrupt:
        status, said = 130, ""
    try:
        os.write(2, f"{name}: {said}\n".encode("utf-8", "replace") if said else b"")
    except OSError:
        pass  # standard error is closed: the status has to do
    os._exit(status)
