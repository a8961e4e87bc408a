"""The few functions of libcurl that the recorder calls, of the shared library as it is installed, without its headers.

Numbers of options and layouts of structures are part of libcurl's stable binary interface.
"""
import ctypes
import ctypes.util
from ctypes import CFUNCTYPE, POINTER, Structure, c_char_p, c_int, c_long, c_size_t, c_uint, c_void_p

# options of a transfer
WRITE_DATA, URL, PROXY, DEBUG_DATA, PREREQ_DATA, OPEN_DATA = 10_001, 10_002, 10_004, 10_095, 10_313, 10_164
WRITE_FUNCTION, DEBUG_FUNCTION, OPEN_FUNCTION, CLOSE_FUNCTION, PREREQ_FUNCTION = 20_011, 20_094, 20_163, 20_208, 20_312
VERBOSE, HTTP_VERSION, NO_SIGNAL, TIMEOUT_MILLISECONDS, MAX_AGE = 41, 84, 99, 155, 288
HTTP_1_1 = 2
# options of a multi handle
MAX_CONNECTS, MAX_HOST_CONNECTIONS, MAX_TOTAL_CONNECTIONS = 6, 7, 13
INFO_TEXT = 0
GLOBAL_ALL = 3
# it tells the port of a connection before a request is sent
FIRST_WITH_PREREQ = [7, 80]


class Address(Structure):
    """struct curl_sockaddr, but for the address itself."""

    _fields_ = [("family", c_int), ("type", c_int), ("protocol", c_int), ("length", c_uint)]


class Message(Structure):
    """CURLMsg: the transfer that has ended."""

    _fields_ = [("kind", c_int), ("transfer", c_void_p), ("result", c_void_p)]


Write = CFUNCTYPE(c_size_t, c_void_p, c_size_t, c_size_t, c_void_p)
Debug = CFUNCTYPE(c_int, c_void_p, c_int, POINTER(ctypes.c_char), c_size_t, c_void_p)
Open = CFUNCTYPE(c_int, c_void_p, c_int, POINTER(Address))
Close = CFUNCTYPE(c_int, c_void_p, c_int)
Prereq = CFUNCTYPE(c_int, c_void_p, c_char_p, c_char_p, c_int, c_int)


class MissingLibrary(Exception):
    """libcurl isn't installed, or too old."""


def library():
    """libcurl with the types of the functions that are called."""
    name = ctypes.util.find_library("curl") or "libcurl.so.4"
    try:
        curl = ctypes.CDLL(name)
        curl.curl_multi_poll
    except (OSError, AttributeError) as error:
        raise MissingLibrary(str(error)) from None
    curl.curl_version.restype = c_char_p
    if numbers_of(version_of(curl)) < FIRST_WITH_PREREQ:
        raise MissingLibrary(f"{version_of(curl)} is too old")
    curl.curl_easy_init.restype = curl.curl_multi_init.restype = c_void_p
    curl.curl_easy_cleanup.argtypes = curl.curl_multi_cleanup.argtypes = [c_void_p]
    curl.curl_multi_add_handle.argtypes = curl.curl_multi_remove_handle.argtypes = [c_void_p, c_void_p]
    curl.curl_multi_perform.argtypes = [c_void_p, POINTER(c_int)]
    curl.curl_multi_poll.argtypes = [c_void_p, c_void_p, c_uint, c_int, POINTER(c_int)]
    curl.curl_multi_info_read.argtypes = [c_void_p, POINTER(c_int)]
    curl.curl_multi_info_read.restype = POINTER(Message)
    curl.curl_global_init(c_long(GLOBAL_ALL))
    return curl


def number(value):
    return c_long(value)


def pointer(value):
    return c_void_p(value)


def text(value):
    return c_char_p(value.encode())


def version_of(curl):
    """The version of the library, such as 7.88.1."""
    return curl.curl_version().decode().split()[0].removeprefix("libcurl/")


def numbers_of(version):
    return [int(number) for number in version.split("-")[0].split(".")]


if __name__ == "__main__":
    print(version_of(library()))
