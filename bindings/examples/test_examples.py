"""Tests the example in C that answers requests. PROGRAM names the program."""
import contextlib
import http.client
import os
import socket
import subprocess
import unittest

GREETINGS = {"en": "Hello", "de": "Guten Tag", "de-CH": "Grüezi", "fr": "Bonjour", "zh-Hant": "你好"}
# A header, and the Content-Language of the answer.
HEADERS = [
    (None, "en"), ("", "en"), ("de", "de"), ("fr;q=0.3, DE-ch-1996;q=0.9", "de-CH"), ("de;q=0.5,fr;q=0.5", "de"),
    ("fr;q=0, de;q=0.1", "de"), ("ja, *;q=0.1", "en"), ("zh-TW,zh;q=0.9,en;q=0.8", "zh-Hant"), ("zh-HK", "zh-Hant"),
    ("de_CH, en;q=0.1", "de-CH"), ("de-AT", "de"), ("fr_FR, de;q=0.1", "fr"), ("fr ; Q=0.9\t, de", "de"), (",,, ,de,", "de"),
]


@contextlib.contextmanager
def serving(command):
    """Runs a server, and yields its port."""
    server = subprocess.Popen(command, stdout=subprocess.PIPE, stderr=subprocess.DEVNULL, text=True)
    try:
        yield int(server.stdout.readline().rsplit(":", 1)[1])
    finally:
        server.kill()
        server.wait()
        server.stdout.close()


def answers(command):
    """Returns the answer of a server to each header."""
    found = []
    with serving(command) as port:
        for header, _ in HEADERS:
            connection = http.client.HTTPConnection("127.0.0.1", port, timeout=20)
            connection.request("GET", "/", headers={} if header is None else {"Accept-Language": header})
            response = connection.getresponse()
            found.append((response.status, response.headers["Content-Language"], response.read().decode()))
            connection.close()
    return found


class Examples(unittest.TestCase):
    def test_servers(self):
        wanted = [(200, tag, GREETINGS[tag] + "\n") for _, tag in HEADERS]
        self.assertEqual(answers([os.environ["PROGRAM"], "0"]), wanted)

    def test_who_waits_and_who_sends_a_nul(self):
        with serving([os.environ["PROGRAM"], "0"]) as port, socket.create_connection(("127.0.0.1", port)):  # a client that sends nothing
            with socket.create_connection(("127.0.0.1", port), timeout=20) as client:
                client.sendall(b"GET / HTTP/1.1\r\nAccept-Language: de\0\r\nAccept-Language: fr\r\n\r\n")
                self.assertIn(b"Content-Language: en\r\n", client.makefile("rb").read())
