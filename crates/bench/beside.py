"""How long the requests of an agent wait beside reports of a large stock at the administrator's socket: `beside.py DESK FILE ROUNDS`.
Prints, in milliseconds: the longest and the middle time of a request while a report is made and sent, in the median of the rounds;
that of a request alone; the time of a report, from its request to the last byte of its page; and how many bytes the page has."""
import pathlib
import socket
import subprocess
import sys
import threading
import time

sys.path.append(str(pathlib.Path(__file__).resolve().parents[2] / "tests"))
from ports import free_port

ASKED = b"GET /unfinished HTTP/1.1\r\nHost: d\r\nDesk-Agent: ann\r\n\r\n"
REPORT = b"GET /reports/stock HTTP/1.1\r\nHost: desk\r\n\r\n"


def middle(values):
    return sorted(values)[len(values) // 2]


def ask(stream, message, buffer):
    """Sends a request and reads its page, without looking into its body. Returns how long that took, and the size of the page."""
    begun = time.perf_counter()
    stream.sendall(message)
    head = b""
    while b"\r\n\r\n" not in head:
        head += stream.recv(4096)
    at = head.index(b"\r\n\r\n") + 4
    size = at + int(head.partition(b"Content-Length: ")[2].partition(b"\r\n")[0])
    count = len(head)
    while count < size:
        count += stream.recv_into(buffer)
    return (time.perf_counter() - begun) * 1e3, size


class Reporting(threading.Thread):
    """A report at the administrator's socket."""

    def __init__(self, stream):
        super().__init__()
        self.stream, self.took, self.size = stream, 0, 0

    def run(self):
        self.took, self.size = ask(self.stream, REPORT, bytearray(1 << 20))


def main():
    desk, file, rounds = sys.argv[1], sys.argv[2], int(sys.argv[3])
    port, buffer = free_port(), bytearray(4096)
    process = subprocess.Popen([desk, "serve", file, "--port", str(port), "--house", "house"], stdout=subprocess.PIPE)
    process.stdout.readline()
    agent, house = socket.create_connection(("127.0.0.1", port)), socket.socket(socket.AF_UNIX)
    agent.setsockopt(socket.IPPROTO_TCP, socket.TCP_NODELAY, 1)
    house.connect("house")
    alone = middle([ask(agent, ASKED, buffer)[0] for _ in range(200)])
    longest, usual, took = [], [], []
    for _ in range(rounds):
        report, waits = Reporting(house), []
        report.start()
        while report.is_alive():
            waits.append(ask(agent, ASKED, buffer)[0])
        report.join()
        longest.append(max(waits))
        usual.append(middle(waits))
        took.append(report.took)
    print(f"{middle(longest):.1f} {middle(usual):.2f} {alone:.2f} {middle(took):.0f} {report.size}")
    process.kill()
    process.wait()


if __name__ == "__main__":
    main()
