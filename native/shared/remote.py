"""A debugger's end of qemu's stub: just what native/run needs (GDB's manual, Remote Serial Protocol)."""
import contextlib
import socket
import time

WRITE_WATCH, HARDWARE_BREAK = 2, 1
STOPPED = {  # enum stop_reason of firmware/firmware.h: a line and the status
    1: ("no firmware in flash", 252),
    2: ("the flash is damaged: not what was packed", 244),
    3: ("image {pc} fails its check at word {address}", 244),
    4: ("the cache or its tables have no room for the image", 247),
    5: ("the entry {address:08x} is no address of a text word", 243),
    6: ("a trap of cause {pc:x}, and the handler at {address:08x} is no text word", 241),
    7: ("a trap of cause {address:x} at {pc:08x}, in the runtime or in native code", 254),
    8: ("the MRET at {address:08x} leads out of machine mode, where no firmware runs in the cache", 243),
    9: ("the CSR instruction at {address:08x} locks memory of the runtime or the cache by PMP", 243),
}


class Gone(Exception):
    """qemu has ended."""


class Remote:
    """Stops a machine of qemu where an instruction is executed, or a variable is written; reads and writes its memory."""

    def __init__(self, place, qemu):
        """The place is the path of a socket, or a port of this machine."""
        self.held = b""
        self.connect(place, qemu)

    def connect(self, place, qemu):
        is_path = isinstance(place, str)
        while True:
            self.socket = socket.socket(socket.AF_UNIX if is_path else socket.AF_INET)
            try:
                if not is_path:  # each packet leaves at once: one behind an acknowledgement would wait 40 ms
                    self.socket.setsockopt(socket.IPPROTO_TCP, socket.TCP_NODELAY, 1)
                return self.socket.connect(place if is_path else ("localhost", place))
            except OSError:
                self.socket.close()
                if qemu.poll() is not None:
                    raise Gone from None
                time.sleep(0.01)

    def send(self, text):
        packet = text.encode()
        self.put(b"$%s#%02x" % (packet, sum(packet) % 256))

    def put(self, data):
        try:
            self.socket.sendall(data)
        except OSError:
            raise Gone from None

    def receive(self):
        """The next packet."""
        while (end := self.held.find(b"#")) < 0 or len(self.held) < end + 3:
            self.fill()
        packet, self.held = self.held[: end + 3], self.held[end + 3 :]
        self.put(b"+")
        return packet[packet.index(b"$") + 1 : -3].decode()

    def fill(self):
        try:
            more = self.socket.recv(4096)
        except ConnectionError:
            more = b""
        if not more:
            raise Gone
        self.held += more

    def ask(self, text):
        self.send(text)
        return self.receive()

    def stop_at(self, kind, address, size=4):
        if self.ask(f"Z{kind},{address:x},{size}") != "OK":
            raise Gone

    def step_over(self, kind, address, size=4):
        """Executes the instruction that was stopped: qemu stops in front of it each time."""
        self.ask(f"z{kind},{address:x},{size}")
        self.ask("s")
        self.stop_at(kind, address, size)

    def read(self, address, count):
        """So many words."""
        data = bytes.fromhex(self.ask(f"m{address:x},{4 * count:x}"))
        return [int.from_bytes(data[k : k + 4], "little") for k in range(0, len(data), 4)]

    def pc(self):
        """The last of all registers."""
        return int.from_bytes(bytes.fromhex(self.ask("g"))[-4:], "little")

    def write(self, address, data):
        """These bytes."""
        if self.ask(f"M{address:x},{len(data):x}:{data.hex()}") != "OK":
            raise Gone

    def reset(self):
        """The board's reset, by the monitor; the machine stays stopped."""
        self.send("qRcmd," + b"system_reset\n".hex())
        while self.receive() != "OK":  # what the monitor says
            pass

    def go(self, seconds):
        """Runs until the machine stops; False where the time is over, and the machine is stopped then."""
        self.send("c")
        self.socket.settimeout(seconds)
        try:
            if self.receive()[0] in "WX":
                raise Gone
            return True
        except TimeoutError:
            self.interrupt()
            return False
        finally:
            self.socket.settimeout(None)

    def interrupt(self):
        self.socket.settimeout(None)
        self.put(b"\x03")
        self.receive()


def quit_machine(path):
    """Ends qemu by its monitor, without a word, unless it has ended."""
    with socket.socket(socket.AF_UNIX) as monitor, contextlib.suppress(OSError):
        monitor.connect(path)
        monitor.sendall(b"quit\n")
        while monitor.recv(4096):
            pass


def why_stopped(runtime, remote):
    """The line and the status, where the runtime has stopped for good."""
    reason, pc, address = remote.read(runtime.symbols["swicache_stop"], 3)
    line, status = STOPPED.get(reason, ("stopped", 254))
    return "native: " + line.format(pc=pc, address=address), status
