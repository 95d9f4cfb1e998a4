"""A websocket to the browser, as far as its protocol wants one."""
import base64, os, socket, struct
from urllib.parse import urlsplit

TEXT, CLOSE, PING, PONG, GOES_ON = 1, 8, 9, 10, 0


class Websocket:
    def __init__(self, address: str, seconds: float):
        parts = urlsplit(address)
        self.socket = socket.create_connection((parts.hostname, parts.port), timeout=seconds)
        key = base64.b64encode(os.urandom(16)).decode()
        self.socket.sendall(('GET %s HTTP/1.1\r\nHost: %s\r\nUpgrade: websocket\r\nConnection: Upgrade\r\nSec-WebSocket-Key: %s\r\n'
                             'Sec-WebSocket-Version: 13\r\n\r\n' % (parts.path, parts.netloc, key)).encode())
        self.stream = self.socket.makefile('rb')
        if b' 101 ' not in self.stream.readline():
            raise OSError('the browser takes no websocket')
        while self.stream.readline().strip():
            pass

    def send(self, data: bytes, kind: int = TEXT) -> None:
        size = len(data)
        length = bytes([0x80 | size]) if size < 126 else struct.pack('!BH', 0xfe, size) if size < 65_536 else struct.pack('!BQ', 0xff, size)
        mask = os.urandom(4)
        masked = bytes(byte ^ mask[k % 4] for k, byte in enumerate(data))
        self.socket.sendall(bytes([0x80 | kind]) + length + mask + masked)

    def message(self) -> str:
        """The next text that comes."""
        data = b''
        while True:
            head, size = self.stream.read(2)
            size &= 0x7f
            if size >= 126:
                size = int.from_bytes(self.stream.read(2 if size == 126 else 8), 'big')
            part = self.stream.read(size)
            if head & 0x0f == PING:
                self.send(part, PONG)
            elif head & 0x0f == CLOSE:
                raise OSError('the browser has ended')
            else:
                data += part
                if head & 0x80:
                    return data.decode()

    def close(self) -> None:
        self.socket.close()
