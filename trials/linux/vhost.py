"""The back end of a virtio device over vhost-user: one connection of a front end, and the requests of its queue 0.

User Mode Linux makes a virtio device of a socket (virtio_uml.device=SOCKET:ID) and speaks vhost-user over it: it hands
its memory over as files, and tells by eventfds that its queue has requests. Numbers are those of the virtio and
vhost-user texts of the OASIS and QEMU.
"""
import mmap
import os
import socket
import struct

SET_MEM_TABLE, GET_FEATURES, SET_VRING_NUM, SET_VRING_ADDR, SET_VRING_BASE = 5, 1, 8, 9, 10
GET_VRING_BASE, SET_VRING_KICK, SET_VRING_CALL = 11, 12, 13
GET_PROTOCOL_FEATURES, GET_QUEUE_NUM, GET_CONFIG = 15, 17, 24
NEEDS_REPLY, IS_REPLY = 8, 5
# Of a descriptor.
HAS_NEXT, IS_WRITABLE, IS_TABLE = 1, 2, 4
HEAD = struct.Struct("<III")
WORD = struct.Struct("<H")
# Indirect chains, the protocol's own features, version 1 of virtio; acknowledged requests, a channel back.
BASE_FEATURES = 1 << 28 | 1 << 30 | 1 << 32
PROTOCOL_FEATURES = 1 << 3 | 1 << 5


class Place:
    """Bytes of the guest's memory."""

    def __init__(self, memory, start, length):
        self.memory, self.start, self.length = memory, start, length

    def bytes(self):
        return self.memory[self.start:self.start + self.length]

    def put(self, found):
        """Writes bytes at the front of the place, at most as many as it has."""
        kept = bytes(found)[:self.length]
        self.memory[self.start:self.start + len(kept)] = kept

    def word(self, offset):
        return WORD.unpack_from(self.memory, self.start + offset)[0]

    def put_word(self, offset, word):
        WORD.pack_into(self.memory, self.start + offset, word & 0xFFFF)


class Request:
    """A chain of descriptors: what the guest wrote, and the places for what it is answered."""

    def __init__(self, head, written, places):
        self.head, self.written, self.places = head, written, places


class FrontEnd:
    """A connection. What a device is stands in a class over this one: `features`, `protocol`, `config`, and
    `carry_out`, which is given the requests that came together and answers how many bytes each was given back."""

    features, protocol = BASE_FEATURES, PROTOCOL_FEATURES

    def __init__(self, connection):
        self.socket = connection
        self.regions, self.addresses, self.rings = [], None, None
        self.size, self.taken, self.kick, self.call = 0, 0, None, None

    def config(self):
        return b""

    def files(self):
        """What is to be watched."""
        return [self.socket] + ([self.kick] if self.kick is not None else [])

    def ready(self, file):
        """Serves what is ready. False where the front end has gone."""
        if file is self.socket:
            return self.message()
        os.read(self.kick, 8)
        self.queue()
        return True

    def message(self):
        head, files, _, _ = socket.recv_fds(self.socket, HEAD.size, 8)
        if len(head) < HEAD.size:
            return False
        request, flags, size = HEAD.unpack(head)
        body = b""
        while len(body) < size:
            body += self.socket.recv(size - len(body))
        reply = self.told(request, body, files)
        if reply is None and flags & NEEDS_REPLY:
            reply = bytes(8)
        if reply is not None:
            self.socket.sendall(HEAD.pack(request, IS_REPLY, len(reply)) + reply)
        return True

    def told(self, request, body, files):
        """Takes a message of the protocol. What is answered, or None."""
        number = struct.unpack("<Q", body[:8])[0] if len(body) >= 8 else 0
        answers = {GET_FEATURES: self.features, GET_PROTOCOL_FEATURES: self.protocol, GET_QUEUE_NUM: 1}
        if request in answers:
            return struct.pack("<Q", answers[request])
        if request == GET_CONFIG:
            offset, size, _ = HEAD.unpack(body[:12])
            return body[:12] + self.config()[offset:offset + size].ljust(size, b"\0")
        if request == GET_VRING_BASE:
            self.kick = None
            return struct.pack("<II", number & 0xFFFFFFFF, self.taken)
        if request == SET_MEM_TABLE:
            self.map_memory(body, files)
        elif request == SET_VRING_NUM:
            self.size = number >> 32
        elif request == SET_VRING_ADDR:
            self.addresses, self.rings = struct.unpack("<QQQ", body[8:32]), None
        elif request == SET_VRING_BASE:
            self.taken = number >> 32
        elif request in (SET_VRING_KICK, SET_VRING_CALL) and not number & 0xFF:
            setattr(self, "kick" if request == SET_VRING_KICK else "call", files[0] if files else None)
        return None

    def map_memory(self, body, files):
        count, self.regions, self.rings = struct.unpack("<I", body[:4])[0], [], None
        for number in range(count):
            guest, length, user, offset = struct.unpack("<QQQQ", body[8 + 32 * number:40 + 32 * number])
            self.regions.append((guest, user, length, offset, mmap.mmap(files[number], offset + length)))

    def place(self, address, length, is_of_user=False):
        for guest, user, size, offset, memory in self.regions:
            start = user if is_of_user else guest
            if start <= address and address + length <= start + size:
                return Place(memory, address - start + offset, length)
        raise ValueError(f"no region of the guest's memory has {address:x}")

    def queue(self):
        """Serves all requests that stand in the queue."""
        if self.addresses is None:
            return
        if self.rings is None:
            sizes = 16 * self.size, 6 + 8 * self.size, 6 + 2 * self.size
            self.rings = [self.place(address, size, True) for address, size in zip(self.addresses, sizes)]
        table, used, offered = self.rings
        found = []
        while self.taken != offered.word(2):
            found.append(self.request(table, offered.word(4 + 2 * (self.taken % self.size))))
            self.taken = self.taken + 1 & 0xFFFF
        for request, length in zip(found, self.carry_out(found) if found else []):
            at = used.word(2)
            struct.pack_into("<II", used.memory, used.start + 4 + 8 * (at % self.size), request.head, length)
            used.put_word(2, at + 1)
        if found and self.call is not None and not offered.word(0) & 1:
            os.write(self.call, struct.pack("<Q", 1))

    def request(self, table, head):
        written, places, index = b"", [], head
        while True:
            address, length, flags, following = struct.unpack_from("<QIHH", table.memory, table.start + 16 * index)
            place = self.place(address, length)
            if flags & IS_TABLE:
                table, index = place, 0
                continue
            if flags & IS_WRITABLE:
                places.append(place)
            else:
                written += place.bytes()
            if not flags & HAS_NEXT:
                return Request(head, written, places)
            index = following
