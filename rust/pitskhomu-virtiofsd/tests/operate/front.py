"""A front-end of vhost-user with a driver of virtio-fs: one region of memory, and one request queue
with a slot for each request in flight."""
import array
import mmap
import os
import select
import socket
import struct
import threading
import time
from contextlib import suppress

# Messages (QEMU, docs/interop/vhost-user.rst) and protocol features.
GET_FEATURES, SET_FEATURES, SET_OWNER, SET_MEM_TABLE = 1, 2, 3, 5
SET_VRING_NUM, SET_VRING_ADDR, SET_VRING_BASE = 8, 9, 10
SET_VRING_KICK, SET_VRING_CALL, SET_VRING_ERR = 12, 13, 14
GET_PROTOCOL_FEATURES, SET_PROTOCOL_FEATURES, SET_VRING_ENABLE = 15, 16, 18
GET_VRING_BASE, SET_DEVICE_STATE_FD, CHECK_DEVICE_STATE = 11, 42, 43
SAVE, LOAD = 0, 1
VERSION, NEEDS_REPLY = 1, 8
MQ, REPLY_ACK, DEVICE_STATE = 1 << 0, 1 << 3, 1 << 19
FEATURES = 1 << 32 | 1 << 30  # VIRTIO_F_VERSION_1, protocol features
# Opcodes of linux/fuse.h.
LOOKUP, GETATTR, SETATTR, OPEN, READ, WRITE, RELEASE = 1, 3, 4, 14, 15, 16, 18
INIT, CREATE = 26, 35
SUBMOUNTS = 1 << 27
ROOT = 1

SIZE, SLOTS = 128, 32
# The parts of the ring, the slots, and the memory's length.
DESC, AVAIL, USED, SLOT, SLOT_LEN, LENGTH = 0, 0x1000, 0x2000, 0x10000, 0x8000, 0x200000
REPLY = 0x4000
# Where the front-end has the memory, as it says.
USER = 0x7f0000000000
QUEUE = 1


class Lost(Exception):
    """The back-end doesn't answer."""


class Front:
    """A connected front-end, whose ring runs."""

    def __init__(self, connected, patience):
        self.patience, self.socket = patience, connected
        self.socket.settimeout(patience)
        self.file = os.memfd_create("guest")
        os.ftruncate(self.file, LENGTH)
        self.memory = mmap.mmap(self.file, LENGTH)
        # `struct.pack_into` stores zeros first, which the device may see.
        self.words = memoryview(self.memory).cast("H")
        self.kick, self.call, self.err = (os.eventfd(0, os.EFD_NONBLOCK) for _ in range(3))
        self.offered = self.seen = self.unique = 0
        self.returned, self.lock = set(), threading.Lock()
        self.set_up()

    def message(self, request, body=b"", fds=(), is_acknowledged=True):
        flags = VERSION | (NEEDS_REPLY if is_acknowledged else 0)
        head = struct.pack("III", request, flags, len(body))
        more = [(socket.SOL_SOCKET, socket.SCM_RIGHTS, array.array("i", fds))] if fds else []
        self.socket.sendmsg([head + body], more)

    def reply(self):
        """The answer's body."""
        head = self.socket.recv(12, socket.MSG_WAITALL)
        if len(head) < 12:
            raise Lost("the connection ended")
        return self.socket.recv(struct.unpack("III", head)[2], socket.MSG_WAITALL)

    def number(self, request):
        self.message(request, is_acknowledged=False)
        return struct.unpack("Q", self.reply())[0]

    def tell(self, request, body, fds=()):
        self.message(request, body, fds)
        if any(self.reply()):
            raise Lost(f"message {request} is refused")

    def set_up(self):
        self.message(SET_OWNER, is_acknowledged=False)
        assert self.number(GET_FEATURES) & FEATURES == FEATURES
        protocol = self.number(GET_PROTOCOL_FEATURES) & (MQ | REPLY_ACK | DEVICE_STATE)
        self.message(SET_PROTOCOL_FEATURES, struct.pack("Q", protocol), is_acknowledged=False)
        self.tell(SET_FEATURES, struct.pack("Q", FEATURES))
        self.tell(SET_MEM_TABLE, struct.pack("IIQQQQ", 1, 0, 0, LENGTH, USER, 0), [self.file])
        self.tell(SET_VRING_NUM, struct.pack("II", QUEUE, SIZE))
        self.tell(SET_VRING_BASE, struct.pack("II", QUEUE, 0))
        self.tell(SET_VRING_ADDR,
            struct.pack("IIQQQQ", QUEUE, 0, USER + DESC, USER + USED, USER + AVAIL, 0))
        word = struct.pack("Q", QUEUE)
        self.tell(SET_VRING_CALL, word, [self.call])
        self.tell(SET_VRING_ERR, word, [self.err])
        self.tell(SET_VRING_KICK, word, [self.kick])
        self.tell(SET_VRING_ENABLE, struct.pack("II", QUEUE, 1))

    def stop(self):
        """Stops the ring."""
        self.message(GET_VRING_BASE, struct.pack("II", QUEUE, 0), is_acknowledged=False)
        self.reply()

    def transfer(self, direction):
        """Has a state saved or loaded, and returns the other end of its pipe."""
        ends = os.pipe()
        theirs = ends[1 - direction]
        body = struct.pack("II", direction, 0)
        self.message(SET_DEVICE_STATE_FD, body, [theirs], is_acknowledged=False)
        os.close(theirs)
        if struct.unpack("Q", self.reply())[0] & 0xff:
            raise Lost("no state is transferred")
        return os.fdopen(ends[direction], "rb" if direction == SAVE else "wb", buffering=0)

    def is_transferred(self):
        return self.number(CHECK_DEVICE_STATE) == 0

    def put(self, at, form, *values):
        struct.pack_into(form, self.memory, at, *values)

    def get(self, at, form):
        return struct.unpack_from(form, self.memory, at)

    def send(self, slot, opcode, node, body=b""):
        """Offers a request in a slot, and kicks."""
        at, reply = SLOT + slot * SLOT_LEN, SLOT + slot * SLOT_LEN + REPLY
        with self.lock:
            self.unique += 1
            head = struct.pack("IIQQIIII", 40 + len(body), opcode, self.unique, node, 0, 0, 1, 0)
            self.memory[at:at + len(head) + len(body)] = head + body
            self.put(DESC + 32 * slot, "QIHH", at, len(head) + len(body), 1, 2 * slot + 1)
            self.put(DESC + 32 * slot + 16, "QIHH", reply, REPLY, 2, 0)
            self.words[(AVAIL + 4) // 2 + self.offered % SIZE] = 2 * slot
            self.offered = (self.offered + 1) % 0x10000
            self.words[(AVAIL + 2) // 2] = self.offered
            os.eventfd_write(self.kick, 1)
            return self.unique

    def is_returned(self, slot):
        """Whether a slot's chain is in the used ring."""
        with self.lock:
            while self.seen != self.get(USED + 2, "H")[0]:
                head = self.get(USED + 4 + 8 * (self.seen % SIZE), "I")[0]
                assert head // 2 not in self.returned, "a chain is returned twice"
                self.returned.add(head // 2)
                self.seen = (self.seen + 1) % 0x10000
            is_returned = slot in self.returned
            self.returned.discard(slot)
            return is_returned

    def answered(self, slot, unique):
        """A request's error and its reply, if it is answered."""
        if not self.is_returned(slot):
            return None
        at = SLOT + slot * SLOT_LEN + REPLY
        length, error, named = self.get(at, "IiQ")
        assert named == unique, "another request's reply"
        return -error, bytes(self.memory[at + 16:at + length])

    def wait(self, slot, unique):
        end = time.monotonic() + self.patience
        while time.monotonic() < end:
            answer = self.answered(slot, unique)
            if answer:
                return answer
            self.sleep()
        raise Lost("a request isn't answered")

    def sleep(self):
        """Until the driver is interrupted, for a moment at most: another thread may hear of it."""
        events = select.poll()
        for descriptor in (self.call, self.socket.fileno()):
            events.register(descriptor, select.POLLIN)
        ready = dict(events.poll(20))
        if self.call in ready:
            with suppress(BlockingIOError):
                os.eventfd_read(self.call)
        if self.socket.fileno() in ready and not self.socket.recv(1, socket.MSG_PEEK):
            raise Lost("the connection ended")

    def ask(self, opcode, node=ROOT, body=b"", slot=0):
        """A request's error and its reply."""
        return self.wait(slot, self.send(slot, opcode, node, body))

    def begin(self, flags=SUBMOUNTS):
        """INIT."""
        error, _ = self.ask(INIT, 0, struct.pack("IIII", 7, 38, 1 << 17, flags) + bytes(48))
        if error:
            raise Lost(f"INIT: {os.strerror(error)}")
        return self

    def look_up(self, name, parent=ROOT):
        """A file's node."""
        error, reply = self.ask(LOOKUP, parent, name.encode() + b"\0")
        if error:
            raise OSError(error, os.strerror(error), name)
        return struct.unpack_from("Q", reply)[0]

    def create(self, name, mode=0o644, parent=ROOT):
        """A new file's node and handle."""
        body = struct.pack("IIII", os.O_RDWR | os.O_CREAT, mode, 0, 0) + name.encode() + b"\0"
        error, reply = self.ask(CREATE, parent, body)
        if error:
            raise OSError(error, os.strerror(error), name)
        return struct.unpack_from("Q", reply)[0], struct.unpack_from("Q", reply, 128)[0]

    def write(self, node, handle, data, at=0):
        """The error of a WRITE."""
        body = struct.pack("QQIIQII", handle, at, len(data), 0, 0, os.O_RDWR, 0)
        return self.ask(WRITE, node, body + data)[0]

    def attributes(self):
        """The error of a GETATTR of the root."""
        return self.ask(GETATTR, ROOT, bytes(16))[0]

    def leave(self):
        self.socket.close()

    def close(self):
        """Leaves, and gives back what it has."""
        self.socket.close()
        self.words.release()
        self.memory.close()
        for descriptor in (self.file, self.kick, self.call, self.err):
            os.close(descriptor)
