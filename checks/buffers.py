"""Where the buffers of the library's calls may be, and where they may not."""

import ctypes

from program import CROSSING, FEASIBLE

# the buffers of each call, in the order of its arguments
BUFFERS = {
    "list": ["text", "room"],
    "check": ["name", "text", "schedule", "room"],
    "solve": ["name", "text", "room"],
}
BYTES = {"name": b"alpha", "text": f"instance alpha\n{CROSSING}".encode(), "schedule": FEASIBLE.encode()}
DONE, TOO_LONG, TOO_SMALL, BAD_ARGUMENT = 0, 3, 100, 101
# how a call ends that is given a buffer without bytes, and one without a pointer
WITHOUT_BYTES = {"name": 11, "text": 4, "schedule": 12, "room": TOO_SMALL}
WITHOUT_POINTER = {**WITHOUT_BYTES, "name": DONE}
# one more than the greatest length, and one more than the last address
HUGE, END = 2**63, 2**64
# longer than a text may be, so none of it is read
LONG = 2**25


class Memory:
    """A block of memory with all buffers of a call in it: the room after the texts, and free space after the room."""

    def __init__(self, module):
        self.block = ctypes.create_string_buffer(8192)
        start = ctypes.addressof(self.block)
        self.places = {buffer: (start + 1024 * n, len(it)) for n, (buffer, it) in enumerate(BYTES.items())}
        self.places["room"] = start + 4096, 512
        self.behind = start + 6144
        # pointers here are numbers
        library, place = ctypes.CDLL(module._library._name), [ctypes.c_void_p, ctypes.c_size_t]
        self.calls = {name: library[f"jobshop_{name}"] for name in BUFFERS}
        for name, call in self.calls.items():
            options = [ctypes.c_void_p] if name == "solve" else []
            others = place * (len(BUFFERS[name]) - 1)
            call.argtypes, call.restype = [ctypes.c_uint32, *place, *options, *others], module._Outcome

    def ended(self, name, given, answer):
        """Calls with buffers at these places. Returns the status, and whether the outcome fits it and only the room's
        front was written, by a call that is done."""
        places = {buffer: given.get(buffer, self.places[buffer]) for buffer in BUFFERS[name]}
        self.block.raw = b"." * len(self.block)
        for buffer, (address, length) in places.items():
            if buffer in BYTES and length == len(BYTES[buffer]) and address and address < END - LONG:
                ctypes.memmove(address, BYTES[buffer], length)
        wanted = bytearray(self.block.raw)
        first, *others = places.values()
        options = [None] if name == "solve" else []
        outcome = self.calls[name](0, *first, *options, *(it for place in others for it in place))
        if outcome.status == DONE:
            front = self.places["room"][0] - ctypes.addressof(self.block)
            wanted[front : front + len(answer)] = answer
        is_answered = outcome.status in (DONE, TOO_SMALL)
        told = (name == "check", len(answer)) if is_answered else (False, 0)
        has_no_line = outcome.line == 0 or not is_answered and outcome.status != BAD_ARGUMENT
        is_right = (outcome.feasible, outcome.length) == told and has_no_line
        return outcome.status, self.block.raw == wanted and is_right

    def tries(self, buffer):
        """Places of a buffer, each with its title and the status of a call that is given it."""
        own, length = self.places[buffer]
        room, most = self.places["room"]
        yield "null with a length", (None, length), BAD_ARGUMENT
        yield "null", (None, 0), WITHOUT_POINTER[buffer]
        yield "past memory's end", (END - length, length), BAD_ARGUMENT
        if buffer == "room":
            yield "too huge", (own, HUGE), BAD_ARGUMENT
            yield "as huge as may be", (own, HUGE - 1), DONE
            yield "at memory's end", (END - 6, 5), TOO_SMALL
            yield "without bytes in a text", (self.places["text"][0] + 1, 0), TOO_SMALL
            return
        yield "too huge", (self.behind, HUGE), BAD_ARGUMENT
        yield "without bytes in the room", (room + 1, 0), WITHOUT_BYTES[buffer]
        yield "up to the room", (room - length, length), DONE
        yield "from the room's end on", (room + most, length), DONE
        yield "with its last byte in the room", (room - length + 1, length), BAD_ARGUMENT
        yield "with its first byte in the room", (room + most - 1, length), BAD_ARGUMENT
        yield "in the room", (room + 1, length), BAD_ARGUMENT
        if buffer != "name":
            yield "as huge as may be", (self.behind, HUGE - 1), TOO_LONG
            yield "at memory's end", (END - 1 - LONG, LONG), TOO_LONG
            yield "long and past memory's end", (END - LONG, LONG), BAD_ARGUMENT


def check_buffers(tally, module, answers):
    """Each buffer of each call where it may not be, or only just may; what the calls answer is known."""
    memory, huge = Memory(module), HUGE - 1
    tries = [
        (name, {buffer: place}, status, f"{buffer} {title}")
        for name, buffers in BUFFERS.items()
        for buffer in buffers
        for title, place, status in memory.tries(buffer)
    ]
    # buffers without bytes lie in these huge ones, but the guard gives them a place of their own
    around_room = {"text": (memory.behind, huge), "room": (None, 0)}
    tries.append(("list", around_room, TOO_LONG, "a huge text and no room"))
    around_name = {"room": (memory.places["room"][0], huge), "name": (None, 0)}
    tries += [(name, around_name, DONE, "a huge room and no name") for name in ("check", "solve")]
    for name, given, status, title in tries:
        ended = memory.ended(name, given, answers[name])
        tally.expect_equal(f"{name}, {title}", ended, (status, True))
