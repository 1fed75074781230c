#!/usr/bin/env python3
"""Makes inputs at the last good value of each limit, which are too long to be stored.

usage: examples/limits.py [NAME]

Prints the input of this name, or the names. `limits.txt` has a line for each: its name, the command's words, the exit
status, and how many bytes are printed and their SHA-256. These came from a program that was written apart from the
command.
"""
import pathlib
import sys

HERE = pathlib.Path(__file__).resolve().parent
MOST_DATA = 65_536
MOST_CONTROL = 1_024
MOST_INPUT = 67_108_864
MOST_COPY = 1_048_576
MOST_LINES = 100_000
MOST_BYTES = 4_194_304
MOST_EVENTS = 10_000
DATAGRAM = 8_192
T_CONN_REQ, T_DATA_REQ, T_BIND_REQ, T_UNITDATA_REQ, T_ORDREL_REQ = 0, 3, 6, 8, 10
T_CONN_IND, T_DATA_IND, T_UNITDATA_IND, T_UDERROR_IND = 11, 14, 20, 21
TWO_ENDPOINTS = ["0 open a ticlts", "0 bind a addr=t:a", "0 open b ticlts", "0 bind b addr=t:b"]


def octets(count, start=0):
    """So many bytes, each value as often as the next."""
    return bytes((start + 7 * i) % 256 for i in range(256)) * (count // 256) + bytes((start + 7 * i) % 256 for i in range(count % 256))


def script(calls):
    return "\n".join(["xti-script 1", *calls, ""]).encode()


def frame(control, data=b""):
    return len(control).to_bytes(4, "big") + len(data).to_bytes(4, "big") + control + data


def words(*numbers):
    return b"".join(number.to_bytes(4, "big") for number in numbers)


def datagram_in_one():
    data = octets(DATAGRAM)
    return script([*TWO_ENDPOINTS, f"1 sndudata a addr=t:b data=x:{data.hex()}", "1 rcvudata b max=8192", "1 look b"])


def datagram_in_parts():
    """Sent in 16 parts, received in 16 pieces, then byte by byte at its end."""
    data = octets(DATAGRAM, 3)
    parts = ",".join("x:" + data[512 * i : 512 * i + 512].hex() for i in range(16))
    sizes = ",".join(str(511 + i % 2) for i in range(16))
    return script([
        *TWO_ENDPOINTS,
        f"1 sndvudata a addr=t:b parts={parts}",
        f"1 rcvvudata b sizes={sizes}",
        *(["1 rcvudata b max=1"] * 8),
        "1 look b",
        f"1 sndudata a addr=t:b data=t:{'d' * DATAGRAM}",
        *(["1 rcvudata b max=1000"] * 9),
    ])


def datagram_over_its_limit():
    return script([*TWO_ENDPOINTS, f"1 sndudata a addr=t:b data=t:{'d' * (DATAGRAM + 1)}", "1 look b"])


def hexadecimal():
    """As many bytes as a script may have, all but the two of its addresses in one word."""
    return script([*TWO_ENDPOINTS, f"1 sndudata a data=x:{octets(MOST_BYTES - 2).hex()}", "1 look a"])


def hexadecimal_over_its_limit():
    return script([*TWO_ENDPOINTS, f"1 sndudata a data=x:{octets(MOST_BYTES - 1).hex()}"])


def lines(count, workers=32):
    """So many lines of worker 0 and of so many others."""
    calls = [f"0 open e{i} ticlts nonblock" for i in range(64)]
    calls += [f"0 bind e{i} addr=t:a{i}" for i in range(64)]
    more = count - len(calls)
    for i in range(more):
        call = f"sndudata e{i % 61} addr=t:a{i % 64} data=t:{i}" if i // 64 % 2 == 0 else f"rcvudata e{i % 64}"
        calls.append(f"{1 + i % workers} {call}")
    return script(calls)


def commented(count):
    """The same under a head, with a comment after each line."""
    first, *calls = lines(count).splitlines(keepends=True)
    head = [b"+++\n", b"[ticlts]\n", b"tsdu = 1000\n", b"+++\n"]
    return b"".join([first, *head, *(call + b"# " + b"c" * 40 + b"\n" for call in calls)])


def hexadecimal_between_comments(count):
    """So many bytes more than a script may have, between comments of 1,000,000 bytes."""
    comment = "#" + "b" * 1_000_000
    return script([comment, *TWO_ENDPOINTS, "", comment, f"1 sndudata a data=x:{octets(MOST_BYTES - 2 + count).hex()}", comment])


def longest_messages():
    """A datagram and a send of the most bytes that a head may allow."""
    return script([
        "+++", "[ticlts]", "tsdu = 65536", "[ticots]", "sndbuf = 65536", "rcvbuf = 65536", "+++",
        *TWO_ENDPOINTS,
        "1 sndudata a addr=t:b data=f:65536", "1 rcvudata b",
        "0 open l ticots nonblock", "0 bind l addr=t:l qlen=1", "0 open c ticots nonblock", "0 bind c", "0 connect c addr=t:l",
        "0 listen l q", "0 accept l l q", "0 rcvconnect c",
        "2 snd c data=f:65536", "2 snd c data=f:65535 flags=1", "2 snd c data=t:x", "2 snd c data=t:x", "2 rcv l", "2 rcv l", "2 rcv l",
    ])


def names():
    """70 names of worker 0 and 130 of worker 1, the longest among them; at most 64 endpoints are open at a time."""
    calls = []
    for worker, count in ((0, 70), (1, 130)):
        listed = [f"n{worker}_{i}" if i % 2 else f"n{worker}_{i}".ljust(16, "z") for i in range(count)]
        for i, name in enumerate(listed):
            calls += [f"{worker} open {name} ticlts nonblock", f"{worker} bind {name}"]
            if i % 6:
                calls.append(f"{worker} close {name}")
        calls += [f"{worker} getstate {name}" for name in listed]
    calls += [f"1 sync n0_{i}" for i in range(1, 70, 2)]
    return script(calls)


def data_frames():
    """The most user data, one byte less, and none, after each other."""
    sizes = (MOST_DATA, MOST_DATA - 1, 0, 1, 1001, MOST_DATA)
    return b"".join(frame(words(T_DATA_IND, i % 2), octets(size, i)) for i, size in enumerate(sizes))


def data_over_its_limit():
    return frame(words(T_DATA_REQ, 1), octets(MOST_DATA)) + frame(words(T_DATA_REQ, 0), octets(MOST_DATA + 1))


def offset(part, place):
    """Where a part stands; 0 for an empty one."""
    return place if part else 0


def with_parts(number, head, first, other, *more):
    """The control part of a primitive with two variable parts, whose words take so many bytes, and words after them."""
    listed = words(number, len(first), offset(first, head), len(other), offset(other, head + len(first)), *more)
    return listed + first + other


def control_frames():
    """The longest control part, in one part and in two, with the most user data and with none."""
    address = octets(MOST_CONTROL - 16)
    frames = [frame(words(T_BIND_REQ, len(address), 16, 8) + address)]
    for number in (T_CONN_REQ, T_UNITDATA_REQ, T_UNITDATA_IND):
        for length in (0, 500, MOST_CONTROL - 20):
            control = with_parts(number, 20, octets(length), octets(MOST_CONTROL - 20 - length, 5))
            frames.append(frame(control, octets(MOST_DATA if length == 500 else 0)))
    frames.append(frame(with_parts(T_UDERROR_IND, 24, octets(MOST_CONTROL - 24), b"", 1)))
    frames.append(frame(with_parts(T_CONN_IND, 24, b"", octets(MOST_CONTROL - 24), 9), b"hi"))
    return b"".join(frames)


def control_over_its_limit():
    """After a control part that is the longest, one that is a byte longer."""
    return b"".join(frame(words(T_BIND_REQ, size, 16, 8) + octets(size)) for size in (MOST_CONTROL - 16, MOST_CONTROL - 15))


def many_frames(count):
    """Small frames of three primitives, in turn."""
    each = [frame(words(T_DATA_IND, 0), b"data"), frame(words(T_ORDREL_REQ)), frame(words(T_DATA_REQ, 1))]
    return b"".join(each) * (count // 3) + b"".join(each[: count % 3])


def longest_input():
    """Frames of exactly as many bytes as an input may have."""
    whole = frame(words(T_DATA_IND, 1), octets(MOST_DATA))
    count, rest = divmod(MOST_INPUT, len(whole))
    return whole * count + frame(words(T_DATA_IND, 0), octets(rest - 16))


def requests_of_a_full_queue():
    """A listener's queue is filled, its first request accepted on r and the others rejected, with the most data and options."""
    options = "o:" + ",".join(f"1/{number}" for number in range(16))
    callers = [f"d{number}" for number in range(7)]
    calls = ["open l ticots nonblock", "bind l addr=f:64 qlen=8", "open r ticots nonblock", "open c ticots nonblock", "bind c addr=t:c"]
    calls += [f"open {name} ticots nonblock" for name in callers] + [f"bind {name}" for name in callers]
    calls += ["optmgmt c negotiate opt=o:65535/4097=65536", "optmgmt r negotiate opt=o:65535/4098=65536", f"optmgmt r current opt={options}"]
    calls += [f"connect c addr=f:64 opt={options} udata=f:64"] + [f"connect {name} addr=f:64 udata=f:64" for name in callers]
    calls += [f"listen l q{number}" for number in range(8)] + [f"accept l r q0 opt={options} udata=f:64"]
    return calls + [f"snddis l q{number} udata=f:64" for number in range(1, 8)] + ["rcvconnect c", "rcvdis d6"]


def connections():
    """As much as may wait at one end of a connection: bytes, parts, ends of messages and expedited data, and then one more."""
    calls = requests_of_a_full_queue() + ["snd c data=f:65536"] * 2 + ["snd c data=t:x"] + ["rcv r"] * 2
    calls += ["sndv c parts=" + ",".join(["f:4096"] * 16), "rcvv r sizes=" + ",".join(["4096"] * 16)]
    calls += ["snd c data=f:128 flags=2"] * 2 + ["snd c data=t:x flags=2"] + ["rcv r"] * 2
    calls += ["snd c data=t:e flags=2"] * 17 + ["rcv r"] * 16 + ["snd r data=t:m"] * 257
    calls += ["rcv c", "look r", "snddis r - udata=f:64", "rcvdis c"]
    return script(f"0 {call}" for call in calls)


def generated(seed):
    """The script that `gen` writes of a seed, with the fields that have their usual values left out."""
    size = lambda worker, turn: 1 + (seed + worker + turn) % 64
    calls = [call for w in range(1, 9) for call in (f"0 open n{w} ticlts", f"0 bind n{w} addr=t:n{w}")]
    calls += ["0 open l ticotsord", "0 bind l addr=t:srv qlen=1", "0 open c ticotsord", "0 bind c", "0 open r ticotsord"]
    for w in range(1, 9):
        for turn in range(1024):
            calls += [f"{w} sndudata n{w} addr=t:n{w % 8 + 1} data=f:{size(w, turn)}", f"{w} rcvudata n{w} max=64"]
    calls += ["9 listen l q", "9 accept l r q"] + ["9 rcv r max=64"] * 1024 + ["9 rcvrel r"]
    return script([*calls, "10 connect c addr=t:srv", *(f"10 snd c data=f:{size(10, turn)}" for turn in range(1024)), "10 sndrel c"])


def link(count):
    """So many events of a link: bodies of the most bytes, each delivered and acknowledged, and timeouts at the end."""
    events = [event for i in range(count // 3) for event in ("offer f:512", f"data {i}", f"ack {i}")] + ["timeout"] * (count % 3)
    return "\n".join(["xti-link 1", *events, ""]).encode()


INPUTS = {
    "a-datagram-of-the-most-bytes": datagram_in_one,
    "a-datagram-of-the-most-bytes-in-parts": datagram_in_parts,
    "a-datagram-over-the-limit": datagram_over_its_limit,
    "connections-at-their-limits": connections,
    "as-many-bytes-as-a-script-may-have": hexadecimal,
    "a-byte-more-than-a-script-may-have": hexadecimal_over_its_limit,
    "as-many-lines-as-a-script-may-have": lambda: lines(MOST_LINES),
    "a-line-more-than-a-script-may-have": lambda: lines(MOST_LINES + 1),
    "as-many-lines-as-a-script-may-have-on-one-thread": lambda: lines(MOST_LINES, 1),
    "as-many-lines-as-a-script-may-have-and-comments": lambda: commented(MOST_LINES),
    "a-line-more-than-a-script-may-have-and-comments": lambda: commented(MOST_LINES + 1),
    "as-many-bytes-as-a-script-may-have-and-comments": lambda: hexadecimal_between_comments(0),
    "a-byte-more-than-a-script-may-have-and-comments": lambda: hexadecimal_between_comments(1),
    "messages-of-the-most-bytes-that-a-head-allows": longest_messages,
    "more-than-100-names-of-a-worker": names,
    "a-generated-script": lambda: generated(7),
    "generated-script-of-7": bytes,
    "generated-script-of-18446744073709551615": bytes,
    "as-many-lines-as-a-link-script-may-have": lambda: link(MOST_EVENTS),
    "a-line-more-than-a-link-script-may-have": lambda: link(MOST_EVENTS + 1),
    "as-many-bytes-as-a-copy-may-have": lambda: octets(MOST_COPY, 5),
    "as-many-bytes-as-a-copy-may-have-counted": lambda: octets(MOST_COPY, 5),
    "a-byte-more-than-a-copy-may-have": lambda: octets(MOST_COPY + 1),
    "frames-with-the-most-user-data": data_frames,
    "a-frame-with-a-byte-too-much": data_over_its_limit,
    "frames-with-the-longest-control-part": control_frames,
    "a-frame-with-a-control-part-too-long": control_over_its_limit,
    "150000-frames": lambda: many_frames(150_000),
    "frames-of-as-many-bytes-as-an-input-may-have": longest_input,
    "a-byte-more-than-an-input-may-have": lambda: longest_input() + b"\0",
}


def table():
    """Of each name the command's words, the status, the count of the printed bytes and their digest."""
    rows = (line.split() for line in (HERE / "limits.txt").read_text().splitlines())
    return {name: (words.split(","), int(status), int(count), digest) for name, words, status, count, digest in rows}


def main():
    if len(sys.argv) == 2 and sys.argv[1] in INPUTS:
        sys.stdout.buffer.write(INPUTS[sys.argv[1]]())
    else:
        print("\n".join(INPUTS))


if __name__ == "__main__":
    main()
