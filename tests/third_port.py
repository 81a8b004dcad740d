"""The third reading: the management port (chapter 15 of docs/RULES.md), from docs/MANAGEMENT.md alone."""

from typing import List, NamedTuple, Optional, Tuple

from third_reading import Setting, check_setting, refuse

RECORD = 28
ENQUIRY, CONNECT, DISCONNECT, STATUS = 1, 2, 3, 129
SETUP, ADD_PARTY, RELEASE, DROP_PARTY = 1, 2, 3, 4
INPUT, OUTPUT = 0, 1
KNOWN = {INPUT: (0x40, 0xC0, 0xE0), OUTPUT: (0x40, 0x60, 0xC0, 0xE0)}
ENABLED = (0xC0, 0xE0)
ALL = b"\xff\xff"
OF_THE_ENQUIRY = (0x00, *range(0x81, 0x88))


def port_settings(record: bytes) -> Setting:
    packing = record[4]
    setting = Setting(record[3], packing & 63, packing >> 6)
    check_setting(setting)
    return setting


def port_packing(setting: Setting) -> int:
    check_setting(setting)
    turned = setting.order == 1 and setting.channels not in (1, setting.shape.slots)
    return setting.channels + 0x40 * turned


class Done(NamedTuple):
    ports: bytes
    answer: bytes = b""
    network: int = 0
    port: int = 0
    reference: int = 0


def split(ports: bytes) -> List[bytes]:
    return [ports[at : at + RECORD] for at in range(0, len(ports) - RECORD + 1, RECORD)]


def best(ports: bytes, code: int, selector: int, format_: bytes) -> Tuple[Optional[int], int]:
    """The port that fits best, and 4, 2 and 1 for the octets of its format that differ."""
    found: Tuple[Optional[int], int] = (None, 7)
    fewest = 4
    for at, record in enumerate(split(ports)):
        differ = [asked != own for asked, own in zip(format_, record[3:6])]
        if record[:2] == bytes([code, selector]) and sum(differ) < fewest:
            found, fewest = (at, differ[0] << 2 | differ[1] << 1 | differ[2]), sum(differ)
    return found


def status_message(ports: bytes, code: int, selector: int, format_: bytes) -> bytes:
    if code not in KNOWN:
        return bytes([STATUS, code])
    length = 9 if code == INPUT else 29
    port, differ = best(ports, code, selector, format_)
    if port is None:
        return (bytes([STATUS, code, selector, 0]) + format_).ljust(length, b"\0")
    record = split(ports)[port]
    status = 0x80 | differ if differ else record[2]
    rest = record[6:8] if code == INPUT else record[6:28] if status == 0xE0 else bytes(22)
    return bytes([STATUS, code, selector, status]) + format_ + rest


def answered(ports: bytes, message: bytes, room: int) -> Done:
    refuse(25, len(message) > room)
    return Done(ports, message)


def stored(ports: bytes, port: int, at: int, octets: bytes) -> bytes:
    start = port * RECORD + at
    return ports[:start] + octets + ports[start + len(octets) :]


def meant(ports: bytes, message: bytes, calling: bool) -> Optional[int]:
    """The first input port with that selector and format that is in a call, or, for a connection, that is enabled."""
    for at, record in enumerate(split(ports)):
        if record[:2] == bytes([INPUT, message[1]]) and record[3:6] == message[2:5]:
            if record[6:8] != b"\0\0" or (calling and record[2] in ENABLED):
                return at
    return None


def connect(ports: bytes, message: bytes, room: int) -> Done:
    port, reference = meant(ports, message, True), message[5:7]
    if port is None or reference == b"\0\0":
        return answered(ports, status_message(ports, INPUT, message[1], message[2:5]), room)
    if split(ports)[port][6:8] == b"\0\0":
        return Done(stored(ports, port, 6, reference), b"", SETUP, port, 0)
    return Done(ports, b"", ADD_PARTY, port, int.from_bytes(reference, "big"))


def disconnect(ports: bytes, message: bytes, room: int) -> Done:
    port, reference = meant(ports, message, False), message[5:7]
    if port is None:
        return answered(ports, status_message(ports, INPUT, message[1], message[2:5]), room)
    if reference == ALL:
        return Done(stored(ports, port, 6, b"\0\0"), b"", RELEASE, port, 0)
    first = split(ports)[port][6:8] == reference
    return Done(ports, b"", DROP_PARTY, port, 0 if first else int.from_bytes(reference, "big"))


def equipment(ports: bytes, message: bytes, room: int) -> Done:
    refuse(24, len(message) == 0)
    whole = message.ljust(27, b"\0")
    if message[0] == ENQUIRY:
        return answered(ports, status_message(ports, whole[1], whole[2], whole[3:6]), room)
    if message[0] == CONNECT:
        return connect(ports, whole, room)
    if message[0] == DISCONNECT:
        return disconnect(ports, whole, room)
    return Done(ports)


def controller(ports: bytes, message: bytes) -> bytes:
    refuse(24, len(message) == 0)
    whole = message.ljust(29, b"\0")
    code, selector, status, format_ = whole[1], whole[2], whole[3], whole[4:7]
    if message[0] != STATUS or code not in KNOWN:
        return ports
    port, _ = best(ports, code, selector, format_)
    if port is None or status not in KNOWN[code] + OF_THE_ENQUIRY:
        return ports
    ports = stored(ports, port, 2, whole[3:7] if status in KNOWN[code] else whole[3:4])
    if code == INPUT:
        return stored(ports, port, 6, whole[7:9])
    return stored(ports, port, 6, whole[7:29]) if status == 0xE0 else ports
