#!/usr/bin/env python3
"""Builds the inputs of the corpus field by field, and puts the second decoder's outcomes to them.

usage: python3 tools/corpus.py inputs FOLDER     the files with no outcomes, for the program outcomes
       python3 tools/corpus.py corpus FILE       the files of corpus/, by the lines that it printed of those

Nothing here decodes a message. tools/corpus.sh make does the whole; docs/CORPUS.md says what stands in the files.
"""
import itertools
import json
import pathlib
import struct
import sys

VERSION = "1.0"
TOP = pathlib.Path(__file__).resolve().parent.parent
KEY = 0x0123456789ABCDEF
KEY_TEXT = "0123456789abcdef"
LONGEST = 8192

# The codes of payloads.
T, RAND, IDR, SP, SAKKE, EXT, SIGN = 5, 11, 14, 10, 26, 21, 4
PURPOSE = {"csk": 0x2000_0001, "pck": 0x1000_0001, "gmk": 0x0000_0001, "sheet": 0x9000_0001}


# ---- messages, field by field

def scattered(length, seed):
    """Bytes that look like chance, the same each time."""
    out, last = [], seed
    for _ in range(length):
        last = (last * 197 + 103) % 256
        out.append(last)
    return bytes(out)


def two(number):
    return struct.pack(">H", number)


def time(seconds=1, ts_type=0):
    return T, bytes([ts_type]) + struct.pack(">Q", seconds)


def rand(data=bytes(16), told=None):
    return RAND, bytes([len(data) if told is None else told]) + data


def sized(code, before, data, told=None):
    """A body with a length field of two bytes, which may tell another length than the data has."""
    return code, bytes(before) + two(len(data) if told is None else told) + bytes(data)


def idr(role, data=b"a", id_type=1):
    return sized(IDR, [role, id_type], data)


def sp(items=(), policy=1, protocol=0):
    return sized(SP, [policy, protocol], b"".join(bytes([kind, len(value)]) + value for kind, value in items))


def sakke(data=b"k", params=1, scheme=2):
    return sized(SAKKE, [params, scheme], data)


def inner(data, following=0, params=1, scheme=2, told=None):
    """The SAKKE payload inside an EXT of type 6."""
    return bytes([following, params, scheme]) + two(len(data) if told is None else told) + data


def to_self(data=b"k", **fields):
    return sized(EXT, [6], inner(data, **fields))


def ext(ext_type, data=b"x"):
    return sized(EXT, [ext_type], data)


def session(policies=b"", data=b"", spi=b"", long=False, protocol=0, cs_id=0, told=None):
    length = len(data) if told is None else told
    return (bytes([cs_id, protocol, (128 if long else 0) + len(policies)]) + policies + two(length) + data
            + bytes([len(spi)]) + spi)


def header(csb=0x2000_0001, byte3=1, sessions=(), cs=None, map_type=None, info=None):
    """The header's bytes, but for the code of the first payload."""
    cs = len(sessions) if cs is None else cs
    map_type = (2 if sessions else 1) if map_type is None else map_type
    info = b"".join(sessions) if info is None else info
    return byte3, csb, cs, map_type, info


def chain(head, payloads):
    """The encoding of header and payloads before SIGN."""
    byte3, csb, cs, map_type, info = head
    codes = [code for code, _ in payloads] + [SIGN]
    out = bytes([1, 26, codes[0], byte3]) + struct.pack(">I", csb) + bytes([cs, map_type]) + info
    for following, (_, body) in zip(codes[1:], payloads):
        out += bytes([following]) + body
    return out


def tag(key, signer, span):
    state = key
    for byte in signer + span:
        state = ((state << 7 | state >> 57) + byte) % 2 ** 64
    return struct.pack(">Q", state)


def signer_of(payloads):
    return next((body[4:] for code, body in payloads if code == IDR and body[0] == 1), b"")


def message(head, payloads, signature=b"\xaa", sign_type=2):
    return chain(head, payloads) + two(sign_type * 4096 + len(signature)) + signature


def signed(head, payloads, sign_type=2, key=KEY):
    """With the tag for its signature."""
    span = chain(head, payloads) + two(sign_type * 4096 + 8)
    return span + tag(key, signer_of(payloads), span)


# ---- the messages of the standards' tables

SECONDS = 0xEEA6_1780
USER_A, USER_B = b"sip:user-a@line4.example", b"sip:user-b@line4.example"
SERVICE, GROUPS, KMS = b"sip:service@line4.example", b"sip:groups@line4.example", b"kms.line4.example"
# AES-GCM with a key of 16 bytes and a salt of 12, AES-CM, no refresh, and a tag of 16.
POLICY = [(0, b"\6"), (1, b"\x10"), (4, b"\x0c"), (5, b"\0"), (6, b"\0"), (20, b"\x10")]
SESSION = session(b"\1", bytes([0x51, 0x52, 0x53, 0x54, 0, 0, 0, 0, 0, 1]), b"\xa0\xa1\xa2\xa3", True, cs_id=6)
SHORT_SESSION = session(b"\1", bytes([0x51, 0x52, 0x53, 0x54]))
CSK, PCK, GMK = 0x2000_0001, 0x1234_5678, 0x000A_3C51


def table(csb, initiator, responder, sessions=(), extensions=(), id_type=1):
    """Time, random bytes, the four identities, a policy where there is a session, the key, and the extensions."""
    payloads = [time(SECONDS), rand(scattered(16, 5)), idr(1, initiator, id_type), idr(2, responder, id_type),
                idr(6, KMS, id_type), idr(7, KMS, id_type)]
    payloads += [sp(POLICY)] if sessions else []
    return header(csb, sessions=sessions), payloads + [sakke(scattered(273, 9))] + list(extensions)


def key_parameters():
    """A protected payload: type, time since 1970, ID and number, algorithm, IV, the key's ID; then what it protects."""
    unix = SECONDS - 2_208_988_800
    return ext(7, b"\xc3" + struct.pack(">Q", unix)[3:] + bytes([0, 0, 0, 0, 0, 1]) + b"\xaa" * 8 + b"\x55" * 8
               + struct.pack(">I", GMK) + bytes([0x78, 0, 52, 2]) + scattered(51, 77))


SELF = to_self(scattered(273, 33))

# Name, message, the fixed profile that it is for.
TABLES = [
    ("client-server key by the terminal", table(CSK, USER_A, SERVICE), "csk"),
    ("client-server key by the terminal, with a session and a policy", table(CSK, USER_A, SERVICE, [SESSION]), "csk"),
    ("client-server key downloaded by the server", table(CSK, SERVICE, USER_A), "csk"),
    ("client-server key downloaded by the server, with the printed purpose", table(0x1000_0001, SERVICE, USER_A), "csk"),
    ("private call key by the server", table(PCK, USER_B, USER_A), "pck"),
    ("private call key by the server, with the printed ID type", table(PCK, USER_B, USER_A, id_type=0), "pck"),
    ("private call key by the terminal, with a session and a policy",
     table(PCK, USER_B, USER_A, [SHORT_SESSION]), "pck"),
    ("private call key with SAKKE-to-self", table(PCK, USER_B, USER_A, extensions=[SELF]), "pck"),
    ("group key with key parameters", table(GMK, GROUPS, USER_A, extensions=[key_parameters()]), "gmk"),
    ("group key with SAKKE-to-self and key parameters",
     table(GMK, GROUPS, USER_A, extensions=[SELF, key_parameters()]), "gmk"),
    ("signalling control key (MSCCK)", table(0x5000_0001, SERVICE, USER_A), "gmk"),
    ("multicast signalling key (MuSiK)", table(0x6000_0001, SERVICE, USER_A), "gmk"),
]


def short(profile, sessions=(SHORT_SESSION,), other=False):
    """A message with one of each slot, as short as the profiles let it be."""
    payloads = [time(), rand(), idr(1, b"i"), idr(2, b"r"), idr(6, b"k"), idr(7, b"m"), sp([(0, b"\6")]), sakke(),
                to_self(), ext(7)]
    return header(PURPOSE[profile], sessions=list(sessions)), payloads + ([idr(8, b"o")] if other else [])


# ---- sheets

NAMES = "slot least most rank\n"
ORDERED = NAMES + "".join(f"{slot} {0 if slot in (7, 9, 10) else 1} 1 {slot - 1}\n" for slot in range(1, 12))
WIDE = NAMES + "".join(f"{slot} 0 24 0\n" for slot in range(1, 13))
SIGN_ALONE = NAMES + "11 1 1 0\n"


def sheet(**lines):
    """A sheet of SIGN and the slots named, as s2=(least, most, rank)."""
    slots = {int(name[1:]): line for name, line in lines.items()}
    slots.setdefault(11, (1, 1, 24))
    return NAMES + "".join("%d %d %d %d\n" % (slot, *slots[slot]) for slot in sorted(slots))


# ---- tests

def test(comment, *flags, **fields):
    return {"comment": comment, "flags": list(flags),
            **{name: value.hex() if isinstance(value, bytes) else value for name, value in fields.items()}}


SMALL = header()
SMALL_BYTES = message(SMALL, [])


def changed(at, byte, of=SMALL_BYTES):
    return of[:at] + bytes([byte]) + of[at + 1:]


def one(payload, name, *flags):
    return test(name, *flags, message=message(SMALL, [payload]))


def by_hand():
    cases = [("the small message", SMALL_BYTES), ("its last byte off", SMALL_BYTES[:-1]),
             ("a byte added", SMALL_BYTES + b"\0"), ("code 0 as a good end", changed(2, 0)),
             ("map type 2 with no session", changed(9, 2)), ("no byte", b""), ("nine bytes", SMALL_BYTES[:9]),
             ("a header and nothing else", SMALL_BYTES[:10]), ("a signature of no byte", SMALL_BYTES[:11] + b"\0"),
             ("8,193 bytes", bytes(8193)), ("8,192 bytes of 0, which are not too many", bytes(8192)),
             ("8,192 bytes of 1", b"\1" * 8192)]
    return [test(name, "ByHand", message=data) for name, data in cases]


def header_edges():
    values = {0: [0, 2, 255], 1: [0, 25, 27, 255], 3: [0, 127, 128, 255], 4: [0, 0x5F, 255], 8: [1, 255], 9: [0, 3, 255]}
    out = [test(f"byte {at} is {value}", "Header", message=changed(at, value))
           for at, list_ in values.items() for value in list_]
    for cs in [0, 1, 2, 3, 4, 5]:
        for map_type in [0, 1, 2, 3]:
            head = header(cs=cs, map_type=map_type, info=session() * cs)
            out.append(test(f"#CS {cs} with map type {map_type}", "Header", message=message(head, [])))
    return out


def session_edges():
    out, fill = [], b"\x5a" * 255
    for long in (False, True):
        for protocol in (0, 1, 255):
            for data in ([0, 3, 4, 5, 9, 10, 11, 255] if protocol == 0 else [4, 10]):
                for policies, spi in [(0, 0), (1, 4)] if data not in (4, 10) else [(0, 0), (1, 1), (127, 0), (0, 255)]:
                    name = f"S {int(long)}, Prot type {protocol}, {policies} policies, {data} bytes of data, SPI {spi}"
                    only = session(fill[:policies], fill[:data], fill[:spi], long, protocol)
                    whole = message(header(sessions=[only]), [])
                    out.append(test(name, "Session", message=whole))
                    if protocol == 0 and (policies, spi) == (1, 4):
                        out.append(test(name + ", cut", "Session", "Cut", message=whole[:-4]))
    good = [session(cs_id=i, long=i % 2 == 1, policies=b"\1", spi=b"\7") for i in range(4)]
    for count in range(1, 5):
        for broken in range(count + 1):
            sessions = [session(protocol=1) if i == broken else good[i] for i in range(count)]
            name = f"{count} sessions, " + ("all good" if broken == count else f"number {broken + 1} wrong")
            out.append(test(name, "Session", message=message(header(sessions=sessions), [])))
    out += [test(f"a session's data length told as {told}", "Session",
                 message=message(header(sessions=[session(data=fill[:4], told=told)]), []))
            for told in (0, 3, 5, 10, 255, 65535)]
    return out


def payload_lengths():
    out = []
    kinds = [("IDR", IDR, [1, 1]), ("SP", SP, [1, 0]), ("SAKKE", SAKKE, [1, 2]), ("EXT of type 7", EXT, [7]),
             ("EXT of type 6", EXT, [6]), ("EXT of type 255", EXT, [255])]
    for name, code, before in kinds:
        for length in [0, 1, 2, 255, 256, 257]:
            for told in sorted({length, max(0, length - 1), length + 1, 0, 65535}):
                out.append(one(sized(code, before, bytes(length), told), f"{name} with {length} bytes, told as {told}", "Length"))
    for length in [0, 1, 15, 16, 254, 255]:
        for told in sorted({length, max(0, length - 1), min(255, length + 1)}):
            out.append(one(rand(bytes(length), told), f"RAND with {length} bytes, told as {told}", "Length"))
    for length in [0, 1, 2, 255, 256, 4095]:
        for there in sorted({length, max(0, length - 1), length + 1}) if length < 300 else [length]:
            data = SMALL_BYTES[:10] + two(2 * 4096 + length) + bytes(there)
            out.append(test(f"SIGN with {there} bytes, told as {length}", "Length", "Sign", message=data))
    out += [test(f"S type {sign_type}", "Sign", message=message(SMALL, [], sign_type=sign_type)) for sign_type in range(16)]
    room = LONGEST - len(message(SMALL, [ext(7, b"")]))
    for more in (-1, 0, 1):
        out.append(one(ext(7, bytes(room + more)), f"a message of {LONGEST + more} bytes", "Length"))
    return out


def rules():
    out = [one(time(2 ** 64 - 1, ts_type), f"TS type {ts_type}", "Rule") for ts_type in (0, 1, 2, 128, 255)]
    out += [test(f"a T of {length} bytes", "Rule", "Length", message=message(SMALL, [(T, bytes(length))]))
            for length in range(13)]
    params = [b"", b"\0", b"\0\0", b"\0\1", b"\0\1\7", b"\0\2\7", b"\0\0\0", b"\0\0\0\0", b"\1\1\0\2\1", b"\1\1\0\2\1\0",
              b"\7\xff" + bytes(254), b"\7\xff" + bytes(255), b"\7\xff" + bytes(256), b"\7\xff" + bytes(257)]
    out += [one(sized(SP, [1, 0], each), f"params of SP of {len(each)} bytes: {each[:6].hex() or 'none'}", "Rule", "Items")
            for each in params]
    whole = inner(b"\7\7\7")
    out += [one(sized(EXT, [6], whole[:end]), f"the SAKKE inside EXT of type 6, its first {end} bytes", "Rule", "Inner")
            for end in range(len(whole) + 1)]
    for there in (0, 1, 255, 256):
        for told in sorted({there, max(0, there - 1), there + 1, 65535}):
            name = f"the SAKKE inside EXT of type 6 with {there} bytes, told as {told}"
            out.append(one(sized(EXT, [6], inner(bytes(there), told=told)), name, "Rule", "Inner"))
    out += [one(to_self(following=following), f"the next-payload byte inside EXT of type 6 is {following}", "Rule", "Inner")
            for following in (0, 4, 26, 255)]
    return out


def codes_and_counts():
    out = []
    for code in [0, 1, 2, 3, 4, 5, 6, 9, 10, 11, 12, 13, 14, 15, 20, 21, 22, 25, 26, 27, 127, 128, 255]:
        out.append(test(f"code {code} as the first", "Code", message=message(SMALL, [(code, bytes(9))])))
        out.append(test(f"code {code} after a RAND", "Code", message=message(SMALL, [rand(b""), (code, bytes(4))])))
    for count in (0, 1, 2, 22, 23, 24, 30):
        name = f"{count} payloads before SIGN"
        whole = message(SMALL, [rand(b"")] * count)
        out += [test(name, "Count", message=whole), test(name + ", SIGN cut", "Count", "Cut", message=whole[:-1]),
                test(name + ", no SIGN", "Count", "Cut", message=whole[:-3])]
    out.append(test("an unknown code as the 25th", "Count", "Code", message=message(SMALL, [rand(b"")] * 24 + [(9, b"\0")])))
    out.append(test("a broken T as the 25th", "Count", "Rule", message=message(SMALL, [rand(b"")] * 24 + [time(ts_type=1)])))
    for role in (0, 1, 2, 3, 5, 6, 7, 8, 255):
        out.append(one(idr(role), f"IDR of role {role}", "Slot"))
        out.append(one(idr(1, id_type=role), f"IDR of type {role}", "Slot"))
    out += [one(ext(ext_type), f"EXT of type {ext_type}", "Slot") for ext_type in (0, 1, 5, 7, 8, 255)]
    return out


def orders(make, flag="Order"):
    """The short message begun with each payload in turn, with two neighbours swapped, and reversed."""
    head, payloads = short("gmk")
    out = [(f"begun with payload {i + 1}", payloads[i:] + payloads[:i]) for i in range(len(payloads))]
    out += [(f"payloads {i} and {i + 1} swapped", payloads[:i - 1] + [payloads[i], payloads[i - 1]] + payloads[i + 1:])
            for i in range(1, len(payloads))]
    out.append(("reversed", payloads[::-1]))
    return [test(name, flag, message=make(head, order)) for name, order in out]


def left_out_or_twice():
    head, payloads = short("gmk")
    out = []
    for i in range(len(payloads)):
        out.append(test(f"without payload {i + 1}", "Count", message=signed(head, payloads[:i] + payloads[i + 1:])))
        out.append(test(f"payload {i + 1} twice", "Count", message=signed(head, payloads + [payloads[i]])))
    return out


def walk_groups():
    tables = [test(name, "StandardTable", message=signed(*parts)) for name, parts, _ in TABLES]
    shorts = [test(f"one of each slot, for {name}", "Short", message=signed(*short(name, other=name == "sheet")))
              for name in PURPOSE]
    rows = [test("the small message", "Rows", message=SMALL_BYTES), test("no byte", "Rows", message=b""),
            test("24 payloads", "Rows", message=message(SMALL, [rand(b"")] * 23)),
            test("25 payloads", "Rows", message=message(SMALL, [rand(b"")] * 24))]
    all_ = (tables + shorts + by_hand() + header_edges() + session_edges() + payload_lengths() + rules()
            + codes_and_counts() + orders(message))
    groups = [{"type": "Walk", "rows": 24, "tests": all_}]
    groups += [{"type": "Walk", "rows": lent, "tests": list(rows)} for lent in (0, 1, 23, 24, 25, 32)]
    parts = []
    for start, length in [(0, 0), (0, 1), (0, 13), (0, 14), (10, 3), (10, 4), (12, 1), (12, 2), (13, 0), (13, 1), (14, 0),
                          (2 ** 31, 2 ** 31), (2 ** 32 - 1, 0), (2 ** 32 - 1, 2 ** 32 - 1), (1, 2 ** 32 - 1),
                          (13, 2 ** 32 - 13)]:
        parts.append(test(f"{length} bytes from {start}", "Lookup", message=SMALL_BYTES, start=start, length=length))
        parts.append(test(f"{length} bytes from {start} of none", "Lookup", message=b"", start=start, length=length))
    return groups + [{"type": "Lookup", "tests": parts}]


def fields(profile):
    """Every field, at the values around those that profiles take."""
    head, payloads = short(profile, other=profile == "sheet")
    out = []

    def add(name, head=head, payloads=payloads, sign_type=2):
        out.append(test(name, "Field", message=signed(head, payloads, sign_type)))

    for byte3 in (0, 1, 2, 127, 128, 129, 255):
        add(f"V {byte3 // 128}, PRF func {byte3 % 128}", (byte3,) + head[1:])
    for purpose in range(16):
        add(f"purpose {purpose}", (head[0], purpose << 28 | 1) + head[2:])
    for cs in range(5):
        add(f"#CS {cs}", header(PURPOSE[profile], sessions=[session()] * cs))
    for length in (0, 15, 16, 17, 255):
        add(f"RAND of {length} bytes", payloads=[payloads[0], rand(bytes(length))] + payloads[2:])
    places = [("ID type of role 1", 2, 1), ("ID type of role 2", 3, 1), ("ID type of role 6", 4, 1),
              ("ID type of role 7", 5, 1), ("Prot type", 6, 1), ("SAKKE params", 7, 0), ("ID scheme", 7, 1),
              ("SAKKE params inside EXT", 8, 4), ("ID scheme inside EXT", 8, 5)]
    places += [("ID type of role 8", 10, 1)] if profile == "sheet" else []
    for name, i, at in places:
        code, body = payloads[i]
        for value in (0, 1, 2, 3, 255):
            add(f"{name} is {value}", payloads=payloads[:i] + [(code, changed(at, value, body))] + payloads[i + 1:])
    for sign_type in (0, 1, 2, 3, 15):
        add(f"S type {sign_type}", sign_type=sign_type)
    wrong = payloads[:2] + [idr(1, b"i", 9), idr(2, b"r", 9)] + payloads[4:]
    add("V, purpose and two ID types wrong", (129, 0xF000_0001) + head[2:], wrong)
    add("two ID types wrong", payloads=wrong)
    return out


SLOTS = {1: time(), 2: rand(), 3: idr(1), 4: idr(2), 5: idr(6), 6: idr(7), 7: sp(), 8: sakke(), 9: to_self(), 10: ext(7),
         12: ext(9)}


def counts_and_ranks():
    """Sheets, each with messages around its least, most and rank."""
    groups = []

    def add(text, *cases):
        tests = [test(name, "Sheet", message=signed(SMALL, [SLOTS[slot] for slot in slots])) for name, slots in cases]
        groups.append(read_group(text, tests))

    for slot in SLOTS:
        add(sheet(**{f"s{slot}": (1, 2, 0)}), *[(f"slot {slot} stands {n} times", [slot] * n) for n in (0, 1, 2, 3)])
        add(sheet(**{f"s{slot}": (0, 24, 9), "s2" if slot != 2 else "s3": (0, 24, 8)}),
            (f"slot {slot} and then one of a lower rank", [slot, 3 if slot == 2 else 2]),
            (f"slot {slot} after one of a lower rank", [3 if slot == 2 else 2, slot]),
            (f"slot {slot} stands 23 times", [slot] * 23))
    add(sheet(s2=(24, 24, 0)), ("slot 2 stands 23 times of 24", [2] * 23))
    add(sheet(s2=(0, 24, 24), s11=(1, 1, 23)), ("SIGN below the rank of slot 2", [2]), ("SIGN alone", []))
    add(sheet(s11=(0, 0, 0)), ("SIGN is too much", []))
    add(sheet(s11=(2, 2, 0)), ("SIGN is too little", []))
    add(sheet(s1=(0, 1, 5)), ("a slot with no line, after a rank", [1, 2]), ("a slot with no line", [2, 1]))
    add(sheet(s1=(1, 1, 0), s3=(1, 1, 0)), ("two slots too few", []), ("the first is there", [1]), ("both", [1, 3]))
    return groups


def read_group(profile, tests, trusted=(), key=KEY_TEXT, rows=24):
    group = {"type": "Read", "rows": rows, "profile": profile, "key": key}
    if trusted:
        group["trusted"] = [signer.hex() for signer in trusted]
    return {**group, "tests": tests}


def signatures():
    head, payloads = short("gmk")
    good = signed(head, payloads)
    roles = [idr(2, b"b"), idr(1, b"a"), idr(1, b"c")]
    twice = signed(head, [payloads[0], payloads[1]] + roles + payloads[4:])
    cases = [("signed", good), ("the last byte changed", good[:-1] + bytes([good[-1] ^ 1])),
             ("a byte of the span changed", changed(5, 0x77, good)),
             ("a signature of seven bytes", message(head, payloads, good[-8:-1])),
             ("a signature of nine bytes", message(head, payloads, good[-8:] + b"\0")),
             ("signed by another key", signed(head, payloads, key=KEY + 1)),
             ("two IDRs of role 1, of which the first signs", twice),
             ("no IDR of role 1", signed(head, payloads[:2] + payloads[3:]))]
    return [test(name, "Signature", message=data) for name, data in cases]


def read_groups():
    groups = []
    for profile in ("csk", "pck", "gmk"):
        tests = [test(name, "StandardTable", message=signed(*parts)) for name, parts, by in TABLES if by == profile]
        tests += [test(f"one of each slot, for {name}", "Short", message=signed(*short(name))) for name in PURPOSE]
        groups.append(read_group(profile, tests + fields(profile)))
    groups[-1]["tests"] += orders(signed) + left_out_or_twice() + signatures()
    tables = [test(name, "StandardTable", message=signed(*parts)) for name, parts, _ in TABLES]
    groups.append(read_group(ORDERED, tables + orders(signed) + left_out_or_twice()))
    groups.append(read_group(WIDE, fields("sheet") + signatures()))
    groups.append(read_group(SIGN_ALONE, [
        test("the small message, by no tag", "ByHand", message=SMALL_BYTES),
        test("with V set", "ByHand", message=changed(3, 0x81)),
        test("the small message, signed", "ByHand", message=signed(SMALL, []))]))
    groups.append(read_group("csk", [test("the small message", "ByHand", message=SMALL_BYTES)]))
    groups.append(read_group("gmk", [test("23 rows", "Rows", message=signed(*short("gmk")))], rows=23))
    groups += counts_and_ranks()
    trusted = [b"i", b"j" * 128]
    for name, list_ in [("its signer", trusted), ("another signer", trusted[1:]), ("a longer signer", [b"ii"])]:
        tests = [test(f"the trust list has {name}", "Trust", message=signed(*short("gmk"))),
                 test(f"the trust list has {name}, and the tag is wrong", "Trust",
                      message=signed(*short("gmk"), key=KEY + 1))]
        head, payloads = short("gmk")
        payloads[2] = idr(1, b"j" * 128)
        tests.append(test("a signer of 128 bytes", "Trust", message=signed(head, payloads)))
        groups.append(read_group("gmk", tests, list_))
    groups.append(read_group(WIDE, [test("no signer", "Trust", message=signed(SMALL, []))], trusted))
    return groups


def sheet_groups():
    tails = ["", "\n", "1 0 1 0\n", "1 0 1 0", "1 0 1 0\r\n", "1 0 1 0 \n", " 1 0 1 0\n", "1  0 1 0\n", "1\t0 1 0\n", "1 0 1\n",
             "1 0 1 0 0\n", "01 0 1 0\n", "1 00 1 0\n", "1 0 01 0\n", "1 0 1 00\n", "001 0 1 0\n", "1 0 100 0\n",
             "1 0 1 100\n", "1 0 024 0\n", "-1 0 1 0\n", "+1 0 1 0\n", "1 0 1 a\n", "a 0 1 0\n", "0 0 1 0\n", "13 0 1 0\n",
             "12 0 1 0\n", "1 2 1 0\n", "1 1 1 0\n", "1 24 24 24\n", "1 25 25 0\n", "1 0 25 0\n", "1 0 24 25\n",
             "1 0 99 99\n", "1 0 1 0\n1 0 1 0\n", "2 0 1 0\n1 0 1 0\n", "1 0 1 0\n2 0 1 0\n", "1 0 1 0\n12 0 1 0\n",
             "1 0 1 0\n\n2 0 1 0\n", "1 0 1 0\n13 0 1 0\n", "12 0 1 0\n12 0 1 0\n", "2 1,5 1 0\n", "2 2 1 0\n", "11 1 1 0\n",
             "1 0 1 0\nslot least most rank\n", "1 0 1 0\0", "1 0 1 0\n\0\n", "2 0 1 0\n1 x\n", "2 0 1 0\n1 25 25 0\n"]
    titles = ["", "slot least most rank", "slot least most rank\r\n", "Slot least most rank\n", "slot  least most rank\n",
              " slot least most rank\n", "slot least most\n", "slot least most rank \n", "\nslot least most rank\n"]
    tests = [test("behind the names: " + json.dumps(tail), "SheetLine", sheet=NAMES + tail) for tail in tails]
    tests += [test("a first line: " + json.dumps(title), "SheetTitle", sheet=title + "1 0 1 0\n") for title in titles]
    tests += [test(name, "SheetWhole", sheet=text)
              for name, text in [("the order of the tables", ORDERED), ("any payloads", WIDE), ("SIGN alone", SIGN_ALONE)]]
    return [{"type": "Sheet", "tests": tests}]


def time_groups():
    tests = [test(f"seconds {value}", "Value", payload=b"\4\0" + struct.pack(">Q", value))
             for value in (0, 1, 255, 256, SECONDS, 2 ** 32 - 1, 2 ** 32, 2 ** 63, 2 ** 64 - 1)]
    tests += [test(f"TS type {ts_type}", "Rule", payload=bytes([0, ts_type]) + bytes(8)) for ts_type in (1, 2, 128, 255)]
    tests += [test(f"the next-payload byte is {code}", "Value", payload=bytes([code, 0]) + bytes(8)) for code in (0, 9, 255)]
    for length in (0, 1, 2, 8, 9, 10, 11, 12):
        tests += [test(f"{length} bytes of {value}", "Length", payload=bytes([value]) * length) for value in (0, 1)]
    return [{"type": "Time", "tests": tests}]


def identity_groups():
    tags = [(0, b"", b"\1\2"), (0, b"\1", b"\2"), (0, b"", b""), (2 ** 63, b"", b"\0"), (KEY, b"i", SMALL_BYTES[:12]),
            (2 ** 64 - 1, b"\xff" * 20, b"\xff" * 20), (KEY, USER_A, bytes(100))]
    tests = [test(f"a signer of {len(signer)} bytes, a span of {len(span)}", "Tag", key="%016x" % key, signer=signer, span=span)
             for key, signer, span in tags]
    eight = [bytes([c]) for c in b"12345678"]
    lists = [("no byte", [], b""), ("one byte", [], b"\0"), ("128 bytes", [], bytes(128)), ("129 bytes", [], bytes(129)),
             ("again", [b"a"], b"a"), ("the eighth", eight[:7], b"8"), ("a ninth", eight, b"9"), ("again, on a full list", eight, b"7"),
             ("no byte, on a full list", eight, b""), ("129 bytes, on a full list", eight, bytes(129)),
             ("one that begins as another", eight[:7] + [b"9a"], b"9"), ("one that is there twice", [b"a", b"a"] + eight[:6], b"8")]
    enters = [test(name, "Enter", entered=[each.hex() for each in entered], signer=signer) for name, entered, signer in lists]
    return [{"type": "KeyTag", "tests": tests}, {"type": "TrustList", "tests": enters}]


# ---- drafts

def call(name, **fields):
    return {"call": name, **{key: value.hex() if isinstance(value, bytes) else value for key, value in fields.items()}}


def head_call(head):
    byte3, csb, cs, map_type, info = head
    return call("head", byte3=byte3, csbId=csb, cs=cs, mapType=map_type, mapInfo=info)


def add(position, payload):
    return call("add", position=position, code=payload[0], body=payload[1])


def replace(position, payload):
    return call("replace", position=position, code=payload[0], body=payload[1])


def remove(position):
    return call("remove", position=position)


def close(profile, sign_type=2, length=8):
    return call("close", profile=profile, signType=sign_type, length=length)


def sign(signature):
    return call("sign", signature=signature)


WITHDRAW, RELEASE = call("withdraw"), call("release")


def draft_of(head, payloads):
    return [head_call(head)] + [add(i, payload) for i, payload in enumerate(payloads)]


def draft(comment, flag, calls, length=300, fill=0xA5):
    return test(comment, flag, length=length, fill=fill, calls=calls)


def draft_groups():
    tests = []
    heads = [header(), header(sessions=[session()]), header(cs=1), header(map_type=2), header(info=b"\0"),
             header(sessions=[session(protocol=1)]), header(sessions=[session(data=b"\0" * 5)]),
             header(sessions=[session()], info=session()[:5]), header(sessions=[session()], info=session() + b"\0"),
             header(sessions=[session()] * 4), header(cs=5, map_type=2, info=session() * 5), header(csb=2 ** 32 - 1, byte3=255)]
    tests.append(draft("headers", "Head", [head_call(head) for head in heads]))
    tests += [draft(f"a header in {length} bytes", "Room", [head_call(SMALL), close(WIDE, 2, 1), sign(b"\1"), RELEASE], length)
              for length in (0, 9, 10, 12, 13)]
    tests.append(draft("before there is a header", "NoHead", [add(0, rand()), replace(0, rand()), remove(0), close("gmk"),
                                                             sign(bytes(8)), WITHDRAW, head_call(SMALL), add(0, rand())]))
    bodies = [(T, b""), (T, bytes(8)), time(), time(ts_type=1), (T, bytes(10)), (RAND, b""), rand(b""), rand(b"a", 2),
              rand(b"ab", 1), idr(1), (IDR, b"\1\1\0"), sized(IDR, [1, 1], b"a", 2), sp(), sp([(0, b"\6")]),
              sized(SP, [1, 0], b"\0"), sized(SP, [1, 0], b"\0\1"), sakke(), sized(SAKKE, [1, 2], b"a", 0), to_self(),
              to_self(told=0), ext(7), sized(EXT, [6], b""), (0, b""), (4, b"\0\1\0"), (9, b"\0"), (255, b"")]
    tests.append(draft("bodies that are added", "Body", [head_call(SMALL)] + [add(0, body) for body in bodies]))
    tests.append(draft("bodies that replace", "Body",
                       [head_call(SMALL), add(0, rand())] + [replace(0, body) for body in bodies]))
    four = draft_of(SMALL, [rand(b""), rand(b"a"), rand(b"bc"), rand(b"def")])
    places = [4, 5, 3, 0, 2 ** 31]
    tests.append(draft("positions of add", "Position", four + [add(i, idr(1)) for i in places]))
    tests.append(draft("positions of replace", "Position", four + [replace(i, idr(1)) for i in places]))
    tests.append(draft("positions of remove", "Position", four + [remove(i) for i in [4, 3, 0, 2, 1, 0, 0]]))
    tests.append(draft("the codes that name what follows", "Position", draft_of(SMALL, [time(), rand(b""), idr(1, b"")])
                       + [replace(1, sakke(b"")), remove(0), add(2, sp()), remove(2), remove(1), remove(0)]))
    many = draft_of(SMALL, [rand(b"")] * 23)
    tests.append(draft("a 24th payload", "Count", many + [add(0, rand(b"")), add(23, rand(b"")), remove(5), add(23, ext(1)),
                                                          replace(22, rand(b"")), close(WIDE), sign(bytes(8))]))
    tests.append(draft("no room for an add", "Room", [head_call(SMALL), add(0, rand(b"abc")), add(1, rand(b"d")), add(1, rand(b"")),
                                                      add(0, rand(b"")), replace(0, rand(b"abcd")), replace(0, rand(b"abc")),
                                                      replace(0, rand(b"")), add(1, rand(b""))], 17))
    session_head = header(sessions=[session()])
    tests.append(draft("no room for a longer header", "Room", [head_call(SMALL), add(0, rand(b"abc")), head_call(session_head),
                                                               remove(0), head_call(session_head), head_call(SMALL)], 16))
    tests.append(draft("no room for SIGN", "Room", [head_call(SMALL), close(WIDE, 2, 9), sign(bytes(9)), WITHDRAW,
                                                    close(WIDE, 2, 8), sign(bytes(8)), WITHDRAW, close(WIDE, 2, 10),
                                                    sign(bytes(10))], 20))
    bounds = []
    for sign_type, length in [(16, 8), (255, 8), (15, 8), (2, 0), (2, 4096), (2, 4095), (2, 1), (0, 1), (2, 2 ** 32)]:
        bounds += [close(WIDE, sign_type, length), sign(bytes(min(length, 9))), WITHDRAW]
    tests.append(draft("the bounds of SIGN", "Sign", [head_call(SMALL)] + bounds))
    signed_ = [sign(bytes(7)), sign(bytes(9)), sign(b""), sign(b"12345678"), sign(b"87654321"), WITHDRAW, sign(bytes(8))]
    tests.append(draft("signatures of the wrong length", "Sign", [head_call(SMALL), close(WIDE)] + signed_))
    edits = [head_call(SMALL), add(0, rand()), replace(0, rand()), remove(0), close(WIDE)]
    tests.append(draft("calls that an open draft does not take", "State",
                       [sign(b"1"), WITHDRAW, RELEASE, head_call(SMALL), sign(b"1"), WITHDRAW, RELEASE]))
    tests.append(draft("calls that a draft that is out does not take", "State",
                       draft_of(SMALL, [rand()]) + [close(WIDE)] + edits + [sign(b"12345678")] + edits))
    tests.append(draft("calls after the end", "State", [head_call(SMALL), close(WIDE), sign(b"12345678"), RELEASE] + edits
                       + [sign(b"12345678"), WITHDRAW, RELEASE]))
    tests.append(draft("released unsigned, and by what was delivered", "State",
                       [head_call(SMALL), close(WIDE), sign(b"1"), RELEASE]))
    tests.append(draft("withdraw forgets what was delivered", "State",
                       [head_call(SMALL), close(WIDE), sign(b"12345678"), WITHDRAW, close(WIDE), RELEASE]))
    for profile in ("csk", "pck", "gmk"):
        head, payloads = short(profile)
        signature = signed(head, payloads)[-8:]
        tests.append(draft(f"a message for {profile}", "Whole",
                           draft_of(head, payloads) + [close(profile), sign(signature), RELEASE]))
    head, payloads = short("gmk")
    wrong = [("a field", replace(1, rand(b"short"))), ("a header's field", head_call(header(0xF000_0001))),
             ("a payload too many", add(0, time())), ("a payload too few", remove(3)), ("one in slot 12", add(2, idr(8)))]
    for name, edit in wrong:
        tests.append(draft(f"a close that the profile refuses: {name}", "Carried",
                           draft_of(head, payloads) + [edit, close("gmk"), sign(bytes(8)), WITHDRAW, close(WIDE), sign(bytes(8)),
                                                       RELEASE]))
    tests.append(draft("a close that a sheet refuses: a rank that falls", "Carried",
                       draft_of(SMALL, [SLOTS[2], SLOTS[1]]) + [close(sheet(s1=(0, 1, 1), s2=(0, 1, 2))), sign(bytes(8)), WITHDRAW,
                                                               remove(1), add(0, SLOTS[1]),
                                                               close(sheet(s1=(0, 1, 1), s2=(0, 1, 2))), sign(bytes(8))]))
    tests.append(draft(f"a buffer of {LONGEST + 1} bytes", "Room", [
        head_call(SMALL), add(0, ext(1, bytes(LONGEST - 13))), add(0, ext(1, bytes(LONGEST - 17))), close(WIDE, 2, 1),
        sign(b"1"), RELEASE], LONGEST + 1))
    return [{"type": "Draft", "tests": tests}]


# ---- the files

FIELDS = {
    "tcId": "the number of the test, unique in its file",
    "comment": "what the test is about",
    "flags": "what it is an instance of; the notes say what each flag means",
    "result": "taken or refused",
    "number": "the number of the refusal",
    "place": "the byte of the message that the refusal tells, else 0; of a sheet the byte of the text",
    "detail": "the field or the slot that the refusal tells, else 0",
}
ROWS = {"message": "the message, in hexadecimal", "rows (of a group)": "how many rows the caller lends",
        "header": "the length of the header, where the message is taken", "span": "the length of what the signature is over",
        "rows": "code, slot, start and length of each payload, SIGN last"}
PROFILE = "the profile: csk, pck or gmk, or the text of a sheet"
NOTES = {
    "ByHand": "Tried by hand: the outcome can be read off the pages on the format and its refusals.",
    "StandardTable": "A message of the standards' tables, built field by field, with the key tag for its signature.",
    "Short": "One payload of each slot, as short as the fixed profiles let it be.",
    "Header": "The fields of the header at their edges.",
    "Session": "Sessions of the map info at the edges of their counts and lengths.",
    "Length": "A length field that tells less, just as much, or more than there is.",
    "Rule": "The rule inside a payload.",
    "Items": "The params of SP have to be whole items.",
    "Inner": "The data of an EXT of type 6 has to be one SAKKE payload.",
    "Code": "Codes of payloads, known and unknown.",
    "Count": "How many payloads there are, or how often a slot stands.",
    "Cut": "The message ends early.",
    "Slot": "Roles and types that choose the slot.",
    "Order": "The same payloads in another order.",
    "Sign": "S type and S len.",
    "Rows": "How many rows are lent.",
    "Lookup": "A start and a length as a row has them, inside the message or not.",
    "Field": "A field that a profile asks about, at the values around those that are taken.",
    "Sheet": "Least, most and rank of a slot under a sheet.",
    "Signature": "What the tag is over, and how long it is.",
    "Trust": "A trust list beside the tag.",
    "SheetLine": "A line of a sheet.",
    "SheetTitle": "The first line of a sheet.",
    "SheetWhole": "A whole sheet.",
    "Value": "A time stamp's value.",
    "Tag": "The key tag of a signer and a span.",
    "Enter": "A signer that is entered into a trust list.",
    "Head": "Headers that are offered to a draft.",
    "NoHead": "Calls on a draft that has no header.",
    "Body": "Bodies that are offered to a draft.",
    "Position": "Positions of payloads in a draft.",
    "Room": "What fits into a draft's buffer.",
    "State": "Calls that the state of a draft does not take.",
    "Carried": "What is wrong at a close, which sign tells.",
    "Whole": "A message drafted from its first call to its last.",
}
CALLS = {
    "length": "how long the buffer is", "fill": "the byte that it is filled with before the draft begins",
    "calls": "the calls, in order: call, what it is given, and what stands after it",
    "byte3, csbId, cs, mapType, mapInfo": "what head is given", "position, code, body": "what add, replace and remove are given",
    "profile, signType, length": "what close is given; " + PROFILE, "signature": "what sign is given",
    "answer": "ok; length, of what is delivered; refused; or misplaced, where the state does not take the call",
    "delivered": "the length that sign or release tells", "encoding": "the bytes that the draft then holds",
    "span": "what a signature is then over; none unless the draft is out and SIGN stands",
    "result": "taken if every call was done, else refused",
}
FILES = [
    ("walk.json", "Messages and their layout: rows and numbers, or the refusals 1 to 13; and parts by their rows, 26.",
     walk_groups, {**ROWS, "start, length": "a row's start and length", "part": "the bytes that it marks off"}),
    ("read.json", "Messages read under a profile, a key and a trust list: also the refusals 14 to 18.", read_groups,
     {**ROWS, "profile": PROFILE, "key": "the key of the tag", "trusted": "the signers on the trust list, if there is one"}),
    ("sheets.json", "Texts of sheets: what they say of each slot, or the refusals 29 to 31.", sheet_groups,
     {"sheet": "the text", "slots": "slot, least, most and rank, for each of the twelve"}),
    ("times.json", "T payloads as they stand in a message: their seconds, or the refusals 11 to 13.", time_groups,
     {"payload": "the payload with its next-payload byte", "seconds": "the 64-bit number, in hexadecimal"}),
    ("identities.json", "Key tags of a signer and a span, and signers entered into a trust list: 27 and 28.",
     identity_groups, {"key, signer, span": "what the tag is made of", "tag": "its eight bytes",
                       "entered": "the signers on the list", "signer": "the one that is entered"}),
    ("drafts.json", "Lists of calls on a draft: the answer to each, and what the draft holds after it.", draft_groups,
     {**CALLS}),
]


def refusal(words):
    number, place, detail = (int(word) for word in words)
    return {"number": number, "place": place, "detail": detail}


def fours(numbers):
    return [numbers[i:i + 4] for i in range(0, len(numbers), 4)]


def outcome(kind, line):
    """The members that tell an outcome, from a line of the program outcomes."""
    word, *rest = line.split()
    if word == "refused":
        return {"result": word, **refusal(rest)}
    numbers = [int(each) for each in rest]
    told = {"Walk": lambda: {"header": numbers[0], "span": numbers[1], "rows": fours(numbers[2:])},
            "Sheet": lambda: {"slots": fours(numbers)}, "Lookup": lambda: {"part": bytes(numbers).hex()},
            "Time": lambda: {"seconds": bytes(numbers).hex()}, "KeyTag": lambda: {"tag": bytes(numbers).hex()},
            "TrustList": dict}
    return {"result": word, **told["Walk" if kind == "Read" else kind]()}


def step(line):
    """What stands after a call, from a line of the program outcomes."""
    answer, encoding, span = (part.strip() for part in line.split(";"))
    word, *rest = answer.split()
    told = {"length": lambda: {"delivered": int(rest[0])}, "refused": lambda: refusal(rest)}.get(word, dict)()
    return {"answer": word, **told, "encoding": encoding, "span": span}


def with_outcomes(groups, lines):
    lines = iter(lines)
    for group in groups:
        for each in group["tests"]:
            if group["type"] != "Draft":
                each.update(outcome(group["type"], next(lines)))
                continue
            for made in each["calls"]:
                made.update(step(next(lines)))
            done = all(made["answer"] in ("ok", "length") for made in each["calls"])
            each["result"] = "taken" if done else "refused"


def text_of(name, about, groups, meanings):
    """The file, a test a line."""
    used = {flag for group in groups for each in group["tests"] for flag in each["flags"]}
    top = {"algorithm": "MIKEY-SAKKE I_MESSAGE", "schema": f"mikey_sakke_{name[:-5]}", "generatorVersion": VERSION,
           "numberOfTests": sum(len(group["tests"]) for group in groups), "header": [about],
           "fields": {**FIELDS, **meanings}, "notes": {flag: NOTES[flag] for flag in NOTES if flag in used}}
    out = json.dumps(top, indent=1)[:-2] + ',\n "testGroups": [\n'
    listed = []
    for group in groups:
        tests = ",\n".join("   " + json.dumps(each) for each in group["tests"])
        front = json.dumps({key: value for key, value in group.items() if key != "tests"})
        listed.append("  " + front[:-1] + ', "tests": [\n' + tests + "\n  ]}")
    return out + ",\n".join(listed) + "\n ]\n}\n"


def numbered(groups):
    number = 0
    for group in groups:
        for i, each in enumerate(group["tests"]):
            number += 1
            group["tests"][i] = {"tcId": number, **json.loads(json.dumps(each))}
    return groups


def count_lines(groups):
    """How many lines the program outcomes prints for these groups."""
    return sum(len(each["calls"]) if group["type"] == "Draft" else 1 for group in groups for each in group["tests"])


def main():
    if len(sys.argv) != 3 or sys.argv[1] not in ("inputs", "corpus"):
        sys.exit(__doc__)
    lines = iter([] if sys.argv[1] == "inputs" else pathlib.Path(sys.argv[2]).read_text().splitlines())
    folder = pathlib.Path(sys.argv[2]) if sys.argv[1] == "inputs" else TOP / "corpus"
    for name, about, make, meanings in FILES:
        groups = numbered(make())
        if sys.argv[1] == "corpus":
            with_outcomes(groups, list(itertools.islice(lines, count_lines(groups))))
        (folder / name).write_text(text_of(name, about, groups, meanings))


if __name__ == "__main__":
    main()
