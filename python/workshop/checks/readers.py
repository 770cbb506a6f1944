"""Every reader on each prefix of worked octets, and with each octet changed (two minutes).

Tries every reader on each prefix of worked octets, and with each octet changed to 00, to 7F and to FF.

- Of leaders, bodies, packets, frames, commands, control texts and headers of messages each row names a reader and octets, and says
  what is read. tools/calls reads all that comes of it by the crates' own calls, also with each bit changed.
- Topologies and scripts are given to the program, whole, and what it prints, its status and its words are compared. Of a
  topology each prefix is also tried with the marker after it.

What has to come of each was written down beforehand: of the rows by hand here, of all that comes of them by an independent reading of
the formats in Python (python/dorydate/model/formats.py, python/dorydate/model/inputs.py), which has to read the rows as they say. Each fault of a
reader has to be met.

It takes the proved program, or where ./build has not made that the one that was built without proofs: ./check readers
"""

from __future__ import annotations

import os
import shutil
import tempfile
from collections import Counter
from collections.abc import Iterator
from concurrent.futures import ThreadPoolExecutor
from typing import TypeVar

from dorydate.model.bits import Bits, bits_of, spell_bits
from dorydate.model.runs import End
from dorydate.model.inputs import ends
from workshop.builds.drivers import run_cases, write_case
from workshop.checks.format_rows import open_formats
from workshop.checks.net_rows import open_net
from workshop.checks.reader_rows import OF_BITS, READERS, TEXTS, open_readers, said_of
from workshop.checks.readings import read_stored
from workshop.limited import run_within
from workshop.parts import any_program
from workshop.rows import spelled
from workshop.tools import left_out

Row = TypeVar("Row", bytes, Bits)
SECONDS = 60  # of the processor, for one input
CHANGES = b"\x00\x7f\xff"

STRIPES = "A5C3" * 31 + "A5"  # 63 octets
RTS, STR, CLS = "01000000100000002105", "02000000210000001008", "030000001000000021"
ALL, RET = "0405000200000064", "0605000100000064"
ERR = "0B030007000100FE00000000"
EMPTY, RFNM, DEAD = "0001020500008000108000", "010102050000800000", "0241FFFF7FFF800000"
ASK, NEVER = "030102090000800000", "040102090000800000"
REQUEST = "000103000000800080" + "0008000A00" + RTS + "80"
FIRST, LAST = "000182050103" + "0003F0" + STRIPES * 2, "000182050103" + "87" + "0020" + "A5C38000"
DISTANCES = "010001" + "3F" * 60

# a reader, octets (of bits their number before them), and what is read
WORKED = [
    ("from_host", "00020500", "regular 0/2 5 = 00020500"), ("from_host", "F0C2FF99AB", "regular 3/2 255 = 00C2FF00"),
    ("from_host", "04000000", "nop = 04000000"), ("from_host", "02000500", "unknown type 2"),
    ("from_imp", "00410500", "regular 1/1 5 = 00410500"), ("from_imp", "05020500", "rfnm 0/2 5 = 05020500"),
    ("from_imp", "07BF0000", "dead 2/63 0 = 07BF0000"), ("from_imp", "39020507FF00", "incomplete 0/2 5 = 09020500"),
    ("from_imp", "84010203", "nop = 04000000"),
    ("body", "16 8000", "0 - = 16 8000"),
    ("body", "32 41424380", "24 414243 = 32 41424380"),
    ("body", "48 414200008000", "32 41420000 = 48 414200008000"),
    ("body", "48 FFFF00000000", "15 FFFE = 16 FFFF"),
    ("packet", EMPTY, "data 0/1 0/2 5 0 0 last 16 8000 = " + EMPTY),
    ("packet", RFNM, "rfnm 0/1 0/2 5 0 0 last 0 - = " + RFNM),
    ("packet", DEAD, "dead 1/1 3/63 255 32767 0 last 0 - = " + DEAD),
    ("packet", ASK, "ask 0/1 0/2 9 0 0 last 0 - = " + ASK),
    ("packet", NEVER, "never 0/1 0/2 9 0 0 last 0 - = " + NEVER),
    ("packet", "050102090000800000", "packet not canonical"),
    ("packet", "0301020900008000108000", "bad packet length"),
    ("packet", "040102090000000000", "packet not canonical"),
    ("packet", "0100020900FF800000", "packet not canonical"),
    ("packet", "0101020500800000", "short packet"),
    ("packet", REQUEST, f"data 0/1 0/3 0 0 0 last 128 0008000A00{RTS}80 = {REQUEST}"),
    ("packet", FIRST, f"data 0/1 2/2 5 259 0 more 1008 {STRIPES * 2} = {FIRST}"),
    ("packet", LAST, f"data 0/1 2/2 5 259 7 last 32 A5C38000 = {LAST}"),
    ("frame", "F20101", "acknowledgements 0 = F20101"),
    ("frame", "F201FF", "acknowledgements 01234567 = F201FF"),
    ("frame", "F20100", "acknowledgements  = F20100"),
    ("frame", "F2000007" + EMPTY, "packet  on 7 under 0 data 0/1 0/2 5 0 0 last 16 8000 = F2000007" + EMPTY),
    ("frame", "F200A508" + RFNM, "packet 0257 on 0 under 1 rfnm 0/1 0/2 5 0 0 last 0 - = F200A508" + RFNM),
    ("frame", "F200800F" + DEAD, "packet 7 on 7 under 1 dead 1/1 3/63 255 32767 0 last 0 - = F200800F" + DEAD),
    ("frame", "F2000001" + ASK, "packet  on 1 under 0 ask 0/1 0/2 9 0 0 last 0 - = F2000001" + ASK),
    ("frame", "F2000200" + NEVER, "packet 1 on 0 under 0 never 0/1 0/2 9 0 0 last 0 - = F2000200" + NEVER),
    ("frame", "F2000000" + FIRST, f"packet  on 0 under 0 data 0/1 2/2 5 259 0 more 1008 {STRIPES * 2} = F2000000{FIRST}"),
    ("frame", "F20200" + DISTANCES, "routes  1 0 1" + " 63" * 60 + " = F20200" + DISTANCES),
    ("frame", "F2020F" + bytes(range(63)).hex().upper(), f"routes 0123 {' '.join(map(str, range(63)))} = F2020F{bytes(range(63)).hex().upper()}"),
    ("frame", "F20200" + "40" + "3F" * 62, "not canonical"),
    ("frame", "F20200" + "40" + "3F" * 61, "short"),
    ("frame", "0101", "bad version"),
    ("frame", "F1", "bad version"),
    ("frame", "0200010001" + "10" * 13, "bad version"),
    ("command", "00", "NOP (00)"),
    ("command", RTS, f"RTS 16 33 5 ({RTS})"),
    ("command", STR, f"STR 33 16 8 ({STR})"),
    ("command", CLS, f"CLS 16 33 ({CLS})"),
    ("command", ALL, f"ALL 5 2 100 ({ALL})"),
    ("command", "050540C8", "GVB 5 64 200 (050540C8)"),
    ("command", RET, f"RET 5 1 100 ({RET})"),
    ("command", "0705", "INR 5 (0705)"),
    ("command", "0805", "INS 5 (0805)"),
    ("command", "0941", "ECO 65 (0941)"),
    ("command", "0A41", "ERP 65 (0A41)"),
    ("command", ERR, f"ERR 3 0007000100FE00000000 ({ERR})"),
    ("command", "0C", "RST (0C)"),
    ("command", "0D", "RRP (0D)"),
    ("command", "0EFF", "illegal code 2"),
    ("command", "01000000110000002105", "erroneous 10"),
    ("command", STR[:-2] + "00" + "0705", "erroneous 10"),
    ("commands", RTS + ALL + "00" + "0941", f"RTS 16 33 5 ({RTS}), ALL 5 2 100 ({ALL}), NOP (00), ECO 65 (0941), end"),
    ("commands", STR + "050540C8" + RET + CLS, f"STR 33 16 8 ({STR}), GVB 5 64 200 (050540C8), RET 5 1 100 ({RET}), CLS 16 33 ({CLS}), end"),
    ("commands", "01000000100000002120" + "0705" + "0805", "erroneous 10, INR 5 (0705), INS 5 (0805), end"),
    ("commands", "0C" + ERR + "0D" + "0E" + "0941", f"RST (0C), ERR 3 0007000100FE00000000 ({ERR}), RRP (0D), illegal code 3"),
    ("commands", "0A41" + "0405", "ERP 65 (0A41), short 2"),
    ("header", "72 002000010000000064", "1 32 = 40 0020000100"),
    ("header", "40 0000000000", "0 0 = 40 0000000000"),
    ("header", "120 0008000A00" + RTS, "10 8 = 40 0008000A00"),
    ("header", "54 FF070002FFABCC", "2 7 = 40 0007000200"),
    ("header", "64 0008000200414243", "2 8 = 40 0008000200"),
]


def with_changes(octets: bytes) -> Iterator[bytes]:
    """Octets with each of them changed to each value of CHANGES."""
    for place in range(len(octets)):
        yield from (octets[:place] + bytes([value]) + octets[place + 1 :] for value in CHANGES)


def with_flips(octets: bytes) -> Iterator[bytes]:
    """Octets with each bit changed."""
    for place, octet in enumerate(octets):
        yield from (octets[:place] + bytes([octet ^ 1 << bit]) + octets[place + 1 :] for bit in range(8))


def prefixes(row: Row) -> Iterator[Row]:
    """A list of octets or bits, and each shorter prefix of it."""
    yield row
    yield from (row[:length] for length in range(len(row)))


def octets_around(octets: bytes) -> list[bytes]:
    return [*prefixes(octets), *with_changes(octets), *with_flips(octets)]


def bits_around(bits: int, octets: bytes) -> list[Bits]:
    changed = (bits_of(it)[:bits] for it in [*with_changes(octets), *with_flips(octets)])
    return [*prefixes(bits_of(octets)[:bits]), *changed]


def rows_of(reader: str, spelled_row: str) -> list[tuple[str, str]]:
    """What comes of a row: rows for tools/calls, each with what it has to answer, the row itself first."""
    *bits, digits = spelled_row.split()
    octets = bytes.fromhex(digits)
    if reader in OF_BITS:
        return [(f"{reader} {spell_bits(it)}", said_of(reader, it)) for it in bits_around(int(bits[0]), octets)]
    return [(f"{reader} {it.hex().upper() or '-'}", said_of(reader, it)) for it in octets_around(octets)]


def faults_in(reader: str, answer: str) -> Iterator[str]:
    """The faults that an answer names."""
    return (fault for fault in TEXTS[reader].values() if answer.startswith(fault) or f", {fault}" in answer)


def check_octets() -> int:
    """How many rows are read otherwise by the second reading or by the code."""
    wrong, met, total = 0, {reader: Counter[str]() for reader in READERS}, 0
    with tempfile.TemporaryDirectory() as folder:
        for number, (reader, spelled_row, wanted) in enumerate(WORKED, 1):
            rows = rows_of(reader, spelled_row)
            if rows[0][1] != wanted:
                wrong += 1
                print(f"{reader} {spelled_row}: {wanted} has to be read, and the second reading gives {rows[0][1]}")
            lines = (line for call, answer in rows for line in spelled(call, [answer]))
            write_case(folder, f"row-{number:02}-{reader}", ["readers", *lines])
            met[reader].update(fault for _, answer in rows for fault in faults_in(reader, answer))
            total += len(rows)
        said = run_cases(folder)
    for reader, faults in TEXTS.items():
        unmet = set(faults.values()) - met[reader].keys()
        wrong += len(unmet)
        print(f"  {reader}: {dict(sorted(met[reader].items()))}" + (f", never {unmet}" if unmet else ""))
    if said is not None:
        wrong += 1
        print(said)
    print(f"check readers: {total} octet sequences around {len(WORKED)} worked ones")
    return wrong


# ---- topologies and scripts

TOPOLOGY = b"""carrier = "subnet"
raw = true
[[imp]]
id = 1
hosts = 2
[[imp]]
id = 63
hosts = 1
[[line]]
a = 1
b = 63
"""
RAW = TOPOLOGY + b"""%
calm 2
out 0/1 0/63 5 12 A5C0
drop 0 + 0
resend 1
deliver 0 + 0
take 0/63
route 63
enddown 1 0
endup 1 0
hostdown 0/63

# \xe2\x98\x85
out 1/1 0/1 255 0 -
take 0/1
ask 0/1 0/63 5
giveup 0/1 0/63 5
abandon 0/1 0/63 5
hostup 0/63
impdown 63
impup 63
forget 1 63
calm 12
"""
PLAIN = b"""carrier = "plain"
[[imp]]
id = 1
hosts = 1
[[imp]]
id = 2
hosts = 1
%
"""
WORLD = PLAIN + b"""contact 0/1 0/2
calm 3
listen 0/2 33 8
openrecv 0/1 0/2 16 33
calm 2
grant 0/1 16 2 100
send 0/2 33 16 4142
offer 0/2
take 0/1
askback 0/1 16 128 64
interrupt 0/1 16
echo 0/1 0/2 65
opensend 0/1 0/2 17 18 8
close 0/1 16
calm 2
"""
SERVICES = PLAIN + b"""server 0/2 7 100
contact 0/1 0/2
calm 3
user 0/1 0/2 7 16
calm 9
type 0/1 A ~
type 0/1 
calm 9
"""
OPTIONS = ["--book"]
WHOLE = {"a raw script": RAW, "a script of a world": WORLD, "services": SERVICES}


def inputs() -> Iterator[tuple[str, bytes]]:
    """Each input, with what is tried."""
    for name, octets in WHOLE.items():
        for number, it in enumerate([*prefixes(octets), *with_changes(octets)]):
            yield f"{name}, {number}", it
    for name, octets in (("a topology cut off", TOPOLOGY), ("another", PLAIN.removesuffix(b"%\n"))):
        for length in range(len(octets)):
            yield f"{name} after {length} octets", octets[:length] + b"\n%\n"


def check_inputs(program: str) -> int:
    """How many inputs the program ends otherwise on than the second reading says."""

    def run(octets: bytes) -> End:
        ran = run_within([program, *OPTIONS], octets, SECONDS)
        return ran.returncode, ran.stdout.decode(), ran.stderr.decode()

    tried, wrong, seen = list(inputs()), 0, Counter[str]()
    with ThreadPoolExecutor(os.cpu_count() or 1) as threads:
        for (name, octets), found in zip(tried, threads.map(run, (octets for _, octets in tried))):
            wanted = ends(octets, OPTIONS)
            seen[wanted[2].split(" line")[0].strip() or "replayed"] += 1
            if found != wanted:
                wrong += 1
                print(f"{name}: {octets!r}\nfound  {found}\nwanted {wanted}")
    print(f"check readers: {len(tried)} inputs around {len(WHOLE)} scripts and their topologies: {dict(sorted(seen.items()))}")
    return wrong


def main() -> int:
    program = any_program()
    if program is None:
        print("check readers: there is no program of these sources")
        return 1
    wrong = check_inputs(program) + (not read_stored("readers", open_readers, "readers"))
    wrong += (not read_stored("readers", open_formats, "bits", "writers", "allocation")) + (not read_stored("readers", open_net, "boxes"))
    if shutil.which("rt"):
        wrong += check_octets()
    else:
        left_out("readers", "calls of the readers themselves", "the toolchain's rt is not here")
    print(f"check readers: {wrong} wrong" if wrong else "check readers: each is read as it should be")
    return 1 if wrong else 0
