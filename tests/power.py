"""What a disk may hold if the power goes, of a run whose calls on the files of its store were recorded by `strace`.

A call is ("write", name, bytes, place), ("flush", name), ("cut", name, size) or ("reply", how many). Of what was
written to a file since it was last forced to the disk, each write may be there, not at all or in part: some sectors of
512 bytes, some bytes, or a front; and each cut may have been made or not.
"""
import os
import re
import shutil

WANTING = "that needs `strace`, and there is none here"
CALLS = "openat,close,pwrite64,fsync,fdatasync,ftruncate,write"
WAYS = ["none", "all", "sectors", "bytes", "front"]
SECTOR = 512
MOST_BYTES = 400  # of a write whose bytes are drawn one by one
NEAR = 12  # calls around one that tells much


def is_there():
    return shutil.which("strace") is not None


def recording(path):
    """The words that stand before those of a program whose calls are recorded in a file."""
    return ["strace", "-f", "-xx", "-s", "400000", "-o", path, "-e", f"trace={CALLS}"]


def unhex(text):
    return bytes.fromhex(text.replace("\\x", ""))


def calls(path):
    """The calls that were recorded."""
    names, found = {}, []
    with open(path, encoding="latin-1") as file:
        for row in file:
            row = row.split(" ", 1)[1].strip()
            if it := re.match(r'openat\(AT_FDCWD, "([^"]*)".*= (\d+)$', row):
                names[it[2]] = os.path.basename(unhex(it[1]).decode())
            elif it := re.match(r"close\((\d+)\)", row):
                names.pop(it[1], None)
            elif it := re.match(r'pwrite64\((\d+), "([^"]*)", (\d+), (\d+)\)\s+= (\d+)', row):
                found.append(("write", names[it[1]], unhex(it[2]), int(it[4])))
            elif it := re.match(r"(?:fsync|fdatasync)\((\d+)\)\s+= 0", row):
                found.append(("flush", names.get(it[1])))
            elif it := re.match(r"ftruncate\((\d+), (\d+)\)\s+= 0", row):
                found.append(("cut", names[it[1]], int(it[2])))
            elif it := re.match(r'write\(1, "([^"]*)"', row):
                found.append(("reply", unhex(it[1]).count(b"\n")))
    return found


def put(data, at, new):
    if len(data) < at:
        data += bytes(at - len(data))
    data[at:at + len(new)] = new


def put_in_part(data, at, new, way, draw):
    """A write of which something may be missing."""
    whole = bytearray(data)
    put(whole, at, new)
    if way == "none":
        return
    data += bytes(len(whole) - len(data))
    if way == "all":
        places = [(at, at + len(new))]
    elif way == "sectors":
        sectors = range(at // SECTOR * SECTOR, at + len(new), SECTOR)
        places = [(start, min(start + SECTOR, len(whole))) for start in sectors if draw.random() < 0.5]
    elif way == "front":
        places = [(at, at + draw.randrange(len(new) + 1))]
    else:
        drawn = range(len(new)) if len(new) <= MOST_BYTES else draw.sample(range(len(new)), MOST_BYTES)
        places = [(at + it, at + it + 1) for it in drawn if draw.random() < 0.5]
    for start, stop in places:
        data[start:stop] = whole[start:stop]


def apply(data, call):
    """A call whose effect is on the disk."""
    if call[0] == "write":
        put(data, call[3], call[2])
    else:
        del data[call[2]:]


def moment(all_calls, store, draw):
    """A call before which the power goes, often near a cut or a write to the store's file, as its log is copied."""
    marks = [at for at, it in enumerate(all_calls) if it[0] == "cut" or it[0] == "write" and it[1] == store]
    if not marks or draw.random() < 0.3:
        return draw.randrange(len(all_calls) + 1)
    return max(0, min(len(all_calls), draw.choice(marks) + draw.randint(-NEAR, NEAR)))


def image(all_calls, names, draw):
    """What the files of these names may hold, and how many replies were given by then."""
    stop = moment(all_calls, names[0], draw)
    files, loose = {name: bytearray() for name in names}, {name: [] for name in names}
    for call in all_calls[:stop]:
        if call[0] == "flush" and call[1] in files:
            for it in loose[call[1]]:
                apply(files[call[1]], it)
            loose[call[1]] = []
        elif call[0] in ("write", "cut") and call[1] in files:
            loose[call[1]].append(call)
    way = draw.choice([*WAYS, None])
    for name, later in loose.items():
        for call in draw.sample(later, len(later)) if draw.random() < 0.3 else later:
            if call[0] == "write":
                put_in_part(files[name], call[3], call[2], way or draw.choice(WAYS), draw)
            elif draw.random() < 0.5:
                apply(files[name], call)
    return files, sum(call[1] for call in all_calls[:stop] if call[0] == "reply")
