"""Sizes of an object or a program, from its section headers, and the names that it leaves to others."""
import os
import struct
import subprocess


def sections(path):
    """Name, kind, flags, place, size and link of each section."""
    with open(path, "rb") as file:
        data = file.read()
    wide = data[4] == 2
    at, = struct.unpack_from("<Q" if wide else "<I", data, 0x28 if wide else 0x20)
    each, count, names = struct.unpack_from("<HHH", data, 0x3A if wide else 0x2E)
    raw = [struct.unpack_from("<IIQQQQI" if wide else "<IIIIIII", data, at + i * each) for i in range(count)]

    def text(table, place):
        begin = raw[table][4] + place
        return data[begin:data.index(b"\0", begin)].decode()
    return data, wide, raw, text, names


def sized(path):
    """Bytes of code, of constants and of variables."""
    _, _, raw, text, names = sections(path)
    sums = dict(text=0, rodata=0, data=0)
    for name, _, flags, _, _, size, _ in raw:
        if not flags & 2 or text(names, name).startswith((".ARM.ex", ".eh_frame")):
            continue
        sums["text" if flags & 4 else "data" if flags & 1 else "rodata"] += size
    return sums


def symbols(path):
    """Each symbol's name, whether it is global, and whether it is defined."""
    data, wide, raw, text, _ = sections(path)
    for _, kind, _, _, at, size, link in raw:
        for i in range(at, at + size, 24 if wide else 16) if kind == 2 else ():
            name, = struct.unpack_from("<I", data, i)
            where, = struct.unpack_from("<H", data, i + (6 if wide else 14))
            if name:
                yield text(link, name), data[i + (4 if wide else 12)] >> 4 == 1, where != 0


def wanted(path):
    """The names that are not defined."""
    return sorted(name for name, _, defined in symbols(path) if not defined)


def exported(path):
    return [name for name, outside, defined in symbols(path) if outside and defined]


def multiplies(path):
    """Of a RISC-V object: how many instructions it has, and how many of them multiply (opcode OP, funct7 1, funct3 below 4)."""
    data, _, raw, _, _ = sections(path)
    seen = products = 0
    for _, _, flags, _, at, size, _ in raw:
        end = at + size if flags & 4 else at
        while at < end:
            short = data[at] & 3 != 3
            word = 0 if short else struct.unpack_from("<I", data, at)[0]
            products += word & 0x7F == 0x33 and word >> 25 == 1 and word >> 12 & 7 < 4
            seen += 1
            at += 2 if short else 4
    return seen, products


def linked(tools, path, roots):
    """A program of what the roots keep, and no more: others' names are left open."""
    out = path + ".kept"
    keep = [word for root in roots for word in ("-u", root)]
    words = ["--gc-sections", "--unresolved-symbols=ignore-all", "-z", "norelro", "-z", "noexecstack", "-e", roots[0], *keep, path, "-o", out]
    subprocess.run([os.path.join(tools, "ld.lld"), *words], check=True, capture_output=True)
    return out


def told(tools, path):
    """A line of sizes."""
    sums = sized(path)
    line = f"{sums['text']} bytes of code, {sums['rodata']} of constants, {sums['data']} of variables"
    names = exported(path)
    for feed, start in (("tinyboot_feed", "tinyboot_start"), ("tinyboot_one_feed", "tinyboot_one_start")):
        if feed in names:
            kept = sized(linked(tools, path, [feed, start]))
            line += f"; {feed} and {start} alone {kept['text']} and {kept['rodata']}"
    return line + "; wants " + (", ".join(wanted(path)) or "nothing")
