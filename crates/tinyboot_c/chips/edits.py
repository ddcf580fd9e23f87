"""What is changed of the LLVM module that the kit hands to its clang, so that it can be compiled for another target. None of this is proved."""
import re

# The exported calls, as the kit writes them.
EXPORTED = re.compile(r"^define (noundef(?: zeroext)?) (\S+) @(tinyboot_\w+)\((.*)\) (#\d+) \{$")
# Not inlined, where there are such: each is called in several places, and a copy in each costs more than the calls. Another name costs size alone. One
# device's list is shorter: its constants have to reach the tests of them.
APART = ("wire_numbers::crc::crc16", "wire_numbers::le::read32", "wire_frames::fields::addr", "tinyboot_c::layout::four", "device_state::refusal::fits",
         "device_in_place::taken_out", "wire_frames::frame::well", "device_feed::kind_of", "c_layout::lay_taken", "c_layout::flag",
         "device_state::refusal::run_fits", "cmd_write::page_out")
ONE_APART = ("wire_numbers::crc::crc16", "wire_frames::fields::addr", "device_feed::kind_of", "c_layout::lay_taken", "wire_frames::frame::well",
             "store_record::boot_meta_store::refresh")
# One device does without the shorter way for a single byte: it answers whether it has taken the byte, and where it has not the byte goes the long way.
SHORTCUT = "tinyboot_c::feeding::fed_byte"
# On a small target the CRC goes byte by byte: `crc16` hands the whole message to the function that takes its last bytes, as `crc16_by_byte` does in the source,
# under the same contract. Words of 64 bits would cost more there than they save.
CRC = "wire_numbers::crc::crc16"
BY_BYTE = "wire_numbers::crc::rest"
# A slice that is copied into another asks first whether the two overlap, which they do not: one of them is a &mut. copy_from_slice alone calls it.
COPY = "core::ptr::copy_drop::copy_bits::<i8>"
MEMCPY = "declare void @llvm.memcpy.p0.p0.i64(ptr noalias writeonly, ptr noalias readonly, i64, i1 immarg)"
# The bits of a number that are set, the zeros above them and the zeros below them, by loops.
ROUND = """
define internal i32 @{name}(i32 %n{unused}) minsize optsize nounwind {{
start:
  br label %loop
loop:
  %left = phi i32 [ %n, %start ], [ %less, %more ]
  %count = phi i32 [ {first}, %start ], [ %then, %more ]
{test}
  br i1 %done, label %end, label %more
more:
{next}
  %then = add i32 %count, {by}
  br label %loop
end:
  ret i32 %count
}}
"""
LOWEST = "  %below = add i32 %left, -1\n  %less = and i32 %left, %below"
EMPTY = "  %done = icmp eq i32 %left, 0"
FOUND = "  %odd = and i32 %left, 1\n  %one = icmp eq i32 %odd, 1\n  %full = icmp eq i32 %count, 32\n  %done = or i1 %one, %full"
COUNTS = {
    "ctpop": ("bits_set", ROUND.format(name="bits_set", unused="", first=0, test=EMPTY, next=LOWEST, by=1)),
    "ctlz": ("zeros_above", ROUND.format(name="zeros_above", unused=", i1 %any", first=32, test=EMPTY, next="  %less = lshr i32 %left, 1", by=-1)),
    "cttz": ("zeros_below", ROUND.format(name="zeros_below", unused=", i1 %any", first=0, test=FOUND, next="  %less = lshr i32 %left, 1", by=1)),
}


def plain(ir):
    """Nothing of x86-64 in it."""
    ir = re.sub(r"^target (datalayout|triple) = .*\n", "", ir, flags=re.M)
    return re.sub(r' "(probe-stack|stack-probe-size|target-cpu|target-features)"="[^"]*"', "", ir)


def outside(line, bits):
    """An exported call becomes internal, and beside it stands a call of its name as the header has it: a length is a size_t, and a byte or a half word that is
    answered is widened by who answers it, as the callers of RISC-V and of Arm take for granted."""
    found = EXPORTED.match(line)
    if not found:
        return line, ""
    _, result, name, arguments, attributes = found.groups()
    taken, before, handed = [], [], []
    for argument in filter(None, arguments.split(", ")):
        kind, variable = argument.split(" noundef ")
        if kind == "i64" and bits < 64:
            taken.append(f"i{bits} noundef {variable}")
            before.append(f"  {variable}.wide = zext i{bits} {variable} to i64\n")
            handed.append(f"i64 {variable}.wide")
        else:
            taken.append(argument)
            handed.append(f"{kind} {variable}")
    answer, after, shown = result, "", "%said"
    if result == "i64" and bits < 64:
        answer, after, shown = f"i{bits}", f"  %short = trunc i64 %said to i{bits}\n", "%short"
    widened = "zeroext " if answer in ("i8", "i16") else ""
    call = f"define noundef {widened}{answer} @{name}({', '.join(taken)}) {attributes} {{\n{''.join(before)}"
    call += f"  %said = call {result} @{name}.wide({', '.join(handed)})\n{after}  ret {answer} {shown}\n}}\n"
    return f"define internal noundef {result} @{name}.wide({arguments}) {attributes} {{", call


def bytewise(ir):
    """The CRC a byte at a time."""
    taken = "(i16 noundef %a0, ptr noundef %a1, i64 noundef %a2)"
    if f'@"{BY_BYTE}"{taken}' not in ir:
        return ir
    body = f'  %said = call i16 @"{BY_BYTE}"(i16 %a0, ptr %a1, i64 %a2)\n  ret i16 %said\n}}'
    return re.sub(rf'^(define internal noundef i16 @"{CRC}"{re.escape(taken)} [^\n]*\{{\n).*?^}}$', lambda found: found.group(1) + body, ir, flags=re.M | re.S)


def copied(ir):
    """A slice copied into another, with no test for what cannot be."""
    body = "  call void @llvm.memcpy.p0.p0.i64(ptr %a1, ptr %a0, i64 %a2, i1 false)\n  ret void\n}"
    ir, found = re.subn(rf'^(define internal void @"{re.escape(COPY)}"\([^\n]*\{{\n).*?^}}$', lambda seen: seen.group(1) + body, ir, flags=re.M | re.S)
    return ir + MEMCPY + "\n" if found and "declare void @llvm.memcpy" not in ir else ir


def padded(ir):
    """A byte beside a pointer, as an Option of a reference goes by value: on a small target too the pointer stands at byte 8, where the code stores it."""
    ir = re.sub(r"((?:extract|insert)value \{ i8, ptr \} [^\n]*), 1$", r"\1, 2", ir, flags=re.M)
    return ir.replace("{ i8, ptr }", "{ i8, [7 x i8], ptr }")


def edited(ir, bits, one):
    """The module for a target whose pointers have so many bits; for one device, or for any setup."""
    lines, calls = [], []
    for line in plain(ir).split("\n"):
        line, call = outside(line, bits)
        lines.append(line)
        calls.append(call)
    ir = "\n".join(lines) + "\n" + "".join(calls)
    if bits < 64:
        ir = copied(ir)
        ir = bytewise(re.sub(r"\balign 8\b", "align 4", padded(ir).replace(" ptrtoaddr ", " ptrtoint ")))
    if one:
        ir = re.sub(rf'^(define internal [^\n]* i1 @"{re.escape(SHORTCUT)}"\([^\n]*\{{\n).*?^}}$', r"\1  ret i1 false\n}", ir, flags=re.M | re.S)
    for name in ONE_APART if one else APART:
        ir = re.sub(rf'^(define internal [^\n]*@"{re.escape(name)}"\(.*\)) (#\d+) \{{$', r"\1 noinline \2 {", ir, flags=re.M)
    return ir


def narrowed(ir):
    """Every number of 64 bits with 32: another program, which nothing proves, and whose size tells what the width costs."""
    return re.sub(r"= (?:zext|trunc)(?: nuw| nsw| nneg)* i32 (\S+) to i32", r"= or i32 \1, 0", re.sub(r"\bi64\b", "i32", ir))


def spelled(found):
    """A product by a constant as shifts and sums: for least size the back end would call a routine for it (E5)."""
    name, kind, factor, constant = found.groups()
    places = [bit for bit in range(64) if int(constant) % 2 ** int(kind[1:]) >> bit & 1]
    lines, last = [], None
    for count, bit in enumerate(places):
        lines.append(f"  {name}.shifted{bit} = shl {kind} {factor}, {bit}")
        if last:
            result = name if count + 1 == len(places) else f"{name}.sum{bit}"
            lines.append(f"  {result} = add {kind} {last}, {name}.shifted{bit}")
            last = result
        else:
            last = f"{name}.shifted{bit}"
    return "\n".join(lines) if len(places) > 1 else f"  {name} = shl {kind} {factor}, {places[0]}"


def counted(ir, bits, tables):
    """Every function for size, with tables of jumps or without, and on a small target no product by a constant and no bits counted but by these loops: the
    back end would call routines for either, and count bits with a product."""
    if bits < 64:
        ir = re.sub(r"^  (%[\w.]+) = mul(?: nuw| nsw)* (i\d+) (%[\w.]+), (-?\d+)$", spelled, ir, flags=re.M)
        for name, (what, body) in COUNTS.items():
            ir = re.sub(rf"(call [^\n]*i32 )@llvm\.{name}\.i32\(", rf"\1@{what}(", ir)
            ir += body if f"@{what}(" in ir else ""
    words = "minsize optsize" if tables else 'minsize optsize "no-jump-tables"="true"'
    return re.sub(r"^(attributes #\d+ = \{)(?!.*(?:cold|nocallback))(.*nounwind.*)\}$", rf"\1 {words}\2}}", ir, flags=re.M)
