"""What a script reaches, counted on the device of model.py: answers, replies, reasons for silence, both sides of every limit, states of the record, refusals,
lines. A limit's side is counted where that limit alone decides. `wanted` has every point that the stored run of `bench` must reach (make-bench)."""
from collections import Counter

import model
from model import ADDRESS, BAUD, CHECKSUM, COMMAND, DATA, FLAGS, KEY_UNSET, LENGTH, POSITION, RECEIVED_CRC, SELECT, SIZE, STATE, STATUS, TRIALS, low_first

COMMANDS = ("Info", "Erase", "Write", "Verify", "Reset", "Select")
STATUSES = ("Request", "Ok", "WriteError", "CrcMismatch", "AddrOutOfBounds", "Unsupported", "PayloadOverflow", "Incompatible")
MODES = ("hand-off", "Service")
START_KINDS = ("present", "careful")


def state_name(byte):
    return {0xFF: "FF", 0x7F: "7F", 0x3F: "3F"}.get(byte, "another above 3F" if byte > 0x3F else "another below 3F")


STATE_NAMES = ("FF", "7F", "3F", "another above 3F", "another below 3F")
# What reads as Updating.
ODD_OR_UPDATING = ("7F", "another above 3F", "another below 3F")


class Counted(model.Device):
    """The device, with each call's points put down in `seen`."""

    def __init__(self, setup, seen):
        super().__init__(setup)
        self.seen = seen
        self.ended_in_aa = False
        # The request whose rewrite was last cut, and after how many steps; no start or frame has come since.
        self.was_cut = None
        # The mode asked for and the early answer, where nothing has come since.
        self.told = None
        self.of_setup()

    def note(self, group, *points):
        """While the app runs a group is another."""
        if self.app_version is not None:
            group = "app " + group
        for point in points:
            self.seen[group, str(point)] += 1

    # Refusals

    def of_setup(self):
        """Which numbers of the setup are wrong; a limit's side where the others are right."""
        setup = self.setup
        wrong = {"erase size": not (setup.erase_size % 64 == 0 and 64 <= setup.erase_size <= 32768),
                 "capacity": not 0 < setup.capacity <= 65536 or setup.erase_size != 0 and setup.capacity % setup.erase_size != 0, "id length": setup.id_length > 16,
                 "kind of start": setup.start_kind > 1}
        self.kind_alone = [name for name, bad in wrong.items() if bad] == ["kind of start"]
        for name, value in (("erase size", setup.erase_size), ("capacity", setup.capacity), ("id length", setup.id_length), ("kind of start", setup.start_kind)):
            if not any(bad for other, bad in wrong.items() if other != name):
                self.note("setup", f"{name} {value}")
                if name == "capacity" and setup.erase_size and setup.capacity % setup.erase_size and setup.capacity % 64 == 0:
                    self.note("setup", "capacity a multiple of 64 alone")

    def reasons(self, of_start):
        setup, state = self.setup, self.state
        found = [10] if not (setup.good if self.app_version is None else setup.good_for_app) else []
        if not of_start and not state.well_formed(setup.capacity):
            found.append(11)
        found += [12] if self.flash_lent != setup.capacity and self.app_version is None else []
        found += [13] if self.record_lent != 12 else []
        if not of_start:
            found += [14] if self.room_lent < 64 else []
            found += [15] if not state.open else []
        return found

    def refusal(self, of_start):
        found, setup = self.reasons(of_start), self.setup
        name = "start refused" if of_start else "refused"
        if len(found) == 1:
            self.note(name, f"{found[0]} alone", *(["10 by the kind of start alone"] if self.kind_alone and found == [10] else []))
        if not found and self.kind_alone:
            self.note("setup", "a kind of start above 1")
        for n, one in enumerate(found):
            self.note(name, *(f"{one} before {two}" for two in found[n + 1:]))
        if set(found) <= ({12} if self.app_version is None else set()):
            self.note("flash lent", f"capacity {self.flash_lent - setup.capacity:+d}")
        if set(found) <= {13}:
            self.note("record lent", self.record_lent)
        if set(found) <= {14} and not of_start:
            self.note("room lent", self.room_lent)
        if of_start and not found:
            if self.room_lent < 64:
                self.note("start refused", "not by a room below 64")
            if self.was_bad:
                self.note("start refused", "not by a state that is none")
        if not of_start and set(found) <= {11}:
            self.of_state()
        return super().refusal(of_start)

    def of_state(self):
        """The run and the frame begun, where only one of them can be wrong."""
        state, frame, capacity = self.state, self.state.frame, self.setup.capacity
        fill, next, begun = state.fill, state.next, state.begun
        run = fill == 0 if next is None else fill < 64 and next <= capacity and next % 64 == fill
        length = low_first(frame[LENGTH:DATA])
        tests = [("AA", begun < 1 or frame[0] == 0xAA), ("55", begun < 2 or frame[1] == 0x55), ("command", begun < 10 or frame[COMMAND] <= 5),
                 ("status", begun < 10 or frame[STATUS] <= 7), ("length", begun < 10 or length <= 52), ("place", begun < 10 or begun < 12 + length)]
        wrong = [name for name, good in tests if not good]
        if not wrong:
            if next is None:
                self.note("run", "none, fill 0" if fill == 0 else "none, fill not 0")
            else:
                if next % 64 == fill % 64 and next <= capacity:
                    self.note("run", f"fill {fill}")
                if fill < 64 and next % 64 == fill:
                    self.note("run", f"next at capacity {next - capacity:+d}" if abs(next - capacity) <= 64 else "next elsewhere")
                if fill < 64 and next <= capacity:
                    self.note("run", f"next mod 64 {'is' if next % 64 == fill else 'is not'} fill")
        if run:
            if len(wrong) == 1:
                self.note("frame begun", f"{wrong[0]} alone wrong")
                if wrong[0] == "place":
                    self.note("frame begun", f"at its end {begun - length - 12:+d}")
            elif not wrong:
                self.note("frame begun", begun)
                if begun >= 10:
                    self.note("frame begun", f"at its end {begun - length - 12:+d}")
            if begun >= 10 and set(wrong) <= {"command"}:
                self.note("frame begun", f"command {frame[COMMAND]}")
            if begun >= 10 and set(wrong) <= {"status"}:
                self.note("frame begun", f"status {frame[STATUS]}")
            if begun >= 10 and set(wrong) <= {"length"}:
                self.note("frame begun", f"length {length}")
            if begun == 1 and frame[1] != 0x55 or 2 <= begun < 10 and frame[COMMAND] > 5:
                self.note("frame begun", "bytes not yet read do not count")

    # Reading

    def feed(self, piece):
        state = self.state
        open_before = not self.reasons(False)
        self.told = None
        if self.was_cut and open_before:
            self.note("cut", "a frame behind it, and no start between")
            self.was_cut = None
        if open_before:
            self.hunted(piece)
        result = super().feed(piece)
        number, taken = result[:2]
        self.note("answer", number)
        if number <= 3:
            self.note("piece", "empty" if not piece else "one byte" if len(piece) == 1 else "longer")
            if number:
                self.note("piece", "ended with the frame" if taken == len(piece) else "went on behind the frame")
            else:
                self.note("begun at a call's end", state.begun)
            if piece:
                self.ended_in_aa = number != 0 and piece[taken - 1] == 0xAA
        return result

    def hunted(self, piece):
        begun, twice = self.state.begun, False
        if begun == 0 and self.ended_in_aa and piece[:1] == b"\x55":
            self.note("reading", "55 behind the AA that ended a frame")
        for byte in piece:
            if begun >= 2:
                break
            if begun == 1 and byte == 0x55:
                begun = 2
                if twice:
                    self.note("reading", "AA AA 55")
            elif byte == 0xAA:
                begun, twice = 1, begun == 1
            else:
                if begun == 1:
                    self.note("reading", "AA and no 55")
                begun = 0

    def header_read(self):
        frame = self.state.frame
        command, status, length = frame[COMMAND], frame[STATUS], low_first(frame[LENGTH:DATA])
        whom = "addressed" if self.setup.addressed else "unaddressed"
        if status <= 7 and (status == 0 or command <= 5):
            self.note("header", f"{whom}: command {command}") if command in (0, 1, 2, 3, 4, 5, 6, 255) else None
        if command <= 5:
            self.note("header", f"{whom}: status {status}") if status in (*range(9), 255) else None
            if status <= 7 and length in (0, 52, 53, 256, 0xFFFF):
                self.note("header", f"{whom}: length {length}, {'a request' if status == 0 else 'overheard'}")
        if command > 5 and length > 52:
            self.note("header", "no command and too long")
        if command > 5 and 0 < status <= 7:
            self.note("header", "no command, and a reply")
        if command <= 5 and status > 7 and length > 52:
            self.note("header", "no status and too long")
        return super().header_read()

    def frame_read(self, data_end):
        frame = self.state.frame
        received, right = low_first(frame[RECEIVED_CRC:]), model.crc(frame[:data_end])
        what = "right" if received == right else "low byte wrong" if received >> 8 == right >> 8 else "high byte wrong" if received & 0xFF == right & 0xFF else "both wrong"
        self.note("CRC", f"{'a request' if frame[STATUS] == 0 else 'overheard'}: {what}")
        return super().frame_read(data_end)

    def answer(self, ended):
        self.command = self.state.frame[COMMAND]
        if self.setup.addressed and ended == 1 and self.command != SELECT:
            self.note("select", f"{COMMANDS[self.command]} {'selected' if self.state.selected else 'not selected'}")
        if self.setup.addressed and ended > 1:
            self.note("select", f"an error is silence {'selected' if self.state.selected else 'not selected'}")
        whom, found, frame = "addressed" if self.setup.addressed else "unaddressed", self.silences(), bytes(self.state.frame[:DATA])
        result = super().answer(ended)
        why = result[4]
        if why:
            self.note("silent", model.WHY_NAMES[why])
            others = [str(one) for one in found if one != why]
            self.note("silence", f"{whom}: {why} {'before ' + ' and '.join(others) if others else 'alone'}")
            if why == model.UNREADABLE_FRAME:
                self.note("silence", f"{whom}: 2 by its {'command' if frame[COMMAND] > 5 else 'status' if frame[STATUS] > 7 else 'length'}")
        return result

    def silences(self):
        """The reasons for silence that apply to the frame that has ended, each looked at by itself. A Select's is of what stands in the data area."""
        frame, bits = self.state.frame, 8 * self.setup.id_length
        command, status, length = frame[COMMAND], frame[STATUS], low_first(frame[LENGTH:DATA])
        found = [model.OVERHEARD_REPLY] if status != model.REQUEST else []
        if command > 5 or status > 7 or length > 52:
            found.append(model.UNREADABLE_FRAME)
        elif low_first(frame[RECEIVED_CRC:]) != model.crc(frame[:DATA + length]):
            found.append(model.WRONG_CRC)
        if self.setup.addressed and command != SELECT and not self.state.selected:
            found.append(model.NOT_SELECTED)
        count, prefix = frame[DATA + 1], bytes(frame[DATA + 2:DATA + 18])
        if self.setup.addressed and command == SELECT and (count > bits or any(model.bit(prefix, k) != model.bit(self.setup.id, k) for k in range(count))):
            found.append(model.SELECT_WITHOUT_MATCH)
        return found

    def reply(self, status=model.OK, payload=b"", wait=0, number=model.REPLY, mode=model.SERVICE):
        name = COMMANDS[self.command] if self.command <= 5 else "no command"
        self.note("reply", f"{name} {STATUSES[status]}")
        self.note("status", status)
        if wait:
            self.note("wait", wait)
        elif self.command == SELECT and status == model.OK:
            self.note("wait", 0)
        if number == model.RESTART:
            self.note("restart", MODES[mode])
        return super().reply(status, payload, wait, number, mode)

    # Commands

    def erase(self):
        setup, frame, record = self.setup, self.state.frame, self.record
        size, capacity = setup.erase_size, setup.capacity
        address, count, length = self.address(), low_first(frame[DATA:DATA + 2]), low_first(frame[LENGTH:DATA])
        wrong = [name for name, bad in (("address", address % size), ("count", count % size), ("count 0", count == 0), ("end", address + count > capacity)) if bad]
        state = state_name(record[STATE])
        if not wrong:
            self.note("Erase", f"range right, state {state}", "end at capacity" if address + count == capacity else "end below capacity")
            self.note("Erase", *(["whole flash"] if count == capacity else []), *(["a run is open"] if self.state.next is not None else []))
            self.note("Erase", f"range right, length {length if length <= 2 else 'above 2'}")
            self.note("Erase state byte", f"{record[STATE]:02X}")
            if state == "3F" and record[POSITION] != 0xFF:
                self.note("Erase", "from Validating, over a position" + (" that a Reset stored" if self.placed else ""))
            if self.flash[address:address + count] != b"\xFF" * count:
                self.note("Erase", "cells that were not FF")
        elif len(wrong) == 1:
            self.note("Erase", f"refused by {wrong[0]} alone, state {state}")
            if wrong[0] == "end":
                self.note("Erase", "end one block above" if address + count == capacity + size else "end further above")
            if wrong[0] == "count":
                self.note("Erase", "count a multiple of 64 alone" if count % 64 == 0 else "count no multiple of 64")
            if wrong[0] == "address":
                self.note("Erase", "address a multiple of 64 alone" if address % 64 == 0 else "address no multiple of 64")
        return super().erase()

    def write(self):
        state, frame, capacity = self.state, self.state.frame, self.setup.capacity
        address, length, flush = self.address(), low_first(frame[LENGTH:DATA]), frame[FLAGS] & 0x80
        wrong = []
        if self.boot_state() != model.UPDATING:
            wrong.append("state")
        right_place = address % 64 == 0 if state.next is None else address == state.next
        wrong += ["place"] if not right_place else []
        wrong += ["end"] if address + length > capacity else []
        run = "no run" if state.next is None else "a run"
        if set(wrong) <= {"state"}:
            self.note("Write", f"{'refused by' if wrong else 'taken,'} state {state_name(self.record[STATE])}")
        if not wrong:
            end = state.fill + length
            self.note("Write", f"{run}, right place", f"length {length}" if length in (0, 1, 51, 52) else "another length")
            self.note("Write", f"{run}, end at capacity" if address + length == capacity else "end below capacity")
            self.note("Write", f"flags {frame[FLAGS]:02X}" if frame[FLAGS] in (0, 0x7F, 0x80, 0xFF) else "other flags")
            self.note("Write", f"page to {end}" if end in (63, 64, 65) else "page elsewhere")
            if flush:
                self.note("Write", "flush of nothing" if end % 64 == 0 else "flush of a rest")
            self.note("Write fill before", state.fill)
            self.note("Write fill after", 0 if flush else end % 64)
            begin = address - state.fill
            if any(byte != 0xFF for byte in self.flash[begin:begin + state.fill + length]):
                self.note("Write", "over cells that are not FF")
        elif wrong == ["place"]:
            off = address % 64 if state.next is None else address - state.next
            self.note("Write", f"{run}, refused by place alone")
            if state.next is None:
                self.note("Write", f"no run, off a page's start by {off}" if off in (1, 32, 63) else "no run, further off")
            else:
                self.note("Write", f"a run, off its end by {off:+d}" if abs(off) == 1 else "a run, at a page's start" if address % 64 == 0 else "a run, further off")
        elif wrong == ["end"]:
            self.note("Write", f"{run}, end {'one' if address + length == capacity + 1 else 'further'} above capacity")
        elif wrong[0] == "state":
            self.note("Write", "refused by state before place or end")
        return super().write()

    def verify(self):
        setup, size, capacity, state = self.setup, self.address(), self.setup.capacity, state_name(self.record[STATE])
        if self.boot_state() != model.UPDATING:
            self.note("Verify", f"refused by state {state}", *(["refused by state before size"] if size == 0 or size > capacity else []))
            return super().verify()
        self.note("Verify", f"taken, state {state}")
        key = "no key" if setup.key == KEY_UNSET else "a key"
        for name, value in (("0", 0), ("1", 1), ("capacity", capacity), ("capacity + 1", capacity + 1)):
            if size == value:
                self.note("Verify", f"{key}, size {name}")
        if size > 65536:
            self.note("Verify", f"{key}, size above 16 bits")
        if 0 < size <= capacity and setup.key != KEY_UNSET:
            at = (size - 6) % 2**32
            found = low_first(self.flash[at:at + 4]) if at < 65596 else None
            if 1 < size <= 10:
                self.note("Verify", f"a key, size {size}")
            self.note("Verify", "a key, at no multiple of 4" if at % 4 else "a key, its place below 0" if at >= capacity else
                      "a key, right" if found == setup.key else f"a key, wrong in byte {first_byte(found ^ setup.key)}")
            if at == capacity - 8 and found == setup.key:
                self.note("Verify", "a key, in the last place")
            if at % 4 and found == setup.key:
                self.note("Verify", "a key, right but at no multiple of 4")
        if self.record[TRIALS] != 0xFF or self.record[BAUD] != 0xFF:
            self.note("Verify", "over a record with trials or baud")
        if self.state.next is not None:
            self.note("Verify", "a run is open")
        result = super().verify()
        if self.record[STATE] == model.VALIDATING and self.record[POSITION] != 0xFF:
            self.note("Verify", "recorded over a position" + (" that a Reset stored" if self.placed else ""))
        return result

    def info(self):
        size, capacity = self.size(), self.setup.capacity
        names = {0: "0", 1: "1", 2: "2", 3: "3", capacity - 1: "capacity - 1", capacity: "capacity", capacity + 1: "capacity + 1", capacity + 2: "capacity + 2", 0xFFFFFFFF: "none"}
        self.note("Info", f"size {names.get(size, 'elsewhere, below' if size < capacity else 'elsewhere, above')}")
        baud = self.record[BAUD]
        self.note("Info", f"baud {baud}" if baud in (0, 13, 14, 255) else "another baud")
        if low_first(self.state.frame[LENGTH:DATA]):
            self.note("Info", "with data")
        return super().info()

    def reset(self):
        flags, baud, position = self.state.frame[FLAGS], self.state.frame[ADDRESS], self.state.frame[ADDRESS + 1]
        app = "an app" if self.app_present() else "no app"
        mode = "to Service" if flags & 1 else "hand-off"
        state = state_name(self.record[STATE])
        self.note("Reset", f"{mode}, {app}, state {state}", f"flags {flags & 7}{', others set' if flags & 0xF8 else ''}")
        was, placed = self.record[POSITION], self.placed
        result = super().reset()
        taken = result[0] == model.RESTART
        self.note("Reset", f"flags {flags & 7} {'accepted' if taken else 'refused'}")
        if flags & 2:
            self.note("Reset", f"baud {baud} stored" if taken and baud in (0, 13, 14, 255) else "another baud stored" if taken else "baud not stored, refused")
        if flags & 4:
            self.note("Reset", f"position {position} stored" if taken and position in (0, 15, 255) else "another position stored" if taken else "position not stored, refused")
        if taken and was != 0xFF:
            self.note("Reset", f"a position {'stored over another' if flags & 4 and position != was else 'stored again' if flags & 4 else 'kept'}" + (", that a Reset stored" if placed else ""))
        return result

    # The app

    def run_app(self, version):
        held = self.state.begun, self.state.next, self.state.selected, not self.state.open
        if self.app_version is None:
            self.seen["app", "over the bootloader, " + ("closed" if held[3] else "open")] += 1
        super().run_app(version)
        self.note("begins", *(name for name, was in (("over a frame begun", held[0]), ("over a run", held[1] is not None), ("over a selection", held[2]), ("closed before", held[3])) if was))

    def app_answer(self, command):
        record, frame = self.record, self.state.frame
        if command == model.INFO:
            version, baud = self.app_version, record[BAUD]
            self.note("Info", f"version {version:04X}" if version in (0, 0xFFFF) else "another version", f"baud {baud}" if baud in (0, 13, 14, 255) else "another baud",
                      f"state {state_name(record[STATE])}", *(["with data"] if low_first(frame[LENGTH:DATA]) else []),
                      *(["an image with a version in the flash"] if 2 <= self.size() <= self.setup.capacity and self.flash[self.size() - 2:self.size()] != b"\xFF\xFF" else []))
        return super().app_answer(command)

    def app_reset(self):
        record, frame = self.record, self.state.frame
        flags, baud, stored = frame[FLAGS], frame[ADDRESS], record[BAUD]
        mode = "to Service" if flags & 1 else "hand-off"
        self.note("Reset", f"flags {flags & 7}{', others set' if flags & 0xF8 else ''}", f"{mode}, state {state_name(record[STATE])}",
                  f"{mode}, {'an app' if self.app_present() else 'no app'} in the flash")
        if flags & 2:
            self.note("Reset", "baud stored already" if baud == stored else f"baud {baud} stored" if baud in (0, 13, 14, 255) else "another baud stored")
        elif baud != stored:
            self.note("Reset", "another baud, not stored without bit 1")
        if record[POSITION] != 0xFF and flags & 4 and frame[ADDRESS + 1] != record[POSITION]:
            self.note("Reset", "bit 2 over a position")
        if low_first(frame[LENGTH:DATA]):
            self.note("Reset", "with data")
        result = super().app_reset()
        self.note("restart", MODES[result[3]])
        return result

    def of_call(self, name):
        """Where one of the app's own calls is made."""
        state = self.state
        self.note(name, f"record of {self.record_lent}", *(where for where, so in (("inside a frame", state.begun), ("closed", not state.open)) if so))
        for others, so in (("setup", not self.setup.good_for_app), ("room", self.room_lent < 64), ("state", not state.well_formed(self.setup.capacity))):
            if so and self.record_lent == 12:
                self.note(name, f"not refused by the {others}")

    def confirm(self):
        record = bytes(self.record)
        self.of_call("confirm")
        result = super().confirm()
        if result != 13:
            self.note("confirm", f"state {state_name(record[STATE])}: {result}")
        if result == 1:
            self.note("confirm", f"trials {record[TRIALS]:02X}" if record[TRIALS] in (0, 0x0F, 0xFF) else "other trials",
                      *(name for name, so in (("a position kept", record[POSITION] != 0xFF), ("a baud kept", record[BAUD] != 0xFF), ("no checksum", record[CHECKSUM:SIZE] == b"\xFF\xFF")) if so))
        return result

    def set_baud(self, index):
        self.of_call("set_baud")
        stored = self.record[BAUD]
        result = super().set_baud(index)
        if result != 13:
            self.note("set_baud", f"index {index} {'written' if result else 'already stored'}")
            self.note("set_baud", "over none" if stored > 13 else "over a rate")
            if result and self.record[POSITION] != 0xFF:
                self.note("set_baud", "a position kept")
            if result:
                self.note("set_baud", f"state {state_name(self.record[STATE])}")
        return result

    def rate(self, default):
        self.of_call("rate")
        result, stored = super().rate(default), self.record[BAUD]
        if result != 13:
            self.note("rate", f"stored {stored}" if stored < 16 or stored == 255 else "stored above 15")
            if stored > 13:
                self.note("rate", f"default {default}")
            elif stored != default:
                self.note("rate", "not the default")
        return result

    def select(self):
        setup, frame = self.setup, self.state.frame
        length, bits = low_first(frame[LENGTH:DATA]), 8 * setup.id_length
        seed, count, prefix = frame[DATA], frame[DATA + 1], bytes(frame[DATA + 2:DATA + 18])
        wrong = [k for k in range(128) if k < bits and model.bit(prefix, k) != model.bit(setup.id, k)]
        was = self.state.selected
        result = super().select()
        match = result is not None
        self.note("select", f"id of {setup.id_length}, {'match' if match else 'no match'}", f"length {length if length <= 2 else 'above 2'}", f"seed mod 16 {seed % 16}")
        if not wrong:
            for name, value in (("0", 0), ("of all bits", bits), ("of all bits + 1", bits + 1), ("255", 255)):
                if count == value:
                    self.note("select", f"all bits right, count {name}")
        if len(wrong) == 1 and count <= bits:
            if wrong[0] == count - 1:
                self.note("bit just below the count wrong", wrong[0])
            if wrong[0] == count:
                self.note("bit just past the count wrong", wrong[0])
        if was != match:
            self.note("select", "selected by it" if match else "deselected by it")
        return result

    # Will it stay

    def early(self, asked):
        """Which clauses apply, each looked at by itself. What a clause's other side is stands among the points too."""
        setup, record, size, checksum = self.setup, self.record, self.size(), self.checksum()
        refused = [number for number, wrong in ((10, not setup.good), (13, self.record_lent != 12)) if wrong]
        held = bytes(record), vars(self.state).copy(), bytes(self.state.frame), bytes(self.state.page)
        result = super().early(asked)
        if held != (bytes(record), vars(self.state), bytes(self.state.frame), bytes(self.state.page)):
            raise AssertionError("the early answer has changed something")
        if refused:
            self.note("early", " before ".join(map(str, refused)) if len(refused) > 1 else f"{refused[0]} alone", *([f"record of {self.record_lent}"] if refused == [13] else []))
            return result
        clauses = [name for name, there in (
            ("Service asked for", asked == 1), ("Updating", record[STATE] == 0x7F), ("a state byte that is none", record[STATE] not in (0xFF, 0x7F, 0x3F)),
            ("Validating without trials", record[STATE] == 0x3F and record[TRIALS] == 0), ("a checksum and size 0", checksum != model.NO_CHECKSUM and size == 0),
            ("a checksum and a size above capacity", checksum != model.NO_CHECKSUM and size > setup.capacity),
            ("no checksum in the careful start", checksum == model.NO_CHECKSUM and setup.start_kind == model.CAREFUL)) if there]
        outlook = model.EARLY_NAMES[result[1]]
        self.note("early", outlook, f"{outlook} by {clauses[0]} alone" if len(clauses) == 1 else f"{outlook}, more than one clause" if clauses else f"{outlook}, no clause")
        if not clauses:
            kind = START_KINDS[setup.start_kind]
            self.note("early", *(f"{outlook}: {name}" for name, there in (
                (f"{kind}, Idle", record[STATE] == 0xFF), (f"{kind}, Validating", record[STATE] == 0x3F), ("Idle without trials", record[STATE] == 0xFF and record[TRIALS] == 0),
                ("Validating with one trial", record[STATE] == 0x3F and record[TRIALS] == 1), ("size 0 and no checksum", size == 0), ("size capacity", size == setup.capacity),
                ("size above capacity and no checksum", setup.capacity < size < 0xFFFFFFFF), ("size 1", size == 1), ("a checksum", checksum != model.NO_CHECKSUM)) if there))
        if self.flash_lent != setup.capacity:
            self.note("early", "not by the flash")
        if self.room_lent < 64:
            self.note("early", "not by the room")
        if not self.state.well_formed(setup.capacity):
            self.note("early", "not by the state")
        if not self.state.open:
            self.note("early", "closed")
        if self.state.begun or self.state.next is not None or self.state.selected:
            self.note("early", "in the middle of a frame, a run or a selection")
        self.told = asked, outlook
        return result

    # Mending

    def mend(self, entries):
        """Which rules apply to the record as it is, each looked at by itself."""
        setup, record, size, checksum = self.setup, bytes(self.record[:12]), self.size(), self.checksum()
        refused = [number for number, wrong in ((10, not setup.good), (13, self.record_lent != 12), (27, entries < 12)) if wrong]
        held = vars(self.state).copy(), bytes(self.state.frame), bytes(self.flash), bytes(self.room), bytes(self.record[12:])
        result = super().mend(entries)
        if held != (vars(self.state), bytes(self.state.frame), bytes(self.flash), bytes(self.room), bytes(self.record[12:])) or refused and record != bytes(self.record[:12]):
            raise AssertionError("a mend has changed something else")
        self.was_cut = self.told = None
        if refused:
            self.note("mend", " before ".join(map(str, refused)) if len(refused) > 1 else f"{refused[0]} alone", *([f"list of {entries}"] if refused == [27] else []))
            return result
        low = record[TRIALS] & record[TRIALS] + 1 == 0
        rules = [name for name, there in (
            ("a state byte that is none", record[STATE] not in (0xFF, 0x7F, 0x3F)), ("trials that are no low ones", not low), ("a checksum and size 0", checksum != model.NO_CHECKSUM and size == 0),
            ("a checksum and a size above capacity", checksum != model.NO_CHECKSUM and size > setup.capacity)) if there]
        self.note("mend", f"by {rules[0]} alone" if len(rules) == 1 else "by more than one rule" if rules else "nothing to mend", f"{len(result[1])} entries", f"list of {entries}")
        if not rules:
            self.note("mend", *(f"kept: {name}" for name, there in (("size capacity", size == setup.capacity and checksum != model.NO_CHECKSUM), ("size 1", size == 1 and checksum != model.NO_CHECKSUM),
                ("no checksum and size 0", checksum == model.NO_CHECKSUM and size == 0), ("trials 0", record[TRIALS] == 0)) if there))
        if record[TRIALS] != self.record[TRIALS]:
            self.note("mend", f"{model.longest_run(record[TRIALS])} starts left")
        return result

    # A rewrite that is cut

    def cut(self, steps, new):
        old, new = bytes(self.record[:12]), bytes(new)
        request = "another"
        if old[8:] == new[8:] and old[STATE] == model.UPDATING and new[:2] == b"\x3F\xFF":
            request = "Verify"
        elif old[8:] == new[8:] and old[STATE] == model.VALIDATING and new[:8] == b"\x7F" + b"\xFF" * 7:
            request = "Erase"
        elif old[:8] + old[10:] == new[:8] + new[10:] and old != new:
            request = "Reset"
        self.was_cut, self.told = (request, steps), None
        self.note("cut", f"{steps} steps", *(["over a position that a Reset stored"] if self.placed else []))
        super().cut(steps, new)

    # Start

    def start(self, asked):
        self.was_bad = not self.state.well_formed(self.setup.capacity)
        held = self.state.begun, self.state.next, self.state.selected
        result = super().start(asked)
        if self.told and self.told[0] == asked and result[0] is None:
            self.note("early", f"{self.told[1]}, and then {START_KINDS[self.setup.start_kind]}: {'hand-off' if result[1] == 0 else 'stays'}")
        self.told = None
        self.note("start", str(result[0]) if result[0] is not None else MODES[result[1]])
        if self.was_cut and asked == 0 and result[0] is None:
            request, steps = self.was_cut
            self.note("cut", f"{request} after {steps}, {START_KINDS[self.setup.start_kind]} start: {'hand-off' if result[1] == 0 else 'stays'}")
        self.was_cut = None
        if result[0] is None:
            self.note("start", *(name for name, was in (("over a frame begun", held[0]), ("over a run", held[1] is not None), ("over a selection", held[2])) if was))
        return result

    def decision(self, asked):
        record, size, capacity, checksum = self.record, self.size(), self.setup.capacity, self.checksum()
        state, trials = state_name(record[STATE]), record[TRIALS]
        group = "careful start" if self.setup.start_kind == model.CAREFUL else "start record"
        if checksum == model.NO_CHECKSUM:
            check = "no checksum, " + ("an app" if self.app_present() else "no app")
            if self.app_present() and asked == 0 and record[STATE] in (0xFF, 0x3F):
                names = {0: "0", capacity: "capacity", capacity + 1: "capacity + 1", 0xFFFFFFFF: "none"}
                self.note(group, f"state {state}, no checksum, an app, size {names.get(size, 'elsewhere')}")
        elif size > capacity:
            check = "size above capacity"
        else:
            check = "checksum right" if model.crc(self.flash[:size]) == checksum else "checksum wrong"
            self.note("start", *(name for name, there in (("size capacity", size == capacity), ("size 0", size == 0)) if there))
        self.note(group, f"{MODES[asked]} asked, state {state}")
        if asked == 0 and record[STATE] != 0x7F:
            self.note(group, f"state {state}, {check}")
        if record[STATE] == 0x3F:
            self.note(group, f"{MODES[asked]} asked, Validating, trials {trials:02X}" if trials in (0xFF, 0xB0, 0x10, 0x01, 0) else "Validating, other trials")
        mode = super().decision(asked)
        if asked == 0:
            self.note(group, f"{check}: {'hand-off' if mode == 0 else 'stays'}")
            if record[TRIALS] != trials and mode == 1:
                self.note(group, f"{check}: a trial used all the same")
        return mode


class CountedDesk(model.Desk):
    """The desk, with what comes to it put down in `seen`."""

    def __init__(self, seen):
        super().__init__()
        self.seen = seen
        self.ended_in_aa = False
        # What has been done with the device since the last piece.
        self.since = set()

    def note(self, *points):
        for point in points:
            self.seen["heard", str(point)] += 1

    def hear(self, piece):
        begun = self.state.begun
        self.note(*(f"{what} inside a frame" for what in self.since if begun))
        self.since = set()
        self.note("a piece, empty" if not piece else "a piece of one byte" if len(piece) == 1 else "a longer piece")
        if begun == 0 and self.ended_in_aa and piece[:1] == b"\x55":
            self.note("55 behind the AA that ended a frame")
        if begun == 0 and piece[:3] == b"\xAA\xAA\x55" or begun == 1 and piece[:2] == b"\xAA\x55":
            self.note("AA AA 55")
        taken, ended = super().hear(piece)
        if ended is not None:
            self.note("ended with the piece" if taken == len(piece) else "went on behind the frame")
        else:
            self.seen["desk begun at a call's end", str(self.state.begun)] += 1
        if piece:
            self.ended_in_aa = ended is not None and piece[taken - 1] == 0xAA
        return taken, ended

    def header_read(self):
        frame = self.state.frame
        command, status, length = frame[COMMAND], frame[STATUS], low_first(frame[LENGTH:DATA])
        if status <= 7:
            self.note(f"command {command}")
        if command <= 5:
            self.note(f"status {status}")
            if status <= 7:
                self.note(f"length {length}, {'a request' if status == 0 else 'a reply'}")
        if (command > 5 or status > 7) and length > 52:
            self.note("no command or status, and too long")
        return super().header_read()

    def frame_read(self, data_end):
        frame = self.state.frame
        received, right = low_first(frame[RECEIVED_CRC:]), model.crc(frame[:data_end])
        what = "right" if received == right else "low byte wrong" if received >> 8 == right >> 8 else "high byte wrong" if received & 0xFF == right & 0xFF else "both wrong"
        self.note(f"CRC of {'a request' if frame[STATUS] == 0 else 'a reply'}: {what}")
        return super().frame_read(data_end)

    def told(self, ended):
        frame = self.state.frame
        number, words = super().told(ended)
        if number == 3:
            self.note(f"fault {words}")
            return number, words
        command, status, length = COMMANDS[frame[COMMAND]], frame[STATUS], low_first(frame[LENGTH:DATA])
        self.note(f"{command} {STATUSES[status]}")
        if number == 2:
            contents = words.split(" ")[4]
            self.note(f"{command} of {length}: {contents}", *([f"{contents} of a command that is not Ok"] if status != model.OK else []))
        return number, words


def first_byte(difference):
    return next(n for n in range(4) if difference >> 8 * n & 0xFF)


class Bench(model.Bench):
    """The script language with a counted device."""

    def __init__(self, say):
        super().__init__(say)
        self.seen = Counter()
        self.device = Counted(self.device.setup, self.seen)
        self.desk = CountedDesk(self.seen)
        # What a `u` has drawn, while it is under way.
        self.asking = None

    def line_s(self, data):
        begun = self.desk.state.begun
        super().line_s(data)
        self.device = Counted(self.device.setup, self.seen)
        self.desk = CountedDesk(self.seen)
        self.seen["setup", f"of {len(data)} bytes"] += 1
        if begun:
            self.seen["heard", "a new setup inside a frame"] += 1

    def wrote(self, data):
        """Each number of a request looked at by itself; a limit's side where the others are right."""
        device, room = self.device, self.device.room_lent
        command, flags, address, length = COMMANDS[data[0]], data[1], low_first(data[2:6]), len(data) - 6
        wrong = [name for name, bad in (("room", room < 64), ("length", length > 52), ("address", address >= 2**24)) if bad]
        before = bytes(device.room)
        written = super().wrote(data)
        if written is None and before != bytes(device.room) or written is not None and before[len(written):] != bytes(device.room[len(written):]):
            raise AssertionError("a request has changed something else of the room")
        points = [f"{command} {'written' if not wrong else 'refused'}"]
        points += [f"refused by {wrong[0]} alone" if len(wrong) == 1 else "14 before 20" if wrong[0] == "room" else "20 for both"] if wrong else []
        points += [f"{name} {value}" for name, value in (("room", room), ("length", length), ("address", address)) if not set(wrong) - {name}]
        points += [f"flags {flags}"] if not wrong else []
        points += [where for where, so in (("while the app runs", device.app_version is not None), ("closed", not device.state.open),
                                           ("inside a frame of the device's", device.state.begun),
                                           ("with no setup", not device.setup.good), ("with no record", device.record_lent != 12), ("with no flash",
                                                   device.flash_lent != device.setup.capacity),
                                           ("with no state", not device.state.well_formed(device.setup.capacity))) if so and not wrong]
        for point in points:
            self.seen["wrote", point] += 1
        return written

    def line_u(self, data):
        self.asking = [], self.desk.state.begun, self.device.state.begun
        fault = super().line_u(data)
        found, at_desk, at_device = self.asking
        self.asking = None
        if fault is None:
            for number, reply in found:
                self.note_asked(f"answer {number}")
                if reply:
                    self.note_asked(f"{COMMANDS[reply[2]] if reply[2] <= 5 else 'no command'} {STATUSES[reply[3]]}")
            replies = [reply for _, reply in found if reply]
            self.note_asked(f"{len(replies) if len(replies) < 3 else 'more'} replies", *(["a frame begun before ends in it"] if at_device
                    and any(number in (1, 2, 3) for number, _ in found) else []),
                            *(["the desk is inside a frame"] if at_desk and replies else []), *(["not written"] if not found else []))
        return fault

    def note_asked(self, *points):
        for point in points:
            self.seen["app asked" if self.device.app_version is not None else "asked", point] += 1

    def feed(self, data):
        result = super().feed(data)
        self.desk.since.add("fed")
        if self.asking is not None:
            self.asking[0].append((result[0], result[2]))
        return result

    def line_b(self, data):
        self.desk.since.add("a start")
        return super().line_b(data)

    def line_a(self, data):
        self.desk.since.add("an app")
        return super().line_a(data)

    def line_j(self, data):
        fault = super().line_j(data)
        if fault is None:
            self.seen["cut", f"record of {self.device.record_lent} lent"] += 1
        return fault

    def done(self, letter, digits):
        app = self.device.app_version is not None
        fault = super().done(letter, digits)
        self.seen["line", letter if fault is None else fault if fault in ("no such letter", "no digit", "half a byte") else f"{letter}: {fault}"] += 1
        if app:
            self.seen["app line", letter if fault is None else f"{letter}: {fault}"] += 1
        if app and letter == "p" and len(digits) == 10:
            self.seen["app line", f"p {digits[:2]}{': ' + fault if fault else ''}"] += 1
        return fault

    def line_t(self, text):
        fault = super().line_t(text)
        self.seen["line", "t" if fault is None else f"t: {fault}"] += 1
        return fault


def wanted():
    """Every point that has to be reached, by group."""
    points = {
        "answer": [0, 1, 2, 3, *range(10, 16)],
        "status": (1, 3, 4, 5, 6, 7),
        "reply": [f"{COMMANDS[command]} {STATUSES[status]}" for command, statuses in enumerate(((1, 3, 5, 6), (1, 3, 4, 5, 6), (1, 3, 4, 5, 6), (1, 3, 4, 5, 6, 7), (1, 3, 5, 6), (1, 3, 5, 6)))
                  for status in statuses] + ["no command Unsupported"],
        "restart": MODES,
        "wait": range(16),
        "header": [f"{whom}: {what}" for whom in ("unaddressed", "addressed") for what in
                   [f"command {n}" for n in (0, 1, 2, 3, 4, 5, 6, 255)] + [f"status {n}" for n in (*range(9), 255)]
                   + [f"length {n}, {as_what}" for n in (0, 52, 53, 256, 0xFFFF) for as_what in ("a request", "overheard")]]
        + ["no command and too long", "no command, and a reply", "no status and too long"],
        "CRC": [f"{whom}: {what}" for whom in ("a request", "overheard") for what in ("right", "low byte wrong", "high byte wrong", "both wrong")],
        "reading": ["AA AA 55", "AA and no 55", "55 behind the AA that ended a frame"],
        "piece": ["empty", "one byte", "longer", "ended with the frame", "went on behind the frame"],
        "begun at a call's end": range(64),
        "Erase": [f"range right, state {state}" for state in STATE_NAMES] + ["end at capacity", "end below capacity", "whole flash", "a run is open", "cells that were not FF",
           "from Validating, over a position", "from Validating, over a position that a Reset stored"]
        + [f"range right, length {n}" for n in (0, 1, 2, "above 2")]
        + [f"refused by {what} alone, state {state}" for what in ("address", "count", "count 0", "end") for state in STATE_NAMES]
        + ["end one block above", "end further above", "count a multiple of 64 alone", "count no multiple of 64", "address a multiple of 64 alone", "address no multiple of 64"],
        "Erase state byte": ["FF", "7F", "3F", "FE", "80", "40", "7E", "3E", "01", "00"],
        "Write": ["refused by state FF", "refused by state 3F"] + [f"taken, state {state}" for state in ODD_OR_UPDATING] + ["refused by state before place or end", "end below capacity", "over cells that are not FF"]
        + [f"{run}, {what}" for run in ("no run", "a run") for what in ("right place", "refused by place alone", "end at capacity", "end one above capacity")]
        + [f"length {n}" for n in (0, 1, 51, 52)] + [f"flags {n}" for n in ("00", "7F", "80", "FF")] + [f"page to {n}" for n in (63, 64, 65)] + ["flush of nothing", "flush of a rest"]
        + [f"no run, off a page's start by {n}" for n in (1, 32, 63)] + ["a run, off its end by +1", "a run, off its end by -1", "a run, at a page's start"],
        "Write fill before": range(64),
        "Write fill after": range(64),
        "Verify": ["refused by state FF", "refused by state 3F"] + [f"taken, state {state}" for state in ODD_OR_UPDATING] + ["refused by state before size", "over a record with trials or baud", "a run is open",
           "recorded over a position", "recorded over a position that a Reset stored"]
        + [f"{key}, size {n}" for key in ("no key", "a key") for n in ("0", "1", "capacity", "capacity + 1", "above 16 bits")] + [f"a key, size {n}" for n in range(2, 11)]
        + [f"a key, {what}" for what in ("at no multiple of 4", "its place below 0", "right", "in the last place", "right but at no multiple of 4", *(f"wrong in byte {n}" for n in range(4)))],
        "Info": [f"size {n}" for n in ("0", "1", "2", "3", "capacity - 1", "capacity", "capacity + 1", "capacity + 2", "none", "elsewhere, below", "elsewhere, above")]
        + [f"baud {n}" for n in (0, 13, 14, 255)] + ["with data"],
        "Reset": [f"{mode}, {app}, state {state}" for mode in ("to Service", "hand-off") for app in ("an app", "no app") for state in ("FF", "7F", "3F", "another below 3F")]
        + [f"flags {n}{others}" for n in range(8) for others in ("", ", others set")] + [f"flags {n} accepted" for n in range(8)] + [f"flags {n} refused" for n in (0, 2, 4, 6)]
        + [f"baud {n} stored" for n in (0, 13, 14, 255)] + ["baud not stored, refused"]
        + [f"position {n} stored" for n in (0, 15, 255)] + ["position not stored, refused", "a position kept", "a position stored over another"]
        + [f"a position {how}, that a Reset stored" for how in ("kept", "stored over another")],
        "select": [f"id of {n}, {what}" for n in range(1, 17) for what in ("match", "no match")] + [f"length {n}" for n in (0, 1, 2, "above 2")] + [f"seed mod 16 {n}" for n in range(16)]
        + [f"all bits right, count {n}" for n in ("0", "of all bits", "of all bits + 1", "255")] + ["selected by it", "deselected by it"]
        + [f"{what} {how}" for what in (*COMMANDS[:5], "an error is silence") for how in ("selected", "not selected")],
        "bit just below the count wrong": range(128),
        "bit just past the count wrong": range(128),
        "silent": model.WHY_NAMES[1:],
        "silence": [f"addressed: {what}" for what in SILENCES] + [f"addressed: 2 by its {what}" for what in ("command", "status", "length")]
        + [f"unaddressed: {what}" for what in ("1 alone", "1 before 2", "1 before 3")],
        "start": ["10", "12", "13", *MODES, "over a frame begun", "over a run", "over a selection", "size capacity", "size 0"],
        "start record": [f"{mode} asked, state {state}" for mode in MODES for state in STATE_NAMES]
        + [f"state {state}, {check}" for state in STATE_NAMES if state != "7F" for check in CHECKS] + [f"{mode} asked, Validating, trials {n}" for mode in MODES for n in ("FF", "B0", "01", "00")]
        + ["hand-off asked, Validating, trials 10"]
        + ["no checksum, an app: hand-off", "no checksum, an app: stays", "no checksum, no app: stays", "checksum right: hand-off", "checksum right: stays", "checksum wrong: stays",
           "size above capacity: stays"],
        "careful start": [f"hand-off asked, state {state}" for state in STATE_NAMES] + ["Service asked, state 3F"] + [f"state {state}, {check}" for state in ("FF", "3F") for check in CHECKS]
        + [f"hand-off asked, Validating, trials {n}" for n in ("B0", "01", "00")]
        + [f"state {state}, no checksum, an app, size {size}" for state in ("FF", "3F") for size in ("0", "capacity", "capacity + 1", "none", "elsewhere")]
        + ["no checksum, an app: stays", "no checksum, no app: stays", "checksum right: hand-off", "checksum right: stays", "checksum wrong: stays", "size above capacity: stays",
           "no checksum, an app: a trial used all the same"],
        "early": ["10 alone", "13 alone", "10 before 13", *(f"record of {n}" for n in (0, 11, 13)), "stays", "reads on", "reads on, no clause"] + [f"stays by {clause} alone" for clause in CLAUSES]
        + ["stays, more than one clause", *(f"reads on: {what}" for what in ("present, Idle", "present, Validating", "careful, Idle", "careful, Validating", "Idle without trials",
           "Validating with one trial", "size 0 and no checksum", "size capacity", "size above capacity and no checksum", "size 1", "a checksum"))]
        + ["not by the flash", "not by the room", "not by the state", "closed", "in the middle of a frame, a run or a selection"]
        + [f"{outlook}, and then {kind}: {mode}" for kind in START_KINDS for outlook, mode in (("stays", "stays"), ("reads on", "stays"), ("reads on", "hand-off"))],
        "mend": ["10 alone", "13 alone", "27 alone", "10 before 13", "10 before 27", "13 before 27", "10 before 13 before 27", "list of 0", "list of 11", "list of 12", "list of 16"]
        + [f"by {rule} alone" for rule in ("a state byte that is none", "trials that are no low ones", "a checksum and size 0", "a checksum and a size above capacity")]
        + ["by more than one rule", "nothing to mend"] + [f"{n} entries" for n in range(9)] + [f"kept: {what}" for what in ("size capacity", "size 1", "no checksum and size 0", "trials 0")]
        + [f"{n} starts left" for n in (1, 2, 7)],
        "cut": [f"{n} steps" for n in range(5)] + [f"record of {n} lent" for n in (0, 11, 12, 13, 16)] + ["a frame behind it, and no start between", "over a position that a Reset stored"]
        + [f"{request} after {n}, {kind} start: {mode}" for request, kind, table in CUTS for n, modes in enumerate(table) for mode in modes],
        "refused": ["10 by the kind of start alone"] + [f"{one} alone" for one in range(10, 16)] + [f"{one} before {two}" for one in range(10, 16) for two in range(one + 1, 16)],
        "start refused": ["10 by the kind of start alone", "10 alone", "12 alone", "13 alone", "10 before 12", "10 before 13", "12 before 13", "not by a room below 64", "not by a state that is none"],
        "flash lent": ["capacity -1", "capacity +0", "capacity +1"],
        "record lent": [0, 11, 12, 13, 16],
        "room lent": [0, 63, 64, 65, 512],
        "run": ["none, fill 0", "none, fill not 0", *(f"fill {n}" for n in range(64)), "fill 64", "next at capacity +0", "next at capacity +1", "next mod 64 is fill", "next mod 64 is not fill"],
        "frame begun": [*range(64), *(f"{name} alone wrong" for name in ("AA", "55", "command", "status", "length", "place")), "command 5", "command 6", "status 7", "status 8", "length 52",
                        "length 53", "at its end -1", "at its end +0", "bytes not yet read do not count"],
        "setup": [f"erase size {n}" for n in (0, 63, 64, 65, 32, 96, 32768, 32769, 32832)] + [f"capacity {n}" for n in (0, 63, 64, 65, 65535, 65536, 65537, 65600)]
        + ["capacity a multiple of 64 alone"] + [f"id length {n}" for n in (0, 1, 16, 17, 255)] + [f"kind of start {n}" for n in (0, 1, 2, 3, 128, 255)] + ["of 31 bytes", "of 32 bytes"],
        "line": [*model.Bench.COUNTS, "t", "no such letter", "no digit", "half a byte", *(f"{letter}: too few bytes" for letter in "sncmfrpqbjeagyvwu"),
                 *(f"{letter}: too many bytes" for letter in "sncmfrpqbxodtjeakgyvwuh"), "j: more than 4", "e: no such mode", "n: more than 65600", "c: more than 16", "m: more than 512", "f: past byte 65600",
                 "p: no such field", "p: more than 1", "q: past byte 64", "b: no such mode", "g: no such rate", "y: no such rate", "v: more than 16", "w: no such command", "u: no such command"],
    }
    points |= wanted_of_the_app()
    points |= wanted_of_the_desk()
    return {group: [str(point) for point in found] for group, found in points.items()}


def wanted_of_the_app():
    every_state, both = ("FF", "7F", "3F", "another above 3F", "another below 3F"), ("", "app ")
    points = {
        "app": ["over the bootloader, open", "over the bootloader, closed"],
        "app begins": ["over a frame begun", "over a run", "over a selection", "closed before"],
        "app answer": [0, 1, 2, 3, 10, 11, 13, 14, 15],
        "app reply": [f"{COMMANDS[command]} {STATUSES[status]}" for command, statuses in enumerate(((1, 3, 6), (3, 5, 6), (3, 5, 6), (3, 5, 6), (3, 6), (1, 3, 5, 6))) for status in statuses]
        + ["no command Unsupported"],
        "app status": (1, 3, 5, 6),
        "app restart": MODES,
        "app wait": range(16),
        "app header": [f"{whom}: {what}" for whom in ("unaddressed", "addressed") for what in
                       [f"command {n}" for n in (0, 1, 2, 3, 4, 5, 6, 255)] + [f"status {n}" for n in (0, 1, 7, 8, 255)]
                       + [f"length {n}, {as_what}" for n in (0, 52, 53) for as_what in ("a request", "overheard")]] + ["no command, and a reply"],
        "app CRC": [f"{whom}: {what}" for whom in ("a request", "overheard") for what in ("right", "low byte wrong", "high byte wrong")],
        "app reading": ["AA AA 55", "AA and no 55", "55 behind the AA that ended a frame"],
        "app piece": ["empty", "one byte", "longer", "ended with the frame", "went on behind the frame"],
        "app begun at a call's end": range(64),
        "app Info": ["version 0000", "version FFFF", "another version", *(f"baud {n}" for n in (0, 13, 14, 255)), *(f"state {name}" for name in every_state), "with data",
                     "an image with a version in the flash"],
        "app Reset": [f"flags {n}{others}" for n in range(8) for others in ("", ", others set")] + [f"{mode}, state {state}" for mode in ("to Service", "hand-off") for state in every_state]
        + [f"{mode}, {what} in the flash" for mode in ("to Service", "hand-off") for what in ("an app", "no app")]
        + ["baud stored already", *(f"baud {n} stored" for n in (0, 13, 14, 255)), "another baud stored", "another baud, not stored without bit 1", "bit 2 over a position", "with data"],
        "app select": [f"length {n}" for n in (0, 1, 2, "above 2")] + [f"all bits right, count {n}" for n in ("0", "of all bits", "of all bits + 1", "255")] + ["selected by it", "deselected by it"]
        + [f"{what} {how}" for what in (*COMMANDS[:5], "an error is silence") for how in ("selected", "not selected")],
        "app silent": model.WHY_NAMES[1:],
        "app silence": [f"addressed: {what}" for what in SILENCES] + [f"addressed: 2 by its {what}" for what in ("command", "status", "length")]
        + [f"unaddressed: {what}" for what in ("1 alone", "1 before 2", "1 before 3")],
        "app refused": [f"{one} alone" for one in APP_REFUSALS] + [f"{one} before {two}" for one in APP_REFUSALS for two in APP_REFUSALS if one < two],
        "app setup": ["a kind of start above 1"],
        "app flash lent": ["capacity -1", "capacity +0", "capacity +1"],
        "app record lent": [0, 11, 12, 13, 16],
        "app room lent": [0, 63, 64, 65, 512],
        "app frame begun": [*(f"{name} alone wrong" for name in ("AA", "55", "command", "status", "length", "place")), "command 5", "command 6", "status 7", "status 8", "length 52",
                            "length 53", "at its end -1", "at its end +0", "bytes not yet read do not count"],
        "app line": ["q", "d", "n", "c", "m", "f", "r", "k", "g", "y", "a", "p 00", "p 01: no such field", "p 02: no such field", "p 03", "p 04", "p 03: more than 1", "p 04: more than 1",
                     "p 05: no such field"],
    }
    for whose in both:
        points[whose + "confirm"] = ([f"state {state}: {int(state == '3F')}" for state in every_state] + [f"record of {n}" for n in (0, 11, 12, 13, 16)]
                                     + [f"trials {n}" for n in ("00", "0F", "FF")] + ["a position kept", "a baud kept", "no checksum", "inside a frame", "closed"])
        points[whose + "set_baud"] = ([f"index {n} {what}" for n in range(14) for what in ("written", "already stored")] + [f"record of {n}" for n in (0, 11, 12, 13, 16)]
                                      + ["over none", "over a rate", "a position kept", "inside a frame", "closed"] + [f"state {state}" for state in every_state])
        points[whose + "rate"] = ([f"stored {n}" for n in (*range(16), 255)] + [f"default {n}" for n in range(14)] + [f"record of {n}" for n in (0, 11, 12, 13, 16)]
                                  + ["not the default", "inside a frame", "closed"])
    for name in ("app confirm", "app set_baud", "app rate"):
        points[name] += [f"not refused by the {what}" for what in ("setup", "room", "state")]
    return points


def wanted_of_the_desk():
    typed = {"Info": {18: "info"}, "Verify": {2: "verify"}, "Select": {n: "select" for n in range(1, 17)}}
    replies = [f"{COMMANDS[command]} {STATUSES[status]}" for command, statuses in enumerate(((1,), (1, 4), (1, 4, 5), (1, 4, 5, 7), (1, 5), (1, 5)))
               for status in statuses]
    return {
        "wrote": [f"{command} {what}" for command in COMMANDS for what in ("written", "refused")] + [f"refused by {name} alone"
                for name in ("room", "length", "address")] + ["14 before 20", "20 for both"]
        + [f"room {n}" for n in (0, 12, 63, 64, 65, 512)] + [f"length {n}" for n in (0, 1, 51, 52, 53, 54, 4090)]
        + [f"address {n}" for n in (0, 0xFFFF, 0x10000, 2**24 - 1, 2**24, 2**24 + 1, 2**32 - 1)] + [f"flags {n}" for n in (0, 1, 0x7F, 0x80, 0xFF)]
        + ["while the app runs", "closed", "inside a frame of the device's", "with no setup", "with no record", "with no flash", "with no state"],
        "heard": [f"{command} {status}" for command in COMMANDS for status in STATUSES] + [f"fault {n}" for n in (3, 5, 6)]
        + [f"{command} of {n}: {typed.get(command, {}).get(n, 'plain')}" for command in COMMANDS for n in (0, 1, 2, 3, 15, 16, 17, 18, 19, 52)]
        + [f"{what} of a command that is not Ok" for what in ("info", "verify", "select", "plain")] + [f"command {n}" for n in (0, 5, 6, 255)] + [f"status {n}"
                for n in (0, 1, 7, 8, 255)]
        + [f"length {n}, {what}" for n in (0, 52, 53, 256, 0xFFFF) for what in ("a request", "a reply")] + ["no command or status, and too long"]
        + [f"CRC of {whom}: {what}" for whom in ("a request", "a reply") for what in ("right", "low byte wrong", "high byte wrong", "both wrong")]
        + ["AA AA 55", "55 behind the AA that ended a frame", "a piece, empty", "a piece of one byte", "a longer piece", "ended with the piece",
           "went on behind the frame"]
        + ["a start inside a frame", "an app inside a frame", "fed inside a frame", "a new setup inside a frame"],
        "desk begun at a call's end": range(64),
        "asked": [f"answer {n}" for n in (0, 1, 2, 3, 10, 11, 12, 13, 15)] + replies + ["no command Unsupported"] + [f"{n} replies" for n in (0, 1, 2)]
        + ["a frame begun before ends in it", "the desk is inside a frame", "not written"],
        "app asked": [f"answer {n}" for n in (0, 1, 2, 3, 10, 11, 13, 15)] + ["Info Ok", "Select Ok",
                *(f"{command} Unsupported" for command in ("Erase", "Write", "Verify", "Select")), "0 replies",
                      "1 replies", "not written"],
    }


APP_REFUSALS = (10, 11, 13, 14, 15)

# The reasons for silence that can apply at once, the one that is told first; both ways where the header's command or status decides before its length. Never at
# once are 2 and 3, for a frame that is unreadable ends before its CRC, and 4 and 5, of which one is a Select's and the other every other command's.
# Unaddressed, 2 and 3 are replied to, and there are no 4 and 5.
SILENCES = ("1 alone", "2 alone", "3 alone", "4 alone", "5 alone",
            "1 before 2", "2 before 1", "1 before 3", "1 before 4", "1 before 5", "2 before 4", "2 before 5", "3 before 4", "3 before 5",
            "1 before 2 and 4", "2 before 1 and 4", "1 before 2 and 5", "2 before 1 and 5", "1 before 3 and 4", "1 before 3 and 5")

CHECKS = ("no checksum, an app", "no checksum, no app", "checksum right", "checksum wrong", "size above capacity")


# For which an early answer says that a start stays.
CLAUSES = ("Service asked for", "Updating", "a state byte that is none", "Validating without trials", "a checksum and size 0", "a checksum and a size above capacity",
           "no checksum in the careful start")

# What the starts behind a cut decide: after 0 to 4 steps, of each request that rewrites, each kind of start. The present one may hand off at 1, the careful one
# never at 1 or 2.
BOTH, ON, NOT = ("hand-off", "stays"), ("hand-off",), ("stays",)
CUTS = (("Verify", "present", (NOT, BOTH, BOTH, ON, ON)), ("Verify", "careful", (NOT, NOT, NOT, BOTH, BOTH)), ("Erase", "present", (BOTH, ON, NOT, NOT, NOT)),
        ("Erase", "careful", (BOTH, NOT, NOT, NOT, NOT)), ("Reset", "present", (BOTH, ON, BOTH, BOTH, BOTH)), ("Reset", "careful", (BOTH, NOT, NOT, BOTH, BOTH)))


def missing(seen):
    return [f"{group}: {point}" for group, points in wanted().items() for point in points if not seen[group, point]]


def impossible(seen):
    """Reasons for silence that were seen at once, or in an order, as they cannot be; the app refusing for a flash, which it does not have; careful starts that hand off
    without a checksum, or where a rewrite was cut after one step or two; starts that hand off where the early answer said that they stay, or where it said so by no clause."""
    return ([f"{group}: {point}" for group, point in seen if group in ("silence", "app silence") and point not in wanted()[group]
             or group == "app refused" and "12" in point or (group, point) == ("app answer", "12")]
            + [point for group, point in seen if point.endswith(": hand-off") and (group == "careful start" and point.startswith("no checksum")
                                                                                  or group == "cut" and (" after 1, careful" in point or " after 2, careful" in point)
                                                                                  or group == "early" and point.startswith("stays"))]
            + [point for group, point in seen if group == "early" and (point == "stays, no clause" or point.startswith("reads on by") or point == "reads on, more than one clause")])


def text(seen):
    """The counts, a line to a group; runs of numbers are told together."""
    lines = []
    for group, points in wanted().items():
        if len(points) > 60 and all(point.isdecimal() for point in points):
            counts = [seen[group, point] for point in points]
            lines.append(f"{group}: each of {points[0]} to {points[-1]}, {min(counts)} to {max(counts)} times")
        else:
            lines.append(f"{group}: " + "; ".join(f"{point}: {seen[group, point]}" for point in points))
    return lines
