"""What the runner tells of a line that is wrong: names, fields, and the cause that cases may have in common."""
import re

CALLS = {
    0x40: "HvCreatePartition", 0x41: "HvInitializePartition", 0x42: "HvFinalizePartition",
    0x43: "HvDeletePartition", 0x44: "HvGetPartitionProperty", 0x45: "HvSetPartitionProperty",
    0x46: "HvGetPartitionId", 0x47: "HvGetNextChildPartition", 0x48: "HvDepositMemory",
    0x49: "HvWithdrawMemory", 0x4A: "HvGetMemoryBalance", 0x4E: "HvCreateVp", 0x4F: "HvDeleteVp",
    0x50: "HvGetVpRegisters", 0x51: "HvSetVpRegisters", 0x58: "HvDeletePort", 0x5B: "HvDisconnectPort",
    0x5C: "HvPostMessage", 0x5D: "HvSignalEvent", 0x95: "HvCreatePort", 0x96: "HvConnectPort",
}  # fmt: skip
MSRS = {0x40000002: "VP_INDEX", 0x40000080: "SCONTROL", 0x40000081: "SVERSION", 0x40000082: "SIEFP"}
MSRS |= {0x40000083: "SIMP", 0x40000084: "EOM", **{0x40000090 + sint: f"SINT{sint}" for sint in range(16)}}
STATUSES = {
    0x0: "SUCCESS", 0x2: "INVALID_HYPERCALL_CODE", 0x3: "INVALID_HYPERCALL_INPUT", 0x4: "INVALID_ALIGNMENT",
    0x5: "INVALID_PARAMETER", 0x6: "ACCESS_DENIED", 0x7: "INVALID_PARTITION_STATE", 0x9: "UNKNOWN_PROPERTY",
    0xA: "PROPERTY_VALUE_OUT_OF_RANGE", 0xB: "INSUFFICIENT_MEMORY", 0xC: "PARTITION_TOO_DEEP",
    0xD: "INVALID_PARTITION_ID", 0xE: "INVALID_VP_INDEX", 0x11: "INVALID_PORT_ID",
    0x12: "INVALID_CONNECTION_ID", 0x13: "INSUFFICIENT_BUFFERS", 0x18: "INVALID_SYNIC_STATE",
    0x19: "OBJECT_IN_USE", 0x1D: "NO_RESOURCES",
}  # fmt: skip
SLOT = (("message type", 0, 4), ("payload size", 4, 1), ("flags (bit 0 is MessagePending)", 5, 1))
SLOT += (("bytes 6 and 7", 6, 2), ("port id", 8, 8))
REPLIES = ("ok", "more", "denied", "fault")


class Line:
    """A line of an audit: whose event it is, what the VP did, and its reply."""

    def __init__(self, text):
        words = text.split()
        at = next((at for at, word in enumerate(words) if word in REPLIES), None)
        by = next((at for at, word in enumerate(words[:2]) if re.fullmatch(r"\d+\.\d+", word)), None)
        self.is_event = None not in (at, by) and by + 1 < at < len(words)
        if self.is_event:
            self.by, self.words, self.reply, self.rest = words[by], words[by + 1 : at], words[at], words[at + 1 :]

    def name(self):
        """The call or access, as `HvPostMessage` or `wrmsr EOM`."""
        word, *numbers = self.words
        if word == "call":
            code = number(numbers[0]) & 0xFFFF if numbers else 0
            return CALLS.get(code, f"call code {code:#x}")
        if word.endswith("msr") and numbers:
            return f"{word} {MSRS.get(number(numbers[0]), numbers[0])}"
        return word

    def kind(self):
        """The name, in which the 16 SINTs are alike, and so are unknown registers."""
        name = re.sub(r" SINT\d+$", " of a SINT", self.name())
        return re.sub("^(rdmsr|wrmsr) [0-9a-f]{8}$", r"\1 of an unknown MSR", name)

    def refusal(self, by_status):
        """`denied P22`, or the status's name."""
        status = number(self.rest[0]) & 0xFFFF if self.reply == "denied" and self.rest else 0
        rule = next((word for word in self.rest if re.fullmatch(r"P\d+", word)), "")
        if by_status or not rule:
            rule = STATUSES.get(status, f"{status:#x}") if self.reply == "denied" else rule
        return f"{self.reply} {rule}".rstrip()

    def output(self):
        last = self.rest[-1] if self.rest else ""
        return bytes.fromhex(last) if re.fullmatch("([0-9a-f]{2})+", last) else b""


def number(word):
    return int(word, 16) if re.fullmatch("[0-9a-fA-F]+", word) else 0


def fields(line):
    """The fields of an output, by their names."""
    name, output = line.name(), line.output()
    if name == "slot":
        parts = {part: int.from_bytes(output[at : at + size], "little") for part, at, size in SLOT}
        return {**parts, **{f"payload byte {at - 16}": byte for at, byte in enumerate(output) if at > 15}}
    if name == "flags":
        return {f"flag {bit}": output[bit // 8] >> bit % 8 & 1 for bit in range(8 * len(output))}
    if name == "interrupt":
        return {"vector": int.from_bytes(output, "little")}
    if name == "HvGetMemoryBalance" and len(output) == 16:
        return {"available": number_in(output[:8]), "in use": number_in(output[8:])}
    return {"the output": number_in(output)}


def number_in(output):
    return int.from_bytes(output, "little")


def event(line):
    """The call or access of a line of an audit, or nothing."""
    line = Line(line)
    return line.name() if line.is_event else ""


def details(good, heard):
    """Which fields of the output of an event differ, as a line; nothing if no field does."""
    good, heard = Line(good), Line(heard)
    if not (good.is_event and heard.is_event and good.words == heard.words and good.reply == heard.reply):
        return []
    wanted, told = fields(good), fields(heard)
    wrong = [name for name in wanted if told.get(name) != wanted[name]]
    if len(good.output()) != len(heard.output()):
        return [f"{len(good.output())} bytes of output wanted, {len(heard.output())} told"]
    lines = [f"{name}: {wanted[name]:#x} wanted, {told[name]:#x} told" for name in wrong[:4]]
    return lines + ([f"and {len(wrong) - 4} more such fields"] if len(wrong) > 4 else [])


def cause(good, heard):
    """What a wrong line may have in common with those of other cases: what is wanted, and what is told."""
    wanted, told = Line(good), Line(heard)
    if not wanted.is_event:
        return other_cause(good, heard)
    name = wanted.kind()
    if not told.is_event:
        first = heard.split(" ")[0]
        return f"{name} {replied(wanted)} -> {'the end' if first == 'events' else heard.strip()[:40] or 'nothing'}"
    if (wanted.by, wanted.words) != (told.by, told.words):
        other = told.kind() if told.kind() != name else "one with other registers or of another VP"
        return f"{name} -> another event: {other}"
    if {wanted.reply, told.reply} <= {"ok", "more"} and wanted.reply == told.reply:
        return f"{name} {wanted.reply} -> {other_output(wanted, told)}"
    by_status = wanted.refusal(False) == told.refusal(False)
    return f"{name} {replied(wanted, by_status)} -> {replied(told, by_status)}"


def replied(line, by_status=False):
    return line.reply if line.reply in ("ok", "more") else line.refusal(by_status)


def other_output(wanted, told):
    """How a served event's output is another one."""
    if wanted.rest[:-1] != told.rest[:-1]:
        return f"{told.reply}, another result value"
    if len(wanted.output()) != len(told.output()):
        return f"{told.reply}, an output of another length"
    good, heard = fields(wanted), fields(told)
    wrong = {re.sub(r" \d+$", "", name) for name in good if heard[name] != good[name]}
    return f"{told.reply}, another {', another '.join(sorted(wrong)[:2])}".replace("another the ", "another ")


def row_of(line):
    """The numbers of a line of the table, by the words before them."""
    words = line.split()
    named = dict(zip(words[5::2], words[6::2]))
    return {"id": words[1], "parent": words[3:4], "state": words[4:5], **named}


def other_cause(good, heard):
    """The cause of a line of the table or of the audit's end."""
    if good.startswith("partition ") and heard.startswith("partition "):
        one, other = row_of(good), row_of(heard)
        wrong = [name for name in one if other.get(name) != one[name]]
        return f"table: another {', another '.join(wrong[:2]) or 'line'}"
    if good.startswith(("partition ", "pages ")):
        return f"table: {'a line is missing' if not heard else 'another line'}"
    if Line(heard).is_event:
        return f"the end -> one more event: {Line(heard).kind()}"
    return f"{'the end' if good else 'nothing more'} -> {heard.strip()[:40] or 'nothing'}"


