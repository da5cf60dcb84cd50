"""Reads messages line by line, by the texts of crates/tlsgen/data. It shares no code with `tlsdump`."""
from __future__ import annotations

from typing import Any

from lib.libraries import DATA, texts_of
from lib.presentation import Field, Parser, Part, Select, Value, name_of, plain
from lib.row_reader import VARIABLE, Input
from lib.row_reader import Rejected as Unread
from lib.shown import counted, date, number_text, text_of

# The texts of each protocol of `tlsdump`. Messages of TLS have some of Certificate Transparency inside. A name that two have is the first
# one's.
PROTOCOLS = {"mls": texts_of("mls"), "tls": texts_of("tls13") + texts_of("ct"), "ct": texts_of("ct")}
WIDTHS = {"opaque": 1, "uint8": 1, "uint16": 2, "uint24": 3, "uint32": 4, "uint64": 8}
# What no text names: versions and suites of TLS (RFC 8446, sections 4.1.2 and 4.2.1, and appendix B.4).
TLS_NAMES = {
    "ProtocolVersion": {0x0301: "TLS 1.0", 0x0302: "TLS 1.1", 0x0303: "TLS 1.2", 0x0304: "TLS 1.3"},
    "CipherSuite": {
        0x1301: "TLS_AES_128_GCM_SHA256",
        0x1302: "TLS_AES_256_GCM_SHA384",
        0x1303: "TLS_CHACHA20_POLY1305_SHA256",
        0x1304: "TLS_AES_128_CCM_SHA256",
        0x1305: "TLS_AES_128_CCM_8_SHA256",
    },
}
# The content of extensions: RFC 9420, section 17.3, and the table in RFC 8446, section 4.2.
EXTENSIONS = {
    "application_id": "ApplicationId",
    "ratchet_tree": "RatchetTree",
    "required_capabilities": "RequiredCapabilities",
    "external_pub": "ExternalPub",
    "external_senders": "ExternalSenders",
    "supported_groups": "NamedGroupList",
    "signature_algorithms": "SignatureSchemeList",
    "signature_algorithms_cert": "SignatureSchemeList",
    "cookie": "Cookie",
    "psk_key_exchange_modes": "PskKeyExchangeModes",
    "certificate_authorities": "CertificateAuthoritiesExtension",
    "oid_filters": "OIDFilterExtension",
    "post_handshake_auth": "PostHandshakeAuth",
    "early_data": "EarlyDataIndication",
    "supported_versions": "SupportedVersions",
    "pre_shared_key": "PreSharedKeyExtension",
}
# Those whose content depends on the message that they are in.
IN_MESSAGES = ("early_data", "supported_versions", "pre_shared_key")
OWN = "struct { opaque application_id<V>; } ApplicationId; struct { Handshake messages[rest]; } HandshakeMessages;"


# A named number of an enum or of a range: the first, the last and the name.
Code = tuple[int, int, str]
# A line of the tree: where its bytes begin, its depth, label and text, and what else JSON has of it.
Line = dict[str, Any]


class Rejected(Exception):
    """The field that can't be read, with the lines that it is in."""

    def __init__(self, label: str | None, depth: int) -> None:
        self.label, self.depth = label, depth


class Text:
    """The definitions of some texts with their notes, by name."""

    def __init__(self, names: list[str]) -> None:
        self.enums: dict[str, tuple[list[Code], int]] = {}
        self.structs: dict[str, list[Field | Select]] = {}
        self.others: dict[str, Field] = {}
        # the label of a tag that a note fixes, by its struct and field
        self.fixed: dict[tuple[str, str], str] = {}
        # whether a note closes an enum or opens it, and the paths of lengths of what follows and of bytes to the end
        self.closed: dict[str, bool] = {}
        self.counts_rest: set[str] = set()
        self.fills_rest: set[str] = set()
        for name in names:
            self.define((DATA / f"{name}.tls").read_text())
            self.note((DATA / f"{name}.notes").read_text())
        self.define(OWN)
        self.fills_rest.add("HandshakeMessages.messages")
        fields = [(of, part) for of, parts in self.structs.items() for part in parts if "cases" not in part]
        # the enums that are the tag of a select right in their struct
        self.tags = {part["of"] for of, part in fields if self.select_on(of, part["name"]) and part["of"] not in self.others}
        # the numbers of fields that have one value
        self.constants = {(of, part["name"]): self.constant_of(part) for of, part in fields if part["constant"]}

    def define(self, text: str) -> None:
        """Adds the definitions of a text, if their names are new."""
        for one in Parser(text).all():
            if one[0] == "enum":
                self.enums.setdefault(name_of(one), codes_of(one[2]))
            elif one[0] == "alias":
                self.others.setdefault(name_of(one), one[1])
            else:
                self.structs.setdefault(name_of(one), [part_of(part) for part in one[-2]])

    def note(self, text: str) -> None:
        """Adds what the notes of a file say."""
        for kind, path, *words in Parser(text).notes():
            if kind == "Equals":
                of, name = path.split(".")
                if isinstance(words[0], int):
                    self.enums.setdefault(of, ([], WIDTHS[self.others[of]["of"]]))[0].append((words[0], words[0], name))
                else:
                    self.fixed[of, name] = words[0]
            elif kind in ("IsClosed", "IsOpen"):
                self.closed[path] = kind == "IsClosed"
            elif kind == "CountsRest":
                self.counts_rest.add(path)
            elif kind == "FillsRest":
                self.fills_rest.add(path)

    def select_on(self, of: str, field: str) -> Select | None:
        """The select of a struct whose tag is this field of it."""
        return next((part for part in self.structs[of] if "cases" in part and part["path"] in (field, f"{of}.{field}")), None)

    def width(self, of: str) -> int | None:
        """How many bytes a number has, or None of what is no number."""
        if of in self.enums:
            return self.enums[of][1]
        if of in self.others and self.others[of]["vector"] == ("one",):
            return self.width(self.others[of]["of"])
        return WIDTHS.get(of)

    def name(self, of: str, number: int) -> str | None:
        """What an enum or a registry calls a number."""
        return next((name for first, last, name in self.enums.get(of, ([], 0))[0] if first <= number <= last), None)

    def constant_of(self, field: Field) -> int:
        """The one number that a field has: by its name, as the text has it, or byte by byte."""
        kind, value = field["constant"]
        if kind == "bytes":
            return int.from_bytes(bytes(value), "big")
        return value if isinstance(value, int) else next(first for first, _, name in self.enums[field["of"]][0] if name == value)

    def has(self, of: str, number: int) -> bool:
        """Whether a number is a value of its type: an enum that a select or a note closes has those with a name that isn't reserved."""
        return not self.closed.get(of, of in self.tags) or self.name(of, number) not in (None, "reserved")


def codes_of(values: list[Value]) -> tuple[list[Code], int]:
    """The named values of an enum, as first, last and name, and how many bytes one has."""
    most = max(value[-1] for value in values)
    return [(value[1], value[-1], value[0]) for value in values if value[0]], (most.bit_length() + 7) // 8


def part_of(part: Part) -> Field | Select:
    """A field or a select of a struct. What is signed there is a field with the signature."""
    return plain("DigitallySigned", part[2] or "signature") if part[0] == "signed" else part[1]


def end_of(path: str) -> str:
    """The field that a path ends with."""
    return path.split(".")[-1]


class Reader:
    """A message, line by line."""

    def __init__(self, text: Text, data: bytes, protocol: str, message: str) -> None:
        self.text, self.data, self.protocol = text, data, protocol
        self.at, self.end = 0, len(data)
        self.lines: list[Line] = []
        # what was read of the fields so far: a tag's name, or a number
        self.known: dict[str | None, Any] = {}
        if kind := self.handshake_type("Certificate" if message == "CertificateEntry" else message):
            self.known["msg_type"] = kind

    def handshake_type(self, body: str) -> str | None:
        """What a Handshake says of such a body before it. A body alone is read as if that were there."""
        for part in self.text.structs.get("Handshake", []):
            for labels, fields in part.get("cases", []):
                if [field["of"] for field in fields] == [body]:
                    return labels[0]

    def left(self) -> int:
        return self.end - self.at

    def take(self, count: int, label: str | None, depth: int) -> bytes:
        """The next bytes, for the field with this label."""
        if count > self.left():
            raise Rejected(label, depth)
        self.at += count
        return self.data[self.at - count : self.at]

    def line(self, at: int, depth: int, label: str | None, shown: str, **members: Any) -> Line:
        """Adds a line, and returns it."""
        self.lines.append({"at": at, "depth": depth, "label": label, "shown": shown, **members})
        return self.lines[-1]

    def struct(self, of: str, depth: int) -> None:
        """The fields of a struct."""
        end = self.end
        for part in self.text.structs[of]:
            if "cases" in part:
                self.select(of, part, depth)
            else:
                self.field(of, part, part["name"], depth)
                self.has_case(of, part["name"], depth)
        names = [part["name"] for part in self.text.structs[of] if "cases" not in part]
        for name in names:
            if f"{of}.{name}" in self.text.counts_rest:
                if self.left():
                    raise Rejected(name, depth)
                self.end = end

    def has_case(self, of: str, name: str, depth: int) -> None:
        """A tag that no case of a select in its struct has is rejected where it is."""
        for part in self.text.structs[of]:
            if "cases" in part and part["path"] in (name, f"{of}.{name}"):
                if not any(self.known[name] in labels for labels, _ in part["cases"]):
                    self.lines.pop()
                    raise Rejected(name, depth)

    def select(self, of: str, select: Select, depth: int) -> None:
        """The fields of the case that the tag names."""
        tag = self.text.fixed.get((of, end_of(select["path"]))) or self.known.get(end_of(select["path"]))
        chosen = [fields for labels, fields in select["cases"] if tag in labels]
        if not chosen:
            raise Rejected("", depth)
        called = select["ending"][1] if select["ending"][0] == "called" else ""
        for field in chosen[0]:
            self.field(of, field, field["name"] or (called if called[:1].islower() else tag), depth)

    def field(self, of: str, field: Field, label: str | None, depth: int) -> None:
        """A field: one value, bytes, or a list."""
        if field["vector"] == ("one",):
            return self.value(of, field, label, depth)
        at = self.at
        count, width = self.length(of, field, label, depth)
        if count > self.left():
            raise Rejected(label, depth)
        if WIDTHS.get(field["of"]) == 1 and not field["optional"]:
            return self.content(of, label, at, count, width, depth)
        end, self.end = self.end, self.at + count
        line = self.line(at, depth, label, "", below="elements")
        elements = 0
        try:
            while self.left():
                begun = self.at, len(self.lines), dict(self.known)
                self.value(of, field, f"[{elements}]", depth + 1)
                elements += 1
        except Rejected:
            line["shown"] = f"{counted(elements, 'element')}, and one that is rejected"
            self.passes_end(of, field, f"[{elements}]", depth + 1, begun, end)
            raise
        line["shown"] = counted(elements, "element")
        self.end = end

    def passes_end(self, of: str, field: Field, label: str, depth: int, begun: tuple[int, int, dict], end: int) -> None:
        """An element that ends after its list does is rejected as a whole, so at the first of its fields."""
        at, lines, known = begun
        left, read, inner = self.at, self.lines[lines:], self.end
        del self.lines[lines:]
        self.at, self.end, self.known = at, end, known
        try:
            self.value(of, field, label, depth)
        except Rejected:
            self.lines[lines:], self.at, self.end = read, left, inner
            return
        first = next(line for line in self.lines[lines:] if line.get("below") != "fields")
        del self.lines[self.lines.index(first) :]
        raise Rejected(first["label"], first["depth"])

    def length(self, of: str, field: Field, label: str | None, depth: int) -> tuple[int, int]:
        """How many bytes a vector has, and how many its length has, which is read."""
        kind, *bounds = field["vector"]
        if kind == "array":
            return bounds[0], 0
        if kind == "counted":
            return self.left() if f"{of}.{field['name']}" in self.text.fills_rest else self.known[end_of(bounds[0])], 0
        if kind == "bounded":
            least, most = bounds
            width = (most.bit_length() + 7) // 8
            count = int.from_bytes(self.take(width, label, depth), "big")
            if not least <= count <= most:
                raise Rejected(label, depth)
            return count, width
        source = Input(self.data[self.at : self.end], True)
        try:
            count = VARIABLE.read(source)
        except Unread:
            raise Rejected(label, depth) from None
        self.at += source.at
        return count, source.at

    def content(self, of: str, label: str | None, at: int, count: int, width: int, depth: int) -> None:
        """The bytes of a vector: as a message, if they are known to be one, or in hex."""
        if (of, width) == ("CipherSuite", 0):
            data = self.take(count, label, depth)
            return self.code(at, label, depth, data, TLS_NAMES["CipherSuite"].get(int.from_bytes(data, "big")))
        start, end, lines, known, opened = self.at, self.end, len(self.lines), dict(self.known), self.opened(of, label, count)
        if opened:
            self.end = self.at + count
            self.line(at, depth, label, opened, below="fields", type=opened)
            try:
                self.type(of, opened, None, depth, depth + 1)
                if self.left():
                    raise Rejected(label, depth)
                self.end = end
                return
            except Rejected:
                del self.lines[lines:]
                self.at, self.end, self.known = start, end, known
        data = self.take(count, label, depth)
        self.line(at, depth, label, "", bytes=data, text=text_of(label, data), rejected=opened)

    def opened(self, of: str, label: str | None, count: int) -> str | None:
        """What message the bytes of a field are, if that is known."""
        if of == "SerializedSCT":
            return "SignedCertificateTimestamp"
        if of == "TLSPlaintext":
            return {"handshake": "HandshakeMessages", "alert": "Alert"}.get(self.known["type"])
        if (of, label) != ("Extension", "extension_data"):
            return None
        name, message = self.known.get("extension_type"), self.known.get("msg_type")
        if name == "key_share":
            short = "HelloRetryRequest" if count == 2 else "ServerHello"
            return {"client_hello": "KeyShareClientHello", "server_hello": f"KeyShare{short}"}.get(message)
        if (name, message) == ("signed_certificate_timestamp", "certificate"):
            return "SignedCertificateTimestampList"
        if name in IN_MESSAGES and message is None:
            return None
        return EXTENSIONS.get(name)

    def value(self, of: str, field: Field, label: str | None, depth: int) -> None:
        """One value of a field, which may be absent."""
        if not field["optional"]:
            return self.type(of, field["of"], label, depth, depth + 1)
        at = self.at
        tag = self.take(1, label, depth)[0]
        if tag > 1:
            raise Rejected(label, depth)
        if not tag:
            self.line(at, depth, label, "none", value=None)
            return
        self.line(at, depth, label, field["of"], below="fields", type=field["of"])
        self.type(of, field["of"], None, depth, depth + 1)

    def type(self, owner: str | None, of: str, label: str | None, depth: int, below: int) -> None:
        """A value of a type. One without a label has its line already."""
        at = self.at
        if of in self.text.structs:
            if label is not None:
                self.line(at, depth, label, of, below="fields", type=of)
            return self.struct(of, below)
        if of in self.text.enums:
            data = self.take(self.text.enums[of][1], label, depth)
            number = int.from_bytes(data, "big")
            self.check(owner, of, label, depth, number)
            name = self.known[label] = self.text.name(of, number)
            return self.code(at, label, depth, data, name)
        if of in WIDTHS:
            data = self.take(WIDTHS[of], label, depth)
            number = self.known[label] = int.from_bytes(data, "big")
            self.check(owner, of, label, depth, number)
            if f"{owner}.{label}" in self.text.counts_rest:
                if number > self.left():
                    raise Rejected(label, depth)
                self.end = self.at + number
            self.line(at, depth, label, number_text(label, number), number=number, date=date(label, number))
            return
        other = self.text.others[of]
        if other["vector"] == ("one",) and other["of"] in WIDTHS:
            data = self.take(WIDTHS[other["of"]], label, depth)
            number = int.from_bytes(data, "big")
            self.check(owner, of, label, depth, number)
            return self.code(at, label, depth, data, TLS_NAMES.get(of, {}).get(number) if self.protocol == "tls" else None)
        self.field(of, other, label, depth)

    def check(self, owner: str | None, of: str, label: str | None, depth: int, number: int) -> None:
        """A number that its field or its type doesn't have is rejected."""
        if number != self.text.constants.get((owner, label), number) or not self.text.has(of, number):
            raise Rejected(label, depth)

    def code(self, at: int, label: str | None, depth: int, data: bytes, name: str | None) -> None:
        """The line of a number that may have a name."""
        if name is None and len(data) == 2 and data[0] == data[1] and data[0] & 15 == 10:
            name = "GREASE"
        digits = f"0x{data.hex()}"
        self.line(at, depth, label, f"{name} ({digits})" if name else digits, number=int.from_bytes(data, "big"), code=name)
