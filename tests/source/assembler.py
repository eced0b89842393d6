"""A small assembler of 8080 source, written from Intel's 8080 Assembly Language Programming Manual.

assemble(text) gives a dictionary from addresses to bytes. Two passes: the first finds what each label stands for, the second the
bytes. It takes labels of one to six characters, ORG, EQU, DB, DW, DS and END, hexadecimal, decimal, octal and binary numbers,
characters between quotes, and sums and differences. Whatever the manual doesn't allow is an Error: a label that is defined twice or
not at all, a word of the assembler as a label, a number that begins with a letter, a byte above 255 or below -256, a byte at an
address that has one.
"""

import re

# Chapter 2, tables of registers: the codes of operands.
REGISTERS = {"B": 0, "C": 1, "D": 2, "E": 3, "H": 4, "L": 5, "M": 6, "A": 7}
PAIRS = {"B": 0, "D": 1, "H": 2, "SP": 3}
STACK_PAIRS = {"B": 0, "D": 1, "H": 2, "PSW": 3}
CONDITIONS = ["NZ", "Z", "NC", "C", "PO", "PE", "P", "M"]

# Chapter 3, instruction by instruction: those without operands.
ALONE = {
    "NOP": 0x00, "RLC": 0x07, "RRC": 0x0F, "RAL": 0x17, "RAR": 0x1F, "DAA": 0x27, "CMA": 0x2F, "STC": 0x37, "CMC": 0x3F,
    "HLT": 0x76, "RET": 0xC9, "XTHL": 0xE3, "PCHL": 0xE9, "XCHG": 0xEB, "DI": 0xF3, "SPHL": 0xF9, "EI": 0xFB,
}  # fmt: skip
ALONE.update({"R" + condition: 0xC0 + 8 * code for code, condition in enumerate(CONDITIONS)})

# With a register or M: the base, and by how much a register's code is shifted.
ON_REGISTER = {
    "ADD": (0x80, 0), "ADC": (0x88, 0), "SUB": (0x90, 0), "SBB": (0x98, 0), "ANA": (0xA0, 0), "XRA": (0xA8, 0),
    "ORA": (0xB0, 0), "CMP": (0xB8, 0), "INR": (0x04, 3), "DCR": (0x05, 3),
}  # fmt: skip
ON_PAIR = {"DAD": 0x09, "INX": 0x03, "DCX": 0x0B}
ON_STACK_PAIR = {"PUSH": 0xC5, "POP": 0xC1}
ON_INDEX = {"STAX": 0x02, "LDAX": 0x0A}
WITH_BYTE = {
    "ADI": 0xC6, "ACI": 0xCE, "SUI": 0xD6, "SBI": 0xDE, "ANI": 0xE6, "XRI": 0xEE, "ORI": 0xF6, "CPI": 0xFE, "OUT": 0xD3, "IN": 0xDB,
}  # fmt: skip
WITH_WORD = {"JMP": 0xC3, "CALL": 0xCD, "SHLD": 0x22, "LHLD": 0x2A, "STA": 0x32, "LDA": 0x3A}
for number, name in enumerate(CONDITIONS):
    WITH_WORD["J" + name] = 0xC2 + 8 * number
    WITH_WORD["C" + name] = 0xC4 + 8 * number

DIRECTIVES = ["ORG", "EQU", "SET", "END", "IF", "ENDIF", "MACRO", "ENDM", "DB", "DW", "DS"]
OPERATORS = ["NOT", "MOD", "AND", "OR", "XOR", "SHL", "SHR"]
MNEMONICS = {"MOV", "MVI", "LXI", "RST"}.union(ALONE, ON_REGISTER, ON_PAIR, ON_STACK_PAIR, ON_INDEX, WITH_BYTE, WITH_WORD)
WORDS = MNEMONICS.union(DIRECTIVES, OPERATORS, REGISTERS, PAIRS, STACK_PAIRS)

LABEL = re.compile(r"[A-Z@?][A-Z0-9@?]{0,5}\Z")
NUMBER = re.compile(r"(?:([0-9][0-9A-F]*)H|([01]+)B|([0-7]+)[OQ]|([0-9]+)D?)\Z")


class Error(Exception):
    pass


def without_comment(line):
    """A line up to the first semicolon that isn't between quotes."""
    quoted = False
    for at, character in enumerate(line):
        if character == "'":
            quoted = not quoted
        if character == ";" and not quoted:
            return line[:at].rstrip()
    return line.rstrip()


def parts_of(text, separator):
    """The parts of a text between separators that aren't between quotes."""
    parts, quoted = [""], False
    for character in text:
        if character == "'":
            quoted = not quoted
        if character == separator and not quoted:
            parts.append("")
        else:
            parts[-1] += character
    if quoted:
        raise Error("a quote that isn't closed")
    return parts


def fields_of(line):
    """The label, if any, whether a colon is behind it, the code and the operands of a line."""
    line = without_comment(line)
    label, colon = None, False
    found = re.match(r"\s*([^\s:']+):", line)
    if found:
        label, colon, line = found[1], True, line[found.end() :]
    words = line.split(None, 2)
    if label is None and len(words) > 1 and words[1] in ("EQU", "SET"):
        return words[0], False, words[1], [words[2]]
    words = line.split(None, 1)
    if not words:
        return label, colon, None, []
    operands = [it.strip() for it in parts_of(words[1], ",")] if len(words) > 1 else []
    return label, colon, words[0], operands


class Assembler:
    def __init__(self):
        self.labels = {}
        self.bytes = {}
        self.at = 0

    def number(self, text, known):
        """The value of one term; None if a label isn't known yet."""
        if text == "$":
            return self.at
        if text[:1].isdigit():
            found = NUMBER.match(text)
            if not found:
                raise Error(f"no number: {text}")
            digits, base = next((it, base) for it, base in zip(found.groups(), (16, 2, 8, 10)) if it is not None)
            return int(digits, base)
        if len(text) == 3 and text[0] == text[2] == "'":
            return ord(text[1])
        if text in WORDS or not LABEL.match(text):
            raise Error(f"no operand: {text}")
        if text in self.labels:
            return self.labels[text]
        if known:
            raise Error(f"not defined: {text}")
        return None

    def value(self, text, known=True):
        """The value of a sum or difference, modulo 65536; None if a label isn't known yet."""
        terms = re.findall(r"[+-]|'.'|[^+\s-]+", text)
        total, sign, wants = 0, 1, True
        for term in terms:
            if term in "+-":
                sign, wants = (-1 if term == "-" else 1), True
                continue
            if not wants:
                raise Error(f"no expression: {text}")
            value = self.number(term, known)
            if value is None:
                return None
            total, wants = total + sign * value, False
        if wants:
            raise Error(f"no expression: {text}")
        if not -65536 < total < 65536:
            raise Error(f"no word: {text}")
        return total % 65536

    def byte(self, text):
        value = self.value(text)
        if 255 < value < 0xFF00:
            raise Error(f"no byte: {text}")
        return value % 256

    def word(self, text):
        return list(self.value(text).to_bytes(2, "little"))

    def instruction(self, code, operands):
        """The bytes of an instruction; chapter 3 of the manual."""

        def one(table):
            if len(operands) != 1 or operands[0] not in table:
                raise Error(f"{code} {','.join(operands)}")
            return table[operands[0]]

        def two():
            if len(operands) != 2:
                raise Error(f"{code} wants two operands")
            return operands

        if code in ALONE:
            if operands:
                raise Error(f"{code} takes no operand")
            return [ALONE[code]]
        if code == "MOV":
            to, source = two()
            if to not in REGISTERS or source not in REGISTERS or to == source == "M":
                raise Error(f"MOV {to},{source}")
            return [0x40 + 8 * REGISTERS[to] + REGISTERS[source]]
        if code == "MVI":
            to, data = two()
            if to not in REGISTERS:
                raise Error(f"MVI {to}")
            return [0x06 + 8 * REGISTERS[to], self.byte(data)]
        if code == "LXI":
            pair, data = two()
            if pair not in PAIRS:
                raise Error(f"LXI {pair}")
            return [0x01 + 16 * PAIRS[pair], *self.word(data)]
        if code in ON_REGISTER:
            base, shift = ON_REGISTER[code]
            return [base + (one(REGISTERS) << shift)]
        if code in ON_PAIR:
            return [ON_PAIR[code] + 16 * one(PAIRS)]
        if code in ON_STACK_PAIR:
            return [ON_STACK_PAIR[code] + 16 * one(STACK_PAIRS)]
        if code in ON_INDEX:
            return [ON_INDEX[code] + 16 * one({"B": 0, "D": 1})]
        if len(operands) != 1:
            raise Error(f"{code} wants one operand")
        if code in WITH_BYTE:
            return [WITH_BYTE[code], self.byte(operands[0])]
        if code in WITH_WORD:
            return [WITH_WORD[code], *self.word(operands[0])]
        number = self.value(operands[0])
        if number > 7:
            raise Error(f"RST {number}")
        return [0xC7 + 8 * number]

    def size(self, code, operands):
        """How many bytes a line stands for."""
        if code == "DB":
            return sum(len(it) - 2 if is_text(it) else 1 for it in operands)
        if code == "DW":
            return 2 * len(operands)
        if code == "DS":
            return self.value(operands[0])
        if code in WITH_WORD or code == "LXI":
            return 3
        return 2 if code in WITH_BYTE or code == "MVI" else 1

    def made(self, code, operands):
        """The bytes of a line."""
        if code == "DB":
            return [byte for it in operands for byte in (it[1:-1].encode("ascii") if is_text(it) else [self.byte(it)])]
        if code == "DW":
            return [byte for it in operands for byte in self.word(it)]
        return self.instruction(code, operands)

    def define(self, label, value):
        if not LABEL.match(label) or label in WORDS:
            raise Error(f"no label: {label}")
        if label in self.labels:
            raise Error(f"defined twice: {label}")
        self.labels[label] = value

    def line(self, text, makes):
        """Takes one line, in the first pass or in the second; False at END."""
        label, colon, code, operands = fields_of(text)
        if code in ("EQU", "ORG", "DS") and len(operands) != 1:
            raise Error(f"{code} wants one operand")
        if code == "EQU":
            if colon or label is None:
                raise Error("EQU wants a name without a colon")
            if not makes:
                self.define(label, self.value(operands[0]))
            return True
        if label is not None and not makes:
            self.define(label, self.at % 65536)
        if code == "ORG":
            self.at = self.value(operands[0])
        elif code == "END":
            if makes and operands:
                self.value(operands[0])
            return False
        elif code == "DS":
            self.at += self.value(operands[0])
        elif code is not None:
            if code not in MNEMONICS and code not in ("DB", "DW"):
                raise Error(f"no code: {code}")
            if code in ("DB", "DW") and not operands:
                raise Error(f"{code} wants an operand")
            size = self.size(code, operands)
            if makes:
                made = self.made(code, operands)
                if len(made) != size:
                    raise Error(f"{len(made)} bytes for {size}")
                self.put(made)
            self.at += size
        if self.at > 65536:
            raise Error("past the end of memory")
        return True

    def put(self, made):
        for offset, byte in enumerate(made):
            if self.at + offset in self.bytes:
                raise Error(f"{self.at + offset:04X} twice")
            self.bytes[self.at + offset] = byte


def is_text(operand):
    """Whether an operand of DB is characters between quotes. (A quote among them, as two, isn't taken.)"""
    if not operand.startswith("'"):
        return False
    if len(operand) < 3 or not operand.endswith("'") or "'" in operand[1:-1]:
        raise Error(f"no text: {operand}")
    if any(not " " <= it <= "~" for it in operand):
        raise Error(f"no characters: {operand!r}")
    return True


def assemble(text):
    """The bytes that a source stands for, by address."""
    made = Assembler()
    lines = text.split("\n")
    for makes in (False, True):
        made.at = 0
        for number, line in enumerate(lines, 1):
            try:
                if not made.line(line, makes):
                    break
            except Error as error:
                raise Error(f"line {number}: {line.strip()}: {error}") from None
        else:
            raise Error("no END")
    return made.bytes
