"""Row files: what they say, as rows with their commands. rows/README.md has the format.

`Reader` reads a file. Its loops are unrolled first, and then each line adds to the row, or to the command, above it.
Texts keep their repeats until they are used, so that long ones take little room.
"""
import ast
import dataclasses
import functools
import os
import re
from pathlib import Path

TOP = Path(__file__).resolve().parent.parent

# The seconds that a run of the program may take.
TIME_LIMIT = 60


class Unreadable(Exception):
    """Why a line of a row file can't be read."""


# ---- texts: bytes with repeats, which are written out only where they are used


class Text:
    """A list of pieces, each with how often it comes."""

    def __init__(self, runs=()):
        self.runs = list(runs)

    def __add__(self, other):
        return Text(self.runs + other.runs)

    def __iadd__(self, other):
        self.runs += other.runs
        return self

    def __len__(self):
        return sum(len(piece) * times for piece, times in self.runs)

    def __bytes__(self):
        return b"".join(piece * times for piece, times in self.runs)


UNIT = re.compile(r"(?P<escape>\\x[0-9a-f]{2}|\\\\)|(?P<digits>%[0-9A-F]{2})|(?P<plain>[^\\])")
REPEAT = re.compile(r"\*([0-9]+)")


def units_of(text):
    """The units of a text, each with how often it comes: `x*999` is one unit."""
    at = 0
    while at < len(text):
        unit = UNIT.match(text, at)
        if unit is None:
            raise Unreadable(r"a \ is followed by neither another one nor x and two hexadecimal digits")
        repeat = REPEAT.match(text, unit.end())
        yield unit, int(repeat[1]) if repeat else 1
        at = (repeat or unit).end()


def bytes_of_unit(unit, digits_are_a_byte):
    escape, digits, plain = unit.group("escape", "digits", "plain")
    if escape:
        return b"\\" if escape == r"\\" else bytes.fromhex(escape[2:])
    if digits and digits_are_a_byte:
        return bytes.fromhex(digits[1:])
    return (digits or plain).encode()


def read_text(text, digits_are_a_byte=False):
    """The bytes that a text of a row file stands for."""
    if not re.search(r"[*\\]", text) and not (digits_are_a_byte and "%" in text):
        return Text([(text.encode(), 1)])
    return Text((bytes_of_unit(unit, digits_are_a_byte), times) for unit, times in units_of(text))


# ---- pieces of files: records, and bytes in other spellings


def read_number(text, length):
    if not re.fullmatch("[0-9]+", text) or int(text) >= 1 << (8 * length):
        raise Unreadable(f"{text!r} is no number of {length} bytes")
    return int(text).to_bytes(length, "big")


def read_field(text):
    """A key or a value, spelled as in a script. Here each byte may be spelled by its digits."""
    return Text() if text == "%" else read_text(text, digits_are_a_byte=True)


def head(*numbers):
    return Text([(b"".join(numbers), 1)])


def value_record(seq, prefix, key, value):
    key, value = read_field(key), read_field(value)
    lengths = len(key).to_bytes(4, "big") + len(value).to_bytes(4, "big")
    return head(read_number(seq, 8), read_number(prefix, 8), lengths) + key + value


def tombstone(seq, prefix, key):
    key = read_field(key)
    return head(read_number(seq, 8), read_number(prefix, 8), len(key).to_bytes(4, "big")) + key


def prefix_tombstone(prefix, seq):
    return head(read_number(prefix, 8), read_number(seq, 8))


RECORDS = {"V": (value_record, 4), "T": (tombstone, 3), "X": (prefix_tombstone, 2)}

SIMPLE = r"(?:V|T|X|hex|zeros|text)\([^()]*\)"
PIECE = re.compile(rf"(?P<simple>{SIMPLE})|first\((?P<count>[0-9]+), (?P<whole>{SIMPLE})\)")


def read_simple_piece(piece):
    word, inside = piece[:-1].split("(", 1)
    if word == "zeros":
        if not re.fullmatch("[0-9]+", inside):
            raise Unreadable(f"{inside!r} is no count of zeros")
        return Text([(b"\0", int(inside))])
    if word == "hex":
        if not re.fullmatch("([0-9a-f]{2}| )*", inside):
            raise Unreadable(f"{inside!r} are no hexadecimal digits in pairs")
        return Text([(bytes.fromhex(inside), 1)])
    if word == "text":
        return read_text(inside)
    record, count = RECORDS[word]
    fields = inside.split(", ")
    if len(fields) != count:
        raise Unreadable(f"{word} has {count} fields, and not {len(fields)}")
    return record(*fields)


def read_pieces(text):
    """The bytes of pieces that are parted by spaces."""
    whole, at = Text(), 0
    while at < len(text):
        piece = PIECE.match(text, at)
        if piece is None:
            raise Unreadable(f"no piece of a file begins with {text[at:at + 30]!r}")
        if piece["simple"]:
            whole += read_simple_piece(piece["simple"])
        else:
            whole += Text([(bytes(read_simple_piece(piece["whole"]))[: int(piece["count"])], 1)])
        at = piece.end()
        if text[at : at + 1] not in ("", " "):
            raise Unreadable(f"a space is missing before {text[at:at + 30]!r}")
        at += 1
    return whole


# ---- loops: the lines of a file without them


@dataclasses.dataclass
class Line:
    """A line of a row file with its place."""

    path: str
    number: int
    text: str

    def place(self):
        return f"{self.path}:{self.number}"


SIGNS = {ast.Add: int.__add__, ast.Sub: int.__sub__, ast.Mult: int.__mul__, ast.FloorDiv: int.__floordiv__,
         ast.Mod: int.__mod__}


def number_of(node, values):
    """The number that a sum, a difference, a product, a quotient or a rest is."""
    if isinstance(node, ast.Constant) and type(node.value) is int:
        return node.value
    if isinstance(node, ast.Name) and node.id in values:
        return int(values[node.id])
    if isinstance(node, ast.BinOp) and type(node.op) in SIGNS:
        return SIGNS[type(node.op)](number_of(node.left, values), number_of(node.right, values))
    raise ValueError


@functools.cache
def parsed(expression):
    return ast.parse(expression.strip(), mode="eval").body


def fill(hole, values):
    """What stands for `{name}`, `{name:02}` or `{2 * name + 1}`."""
    expression, colon, form = hole.partition(":")
    if expression in values and not colon:
        return str(values[expression])
    try:
        return format(number_of(parsed(expression), values), form)
    except (ValueError, SyntaxError, ZeroDivisionError):
        raise Unreadable(f"{{{hole}}} has no value here") from None


def filled(text, values):
    return re.sub(r"\{([^{}]*)\}", lambda hole: fill(hole[1], values), text) if values else text


def body_of(lines, start):
    """The lines of a loop, up to its `end`, and the place behind that."""
    depth = 1
    for at in range(start, len(lines)):
        word = lines[at].text.split(" ", 1)[0]
        depth += (word == "for") - (word == "end")
        if depth == 0:
            return lines[start:at], at + 1
    raise Unreadable("the loop has no end")


def read_table(names, body):
    """The values of a table, line by line, and the rest of the body."""
    table = []
    while body and body[0].text.startswith("|"):
        cells = [cell.strip() for cell in body[0].text.split("|")]
        if len(cells) != len(names) + 2 or cells[-1] != "":
            raise Unreadable(f"line {body[0].number} has not {len(names)} cells between | and |")
        table.append(dict(zip(names, cells[1:-1])))
        body = body[1:]
    return table, body


def read_loop(text, body):
    """The values that a loop goes over, and its lines."""
    loop = re.fullmatch(r"for ([a-z]+(?:, [a-z]+)*) in(?: (.+))?", text)
    if loop is None:
        raise Unreadable("a loop is `for NAME in 1..9`, `for NAME in WORD..` or `for NAME, NAME in` over a table")
    names, words = loop[1].split(", "), loop[2]
    if words is None:
        rounds, body = read_table(names, body)
    elif span := re.fullmatch(r"([0-9]+)\.\.([0-9]+)", words):
        rounds = [{names[0]: number} for number in range(int(span[1]), int(span[2]) + 1)]
    else:
        rounds = [{names[0]: word} for word in words.split(" ")]
    if not rounds or not body or (words and len(names) > 1):
        raise Unreadable("the loop goes over nothing, or has no lines, or too many names")
    return rounds, body


def unrolled(lines, values):
    """The lines, with those of each loop as often as it goes round."""
    at = 0
    while at < len(lines):
        line = lines[at]
        at += 1
        try:
            if line.text.startswith("for "):
                body, at = body_of(lines, at)
                rounds, body = read_loop(filled(line.text, values), body)
            else:
                yield Line(line.path, line.number, filled(line.text, values))
                continue
        except Unreadable as why:
            raise Unreadable(f"{line.place()}: {why}") from None
        for more in rounds:
            yield from unrolled(body, values | more)


def read_lines(path):
    """The lines of a file that are neither empty nor a comment, without the spaces before them."""
    shown = os.path.relpath(path, TOP)
    lines = []
    try:
        texts = Path(path).read_text(encoding="utf-8").split("\n")
    except OSError as why:
        raise Unreadable(f"{shown}: {why.strerror}") from None
    except UnicodeDecodeError:
        raise Unreadable(f"{shown}: it is no UTF-8 text") from None
    for number, text in enumerate(texts, 1):
        if text != text.rstrip():
            raise Unreadable(f"{shown}:{number}: the line ends with a space")
        if text and not text.lstrip().startswith("#"):
            lines.append(Line(shown, number, text.lstrip()))
    return lines


# ---- rows

# A folder among files.
FOLDER = None

# Lines that stand once in a row before its commands, or once behind a command.
ONCE = {"named", "locked", "unended", "script", "input", "output", "status", "no", "as", "any"}


@dataclasses.dataclass
class Files:
    """Files by their names. Beside them there are those that were there before, where `as_before` says so. Where it is
    said that there is none, or that any may be there, none is named."""

    stored: dict = dataclasses.field(default_factory=dict)
    as_before: bool = False
    none: bool = False
    any: bool = False

    def are_named(self):
        return bool(self.stored) or self.as_before


@dataclasses.dataclass
class Command:
    """A run of the program, and what has to come of it."""

    words: list
    # Whether another program has the lock of the folder meanwhile.
    locked: bool = False
    script: list = dataclasses.field(default_factory=list)
    ended: bool = True
    script_path: Path = None
    input: str = "script"
    printed: list = dataclasses.field(default_factory=list)
    printed_path: Path = None
    output: str = "kept"
    errors: list = None
    # Texts that stand somewhere on standard error.
    says: list = dataclasses.field(default_factory=list)
    status: int = 0
    # None where nothing is said: all files are as before.
    files: Files = None

    def shown(self):
        return " ".join(bytes(word).decode(errors="backslashreplace") for word in self.words)

    def script_bytes(self):
        if self.script_path:
            return self.script_path.read_bytes()
        script = b"".join(bytes(line) + b"\n" for line in self.script)
        return script if self.ended else script[:-1]

    def printed_bytes(self):
        if self.printed_path:
            return self.printed_path.read_bytes()
        return b"".join(bytes(line) + b"\n" for line in self.printed)


@dataclasses.dataclass
class Row:
    place: str
    name: str
    folder: bytes = b"FOLDER"
    files: Files = dataclasses.field(default_factory=Files)
    commands: list = dataclasses.field(default_factory=list)
    # What is told of a wrong row.
    differs: list = dataclasses.field(default_factory=list)
    # The program that a wrong row is played on, where it is another one.
    program: Path = None
    # How long a run may take.
    seconds: int = TIME_LIMIT


class Reader:
    """Reads the rows of a file."""

    def __init__(self, path, wrong=False):
        self.path, self.wrong = path, wrong
        self.rows = []
        self.row = self.command = self.file = None
        self.said = set()
        self.of_row = {"named": self.name_folder, "$": self.begin_command, "file": self.add_file,
                       "folder": self.add_folder, "+": self.add_pieces, "no": self.no_files}
        self.of_command = {"locked": self.lock_folder, "<": self.add_line, "unended": self.leave_unended,
                           "script": self.set_script, "input": self.set_input, ">": self.add_reply,
                           "output": self.set_output, "!": self.add_error, "says": self.add_saying,
                           "status": self.set_status, "as": self.keep_files, "any": self.take_any_files}
        if wrong:
            self.of_row |= {"differs": self.add_difference, "program": self.set_program, "seconds": self.set_seconds}

    def read(self):
        for line in unrolled(read_lines(self.path), {}):
            try:
                self.read_line(line)
            except Unreadable as why:
                raise Unreadable(f"{line.place()}: {why}") from None
        if not self.rows:
            raise Unreadable(f"{os.path.relpath(self.path, TOP)}: there is no row")
        for row in self.rows:
            self.check_row(row)
        return self.rows

    def read_line(self, line):
        word, _, rest = line.text.partition(" ")
        if word == "row":
            self.begin_row(line.place(), rest)
            return
        if self.row is None:
            raise Unreadable("a line stands before the first row")
        if word in self.of_command and self.command is None:
            raise Unreadable(f"{word!r} stands before the first command of the row")
        take = self.of_row.get(word) or self.of_command.get(word)
        if take is None:
            raise Unreadable(f"no line begins with {word!r}")
        if word in ONCE and word in self.said:
            raise Unreadable(f"a line begins with {word!r} already")
        self.said.add(word)
        take(rest)

    # -- the row

    def begin_row(self, place, name):
        if not name or any(row.name == name for row in self.rows):
            raise Unreadable("a row needs a name that no other row of the file has")
        self.row = Row(place, name)
        self.rows.append(self.row)
        self.command = self.file = None
        self.said = set()

    def check_row(self, row):
        if not row.commands:
            raise Unreadable(f"{row.place}: the row has no command")
        if bool(row.differs) != self.wrong:
            raise Unreadable(f"{row.place}: the row does not say how it differs")

    def name_folder(self, rest):
        if self.command is not None:
            raise Unreadable("the folder is named before the first command")
        self.row.folder = bytes(read_text(rest))

    def add_difference(self, rest):
        self.row.differs.append(rest)

    def set_program(self, rest):
        self.row.program = self.found(f"rows/wrong/programs/{rest}")

    def set_seconds(self, rest):
        self.row.seconds = int(rest)

    # -- files

    def files(self):
        """The files that are spoken of: those after the last command, or those before the first one."""
        if self.command is None:
            return self.row.files
        if self.command.files is None:
            self.command.files = Files()
        return self.command.files

    def add_stored(self, name, content):
        files = self.files()
        name = bytes(read_text(name))
        if not name or name in files.stored:
            raise Unreadable("the file has no name, or another one has it")
        if files.none or files.any:
            raise Unreadable("it is said that there is no file, or that any may be there")
        files.stored[name] = content
        self.file = name

    def add_file(self, rest):
        name, _, pieces = rest.partition(" ")
        self.add_stored(name, read_pieces(pieces))

    def add_folder(self, rest):
        self.add_stored(rest, FOLDER)
        self.file = None

    def add_pieces(self, rest):
        if self.file is None:
            raise Unreadable("there is no file to which the pieces are added")
        self.files().stored[self.file] += read_pieces(rest)

    def no_files(self, rest):
        if rest != "files" or self.files().are_named() or self.files().any:
            raise Unreadable("it is `no files`, and no others are named then")
        self.files().none = True

    def keep_files(self, rest):
        if rest != "before" or self.files().none or self.files().any:
            raise Unreadable("it is `as before`, where neither no file nor any is there")
        self.files().as_before = True

    def take_any_files(self, rest):
        if rest != "files" or self.files().are_named() or self.files().none:
            raise Unreadable("it is `any files`, and no others are named then")
        self.files().any = True

    # -- the command

    def begin_command(self, rest):
        words = rest.split(" ") if rest else []
        if "" in words:
            raise Unreadable('words are parted by one space, and "" is the empty word')
        self.command = Command([Text() if word == '""' else read_text(word) for word in words])
        self.row.commands.append(self.command)
        self.file = None
        self.said = set()

    def lock_folder(self, rest):
        if rest:
            raise Unreadable("`locked` stands alone")
        self.command.locked = True

    def add_line(self, rest):
        if self.command.script_path or self.command.input != "script" or not self.command.ended:
            raise Unreadable("the script is a file, or not read, or has ended")
        self.command.script.append(read_text(rest))

    def leave_unended(self, rest):
        if rest or not self.command.script:
            raise Unreadable("`unended` stands alone, behind the last line of a script")
        self.command.ended = False

    def set_script(self, rest):
        if self.command.script or self.command.input != "script":
            raise Unreadable("the script has lines already, or is not read")
        self.command.script_path = self.found(rest)

    def set_input(self, rest):
        if rest not in ("folder", "closed") or self.command.script or self.command.script_path:
            raise Unreadable("it is `input folder` or `input closed`, and no script")
        self.command.input = rest

    def add_reply(self, rest):
        if self.command.printed_path or self.command.output != "kept":
            raise Unreadable("the output is a file, or not kept")
        self.command.printed.append(read_text(rest))

    def set_output(self, rest):
        if self.command.printed:
            raise Unreadable("the output has lines already")
        if rest in ("full", "closed", "broken"):
            self.command.output = rest
        else:
            self.command.printed_path = self.found(rest)

    def found(self, path):
        found = TOP / path
        if not found.is_file():
            raise Unreadable(f"there is no file {path!r}")
        return found

    def add_error(self, rest):
        if self.command.errors is None:
            self.command.errors = []
        self.command.errors.append(read_text(rest))

    def add_saying(self, rest):
        if not rest:
            raise Unreadable("a text is missing that standard error says")
        self.command.says.append(read_text(rest))

    def set_status(self, rest):
        if not re.fullmatch("[0-9]{1,3}", rest):
            raise Unreadable(f"{rest!r} is no status")
        self.command.status = int(rest)
