"""Reads a VCD as a stream: its variables, and the changes of those that are wanted, block by block.

Two regular expressions do the work of the hot loop: one looks for a line that does not have the plain form, one change
or one time a line, and one finds the lines of the wanted codes. A block with any other line, such as `$dumpvars` or two
changes on a line, goes through a tokenizer that knows the whole grammar of IEEE 1800 section 21.7, with line numbers.
"""
from __future__ import annotations

import gzip
import re
import subprocess
import sys
import tempfile
import time
import zlib
from shutil import which
from typing import IO, Callable, Collection, Dict, FrozenSet, Iterator, List, Optional, Sequence, Set, Tuple, cast

from ..run import FailureError, shown

BLOCK = 1 << 20
HEADER_LINE = 1 << 20
LONGEST_LINE = 1 << 24
MOST_SCOPES = 1000
MOST_WORDS = 4096  # of a definition
MOST_BITS = 1 << 20
MOST_CODE = 64  # characters
SHOW_ABOVE = 16 << 20
# VHDL's other values go through the tokenizer, which makes them 0, 1 and x.
VALUES = frozenset(b"01xzXZUWLH-")
_VHDL = bytes.maketrans(b"UWLH-", b"xx01x")
_ODD_LINE = re.compile(rb"\n(?!(?:[01xzXZ][!-~]+|[bB][01xzXZ]+ [!-~]+|#[0-9]+|[rRsS]\S* [!-~]+|)(?:\n|\Z))")
# The same in a form that is a quarter faster, with possessive repeats.
_PLAIN = rb"\n(?:(?:[01xzXZ]|[bB][01xzXZ]++ |[rRsS]\S*+ )[!-~]++\n|#[0-9]++\n|\n)*+"
_IS_PLAIN = re.compile(_PLAIN).fullmatch if sys.version_info >= (3, 11) else None
_VECTOR = re.compile(rb"[bB][01xzXZUWLH-]+")
_RANGES = re.compile(r"\s*\[(-?\d{1,9})(?::(-?\d{1,9}))?\]$|\((-?\d{1,9})\)$")
_CUT_OFF = re.compile(rb"[01xzXZbBrRsS#$][!-~]*( [!-~]*)?$")
_NO_BITS = ("real", "realtime", "string", "event", "parameter", "real_parameter")
_DAMAGE = (EOFError, zlib.error, gzip.BadGzipFile)
CONVERTERS = "FSDB, WLF, VPD and SHM have a converter of their own simulator (fsdb2vcd, wlf2vcd, ..)"


class Variable:
    """One name of a code. `high` and `low` are the bits that the name's last range says, or None."""

    __slots__ = ("scope", "name", "bits", "high", "low", "code", "kind")

    def __init__(
        self,
        scope: Tuple[str, ...],
        name: str,
        bits: int,
        high: Optional[int],
        low: Optional[int],
        code: bytes,
        kind: str,
    ):
        self.scope, self.name, self.bits, self.high, self.low, self.code, self.kind = (
            scope,
            name,
            bits,
            high,
            low,
            code,
            kind,
        )


Feeder = Optional["subprocess.Popen[bytes]"]


def is_plain(block: bytes) -> bool:
    """Whether each line of a block, which begins with an LF, has the plain form."""
    return _IS_PLAIN(block) is not None if _IS_PLAIN else _ODD_LINE.search(block) is None


def open_wave(path: str) -> Tuple[IO[bytes], Feeder, int]:
    """Opens a VCD, plain or compressed by gzip, or an FST, which `fst2vcd` converts; `-` is standard input.

    Returns the stream, the process that feeds it, and its size in bytes, if that is known.
    """
    if path == "-" and sys.stdin is None:
        raise FailureError("standard input is closed", 4)
    if path == "-":
        return sys.stdin.buffer, None, 0
    try:
        file = open(path, "rb")
        head = file.read(16)
        size = file.seek(0, 2)
        file.seek(0)
    except OSError as error:
        raise FailureError(f"{path}: {error.strerror}", 4) from error
    if head[:2] == b"\x1f\x8b":
        return cast(IO[bytes], gzip.GzipFile(fileobj=file)), None, 0
    if head[:1] == b"\0" or head[:9] == b"\xfe" + bytes(7) + b"\x01":
        file.close()
        if which("fst2vcd") is None:
            raise FailureError(
                (
                    f"{path}: an FST file is read by the program fst2vcd, which is not in PATH: install gtkwave, or"
                    " dump a VCD"
                ),
                4,
            )
        said = tempfile.TemporaryFile()  # a pipe that is read at the end could be full before, and stop fst2vcd
        feeder = subprocess.Popen(["fst2vcd", "-f", path], stdout=subprocess.PIPE, stderr=said)
        feeder.stderr = said
        assert feeder.stdout is not None
        return feeder.stdout, feeder, 0
    if head[:4] in (b"\x89HDF", b"LXT\0", b"VZT\0") or b"\0" in head:
        file.close()
        raise FailureError(f"{path}: this is neither VCD nor FST; {CONVERTERS}")
    return file, None, size


class Reader:
    """Reads the header at once; `wanted(name, bits)` says which variables are kept."""

    def __init__(
        self,
        stream: IO[bytes],
        wanted: Callable[[str, int], bool],
        name: str = "",
        feeder: Feeder = None,
        size: int = 0,
        quiet: bool = False,
    ):
        self.stream, self.name, self.feeder, self.size, self.quiet = stream, name, feeder, size, quiet
        self.variables: List[Variable] = []
        self.kinds: Dict[str, int] = {}
        self.timescale, self.scopes = "", 0
        self.line, self.read_bytes, self.block_line = 0, 0, 0
        self.left = self.block = b""
        self.notes: List[str] = []
        self._pending: Optional[bytes] = None  # a vector without its code
        self._is_comment = self._has_crlf = False
        self._wanted = wanted
        try:
            self._header()
        except FailureError:
            self.close()
            raise

    def fail(self, words: str, line: Optional[int] = None) -> FailureError:
        return FailureError(f"{self.name} line {line or self.line}: {words}")

    def _read(self, call: Callable[[int], bytes], most: int) -> bytes:
        try:
            text = call(most)
        except _DAMAGE as error:
            raise FailureError(f"{self.name}: the compressed file is damaged: {error}") from error
        except OSError as error:
            raise FailureError(f"{self.name}: {error.strerror or error}", 4) from error
        self.read_bytes += len(text)
        return text

    # ---- the header

    def _header(self) -> None:
        keyword, words, began, scope = "", [], 0, []  # type: str, List[str], int, List[str]
        while True:
            text = self._read(self.stream.readline, HEADER_LINE)
            if not text:
                raise self._no_header(keyword)
            self.line += 1
            if len(text) >= HEADER_LINE:
                raise self.fail(f"a line of the header has more than {HEADER_LINE} bytes")
            self._has_crlf = self._has_crlf or text.endswith(b"\r\n")
            parts = text.split()
            if (
                not keyword
                and len(parts) > 5
                and parts[0] == b"$var"
                and parts[-1] == b"$end"
                and parts.count(b"$end") == 1
                and len(parts) < MOST_WORDS
            ):
                self._variable(text.decode("latin-1").split()[1:-1], scope)  # the usual line
                continue
            for at, word in enumerate(parts):
                if not keyword:
                    if word[:1] != b"$" or word == b"$end":
                        raise self.fail(
                            f"a keyword such as $var is expected here, and not '{shown(word)}'"
                            + (": this is not a VCD" if self.line == 1 else "")
                        )
                    keyword, words, began = word.decode("latin-1"), [], self.line
                elif word != b"$end":
                    if keyword in ("$var", "$scope", "$timescale"):
                        words.append(word.decode("latin-1"))
                        if len(words) > MOST_WORDS:
                            raise self.fail(f"{keyword} has no $end", began)
                elif keyword == "$enddefinitions":
                    left = b" ".join(parts[at + 1 :])
                    self.left = b"\n" + left + (b"\n" if left else b"")
                    return
                else:
                    self._definition(keyword, words, scope)
                    keyword = ""

    def _no_header(self, keyword: str) -> FailureError:
        what = (
            "the file is empty" if not self.line else f"the file ends within {keyword}" if keyword else "the file ends"
        )
        self._ended()
        return self.fail(f"{what} before $enddefinitions: this is not a VCD, or only a part of one", max(self.line, 1))

    def _definition(self, keyword: str, words: List[str], scope: List[str]) -> None:
        if keyword == "$scope":
            if len(words) < 2:
                raise self.fail("$scope needs a kind and a name")
            scope.append(words[1].lstrip("\\"))
            self.scopes += 1
            if len(scope) > MOST_SCOPES:
                raise self.fail(f"more than {MOST_SCOPES} scopes are nested")
        elif keyword == "$upscope":
            if not scope:
                raise self.fail("$upscope without its $scope")
            scope.pop()
        elif keyword == "$timescale":
            self.timescale = "".join(words)
        elif keyword == "$var":
            self._variable(words, scope)

    def _variable(self, words: List[str], scope: List[str]) -> None:
        if len(words) < 4:
            raise self.fail("$var needs a kind, a number of bits, a code and a name")
        kind, bits, code = words[:3]
        if not (bits.isascii() and bits.isdigit()) or len(bits) > 9 or int(bits) > MOST_BITS:
            raise self.fail(f"'{shown(bits)}' is not a number of bits of a variable")
        if not (code.isascii() and code.isprintable()):
            raise self.fail("a code has printable characters only")
        if len(code) > MOST_CODE:
            raise self.fail(f"a code has more than {MOST_CODE} characters")
        self.kinds[kind] = self.kinds.get(kind, 0) + 1
        if kind in _NO_BITS or int(bits) == 0:
            return
        name = " ".join(words[3:]).lstrip("\\")
        high: Optional[int] = None
        low: Optional[int] = None
        found = _RANGES.search(name) if name.endswith(("]", ")")) else None
        if found:
            name = name[: found.start()].rstrip()
            high = int(found[1] or found[3])
            low = high if found[2] is None else int(found[2])
        path, _, name = name.rpartition(".")
        if self._wanted(name, int(bits)):
            where = (*scope, *path.split(".")) if path else tuple(scope)
            self.variables.append(Variable(where, name, int(bits), high, low, code.encode("latin-1"), kind))

    # ---- the changes

    def blocks(self, wanted: Collection[bytes]) -> Iterator[Sequence[bytes]]:
        """Yields lists of lines: `#time`, a value and its code as `1!` and `b01 !`, and the marks `$off` and `$on`."""
        codes = frozenset(wanted) or frozenset((b"\x7f",))
        pick = re.compile(rb"\n((?:[01xzXZ]|[bB][01xzXZ]+ )(?:" + either(codes) + rb")(?=\n)|#[0-9]+(?=\n))")
        progress = Progress(self)
        for block in self._cut():
            self.block, self.block_line = block, self.line
            # `block` begins with the LF that ends the line before it
            if self._pending is None and not self._is_comment and is_plain(block):
                yield pick.findall(block)
            else:
                yield self._tokens(block, codes)
            self.line += block.count(b"\n") - 1
            progress.show()
        if self._is_comment:
            raise self.fail("the file ends within $comment")
        if self._pending is not None:
            self.notes.append("the file ends within a change, which is left out: the simulation was cut off")
        progress.done()

    def _cut(self) -> Iterator[bytes]:
        """Yields blocks of whole lines, each with an LF before it, which ends the block before."""
        rest = self.left[1:]
        while True:
            more = self._read(self.stream.read, BLOCK)
            if not more:
                break
            if self._has_crlf:
                more = more.replace(b"\r\n", b"\n")
                if more.endswith(b"\r"):
                    more = more[:-1]
            end = more.rfind(b"\n") + 1
            if end:
                yield b"\n" + rest + more[:end]
                rest = more[end:]
            else:
                rest += more
                if len(rest) > LONGEST_LINE:
                    raise self.fail(f"a line has more than {LONGEST_LINE} bytes", self.line + 1)
        self._ended()
        last = rest.strip()
        if last and last != b"$end" and _CUT_OFF.match(last):
            # it may have been longer, so it is left out
            self.notes.append("the file ends within a line, which is left out: the simulation was cut off")
        elif last:
            yield b"\n" + rest + b"\n"

    def line_of(self, time_line: bytes) -> str:
        """Returns the line number of a time in the block at hand, in words."""
        at = self.block.rfind(b"\n" + time_line)
        return (
            f"line {self.block_line + self.block.count(bytes((10,)), 0, at) + 1}"
            if at >= 0
            else f"before line {self.block_line + 1}"
        )

    def close(self) -> None:
        if self.feeder:
            self.feeder.kill()
            self.feeder.wait()
            assert self.feeder.stderr is not None
            self.feeder.stderr.close()
        if self.name != "-":
            self.stream.close()

    def _ended(self) -> None:
        if self.feeder:
            assert self.feeder.stderr is not None
            status = self.feeder.wait()
            self.feeder.stderr.seek(0)
            said = self.feeder.stderr.read(4096).decode("latin-1").strip()
            if status != 0 or (self.line == 0 and said):
                raise FailureError(
                    f"{self.name}: fst2vcd could not read it{': ' + shown(said.splitlines()[0], 200) if said else ''}"
                )

    def _tokens(self, block: bytes, codes: FrozenSet[bytes]) -> List[bytes]:
        out: List[bytes] = []
        for number, line in enumerate(block[1:].split(b"\n"), self.line + 1):
            for word in line.split():
                if self._is_comment:
                    self._is_comment = word != b"$end"
                elif self._pending is not None:
                    if word in codes and self._pending[:1] == b"b":
                        out.append(self._pending + b" " + word)
                    self._pending = None
                else:
                    self._token(word, codes, out, number)
        return out

    def _token(self, word: bytes, codes: FrozenSet[bytes], out: List[bytes], number: int) -> None:
        head = word[0]
        if head in VALUES and len(word) > 1:
            if word[1:] in codes:
                out.append(word[:1].translate(_VHDL) + word[1:])
        elif head == 35 and word[1:].isdigit():
            out.append(word)
        elif head in b"bB" and _VECTOR.fullmatch(word):
            self._pending = b"b" + word[1:].translate(_VHDL)
        elif head in b"rRsS":
            self._pending = b"r"
        elif head == 36:
            self._mark(word, out, number)
        elif head in b"pP":
            raise self._extended(number)
        elif head in VALUES:
            raise self.fail(f"'{shown(word)}' is a value without a code", number)
        else:
            raise self.fail(f"'{shown(word)}' is neither a change nor a time", number)

    def _mark(self, word: bytes, out: List[bytes], number: int) -> None:
        if word == b"$comment":
            self._is_comment = True
        elif word == b"$dumpoff":
            out.append(b"$off")
        elif word in (b"$dumpon", b"$dumpall", b"$dumpvars"):
            if word != b"$dumpvars":
                out.append(b"$on")
        elif word.startswith(b"$dumpports"):
            raise self._extended(number)
        elif word != b"$end":
            raise self.fail(f"'{shown(word)}' has no place among the changes", number)

    def _extended(self, number: int) -> FailureError:
        return self.fail("this is an extended VCD ($dumpports), which is not read: dump with $dumpvars", number)


class Progress:
    """Prints a line on standard error, for a file that takes long."""

    def __init__(self, reader: Reader):
        self.reader, self.began, self.told = reader, time.monotonic(), time.monotonic()
        self.is_terminal = sys.stderr.isatty()
        self.each = 0.5 if self.is_terminal else 10.0
        self.written = False

    def show(self) -> None:
        reader = self.reader
        if (
            reader.quiet
            or reader.read_bytes < SHOW_ABOVE
            and reader.size < SHOW_ABOVE
            or time.monotonic() - self.told < self.each
        ):
            return
        self.told = time.monotonic()
        of = f" of {reader.size / 1e6:.0f}" if reader.size else ""
        speed = reader.read_bytes / 1e6 / (self.told - self.began)
        left = f", {(reader.size - reader.read_bytes) / 1e6 / speed:.0f} s left" if reader.size and speed else ""
        text = f"tlbridge-trace: {reader.read_bytes / 1e6:.0f}{of} MB, {speed:.0f} MB/s{left}"
        print(
            "\r" * self.is_terminal + text.ljust(60 * self.is_terminal),
            end="" if self.is_terminal else "\n",
            file=sys.stderr,
            flush=True,
        )
        self.written = True

    def done(self) -> None:
        if self.written and self.is_terminal:
            print("\r" + " " * 70 + "\r", end="", file=sys.stderr, flush=True)


def either(codes: Collection[bytes]) -> bytes:
    """Returns a regular expression of the codes, as a tree of their letters."""

    def tree(words: Set[bytes]) -> bytes:
        heads: Dict[bytes, Set[bytes]] = {}
        for word in words:
            if word:
                heads.setdefault(word[:1], set()).add(word[1:])
        if not heads:
            return b""
        ends = sorted(head for head, rest in heads.items() if rest == {b""})
        said = [b"[" + b"".join(map(re.escape, ends)) + b"]"] if ends else []
        said += [re.escape(head) + tree(rest) for head, rest in sorted(heads.items()) if rest != {b""}]
        text = b"(?:" + b"|".join(said) + b")" if len(said) > 1 or b"" in words else said[0]
        return text + b"?" if b"" in words else text

    return tree(set(codes))
