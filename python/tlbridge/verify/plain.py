"""Rewrites SystemVerilog that yosys 0.23 does not read, in a copy that only yosys gets.

Each form is replaced by one that means the same: `return` by an assignment to the function, packages by declarations
outside modules, `inside` of a simple operand by comparisons. Other forms stay as they are.
"""
from __future__ import annotations

import re
from typing import Callable, Dict, List, NamedTuple, Optional, Tuple

_TOKEN = re.compile(
    r"""(?P<space>(?:\s+|//[^\n]*|/\*.*?\*/|`(?:timescale|default_nettype)[^\n]*)*)(?P<word>"(?:\\.|[^"\\])*"|\\\S+\s"""
    r"""|[`$]?[A-Za-z_][\w$]*|\d*'[sS]?[bodhBODH][0-9a-fA-FxXzZ?_]+|'[01xXzZ](?!\w)|\d[\d_.]*\w*|::|.)?""",
    re.DOTALL,
)
_CLOSING = {"(": ")", "[": "]", "{": "}"}
_LOOPS = ("for", "while", "repeat", "foreach")
_CASES = ("case", "casez", "casex")
_TYPES = ("logic", "bit", "reg", "int", "integer", "byte", "shortint", "longint")


class _Word(str):
    """A token, with what is between it and the one before."""

    space = " "


class _CannotRewrite(Exception):
    """A function has a form that is not known here."""


class _Statement(NamedTuple):
    """A statement of a function. Its kind is plain, return, block, if, case or loop."""

    kind: str
    head: List[str]  # all of a plain statement, the value of a return, or a condition with its keyword
    parts: List["_Part"] = []  # the statements inside

    @property
    def returns(self) -> bool:
        return self.kind == "return" or any(inner.returns for part in self.parts for inner in part.statements)


class _Part(NamedTuple):
    label: List[str]  # of a case item
    statements: List[_Statement]


# ---- functions with return


def _closed(words: List[str], at: int) -> int:
    """Returns the place after the bracket that closes the one at this place."""
    closing = [_CLOSING[words[at]]]
    while closing:
        at += 1
        if at >= len(words):
            raise _CannotRewrite
        if words[at] in _CLOSING:
            closing.append(_CLOSING[words[at]])
        elif words[at] == closing[-1]:
            closing.pop()
    return at + 1


def _until(words: List[str], at: int, end: str) -> int:
    """Returns the place of the next `end` outside of brackets."""
    while at < len(words) and words[at] != end:
        at = _closed(words, at) if words[at] in _CLOSING else at + 1
    if at >= len(words):
        raise _CannotRewrite
    return at


def _after_label(words: List[str], at: int) -> int:
    return at + 2 if words[at : at + 1] == [":"] else at


def _statement(words: List[str], at: int) -> Tuple[_Statement, int]:
    begin = at
    if words[at] in ("unique", "unique0", "priority"):
        at += 1
    word = words[at]
    if word == "begin":
        inner, at = _statements(words, _after_label(words, at + 1), ("end",))
        return _Statement("block", [], [_Part([], inner)]), _after_label(words, at + 1)
    if word == "if" or word in _LOOPS:
        end = _closed(words, at + 1)
        first, after = _statement(words, end)
        parts = [_Part([], [first])]
        if word == "if" and words[after : after + 1] == ["else"]:
            second, after = _statement(words, after + 1)
            parts.append(_Part([], [second]))
        head = words[begin + (word == "if" and begin < at) : end]  # yosys has no `unique if`
        return _Statement("if" if word == "if" else "loop", head, parts), after
    if word in _CASES:
        end = _closed(words, at + 1)
        head, parts, at = words[begin:end], [], end
        while words[at] != "endcase":
            stop = at + 1 if words[at] == "default" else _until(words, at, ":")
            label = words[at:stop]
            inside, at = _statement(words, stop + 1 if words[stop] == ":" else stop)
            parts.append(_Part(label, [inside]))
        return _Statement("case", head, parts), at + 1
    if word in ("do", "forever", "fork", "wait"):
        raise _CannotRewrite
    end = _until(words, at, ";")
    if word == "return":
        return _Statement("return", words[at + 1 : end]), end + 1
    return _Statement("plain", words[begin : end + 1]), end + 1


def _statements(words: List[str], at: int, ends: Tuple[str, ...] = ()) -> Tuple[List[_Statement], int]:
    found = []
    while at < len(words) and words[at] not in ends:
        one, at = _statement(words, at)
        found.append(one)
    if ends and at >= len(words):
        raise _CannotRewrite
    return found, at


def _text(statements: List[_Statement], name: str) -> List[str]:
    """Returns statements as words. All that comes after a statement with a return is moved into each of its paths."""
    if not statements:
        return []
    one, rest = statements[0], statements[1:]

    def path(part: _Part) -> List[str]:
        return ["begin", *_text([*part.statements, *(rest if one.returns else [])], name), "end"]

    after = [] if one.returns else _text(rest, name)
    if one.kind == "return":
        return [name, "=", *one.head, ";"] if one.head else []
    if one.kind == "plain":
        return [*one.head, *after]
    if one.kind == "block":
        return [*path(one.parts[0]), *after]
    if one.kind == "loop":
        if one.returns:
            raise _CannotRewrite
        return [*one.head, *path(one.parts[0]), *after]
    if one.kind == "if":
        other = path(one.parts[1] if len(one.parts) > 1 else _Part([], []))
        return [*one.head, *path(one.parts[0]), *(["else", *other] if len(other) > 2 else []), *after]
    said = list(one.head)
    for part in one.parts:
        said += [*part.label, ":", *path(part)]
    if one.returns and not any(part.label == ["default"] for part in one.parts):
        said += ["default", ":", *path(_Part([], []))]
    return [*said, "endcase", *after]


def _function(words: List[str]) -> List[str]:
    """Returns a function, from `function` to before `endfunction`, without return. One without a value is a task."""
    end = _until(words, 0, ";")
    at = next((place for place in range(end) if words[place] == "("), end)
    name, body = words[at - 1], words[end + 1 :]
    is_void = "void" in words[:at]
    head = ["task" if word == "function" else word for word in words[: end + 1] if word != "void"] if is_void else None
    head = head or words[: end + 1]
    if "return" not in body:
        return [*head, *body]
    return [*head, *_text(_statements(body, 0)[0], name)]


def _functions(words: List[str]) -> List[str]:
    made: List[str] = []
    at = 0
    while at < len(words):
        if words[at] == "function" and words[at - 1 : at] not in (["import"], ["export"], ["extern"]):
            end = at
            while end < len(words) and words[end] != "endfunction":
                end += 1
            try:
                new = _function(words[at:end])
            except (_CannotRewrite, IndexError):
                new = words[at:end]
            made += [*new, "endtask" if "task" in new[:1] else "endfunction"]
            at = _after_label(words, end + 1)
            continue
        made.append(words[at])
        at += 1
    return made


# ---- packages, assertions, and small forms


def _packages(words: List[str]) -> List[str]:
    """Puts the contents of packages outside, and leaves imports out."""
    names = {after for word, after in zip(words, words[1:]) if word == "package"}
    made: List[str] = []
    at = 0
    while at < len(words):
        word = words[at]
        if word == "package" and words[at + 1] in names:
            at = _until(words, at, ";") + 1
        elif word == "endpackage":
            at = _after_label(words, at + 1)
        elif word == "import" and words[at + 1] in names:
            at = _until(words, at, ";") + 1
        elif word in names and words[at + 1 : at + 2] == ["::"]:
            at += 2
        else:
            made.append(word)
            at += 1
    return made


def _assertions(words: List[str]) -> List[str]:
    """Leaves concurrent assertions out."""
    made: List[str] = []
    at = 0
    while at < len(words):
        if words[at] in ("assert", "assume", "cover", "restrict") and words[at + 1 : at + 2] == ["property"]:
            if made[-1:] == [":"]:
                del made[-2:]
            at = _until(words, at, ";") + 1
        elif words[at] in ("property", "sequence") and words[at + 1 : at + 2] != ["("]:
            end = f"end{words[at]}"
            while at < len(words) and words[at] != end:
                at += 1
            at = _after_label(words, at + 1)
        elif words[at] in ("timeunit", "timeprecision"):
            at = _until(words, at, ";") + 1
        else:
            made.append(words[at])
            at += 1
    return made


def _operand_before(made: List[str]) -> Optional[int]:
    """Returns the place at which the simple operand before this place begins: a name with members and bits."""
    at = len(made)
    while at > 0:
        if made[at - 1] == "]":
            depth = 1
            at -= 1
            while at > 0 and depth:
                at -= 1
                depth += {"]": 1, "[": -1}.get(made[at], 0)
            continue
        if not re.fullmatch(r"[A-Za-z_][\w$]*", made[at - 1]):
            return None
        at -= 1
        if at == 0 or made[at - 1] != ".":
            return at
        at -= 1
    return None


def _declared(words: List[str]) -> List[str]:
    """Returns a declaration of a local variable, up to its semicolon, with its first value in an assignment."""
    at = next((place for place, word in enumerate(words) if word == "="), None)
    if at is None or words[at + 1 : at + 2] == ["="]:
        return words
    if "," in words:
        raise _CannotRewrite
    return [*words[:at], ";", words[at - 1], *words[at:]]


def _locals(words: List[str]) -> List[str]:
    """Variables of a block that are automatic, and those of an automatic function that have a first value."""
    made: List[str] = []
    at, is_inside = 0, False
    while at < len(words):
        word, before = words[at], words[at - 1] if at else ""
        if word == "automatic":
            is_inside = is_inside or before == "function"
        if word == "endfunction":
            is_inside = False
        is_own = word == "automatic" and before not in ("function", "task", "module", "program", "class")
        if is_own or is_inside and word in _TYPES and before in (";", "begin"):
            end = _until(words, at, ";") + 1
            made += _declared(words[at + is_own : end])
            at = end
            continue
        made.append(word)
        at += 1
    return made


def _bound(words: List[str], at: int) -> Tuple[Optional[List[str]], int]:
    """Returns the upper bound of a range [upper:0] that begins here, or None, and the place after it."""
    end = _closed(words, at)
    inner = words[at + 1 : end - 1]
    return (inner[:-2] if inner[-2:] == [":", "0"] else None), end


def _arrays(words: List[str]) -> List[str]:
    """Packed arrays of vectors, as `logic [1:0][7:0] name`, each in its module."""
    made: List[str] = []
    begin = 0
    for at, word in enumerate(words):
        if word == "endmodule":
            made += _arrays_of(words[begin:at])
            begin = at
    return made + words[begin:]


def _arrays_of(words: List[str]) -> List[str]:
    """Returns a module without packed arrays of vectors."""
    widths: Dict[str, List[str]] = {}
    made: List[str] = []
    at, depth = 0, 0
    while at < len(words):
        word = words[at]
        depth += {"(": 1, ")": -1}.get(word, 0)
        made.append(word)
        at += 1
        if depth or word not in ("logic", "reg", "wire", "bit") or words[at : at + 1] != ["["]:
            continue
        (outer, middle), end = _bound(words, at), _until(words, at, ";")
        if words[middle : middle + 1] != ["["]:
            continue
        inner, after = _bound(words, middle)
        names = words[after:end]
        if outer is None or inner is None or any(not re.fullmatch(r"[A-Za-z_]\w*|,", name) for name in names):
            raise _CannotRewrite
        width = ["(", *inner, "+", "1", ")"]
        widths.update({name: width for name in names if name != ","})
        made += ["[", "(", *outer, "+", "1", ")", "*", *width, "-", "1", ":", "0", "]", *names]
        at = end
    return _indexed(made, widths) if widths else words


def _indexed(words: List[str], widths: Dict[str, List[str]]) -> List[str]:
    """Returns words in which the indices of these arrays are those of bits."""
    made: List[str] = []
    at = 0
    while at < len(words):
        word = words[at]
        made.append(word)
        at += 1
        if word not in widths or words[at : at + 1] != ["["] or made[-2:-1] == ["."]:
            continue
        width, end = widths[word], _closed(words, at)
        first, second = _indexed(words[at + 1 : end - 1], widths), None
        if words[end : end + 1] == ["["]:
            at, end = end, _closed(words, end)
            second = _indexed(words[at + 1 : end - 1], widths)
        if ":" in first or second and "?" in second or "?" in first:
            raise _CannotRewrite
        start = ["(", *first, ")", "*", *width]
        if second is None:
            made += ["[", *start, "+", ":", *width, "]"]
        elif ":" not in second:
            made += ["[", *start, "+", "(", *second, ")", "]"]
        else:
            split = second.index(":")
            upper, lower = second[:split], second[split + 1 :]
            if upper[-1:] in (["+"], ["-"]) or ":" in lower:
                raise _CannotRewrite
            bits = ["(", *upper, "-", "(", *lower, ")", "+", "1", ")"]
            made += ["[", *start, "+", "(", *lower, ")", "+", ":", *bits, "]"]
        at = end
    return made


def _small(words: List[str]) -> List[str]:
    """`x inside {a, b}`, `'{default: '0}`, `unique if`, and the label of an end."""
    made: List[str] = []
    at = 0
    while at < len(words):
        word = words[at]
        if word == "inside" and words[at + 1 : at + 2] == ["{"]:
            end, begin = _closed(words, at + 1), _operand_before(made)
            values = words[at + 2 : end - 1]
            if begin is not None and not any(re.search(r"[\[{?]|'.*[xXzZ]", value) for value in values):
                operand = made[begin:]
                del made[begin:]
                made += ["(", *operand, "==", "("]
                for value in values:
                    made += [")", "||", *operand, "==", "("] if value == "," else [value]
                made += [")", ")"]
                at = end
                continue
        if words[at : at + 4] in (["'", "{", "default", ":"],) and words[at + 5 : at + 6] == ["}"]:
            if words[at + 4] in ("'0", "'1"):
                made.append(words[at + 4])
                at += 6
                continue
        if word in ("unique", "unique0", "priority") and words[at + 1 : at + 2] == ["if"]:
            at += 1
            continue
        if word in ("endtask", "endmodule", "endinterface") and words[at + 1 : at + 2] == [":"]:
            made.append(word)
            at += 3
            continue
        made.append(word)
        at += 1
    return made


_STEPS: Tuple[Callable[[List[str]], List[str]], ...] = (_assertions, _packages, _locals, _functions, _arrays, _small)


def plain(text: str) -> str:
    """Returns preprocessed SystemVerilog without these forms."""
    words: List[str] = []
    for found in _TOKEN.finditer(text):
        word = _Word(found["word"] or "")
        word.space = found["space"]
        words.append(word)
    for step in _STEPS:
        try:
            words = step(words)
        except (_CannotRewrite, IndexError):
            continue
    return "".join(getattr(word, "space", " ") + word for word in words).replace("+ :", "+:")
