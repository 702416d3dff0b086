"""The lemmas of lemmas.sv in the harness of a row: the instances, and the wires inside the bridge and the watch that
they read.
"""
from __future__ import annotations

from dataclasses import dataclass, field
from typing import Dict, List, Mapping, Tuple, Union

from .rows import ADDRESS_BITS, SINK_BITS, SOURCE_BITS, Row

HEAD_BITS = {"A": 8, "B": 8, "C": 8, "D": 5}  # of a word: the head without opcode and size
SOURCE_BIT = {"A": 4, "D": 2}  # .. its bit with the source
RELEASE_ACK = 6
WATCHED = {
    "near_is_watched": "comes",
    "near_has_byte": "has_byte",
    "far_is_watched": "is_watched",
    "far_has_byte": "here",
}


@dataclass
class Lines:
    """Lines of SystemVerilog at the end of the harness, and the wires inside that they name (`Recipe.probes`)."""

    lines: List[str] = field(default_factory=list)
    probes: Dict[str, str] = field(default_factory=dict)

    def probe(self, name: str, inner: str, bits: int = 1) -> None:
        self.lines.append(f"wire [{bits - 1}:0] {name};")
        self.probes[name] = inner

    def instance(
        self, module: str, parameters: Mapping[str, Union[int, str]], name: str, ports: Dict[str, str]
    ) -> None:
        sets = ", ".join(f".{key}({value})" for key, value in parameters.items())
        joined = ", ".join(f".{key}({value})" for key, value in ports.items())
        self.lines.append(f"{module} #({sets}) {name} (.clock(clock), .reset(reset), {joined});")

    @property
    def text(self) -> str:
        return "".join(f"    {line}\n" for line in self.lines)


def sides(channel: str) -> Tuple[str, str]:
    """Returns the sender's side of a channel and the receiver's."""
    return ("client", "manager") if channel in "ACE" else ("manager", "client")


def place_of_crossing(row: Row, channel: str) -> str:
    """Returns the place of the part of a channel that carries its words, inside the harness."""
    place = ("b_c_e." if channel in "BCE" else "") + channel.lower() + ("" if channel == "E" else ".crossing")
    return f"dut.{place}." + ("two_clocks.fifo" if row.clocks == 2 else "genblk1.one_clock.fifo")


def lemma_lines(row: Row) -> Lines:
    """Returns the lemmas of a row. A channel of wires has no words."""
    out = Lines()
    for channel in "AD" if row.channel == "D" else row.channel:
        watch_probes(out, row, channel)
        if row.words(channel):
            word_lemmas(out, row, channel)
            if channel == row.channel:
                deep_lemmas(out, row)
        else:
            moves_of_wires(out, channel)
    if row.channel == "D":
        source_lemmas(out, row)
        lane_lemmas(out, row)
        aligned_lemmas(out, row)
        if row.has_order:
            order_lemmas(out, row)
    if row.rules:
        rule_lines(out, row)
    return out


def watch_probes(out: Lines, row: Row, channel: str) -> None:
    """Adds what the watch of a channel knows of its beats."""
    letter = channel.lower()
    watch = f"watch.{letter}.watch"
    for name in ("near_begins", "far_begins"):
        out.probe(f"{letter}_{name}", f"watch.a_{name}" if channel == "A" else f"watch.{letter}.{name}")
    if channel == row.channel:
        for name, inner in WATCHED.items():
            out.probe(f"{letter}_{name}", f"{watch}.{inner}")
        out.probe(f"{letter}_has_data", f"{watch}.has_data")
        out.probe(f"{letter}_value", f"{watch}.value", 8)


def word_lemmas(out: Lines, row: Row, channel: str) -> None:
    """Adds the lemmas about the words in the queue of a channel."""
    letter, words, wide = channel.lower(), row.words(channel), max(row.client, row.manager)
    near, far = sides(channel)
    width = {"client": row.client, "manager": row.manager}
    bits = 3 + row.size_bits + HEAD_BITS[channel] + 1 + 8 * wide + (wide if channel in "AB" else 0)
    (words_of_contract if row.by_contracts else words_of_fifo)(out, row, channel, bits)
    ports = {
        "near_begins": f"{letter}_near_begins",
        "far_moves": f"{far}_tick && {far}_{letter}_valid && {far}_{letter}_ready"
        if row.clocks == 2
        else f"{far}_{letter}_valid && {far}_{letter}_ready",
        "far_begins": f"{letter}_far_begins",
        "puts": f"{letter}_puts",
        "gets": f"{letter}_gets",
        "count": f"{letter}_count",
        "first": f"{letter}_first",
    }
    out.lines.append(f"wire [{words - 1}:0] {letter}_first;")
    if channel == row.channel:
        ports.update({name: f"{letter}_{name}" for name in WATCHED})
        ports["near_has_byte"] += f" && {letter}_has_data"
        side = "near" if width[near] >= width[far] else "far"
        place_bits = max(1, max(width[near], width[far]).bit_length() - 1)
        out.probe(f"{letter}_place", f"watch.{letter}.watch.{side}_place", place_bits)
        bytes_of_words = ", ".join(f"{letter}_word_{number}[8*{letter}_place+:8]" for number in reversed(range(words)))
        ports.update({"value": f"{letter}_value", "bytes": f"{{{bytes_of_words}}}"})
    else:
        ports.update({name: "1'b0" for name in WATCHED})
        ports.update({"value": "8'd0", "bytes": f"{8 * words}'d0"})
    out.instance("tl_word_lemmas", {"WORDS": words}, f"{letter}_words", ports)
    if (channel in row.channel or row.has_order) and row.has_chain(channel):
        chain_lemmas(out, row, channel)


def converter_of(row: Row, channel: str) -> str:
    """Returns the place of the converter of a channel, inside the harness."""
    near, far = (getattr(row, side) for side in sides(channel))
    place = f"dut.{'b_c_e.' if channel in 'BC' else ''}{channel.lower()}"
    return f"{place}.{'narrows.narrow' if near > far else 'widens.widen'}"


def slot_bits_of(row: Row) -> int:
    """Returns the bits of the number of a slot."""
    return max(1, (max(row.client, row.manager) // min(row.client, row.manager)).bit_length() - 1)


def chain_lemmas(out: Lines, row: Row, channel: str) -> None:
    """Adds the lemmas about the order of the words in a deep queue of a channel."""
    letter, words, wide = channel.lower(), row.words(channel), max(row.client, row.manager)
    near, far = (getattr(row, side) for side in sides(channel))
    byte_bits, converter, watch = row.largest.bit_length(), converter_of(row, channel), f"watch.{letter}.watch"
    probes = {
        "gathers": (f"{letter}_words.gathers", 1),
        "gathered": (f"{letter}_words.gathered", 1),
        "in_word": (f"{converter}.{'begun' if near > far else 'gathers'}", 1),
        "next_slot": (f"{converter}.next_slot", slot_bits_of(row)),
        "near_event": (f"{watch}.near_event", 1),
        "near_has_data": (f"{watch}.near_has_data", 1),
        "near_size": (f"{watch}.near_size", row.size_bits),
        "near_left": (f"{watch}.near_left", byte_bits),
        "far_left": (f"{watch}.far_left", byte_bits),
    }
    ports = {name: f"{letter}_chain_{name}" for name in probes}
    if row.by_contracts:
        del probes["in_word"]
        out.lines.append(f"wire {letter}_chain_in_word = {letter}_live && {letter}_any_in_word;")
    if channel not in row.channel:  # the watch of D knows only which requests begin
        for name in ("near_event", "near_has_data", "near_size"):
            del probes[name]
        for link, side in (("near_left", "client"), ("far_left", "manager")):
            probes[link] = (f"watch.genblk1.requests.{side}.left", byte_bits)
        tick = "client_tick && " if row.clocks == 2 else ""
        ports["near_event"] = f"{tick}client_a_valid && client_a_ready"
        ports.update({"near_has_data": "!client_a_opcode[2]", "near_size": "client_a_size"})
    for name, (inner, bits) in probes.items():
        out.probe(f"{letter}_chain_{name}", inner, bits)
    ports.update({name: f"{letter}_{name}" for name in ("puts", "gets", "count", "first", "near_begins")})
    opcode = HEAD_BITS[channel] + 1 + 8 * wide + row.size_bits
    all_words = [f"{letter}_word_{number}" for number in reversed(range(words))]
    kind = "~{0}[{1}]" if channel in "AB" else "{0}[{1}]"
    bit = opcode + (2 if channel in "AB" else 0)
    ports["with_data"] = f"{{{', '.join(kind.format(word, bit) for word in all_words)}}}"
    ports["sizes"] = f"{{{', '.join(f'{word}[{opcode - 1}:{opcode - row.size_bits}]' for word in all_words)}}}"
    sizes = {"WORDS": words, "BYTE_BITS": byte_bits, "SIZE_BITS": row.size_bits, "SLOT_BITS": slot_bits_of(row)}
    sizes.update({"NARROW": min(near, far), "WIDE": wide, "NARROWS": int(near > far)})
    out.instance("tl_chain_lemmas", sizes, f"{letter}_words_chain_lemmas", ports)
    if row.has_places(channel):
        ports = {name: ports[name] for name in ("count", "first", "gathered", "with_data", "sizes")}
        kept = {"rests": words * byte_bits, "rest_last": byte_bits, "size_kept": row.size_bits}
        kept.update({"has_data_kept": 1, "far_in_word": 1})
        for name, bits in kept.items():
            out.probe(f"{letter}_rest_{name}", f"{letter}_words_chain_lemmas.{name}", bits)
            ports[name] = f"{letter}_rest_{name}"
        sizes = {name: sizes[name] for name in ("WORDS", "BYTE_BITS", "SIZE_BITS", "WIDE")}
        out.instance("tl_rest_lemmas", sizes, f"{letter}_words_rest_lemmas", ports)


def deep_lemmas(out: Lines, row: Row) -> None:
    """Adds the lemmas about the marks of the words in a deep queue."""
    letter, words, wide = row.channel.lower(), row.words(row.channel), max(row.client, row.manager)
    near, far = (getattr(row, side) for side in sides(row.channel))
    byte_bits = row.largest.bit_length()
    converter, slot_bits = converter_of(row, row.channel), slot_bits_of(row)
    inner = {
        f"{letter}_words": {"watched": words, "holds": words, "gathered": 1, "gathered_watched": 1, "gathered_byte": 1},
        f"watch.{letter}.watch": {
            **{name: 1 for name in ("picked", "begun", "done", "has_data", "near_open")},
            **{name: row.count_bits for name in ("held", "ahead_kept")},
            **{name: byte_bits for name in ("near_left", "near_count_kept", "far_count_kept", "number_kept")},
            **{name: 3 for name in ("near_power", "far_power", "wide_power")},
            **{name: 1 for name in ("partial", "bad_kept", "masked_in_kept")},
            "lane": 7,
            **{name: 1 for name in ("comes", "near_has_data", "near_partial")},
            **{name: row.size_bits for name in ("size", "near_size")},
            **{name: 3 + HEAD_BITS[row.channel] for name in ("head", "near_head")},
        },
        converter: {"next_slot": slot_bits},
    }
    ports = {"first": f"{letter}_first", "count": f"{letter}_count", "in_word": "deep_in_word"}
    if row.by_contracts:
        out.lines.append(f"wire deep_in_word = {letter}_live && {letter}_any_in_word;")
    else:
        out.probe("deep_in_word", f"{converter}.{'begun' if near > far else 'gathers'}")
    for place, names in inner.items():
        for name, bits in names.items():
            out.probe(f"deep_{name}", f"{place}.{name}", bits)
            ports[name.replace("_kept", "")] = f"deep_{name}"
    top = HEAD_BITS[row.channel] + 1 + 8 * wide  # of a word: above it are size and opcode
    all_words = [f"{letter}_word_{number}" for number in reversed(range(words))]
    kind = f"~{{}}[{top + row.size_bits + 2}]" if letter in "ab" else f"{{}}[{top + row.size_bits}]"
    ports["with_data"] = f"{{{', '.join(kind.format(word) for word in all_words)}}}"
    ports["sizes"] = f"{{{', '.join(f'{word}[{top + row.size_bits - 1}:{top}]' for word in all_words)}}}"
    opcode = top + row.size_bits
    heads = [f"{word}[{opcode + 2}:{opcode}], {word}[{top - 1}:{8 * wide + 1}]" for word in all_words]
    ports["heads"] = f"{{{', '.join(heads)}}}"
    ports["corrupts"] = f"{{{', '.join(f'{word}[{8 * wide}]' for word in all_words)}}}"
    masked, mask = row.channel in "AB", opcode + 3
    masks = ", ".join(f"{word}[{mask + wide - 1}:{mask}]" for word in all_words)
    ports["masks"] = f"{{{masks}}}" if masked else f"{words * wide}'d0"
    sizes = {"WORDS": words, "COUNT_BITS": row.count_bits, "BYTE_BITS": byte_bits, "SIZE_BITS": row.size_bits}
    sizes.update({"WIDE": wide, "MASKED": int(masked)})
    sizes.update({"HEAD_BITS": 3 + HEAD_BITS[row.channel], "SLOT_BITS": slot_bits, "NARROWS": int(near > far)})
    out.instance("tl_deep_lemmas", sizes, f"{letter}_words_deep_lemmas", ports)
    if row.has_places(row.channel):
        place_lemmas(out, row)
    part_lemmas(out, row, converter, slot_bits)


def place_lemmas(out: Lines, row: Row) -> None:
    """Adds the lemmas about the words of the watched message in a long queue."""
    letter, byte_bits = row.channel.lower(), row.largest.bit_length()
    near, far = (getattr(row, side) for side in sides(row.channel))
    out.probe("place_far_left", f"watch.{letter}.watch.far_left", byte_bits)
    names = "watched gathered gathered_watched gathered_byte begun done has_data size far_power near_open near_left"
    ports = {name: f"deep_{name}" for name in names.split()}
    ports.update({"first": f"{letter}_first", "count": f"{letter}_count", "far_left": "place_far_left"})
    ports["far_count"] = "deep_far_count_kept"
    sizes = {"WORDS": row.words(row.channel), "BYTE_BITS": byte_bits, "SIZE_BITS": row.size_bits}
    sizes["NARROWS"] = int(near > far)
    out.instance("tl_place_lemmas", sizes, f"{letter}_words_place_lemmas", ports)


def part_lemmas(out: Lines, row: Row, converter: str, slot_bits: int) -> None:
    """Adds the lemmas about the word that is written, and about its part in a converter in front of the queue."""
    letter, words, wide = row.channel.lower(), row.words(row.channel), max(row.client, row.manager)
    near, far = (getattr(row, side) for side in sides(row.channel))
    narrows, watch = near > far, f"watch.{letter}.watch"
    byte_bits = row.largest.bit_length()
    held = []
    for lane in range(wide):
        has_place = not narrows and lane < wide - near
        if has_place:
            out.probe(f"held_{lane}", f"{converter}.lanes[{lane}].early.held", 9)
        held.append(f"held_{lane}" if has_place else "9'd0")
    if not narrows:
        out.probe("deep_corrupt_held", f"{converter}.corrupt_held")
    for name, bits in (("number", byte_bits), ("masked_in", 1), ("bad", 1), ("value_kept", 8)):
        out.probe(f"now_{name}", f"{watch}.{name}", bits)
    for name in ("gathers_watched", "gathers_byte"):
        out.probe(f"deep_{name}", f"{letter}_words.{name}")
    top = 3 + row.size_bits + HEAD_BITS[row.channel] + 1 + 8 * wide
    masked = row.channel in "AB"
    queue = place_of_crossing(row, row.channel) + (".queue" if row.by_contracts else "")
    out.probe("deep_put", f"{queue}.w_data", top + (wide if masked else 0))
    put = f"{f'deep_put[{top + wide - 1}:{top}]' if masked else f'{wide}' + chr(39) + 'd0'}, deep_put[{8 * wide}:0]"
    datas = [f"{letter}_word_{number}[{8 * wide - 1}:0]" for number in reversed(range(words))]
    names = "watched gathered_watched gathered_byte gathers_watched gathers_byte next_slot picked has_data size partial"
    names += " lane number_kept masked_in_kept bad_kept"
    ports = {name: f"deep_{name}" for name in names.split()}
    ports.update({name: f"now_{name}" for name in ("number", "masked_in", "bad", "value_kept")})
    ports.update({name: f"deep_{name}" for name in ("near_power", "wide_power")})
    ports.update({"near_count": "deep_near_count_kept", "value": f"{letter}_value", "puts": f"{letter}_puts"})
    ports.update({"put": f"{{{put}}}", "datas": f"{{{', '.join(datas)}}}", "held": f"{{{', '.join(reversed(held))}}}"})
    ports["corrupt_held"] = "1'b0" if narrows else "deep_corrupt_held"
    sizes = {"WORDS": words, "BYTE_BITS": byte_bits, "SIZE_BITS": row.size_bits, "SLOT_BITS": slot_bits}
    sizes.update({"NARROW": min(near, far), "WIDE": wide, "MASKED": int(masked), "NARROWS": int(narrows)})
    out.instance("tl_part_lemmas", sizes, f"{letter}_words_part_lemmas", ports)


def words_of_contract(out: Lines, row: Row, channel: str, bits: int) -> None:
    """Adds the words of `bits` bits in the queue of a channel, the oldest first, their count, and its moves."""
    letter, queue = channel.lower(), f"{place_of_crossing(row, channel)}.queue"
    for name in ("puts", "gets"):
        out.probe(f"{letter}_{name}", f"{queue}.{name}")
    clean_lemmas(out, row, channel)
    for number in range(row.words(channel)):
        out.probe(f"{letter}_word_{number}", f"{queue}.words[{number}]", bits)


def clean_lemmas(out: Lines, row: Row, channel: str) -> None:
    """Adds the count of the words of a queue between two clocks, which is 0 before the first message, and the lemma
    that it is.
    """
    letter, words = channel.lower(), row.words(channel)
    count_bits, (near, far) = words.bit_length(), sides(channel)
    narrows = getattr(row, near) > getattr(row, far)
    out.probe(f"{letter}_any_count", f"{place_of_crossing(row, channel)}.queue.count", count_bits)
    out.probe(f"{letter}_any_in_word", f"{converter_of(row, channel)}.{'begun' if narrows else 'gathers'}")
    out.lines.append(f"wire {letter}_live;")
    value = f"{letter}_live ? {letter}_any_count : {count_bits}'d0"
    out.lines.append(f"wire [{count_bits - 1}:0] {letter}_count = {value};")
    ports = {
        "near_begins": f"{letter}_near_begins",
        "far_moves": f"{far}_tick && {far}_{letter}_valid && {far}_{letter}_ready",
        "count": f"{letter}_any_count",
        "in_word": f"{letter}_any_in_word",
        "live": f"{letter}_live",
    }
    out.instance("tl_clean_lemmas", {"WORDS": words}, f"{letter}_words_clean_lemmas", ports)


def words_of_fifo(out: Lines, row: Row, channel: str, bits: int) -> None:
    """Adds the same of rtl/tl_fifo.sv."""
    letter, fifo, words = channel.lower(), place_of_crossing(row, channel), row.words(channel)
    for end, moves in (("w", "puts"), ("r", "gets")):
        for name in ("valid", "ready"):
            out.probe(f"{letter}_{end}_{name}", f"{fifo}.{end}_{name}")
        out.probe(f"{letter}_{end}_count", f"{fifo}.{end}_count", words.bit_length())
        out.lines.append(f"wire {letter}_{moves} = {letter}_{end}_valid && {letter}_{end}_ready;")
    count = words.bit_length()
    out.lines.append(f"wire [{count - 1}:0] {letter}_count = {letter}_w_count - {letter}_r_count;")
    for number in range(words):
        out.probe(f"{letter}_place_{number}", f"{fifo}.words[{number}]", bits)
    places = ", ".join(f"{letter}_place_{number}" for number in reversed(range(words)))
    for number in range(words):
        out.lines.append(f"wire [{count - 2}:0] {letter}_index_{number} = {letter}_r_count + {number};")
        word = f"{{{places}}} >> {bits} * {letter}_index_{number}"
        out.lines.append(f"wire [{bits - 1}:0] {letter}_word_{number} = {word};")


def judge_lines(out: Lines, row: Row, side: str) -> None:
    """Adds the checker of a link, and its faults as wires `SIDE_CHANNEL_fault`."""
    fields = {
        **{letter: ("opcode", "param", "size", "source", "address", "corrupt") for letter in "abc"},
        "d": ("opcode", "param", "size", "source", "sink", "denied", "corrupt"),
        "e": ("sink",),
    }
    ports = {"clock": f"{side}_clock" if row.clocks == 2 else "clock", "reset": "reset"}
    for letter, names in fields.items():
        for name in ("valid", "ready", *names, *(("mask",) if letter in "ab" else ())):
            ports[f"{letter}_{name}"] = f"{side}_{letter}_{name}"
        ports[f"{letter}_fault"] = f"{side}_{letter}_fault"
        out.lines.append(f"wire [4:0] {side}_{letter}_fault;")
    sizes = {"DATA_BYTES": getattr(row, side), "ADDRESS_BITS": ADDRESS_BITS, "SIZE_BITS": row.size_bits}
    sizes.update({"SOURCE_BITS": SOURCE_BITS, "SINK_BITS": SINK_BITS})
    if side == "manager":
        sizes["ALLOW_SAME_CYCLE_RESPONSE"] = int(row.same_cycle)
    sets = ", ".join(f".{key}({value})" for key, value in sizes.items())
    joined = ", ".join(f".{key}({value})" for key, value in ports.items())
    out.lines.append(f"tl_checker #({sets}) {side}_judge ({joined});")


def rule_lines(out: Lines, row: Row) -> None:
    """Adds the rules of the far link, and for D those of both links about requests."""
    letter, (_, far) = row.channel.lower(), sides(row.channel)
    for side in ("client", "manager") if row.channel == "D" else (far,):
        judge_lines(out, row, side)
    byte_bits = row.largest.bit_length()
    out.lines.append("wire faulty;")
    clock = f"{far}_clock" if row.clocks == 2 else "clock"
    out.lines.append(
        f"tl_far_rules far_rules (.clock({clock}), .reset(reset), .fault({far}_{letter}_fault), "
        f".comes({letter}_far_is_watched), .faulty(faulty));"
    )
    head_bits = 6 + row.size_bits + SOURCE_BITS + ADDRESS_BITS + SINK_BITS + 1
    out.probe("judge_left", f"{far}_judge.{letter}.left", 12)
    out.probe("judge_head", f"{far}_judge.{letter}.open_head", head_bits)
    out.probe("watch_left", f"watch.{letter}.watch.far_left", byte_bits)
    bits = HEAD_BITS[row.channel]
    opcode = f"deep_head[{bits + 2}:{bits}]"
    if row.channel == "D":
        low = SINK_BITS + 1
        first, rest = f"1'b0, deep_head[{bits - 1}:{bits - 2}]", f"deep_head[{low}+:{SOURCE_BITS}], {ADDRESS_BITS}'d0"
        rest += f", deep_head[{low - 1}:0]"
    else:
        first, rest = f"deep_head[{bits - 1}:{bits - 3}]", f"deep_head[{bits - 4}:0], {SINK_BITS + 1}'d0"
    ports = {
        "faulty": "faulty",
        "left": "judge_left",
        "far_left": f"{{{12 - byte_bits}'d0, watch_left}}",
        "is_open": "deep_begun && !deep_done",
        "open_head": "judge_head",
        "head": f"{{{opcode}, {first}, deep_size, {rest}}}",
    }
    out.instance("tl_far_rules_lemmas", {"HEAD_BITS": head_bits}, "far_rules_lemmas", ports)
    if row.channel == "D":
        request_lines(out, row)


def request_lines(out: Lines, row: Row) -> None:
    """Adds the rules of both links about requests of the watched source, and the lemmas for them."""
    byte_bits, words = row.largest.bit_length(), row.words("D")
    ticks = {f"{side}_tick": f"{side}_tick" if row.clocks == 2 else "1'b1" for side in ("client", "manager")}
    out.probe("a_out", "watch.d.a_out")
    out.lines.append("wire faulty_requests;")
    ports = {f"{side}_{letter}_fault": f"{side}_{letter}_fault" for side in ("client", "manager") for letter in "ad"}
    ports.update({"a_out": "a_out", "d_out": "d_out", "faulty": "faulty_requests", **ticks})
    joined = ", ".join(f".{key}({value})" for key, value in ports.items())
    out.lines.append(f"tl_request_rules request_rules (.clock(clock), .reset(reset), {joined});")
    out.probe("d_gathered", "d_sources.gathered")
    out.lines.append(f"wire [{row.size_bits - 1}:0] size_asked;")
    low = 1 + 8 * max(row.client, row.manager) + HEAD_BITS["D"]
    sizes = [f"d_word_{number}[{low + row.size_bits - 1}:{low}]" for number in reversed(range(words))]
    ports = {
        **{name: name for name in ("a_in", "size_asked", "d_in", "d_out", "busy")},
        "a_size": "client_a_size",
        "near_moves": f"{ticks['manager_tick']} && manager_d_valid && manager_d_ready",
        "near_size": "manager_d_size",
        "gathered": "d_gathered",
        "far_size": "client_d_size",
        "first": "d_first",
        "is_chosen": "d_chosen",
        "sizes": f"{{{', '.join(sizes)}}}" if words else f"{row.size_bits}'d0",
    }
    out.instance("tl_size_lemmas", {"WORDS": max(1, words), "SIZE_BITS": row.size_bits}, "size_lemmas", ports)
    left, watch_left, busy = [], [], []
    for side in ("client", "manager"):
        books = f"{side}_judge.requests.by_source"
        out.probe(f"{side}_busy", f"{books}.busy", 1 << SOURCE_BITS)
        busy.append(f"{side}_busy[chosen]")
        inner = {"a": f"genblk1.requests.{side}.left", "d": f"d.watch.{'far' if side == 'client' else 'near'}_left"}
        for letter, place in inner.items():
            out.probe(f"{side}_{letter}_left", f"{side}_judge.{letter}.left", 12)
            left.append(f"{side}_{letter}_left")
            out.probe(f"{side}_{letter}_watch_left", f"watch.{place}", byte_bits)
            watch_left.append(f"{12 - byte_bits}'d0, {side}_{letter}_watch_left")
    for number in range(1 << SOURCE_BITS):
        out.probe(f"size_{number}", f"client_judge.requests.by_source.sizes[{number}]", 3 + row.size_bits)
    ports = {
        "faulty": "faulty_requests",
        "left": f"{{{', '.join(left)}}}",
        "watch_left": f"{{{', '.join(watch_left)}}}",
        "busy": f"{{{', '.join(busy)}}}",
        "watch_busy": "{busy, at_manager}",
        "size": f"chosen ? size_1[{row.size_bits - 1}:0] : size_0[{row.size_bits - 1}:0]",
        "size_asked": "size_asked",
    }
    out.instance("tl_book_lemmas", {"SIZE_BITS": row.size_bits}, "book_lemmas", ports)


def gray_lines(depth: int, stages: int = 2) -> Lines:
    """Returns the lemmas about the FIFO between two clocks in refines.sv, with words of one bit."""
    out = Lines()
    log = depth.bit_length() - 1
    for name, inner, bits in (
        ("w_gray", "fifo.w_gray", log + 1),
        ("w_index", "fifo.w_index", log),
        ("w_before", "fifo.to_r.before", log + 1),
        ("w_seen", "fifo.to_r.stages", stages * (log + 1)),
        ("r_gray", "fifo.r_gray", log + 1),
        ("r_index", "fifo.r_index", log),
        ("r_before", "fifo.to_w.before", log + 1),
        ("r_seen", "fifo.to_w.stages", stages * (log + 1)),
    ):
        out.probe(f"at_{name}", f"dut.{inner}", bits)
    out.probe("at_count", "queue.count", (depth + 1).bit_length())
    for number in range(depth):
        out.probe(f"place_{number}", f"dut.fifo.words[{number}]")
    for number in range(depth + 1):
        out.probe(f"word_{number}", f"queue.words[{number}]")
    ports = {name[3:]: name for name in out.probes if name.startswith("at_")}
    ports.update({"w_run": "w_run", "r_run": "r_run", "r_valid": "r_valid", "r_data": "r_data"})
    ports["places"] = f"{{{', '.join(f'place_{number}' for number in reversed(range(depth)))}}}"
    ports["words"] = f"{{{', '.join(f'word_{number}' for number in reversed(range(depth + 1)))}}}"
    joined = ", ".join(f".{key}({value})" for key, value in ports.items())
    out.lines.append(f"tl_gray_lemmas #(.LOG({log})) gray_lemmas (.clock(clock), .reset(!powered), {joined});")
    return out


def moves_of_wires(out: Lines, channel: str) -> None:
    """Adds the moves of a channel without a FIFO, and one word that never has anything."""
    letter, inside = channel.lower(), "dut.b_c_e" if channel in "BC" else "dut"
    for name in ("valid", "ready"):
        out.probe(f"{letter}_w_{name}", f"{inside}.{letter}.crossing.w_{name}")
    out.lines.append(f"wire {letter}_puts = {letter}_w_valid && {letter}_w_ready;")
    out.lines.append(f"wire {letter}_first = 1'b0;")


def source_lemmas(out: Lines, row: Row) -> None:
    """Adds the lemmas that count the messages of the watched source in the queues of A and D."""
    wide = max(row.client, row.manager)
    out.probe("chosen", "watch.d.source")
    for channel, inside in (("A", "requests_inside"), ("D", "responses_inside")):
        letter = channel.lower()
        out.probe(inside, f"watch.d.{inside}", row.count_bits)
        out.probe(f"{letter}_in", f"watch.d.{letter}_in")
        top = 3 + row.size_bits + HEAD_BITS[channel] + 8 * wide
        chosen, words = [], max(1, row.words(channel))
        for number in range(row.words(channel)):
            word = f"{letter}_word_{number}"
            is_chosen = f"{word}[{1 + 8 * wide + SOURCE_BIT[channel]}] == chosen"
            answers = f" && {word}[{top}:{top - 2}] != 3'd{RELEASE_ACK}" if channel == "D" else ""
            chosen.append(f"({is_chosen}{answers})")
        out.lines.append(
            f"wire [{words - 1}:0] {letter}_chosen = {{{', '.join(reversed(chosen)) or '1' + chr(39) + 'b0'}}};"
        )
        ports = {
            "near_begins_chosen": f"{letter}_in",
            "puts": f"{letter}_puts",
            "first": f"{letter}_first",
            "is_chosen": f"{letter}_chosen",
            "inside": inside,
        }
        out.instance("tl_source_lemmas", {"WORDS": words, "COUNT_BITS": row.count_bits}, f"{letter}_sources", ports)


def lane_lemmas(out: Lines, row: Row) -> None:
    """Adds the lemmas about the table of outstanding requests: the lanes of the watched response are its request's.

    A wide beat of four narrow ones or more needs its lane until it is complete.
    """
    at_client, gathers = row.manager > row.client, row.client >= 4 * row.manager
    bits = max(1, max(row.client, row.manager).bit_length() - 1)
    table = f"dut.at_{'client' if at_client else 'manager'}.outstanding"
    for number in range(0 if row.outstanding else 2):
        out.probe(f"lanes_{number}", f"{table}.places.lanes[{number}]", bits)
    out.probe("d_lane", "dut.d_lane", bits)
    out.probe("d_out", "watch.d.d_out")
    for name in ("busy", "at_manager"):
        out.probe(name, f"watch.d.{name}")
    for name in ("lane_at_client", "lane_at_manager"):
        out.probe(name, f"watch.d.{name}", 7)
    for name in ("picked", "picking", "begun"):
        out.probe(f"d_{name}", f"watch.d.watch.{name}")
    out.probe("d_watched_lane", "watch.d.watch.lane", 7)
    asked = f"lane_at_{'client' if at_client else 'manager'}[{bits - 1}:0]"
    lanes = {"asked": asked, "lane": "d_lane", "watched_lane": f"d_watched_lane[{bits - 1}:0]"}
    outstanding, kept = "busy" if at_client else "at_manager", "chosen ? lanes_1 : lanes_0"
    waits = "d_picked && d_has_data && !d_begun"
    if gathers or row.outstanding:
        out.probe("d_moves", "dut.d_moves")
        out.lines.append("wire d_converts;")
        ports = {"responds": "1'b0" if at_client else "d_in", "leaves": "d_moves", "converts": "d_converts"}
        later = {"waits": waits, "comes": "d_picked && d_near_is_watched && d_has_data"}
        out.instance("tl_converter_lemmas", {"BITS": bits}, "converter_lemmas", {**ports, **later, **lanes})
        outstanding += " || d_converts"
    if row.outstanding:
        kept = entry_lemmas(out, row, f"{table}.entries", bits, outstanding)
    ports = {
        "kept": kept,
        "lane": lanes["lane"],
        "watched_lane": lanes["watched_lane"],
        "outstanding": outstanding,
        "asked": asked,
        "waits": waits,
        "comes": "d_out",
        "is_watched": "d_far_is_watched",
        "picks": "d_picking && d_has_data",
    }
    out.instance("tl_lane_lemmas", {"BITS": bits, "AT_FAR_LINK": int(at_client)}, "lane_lemmas", ports)


def order_lemmas(out: Lines, row: Row) -> None:
    """Adds the lemmas about the heads of the words of A and D, the place of the watched response, and the lane of the
    newest request.
    """
    wide, at_client = max(row.client, row.manager), row.manager > row.client
    top = 1 + 8 * wide  # of a word: above it is the head
    for channel in [one for one in "AD" if row.words(one)]:
        letter, words, near = channel.lower(), row.words(channel), sides(channel)[0]
        source = top + SOURCE_BIT[channel]
        if channel == "A":
            bits, near_head = 1 + ADDRESS_BITS, "{client_a_source, client_a_address}"
            heads = [f"a_word_{number}[{source}:{top}]" for number in reversed(range(words))]
            is_chosen = f"a_near_kept[{ADDRESS_BITS}] == chosen"
        else:
            opcode = top + HEAD_BITS["D"] + row.size_bits
            bits, near_head = 2, f"{{manager_d_opcode != 3'd{RELEASE_ACK}, manager_d_source}}"
            heads = [
                f"d_word_{number}[{opcode + 2}:{opcode}] != 3'd{RELEASE_ACK}, d_word_{number}[{source}]"
                for number in reversed(range(words))
            ]
            is_chosen = "d_near_kept == {1'b1, chosen}"
        for name in ("near_kept", "far_kept"):
            out.lines.append(f"wire [{bits - 1}:0] {letter}_{name};")
        out.lines.append(f"wire {letter}_near_is_chosen = {is_chosen};")
        out.probe(f"{letter}_order_gathered", f"{letter}_words.gathered")
        out.probe(f"{letter}_order_chosen", f"{letter}_sources.gathered")
        tick = f"{near}_tick && " if row.clocks == 2 else ""
        ports = {name: f"{letter}_{name}" for name in ("near_begins", "far_begins", "count", "first", "near_is_chosen")}
        ports.update({name: f"{letter}_{name}" for name in ("near_kept", "far_kept")})
        ports["near_moves"] = f"{tick}{near}_{letter}_valid && {near}_{letter}_ready"
        ports.update({"near_head": near_head, "heads": f"{{{', '.join(heads)}}}"})
        ports.update({"gathered": f"{letter}_order_gathered", "gathered_chosen": f"{letter}_order_chosen"})
        sizes = {"WORDS": words, "HEAD_BITS": bits, "COUNTS": int(channel == "A")}
        out.instance("tl_order_lemmas", sizes, f"{letter}_order_lemmas", ports)
    lane_bits = max(1, wide.bit_length() - 1)
    out.probe("order_fresh", "watch.d.fresh")
    kept = "a_near_kept" if at_client else "a_far_kept"
    names = "picked has_data begun done near_open near_left held"
    ports = {
        **{name: f"deep_{name}" for name in names.split()},
        "fresh": "order_fresh",
        "first": "d_first",
        "is_chosen": "d_chosen",
        "gathered": "d_order_gathered",
        "near_is_chosen": "d_near_is_chosen",
        "ahead": "deep_ahead_kept",
        "newest_is_chosen": f"{kept}[{ADDRESS_BITS}] == chosen",
        "newest": f"{kept}[{lane_bits - 1}:0]",
        "outstanding": ("busy" if at_client else "at_manager")
        + (" || d_converts" if row.client >= 4 * row.manager or row.outstanding else ""),
        "asked": f"lane_at_{'client' if at_client else 'manager'}[{lane_bits - 1}:0]",
    }
    sizes = {"WORDS": row.words("D"), "COUNT_BITS": row.count_bits, "BYTE_BITS": row.largest.bit_length()}
    sizes["LANE_BITS"] = lane_bits
    out.instance("tl_response_lemmas", sizes, "response_lemmas", ports)


def entry_lemmas(out: Lines, row: Row, entries: str, bits: int, outstanding: str) -> str:
    """Adds the lemmas about a table of entries, and returns the lane of the watched source's entry."""
    count = row.outstanding
    for name, size in (("used", 1), ("sources", SOURCE_BITS), ("lanes", bits)):
        out.probe(f"entry_{name}", f"{entries}.{name}", count * size)
    chosen = [f"entry_sources[{number}] == chosen" for number in range(count)]
    out.lines.append(f"wire [{count - 1}:0] entry_own = entry_used & {{{', '.join(reversed(chosen))}}};")
    ports = {"own": "entry_own", "outstanding": outstanding}
    out.instance("tl_entry_lemmas", {"ENTRIES": count}, "entry_lemmas", ports)
    return " | ".join(
        f"(entry_own[{number}] ? entry_lanes[{bits * number}+:{bits}] : {bits}'d0)" for number in range(count)
    )


def aligned_lemmas(out: Lines, row: Row) -> None:
    """Adds the lemmas about the alignment of the watched response."""
    wide, size_bits = max(row.client, row.manager), row.size_bits
    out.probe("size_at_manager", "watch.d.size_at_manager", size_bits)
    words = [f"a_word_{number}" for number in reversed(range(row.words("A")))]
    address, size = 1 + 8 * wide, 1 + 8 * wide + HEAD_BITS["A"]
    lanes = [f"3'd0, {word}[{address + ADDRESS_BITS - 1}:{address}]" for word in words]
    sizes = [f"{word}[{size + size_bits - 1}:{size}]" for word in words]
    ports = {
        "asks": "a_in",
        "asked_size": "client_a_size",
        "sizes": f"{{{', '.join(sizes)}}}" if words else f"{size_bits}'d0",
        "lanes": f"{{{', '.join(lanes)}}}" if words else "7'd0",
        "first": "a_first",
        "is_chosen": "a_chosen",
        **{name: name for name in ("busy", "lane_at_client", "at_manager", "lane_at_manager", "size_at_manager")},
        "picks": "d_picking && d_has_data",
        "lane": "d_watched_lane",
        "size": "manager_d_size",
    }
    out.instance("tl_aligned_lemmas", {"WORDS": max(1, len(words)), "SIZE_BITS": size_bits}, "aligned_lemmas", ports)
