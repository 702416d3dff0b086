"""Checks the pages of `tlexplain --html` in a browser, without a window.

The pages are those of every trace of examples/ and its folders, of random traces, and of texts that are not traces.
Each sentence, remark and lane of a page has to be that of the text output for the same trace, with and without
`--lanes`, and its far beats have to be those of `tlbridge run`. Then the page is used. Each link has to lead to its
line, and each byte to a lane with the same byte on the other side. Tab and the arrow keys have to go from message to
message, and Escape has to end the highlight. A message has to be one row until Enter or a link to one of its lines
opens it. A message with a fault or a remark has to be open, and two buttons have to open and close all. All channels
have to be visible in a window of 1,280 pixels. The summary at the top has to have the numbers of the text, and the list
there each fault and remark. Text has to be readable in light and in dark mode, and a print has to have each beat. A
page may load nothing else, and no script may fail. The page of `tlbridge-trace --html` for a dump with long names has
to have each note, readable in light and dark mode, within the window and in print. At the end, the page of a trace of
10,000 lines is timed. It keeps no picture.
"""

import base64
import json
import re
import resource
import subprocess
import sys
from pathlib import Path
from typing import Any, Dict, Iterator, List, Tuple

import pytest
import records
from browser import WINDOW, Browser
from differences import Differences
from project import EXAMPLES, ROOT, needs_program, needs_tools
from random_traces import lawful_trace

HERE = Path(__file__).resolve().parent
pytestmark = [pytest.mark.long, pytest.mark.browser]

TOKENS = {"idle": "..", "masked": "--", "wrong": "!!", "empty": "##"}
MOST_SECONDS = 1.5
# The height in pixels below which a folded message is a row: a heading of up to five lines, which a long address needs
# in a column of 200 pixels.
HIGHEST_ROW = 124

# The texts of the elements of a page, in the order of the page.
READ = (HERE / "page_read.js").read_text()

# Each byte of a near beat, followed: how many there were, and those whose lanes on the other side do not have the same
# byte.
FOLLOW = (HERE / "page_follow.js").read_text()

# The least contrast between a text and its background.
CONTRAST = (HERE / "page_contrast.js").read_text()


def pictures(said: Any) -> Any:
    """The pictures that `--lanes` draws, of each line: lists of marks, highest lane first."""
    found: Dict[int, List[Any]] = {}
    line: List[Any] = []
    for text in said.splitlines():
        if number := re.match(r"line (\d+): ", text):
            line = found[int(number[1])] = []
        elif words := re.match(r"    (near|far ) +(.*)", text):
            before = line[-1] if line and line[-1][0] == words[1] and line[-1][2] else None
            if before:
                before[1].extend(words[2].split())
            else:
                line.append([words[1], words[2].split(), True])
        elif line and not text.startswith("    lane"):
            line[-1][2] = False
    return {number: [marks for _, marks, _ in drawn] for number, drawn in found.items()}


def seconds_of_children() -> float:
    """The processor time of all programs that have ended."""
    used = resource.getrusage(resource.RUSAGE_CHILDREN)
    return used.ru_utime + used.ru_stime


def mark(cell: Any) -> str:
    kind, text = cell
    return str(text) if not kind else TOKENS[kind]


class Looks:
    """What is seen of a page in a browser, and what is wrong with it."""

    def __init__(self, browser: Browser, differences: Differences, folder: Path) -> None:
        self.browser, self.differences, self.folder = browser, differences, folder
        self.tlexplain, self.tlbridge = needs_program("tlexplain"), needs_program("tlbridge")

    def see(self, name: str, holds: object, told: object = "") -> None:
        self.differences.holds(name, holds, f"{told}"[:400])

    def said(self, program: Path, *words: Any, text: bytes) -> bytes:
        return subprocess.run([program, *words], input=text, capture_output=True).stdout

    def look_at(self, name: str, text: bytes) -> None:
        explain = self.tlexplain
        page = self.folder / "page.html"
        page.write_bytes(self.said(explain, "--html", text=text))
        self.browser.media()
        self.browser.open(page)
        came = self.browser.run(READ)
        said = self.said(explain, text=text).decode()
        asked = [url for url in self.browser.asked_for() if not url.startswith("data:")]
        self.see(f"{name}: asks for nothing else", asked == [page.as_uri()], asked)
        if came["fault"] is not None:
            self.see(f"{name}: the fault", came["fault"] == said, came["fault"])
        else:
            self.compare(name, text, came, said)
            self.use(name, came)
        self.see(f"{name}: no script fails", not self.browser.failures(), self.browser.failures())
        self.colours(name)
        self.print(name, came)

    def compare(self, name: str, text: bytes, came: Any, said: Any) -> None:
        lines = said.splitlines()
        self.see(f"{name}: the answer", came["answer"].splitlines() == lines[-6:], came["answer"])
        self.see(
            f"{name}: the overview", came["overview"] == records.overview(said, text.count(b"\n")), came["overview"]
        )
        came["lines"].sort(key=lambda line: int(re.findall(r"\d+", line.get("run") or line["line"])[0]))
        sentences = [line for line in lines if re.match(r"lines? \d", line)]
        shown = [
            line.get("run") or f"{line['line']}: {line['name']}, {line['fields']}: {line['came']}"
            for line in came["lines"]
        ]
        shown = [re.sub(r", answered in line \d+$", "", line) for line in shown]
        self.see(
            f"{name}: the sentences",
            shown == sentences,
            [pair for pair in zip(shown, sentences) if pair[0] != pair[1]][:2],
        )
        remarks = [line[4:] for line in lines if line.startswith("    remark")]
        self.see(
            f"{name}: the remarks",
            [remark for line in came["lines"] for remark in line.get("remarks", ())] == remarks,
            remarks,
        )
        self.see(
            f"{name}: the list of faults and remarks", came["problems"] == records.problems(said), came["problems"]
        )
        self.see(f"{name}: it fits {WINDOW} pixels", came["width"] <= WINDOW, came["width"])
        cuts = [line for line in lines if re.match("[A-E] ends", line)]
        self.see(f"{name}: the cuts", came["cuts"] == cuts, came["cuts"])
        beats = [(line, beat) for line in came["lines"] for beat in line.get("beats", ())]
        near = {line["line"]: beat["line"] for line, beat in beats if not beat["far"]}
        traced = {f"line {number}": line for number, line in enumerate(text.decode().splitlines(), 1)}
        self.see(
            f"{name}: the near beats",
            all(traced[line] == beat for line, beat in near.items())
            and len(near) == len([line for line in came["lines"] if "run" not in line]),
            near,
        )
        run = self.said(self.tlbridge, "run", "--sync", text=text).decode().splitlines()
        for channel in "ABCDE":
            far = [beat["line"] for _, beat in beats if beat["far"] and beat["line"][0] == channel]
            self.see(
                f"{name}: the far beats of {channel}",
                far == [line for line in run if line.startswith(channel + " ")],
                far,
            )
        corrupt = all(beat["corrupt"] == (beat["line"][0] != "E" and beat["line"].endswith(" 1")) for _, beat in beats)
        self.see(f"{name}: which beats are corrupt", corrupt)
        drawn = pictures(self.said(self.tlexplain, "--lanes", text=text).decode())
        for line in (line for line in came["lines"] if "run" not in line):
            marks = [[mark(cell) for cell in beat["lanes"]] for beat in line["beats"] if beat["lanes"]]
            self.see(f"{name}: the lanes of {line['line']}", marks == drawn[int(line["line"][5:])], marks)
        self.see(
            f"{name}: the links",
            all(there and href == "#" + words.replace(" ", "-") for words, href, there in came["links"]),
            came["links"],
        )

    def use(self, name: str, came: Any) -> None:
        followed = self.browser.run(FOLLOW)
        self.see(
            f"{name}: {followed['followed']} bytes are followed",
            not followed["wrong"] and not followed["left"],
            followed,
        )
        beats = [line for line in came["lines"] if "run" not in line]
        exchanges = {beat["line"]: beat["exchange"] for beat in beats}
        ties = [
            (beat["exchange"], exchanges[line])
            for beat in beats
            for line in re.findall(r"answer(?:s|ed in) (line \d+)", beat["came"])
        ]
        alone = len({exchange for exchange in exchanges.values() if exchange})
        begun = [beat for beat in beats if beat["exchange"] and not re.search(r"beat (?!0 )\d+ of", beat["fields"])]
        answers = sum(bool(re.search(r", answered in line", beat["came"])) for beat in beats)
        self.see(
            f"{name}: the exchanges",
            all(one == other for one, other in ties) and alone == len(begun) - answers,
            (ties, alone, len(begun), answers),
        )
        self.fold(name, came, {beat["id"]: beat for beat in beats})
        if not beats or len(beats) > 40:
            return
        visited, messages = [], came["messages"]
        self.browser.run(
            "document.activeElement.blur(); getSelection().removeAllRanges(); document.body.tabIndex = -1;"
            " document.body.focus()"
        )
        for _ in range(8 * len(beats)):
            self.browser.press("Tab", 9)
            at = self.browser.run(
                "document.activeElement.matches('summary') ?"
                " document.activeElement.parentElement.querySelector('.beat').id : ''"
            )
            if at and at not in visited:
                visited.append(at)
        self.see(
            f"{name}: Tab goes from message to message", visited == [message["ids"][0] for message in messages], visited
        )
        for message in messages:
            first, is_open = message["ids"][0], message["open"]
            together = (
                [other for other in messages if other["exchange"] == message["exchange"]]
                if message["exchange"]
                else [message]
            )
            self.browser.run(f"document.getElementById('{first}').closest('.message').querySelector('summary').focus()")
            lit = self.browser.run("[...document.querySelectorAll('.message.lit .beat')].map(beat => beat.id)")
            self.see(
                f"{name}: what belongs to {first}", lit == [line for other in together for line in other["ids"]], lit
            )
            for wanted in (not is_open, is_open):
                self.browser.press("Enter", 13, "\r")
                self.see(
                    f"{name}: Enter at {first}",
                    self.browser.run(f"document.getElementById('{first}').closest('.message').open") == wanted,
                )
            self.browser.press("Escape", 27)
            self.see(f"{name}: Escape", self.browser.run("document.querySelectorAll('.lit').length") == 0)
        same = [message["ids"][0] for message in messages if message["channel"] == messages[0]["channel"]]
        self.browser.run("document.querySelector('summary').focus()")
        self.browser.press("ArrowDown", 40)
        at = self.browser.run("document.activeElement.parentElement.querySelector('.beat').id")
        self.see(f"{name}: Down", at == same[min(1, len(same) - 1)], at)

    def fold(self, name: str, came: Any, beats: Any) -> None:
        """Messages are folded to one row, except those with a fault or a remark. Links and buttons open and close
        them."""
        has_problem = {
            line: bool(beat["remarks"]) or not re.search(r"(^|: )accepted, ", beat["came"])
            for line, beat in beats.items()
        }
        messages = came["messages"]
        for message in messages:
            wanted = any(has_problem[line] for line in message["ids"])
            self.see(f"{name}: {message['ids'][0]} is open or not", message["open"] == wanted, message)
            self.see(
                f"{name}: {message['ids'][0]} shows its beats or none",
                message["seen"] == len(message["ids"]) * message["open"],
                message,
            )
            self.see(
                f"{name}: {message['ids'][0]} is a row", message["open"] or message["height"] < HIGHEST_ROW, message
            )
            places = [
                int(place[1]) if (place := re.search(r"beat (\d+) of \d+$", beats[line]["fields"])) else 0
                for line in message["ids"]
            ]
            self.see(
                f"{name}: {message['ids'][0]} has its beats",
                places == list(range(places[0], places[0] + len(places))),
                places,
            )
        begun = [line for line, beat in beats.items() if not re.search(r", beat (?!0 )\d+ of \d+$", beat["fields"])]
        self.see(f"{name}: each message once", [message["ids"][0] for message in messages] == begun, begun)
        opened = "[...document.querySelectorAll('.message')].filter(message => message.open).length"
        if closed := [message for message in messages if not message["open"]]:
            line = closed[-1]["ids"][-1]
            self.browser.run(f"document.querySelector('a[href=\"#{line}\"]').click()")
            self.see(
                f"{name}: the link to {line} opens it",
                self.browser.run(f"document.getElementById('{line}').checkVisibility()"),
            )
        for at, count in ((0, len(messages)), (1, 0)):
            self.browser.run(f"document.querySelectorAll('.fold button')[{at}].click()")
            self.see(f"{name}: {'close' if at else 'open'} all", self.browser.run(opened) == count)
        self.browser.run(
            f"{json.dumps([message['open'] for message in messages])}.forEach((open, at) =>"
            " document.querySelectorAll('.message')[at].open = open)"
        )

    def colours(self, name: str) -> None:
        papers = []
        for scheme in ("light", "dark"):
            self.browser.media(scheme=scheme)
            seen = self.browser.run(CONTRAST)
            papers.append(seen["paper"])
            self.see(f"{name}: contrast in {scheme}", seen["least"] >= 4.5, f"{seen['least']:.2f} at {seen['where']}")
        self.see(f"{name}: light and dark", papers[0] > 0.8 and papers[1] < 0.05, papers)

    def print(self, name: str, came: Any) -> None:
        self.browser.media("print")
        hidden = self.browser.run(
            """[...document.querySelectorAll('.beat')].filter(it => !it.checkVisibility() || !it.offsetHeight).length +
            (getComputedStyle(document.querySelector('output') ?? document.head).display !== 'none')"""
        )
        paper = base64.b64decode(
            self.browser.ask("Page.printToPDF", preferCSSPageSize=True, printBackground=True)["data"]
        )
        pages = len(re.findall(rb"/Type\s*/Page\b", paper))
        self.see(f"{name}: printed", hidden == 0 and paper[:4] == b"%PDF" and pages >= 1, (hidden, pages))
        self.browser.media()

    def look_at_notes(self, name: str) -> None:
        """The page of a waveform: its notes, which wrap within the window, scroll there, and are printed whole."""
        dump, page = self.folder / "dump.vcd", self.folder / "waves.html"
        text = (ROOT / "examples" / "waves" / "dump.vcd").read_text()
        dump.write_text(text.replace("$scope module bench", "$scope module bench<i>&amp;" + "x" * 200))
        words: List[Any] = [
            sys.executable,
            ROOT / "tlbridge-trace",
            dump,
            "--client",
            "dut.up",
            "--manager",
            "dut.down",
            "--html",
            page,
            "--tlexplain",
            self.tlexplain,
        ]
        done = subprocess.run(words, capture_output=True, text=True)
        said = [
            line.removeprefix("tlbridge-trace: ")
            for line in done.stderr.splitlines()
            if line.startswith("tlbridge-trace: ")
        ]
        self.browser.media()
        self.browser.open(page)
        notes = self.browser.run("[...document.querySelectorAll('header + .notes li')].map(note => note.textContent)")
        self.see(
            f"{name}: the notes",
            done.returncode == 0 and len(said) == 6 and notes[1:] == said and notes[0].startswith(f"{dump}: "),
            (notes, done.stderr),
        )
        self.see(f"{name}: no script fails", not self.browser.failures(), self.browser.failures())
        self.colours(name)
        place = """(() => {
          const list = document.querySelector('.notes ul');
          const box = document.querySelector('.notes').getBoundingClientRect();
          const hidden = list.scrollWidth - list.clientWidth;
          return [list.scrollHeight, list.clientHeight, hidden, box.left, innerWidth - box.right];
        })()"""
        self.browser.media()
        high, shown, hidden, left, right = self.browser.run(place)
        self.see(
            f"{name}: within the window",
            shown < high and shown <= 192 and hidden <= 0 <= min(left, right),
            (high, shown, hidden, left, right),
        )
        self.browser.media("print")
        high, shown, hidden, left, right = self.browser.run(place)
        self.see(
            f"{name}: printed whole",
            high == shown and hidden <= 0 <= min(left, right),
            (high, shown, hidden, left, right),
        )
        self.browser.media()

    def time(self, lines: int) -> None:
        """The page of a long trace: program and browser take MOST_SECONDS of processor time, or twice that."""
        text = lawful_trace(8, 4, lines, 1)
        page, begun = self.folder / "page.html", seconds_of_children()
        page.write_bytes(self.said(self.tlexplain, "--html", text=text))
        made, opened = seconds_of_children() - begun, self.browser.open(page)
        beats, messages = self.browser.run("['.beat', '.message'].map(what => document.querySelectorAll(what).length)")
        begun = self.browser.processor_seconds()
        self.browser.run("document.querySelector('.fold button').click(), document.body.offsetHeight")
        unfolded = self.browser.processor_seconds() - begun
        print(
            (
                f"{lines} lines, {messages} messages: a page of {page.stat().st_size / 1e6:.1f} MB, made in"
                f" {made:.2f} s, opened in {opened:.2f} s;"
            ),
            f"all messages opened in {unfolded:.2f} s",
        )
        self.see("a long trace: folded", 0 < messages < beats, messages)
        self.see("a long trace: all beats", beats == text.count(b"\n") - 1, beats)
        self.see("a long trace: in time", made < MOST_SECONDS and opened < 2 * MOST_SECONDS, (made, opened))


@pytest.fixture(scope="module")
def browser(tmp_path_factory: pytest.TempPathFactory) -> Iterator[Browser]:
    needs_tools("chromium")
    browser = Browser("chromium", tmp_path_factory.mktemp("browser"))
    yield browser
    browser.end()


@pytest.fixture
def looks(browser: Browser, differences: Differences, tmp_path: Path) -> Looks:
    return Looks(browser, differences, tmp_path)


@pytest.mark.parametrize("path", sorted(EXAMPLES.rglob("*.trace")), ids=lambda path: str(path.relative_to(EXAMPLES)))
def test_the_page_of_an_example(looks: Looks, path: Path) -> None:
    looks.look_at(path.stem, path.read_bytes())


@pytest.mark.parametrize("seed, widths", enumerate(((8, 8), (1, 16), (64, 8), (4, 32), (128, 16))))
def test_the_page_of_a_random_trace(looks: Looks, seed: int, widths: Tuple[int, int]) -> None:
    looks.look_at(f"random, {widths}", lawful_trace(*widths, 60, seed))


def test_the_page_of_markup_in_place_of_a_line(looks: Looks) -> None:
    looks.look_at("markup", b'tilelink-trace 1 client 8 manager 8\n<b>"A&amp;"</b> <script>alert(1)</script>\n')


def test_the_notes_of_a_waveform(looks: Looks) -> None:
    looks.look_at_notes("notes of a waveform")


def test_the_page_of_a_long_trace_is_there_in_time(looks: Looks) -> None:
    looks.time(10_000)
