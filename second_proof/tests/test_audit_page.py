"""The page that audits an auction in a browser: what it is made of, its checker in node, and the page in Chromium.

Expected answers come from `vectors/`, from the documents, and from the native checker, which has the same proof.
"""

from __future__ import annotations

import base64
import hashlib
import importlib.machinery
import importlib.util
import json
import os
import pathlib
import re
import shutil
import subprocess
import sys
import tempfile
import time
import types
import typing
import unittest

from checks import browser

ROOT = pathlib.Path(__file__).resolve().parents[2]
SECOND, EXAMPLES, VECTORS = ROOT / "second_proof", ROOT / "examples", ROOT / "vectors"
PAGE, CHECKER = SECOND / "built" / "audit.html", SECOND / "built" / "checker"
SAMPLE = [EXAMPLES / f"spectrum.{kind}" for kind in ("award", "log", "cert")]
SECONDS = 120
# the commands that the page has, and about the stack that a worker of a browser has, in kB
COMMANDS = ("audit", "auction", "check", "place-check", "weigh-check")
STACK = "--stack-size=480"
PROGRAMS = {
    "coqc": "coq",
    "make": "make",
    "ocamlopt": "ocaml",
    "ocamlfind": "ocaml-findlib",
    "js_of_ocaml": "js-of-ocaml",
}


def has_library() -> bool:
    """Whether OCaml's library js_of_ocaml is here."""
    words = ["ocamlfind", "query", "js_of_ocaml"]
    return bool(shutil.which("ocamlfind")) and subprocess.run(words, capture_output=True, check=False).returncode == 0


def missing() -> list[str]:
    """The Debian packages that the build of the page lacks."""
    packages = [package for program, package in PROGRAMS.items() if not shutil.which(program)]
    return packages + ([] if has_library() else ["libjs-of-ocaml-dev"])


MISSING = missing()
WITHOUT_PAGE = f"the page of the second proof is skipped: apt-get install {' '.join(MISSING)}"
WITHOUT_NODE = "the checker of the page isn't run in node: apt-get install nodejs"
WITHOUT_BROWSER = "the page isn't opened in a browser: apt-get install chromium"
NODE = shutil.which("node") or shutil.which("nodejs")


def setUpModule() -> None:
    """Builds the page, or reports what is skipped; unittest names that only with -v."""
    if MISSING:
        print(WITHOUT_PAGE, file=sys.stderr)
        return
    for is_there, sentence in ((NODE, WITHOUT_NODE), (browser.program(), WITHOUT_BROWSER)):
        if not is_there:
            print(sentence, file=sys.stderr)
    built = subprocess.run([SECOND / "build", "page"], capture_output=True, text=True, check=False)
    if built.returncode:
        raise AssertionError(f"second_proof/build page: {built.stdout[-2000:]}{built.stderr[-2000:]}")


def loaded(name: str, path: pathlib.Path) -> types.ModuleType:
    """A Python file that isn't on the path of modules."""
    loader = importlib.machinery.SourceFileLoader(name, str(path))
    spec = importlib.util.spec_from_loader(name, loader)
    assert spec
    module = importlib.util.module_from_spec(spec)
    loader.exec_module(module)
    return module


class Case(typing.NamedTuple):
    """A case of vectors/: its name, the arguments of the run, and the text and the status that it has to end with."""

    name: str
    words: list[str]
    printed: str
    status: int


def cases_in(folder: pathlib.Path) -> list[Case]:
    """The cases of the page's commands, with their files in this folder."""
    shutil.copytree(VECTORS / "files", folder, dirs_exist_ok=True)
    found = [case for case in loaded("vectors_run", VECTORS / "run").cases() if case["words"][0] in COMMANDS]
    for case in found:
        for name, count, text in case["made"]:
            (folder / name).write_text(text.replace("\\n", "\n") * int(count))
    return [Case(case["case"], case["words"], case["printed"], case["status"]) for case in found]


def native(words: typing.Sequence[str | pathlib.Path], folder: pathlib.Path | None = None) -> tuple[str, int]:
    """What the native checker prints, and its status."""
    done = subprocess.run([CHECKER, *words], cwd=folder, stdin=subprocess.DEVNULL, capture_output=True, check=False)
    return done.stdout.decode("latin-1"), done.returncode


class Script(unittest.TestCase):
    """What the page is made of."""

    def test_parts(self) -> None:
        """Each part has to be there once, and a script may not end itself."""
        assemble = loaded("assemble", SECOND / "page" / "assemble.py")
        self.assertEqual(assemble.assembled("a @X@ b @Y@", {"X": "1@Y@", "Y": "2"}), "a 1@Y@ b 2")
        for page, parts in (("@X@", {}), ("@X@ @X@", {"X": ""}), ("", {"X": ""})):
            with self.assertRaises(SystemExit):
                assemble.assembled(page, parts)
        with self.assertRaises(SystemExit):
            assemble.need_script("a script", 'x = "</SCRIPT>"')

    def test_words(self) -> None:
        """The page has a text for each test of docs/CERTIFICATES.md and for each reply of docs/FORMATS.md."""
        words = (SECOND / "page" / "words.js").read_text()
        tests, replies = (re.search(rf"const {name} = \{{\n(.*?)\n\}}", words, re.S) for name in ("TESTS", "REPLIES"))
        assert tests and replies
        numbers = [f"{letter}{number}" for letter in "CP" for number in range(1, 10)]
        self.assertEqual(re.findall(r"^  (\w+):", tests[1], re.M), numbers)
        formats = (ROOT / "docs" / "FORMATS.md").read_text()
        order = (
            formats.split("Any other line gets the first reason")[1].split("| Reply | Meaning |")[1].split("\n\n")[0]
        )
        documented = re.findall(r"^\| `([a-z-]+)[^|]*\|", order, re.M)
        self.assertEqual(re.findall(r'^  "?([a-z-]+)"?:', replies[1], re.M), documented)
        self.assertEqual(len(documented), 13)


@unittest.skipIf(MISSING, WITHOUT_PAGE)
class Assembled(unittest.TestCase):
    """The one file."""

    def test_policy(self) -> None:
        """The policy names the script and the style by their checksums, and allows no address."""
        page = PAGE.read_text()
        policy = re.search(r'http-equiv="Content-Security-Policy" content="([^"]*)"', page)
        assert policy
        (style,), (script,) = re.findall(r"<style>(.*?)</style>", page, re.S), re.findall(
            r"<script>(.*?)</script>", page, re.S
        )
        of_script, of_style = (
            "'sha256-" + base64.b64encode(hashlib.sha256(text.encode()).digest()).decode() + "'"
            for text in (script, style)
        )
        self.assertEqual(
            policy[1],
            f"default-src 'none'; script-src {of_script}; style-src {of_style}; worker-src blob:; base-uri 'none'; "
            "form-action 'none'",
        )
        self.assertEqual(re.findall(r"""\s(?:src|href|action|srcset)\s*=|url\(|@import|https?://""", page), [])

    def test_same_bytes(self) -> None:
        """A build in another folder, by another home, clock and language, makes the same bytes."""
        with tempfile.TemporaryDirectory(prefix="an other folder ") as room:
            folder = pathlib.Path(room) / "second_proof"
            # (with the compiled proofs, and their times, so that they are kept)
            shutil.copytree(
                SECOND, folder, copy_function=shutil.copy2, ignore=shutil.ignore_patterns("built", "__pycache__")
            )
            (folder / "built").mkdir()
            shutil.copy2(SECOND / "built" / "coq_version", folder / "built")
            shutil.copy2(ROOT / "VERSION", room)
            variables = {**os.environ, "HOME": room, "TZ": "Asia/Tokyo", "LC_ALL": "C", "LANG": "C"}
            subprocess.run([folder / "build", "page"], env=variables, capture_output=True, check=True)
            self.assertEqual((folder / "built" / "audit.html").read_bytes(), PAGE.read_bytes())


@unittest.skipIf(MISSING, WITHOUT_PAGE)
@unittest.skipUnless(NODE, WITHOUT_NODE)
class InNode(unittest.TestCase):
    """The checker of the page, with a small stack."""

    def test_vectors(self) -> None:
        """Each case has the answer of the native checker, and of a book or of slots the one that vectors/ has."""
        assert NODE
        with tempfile.TemporaryDirectory() as room:
            folder = pathlib.Path(room)
            cases = cases_in(folder)
            command = [NODE, STACK, str(SECOND / "page" / "answers.js"), str(SECOND / "built" / "browser.js")]
            text = "".join(json.dumps(case.words) + "\n" for case in cases)
            done = subprocess.run(command, cwd=folder, input=text, capture_output=True, text=True, check=True)
            answers = [tuple(json.loads(line)) for line in done.stdout.splitlines()]
            self.assertGreater(len(cases), 700)
            for case, answer in zip(cases, answers, strict=True):
                with self.subTest(case=case.name):
                    self.assertEqual(answer, native(case.words, folder))
                    if case.words[0] not in ("audit", "auction"):
                        self.assertEqual(answer, (case.printed, case.status))


class Answer(typing.NamedTuple):
    """What the page shows: the heading, the text below it, and the answer as the checker printed it."""

    heading: str
    text: str
    printed: str


class Screen(browser.Browser):
    """A browser with the page."""

    def __init__(self) -> None:
        super().__init__()
        self.call("DOM.enable")
        self.size(1000)
        self.open(PAGE)

    def until(self, condition: str) -> None:
        """Waits for a condition in the page, but not forever."""
        end = time.monotonic() + SECONDS
        while not self.evaluate(f"!!({condition})"):
            if time.monotonic() > end:
                raise AssertionError(f"not within {SECONDS} s: {condition}")
            time.sleep(0.02)

    def choose(self, *paths: str | pathlib.Path) -> None:
        """Chooses files in the one input that the page has, instead of all others."""
        self.evaluate("files.length = 0; show_files(); at('choose').value = ''; null")
        node = self.call("DOM.getDocument")["root"]["nodeId"]
        found = self.call("DOM.querySelector", nodeId=node, selector="#choose")["nodeId"]
        self.call("DOM.setFileInputFiles", nodeId=found, files=[os.path.abspath(path) for path in paths])
        self.until(f"at('files').children.length === {len(paths)}")

    def call_them(self, kinds: typing.Sequence[str]) -> None:
        """Chooses the kind of each file, in the list next to its name."""
        for number, kind in enumerate(kinds):
            self.evaluate(
                f"""{{ const kind = document.querySelectorAll('#files select')[{number}]
                kind.value = '{kind}'
                kind.dispatchEvent(new Event('change')) }} null"""
            )

    def drop(self, files: dict[str, str]) -> None:
        """Drops files with these names and texts."""
        self.evaluate(
            f"""{{ const dropped = new DataTransfer()
            for (const [name, text] of Object.entries({json.dumps(files)})) dropped.items.add(new File([text], name))
            dispatchEvent(new DragEvent('drop', {{ dataTransfer: dropped, cancelable: true }})) }} null"""
        )

    def shown(self) -> Answer:
        """The answer, once it is there."""
        self.until("!at('verdict').hidden")
        printed = "[...at('answer').querySelectorAll('details')].find(it => it.innerText.startsWith('The answer as'))"
        return Answer(
            *self.evaluate(
                f"[at('verdict').textContent, at('answer').innerText, ({printed} || {{ textContent: '' }}).textContent]"
            )
        )

    def tested(self, *paths: str | pathlib.Path) -> Answer:
        """Chooses files and presses the button."""
        self.choose(*paths)
        self.until("!at('start').disabled")
        self.evaluate("at('start').click(); null")
        return self.shown()

    def key(self, name: str, number: int, **more: str) -> None:
        """Presses a key."""
        for kind in ("keyDown", "keyUp"):
            words = more if kind == "keyDown" else {}
            self.call("Input.dispatchKeyEvent", type=kind, key=name, code=name, windowsVirtualKeyCode=number, **words)

    def focus(self) -> str:
        """What has the focus."""
        return str(
            self.evaluate("document.activeElement.id || document.activeElement.getAttribute('aria-label') || ''")
        )


TITLE = "The answer as the checker printed it"
KINDS = {"check": ["book", "cert"], "weigh-check": ["book", "weights", "cert"], "place-check": ["slots", "cert"]}


@unittest.skipIf(MISSING, WITHOUT_PAGE)
@unittest.skipUnless(browser.program(), WITHOUT_BROWSER)
class InChromium(unittest.TestCase):
    """The page as its users have it."""

    screen: Screen
    folder: pathlib.Path
    cases: list[Case]

    @classmethod
    def setUpClass(cls) -> None:
        """Opens the page from the disk."""
        room = tempfile.TemporaryDirectory()
        cls.addClassCleanup(room.cleanup)
        cls.folder = pathlib.Path(room.name)
        cls.cases = cases_in(cls.folder)
        cls.screen = Screen()
        cls.addClassCleanup(cls.screen.close)

    def paths(self, case: Case) -> list[pathlib.Path]:
        """The files of a case."""
        return [self.folder / name for name in case.words[1:]]

    def test_sample(self) -> None:
        """The sample's winners and prices as the README has them, its checksums, and its refused lines."""
        answer = self.screen.tested(*reversed(SAMPLE))
        self.assertEqual(answer.heading, "Yes: winners and prices are right")
        shown = answer.text.replace("\N{NO-BREAK SPACE}", " ")
        self.assertIn("everest\n1 x a800, 3 x c2600\n\t292,400\t292,400\t420,000", shown)
        self.assertIn("All together\t1,436,700", answer.text)
        self.assertTrue(answer.printed.startswith(f"{TITLE}yes\nwinner everest 1 0 3 0 bid 420000 vickrey 292400"))
        for path in SAMPLE:
            self.assertIn(f"{hashlib.sha256(path.read_bytes()).hexdigest()}  {path.name}\n", answer.text)
        self.assertIn("Refused lines of the log, which changed nothing: 14", answer.text)
        self.assertIn("7\tbid,stranger,1 0 0 0,\tThe award has no such bidder.", answer.text)

    def test_each_no(self) -> None:
        """A certificate that fails each of the tests of a book, of weights and of slots, as vectors/ has it."""
        wanted = {f"{letter}{number}" for letter in "CP" for number in range(1, 10)} | {"weights"}
        for case in self.cases:
            name = case.printed.split(" ")[1] if case.status == 1 and case.words[0] != "audit" else ""
            for key in {name, "weights" if name and case.words[0] == "weigh-check" else ""} & wanted:
                wanted.remove(key)
                with self.subTest(case=case.name):
                    answer = self.screen.tested(*self.paths(case))
                    self.assertEqual(answer.printed, f"{TITLE}{case.printed}")
                    self.assertEqual(answer.heading, "No: this certificate doesn't show that the result is right")
                    self.assertIn(f"fails test {name}.", answer.text)
        self.assertEqual(wanted, set())

    def test_yes(self) -> None:
        """An acceptance for a book, for weights and for slots."""
        for command in ("check", "weigh-check", "place-check"):
            case = next(case for case in self.cases if case.words[0] == command and case.status == 0)
            with self.subTest(case=case.name):
                answer = self.screen.tested(*self.paths(case))
                self.assertEqual((answer.heading[:4], answer.printed), ("Yes:", f"{TITLE}{case.printed}"))

    def test_refusals(self) -> None:
        """A file that isn't of its form is refused, and its first faulty line is shown."""
        for kind, command in (
            ("book", "check"),
            ("cert", "check"),
            ("weights", "weigh-check"),
            ("slots", "place-check"),
        ):
            refusal = re.compile(rf"cca: refused {kind} (\d+)\n")
            case = next(case for case in self.cases if case.words[0] == command and refusal.fullmatch(case.printed))
            with self.subTest(case=case.name):
                self.screen.choose(*self.paths(case))
                self.screen.call_them(KINDS[command])
                self.screen.evaluate("at('start').click(); null")
                answer = self.screen.shown()
                self.assertEqual((answer.heading, answer.printed), ("No verdict", f"{TITLE}{case.printed}"))
                data = self.paths(case)[KINDS[command].index(kind)].read_bytes()
                line = data[: int(case.printed.split()[-1])].count(b"\n") + 1
                self.assertIn(f"The first faulty line is line {line}.", answer.text)

    def test_another_spelling(self) -> None:
        """A log with the line ends of Windows is shown with its first line; a log that isn't complete is named."""
        award, log, cert = SAMPLE
        windows = self.folder / "windows.log"
        windows.write_bytes(log.read_bytes().replace(b"\n", b"\r\n"))
        answer = self.screen.tested(award, windows, cert)
        self.assertEqual(answer.heading, "No verdict")
        self.assertIn("The first such line is line 1:", answer.text)
        self.assertIn("1: bid,everest,2 0 4 0,\\r\n", answer.text)
        short = self.folder / "short.log"
        short.write_text("".join(log.read_text().splitlines(keepends=True)[:40]))
        answer = self.screen.tested(award, short, cert)
        self.assertEqual(answer.printed, f"{TITLE}cca: refused log 41\n")
        self.assertIn("The log isn't complete: after its 40 lines", answer.text)

    def test_too_large(self) -> None:
        """A file above every limit isn't taken, and a certificate that may need too much memory isn't tested."""
        long = self.folder / "long.cert"
        with long.open("wb") as file:
            file.write(b"cert 1\n")
            file.truncate(12_000_001)
        self.screen.choose(SAMPLE[0], SAMPLE[1], long)
        self.assertTrue(self.screen.evaluate("at('start').disabled"))
        self.assertIn(
            "Run cca audit AWARD LOG CERT or tools/audit AWARD LOG CERT instead.",
            self.screen.evaluate("at('need').textContent"),
        )
        with long.open("r+b") as file:
            file.truncate(67_108_865)
        self.screen.evaluate("files.length = 0; show_files(); null")
        node = self.screen.call("DOM.getDocument")["root"]["nodeId"]
        found = self.screen.call("DOM.querySelector", nodeId=node, selector="#choose")["nodeId"]
        self.screen.call("DOM.setFileInputFiles", nodeId=found, files=[str(long)])
        self.screen.until("at('notices').textContent")
        sentence = "long.cert has 67,108,865 bytes, and no file of an auction has more than 67,108,864."
        self.assertIn(sentence, self.screen.evaluate("at('notices').textContent"))
        award = self.folder / "long.award"
        award.write_text(SAMPLE[0].read_text() + "#" * 65536)
        self.assertIn("The count is 65,537.", self.screen.tested(award, *SAMPLE[1:]).text)

    def test_dropped(self) -> None:
        """Files that are dropped with the published checksums are recognised, and each is found there or not."""
        texts = {f"auction.{path.suffix[1:]}": path.read_text() for path in SAMPLE}
        lines = {name: f"{hashlib.sha256(text.encode()).hexdigest()}  {name}\n" for name, text in texts.items()}
        texts["auction.log"] += "\n"
        self.screen.evaluate("files.length = 0; show_files(); null")
        self.screen.drop({"SHA256SUMS": "".join(lines.values()), "report.html": "<p>", **texts})
        self.screen.until("at('files').children.length === 5")
        kinds = self.screen.evaluate("files.map(file => file.kind)")
        self.assertEqual(kinds, ["checksums", "other", "award", "log", "cert"])
        shown = self.screen.evaluate("[...at('files').children].map(item => item.querySelector('.about').textContent)")
        self.assertIn("It is the published auction.award.", shown[2])
        self.assertIn("It is none of the published files", shown[3])
        self.assertNotIn("published", shown[1])

    def test_missing_and_double(self) -> None:
        """The page reports which file is missing, and which two have the same kind."""
        for paths, sentence in (
            (SAMPLE[:2], "Missing: the certificate."),
            ([SAMPLE[2]], "Missing: the award and the log of the auction, or else its book, or its slots."),
            ([EXAMPLES / "tie.book"], "Missing: the certificate."),
            ([*SAMPLE, EXAMPLES / "tie.book"], "These files are of different tests: the whole auction and the book."),
            (
                [*SAMPLE, EXAMPLES / "day-cramton.cert"],
                "Two files are taken for the same thing: spectrum.cert and day-cramton.cert.",
            ),
        ):
            self.screen.choose(*paths)
            self.assertIn(sentence, self.screen.evaluate("at('need').textContent"))
            self.assertTrue(self.screen.evaluate("at('start').disabled"))

    def test_keys(self) -> None:
        """Only by keys: from the input over each file to the button, and to the answer."""
        self.screen.choose(*SAMPLE)
        self.screen.evaluate("at('choose').focus(); null")
        passed: list[str] = []
        while (focus := self.screen.focus()) != "start" and len(passed) < 20:
            passed.append(focus)
            self.screen.key("Tab", 9)
        self.assertEqual(
            [it for it in passed if it.startswith(("Kind of", "Remove"))][:2],
            ["Kind of spectrum.award", "Remove spectrum.award"],
        )
        self.screen.key("Enter", 13, text="\r")
        self.screen.until("!at('verdict').hidden")
        self.assertEqual(self.screen.focus(), "verdict")

    def test_stop(self) -> None:
        """The page answers while the checker works, and Stop ends the checker."""
        self.screen.choose(*SAMPLE)
        state = self.screen.evaluate(
            """(async () => {
            at('start').click()
            const working = [at('stop').hidden, !!checker, at('answer').innerText.includes('Step 1 of 3')]
            at('stop').click()
            await new Promise(done => setTimeout(done, 0))
            const stopped = [checker === null, at('start').hidden, at('verdict').hidden, at('answer').children.length]
            return [...working, ...stopped] })()"""
        )
        self.assertEqual(state, [False, True, True, True, False, True, 0])
        self.assertEqual(self.screen.tested(*SAMPLE).heading[:3], "Yes")

    def test_widths(self) -> None:
        """No width from 400 to 1,280 needs a scroll to the side, in light and dark. No table needs one of its own."""
        tables = "[...document.querySelectorAll('.wide')].filter(it => it.scrollWidth > it.clientWidth + 1).length"
        self.screen.tested(*SAMPLE)
        for width in (400, 640, 820, 1280):
            for scheme in ("light", "dark"):
                self.screen.size(width, is_phone=width == 400)
                self.screen.medium("screen", scheme)
                self.assertLessEqual(self.screen.evaluate("document.documentElement.scrollWidth"), width)
                self.assertEqual(self.screen.evaluate(tables), 0)
        self.screen.medium("", "light")
        self.screen.size(1000)

    def test_labels(self) -> None:
        """Each control has a name for users who don't see it."""
        self.screen.choose(*SAMPLE)
        self.screen.call("Accessibility.enable")
        nodes = self.screen.call("Accessibility.getFullAXTree")["nodes"]
        controls = [
            node for node in nodes if node.get("role", {}).get("value") in ("button", "combobox", "DisclosureTriangle")
        ]
        self.assertGreater(len(controls), 7)
        self.assertEqual([node for node in controls if not node.get("name", {}).get("value")], [])

    def test_no_request(self) -> None:
        """The policy stops each way out, in the page and in a worker; the page itself asks for nothing."""
        out = "https://example.org/"
        # (each stop is reported later on, so the last one is waited for)
        tried = self.screen.call(
            "Runtime.evaluate",
            expression=f"""new Promise(done => {{
            const seen = new Set(), stops = ['connect-src', 'form-action', 'img-src', 'script-src-elem']
            let worker_said = ''
            const look = () => {{
                if (worker_said && stops.every(stop => seen.has(stop))) done([worker_said, window.other || 0])
            }}
            document.addEventListener('securitypolicyviolation', event => {{
                seen.add(event.effectiveDirective)
                look()
            }})
            setTimeout(() => done([...seen, worker_said]), {SECONDS * 1000})
            fetch('{out}').catch(() => 0)
            new Image().src = '{out}a.png'
            const script = document.createElement('script')
            script.textContent = 'window.other = 1'
            document.body.append(script)
            const form = document.createElement('form')
            form.action = '{out}'
            document.body.append(form)
            form.submit()
            const text = "fetch('{out}').then(() => postMessage('out'), () => postMessage('stopped'))"
            const worker = new Worker(URL.createObjectURL(new Blob([text])))
            worker.onmessage = event => {{ worker_said = event.data; look() }} }})""",
            awaitPromise=True,
            returnByValue=True,
            allowUnsafeEvalBlockedByCSP=False,
        )["result"]["value"]
        self.assertEqual(tried, ["stopped", 0])
        requests = self.screen.evaluate(
            "performance.getEntriesByType('resource').map(entry => entry.name.split(':')[0])"
        )
        self.assertEqual(set(requests) - {"blob", "https"}, set())


if __name__ == "__main__":
    unittest.main()
