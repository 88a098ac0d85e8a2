"""Tests of the tools: lists from manifests, answers as SARIF and as pages, right sums, and the completion of bash.

`test.sh` runs them. What needs dexdump, bash or the built program is left out, and said, where that is not there."""
import collections
import contextlib
import functools
import hashlib
import html.parser
import importlib.machinery
import importlib.util
import io
import json
import pathlib
import re
import shutil
import subprocess
import sys
import tempfile
import unittest
import unittest.mock
import zlib

sys.dont_write_bytecode = True
tools = pathlib.Path(__file__).resolve().parent
sys.path.insert(0, str(tools))
import assemble
import dex_listing
import paths
import test_sarif
import verdicts

SAMPLES = tools / "samples"
LEAKY = SAMPLES / "leaky"
PROGRAM = tools.parent / "crates/nosleep/out/nosleep"
ANDROID = 'xmlns:android="http://schemas.android.com/apk/res/android"'
HEADS = "".join(line for line in (SAMPLES / "answers/leaky.txt").read_text().splitlines(True) if line.startswith("report"))
WHOLE = {name: (SAMPLES / f"answers/{name}.txt").read_text() for name in ("leaky", "thrown_leaks", "two_services")}
REFUSED = "refused N8 Lcom/example/leaky/MainActivity$Early;->run 8 0\n"
# Answers that are no verdict, and the name of their notification.
UNJUDGED = [
    (REFUSED, "N8"), ("refused N10 Lapp/R;-><init> 3 0\n", "N10"),
    ("bad list NoClass 1\n", "NoListedClass"), ("bad list NoCallback 0\n", "NoCallback"),
    ("bad list Key 0 x\n", "BadList"), ("bad dex 0 Signature\n", "BadDex"), ("bad link DuplicateClass Lapp/R; 1 0\n", "BadLink"),
    ("limit Files\n", "Limit"), ("cannot read a\\x20b\n", "Unread"),
    ("usage: nosleep receiver DEX CLASS\n       nosleep verify LIST DEX...\n", "Usage"),
]


@functools.cache
def loaded(tool):
    loader = importlib.machinery.SourceFileLoader(tool.replace("-", "_"), str(tools / tool))
    module = importlib.util.module_from_spec(importlib.util.spec_from_loader(loader.name, loader))
    loader.exec_module(module)
    return module


def run(tool, *words, given=b""):
    """A tool's status, its output and its errors, as if it were started with these words."""
    out, errors, status = io.TextIOWrapper(io.BytesIO()), io.StringIO(), 0
    with unittest.mock.patch.multiple(sys, argv=[tool, *map(str, words)], stdin=io.TextIOWrapper(io.BytesIO(given))):
        with contextlib.redirect_stdout(out), contextlib.redirect_stderr(errors):
            try:
                loaded(tool).main()
            except SystemExit as end:
                status = end.code if isinstance(end.code, int) else 1
                print(end.code, file=errors)
    out.flush()
    return status, out.buffer.getvalue().decode(), errors.getvalue()


def needs(name):
    return unittest.skipUnless(shutil.which(name), f"there is no {name} here")


class Case(unittest.TestCase):
    """A test with a folder of its own, in which the leaking sample stands as a file."""

    def setUp(self):
        room = tempfile.TemporaryDirectory()
        self.addCleanup(room.cleanup)
        self.folder = pathlib.Path(room.name)
        self.dex = self.written("leaky.dex", assemble.assemble((LEAKY / "app.txt").read_text()))
        self.list = self.written("list.toml", run("list-from-manifest", LEAKY / "AndroidManifest.xml")[1])

    def written(self, name, content):
        path = self.folder / name
        path.write_bytes(content if isinstance(content, bytes) else content.encode())
        return path

    def sample(self, name):
        """A sample of the applications that the crates test."""
        return tools.parent / f"crates/sample_apps/data/{name}.dex"


class Words(unittest.TestCase):
    def test_statuses_of_words(self):
        for tool in ("list-from-manifest", "report-to-sarif", "report-to-html", "reseal"):
            for words, status, said in (("--help", 0, "exit status: 0"), ("--other", 2, "usage:")):
                with self.subTest(f"{tool} {words}"):
                    ran = subprocess.run([tools / tool, words], capture_output=True, text=True)
                    self.assertEqual(ran.returncode, status)
                    self.assertIn(said, ran.stdout + ran.stderr)


    @unittest.skipUnless(pathlib.Path("/dev/full").exists(), "there is no /dev/full here")
    def test_a_full_disk(self):
        manifest, answer = LEAKY / "AndroidManifest.xml", SAMPLES / "answers/leaky.txt"
        for tool, name in (("list-from-manifest", manifest), ("report-to-sarif", answer), ("report-to-html", answer)):
            with self.subTest(tool), open("/dev/full", "wb") as full:
                ran = subprocess.run([tools / tool, name], stdout=full, stderr=subprocess.PIPE, text=True)
                self.assertEqual(ran.returncode, 1)
                self.assertIn("standard output cannot be written: No space left", ran.stderr)


class Lists(Case):
    # An application's entries, and the classes with their kinds that are listed.
    LISTED = [
        ("", []),
        ('<activity android:name=".A"/>', ["activity Lorg/x/A;"]),
        ('<service android:name="S"/>', ["service Lorg/x/S;"]),
        ('<receiver android:name="com.y.R$In" android:enabled="false"/>', ["receiver Lcom/y/R$In;"]),
        ('<activity android:name=".A"/><activity-alias android:name=".B" android:targetActivity=".A"/>', ["activity Lorg/x/A;"]),
        ('<activity-alias android:name=".B" android:targetActivity="com.y.A"/>', ["activity Lcom/y/A;"]),
        ('<provider android:name=".P"/><meta-data android:name="m"/><service android:name=".é"/>', ["service Lorg/x/é;"]),
        ('<service android:name=".S"/><activity android:name=".A"/><service android:name=".S"/>', ["service Lorg/x/S;", "activity Lorg/x/A;"]),
        ('<service android:name=".S"/><receiver android:name=".S"/>', ["service Lorg/x/S;"]),
    ]
    # Files that are no manifest that can be read, and what is said of each.
    BAD = [
        (b"", "is empty"), (b" \n", "is empty"), (b"\3\0\x08\0\x40\0\0\0", "binary manifest, as packages have it: `apktool d`"),
        (b"PK\3\4", "is a package: `apktool d`"), (b"<manifest", "is no XML text"), (b"\0\0\0", "is no XML text"), (b"<a/>", "its root is <a>"),
        (b'<?xml version="1.0" encoding="no-such"?><manifest/>', "is no XML text"),
        (b'<manifest package="x"><application><activity name=".A"/></application></manifest>',
         "an <activity> has no name in the namespace of Android"),
        (f'<manifest {ANDROID}><application><service android:name=".S"/></application></manifest>'.encode(), "names no package"),
        (f'<manifest {ANDROID} package="x"><application><service android:name="a b"/></application></manifest>'.encode(), "is no class name"),
        (f'<manifest {ANDROID} package="x"><application><service android:name=""/></application></manifest>'.encode(), "is no class name"),
        (f'<manifest {ANDROID} package="x"><application><activity-alias android:name=".A"/></application></manifest>'.encode(), "no targetActivity"),
    ]

    def listed(self, text):
        status, out, _ = run("list-from-manifest", self.written("m.xml", text))
        self.assertEqual(status, 0)
        return [f"{kind} {name}" for name, kind in re.findall(r'^class = "(.*)"\nkind = "(.*)"$', out, re.M)]

    def test_entries(self):
        for entries, expected in self.LISTED:
            with self.subTest(entries):
                manifest = f'<manifest {ANDROID} package="org.x"><application>{entries}</application></manifest>'
                self.assertEqual(self.listed(manifest), expected)

    def test_no_application(self):
        self.assertEqual(self.listed('<manifest package="x"/>'), [])

    def test_another_prefix(self):
        prefix = ANDROID.replace("xmlns:android", "xmlns:a")
        manifest = f'<manifest {prefix} package="x"><application><service a:name=".S"/></application></manifest>'
        self.assertEqual(self.listed(manifest), ["service Lx/S;"])

    def test_bad_manifests(self):
        for content, said in self.BAD:
            with self.subTest(said, content=content):
                status, out, errors = run("list-from-manifest", self.written("m.xml", content))
                self.assertEqual((status, out), (1, ""))
                self.assertIn(said, errors)
        self.assertIn("cannot be read", run("list-from-manifest", self.folder / "absent")[2])

    def test_what_it_cannot_know(self):
        entries = "".join(f'<service android:name=".S{number}"/>' for number in range(257))
        manifest = f'<manifest {ANDROID} package="x"><application>{entries}</application></manifest>'
        errors = run("list-from-manifest", self.written("m.xml", manifest))[2]
        for said in ("257 components", "runnables, receivers that code registers", "limit Components"):
            self.assertIn(said, errors)

    @needs("dexdump")
    def test_runnables(self):
        status, out, _ = run("list-from-manifest", LEAKY / "AndroidManifest.xml", "--runnables", self.dex, self.sample("inner_class"))
        self.assertEqual(status, 0)
        self.assertEqual(re.findall(r'^#class = "(.*)"$', out, re.M), ["Lcom/example/leaky/MainActivity$Early;", "Lapp/A$1;"])
        self.assertTrue(out.startswith(self.list.read_text()))

    @needs("dexdump")
    def test_runnables_of_no_file(self):
        status, out, errors = run("list-from-manifest", LEAKY / "AndroidManifest.xml", "--runnables", self.list)
        self.assertEqual((status, out), (1, ""))
        self.assertIn("dexdump does not take", errors)


class Answers(Case):
    # What becomes of a line of a whole report that no program writes: the line, and what it becomes.
    WRONG = [
        ("report 2 of 3", "report 3 of 3"), ("report 2 of 3", "report 2 of 4"), ("is C1 after", "is C0 after"),
        ("body 1 4 A", "body 2 4 A"), ("ret C0", "out C0"), ("0/A/0 3/C0", "0/A/1 3/C0"),
        ("0/A/0", "0/A/0/0"), ("0/A/0", "0"), ("0/A/0", "00/A"), ("0/A/0", "+0/A"), ("0/A/0", "0/B"),
        ("outside 1 1", "outside 2 1"), ("outside 1 1", "outside 1"),
        ("own 0 0 1", "own 0 0 7"), ("own 0 0 1", "other 0 1 0 1"), ("own 0 0 1", "away 0 0 1"),
        ("exit 0 5 C1 3 6 0", "exit 0 5 C1 4 6 0"), ("exit 0 5 C1 3 6 0", "exit 0 5 C1 3 7 0"), ("exit 0 5 C1 3 6 0", "exit 0 5 C1 3 6"),
        ("exit 0 5 C1 3 6 0\n", "exit 0 5 C1 3 6 0\nexit 0 5 C1 3 6 0\n"), ("exit 0 5 C1 3 6 0\n", ""),
        ("view 0 0 0 A start\n", "view 0 0 0 A start\nbody 7 3 C1 ret C1 0/C1\n"),
    ]

    def refused(self, text):
        with self.assertRaises(verdicts.Unreadable):
            verdicts.answer_of(text.encode())

    def test_whole_reports(self):
        for name, expected in (("leaky", [(7, 4), (7, 5), (7, 6)]), ("thrown_leaks", [(1, 1), (2, 2)]), ("two_services", [(3, 8)])):
            reports = verdicts.answer_of(WHOLE[name].encode()).reports
            self.assertEqual([(len(report.bodies), len(report.views)) for report in reports], expected)

    def test_heads(self):
        for report in verdicts.answer_of(HEADS.encode()).reports:
            self.assertIsNone(report.exit)

    def test_cut_off_texts(self):
        # the front that is the one head of a single report is a text of its own
        whole = {**WHOLE, "heads": HEADS, "accept": "accept\n", "refused": REFUSED, "certificate": "nosleep 1\nlist 0\nend\n"}
        for name, text in whole.items():
            fronts = [end for end in range(len(text)) if name != "two_services" or end != text.index("\n") + 1]
            for end in fronts:
                with self.subTest(name, end=end):
                    self.refused(text[:end])

    def test_other_texts(self):
        for text in ("hello\n", "accept\naccept\n", "refused N11 La;->b 0 0\n", "refused N4 La;->b 0\n", "report 1 of 1: La;->b is C1\n"):
            with self.subTest(text):
                self.refused(text)

    def test_wrong_lines(self):
        for line, other in self.WRONG:
            with self.subTest(f"{line!r} as {other!r}"):
                self.assertIn(line, WHOLE["leaky"])
                self.refused(WHOLE["leaky"].replace(line, other, 1))

    def test_tools_say_what_is_wrong(self):
        for tool in ("report-to-sarif", "report-to-html"):
            for words, given, said in (
                    (["-"], b"", "the text is empty"), (["-"], HEADS.encode()[:-1], "cut off"),
                    (["-"], HEADS.encode().splitlines(True)[0], "report 2 of 3 is missing"),
                    ([self.folder / "absent"], b"", "cannot be read"), (["-", "--list", self.dex], b"accept\n", "is no component list"),
                    (["-", "--list", self.folder / "absent"], b"accept\n", "cannot be read")):
                with self.subTest(f"{tool} {said}"):
                    status, out, errors = run(tool, *words, given=given)
                    self.assertEqual((status, out), (1, ""))
                    self.assertIn(said, errors)

    @needs("dexdump")
    def test_other_files_than_those_of_the_report(self):
        for tool in ("report-to-sarif", "report-to-html"):
            errors = run(tool, "-", "--dex", self.sample("thrown_leaks"), given=WHOLE["leaky"].encode())[2]
            self.assertIn("is in none of these DEX files", errors)


class Paths(unittest.TestCase):
    TWICE = ("report 1 of 1: La;->w is C2 after La;->f\nbody 0 0 C0 ret C1 0/C0 2/C1\nbody 1 1 C0 exc C2 0/C0/0 3/C1 5/C1/0 8/C2\n"
             "view 0 0 0 C0 start\nview 1 0 0 C2 own 0 0 1\nexit 0 0 C2 1 1 0\n")

    def steps(self, name):
        report = verdicts.answer_of(WHOLE[name].encode()).reports[-1]
        return [(step.component, step.state, step.edge, step.before, step.after, step.mover) for step in paths.steps_of(report)]

    def test_steps(self):
        self.assertEqual(self.steps("leaky"), [
            (0, 0, 0, "A", "C0", None), (0, 1, 1, "C0", "C0", None), (0, 2, 3, "C0", "C1", None),
            (0, 3, 5, "C1", "C1", None), (0, 4, 7, "C1", "C1", None), (0, 5, 9, "C1", "C1", None)])

    def test_steps_of_another_component(self):
        self.assertEqual(self.steps("two_services"), [
            (0, 0, 0, "A", "A", None), (1, 0, 0, "A", "C1", 1), (1, 1, 6, "C1", "C0", 2), (1, 0, 0, "C0", "C1", 3), (0, 1, 6, "C1", "C1", None)])

    def test_a_body_is_told_once(self):
        report = verdicts.answer_of(self.TWICE.encode()).reports[0]
        parts = paths.parts_of(report, Nameless)
        rows = [(row.depth, row.pc, row.is_again, row.throws) for row in parts[0][1]]
        self.assertEqual(rows, [
            (0, 0, False, False), (1, 0, False, False), (1, 2, False, False), (0, 3, False, False), (0, 5, True, False), (0, 8, False, True)])
        self.assertEqual(parts[1][1], [])

    def test_deep_calls(self):
        bodies = "".join(f"body {number} {number} C1 ret C1 0/C1" + (f"/{number - 1}" if number else "") + " 3/C1\n" for number in range(5_000))
        text = f"report 1 of 1: La;->w is C1 after La;->f\n{bodies}view 0 0 0 C1 start\nexit 0 0 C1 0 4999 0\n"
        (_, rows), = paths.parts_of(verdicts.answer_of(text.encode()).reports[0], Nameless)
        self.assertEqual((len(rows), max(row.depth for row in rows)), (10_000, 4_999))

    def test_ends_of_long_paths(self):
        parts = [("a", [1, 2, 3]), ("b", []), ("c", [4, 5])]
        for most, kept in ((9, [[1, 2, 3], [], [4, 5]]), (4, [[2, 3], [], [4, 5]]), (1, [[], [], [5]])):
            found, left_out = paths.ends_of(parts, most)
            self.assertEqual(([rows for _, rows in found], left_out), (kept, max(0, 5 - most)))

    def test_held_since(self):
        for name, expected in (("leaky", (2, 8)), ("thrown_leaks", (0, 15)), ("two_services", (1, 23))):
            report = verdicts.answer_of(WHOLE[name].encode()).reports[-1]
            _, row = paths.held_since(paths.parts_of(report, Nameless))
            self.assertEqual((row.method, row.pc), expected)

    def test_lost_by_a_new_object(self):
        text = ("report 1 of 1: La;->w is L after La;->f\nbody 0 0 A ret C1 0/A\nbody 1 0 L ret L 0/L\n"
                "view 0 0 0 A start\nview 1 0 0 C1 own 0 0 0\nexit 0 0 L 1 1 0\n")
        step, row = paths.held_since(paths.parts_of(verdicts.answer_of(text.encode()).reports[0], Nameless))
        self.assertEqual((step.before, step.after, row), ("C1", "L", None))


class Nameless:
    """Names where nothing is known."""

    @staticmethod
    def text(number, pc):
        return ""


class Sarif(Case):
    def log(self, text, *words):
        status, out, errors = run("report-to-sarif", "-", *words, given=text.encode())
        self.assertEqual((status, errors), (0, ""))
        log = json.loads(out)
        self.assertEqual(test_sarif.faults(log), [])
        return log["runs"][0]

    def test_verdicts(self):
        reported = [(text, text.count("report ")) for text in WHOLE.values()]
        for text, count in (("accept\n", 0), ("nosleep 1\nlist 0\nend\n", 0), (HEADS, 3), *reported):
            with self.subTest(text[:60]):
                run = self.log(text)
                self.assertEqual(len(run["results"]), count)
                self.assertEqual(run["invocations"], [{"executionSuccessful": True}])

    def test_answers_that_are_no_verdict(self):
        for text, name in UNJUDGED:
            with self.subTest(text):
                run = self.log(text)
                note, = run["invocations"][0]["toolExecutionNotifications"]
                self.assertEqual((note["descriptor"]["id"], run["results"], run["invocations"][0]["executionSuccessful"]), (name, [], False))
                self.assertIn(text.split("\n")[0], note["message"]["text"])

    def test_heads_have_no_flow(self):
        result = self.log(HEADS)["results"][0]
        self.assertNotIn("codeFlows", result)
        name = {"fullyQualifiedName": "Lcom/example/leaky/MainActivity;->onPause", "kind": "function"}
        self.assertEqual(result["locations"], [{"logicalLocations": [name]}])
        self.assertEqual(result["ruleId"], "C1")

    def test_flow_without_names(self):
        flow = self.log(WHOLE["leaky"])["results"][0]["codeFlows"][0]["threadFlows"][0]["locations"]
        names = [place["location"]["logicalLocations"][0]["fullyQualifiedName"] for place in flow]
        self.assertEqual(names[:4], ["Lcom/example/leaky/MainActivity;", "method 4", "method 1", "method 1"])

    @needs("dexdump")
    def test_places(self):
        data = self.dex.read_bytes()
        for text in (WHOLE["leaky"], HEADS):
            result = self.log(text, "--list", self.list, "--dex", self.dex)["results"][0]
            region = result["locations"][0]["physicalLocation"]["region"]
            # invoke-static in onPause
            self.assertEqual((data[region["byteOffset"]], region["byteLength"]), (0x71, 6))
        place, = self.log(WHOLE["leaky"], "--dex", self.dex)["results"][0]["relatedLocations"]
        self.assertEqual((place["logicalLocations"][0]["fullyQualifiedName"], place["properties"]["pc"]), ("Lcom/example/leaky/Power;->take", 8))

    @needs("dexdump")
    def test_throws_in_a_flow(self):
        flow = self.log(WHOLE["leaky"], "--list", self.list, "--dex", self.dex)["results"][0]["codeFlows"][0]["threadFlows"][0]["locations"]
        thrown = [(place["location"]["logicalLocations"][0]["fullyQualifiedName"], place["kinds"])
                  for place in flow if "throw" in place.get("kinds", [])]
        self.assertEqual(thrown, [("Lcom/example/leaky/MainActivity;->onPause", ["call", "throw"]), ("Lcom/example/leaky/Upload;->send", ["throw"])])

    def test_what_the_check_of_the_schema_refuses(self):
        text = run("report-to-sarif", "-", given=WHOLE["leaky"].encode())[1]
        edits = [
            ('"version": "2.1.0"', '"version": "2.0.0"'), ('"message"', '"massage"'), ('"level": "error"', '"level": "fatal"'),
            ('"ruleIndex": 0', '"ruleIndex": 1'), ('"nestingLevel": 1', '"nestingLevel": -1'), ('"id": "C1"', '"di": "C1"'),
            ('"executionSuccessful": true', '"executionSuccessful": 1'), ('"results": [', '"outcomes": ['),
        ]
        for old, new in edits:
            with self.subTest(new):
                self.assertIn(old, text)
                self.assertNotEqual(test_sarif.faults(json.loads(text.replace(old, new, 1))), [])

    LISTING = """\
  Class descriptor  : 'Lorg/x y/R;'
  Virtual methods   -
    #0              : (in Lorg/x y/R;)
      name          : 'run'
      type          : '()V'
000100: 0000                                   |0000: nop // spacer
000102: 0e00                                   |0001: return-void
      positions     :
        0x0000 line=12
  source_file_idx   : 3 (R.java)
"""

    def test_source_lines(self):
        reader = dex_listing.Reader("a b.dex", 0)
        for line in self.LISTING.splitlines(True):
            reader.take(line)
        method, = reader.methods
        self.assertEqual((method.shown(), method.proto), ("Lorg/x\\x20y/R;->run", "()V"))
        for root, uri, region in ((None, "a%20b.dex", {"byteOffset": 0x102, "byteLength": 2}), ("src", "src/org/x%5Cx20y/R.java", {"startLine": 12})):
            place = loaded("report-to-sarif").Writer(None, root).physical(method, 1, method.rows[1])
            self.assertEqual((place["artifactLocation"]["uri"], place["region"]), (uri, region))

    @needs("dexdump")
    def test_refusal_with_its_place(self):
        note, = self.log(REFUSED, "--dex", self.dex)["invocations"][0]["toolExecutionNotifications"]
        offset = note["locations"][0]["physicalLocation"]["region"]["byteOffset"]
        # sget-object in run
        self.assertEqual(self.dex.read_bytes()[offset], 0x62)


class Page(html.parser.HTMLParser):
    """Counts the tags and the classes of a page, and gathers what it names from outside."""
    VOID = {"meta", "tr", "td", "th", "p"}

    def __init__(self, text):
        super().__init__()
        self.open, self.classes, self.outside, self.text = [], collections.Counter(), [], ""
        self.feed(text)

    def handle_starttag(self, tag, attrs):
        given = dict(attrs)
        self.classes.update(f"{tag}.{name}" for name in (given.get("class") or "").split())
        self.classes[tag] += 1
        self.outside += [value for name, value in attrs if name in ("src", "href", "data", "action") and not value.startswith("#")]
        if tag not in self.VOID:
            self.open.append(tag)

    def handle_endtag(self, tag):
        if tag not in self.VOID and (not self.open or self.open.pop() != tag):
            self.outside.append(f"</{tag}> out of place")

    def handle_data(self, data):
        self.text += data


class Pages(Case):
    def page(self, text, *words):
        status, out, errors = run("report-to-html", "-", *words, given=text.encode())
        self.assertEqual((status, errors), (0, ""))
        page = Page(out)
        self.assertEqual((page.outside, page.open, page.classes["script"], page.classes["img"]), ([], [], 0, 0))
        return page

    def test_every_answer(self):
        for text in ("accept\n", HEADS, *WHOLE.values(), *(text for text, _ in UNJUDGED)):
            with self.subTest(text[:60]):
                self.page(text)

    def test_names_are_no_markup(self):
        page = self.page("report 1 of 1: La<script>;->w&amp is U1 after L<b>;->onPause\n")
        self.assertIn("La<script>;->w&amp", page.text)
        self.assertEqual(page.classes["b"], 0)

    def test_held_places_are_in_colour(self):
        self.assertEqual(self.page(HEADS).classes["div.row"], 0)
        page = self.page(WHOLE["thrown_leaks"])
        self.assertEqual((page.classes["section"], page.classes["div.step"]), (2, 3))
        # twice held at 22, 31 and 32; then held from 0 to 15, and lost from 17 to 30
        self.assertEqual((page.classes["div.held"], page.classes["div.lost"]), (3 + 3 + 9, 6))

    @needs("dexdump")
    def test_what_is_said_of_a_path(self):
        page = self.page(WHOLE["leaky"], "--list", self.list, "--dex", self.dex)
        for said in ("Held since Lcom/example/leaky/Power;->take at 8: invoke-virtual {v0}, Landroid/os/PowerManager$WakeLock;.acquire:()V.",
                     "Behind it Lcom/example/leaky/Upload;->send at 4", "activity Lcom/example/leaky/MainActivity; · resumed",
                     "Where the code touches Lcom/example/leaky/Power;->lock"):
            self.assertIn(said, page.text)

    @needs("dexdump")
    def test_another_component_moves(self):
        listed = self.written("two.toml", "".join(f'[[component]]\nkind = "service"\nclass = "Lapp/{name};"\n' for name in "ST"))
        page = self.page(WHOLE["two_services"], "--list", listed, "--dex", self.sample("two_services"))
        for said in ("service Lapp/T; · not created, after onCreate, onDestroy", "the files have no such callback", "Lapp/T;->onDestroy"):
            self.assertIn(said, page.text)

    @needs("dexdump")
    def test_where_the_code_touches_a_lock(self):
        page = self.page(HEADS, "--dex", self.dex)
        self.assertEqual(page.text.count("Lcom/example/leaky/Power;.lock:Landroid/os/PowerManager$WakeLock;"), 5)


class Sums(Case):
    def sealed(self, data):
        status, out, errors = run("reseal", self.written("in.dex", data), self.folder / "out.dex")
        return status, out + errors, (self.folder / "out.dex").read_bytes() if status == 0 else None

    def summed(self, data, end):
        """A file with the SHA-1 of its bytes up to an end, and a right Adler-32."""
        data = data[:12] + hashlib.sha1(data[32:end]).digest() + data[32:]
        return data[:8] + zlib.adler32(data[12:]).to_bytes(4, "little") + data[12:]

    def test_sums(self):
        right = self.dex.read_bytes()
        for data, lines in (
                (right, ["both sums were right"]),
                (self.summed(right, -52), ["signature", "checksum", "the old signature is that of d8"]),
                (self.summed(right, -1), ["signature", "checksum", "the old signature is not that of d8"]),
                (right[:8] + b"\0\0\0\0" + right[12:], ["checksum 00000000 is now", "only the checksum was wrong"])):
            with self.subTest(lines[-1]):
                status, out, sealed = self.sealed(data)
                self.assertEqual((status, sealed), (0, right))
                for line, start in zip(out.splitlines(), lines, strict=True):
                    self.assertTrue(line.startswith(start), line)

    def test_files_that_sums_do_not_mend(self):
        right = self.dex.read_bytes()
        for data, said in (
                (b"", "no DEX file"), (right[:111], "no DEX file"), (b"PK" + right[2:], "no DEX file"),
                (right[:4] + b"038\0" + right[8:], "the version is 038"), (right[:-1], "cut off")):
            with self.subTest(said):
                status, out, _ = self.sealed(data)
                self.assertEqual(status, 1)
                self.assertIn(said, out)


@unittest.skipUnless(PROGRAM.is_file(), "the program is not built here")
class Program(Case):
    """The way from a manifest to a verdict, by the built program."""

    def verified(self, words):
        ran = subprocess.run([PROGRAM, "verify", *words], capture_output=True, text=True)
        return ran.returncode, ran.stdout

    @needs("dexdump")
    def test_from_a_manifest_to_a_verdict(self):
        listed = run("list-from-manifest", LEAKY / "AndroidManifest.xml", "--runnables", self.dex)[1]
        self.assertEqual(self.verified([self.written("l.toml", listed), self.dex]), (2, REFUSED))
        whole = self.written("l.toml", re.sub(r"^#(\[\[|class|kind)", r"\1", listed, flags=re.M))
        status, answer = self.verified([whole, self.dex])
        heads = "".join(line for line in answer.splitlines(True) if line.startswith("report "))
        self.assertEqual((status, heads), (1, HEADS))
        for writer in ("report-to-sarif", "report-to-html"):
            self.assertEqual(run(writer, "-", "--list", whole, "--dex", self.dex, given=answer.encode())[0], 0)
        handler = "failed:\nmove-exception v0\n"
        release = "invoke-static Lcom/example/leaky/Power;->drop()V\n"
        text = (LEAKY / "app.txt").read_text().replace(f"{handler}return-void\n", f"{handler}{release}return-void\n")
        self.assertEqual(self.verified([whole, self.written("mended.dex", assemble.assemble(text))])[0], 0)

    def test_right_sums(self):
        data = self.dex.read_bytes()
        old = self.written("old.dex", Sums.summed(self, data, -52))
        self.assertEqual(self.verified(["/dev/null", old]), (3, "bad dex 0 Signature\n"))
        run("reseal", old, old)
        self.assertEqual(old.read_bytes(), data)


@needs("bash")
class Completion(Case):
    def completed(self, *words):
        line = f'COMP_WORDS=({" ".join(words)}); COMP_CWORD={len(words) - 1}'
        script = f'. "{tools}/completion.bash"; {line}; _nosleep; printf "%s\\n" "${{COMPREPLY[@]}}"'
        ran = subprocess.run(["bash", "-c", script], cwd=self.folder, capture_output=True, text=True)
        self.assertEqual(ran.stderr, "")
        return sorted(ran.stdout.split())

    def test_words(self):
        (self.folder / "more").mkdir()
        self.written("a.txt", "")
        for words, expected in (
                (['""'], ["check", "receiver", "verify"]), (["v"], ["verify"]), (["verify", '""'], ["list.toml", "more"]),
                (["verify", "--"], ["--count", "--json"]), (["verify", "--json", '""'], ["list.toml", "more"]),
                (["check", "--count", "a.txt", '""'], ["list.toml", "more"]), (["check", "a.txt", "list.toml", "le"], ["leaky.dex"]),
                (["verify", "list.toml", '""'], ["leaky.dex", "more"]), (["verify", "list.toml", "leaky.dex", "le"], ["leaky.dex"]),
                (["receiver", '""'], ["leaky.dex", "more"]), (["receiver", "leaky.dex", '""'], []), (["other", '""'], [])):
            with self.subTest(" ".join(words)):
                self.assertEqual(self.completed("nosleep", *words), expected)


if __name__ == "__main__":
    unittest.main()
