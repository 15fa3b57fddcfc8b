"""The studio's page in headless Chromium: the whole loop by mouse and by keyboard, faults, files,
accessibility, and pages that attack it."""

import http.server
import json
import os
import random
import signal
import subprocess
import sys
import threading
import time
import unittest

from broker_tools import children_of
from program import PROGRAM, TOOLS, of_a_process, vx
from studio_browser import ABSENT, CONTROL, Page, StudioProcess, browser, set_theme
from test_graph_files import FolderTest
from feqyldan.storage import read_bytes

WIDTH, HEIGHT = 160, 90
PICTURES = "part0.pgm", "part1.pgm", "part2.pgm", "part3.pgm", "good.pgm"
ENTER, ESCAPE, TAB, DELETE, BACKSPACE = "\ue007", "\ue00c", "\ue004", "\ue017", "\ue003"
LEFT, UP, RIGHT, DOWN, PAGE_UP, PAGE_DOWN = (
    "\ue012", "\ue013", "\ue014", "\ue015", "\ue00e", "\ue00f")
HOME = "\ue011"


def image(**fields):
    return {"kind": "image", "format": "U8", "width": WIDTH, "height": HEIGHT, **fields}


def part(seed, has_scratch):
    """Returns rows of a grey part, with dust and maybe a scratch."""
    chance = random.Random(seed)
    rows = [[100 + (x * 7 + y * 3) % 9 for x in range(WIDTH)] for y in range(HEIGHT)]
    for _ in range(12 if seed else 0):
        rows[chance.randrange(HEIGHT)][chance.randrange(WIDTH)] += 40
    for step in range(30 if has_scratch else 0):
        for side in range(6):
            rows[20 + step][50 + step // 2 + side] += 60
    return rows


def setUpModule():
    if ABSENT:
        words = f"the studio's page isn't tested: {', '.join(ABSENT)} isn't installed"
        print(words, file=sys.stderr)
        raise unittest.SkipTest(words)
    PageTest.driver = browser()
    unittest.addModuleCleanup(PageTest.driver.quit)


class PageTest(FolderTest):
    """A studio with four parts and a good one, in a browser that all tests share."""

    driver = None

    def setUp(self):
        super().setUp()
        for number in range(4):
            vx.write_pgm(self.path(f"part{number}.pgm"), part(number + 1, number % 2 == 1))
        vx.write_pgm(self.path("good.pgm"), part(0, False))

    def start(self, told=None, pictures=PICTURES):
        if told is not None:
            self.put("station.json", vx.graph_text(told))
        self.studio = StudioProcess(self.folder, "station.json", *pictures)
        self.addCleanup(self.studio.end)
        # A page with unsaved changes asks before it is left.
        self.addCleanup(PageTest.driver.get, "about:blank")
        self.addCleanup(PageTest.driver.execute_script, "window.studio?.model.markSaved()")
        self.page = Page(PageTest.driver, self.studio.address)
        return self.page

    def tearDown(self):
        if hasattr(self, "page"):
            logs = self.page.logs()
            self.assertEqual([line for line in logs if "Content Security" in line], [])

    def saved(self, name="station.json"):
        with open(self.path(name), encoding="utf-8") as file:
            return json.load(file)

    def has_fault(self, code, *positions):
        """Checks that these nodes alone are at fault, with the code on their red cards."""
        page = self.page
        self.assertEqual({(fault["node"], fault["code"]) for fault in page.faults},
                         {(position, code) for position in positions})
        self.assertEqual(page.count(".card.fault"), len(positions))
        self.assertIn(code, page.find(".card.fault").text)
        self.assertIn(code, page.find("#problems").text)


SCRATCHES = {"feqyldan": 1, "objects": {
    "camera": image(input=True), "good": {"kind": "image", "file": "good.pgm"},
    "difference": {"kind": "virtual image"}, "core": {"kind": "virtual image"},
    "limit": {"kind": "threshold", "format": "U8", "above": 24},
    "over": {"kind": "virtual image"}, "marks": image()},
    "nodes": [
        {"function": "absdiff", "in1": "camera", "in2": "good", "output": "difference"},
        {"function": "threshold", "input": "difference", "threshold": "limit", "output": "over"},
        {"function": "erode3x3", "input": "over", "output": "core", "border": "REPLICATE"},
        {"function": "dilate3x3", "input": "core", "output": "marks", "border": "REPLICATE"}]}


def limit_of(page):
    """Returns the limit of a threshold: that of the graph, the slider's and the field's."""
    controls = (page.find(selector) for selector in ("#p-limit", "#p-limit-n"))
    return (page.contents["objects"]["limit"]["above"],
            *(one.get_attribute("value") for one in controls))


class TestPage(PageTest):
    def test_the_loop_by_mouse(self):
        page = self.start()
        self.assertEqual(page.functions, [])
        page.add("picture")
        page.run("studio.edit(() => { studio.model.object(studio.chosen).file = 'good.pgm' })")
        page.idle()
        page.choose("camera")
        for name in ("median3x3", "absdiff", "threshold", "erode3x3", "dilate3x3"):
            page.add(name)
        self.assertEqual(page.functions,
                         ["median3x3", "absdiff", "threshold", "erode3x3", "dilate3x3"])
        self.assertEqual([page.contents["objects"][name]["kind"]
                          for name in ("median", "difference", "marks", "dilated")],
                         ["virtual image"] * 3 + ["image"])
        # Shift+click inserts a node between an image and its readers.
        reference = page.contents["nodes"][1]["in2"]
        page.choose(reference)
        page.add("median3x3", shift=True)
        self.assertEqual(page.contents["nodes"][1]["in2"], "median2")
        self.drag_the_slider()
        self.drag_a_wire()
        page.click("#next")
        page.click("#next")
        self.assertEqual(page.run("return studio.at"), 2)
        page.choose("dilated")
        page.filled()
        counts = page.run("return [...document.querySelectorAll('#strip button .figures')]"
                          ".map(one => one.textContent)")
        self.assertEqual([count == "0" for count in counts], [True, False, True, False, True])
        page.click("#save")
        page.until("return document.getElementById('status').textContent === 'Saved station.json'")
        self.assertEqual(self.saved(), page.contents)
        self.compare_with_run("dilated")

    def drag_the_slider(self):
        page = self.page
        page.choose("marks")
        undone = page.run("return studio.model.past.length")
        slider = page.find("#p-limit")
        page.actions().click_and_hold(slider).move_by_offset(-5, 0).move_by_offset(
            -9, 0).release().perform()
        page.idle()
        self.assertEqual(page.run("return studio.model.past.length"), undone + 1,
                         "a drag is undone in one step")
        page.run("document.activeElement.blur()")
        page.control("z")
        self.assertEqual(page.contents["objects"]["limit"]["above"], 24)
        page.control("z", shift=True)
        self.assertNotEqual(page.contents["objects"]["limit"]["above"], 24)
        page.find("#p-limit-n").send_keys(CONTROL, "a", CONTROL, "30", TAB)
        page.idle()
        self.assertEqual(page.contents["objects"]["limit"]["above"], 30)

    def drag_a_wire(self):
        page = self.page
        page.actions(40).click_and_hold(page.find('.port[data-from="dilated"]')).move_to_element(
            page.find('.port[data-node="0"]')).release().perform()
        page.idle()
        self.assertEqual(page.contents["nodes"][0]["input"], "dilated")
        self.assertEqual({fault["code"] for fault in page.faults}, {"INVALID_GRAPH"})
        page.control("z")
        self.assertEqual(page.faults, [])

    def compare_with_run(self, name):
        """The page's samples are those that the saved graph writes."""
        page = self.page
        with vx.Server() as server, server.context() as context:
            file = context.load_graph(self.path("station.json"))
            for at in range(4):
                file.inputs["camera"].write(context.read_pgm(self.path(f"part{at}.pgm")).read())
                file.graph.process()
                page.run("studio.go(arguments[0])", at)
                page.idle()
                page.choose(name)
                self.assertEqual(page.samples(name), file.outputs[name].read_bytes())

    def test_the_loop_by_keyboard(self):
        page = self.start()
        # The filter finds functions and images; Enter adds the first one.
        page.keys("/", "picture", ENTER)
        # A menu takes only what is typed within a second, so here one letter.
        page.find("#p-content").send_keys("g", ENTER)
        page.idle()
        self.assertEqual([told.get("file") for told in page.contents["objects"].values()],
                         [None, "good.pgm"])
        page.run("document.activeElement.blur()")
        for _ in range(4):
            page.keys(UP)
        self.assertEqual(page.run("return studio.chosen"), "camera")
        for wish in ("absd", "thresh", "ero"):
            page.keys("/", wish, ENTER)
        self.assertEqual(page.functions, ["absdiff", "threshold", "erode3x3"])
        page.keys(LEFT)
        self.assertEqual(page.run("return studio.chosen"), "marks")
        before = page.contents["objects"]["limit"]["above"]
        page.keys("]", "]", "}")
        self.assertEqual(page.contents["objects"]["limit"]["above"], before + 12)
        page.keys("[")
        # An input's menu connects, a slider sets, and both are reached by P and Tab.
        page.keys(RIGHT, "p")
        self.assertEqual(page.run("return document.activeElement.id"), "p-input")
        page.find("#p-input").send_keys("d", ENTER)
        page.idle()
        self.assertEqual(page.contents["nodes"][2]["input"], "difference")
        page.control("z")
        page.run("document.activeElement.blur()")
        page.keys(PAGE_DOWN, PAGE_DOWN, PAGE_UP)
        self.assertEqual(page.run("return studio.at"), 1)
        page.keys("r")
        self.assertEqual(page.contents["objects"]["eroded"]["kind"], "virtual image")
        page.control("z")
        page.keys("o", "+", "-", "1", "0", "c")
        self.assertTrue(page.find("#overlay").is_selected())
        page.keys("/", "med", ENTER)
        page.keys(DELETE)
        self.assertEqual(page.functions, ["absdiff", "threshold", "erode3x3"])
        page.control("s")
        page.until("return document.getElementById('status').textContent === 'Saved station.json'")
        self.assertEqual(self.saved(), page.contents)

    def test_the_verdicts(self):
        """Each code at its node's card, while the rest of the graph runs."""
        page = self.start(SCRATCHES)
        edits = (
            ("INVALID_FORMAT", "studio.model.objects.limit.format = 'S16'", 2),
            ("INVALID_DIMENSION", "Object.assign(studio.model.objects.marks, {width: 9})", 4),
            ("INVALID_GRAPH", "studio.model.nodes[0].in2 = 'marks'", 1, 2, 3, 4),
            ("INVALID_LINK", "studio.model.objects.lost = {kind: 'virtual image'};"
             "studio.model.nodes[2].input = 'lost'", 3),
            ("MULTIPLE_WRITERS", "studio.model.nodes[3].output = 'core'", 4))
        for code, edit, *positions in edits:
            with self.subTest(code):
                page.run(f"studio.edit(() => {{ {edit} }})")
                page.idle()
                self.has_fault(code, *positions)
                page.control("z")
                self.assertEqual(page.faults, [])

    def test_faults_without_a_verdict(self):
        """A shift and an object that are refused, and several faults together."""
        page = self.start(SCRATCHES)
        page.run("""studio.edit(() => {
            const { objects, nodes } = studio.model
            objects.limit.above = 300
            objects.kernel = { kind: 'convolution', rows: [[1, 2], [3, 4]] }
            objects.shifted = { kind: 'virtual image' }
            nodes.push({ function: 'convert_depth', input: 'camera', output: 'shifted',
                         policy: 'WRAP', shift: 8 })
            nodes.push({ function: 'noth', input: 'camera', output: 'marks' })
        })""")
        page.idle()
        faults = {fault["object"] or fault["node"]: fault for fault in page.faults}
        self.assertEqual(set(faults), {"limit", "kernel", 5, 6})
        self.assertEqual([faults[place]["code"] for place in ("limit", "kernel", 5)],
                         ["INVALID_VALUE", "INVALID_DIMENSION", "INVALID_VALUE"])
        self.assertEqual(page.count(".card.waiting"), 3)
        self.assertEqual(page.count("#problems button"), 4)
        # What isn't at fault has its picture.
        self.assertIn("difference", page.run("return Object.keys(studio.result.shown)"))
        page.choose("shifted")
        self.assertIn("shift", page.find("#panel .fault").text)

    def test_a_graph_that_needs_too_many_bytes(self):
        told = {"feqyldan": 1, "nodes": [
            {"function": "not_", "input": "camera", "output": f"v{number}"}
            for number in range(5)], "objects": {
                "camera": {**image(input=True), "width": 8192, "height": 8192},
                **{f"v{number}": {"kind": "virtual image"} for number in range(5)}}}
        page = self.start(told, pictures=())
        fault, = page.faults
        self.assertEqual((fault["code"], fault["object"], fault["node"]), ("NO_RESOURCES", "", 0))
        self.assertIn("NO_RESOURCES", page.find("#problems").text)
        self.assertIn("335,544,320 bytes", page.find("#problems").text)

    def test_undo_to_the_start_gives_the_bytes(self):
        text = json.dumps(SCRATCHES, indent=3) + "\n\n"
        self.put("station.json", text)
        page = self.start()
        page.choose("marks")
        page.add("median3x3")
        page.keys("]", "r")
        page.control("s")
        page.until("return !studio.model.isModified")
        while page.run("return studio.model.past.length"):
            page.control("z")
        page.control("s")
        page.until("return !studio.model.isModified")
        with open(self.path("station.json"), encoding="utf-8") as file:
            self.assertEqual(file.read(), text)

    def test_files(self):
        page = self.start(SCRATCHES)
        self.put("other.json", vx.graph_text({"feqyldan": 1, "nodes": [], "objects": {
            "camera": image(input=True)}}))
        page.choose("marks")
        page.add("median3x3")
        # Save under another name, which is in use.
        page.control("s", shift=True)
        field = page.find("#question-field input")
        field.clear()
        field.send_keys("other", ENTER)
        page.until("return document.getElementById('question-title').textContent === "
                   "'Replace the file?'")
        page.keys(ENTER)
        page.until("return studio.about.name === 'other.json' && !studio.model.isModified")
        self.assertEqual(self.saved("other.json"), page.contents)
        self.assertEqual(self.saved(), SCRATCHES)
        # Another program changes the file: nothing is replaced without a question.
        self.put("other.json", "changed")
        page.keys("r")
        page.control("s")
        page.until("return document.getElementById('question').open")
        page.keys(ESCAPE)
        page.until("return document.getElementById('status').textContent.startsWith('Not saved')")
        with open(self.path("other.json"), encoding="utf-8") as file:
            self.assertEqual(file.read(), "changed")
        page.control("o")
        page.until("return document.getElementById('question').open")
        page.keys(ENTER)
        page.until("return studio.about.name === 'station.json'")
        page.idle()
        self.assertEqual(page.contents, SCRATCHES)
        self.assertFalse(page.run("return studio.model.isModified"))

    def test_a_reload_shows_what_was_saved(self):
        page = self.start(SCRATCHES)
        self.put("other.json", vx.graph_text(SCRATCHES))
        page.choose("marks")
        page.add("median3x3")
        page.control("s")
        page.until("return !studio.model.isModified")
        self.driver.refresh()
        page.idle()
        self.assertEqual(page.functions[-1], "median3x3")
        # Each tab keeps its own file.
        page.control("o")
        page.until("return document.getElementById('question').open")
        page.find("#question-field select").send_keys("o", ENTER)
        page.until("return studio.about.name === 'other.json'")
        self.driver.refresh()
        page.idle()
        self.assertEqual(page.run("return studio.about.name"), "other.json")
        self.assertEqual(page.contents, SCRATCHES)

    def test_an_edit_while_the_file_is_saved(self):
        page = self.start(SCRATCHES)
        page.choose("marks")
        page.add("median3x3")
        page.run("studio.files.save().then(() => { window.isSaved = true });"
                 "studio.edit(() => { studio.model.objects.limit.above = 9 })")
        page.until("return window.isSaved")
        self.assertEqual(self.saved()["objects"]["limit"]["above"], 24)
        self.assertTrue(page.run("return studio.model.isModified"))

    def test_two_saves_at_once(self):
        """The second one doesn't find the file changed by another program."""
        page = self.start(SCRATCHES)
        page.choose("marks")
        page.add("median3x3")
        page.run("Promise.all([studio.files.save(), studio.files.save()])"
                 ".then(() => { window.isSaved = true })")
        self.assertTrue(page.until(
            "return [window.isSaved, document.getElementById('question').open]"
            ".findIndex(Boolean) + 1") == 1)
        self.assertEqual((page.status, self.saved()), ("Saved station.json", page.contents))

    def test_a_name_that_is_being_typed(self):
        """It is saved too."""
        page = self.start(SCRATCHES)
        page.choose("over")
        page.find("#p-name").send_keys(CONTROL, "a", CONTROL, "bright")
        page.control("s")
        page.until("return document.getElementById('status').textContent.startsWith('Saved')")
        self.assertIn("bright", self.saved()["objects"])
        self.assertFalse(page.run("return studio.model.isModified"))

    def test_another_studio_at_the_port(self):
        """It has another token. The browser saves the changes, and the new address loads the page
        anew."""
        page = self.start(SCRATCHES)
        page.choose("marks")
        page.add("median3x3")
        page.filled()
        self.studio.end()
        self.studio = StudioProcess(self.folder, "--port", self.studio.port, "station.json",
                                    "good.pgm")
        self.addCleanup(self.studio.end)
        page.control("s")
        page.until("return document.getElementById('question-title').textContent === "
                   "'The studio has ended'")
        page.keys(ESCAPE)
        page.run("studio.model.markSaved()")
        self.driver.get(self.studio.address)
        page.until("return window.studio?.about.pictures.length === 1")
        page.idle()
        self.assertEqual(page.contents, SCRATCHES)
        self.assertEqual(self.driver.current_url, f"http://127.0.0.1:{self.studio.port}/")

    def test_a_studio_that_ended(self):
        """The browser saves what the studio can't any more."""
        page = self.start(SCRATCHES)
        self.driver.execute_cdp_cmd("Browser.setDownloadBehavior", {
            "behavior": "allow", "downloadPath": self.path("saved")})
        page.choose("marks")
        page.add("median3x3")
        page.filled()
        told = page.contents
        self.studio.end()
        page.control("s")
        page.until("return document.getElementById('question').open")
        page.keys(ENTER)
        end = time.monotonic() + 60
        while not os.path.exists(self.path("saved/station.json")) and time.monotonic() < end:
            time.sleep(0.1)
        self.assertEqual(self.saved("saved/station.json"), told)
        self.assertTrue(page.run("return studio.model.isModified"))
        self.assertIn("The studio has ended", page.status)

    def test_the_choice_after_undo(self):
        """The chosen node may be gone, also one without outputs."""
        page = self.start(SCRATCHES)
        page.run("studio.edit(() => studio.model.nodes.push({ function: 'noth' }))")
        page.idle()
        page.click("#cards [data-node='4'].cell")
        self.assertEqual(page.find("#panel h2").text.split("\n")[0], "5 noth")
        page.control("z")
        self.assertEqual((page.status, page.run("return studio.chosen")), ("", "camera"))
        self.assertEqual(page.find("#panel h2").text.split("\n")[0], "Input")

    def test_a_double_click_removes_one_node(self):
        page = self.start(SCRATCHES)
        page.choose("over")
        page.run("""const real = window.fetch
            const released = new Promise(resolve => { window.release = resolve })
            window.fetch = (...told) => released.then(() => real(...told))""")
        page.actions().double_click(page.find("#panel h2 button")).perform()
        page.run("window.release()")
        page.idle()
        self.assertEqual(page.functions, ["absdiff", "erode3x3", "dilate3x3"])

    def test_an_edit_right_after_undo(self):
        """It edits the graph that is there, not the one before."""
        page = self.start(SCRATCHES)
        page.choose("over")
        page.keys("]")
        page.run("""studio.undo()
            const field = document.getElementById('p-limit')
            field.value = 99
            field.dispatchEvent(new Event('input'))
            field.dispatchEvent(new Event('change'))""")
        page.idle()
        self.assertEqual(page.contents["objects"]["limit"]["above"], 99)
        page.control("z")
        self.assertEqual(page.contents, SCRATCHES)

    def test_another_file_is_drawn_before_it_has_run(self):
        """No control of the file before edits it."""
        page = self.start(SCRATCHES)
        page.choose("over")
        shown = page.run(f"""{BEGIN}
            return [document.querySelectorAll('.card').length,
                    document.querySelectorAll('#panel input[type=range]').length]""",
                         {"feqyldan": 1, "nodes": [], "objects": {"camera": image(input=True)}})
        self.assertEqual(shown, [1, 0])

    def test_a_change_while_a_run_fails(self):
        """The change runs, and the page shows it. A failure alone shows the graph as it is."""
        page = self.start(SCRATCHES)
        page.filled()
        page.choose("over")
        page.run("""const real = window.fetch
            window.fails = later => {
              window.fetch = async () => {
                window.fetch = real
                later()
                return new Response('{"error": "it failed"}', { status: 503 })
              }
            }
            const set = above => studio.edit(() => { studio.model.objects.limit.above = above })
            fails(() => set(40))
            set(30)""")
        page.until("return !studio.runs.isRunning")
        page.idle()
        self.assertEqual(page.status, "")
        self.assertEqual(page.find("#p-limit-n").get_attribute("value"), "40")
        page.run("fails(() => {}); studio.add('box3x3')")
        page.until("return !studio.runs.isRunning")
        self.assertEqual((page.status, page.count("[data-cell=box]")), ("it failed", 1))

    def test_the_buttons_stay_when_the_file_is_saved(self):
        """A second click on Save isn't one on Save as."""
        page = self.start(SCRATCHES)
        place = "return document.getElementById('save').getBoundingClientRect().left"
        saved = page.run(place)
        self.assertFalse(page.find("#modified").is_displayed())
        page.choose("marks")
        page.keys("]")
        page.until("return studio.model.isModified")
        self.assertTrue(page.find("#modified").is_displayed())
        self.assertEqual(page.run(place), saved)

    def test_the_time_of_a_change_counts_from_its_beginning(self):
        """The image of a new node is asked for after a first run. Both runs count."""
        page = self.start(SCRATCHES)
        page.choose("camera")
        before = page.run("return studio.runs.latencies.length")
        page.add("median3x3")
        first, second = page.run("return studio.runs.latencies.slice(arguments[0])", before)
        self.assertGreaterEqual(second["took"], first["took"] + second["call"])

    def test_sums_stay_results(self):
        """A virtual image has no old samples, to which a node could add."""
        page = self.start(SCRATCHES)
        page.choose("camera")
        page.add("accumulate")
        before = page.contents
        page.keys("r")
        self.assertEqual((page.contents, page.faults), (before, []))

    def test_the_titles_of_a_picture(self):
        page = self.start(SCRATCHES)
        page.choose("good")
        titles = page.run("return [...document.querySelectorAll('#panel h2')]"
                          ".map(one => one.firstChild.textContent)")
        self.assertEqual(titles, ["Picture", "Image"])

    def test_a_delay(self):
        page = self.start()
        page.choose("camera")
        page.add("delay")
        self.assertEqual(page.run("return studio.chosen"), "delay[-1]")
        page.choose("camera")
        page.add("absdiff")
        page.pick("#p-in2", "delay[-1]")
        self.assertEqual(page.faults, [])
        page.run("studio.go(1)")
        page.idle()
        wanted = bytes(abs(now - then) for rows in zip(part(2, True), part(1, False))
                       for now, then in zip(*rows))
        self.assertEqual(page.samples("difference"), wanted)

    def test_the_strip_of_a_graph_with_sums(self):
        """It goes through the pictures in their order, because each sum needs those before it."""
        page = self.start()
        page.run("studio.go(3)")
        page.filled()
        page.run("""const { strip } = studio, { show } = strip
            window.shown = []
            strip.show = (tile, ...rest) => {
              shown.push(strip.tiles.indexOf(tile))
              show.call(strip, tile, ...rest)
            }""")
        page.add("accumulate")
        page.filled()
        page.control("z")
        page.filled()
        self.assertEqual(page.run("return shown"), [0, 1, 2, 3, 4, 3, 4, 0, 1, 2])

    def test_the_strip_after_another_choice(self):
        """A picture that comes late is of the image before, and isn't shown."""
        page = self.start(SCRATCHES)
        page.choose("over")
        page.filled()
        page.run("""const { strip } = studio, real = window.fetch
            window.fetch = async (path, told) => {
              const reply = await real(path, told)
              if (path !== '/api/strip') return reply
              window.fetch = real
              await new Promise(resolve => { window.release = resolve })
              return reply
            }
            const shown = window.shown = []
            strip.show = function (tile, reply, version) {
              shown.push(version)
              Object.getPrototypeOf(strip).show.call(strip, tile, reply, version)
            }
            studio.edit(() => { studio.model.objects.limit.above = 9 })""")
        page.until("return !!window.release")
        page.run("studio.choose('difference'); window.release()")
        page.filled()
        self.assertEqual(page.run("return [...new Set(shown)]"),
                         [page.run("return studio.strip.version()")])

    def test_rename(self):
        page = self.start(SCRATCHES)
        page.choose("over")
        for wish, name in (("bright", "bright"), ("camera", "bright"), ("a/b", "bright"),
                           ("\xe4" * 101, "bright"),
                           ("toString", "toString"), ("bright", "bright")):
            page.find("#p-name").send_keys(CONTROL, "a", CONTROL, wish, TAB)
            page.idle()
            self.assertEqual(page.contents["nodes"][1]["output"], name)
            self.assertEqual(page.contents["nodes"][2]["input"], name)
            self.assertEqual("isn't possible as a name" in page.status, wish != name)
        self.assertEqual(page.run("return studio.chosen"), "bright")

    def test_a_real_number(self):
        """JavaScript takes it for a whole one, which `run` doesn't."""
        self.put("real.json", vx.graph_text(SCRATCHES).replace('"above": 24', '"above": 24.0'))
        page = self.start(SCRATCHES)
        page.control("o")
        page.until("return document.getElementById('question').open")
        page.find("#question-field select").send_keys("real", ENTER)
        page.until("return studio.about.name === 'real.json'")
        page.idle()
        self.assertIn("has the number 24.0, which run refuses, and this page shows 24", page.status)
        page.control("s")
        page.until("return document.getElementById('status').textContent === 'Saved real.json'")
        self.assertEqual(json.dumps(self.saved("real.json")), json.dumps(SCRATCHES))

    def test_no_picture(self):
        page = self.start(SCRATCHES)
        page.choose("camera")
        page.click("#panel h2 button")
        self.assertEqual((page.find("#viewname").text, page.find("#zoom").text), ("", ""))
        page.control("z")
        self.assertEqual(page.find("#viewname").text, "camera")

    def test_a_value_out_of_range(self):
        """A run that is under way doesn't take the message away."""
        page = self.start(SCRATCHES)
        page.choose("over")
        page.find("#p-limit-n").send_keys(CONTROL, "a", CONTROL, "256", TAB)
        page.idle()
        words = "isn't possible here: give a whole number from 0 to 255"
        self.assertEqual(page.status, f"256 {words}")
        self.assertEqual(limit_of(page), (24, "24", "24"))
        self.assertEqual((page.contents, page.run("return studio.model.past")), (SCRATCHES, []))
        for typed, status in (("26", ""), ("1.5", f"1.5 {words}"), (DELETE, f"Nothing {words}")):
            page.find("#p-limit-n").send_keys(CONTROL, "a", CONTROL, typed, TAB)
            page.idle()
            self.assertEqual((page.status, limit_of(page)), (status, (26, "26", "26")))
        page.control("z")
        self.assertEqual(page.contents, SCRATCHES)

    def test_a_value_out_of_range_after_others(self):
        """The value goes back to the one before, and further digits may make another one."""
        page = self.start(SCRATCHES)
        page.choose("over")
        page.find("#p-limit-n").send_keys(CONTROL, "a", CONTROL, "300", BACKSPACE, TAB)
        page.idle()
        self.assertEqual((page.status, limit_of(page)), ("", (30, "30", "30")))
        page.find("#p-limit-n").send_keys(CONTROL, "a", CONTROL, "300", ENTER, BACKSPACE, ENTER)
        page.idle()
        self.assertEqual(limit_of(page), (3, "3", "3"))
        for above in (30, 24):
            page.control("z")
            self.assertEqual(page.contents["objects"]["limit"]["above"], above)

    def test_a_value_out_of_range_is_not_saved(self):
        page = self.start(SCRATCHES)
        page.choose("over")
        page.add("median3x3")
        page.choose("over")
        page.find("#p-limit-n").send_keys(CONTROL, "a", CONTROL, "300")
        page.control("s")
        page.until("return !studio.model.isModified")
        self.assertEqual(self.saved()["objects"]["limit"]["above"], 24)

    def point(self, column, row):
        """Moves the pointer to a pixel."""
        x, y = self.page.run("""
            const { viewer } = studio, around = viewer.large.getBoundingClientRect()
            return [around.left + (viewer.x + (arguments[0] + 0.5) * viewer.scale) / viewer.ratio,
                    around.top + (viewer.y + (arguments[1] + 0.5) * viewer.scale) / viewer.ratio]
            """, column, row)
        actions = self.page.actions()
        actions.w3c_actions.pointer_action.move_to_location(int(x), int(y))
        actions.perform()

    def test_the_sample_under_the_pointer(self):
        page = self.start(SCRATCHES)
        page.choose("difference")
        self.point(60, 40)
        page.until("return document.getElementById('under').textContent.startsWith('x 60  y 40')")
        sample = part(1, False)[40][60]
        page.until(f"return document.querySelector('[data-cell=camera] .value').textContent === "
                   f"'{sample}'")

    def test_names_that_objects_of_javascript_have(self):
        told = {"feqyldan": 1, "objects": {
            "constructor": image(input=True), "toString": {"kind": "extremes"}}, "nodes": [
                {"function": "min_max_loc", "input": "constructor", "extremes": "toString"}]}
        page = self.start(told)
        self.point(60, 40)
        page.until("return document.querySelector('[data-cell=constructor] .value')"
                   ".textContent.match(/^[0-9]+$/)")
        self.assertEqual(page.find("[data-cell=toString] .value").text, "")
        # The cards that are drawn before the graph has run have no shape of the input.
        wires = page.run(f"{BEGIN}; return document.getElementById('wires').innerHTML", told)
        self.assertIn('d="M ', wires)
        self.assertNotIn("NaN", wires)

    def test_the_limits_in_the_histogram(self):
        page = self.start(SCRATCHES)
        page.choose("over")
        plot = page.find("#panel .plot.limits")
        page.actions().move_to_element(plot).click_and_hold().move_by_offset(
            10, 0).release().perform()
        page.idle()
        self.assertGreater(page.contents["objects"]["limit"]["above"], 120)

    def test_the_limits_of_signed_samples(self):
        """The axis and the slider have the range that the samples of the picture use."""
        for name, least, most in (("bright.pgm", 100, 160), ("dark.pgm", 0, 1)):
            vx.write_pgm(self.path(name), [[least] * WIDTH, *[[most] * WIDTH] * (HEIGHT - 1)])
        told = {"feqyldan": 1, "objects": {
            "camera": image(input=True), "wide": image(format="S16"), "marks": image(),
            "limit": {"kind": "threshold", "format": "S16", "above": 24}}, "nodes": [
                {"function": "convert_depth", "input": "camera", "policy": "WRAP", "shift": 0,
                 "output": "wide"},
                {"function": "threshold", "input": "wide", "threshold": "limit",
                 "output": "marks"}]}
        page = self.start(told, ("bright.pgm", "dark.pgm"))
        page.choose("marks")
        for key, ends in ((None, ["99", "160"]), (PAGE_DOWN, ["-1", "1"])):
            if key:
                page.keys(key)
            self.assertEqual(page.run(
                "const slider = document.getElementById('p-limit');"
                "return [[...document.querySelector('#panel .ticks').children]"
                ".map(end => end.textContent), [slider.min, slider.max]]"), [ends, ends])

    def test_the_values_of_bins(self):
        """A bin of a histogram of few values has the colour of its value."""
        self.start(SCRATCHES)
        wrong = self.driver.execute_async_script("""const [done] = arguments
            import('/plots.js').then(({ leastIn }) => {
              const [low, high] = [-100, 99]
              const values = Array.from({ length: high - low + 1 }, (_, k) => low + k)
              const bin = value => Math.floor((value - low) * 256 / values.length)
              done(values.filter(value => (
                leastIn({ bins: { length: 256 }, low, high }, bin(value)) !== value)))
            }).catch(error => done(error.message))""")
        self.assertEqual(wrong, [])

    def test_objects_with_the_same_fault(self):
        page = self.start(SCRATCHES)
        os.remove(self.path("good.pgm"))
        page.run("""studio.edit(() => {
            const { objects, nodes } = studio.model.contents
            Object.assign(objects, { same: objects.good, turned: { kind: 'virtual image' } })
            nodes.push({ function: 'not_', input: 'same', output: 'turned' })
        })""")
        page.idle()
        self.assertIn("good, same: good.pgm: No such file", page.find("#problems").text)

    def test_a_picture_of_another_size(self):
        vx.write_pgm(self.path("small.pgm"), [[1, 2], [3, 4]])
        page = self.start(SCRATCHES, ("part0.pgm", "small.pgm"))
        page.keys(PAGE_DOWN)
        self.assertEqual([fault["object"] for fault in page.faults], ["camera"])
        self.assertIn("(2, 2)", page.find("#problems").text)
        page.choose("camera")
        self.assertEqual(page.find("#panel .fault").text.count("must have the size"), 1)
        page.keys(PAGE_UP)
        self.assertEqual(page.faults, [])

    @of_a_process
    def test_a_server_that_ended(self):
        page = self.start(SCRATCHES)
        page.filled()
        for server in children_of(self.studio.process.pid):
            os.kill(server, signal.SIGKILL)
        page.run("studio.edit(() => { studio.model.objects.limit.above = 3 })")
        page.until("return document.getElementById('status').textContent.includes("
                   "'The next change starts another server')")
        page.run("studio.edit(() => { studio.model.objects.limit.above = 4 })")
        page.idle()
        self.assertEqual((page.status, page.faults), ("", []))

    def test_a_large_picture(self):
        """Only the part that is seen comes to the page, and the histogram of the whole picture."""
        width, height = 3000, 1500
        with open(self.path("large.pgm"), "wb") as file:
            file.write(b"P5\n%d %d\n255\n" % (width, height))
            file.write(bytes(range(250)) * (width * height // 250))
        page = self.start(pictures=["large.pgm"])
        part_of = ("const { columns, rows, step } = studio.result.fulls.get('camera');"
                   "return [columns, rows, step]")
        columns, rows, step = page.run(part_of)
        self.assertGreater(step, 1)
        self.assertLess(columns * rows, 2e6)
        self.check_histograms_of_parts(page, step)
        page.choose("camera")
        page.click("#one")
        page.until("return studio.result.fulls.get('camera').step === 1")
        columns, rows, step = page.run(part_of)
        self.assertLess(columns, width)
        sample = page.run("const full = studio.result.fulls.get('camera');"
                          "return [full.at(full.x0 + 7, full.y0 + 2), full.x0 + 7]")
        self.assertEqual(sample[0], sample[1] % 250)

    def start_with_large_pictures(self, *samples):
        """Starts with pictures that have one of these samples everywhere, and come in parts."""
        width, height = 3000, 1500
        names = [f"large{sample}.pgm" for sample in samples]
        for name, sample in zip(names, samples):
            with open(self.path(name), "wb") as file:
                file.write(b"P5\n%d %d\n255\n" % (width, height) + bytes([sample]) * width * height)
        return self.start(pictures=names)

    def test_the_sample_of_another_picture(self):
        """The pointer rests, and the samples come again after each run."""
        page = self.start_with_large_pictures(10, 200)
        self.point(600, 400)
        words = "return document.getElementById('under').textContent"
        page.until(f"{words}.endsWith(' 10')")
        page.keys(PAGE_DOWN)
        self.assertFalse(page.run(f"{words}.endsWith(' 10')"))
        page.until(f"{words}.endsWith(' 200')")
        self.assertEqual(page.find("[data-cell=camera] .value").text, "200")

    def test_the_part_below_the_marks(self):
        """It comes anew as the marks' part does."""
        page = self.start_with_large_pictures(10)
        page.add("threshold")
        page.click("#overlay")
        covers = ("return ['camera', 'marks'].map(name => studio.result.fulls.get(name))"
                  ".every(full => full?.covers(studio.viewer.partOf(full)))")
        for button in ("#one", "#fit"):
            page.click(button)
            page.until(covers)
            # A run fetches the parts that are seen.
            page.keys("]")

    def check_histograms_of_parts(self, page, step):
        """They are shown until those of the whole images come."""
        page.until("return !!studio.result.fulls.get('camera').exact")
        page.run("studio.panel.late.make = () => {};"
                 "studio.result.fulls.get('camera').exact = undefined")
        page.add("threshold")
        page.filled()
        notes = ("return [...document.querySelectorAll('#panel p:not([hidden])')]"
                 ".map(one => one.textContent).filter(words => words.startsWith('Of the part'))")
        # Both histograms, of the threshold's input and of its output, a mask, are of squares.
        self.assertEqual(page.run(notes), [
            f"Of the part that is shown, the {taken} of each {step} × {step} samples."
            for taken in ("mean", "greatest")])
        page.run("delete studio.panel.late.make; studio.panel.refresh()")
        page.until(f"return !(() => {{ {notes} }})().length")
        above = page.run("return Object.values(studio.model.objects).find("
                         "one => one.kind === 'threshold').above")
        facts = page.run("return document.querySelector('#panel dl').textContent")
        self.assertIn(f"not 0{(249 - above) * 18_000:,}", facts)
        self.assertEqual(page.run("return studio.result.fulls.get('camera').histogram.bins"),
                         [18_000] * 250 + [0] * 6)


# Opens a file's contents.
BEGIN = "studio.about.contents = arguments[0]; studio.begin()"
# Chooses each image and each node, and moves its limit.
CHOOSE_ALL = """
for (const { dataset } of document.querySelectorAll('.cell')) {
  if (dataset.cell === undefined) studio.chooseNode(+dataset.node)
  else studio.choose(dataset.cell)
  studio.nudgeLimit(1)
}
studio.choose('over')
"""
# The contents of a file, and values of other types than the page writes at places in it. JavaScript
# makes no text of NO_TEXT.
OTHER_TYPES = {**SCRATCHES, "objects": {
    **SCRATCHES["objects"], "kernel": {"kind": "convolution", "rows": [[1, 2, 1]] * 3},
    "table": {"kind": "lookup table", "format": "U8", "entries": [*range(256)]},
    "old": image(kind="delay", slots=2, ages=True),
    **{name: {"kind": "virtual image"} for name in ("edges", "sum", "turned")}}, "nodes": [
        *SCRATCHES["nodes"],
        {"function": "convolve", "input": "camera", "convolution": "kernel", "output": "edges"},
        {"function": "add", "in1": "camera", "in2": "good", "policy": "WRAP", "output": "sum"},
        {"function": "table_lookup", "input": "camera", "lut": "table", "output": "turned"}]}
NO_TEXT = {"toString": 1}
VALUES = (
    (("nodes", 0, "function"), (NO_TEXT,)), (("nodes", 0, "in2"), (NO_TEXT,)),
    (("nodes", 1, "input"), (["difference"], NO_TEXT)), (("nodes", 1, "threshold"), (NO_TEXT,)),
    (("nodes", 2, "border"), ({"toLowerCase": 1}, NO_TEXT)),
    (("nodes", 5, "policy"), (1, ["WRAP"])), (("objects", "marks", "kind"), (NO_TEXT,)),
    (("objects", "good", "file"), (NO_TEXT,)), (("objects", "old", "slots"), (2**32, NO_TEXT)),
    (("objects", "limit", "above"), (NO_TEXT,)), (("objects", "limit", "format"), (7,)),
    (("objects", "limit", "between"), (5, False, [NO_TEXT])),
    (("objects", "kernel", "rows"), ([[1, 2, 1], 5], {"0": [1]})),
    (("objects", "kernel", "scale"), (NO_TEXT,)), (("objects", "table", "entries"), ([NO_TEXT],)))


class TestFaultyFiles(PageTest):
    """Files that another program has written."""

    def test_values_of_other_types(self):
        page = self.start(OTHER_TYPES)
        for (part, key, field), values in VALUES:
            for value in values:
                told = json.loads(json.dumps(OTHER_TYPES))
                told[part][key][field] = value
                with self.subTest(place=(part, key, field), value=value):
                    page.run(BEGIN, told)
                    page.idle()
                    self.assertEqual(page.status, "")
                    self.assertTrue(page.faults)
                    self.assertGreater(page.count(".card"), 7)
                    page.run(CHOOSE_ALL)
                    page.idle()
                    self.assertEqual(page.status, "")
                    self.assertEqual([line for line in page.logs() if "Uncaught" in line], [])

    def test_limits_of_another_type_are_mended(self):
        page = self.start(SCRATCHES)
        for between, limit in ((5, {"above": 25}), ([], {"between": [0, 255]})):
            told = json.loads(json.dumps(SCRATCHES))
            told["objects"]["limit"]["between"] = between
            page.run(BEGIN, told)
            page.run("studio.choose('over')")
            page.idle()
            if between:
                page.keys("]")
            else:
                for way in ("above", "between"):
                    page.run("[...document.querySelectorAll('.seg button')].find("
                             "one => one.textContent === arguments[0]).click()", way)
                    page.idle()
            self.assertEqual(page.contents["objects"]["limit"],
                             {"kind": "threshold", "format": "U8", **limit})
            self.assertEqual(page.faults, [])

    def test_a_table_that_is_too_short_is_given_back(self):
        """It got the length of the table that was typed for a moment."""
        told = json.loads(json.dumps(SCRATCHES))
        told["objects"]["table"] = {"kind": "lookup table", "format": "U8", "entries": [3, 2, 1]}
        told["nodes"].append({"function": "table_lookup", "input": "camera", "lut": "table",
                              "output": "turned"})
        told["objects"]["turned"] = image()
        page = self.start(told)
        page.choose("turned")
        page.find("#p-gain-n").send_keys(CONTROL, "a", CONTROL, "20", TAB)
        page.idle()
        self.assertIn("20 isn't possible here", page.status)
        self.assertEqual(page.contents, told)

    def test_an_output_that_is_not_there(self):
        """Its node can be chosen, and removed."""
        told = json.loads(json.dumps(SCRATCHES))
        told["nodes"][3]["output"] = 7
        page = self.start(told)
        page.choose("7")
        self.assertEqual(page.find("#panel h2").text.split("\n")[0], "4 dilate3x3")
        page.keys(DELETE)
        self.assertEqual((page.functions, page.faults), (
            [node["function"] for node in told["nodes"][:3]], []))

    def test_names_with_line_breaks(self):
        for line in ("\r", "\u2028"):
            name = f"last{line}frame"
            page = self.start({"feqyldan": 1, "objects": {
                "camera": image(input=True), name: image(kind="delay", slots=2, ages=True)},
                "nodes": [{"function": "max", "in1": "camera", "in2": f"{name}[-1]",
                           "output": f"{name}[0]"}]})
            self.assertEqual((page.status, page.faults, page.count(".card")), ("", [], 3))
            page.run("studio.choose(arguments[0]); studio.rename(arguments[1], 'other')",
                     f"{name}[-1]", name)
            page.idle()
            self.assertEqual([*page.contents["nodes"][0].values()],
                             ["max", "camera", "other[-1]", "other[0]"])
            self.assertEqual((page.run("return studio.chosen"), page.faults), ("other[-1]", []))
            page.run("studio.model.markSaved()")
        self.assertEqual(page.run("return studio.model.base('last\\nframe[0]')"), "last\nframe")


# The text of the page whose contrast with its background is too low, in JavaScript.
LOW_CONTRAST = """
const channels = colour => {
  const [r, g, b, a = 1] = colour.match(/[\\d.]+/g).map(Number)
  return [r, g, b, a]
}
const light = ([r, g, b]) => [r, g, b].map(value => {
  const share = value / 255
  return share <= 0.03928 ? share / 12.92 : ((share + 0.055) / 1.055) ** 2.4
}).reduce((sum, value, at) => sum + value * [0.2126, 0.7152, 0.0722][at], 0)
const over = ([...above], below) => [0, 1, 2].map(
  at => above[at] * above[3] + below[at] * (1 - above[3])).concat(1)
const ground = element => {
  const own = channels(getComputedStyle(element).backgroundColor)
  if (own[3] === 1) return own
  return over(own, element.parentElement ? ground(element.parentElement) : [255, 255, 255, 1])
}
const found = []
for (const element of document.body.querySelectorAll('*')) {
  const hasText = [...element.childNodes].some(
    node => node.nodeType === 3 && node.textContent.trim())
  if (!hasText && !element.matches('input, select')) continue
  if (!element.checkVisibility() || element.matches(':disabled')) continue
  const below = ground(element)
  const colour = channels(getComputedStyle(element).color)
  for (let one = element; one; one = one.parentElement) colour[3] *= getComputedStyle(one).opacity
  const text = over(colour, below)
  const [high, low] = [light(text), light(below)].sort((a, b) => b - a)
  const ratio = (high + 0.05) / (low + 0.05)
  const words = element.textContent.slice(0, 30)
  if (ratio < 4.5) found.push(`${element.tagName} ${element.className} "${words}" ${ratio}`)
}
return found
"""
# The words of the page that have a backtick.
BACKTICKS = """
return [...document.body.querySelectorAll('*')].flatMap(
  ({ childNodes, title, ariaLabel, placeholder }) => [
    ...[...childNodes].filter(node => node.nodeType === 3).map(node => node.textContent),
    title, ariaLabel, placeholder]).filter(words => words?.includes('`'))
"""
CONTROLS = {"button", "textbox", "searchbox", "combobox", "checkbox", "slider", "spinbutton",
            "separator", "radio", "listbox", "option", "MenuListPopup"}


# The buttons of the bar that aren't wholly in the window, or have two lines, in JavaScript.
CUT_OFF = """
return [...document.querySelectorAll('#bar button')].filter(one => {
  const { left, right, height } = one.getBoundingClientRect()
  return left < 0 || right > innerWidth || height > 21
}).map(one => one.id)
"""


class TestSizes(PageTest):
    """Small windows, and long names and messages."""

    def resize(self, width, height):
        self.driver.execute_cdp_cmd("Emulation.setDeviceMetricsOverride", {
            "width": width, "height": height, "deviceScaleFactor": 1, "mobile": False})

    def setUp(self):
        super().setUp()
        self.addCleanup(self.resize, 1440, 900)

    def test_long_names(self):
        long = f"{'part_' * 40}.pgm"
        vx.write_pgm(self.path(long), part(1, False))
        self.put(f"{'station' * 20}.json", vx.graph_text(SCRATCHES))
        self.studio = StudioProcess(self.folder, f"{'station' * 20}.json", "part1.pgm", long)
        self.addCleanup(self.studio.end)
        self.addCleanup(self.driver.get, "about:blank")
        page = self.page = Page(self.driver, self.studio.address)
        place = "return document.getElementById('next').getBoundingClientRect().left"
        for width in (1024, 1440):
            self.resize(width, 600)
            at_first = page.run(place)
            page.keys(PAGE_DOWN)
            self.assertEqual(page.run(place), at_first, "the next click is on the same button")
            self.assertEqual(page.run(CUT_OFF), [])
            page.keys(PAGE_UP)

    def test_a_long_message(self):
        """It is shown whole, and goes away by a click."""
        page = self.start(SCRATCHES)
        self.resize(1024, 600)
        page.run("studio.say(arguments[0], true)", "The server has ended. " * 20)
        self.assertEqual(page.run(CUT_OFF), [])
        self.assertTrue(page.run("""const box = document.getElementById('status')
            return box.scrollWidth <= box.clientWidth && box.scrollHeight <= box.clientHeight"""))
        page.click("#status")
        self.assertEqual(page.status, "")

    def test_a_small_window(self):
        page = self.start(SCRATCHES)
        for height, least in ((600, 180), (900, 420)):
            self.resize(1024, height)
            page.until(f"return innerHeight === {height}")
            self.assertGreaterEqual(page.run("return studio.viewer.large.clientHeight"), least)
        # A graph that was made high doesn't hide the picture when the window becomes lower.
        page.run("document.getElementById('middle').style.setProperty('--graph', '700px')")
        self.resize(1024, 600)
        page.until("return innerHeight === 600")
        self.assertGreaterEqual(page.run("return studio.viewer.large.clientHeight"), 120)

    def test_a_large_graph(self):
        """A new card is in view, and a card that is clicked stays under the pointer."""
        place = "return studio.graph.cellOf(arguments[0]).getBoundingClientRect().toJSON()"
        page = self.start()
        for _ in range(7):
            page.run("studio.choose('camera')")
            page.add("not_")
        around = page.run("return studio.graph.graph.getBoundingClientRect().toJSON()")
        shown = page.run(place, "inverted7")
        self.assertGreater(shown["top"], around["top"])
        self.assertLess(shown["bottom"], around["bottom"])
        before = page.run(place, "inverted6")
        page.choose("inverted6")
        self.assertEqual(page.run(place, "inverted6"), before)
        page.run("studio.edit(() => { studio.model.objects.inverted7.format = 'S16' })")
        page.idle()
        # The list of faults takes no card's place.
        page.run("studio.choose('inverted7')")
        self.assertLess(page.run(place, "inverted7")["bottom"], page.run(
            "return document.getElementById('problems').getBoundingClientRect().top"))

    def test_a_large_kernel(self):
        page = self.start(SCRATCHES)
        self.resize(1024, 600)
        page.choose("camera")
        page.add("convolve")
        page.run("studio.edit(() => { studio.model.objects.kernel.rows = "
                 "Array.from({ length: 9 }, () => Array(9).fill(-99)) })")
        page.idle()
        self.assertEqual(page.run("return [...document.querySelectorAll('.kernel input')].filter("
                                  "one => one.scrollWidth <= one.clientWidth).length"), 81)

    def test_long_numbers(self):
        """Extremes of S16 samples have a line each, and a long name leaves the sample in view."""
        page = self.start(SCRATCHES)
        self.resize(1024, 600)
        page.choose("camera")
        page.add("multiply")
        page.run("""studio.edit(() => {
            const { objects, nodes } = studio.model
            Object.assign(nodes.at(-1), { in2: 'camera', shift: 0 })
            objects[nodes.at(-1).output].format = 'S16'
        })""")
        page.idle()
        page.run("studio.rename(studio.chosen, arguments[0])", "long" * 30)
        page.idle()
        page.add("min_max_loc")
        words, tall, wide, room = page.run(
            "const { textContent, offsetHeight, scrollWidth, clientWidth } = "
            "document.querySelector('.numbers b');"
            "return [textContent, offsetHeight, scrollWidth, clientWidth]")
        self.assertEqual((len(words), tall < 20, wide <= room), (5, True, True))
        page.choose("long" * 30)
        large = page.find("#large")
        page.actions().move_to_element(large).perform()
        page.until("return /^x [0-9]/.test(document.getElementById('under').textContent)")
        self.assertLessEqual(*page.run(
            "return ['under', 'viewbar'].map("
            "id => document.getElementById(id).getBoundingClientRect().right)"))

    def test_thumbnails_keep_their_shape(self):
        page = self.start(SCRATCHES)
        for canvas in ("#strip canvas", "#cards canvas"):
            self.assertEqual(page.run("return getComputedStyle(document.querySelector("
                                      "arguments[0])).objectFit", canvas), "contain")


class TestAccessibility(PageTest):
    def states(self):
        """Shows the page in many states, and yields the name of each."""
        page = self.start(SCRATCHES)
        page.filled()
        for function in ("convolve", "table_lookup", "histogram", "min_max_loc", "sobel3x3",
                         "multiply", "accumulate"):
            page.choose("camera")
            page.add(function)
            page.filled()
            yield function
        page.add("delay")
        yield "a delay"
        page.run("studio.edit(() => { studio.model.objects.limit.format = 'S16' })")
        page.choose("over")
        yield "faults"
        page.choose("camera")
        yield "an input"
        page.keys("?")
        yield "the keys"
        page.actions().send_keys(ESCAPE).perform()
        page.control("s", shift=True)
        yield "a question"
        page.actions().send_keys(ESCAPE).perform()

    def test_contrast(self):
        page = None
        for state in self.states():
            page = self.page
            for is_dark in (False, True):
                set_theme(self.driver, is_dark)
                page.until("return document.documentElement.dataset.theme === "
                           f"'{'dark' if is_dark else 'light'}'")
                page.idle()
                with self.subTest(state, dark=is_dark):
                    self.assertEqual(page.run(LOW_CONTRAST), [])
        set_theme(self.driver, False)

    def test_every_control_has_a_name(self):
        for state in self.states():
            tree = self.driver.execute_cdp_cmd("Accessibility.getFullAXTree", {})["nodes"]
            unnamed = [node["role"]["value"] for node in tree if not node.get("ignored")
                       and node["role"]["value"] in CONTROLS - {"option", "MenuListPopup"}
                       and not node.get("name", {}).get("value", "").strip()]
            with self.subTest(state):
                self.assertEqual(unnamed, [])

    def test_no_backticks(self):
        """Code is shown as code."""
        for state in self.states():
            with self.subTest(state):
                self.assertEqual(self.page.run(BACKTICKS), [])

    def test_wires_as_text(self):
        page = self.start(SCRATCHES)
        words = page.run("return [...document.querySelectorAll('.card')].map(card => "
                         "card.getAttribute('aria-label'))")
        self.assertIn("Node 1, absdiff: in1 camera, in2 good; writes difference", words)
        self.assertIn("Node 3, erode3x3: input over; writes core", words)

    def test_everything_is_reached_by_tab(self):
        page = self.start(SCRATCHES)
        page.choose("over")
        page.filled()
        page.run("document.activeElement.blur()")
        reached = set()
        for _ in range(150):
            page.actions().send_keys(TAB).perform()
            reached.add(page.run("const one = document.activeElement;"
                                 "return one.id || one.dataset.name || one.dataset.cell || ''"))
        for wanted in ("undo", "open", "save", "save-as", "next", "theme", "help", "filter",
                       "median3x3", "picture", "delay", "splitter", "fit", "one", "overlay",
                       "contrast", "large", "p-input", "p-limit", "p-limit-n", "p-format",
                       "p-true", "p-name", "p-result", "over", "marks"):
            if not page.run("return document.getElementById(arguments[0])?.disabled ?? false",
                            wanted):
                self.assertIn(wanted, reached)


FETCH = """
const [url, options, done] = arguments
fetch(url, options).then(reply => reply.text().then(text => done([reply.status, text])),
                         error => done([-1, String(error)]))
"""


class TestPicture(PageTest):
    def test_the_documents_picture(self):
        """tools/studio_picture makes it."""
        made = self.path("studio.png")
        subprocess.run([sys.executable, os.path.join(TOOLS, "studio_picture"), made], check=True,
                       env={**os.environ, "FEQYLDAN_PROGRAM": PROGRAM}, timeout=120)
        stored = os.path.join(TOOLS, "..", "docs", "pictures", "studio.png")
        self.assertEqual(read_bytes(made)[:24], read_bytes(stored)[:24], "the sides are the same")
        self.assertLessEqual(os.path.getsize(stored), 300000)
        for document in ("README.md", os.path.join("docs", "python.md")):
            with open(os.path.join(TOOLS, "..", document), encoding="utf-8") as file:
                self.assertIn("pictures/studio.png", file.read())


class TestAttacks(PageTest):
    """Pages of other origins, in the browser of a user who has the studio open."""

    def setUp(self):
        super().setUp()

        class Other(http.server.BaseHTTPRequestHandler):
            def do_GET(self):
                self.send_response(200)
                self.send_header("Content-Type", "text/html")
                self.end_headers()
                self.wfile.write(b"<!doctype html><title>other</title><body>")

            def log_message(self, *words):
                pass

        self.other = http.server.HTTPServer(("127.0.0.1", 0), Other)
        self.addCleanup(self.other.server_close)
        threading.Thread(target=self.other.serve_forever, daemon=True).start()
        self.addCleanup(self.other.shutdown)
        self.start(SCRATCHES)

    def visit_the_other(self):
        PageTest.driver.execute_script("window.studio.model.markSaved()")
        PageTest.driver.get(f"http://127.0.0.1:{self.other.server_address[1]}/")

    def fetch(self, path, **options):
        return PageTest.driver.execute_async_script(
            FETCH, f"http://127.0.0.1:{self.studio.port}{path}", options)

    def test_another_port(self):
        self.visit_the_other()
        headers = {"X-Studio-Token": self.studio.token, "Content-Type": "application/json"}
        for path, options in (
                ("/api/about", {"method": "POST", "body": "{}", "headers": headers}),
                ("/api/about", {"method": "POST", "body": "{}", "mode": "no-cors"}),
                ("/", {}), ("/main.js", {"mode": "no-cors"})):
            status, text = self.fetch(path, **options)
            self.assertIn(status, (-1, 0), (path, options))
            self.assertNotIn("contents", text)

    def test_a_frame(self):
        self.visit_the_other()
        driver = PageTest.driver
        driver.execute_async_script(
            "const [address, done] = arguments, frame = document.createElement('iframe');"
            "frame.onload = () => done(); frame.src = address; document.body.append(frame)",
            self.studio.address)
        driver.switch_to.frame(0)
        self.assertFalse(driver.execute_script("return !!window.studio"))
        driver.switch_to.default_content()
        self.assertIn("frame-ancestors 'none'", " ".join(self.page.logs()))

    def test_a_rebound_name(self):
        driver = PageTest.driver
        driver.get(f"http://rebound.example:{self.studio.port}/#{self.studio.token}")
        self.assertIn("the Host isn't this server's", driver.execute_script(
            "return document.body.innerText"))
        self.assertFalse(driver.execute_script("return !!window.studio"))

    def test_no_token(self):
        self.page.run("sessionStorage.clear(); window.studio.model.markSaved()")
        PageTest.driver.get(f"http://127.0.0.1:{self.studio.port}/")
        self.page.until("return document.getElementById('status').textContent.includes("
                        "'the token is wrong')")

    def test_the_token_leaves_the_address(self):
        self.assertEqual(PageTest.driver.current_url, f"http://127.0.0.1:{self.studio.port}/")
        PageTest.driver.refresh()
        self.page.idle()

    def test_no_code_of_others(self):
        """The policy stops inline code and addresses elsewhere, also if the page had some."""
        page = self.page
        page.run("const made = document.createElement('script');"
                 "made.textContent = 'window.stolen = true'; document.body.append(made)")
        self.assertFalse(page.run("return !!window.stolen"))
        status, _ = PageTest.driver.execute_async_script(
            FETCH, f"http://127.0.0.1:{self.other.server_address[1]}/", {})
        self.assertEqual(status, -1)
        logs = " ".join(line for line in page.logs() if "Content Security" in line)
        self.assertIn("script-src 'self'", logs)
        self.assertIn("connect-src 'self'", logs)


if __name__ == "__main__":
    unittest.main()
