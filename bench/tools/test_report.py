"""`look`'s reports in a Chromium without a window: 480 to 1,600 pixels wide, in light and dark colours, by mouse and by keys alone.

The reports are those of `make`'s 20,000 frames, of the demo in both directions, of 64 ports, and of a login that fails. WEGCAPHO_PICTURES names a folder
that gets a picture of each. It needs chromium, chromium-driver, python3-selenium, python3-jinja2 and tshark.
"""
import atexit
import json
import math
import os
import pathlib
import re
import shutil
import subprocess
import tempfile
import time
import unittest
from typing import Any, Callable, ClassVar

from machine import TOP, browser, needs, needs_in_tools, program

try:
    from report_pages import Browser, Report, limit, load, many, with_switch
    from selenium.webdriver.common.keys import Keys
except ImportError as why:
    raise unittest.SkipTest(f"{why}: apt-get install python3-selenium") from None

WIDTHS, SCHEMES = (480, 1000, 1300, 1600), ("light", "dark")
UNSCROLLED = 1300  # pixels from which on nothing scrolls sideways
MOST_BYTES = 6_000_000
CONTRAST = 4.5  # of text to what is behind it (WCAG 2, AA)
FAINT = """
    const parse = text => { const it = text.match(/[\\d.]+/g).map(Number); return it.length > 3 ? it : [...it, 1]; };
    const light = it => { const part = it / 255; return part <= 0.03928 ? part / 12.92 : ((part + 0.055) / 1.055) ** 2.4; };
    const bright = it => 0.2126 * light(it[0]) + 0.7152 * light(it[1]) + 0.0722 * light(it[2]);
    const behind = it => { for (; it; it = it.parentElement) { const found = parse(getComputedStyle(it).backgroundColor); if (found[3] > 0) return found; } return [255, 255, 255, 1]; };
    const found = [], walk = document.createTreeWalker(document.body, NodeFilter.SHOW_TEXT);
    let seen = 0;
    while (walk.nextNode()) {
        const text = walk.currentNode.textContent.trim(), own = walk.currentNode.parentElement;
        if (!text || !own.checkVisibility() || ["SCRIPT", "NOSCRIPT", "OPTION"].includes(own.tagName)) continue;
        const style = getComputedStyle(own), ink = parse(own instanceof SVGElement ? style.fill : style.color), backdrop = behind(own);
        const [a, b] = [bright(ink), bright(backdrop)].sort((x, y) => y - x), ratio = (a + 0.05) / (b + 0.05);
        seen += 1;
        if (ratio < arguments[0]) found.push([text.slice(0, 40), ratio.toFixed(2), style.color, backdrop.join(" ")]);
    }
    return [seen, found];"""
ROWS = "return [...document.querySelectorAll('#grid .row')].map(it => [...it.cells].map(cell => cell.textContent));"
CHOSEN = "return document.querySelector('#grid .row[aria-selected=true]')?.textContent ?? '';"
ACTIVE = "const it = document.activeElement; return [it.tagName, it.id, it.textContent.slice(0, 40)];"
OUTLINED = """
    const it = document.activeElement, style = getComputedStyle(it), around = getComputedStyle(document.getElementById('view'));
    return style.outlineStyle !== 'none' && parseFloat(style.outlineWidth) >= 2 || it.id === 'grid' && around.boxShadow !== 'none';"""
SIDEWAYS = """
    document.querySelectorAll('details').forEach(it => { it.open = true; });
    const scrolls = it => ["auto", "scroll"].includes(getComputedStyle(it).overflowX) && it.scrollWidth > it.clientWidth;
    return [...document.querySelectorAll("body, body *")].filter(scrolls).map(it => [it.id, it.className, it.ariaLabel, it.scrollWidth, it.clientWidth]);"""
PLOT = """
    const left = it => it.getBoundingClientRect().left, plot = document.querySelector("#exchanges .plot"), bars = it => it.querySelector(".login").getBoundingClientRect();
    const marks = [...plot.querySelectorAll(".scale span")].map(it => [it.textContent, left(it)]);
    return [marks, [...plot.tBodies[0].rows].map(it => [...[...it.cells].slice(0, 3).map(cell => cell.textContent), bars(it).left, bars(it).right, left(it.querySelector(".greatest"))])];"""
ARROWS = "return [...document.querySelectorAll('#picture .arrow text')].map(it => it.textContent);"


class Base(unittest.TestCase):
    """The reports, made once, and one browser."""

    pictures: ClassVar[pathlib.Path]
    reports: ClassVar[dict[str, Report]] = {}
    browser: ClassVar[Browser]

    @classmethod
    def setUpClass(cls) -> None:
        if not Base.reports:
            room = pathlib.Path(tempfile.mkdtemp(prefix="wegcapho-reports-"))
            atexit.register(shutil.rmtree, room)
            Base.pictures = pathlib.Path(os.environ.get("WEGCAPHO_PICTURES", room))
            Base.pictures.mkdir(parents=True, exist_ok=True)
            Base.reports = {it.name: it for it in (make(program(), room) for make in (load, with_switch, many, limit))}
        cls.browser = Browser()
        cls.addClassCleanup(cls.browser.close)

    def open(self, name: str, where: str = "", width: int = 1000, scheme: str = "light") -> Report:
        self.browser.see(width, scheme)
        self.browser.open(self.reports[name], where)
        return self.reports[name]

    def run_in(self, script: str, *words: Any) -> Any:
        return self.browser.run(script, *words)

    def counts(self) -> str:
        return str(self.run_in("return document.getElementById('count').textContent"))

    def shown(self) -> int:
        """How many frames the table shows."""
        return int(self.counts().partition(" ")[0])

    def told(self) -> str:
        return str(self.run_in("return document.getElementById('one').textContent"))

    def wait_for(self, what: Callable[[], str], words: str) -> None:
        """Until the page says these words."""
        for _ in range(200):
            if words in what():
                return
            time.sleep(0.05)
        self.fail(f"'{words}' isn't said: {what()[:80]}")

    def address(self) -> str:
        return str(self.run_in("return decodeURIComponent(location.hash)"))


@browser
@needs("chromium", "chromedriver", "tshark", "editcap")
@needs_in_tools("jinja2")
class Page(Base):
    """The page as a whole."""

    def test_small(self) -> None:
        """20,000 frames are one file of less than 6 MB that opens."""
        self.assertLess(self.open("load").file.stat().st_size, MOST_BYTES)

    def test_alone(self) -> None:
        """The page asks for nothing but itself, and nothing fails in it."""
        for name, report in self.reports.items():
            self.browser.asked()
            self.browser.complaints()
            self.open(name)
            asked = [it for it in self.browser.asked() if not it.startswith(("data:", "blob:", "about:"))]
            self.assertEqual(asked, [f"file://{report.file}"])
            self.assertEqual(self.browser.complaints(), [])
            self.assertNotRegex(report.file.read_text(encoding="utf-8"), r'(src|href)="(https?:)?//')

    def test_fits_each_width(self) -> None:
        """No page is wider than its window: what is wide scrolls in a box of its own. Each is pictured."""
        for name in self.reports:
            for width in WIDTHS:
                for scheme in SCHEMES:
                    self.open(name, width=width, scheme=scheme)
                    wide, room = self.run_in("const it = document.documentElement; return [it.scrollWidth, it.clientWidth]")
                    self.assertEqual((wide, room), (width, width), (name, scheme))
                    self.picture(name, f"{width}-{scheme}")

    def test_without_scrolling_sideways(self) -> None:
        """In a window of 1,300 pixels no box scrolls sideways either, whatever is unfolded."""
        for name in self.reports:
            self.open(name, width=UNSCROLLED)
            self.assertEqual(self.run_in(SIDEWAYS), [], name)

    def test_exchanges(self) -> None:
        """The table has the exchanges of `look exchanges`, and the plot draws each command's times at their places on its scale."""
        report = self.open("switch", width=UNSCROLLED)
        words = [str(TOP / "tools" / "look"), "exchanges", "--json", "--quiet", *report.captures]
        wanted = json.loads(subprocess.run(words, cwd=report.file.parent, capture_output=True, text=True, check=True).stdout)
        rows = self.run_in("return [...[...document.querySelectorAll('#exchanges table')].at(-1).tBodies[0].rows].map(row => [...row.cells].map(it => it.textContent))")
        self.assertEqual([(it[0], it[2]) for it in rows], [(it["first_frame"], it["ox_id"]) for it in wanted["exchanges"]])
        sums = [it for it in wanted["sums"] if it["kind"] == "FCP" and it["median_ns"] is not None]
        marks, plotted = self.run_in(PLOT)
        self.assertEqual([(it[0], int(it[2])) for it in plotted], [(f"{it['command']} LUN {it['lun']}", it["count"]) for it in sums])
        begin, end = dict(marks)["1 us"], dict(marks)["1 s"]
        for row, it in zip(plotted, sums):
            wanted = [begin + (end - begin) / 6 * math.log10(max(it[name], 1000) / 1000) for name in ("median_ns", "p99_ns", "greatest_ns")]
            self.assertTrue(all(abs(one - other) < 5 for one, other in zip(row[3:], wanted)), (row, wanted))

    def picture(self, name: str, words: str) -> None:
        for part, where in enumerate(("", "frames", "ladder"), 1):
            self.run_in("(document.getElementById(arguments[0]) ?? document.body).scrollIntoView()", where)
            self.browser.picture(self.pictures / f"{name}-{words}-{part}.png")

    def test_contrast(self) -> None:
        """Each text can be read on what is behind it, in light and in dark."""
        for name in self.reports:
            backdrops = set()
            for scheme in SCHEMES:
                self.open(name, scheme=scheme)
                self.run_in("document.querySelectorAll('details').forEach(it => { it.open = true; }); choose(shown[0]);")
                seen, faint = self.run_in(FAINT, CONTRAST)
                self.assertGreater(seen, 200)
                self.assertEqual(faint, [], (name, scheme))
                backdrops.add(self.run_in("return getComputedStyle(document.body).backgroundColor"))
            self.assertEqual(len(backdrops), 2, "light and dark have backdrops of their own")

    def test_64_ports(self) -> None:
        """The title takes two lines at most, and no port has a card."""
        self.open("many")
        height, line = self.run_in("const it = document.querySelector('h1'); return [it.offsetHeight, parseFloat(getComputedStyle(it).lineHeight)]")
        self.assertLessEqual(height, 2 * line + 1)
        self.assertEqual(self.run_in("return document.querySelector('#captures details').open"), False)
        self.assertEqual(self.run_in("return document.querySelectorAll('#captures .card').length"), 0)
        self.assertEqual(self.run_in("return document.querySelectorAll('#captures tbody tr').length"), 64)
        self.open("load")
        self.assertEqual(self.run_in("return document.querySelectorAll('#captures .card').length"), 8)

    def test_answer_first(self) -> None:
        """The answer stands on the first screen, in front of everything else, and says what `look` says, worst first."""
        for name, report in self.reports.items():
            self.open(name, width=480)
            first, top = self.run_in("const it = document.querySelector('main > section'); return [it.id, it.getBoundingClientRect().top]")
            self.assertEqual(first, "answer")
            self.assertLess(top, 400, name)
            said = self.run_in("return [...document.querySelectorAll('.answers > li')].map(it => it.textContent)")
            wanted = [it["text"].replace("`", "") for it in report.summary["answers"]]
            self.assertEqual(len(said), len(wanted))
            self.assertTrue(all(text in line for text, line in zip(wanted, said)), name)

    def test_rejected_login(self) -> None:
        """A login that the switch rejected: the answer says so and leads to the frames; the table has both verdicts side by side."""
        report = self.open("limit")
        first = report.summary["answers"][0]
        self.assertEqual(first["severity"], "failed")
        links = self.run_in("return [...document.querySelectorAll('.answers > li:first-child a.frame')].map(it => it.textContent)")
        self.assertEqual(links, [f"{port}/{number}" for port, number in first["frames"]])
        cells = self.run_in("return [...document.querySelectorAll('#logins tbody tr')].map(it => [...it.cells].slice(1, 4).map(cell => cell.textContent))")
        self.assertIn("rejected 09 29 (insufficient resources)", [switch for name, switch, _ in cells if name == first["wwpn"]])
        self.run_in("document.querySelector('.answers > li:first-child a.frame').click()")
        self.wait_for(self.told, "The switch answered: rejected 09 29 (insufficient resources), ")
        self.assertIn("rejected 09 29 (insufficient resources)", self.run_in(CHOSEN))

    def test_without_scripts(self) -> None:
        """Without scripts all but the table of frames and the ladder is there."""
        self.browser.driver.execute_cdp_cmd("Emulation.setScriptExecutionDisabled", {"value": True})
        try:
            self.browser.driver.get(f"file://{self.reports['switch'].file}")
        finally:
            self.browser.driver.execute_cdp_cmd("Emulation.setScriptExecutionDisabled", {"value": False})
        said = self.browser.driver.find_element("tag name", "body").text
        for words in ("want scripts", "20:00:00:1b:21:00:00:0b", "dropped dest-login", "Answers that differ"):
            self.assertIn(words, said)


@browser
@needs("chromium", "chromedriver", "tshark", "editcap")
@needs_in_tools("jinja2")
class Access(Base):
    """What a screen reader gets, and keys alone."""

    def tree(self) -> list[dict[str, Any]]:
        return list(self.browser.driver.execute_cdp_cmd("Accessibility.getFullAXTree", {})["nodes"])

    def named(self, tree: list[dict[str, Any]], role: str) -> list[str]:
        return [str(it.get("name", {}).get("value", "")) for it in tree if it.get("role", {}).get("value") == role and not it["ignored"]]

    def test_roles(self) -> None:
        """Tables, boxes, buttons, links and pictures have names; the table of frames is a grid with heads, rows and cells."""
        for name in self.reports:
            self.open(name)
            tree = self.tree()
            for role in ("table", "grid", "region", "button", "link", "image", "combobox", "textbox", "navigation"):
                self.assertNotIn("", self.named(tree, role), (name, role))
            grids = self.named(tree, "grid")
            self.assertEqual(grids, ["Frames of hosts with their verdicts, and the switch's own"])
            self.assertGreater(len(self.named(tree, "gridcell")), 100)
            self.assertIn("verdict", [it.strip() for it in self.named(tree, "columnheader")])
            self.assertEqual(self.run_in("return [...document.querySelectorAll('table')].filter(it => !it.caption?.textContent.trim()).length"), 0)
            self.assertEqual(self.run_in("return [...document.querySelectorAll('th')].filter(it => !it.scope).length"), 0)
            rows = self.shown()
            self.assertEqual(self.run_in("return +document.getElementById('grid').ariaRowCount"), rows + 1)

    def test_keys_alone(self) -> None:
        """From the page's begin by Tab to the table; arrows, End, Home, pages; Enter to the bytes and Escape back; each focus is seen."""
        self.open("switch")
        for _ in range(400):
            self.browser.press(Keys.TAB)
            self.assertTrue(self.run_in(OUTLINED), self.run_in(ACTIVE))
            if self.run_in(ACTIVE)[1] == "grid":
                break
        self.assertEqual(self.run_in(ACTIVE)[:2], ["TABLE", "grid"])
        rows = self.run_in(ROWS)
        self.browser.press(Keys.ARROW_DOWN)
        self.assertEqual(self.run_in(CHOSEN), "".join(rows[0]))
        self.browser.press(Keys.ARROW_DOWN, Keys.ARROW_DOWN, Keys.ARROW_UP)
        self.assertEqual(self.run_in(CHOSEN), "".join(rows[1]))
        self.assertEqual(self.run_in("return document.getElementById(document.getElementById('grid').getAttribute('aria-activedescendant')).ariaRowIndex"), "3")
        self.browser.press(Keys.END)
        last = int(self.run_in("return document.querySelector('#grid .row[aria-selected=true]').ariaRowIndex"))
        self.assertEqual(last - 1, self.shown())
        self.seen_whole()
        self.browser.press(Keys.PAGE_UP)
        self.seen_whole()
        self.browser.press(Keys.HOME)
        self.assertEqual(self.run_in(CHOSEN), "".join(rows[0]))
        self.seen_whole()
        self.browser.press(Keys.ENTER)
        self.assertEqual(self.run_in(ACTIVE)[1], "one")
        self.assertTrue(self.run_in(OUTLINED))
        self.assertIn(f"port {rows[0][0]}, frame {rows[0][1]}: ", self.told())
        self.browser.press(Keys.ESCAPE)
        self.assertEqual(self.run_in(ACTIVE)[1], "grid")

    def seen_whole(self) -> None:
        """The chosen row is in sight, below the head."""
        inside = self.run_in("""
            const row = document.querySelector('#grid .row[aria-selected=true]').getBoundingClientRect(), view = document.getElementById('view').getBoundingClientRect();
            return row.top >= document.querySelector('#grid thead').getBoundingClientRect().bottom - 1 && row.bottom <= view.bottom + 1;""")
        self.assertTrue(inside)

    def test_filter_and_sort_by_keys(self) -> None:
        """A verdict is chosen and a head sorts without a mouse."""
        self.open("load")
        self.run_in("document.getElementById('port').focus()")
        self.browser.press("3", Keys.TAB, Keys.TAB, Keys.TAB)
        self.browser.press(*"fcp_data")
        count = sum(words[1] == "3" for words in self.reports["load"].lines())
        shown = self.shown()
        self.assertTrue(0 < shown < count)
        self.assertEqual(self.address(), "#?port=3&text=fcp_data")
        self.run_in("document.querySelector('#grid th[data-column=size] button').focus()")
        self.browser.press(Keys.ENTER)
        sizes = [int(it[-1]) for it in self.run_in(ROWS)]
        self.assertEqual(sizes, sorted(sizes))
        self.browser.press(Keys.ENTER)
        sizes = [int(it[-1]) for it in self.run_in(ROWS)]
        self.assertEqual(sizes, sorted(sizes, reverse=True))
        self.assertEqual(self.run_in("return document.querySelector('#grid th[data-column=size]').ariaSort"), "descending")
        self.assertTrue(self.address().endswith("&sort=-size"))


@browser
@needs("chromium", "chromedriver", "tshark", "editcap")
@needs_in_tools("jinja2")
class Frames(Base):
    """The table of frames, its address, and the ladder."""

    def test_counts(self) -> None:
        """A filter in the address shows as many frames as the journal has."""
        report = self.open("load")
        lines = report.lines()
        self.assertEqual(self.counts(), f"{len(lines)} of {len(lines)} frames")
        for where, count in (
            ("#?rule=dropped%20zone", sum(it[3] == "dropped zone" for it in lines)),
            ("#?port=3&rule=forwarded", sum(it[1] == "3" and it[3].startswith("forwarded") for it in lines)),
            ("#?from=10&to=12.5", self.within(report, 10_000, 12_500)),
        ):
            self.open("load", where)
            self.assertEqual(self.counts(), f"{count} of {len(lines)} frames", where)
            self.assertGreater(count, 0)

    def within(self, report: Report, begin: int, end: int) -> int:
        moments = [it.milliseconds for port in range(1, 9) for it in report.inputs(port)]
        return sum(begin <= it - min(moments) <= end for it in moments)

    def test_address(self) -> None:
        """What is filtered, sorted and chosen stands in the address, and is there again when the page is opened with it."""
        self.open("load")
        self.run_in("const it = document.getElementById('name'); it.value = '20:00:00:1b:21:00:03:05'; it.dispatchEvent(new Event('input', { bubbles: true }));")
        self.run_in("document.querySelector('#grid th[data-column=verdict] button').click(); document.querySelectorAll('#grid .row')[2].click();")
        where, counts, told = self.run_in("return location.hash"), self.counts(), self.told()
        self.assertRegex(self.address(), r"^#\?name=20:00:00:1b:21:00:03:05&sort=verdict&at=\d+/\d+$")
        self.assertIn("0000  ", told)
        rows = self.run_in(ROWS)[:5]
        self.open("load", where)
        self.assertEqual((self.counts(), self.told(), self.run_in(ROWS)[:5]), (counts, told, rows))
        self.run_in("document.querySelector('#filters button[type=reset]').click()")
        self.wait_for(self.counts, "20000 of 20000")
        self.assertNotIn("name=", self.address())

    def test_links(self) -> None:
        """Each port/frame on the page leads to its row, with its bytes."""
        for name in self.reports:
            report = self.open(name)
            links = self.run_in("return [...new Set([...document.querySelectorAll('main a.frame')].map(it => it.getAttribute('href')))]")
            self.assertGreater(len(links), 5, name)
            for where in links[:: max(len(links) // 12, 1)]:
                port, number = map(int, where.removeprefix("#?at=").split("/"))
                self.run_in("document.querySelector(`main a[href='${arguments[0]}']`).click()", where)
                self.wait_for(self.told, f"port {port}, frame {number}: ")
                self.assertEqual(self.run_in("return [...document.querySelector('#grid .row[aria-selected=true]').cells].slice(0, 2).map(it => it.textContent)"), [str(port), str(number)])
                if name == "load":
                    begin = report.inputs(port)[number - 1].data[:16].hex(" ")
                    self.assertIn(f"0000  {begin}", self.told())

    def test_frames_of_the_switch(self) -> None:
        """The switch's frames are in the table, each beside the request that it answers; a reject of the switch is found."""
        report = self.open("switch", "#?rule=the%20switch's")
        own = sum(it["switch"] for it in report.summary["ports"])
        hosts = sum(it["hosts"] for it in report.summary["ports"])
        self.assertEqual(self.counts(), f"{own} of {own + hosts} frames")
        self.open("switch", "#?rule=the%20switch's&text=ls_rjt")
        self.assertGreater(self.shown(), 0)
        self.run_in("document.querySelector('#grid .row').click()")
        self.assertIn("It answers ", self.told())
        self.run_in("document.querySelector('#one a.frame').click()")
        self.wait_for(self.told, "The switch answered: rejected ")
        rows = self.run_in("return shown.filter(at => word('kind', at) === 'FLOGI' && words[rows.answer[at]].startsWith('granted')).length")
        self.assertEqual(rows, sum(it["request"] == "FLOGI" and it["switch"] == "FLOGI accept" for it in report.summary["comparison"]["answers"]))

    def test_names(self) -> None:
        """The names of both ends are those of the logins."""
        report = self.open("switch", "#?text=fcp_cmnd")
        heads = self.run_in("return [...document.querySelectorAll('#grid th')].map(it => it.dataset.column)")
        found = {(row[heads.index("source")], row[heads.index("target")]) for row in self.run_in(ROWS)}
        names = {it["wwpn"] for it in report.summary["logins"]}
        self.assertTrue(found and all(it in names for ends in found for it in ends), found)

    def test_heads_sort(self) -> None:
        """A head of each table sorts its rows, up and down."""
        self.open("load")
        for box, head in (("verdicts", "in all"), ("logins", "WWPN"), ("names", "WWPN")):
            column = f"document.querySelector('#{box} table')"
            self.run_in(f"[...{column}.tHead.rows[0].cells].find(it => it.textContent === arguments[0]).querySelector('button').click()", head)
            cells = self.run_in(f"const at = [...{column}.tHead.rows[0].cells].findIndex(it => it.textContent === arguments[0]); return [...{column}.tBodies[0].rows].map(it => it.cells[at].textContent)", head)
            self.assertEqual(cells, sorted(cells, key=lambda it: (int(it) if it.isdigit() and len(it) < 6 else 0, it)), box)

    def ladder(self, report: Report, *words: str) -> list[str]:
        """The texts of the arrows that tools/ladder draws of the same run."""
        files = [f"{kind}{port}.pcap" for port in range(1, len(report.summary["ports"]) + 1) for kind in ("in", "out")]
        ran = subprocess.run([str(TOP / "tools" / "ladder"), *words, "fabric.conf", "journal", *files], cwd=report.folder, capture_output=True, text=True, check=True)
        found = re.findall(r'<text [^>]*(?:paint-order="stroke"|fill="#6b3fa0" font-weight="bold")>([^<]*)</text>', ran.stdout)
        return [it.replace("&gt;", ">").replace("&amp;", "&") for it in found]

    def test_ladder(self) -> None:
        """The ladder has the arrows of tools/ladder, part by part, and those of a range alone."""
        for name in ("switch", "load"):
            report = self.open(name)
            wanted, found = self.ladder(report), self.run_in(ARROWS)
            for _ in range(2 if name == "load" else 100):
                if self.run_in("return document.getElementById('later').disabled"):
                    break
                self.run_in("document.getElementById('later').click()")
                found += self.run_in(ARROWS)
            self.assertEqual(found, wanted[: len(found)], name)
            self.assertIn(f"of {len(wanted)}, ", self.run_in("return document.getElementById('drawn').textContent"))

    def test_ladder_of_a_range(self) -> None:
        """The arrows between two moments are those of tools/ladder between the same windows."""
        report = self.open("load", "#?from=20&to=20.299")
        wanted = self.ladder(report, "--from", "20", "--to", "20.2")
        self.assertGreater(len(wanted), 100)
        found = self.run_in(ARROWS)
        while not self.run_in("return document.getElementById('later').disabled"):
            self.run_in("document.getElementById('later').click()")
            found += self.run_in(ARROWS)
        self.assertEqual(found, wanted)

    def test_ladder_and_table(self) -> None:
        """An arrow chooses its frame, and the frame its arrow."""
        report = self.open("switch", "#?name=20:00:00:1b:21:00:00:0b")
        ports = {it["enode"] for it in report.summary["logins"] if it["wwpn"] == "20:00:00:1b:21:00:00:0b"}
        asked = set(self.run_in("return arrows.filter(it => it.isInward && it.text.startsWith('FLOGI')).map(it => page.lines[it.line][1])"))
        self.assertEqual(asked, ports)
        self.run_in("document.querySelectorAll('#picture .arrow[data-at]')[5].dispatchEvent(new MouseEvent('click'))")
        at, chosen = self.run_in("const it = document.querySelector('#picture .arrow.on'); return [+it.dataset.at, chosen]")
        self.assertEqual(at, chosen)
        self.run_in("choose(shown.findLast(at => !isOfSwitch(at) && word('verdict', at) !== page.noise))")
        at, chosen = self.run_in("const it = document.querySelector('#picture .arrow.on'); return [+it.dataset.at, arrows[arrowOf.get(chosen)].at]")
        self.assertEqual(at, chosen)
