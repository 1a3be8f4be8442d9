"""The handout: no word of the guide and the rules is lost, and its links lead somewhere. Pandoc says what the pages'
Markdown means."""

import re
import shutil
import subprocess
import tempfile
import unittest
from collections import Counter
from pathlib import Path

from office.errors import OfficeError
from office.papers.command import main
from office.papers.handout import handout
from office.papers.html import render
from office.papers.markdown import Reading, blocks, headings, slug
from office.papers.world import read_world
from tests.office.test_papers_html import Seen, seen

ROOT = Path(__file__).resolve().parents[2]
DOCS = ROOT / "docs"
PAGES = ("PLAYER.md", "RULES.md")
COUNTED = ("h1", "h2", "h3", "p", "ul", "ol", "li", "table", "tr", "pre", "code", "strong", "em")


def read(text: str) -> Seen:
    return seen(render(blocks(text.split("\n"), Reading("x-", lambda target: target))))


def plain_words(text: str) -> list[str]:
    """The words without signs, as `i`th, of which the first letter is code."""
    return re.findall(r"[A-Za-z0-9]+", re.sub("[`*]", "", text))


def words(text: str) -> list[str]:
    return text.split()


class Words(unittest.TestCase):
    def test_no_word_of_the_pages_is_lost(self) -> None:
        """The words of the source without its markup: lines of fences, numbers of lists, and targets of links."""
        for page in PAGES:
            source = (DOCS / page).read_text()
            source = re.sub(r"(?m)^```.*$", "", source)
            source = re.sub(r"(?m)^\d+\. ", "", source)
            source = re.sub(r"\]\([^)\s]*\)", "]", source)
            expected = plain_words(source)
            self.assertGreater(len(expected), 5000)
            self.assertEqual(plain_words(read((DOCS / page).read_text()).text), expected)

    @unittest.skipUnless(shutil.which("pandoc"), "pandoc is missing: apt-get install pandoc")
    def test_pages_are_what_pandoc_makes_of_them(self) -> None:
        for page in PAGES:
            call = ["pandoc", "-f", "gfm", "-t", "html", str(DOCS / page)]
            ran = subprocess.run(call, capture_output=True, text=True, timeout=60, check=True)
            expected, made = seen(ran.stdout), read((DOCS / page).read_text())
            self.assertEqual(words(made.text), words(expected.text))
            counts = [Counter(it for it in parsed.elements if it in COUNTED) for parsed in (made, expected)]
            self.assertEqual(counts[0], counts[1])


class Handout(unittest.TestCase):
    def setUp(self) -> None:
        self.world = read_world(ROOT / "worlds/coast.toml")
        self.page = handout(self.world, DOCS)

    def test_links_lead_to_places_of_the_page(self) -> None:
        page = seen(self.page)
        ids = [value for key, value in page.attributes if key == "id"]
        self.assertEqual(len(ids), len(set(ids)))
        targets = [value or "" for key, value in page.attributes if key == "href"]
        self.assertGreater(len(targets), 100)
        self.assertEqual([it for it in targets if it.removeprefix("#") not in ids], [])

    def test_citations_and_names_in_brackets_are_links(self) -> None:
        self.assertIn('<a href="#guide-checking-a-share">docs/PLAYER.md, &quot;Checking a share&quot;</a>', self.page)
        self.assertIn('(<a href="#rules-owners">Owners</a>)', self.page)
        self.assertIn('<a href="#rules">docs/RULES.md</a>', self.page)
        self.assertIn('(<a href="#guide-your-name-and-your-pass-text">', self.page.replace("<a href", "(<a href"))

    def test_prices(self) -> None:
        text = " ".join(seen(self.page).text.split())
        for expected in ("upkeep of a person for a month maintenance 10", "boat ship 10 wood shipbuilding 1 200 2",
                         "cart 50 100 carpentry 1 5 wood", "carpentry 10 makes cart, builds lodge"):
            self.assertIn(expected, text)

    def test_regions_are_left_out_where_they_are_not_public(self) -> None:
        hidden = seen(handout(self.world, DOCS, regions=False)).text
        self.assertIn("Skerry", seen(self.page).text)
        self.assertNotIn("Skerry", hidden)
        self.assertNotIn("on guard.A", seen(self.page).text.replace("\n", ""))
        self.assertIn("lumberjack", hidden)

    def test_parts_alone(self) -> None:
        for part in ("guide", "rules", "prices"):
            page = seen(handout(self.world, DOCS, parts=(part,)))
            ids = [value for key, value in page.attributes if key == "id"]
            targets = [value or "" for key, value in page.attributes if key == "href"]
            self.assertIn(part, ids)
            self.assertEqual([it for it in targets if it.removeprefix("#") not in ids], [])

    def test_targets_that_the_handout_does_not_have_are_text(self) -> None:
        with tempfile.TemporaryDirectory() as folder:
            text = "# A\n[a](#none) [b](RULES.md#b) [c](RULES.md#none) [d](FORMATS.md) docs/RULES.md, \"None\" (None)\n"
            for page in PAGES:
                (Path(folder) / page).write_text(text + "# B\n")
            page_seen = seen(handout(self.world, Path(folder), parts=("guide", "rules")))
        targets = [value for key, value in page_seen.attributes if key == "href"]
        self.assertEqual(targets, ["#guide", "#rules", "#rules-b", "#rules-b"])

    def test_missing_docs(self) -> None:
        with self.assertRaises(OfficeError) as caught:
            handout(self.world, ROOT / "nothing")
        self.assertIn("--docs", caught.exception.text)

    def test_command(self) -> None:
        with tempfile.TemporaryDirectory() as folder:
            out = Path(folder) / "handout.html"
            self.assertEqual(main(["handout", str(ROOT / "worlds/isle.toml"), str(out), "--club", "The <Club>"]), 0)
            self.assertIn("<title>Handout: The &lt;Club&gt;</title>", out.read_text())


class Markdown(unittest.TestCase):
    def html(self, text: str) -> str:
        reading = Reading("x-", lambda target: target if target.startswith("#") else None)
        return re.sub(r"(</\w+>)\n", r"\1", render(blocks(text.split("\n"), reading)))

    def test_text_of_a_line(self) -> None:
        self.assertEqual(self.html("a **b `*`** *c* [d](#e) [f](../g.md) \\* `` ` ``"),
                         "<p>a <strong>b <code>*</code></strong> <em>c</em> "
                         '<a href="#e">d</a> f * <code>`</code></p>')

    def test_hostile_text(self) -> None:
        page = read("<script>x</script> [a](javascript:x) `<b>` &lt; [b](data:x)\n\n# <i>\n\n| <u> |\n|---|\n| a |")
        self.assertFalse({"script", "b", "i", "u", "a"} & set(page.elements))
        self.assertIn("&lt;", page.text)

    def test_lists(self) -> None:
        self.assertEqual(self.html("- a\n  b\n- c\n\n  d\n\nend"),
                         "<ul><li>a b</li><li><p>c</p><p>d</p></li></ul><p>end</p>")
        self.assertEqual(self.html("3. a\n4. b\n- c"), '<ol start="3"><li>a</li><li>b</li></ol><ul><li>c</li></ul>')
        self.assertEqual(self.html("- a\n  - b\n  - c\n- d"),
                         "<ul><li><p>a</p><ul><li>b</li><li>c</li></ul></li><li>d</li></ul>")
        self.assertEqual(self.html("a\n7. b\n    c"), "<p>a 7. b c</p>")

    def test_tables(self) -> None:
        made = self.html("| a | n |\n|---|--:|\n| `x\\|y` | 1 |\n| z |")
        self.assertIn("<code>x|y</code>", made)
        self.assertIn('<td class="n">1</td>', made)
        self.assertIn('<th scope="row" class="t">z</th><td class="n"></td>', made)

    def test_code(self) -> None:
        self.assertEqual(self.html("```a b\n# c\n\n- d\n```"), "<pre><code># c\n\n- d</code></pre>")
        self.assertEqual(self.html("    a\n\n      b\n\nc"), "<pre><code>a\n\n  b</code></pre><p>c</p>")
        self.assertEqual(self.html("```\nopen"), "<pre><code>open</code></pre>")

    def test_headings(self) -> None:
        self.assertEqual(self.html("## The `a`, and (b) #"), '<h2 id="x-the-a-and-b">The <code>a</code>, and (b)</h2>')
        self.assertEqual(list(headings("# A\n```\n# no\n```\n## B c")), [(1, "A"), (2, "B c")])
        self.assertEqual(slug("fault: Store"), "fault-store")

    def test_any_text_is_read(self) -> None:
        texts = ("", "\n\n", "|", "||\n|-|", "- ", "1.", "#", "**", "[", "[]()", "`", "***", "    ", "\t- a", "* *a",
                 "|\n|--", "a|b\n-|-", "-\n-", "- - a", "1. - a\n\n\n   b", ">", "\\")
        for text in texts:
            self.html(text)


if __name__ == "__main__":
    unittest.main()
