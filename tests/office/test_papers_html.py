"""Building HTML and SVG: nothing that is shown can become markup."""

import unittest
import xml.etree.ElementTree as ElementTree
from html.parser import HTMLParser

from office.papers.chart import Chart, Curve, draw, shorten
from office.papers.html import document, el, escape, link, render, table, words_of
from office.papers.svg import file_text, picture, title, words

HOSTILE = ("<script>alert(1)</script>", '" onload="x', "' x='", "a & b &lt;", "]]>", "--><!--", "</style></svg>",
           "x" * 5000, "\0\x1b[31m\ud800\u202e", "javascript:alert(1)", "\n\r\t")


class Seen(HTMLParser):
    """What a browser would make of a page: its elements, attributes and text."""

    def __init__(self) -> None:
        super().__init__()
        self.elements: list[str] = []
        self.attributes: list[tuple[str, str | None]] = []
        self.text = ""

    def handle_starttag(self, tag: str, attrs: list[tuple[str, str | None]]) -> None:
        self.elements.append(tag)
        self.attributes += attrs

    def handle_data(self, data: str) -> None:
        if self.elements[-1:] != ["style"]:
            self.text += data

    def handle_endtag(self, tag: str) -> None:
        if tag == "style":
            self.elements.append("/style")


def seen(page: str) -> Seen:
    parser = Seen()
    parser.feed(page)
    parser.close()
    return parser


class Escaping(unittest.TestCase):
    def test_hostile_text_stays_text(self) -> None:
        for text in HOSTILE:
            page = seen(render(el("b", {"title": text}, text)))
            self.assertEqual(page.elements, ["b"])
            self.assertEqual([key for key, _ in page.attributes], ["title"])
            self.assertEqual(len(page.text), len(text))

    def test_each_sign(self) -> None:
        self.assertEqual(escape("<&>\"'"), "&lt;&amp;&gt;&quot;&#39;")
        self.assertEqual(escape("a\0b\u202ec"), "a\ufffdb\ufffdc")

    def test_names_of_elements_are_names(self) -> None:
        for name in ("p onclick=x", "", "p>", "1"):
            with self.assertRaises(ValueError):
                el(name)
        with self.assertRaises(ValueError):
            el("p", {'a" b': "x"})

    def test_links_lead_to_pages_alone(self) -> None:
        for target in ("#a", "https://example.org/x", "rules.html#owners", "rules.html"):
            self.assertEqual(link(target, "x").name, "a")
        for target in ("javascript:alert(1)", " javascript:x", "data:text/html,x", "//host/x", "vbscript:x"):
            self.assertEqual(link(target, "x").name, "span", target)

    def test_document_is_whole_and_needs_nothing(self) -> None:
        page = seen(document("<title>", "p { color: red; }", el("p", {}, "<b>")))
        self.assertNotIn("script", page.elements)
        self.assertNotIn("b", page.elements)
        self.assertIn(("content", "default-src 'none'; style-src 'unsafe-inline'"), page.attributes)
        with self.assertRaises(ValueError):
            document("x", "</style><script>", "")

    def test_svg_file_is_well_formed(self) -> None:
        for text in HOSTILE:
            root = ElementTree.fromstring(file_text(picture(9, 9, text, {}, words((1, 2), text, {}), title(text))))
            self.assertEqual(root.tag, "{http://www.w3.org/2000/svg}svg")
            self.assertEqual(len(list(root)), 2)

    def test_table_aligns_numbers(self) -> None:
        rendered = render(table(["a", "n"], [["x", 1], ["y", 2]], [False, True]))
        self.assertIn('<td class="n">1</td>', rendered)
        self.assertIn('<th scope="row" class="t">x</th>', rendered)

    def test_words_of_a_tree(self) -> None:
        self.assertEqual(words_of((el("p", {}, "a", el("b", {}, "c")), None, 3)), "ac3")


class Charts(unittest.TestCase):
    def chart(self, *curves: tuple[int | None, ...], places: bool = False) -> ElementTree.Element:
        made = tuple(Curve(f"<{number}>", values) for number, values in enumerate(curves))
        months = tuple(range(1, len(curves[0]) + 1)) if curves else (1,)
        return ElementTree.fromstring(file_text(draw(Chart("x", months, made, places))))

    def labels(self, root: ElementTree.Element) -> list[tuple[str, float]]:
        texts = [it for it in root.iter() if it.tag.endswith("text") and it.get("class") == "name"]
        return [(it.text or "", float(it.get("y", ""))) for it in texts]

    def test_each_curve_has_its_name_and_no_names_overlap(self) -> None:
        root = self.chart(*[(0, 5)] * 8)
        heights = sorted(y for _, y in self.labels(root))
        self.assertEqual(len(heights), 8)
        self.assertTrue(all(after - before >= 13 for before, after in zip(heights, heights[1:])))
        height = float(root.get("height", ""))
        self.assertTrue(all(0 < y < height for y in heights))

    def test_curves_differ_by_dashes_and_marks(self) -> None:
        lines = [it for it in self.chart(*[(0, 5)] * 8).iter() if it.get("class") == "curve"]
        self.assertEqual(len({it.get("stroke-dasharray") for it in lines}), 8)

    def test_points_are_where_their_values_are(self) -> None:
        root = self.chart((0, 50, 100))
        line = next(it for it in root.iter() if it.get("class") == "curve")
        points = [tuple(map(float, pair.split(","))) for pair in (line.get("points") or "").split()]
        (x1, y1), (x2, y2), (x3, y3) = points
        self.assertAlmostEqual(x2 - x1, x3 - x2, places=0)
        self.assertAlmostEqual(y1 - y2, y2 - y3, places=0)
        self.assertGreater(y1, y3)

    def test_first_place_is_at_the_top(self) -> None:
        labels = dict(self.labels(self.chart((1, 1), (2, 3), (3, 2), places=True)))
        self.assertLess(labels["<0>"], labels["<2>"])
        self.assertLess(labels["<2>"], labels["<1>"])

    def test_odd_values(self) -> None:
        for curves in ((), ((0,),), ((None, 3),), ((-5, 5),), ((10**15, 2 * 10**15),), ((None, None),)):
            self.chart(*curves)
            self.chart(*curves, places=all((value or 1) > 0 for curve in curves for value in curve))

    def test_long_names_are_shortened(self) -> None:
        self.assertEqual(shorten("Avalon", 11), "Avalon")
        self.assertLess(len(shorten("W" * 40, 11)), 12)
        self.assertGreater(len(shorten("i" * 40, 11)), 20)


if __name__ == "__main__":
    unittest.main()
