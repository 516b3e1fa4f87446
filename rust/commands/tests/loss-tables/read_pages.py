"""usage: read_pages.py FOLDER

Reads all pages of a folder as strictly as it can: elements that are closed in turn, attributes in quotes,
text without bare signs, ids that are there once, links that lead to a file or an id, tables with a caption
and a heading for each column, pictures with a title and a description, and nothing that runs or is fetched.
Prints the pages, their tables' rows, cells with tabs in between, and the lines of what is to be typed.
"""
import os
import re
import sys
from html.parser import HTMLParser
from urllib.parse import unquote_to_bytes

VOID = {"meta", "link"}
KNOWN = VOID | set(
    "html head title style body main nav h1 h2 p a code pre dl dt dd div figure figcaption "
    "table caption thead tbody tfoot tr th td svg desc g rect path text".split()
)
ATTRIBUTES = set("lang charset name content rel href id class role tabindex scope xmlns".split())
TAG = re.compile(r'<[a-z][a-z0-9]*( [a-zA-Z-]+="[^"<>]*")*/?>')
SIGNS = {"amp": "&", "lt": "<", "gt": ">", "quot": '"'}


class Page(HTMLParser):
    def __init__(self, text):
        super().__init__(convert_charrefs=False)
        self.open, self.ids, self.links, self.seen = [], set(), [], []
        self.rows, self.typed = [], []
        self.feed(text)
        self.close()
        assert not self.open, self.open
        for word in ("html", "title", "main", "h1", "style"):
            assert self.seen.count(word) >= 1, word
        assert self.seen.count("h1") == self.seen.count("style") == self.seen.count("html") == 1

    def handle_decl(self, decl):
        assert decl == "DOCTYPE html" and not self.seen, decl

    def handle_starttag(self, tag, attributes, closed=False):
        raw = self.get_starttag_text()
        drawn = any(name == "svg" for name, _ in self.open)
        assert TAG.fullmatch(raw) and tag in KNOWN, raw
        names = [name for name, _ in attributes]
        assert len(names) == len(set(names)), raw
        assert drawn or tag == "svg" or closed is False, raw
        for name, value in attributes:
            assert drawn or tag == "svg" or name in ATTRIBUTES or re.match("(data|aria)-", name), raw
            assert not name.startswith("on") and name not in ("src", "style"), raw
            if name == "id":
                assert value not in self.ids, raw
                self.ids.add(value)
            if name == "href":
                self.links.append(value)
        assert tag != "svg" or ("role", "img") in attributes, raw
        self.seen.append(tag)
        if tag == "tr":
            self.rows.append([])
        if tag in ("th", "td"):
            assert tag == "td" or dict(attributes)["scope"] in ("col", "row"), raw
            self.rows[-1].append("")
        if tag == "table":
            self.rows.append(["table"])
        if not (closed or tag in VOID):
            self.open.append((tag, []))

    def handle_startendtag(self, tag, attributes):
        self.handle_starttag(tag, attributes, closed=True)

    def handle_endtag(self, tag):
        last, inner = self.open.pop()
        assert last == tag, (last, tag)
        text = "".join(inner).strip()
        if tag in ("title", "desc", "caption", "figcaption", "h1", "h2", "a"):
            assert text, tag
        if tag == "caption":
            assert self.open[-1][0] == "table" and self.rows[-1] == ["table"]
            self.rows[-1].append(text)
        if tag == "svg":
            assert inner.count("<title>") == inner.count("<desc>") == 1
        for name, outer in self.open:
            if tag in ("title", "desc") and name == "svg":
                outer.append(f"<{tag}>")
        if tag in ("th", "td"):
            self.rows[-1][-1] = text
        if tag == "pre":
            self.typed += text.split("\n")

    def text(self, text):
        drawn = any(name == "svg" for name, _ in self.open)
        for name, inner in self.open:
            if not (drawn and name == "td"):
                inner.append(text)

    def handle_data(self, data):
        assert not re.search("[&<]", data), data
        assert not re.search("url\\(|@import", data), data
        self.text(data)

    def handle_entityref(self, name):
        self.text(SIGNS[name])

    def handle_charref(self, name):
        raise AssertionError(name)


def tables(rows):
    """Rows without their headings, behind the line of their table."""
    width = 0
    for row in rows:
        if row[0] == "table":
            assert len(row) == 2, row
            width = 0
        elif width == 0:
            assert all(row), row
            width = len(row)
            continue
        else:
            assert len(row) == width, row
        yield row


def main(folder):
    names = sorted(name for name in os.listdir(folder) if name.endswith(b".html"))
    for name in names:
        with open(os.path.join(folder, name), encoding="utf-8", newline="") as file:
            page = Page(file.read())
        for link in page.links:
            if link.startswith("#"):
                assert link[1:] in page.ids, link
            elif link != "data:,":
                assert re.fullmatch("[A-Za-z0-9%._~-]+", link), link
                assert os.path.isfile(os.path.join(folder, unquote_to_bytes(link))), link
        print("page", name.decode("utf-8", "replace"), sep="\t")
        for row in tables(page.rows):
            print(*row, sep="\t")
        for line in page.typed:
            print("typed", line, sep="\t")


if __name__ == "__main__":
    main(os.fsencode(sys.argv[1]))
