"""Whether a page that examples/play writes is well formed: each tag is closed, and each row of its lanes has a cell for each column."""
import sys
from html.parser import HTMLParser

EMPTY = ("meta", "col", "br")


class Page(HTMLParser):
    def __init__(self):
        super().__init__()
        self.open = []
        self.columns = 0
        self.cells = 0
        self.rows = 0
        self.lanes = False

    def wrong(self, text):
        print("line %d: %s" % (self.getpos()[0], text))
        sys.exit(1)

    def handle_starttag(self, tag, attributes):
        fields = dict(attributes)
        if tag == "table":
            self.lanes = fields.get("class") == "lanes"
        if tag == "col":
            self.columns += 1
        if tag == "tr":
            self.cells = 0
        if tag in ("td", "th"):
            self.cells += int(fields.get("colspan", "1"))
        if tag not in EMPTY:
            self.open.append(tag)

    def handle_startendtag(self, tag, attributes):
        pass

    def handle_endtag(self, tag):
        if not self.open or self.open.pop() != tag:
            self.wrong("</%s> closes nothing" % tag)
        if tag == "tr" and self.lanes:
            self.rows += 1
            if self.cells != self.columns:
                self.wrong("a row has %d cells, and there are %d columns" % (self.cells, self.columns))


page = Page()
with open(sys.argv[1], encoding="utf-8") as text:
    page.feed(text.read())
page.close()
if page.open:
    page.wrong("<%s> is not closed" % page.open[-1])
if page.columns == 0 or page.rows < 3:
    page.wrong("there are no lanes")
