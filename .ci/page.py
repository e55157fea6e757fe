"""Compares a page as a browser has it with the report that it was made of.

Called with the report and the page's document as the browser gives it. What the report has is read here anew, from its text.
"""

import html.parser
import re
import sys


class Page(html.parser.HTMLParser):
    """The marks, the rows and the counts of a page."""

    def __init__(self):
        super().__init__()
        self.marks, self.rows, self.counts, self.strays = [], [], {}, []
        self.item, self.cell, self.stray = None, None, None

    def handle_starttag(self, tag, attributes):
        found = dict(attributes)
        if tag == "i":
            self.marks.append((found["id"], found["class"].split(), found.get("title") or found.get("data-t", "")))
        elif tag == "tr" and "data-e" in found:
            self.rows.append([found["class"].split()[0]])
        elif tag == "td":
            self.rows[-1].append("")
            self.cell = self.rows[-1]
        elif tag == "li":
            self.item = ""
        elif tag == "code":
            self.stray = ""

    def handle_endtag(self, tag):
        if tag in ("td", "tr", "tbody"):
            self.cell = None
        elif tag == "code" and self.stray is not None:
            self.strays.append(self.stray)
            self.stray = None
        elif tag == "li" and self.item is not None:
            words = re.fullmatch(r"\s*(.*?)\s*(\d+)\s*", self.item, re.S)
            if words:
                self.counts[words.group(1)] = int(words.group(2))
            self.item = None

    def handle_data(self, text):
        if self.stray is not None:
            self.stray += text
        elif self.cell is not None:
            self.cell[-1] += text.strip("\n")
        elif self.item is not None:
            self.item += text


def events_of(text):
    """The events of a report: each one's line, with the lines that belong to it."""
    events, rest = [], ""
    lines = text.split("\n")
    rest = lines.pop()
    for line in lines:
        if line.startswith("  ") and events:
            events[-1] += "\n" + line
        elif not re.fullmatch(r"fwupdemu report 1|end \d+", line):
            events.append(line)
    return events, rest


def entries_of(events):
    """The entries that the events name, and the state that was told of each last."""
    states = {}
    for event in events:
        line = event.split("\n")[0]
        began = re.search(r"^client \d+ (?:claim \S+|schedule \S+ \S+ \S+) entry (\d+)$", line)
        ended = re.search(r"^client \d+ entry (\d+) finish (\S+)", line)
        judged = re.search(r"^client \d+ judge (\d+) \S+ (\S+)", line)
        named = re.search(r"^client \d+ (?:ask )?entry (\d+)", line)
        if began:
            states[int(began.group(1))] = "pending" if " schedule " in line else "begun"
        elif ended or judged:
            found = ended or judged
            states[int(found.group(1))] = found.group(2)
        elif re.search(r"^client \d+ resume (\d+) begun", line):
            states[int(line.split()[3])] = "begun"
        elif re.search(r"^client \d+ resume (\d+) refused (?!16)", line):
            states[int(line.split()[3])] = "failed"
        elif named:
            states.setdefault(int(named.group(1)), "pending")
    return states


def main():
    text = open(sys.argv[1], encoding="utf-8").read()
    page = Page()
    page.feed(open(sys.argv[2], encoding="utf-8").read())
    events, rest = events_of(text)
    wrong = []

    def check(what, got, wanted):
        if got != wanted:
            wrong.append(f"{what}: {got!r}, and not {wanted!r}")

    check("numbers of the marks", [mark[0] for mark in page.marks], [f"e{k + 1}" for k in range(len(events))])
    check("lines of the marks", [mark[2] for mark in page.marks], events)
    check("boots", sum("boot" in mark[1] for mark in page.marks), sum(event.startswith("boot ") for event in events))
    check("cuts", sum("cut" in mark[1] for mark in page.marks), events.count("cut"))
    states = entries_of(events)
    check("entries", {int(row[1]): row[0] for row in page.rows if row[1]}, states)
    check("refused requests", sum(row[0] == "refused" for row in page.rows), page.counts.get("refused"))
    check("count of events", page.counts.get("events drawn"), len(events))
    check("count of boots", page.counts.get("boots"), sum(event.startswith("boot ") for event in events))
    check("count of cuts", page.counts.get("cuts"), events.count("cut"))
    check("count of entries", page.counts.get("entries"), len(states))
    told = re.search(r"^end (\d+)\n\Z", text, re.M)
    check("count that the report tells", page.counts.get("the report counts"), int(told.group(1)) if told else None)
    check("what was not read", page.strays, [rest] if rest else [])
    for line in wrong:
        print("  " + line)
    return bool(wrong)


sys.exit(main())
