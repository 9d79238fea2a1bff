"""Reads the Markdown tables that bench/run and bench/growth print, for bench/picture and bench/targets."""
import re
import sys


def given(words, usage):
    """The text of the one file that was named, or of standard input."""
    if len(words) > 2 or (len(words) == 2 and words[1].startswith("-")):
        sys.exit(usage)
    if len(words) == 2:
        with open(words[1], encoding="utf-8") as file:
            return file.read()
    return sys.stdin.read()


def cells(line):
    return [cell.strip() for cell in line.strip().strip("|").split("|")]


def tables(text):
    """The tables of a text, each a list of lines of cells, without the rule below its head."""
    found = re.findall(r"(?:^\|.*\n?)+", text, re.MULTILINE)
    return [[cells(line) for line in table.splitlines() if not re.fullmatch(r"[|\s:-]+", line)] for table in found]


def numbers(cell):
    """The numbers of a cell: seconds, and bytes of memory a byte, as far as they are there."""
    return [float(number) for number in re.findall(r"\d+(?:\.\d+)?", cell.replace(",", ""))]


def short(name):
    """A program's name without what is said of it."""
    return name.split(",")[0].strip("` ")


def programs(text):
    """The shapes of the table of programs, and for each program the numbers of each shape."""
    for head, *lines in tables(text):
        measured = {short(line[0]): [numbers(cell) for cell in line[1:]] for line in lines}
        if head[0].startswith("Program") and measured.get("agg_tool") and all(measured["agg_tool"]):
            return head[1:], measured
    raise ValueError("there is no table of programs with a line of agg_tool")
