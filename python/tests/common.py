"""What tests share: a query, batches as texts by other code than the package's, and the query's answer by other code, too."""

import os
import random
import subprocess
import sys
import textwrap

import agg

COLUMNS = "city text, amount bigint, paid boolean"
QUERY = "SELECT city, count(*), sum(amount) AS total, min(amount), bool_and(paid) FROM batches GROUP BY city"

TEXTS = ["oslo", "bergen", "", " ", "a,b", 'a"b', '"', "a\nb", "a\rb", "\r\n", "\ufeff", "\ufeffx", "\\", "\\n", "null", "NULL", "t", "1"]
TEXTS += ["å", "\U0001f600", "x" * 255]
NUMBERS = [0, 1, -1, 7, 2**63 - 1, -(2**63), None]
FLAGS = [True, False, None]


def new(columns=COLUMNS, query=QUERY, **more):
    return agg.Summary(columns=columns, query=query, **more)


def some_rows(seed, count):
    chosen = random.Random(seed)
    return [(chosen.choice([*TEXTS, None]), chosen.choice(NUMBERS), chosen.choice(FLAGS)) for _ in range(count)]


def field(value):
    """A field, always in quotes."""
    if value is None:
        return '"\\N"'
    if isinstance(value, bool):
        return '"true"' if value else '"F"'
    return '"' + str(value).replace('"', '""') + '"'


def batch(origin, number, rows):
    """A batch file."""
    lines = [f"batch,{origin},{number},{len(rows)}"]
    lines += [",".join(map(field, row)) for row in rows]
    return ("\n".join(lines) + "\n").encode()


def none_if_empty(function, values):
    known = [value for value in values if value is not None]
    return function(known) if known else None


def answered(rows):
    """The answer of QUERY over rows."""
    groups = {}
    for city, amount, paid in rows:
        groups.setdefault(city, []).append((amount, paid))
    found = []
    for city in sorted(groups, key=lambda city: (city is None, (city or "").encode())):
        amounts, flags = zip(*groups[city])
        found.append((city, len(amounts), none_if_empty(sum, amounts), none_if_empty(min, amounts), none_if_empty(all, flags)))
    return found


def run(*parts, cwd=None, **variables):
    """What a program prints that these parts make, by the Python and the package of the tests. One that hangs or fails is an error."""
    words = [sys.executable, *["-O"] * sys.flags.optimize, "-W", "ignore::DeprecationWarning", "-c", "".join(map(textwrap.dedent, parts))]
    environment = {**os.environ, **variables}
    done = subprocess.run(words, stdout=subprocess.PIPE, stderr=subprocess.PIPE, text=True, timeout=120, cwd=cwd, env=environment)
    if done.returncode != 0:
        raise AssertionError(f"status {done.returncode}: {done.stderr}")
    return done.stdout
