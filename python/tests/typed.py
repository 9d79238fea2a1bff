"""What a type checker makes of the package, as a program with types uses it."""

from __future__ import annotations

from typing import Dict, List, Optional

import agg
import agg.dask
from agg import errors


def use(path: str) -> int:
    query = "SELECT city, sum(amount) FROM batches GROUP BY city"
    sales = agg.Summary(columns="city text, amount bigint", query=query, limit=agg.USUAL_LIMIT)
    delivered: agg.Delivered = sales.feed_rows(0, 1, [("oslo", 5)])
    upto: Optional[int] = delivered.upto
    sales.feed(b"batch,0,2,0\n")
    sales.feed("batch,0,3,0\n")
    again = agg.Summary.from_bytes(bytes(sales))
    again |= sales
    both: agg.Summary = again | sales
    known: Dict[int, agg.Known] = both.known()
    missing: Dict[int, List[range]] = both.missing()
    try:
        both.merge(b"")
    except errors.RefusedFile as why:
        place: agg.Place = why.place
        row: Optional[int] = place.row
        return why.status + len(why.sentence) + (row or 0)
    except (errors.InUse, errors.Forked) as other:
        return len(str(other))
    text: str = both.to_csv() + both.to_text() + agg.version()
    return len(text) + len(known) + len(missing) + (upto or 0)
