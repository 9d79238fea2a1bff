"""Summaries of agg_tool: the state of a grouping query that can be fed, merged, saved and answered, and for which repeats are nothing.

`Summary` is all that is wanted; `agg.errors` has what it raises, and `agg.dask` merges over many workers.
"""

from . import errors
from ._library import VERSION as __version__
from ._library import version
from ._summary import USUAL_LIMIT, Delivered, Known, Summary
from .errors import Place, Refused

__all__ = ["USUAL_LIMIT", "Delivered", "Known", "Place", "Refused", "Summary", "__version__", "errors", "version"]
