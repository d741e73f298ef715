"""All cases of the suite."""

from conforming import (
    blocks, caching, chains, changing, codes, format, hostile, messages, observing, options, origins, proxying,
    responses, timing, uris,
)

MODULES = (
    format, messages, timing, responses, options, caching, changing, proxying, codes, uris, chains, origins, hostile,
    observing, blocks,
)
CASES = [case for module in MODULES for case in module.CASES]
