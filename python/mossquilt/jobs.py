"""A job file, from its bytes to its listing."""
from __future__ import annotations

from typing import Any, Union

import numpy as np

from ._library import Call

_LONGEST = 6940  # no listing is longer


def list_job(job: Union[bytes, bytearray, memoryview, "np.ndarray[Any, Any]"]) -> str:
    """The listing of a job file, as jobs/make writes them: the whole chain, for at most 256 points and 1,024 images.

    >>> import struct
    >>> from mossquilt import list_job
    >>> one = [1, 0, 0, 0, 1, 0, 0, 0, 1]
    >>> header = struct.pack("<8I", 176, 1, 32, 68, 104, 3, 2, 1)
    >>> print(list_job(header + struct.pack("<18i9d", 3, 0, 0, 0, 1, 0, 0, 0, 1, *one, *one)), end="")
    grid 1 1 3
    map 0 1 0
    ir 2
    triplet 1 0 2
    triplet 1 1 1
    """
    if isinstance(job, str):
        raise TypeError("job is a str; give the bytes of a job file, which jobs/make writes of a readable text")
    if not isinstance(job, np.ndarray):
        job = np.frombuffer(job, np.uint8)
    (text,), (length,) = Call("list", job=job).run(1, None, text=(_LONGEST,))
    return bytes(text[:length]).decode("ascii")
