"""The base class of objects that represent something on a server, and so can't be copied."""

from __future__ import annotations

from typing import Any, List, NoReturn


class Uncopied:
    """
    Refuses copy.copy(), copy.deepcopy() and pickle: two Python objects would release the same
    object of the server, and another process has no connection to that server.
    """

    __slots__ = ()

    def __dir__(self) -> List[str]:
        """Returns the public names."""
        return [name for name in super().__dir__()
                if name[:1] != "_" or name[:2] == "__"]

    def __reduce_ex__(self, protocol: Any) -> NoReturn:
        raise TypeError(f"{self!r} is on its server, so it can't be copied or pickled. Take an "
                        "image's samples by read(), or another image by context.image_like(); "
                        "in another process, open a context")
