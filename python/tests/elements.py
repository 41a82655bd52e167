"""The elements of a page of HTML, its text, and which were left open."""
from __future__ import annotations

import html.parser


class Elements(html.parser.HTMLParser):
    """The elements of a page, which must close as they opened, and its text."""
    VOID = {"meta", "use"}

    def __init__(self, page: str) -> None:
        super().__init__()
        self.tags: list[tuple[str, dict[str, str | None]]] = []
        self.open: list[str] = []
        self.text = ""
        self.feed(page)

    def handle_starttag(self, tag: str, attributes: list[tuple[str, str | None]]) -> None:
        self.tags.append((tag, dict(attributes)))
        if tag not in self.VOID:
            self.open.append(tag)

    def handle_startendtag(self, tag: str, attributes: list[tuple[str, str | None]]) -> None:
        self.tags.append((tag, dict(attributes)))

    def handle_endtag(self, tag: str) -> None:
        assert self.open.pop() == tag, tag

    def handle_data(self, data: str) -> None:
        self.text += data

    def all(self, name: str) -> list[dict[str, str | None]]:
        """The attributes of each element of a name."""
        return [attributes for tag, attributes in self.tags if tag == name]

    def values(self, *names: str) -> list[str | None]:
        """The values of the attributes of some names, in their order."""
        return [value for _, attributes in self.tags for name, value in attributes.items() if name in names]
