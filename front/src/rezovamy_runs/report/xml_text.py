"""Elements of `xml.etree.ElementTree` as the text of a document.

ElementTree's own writer leaves a carriage return in a text as it is, which readers of XML take for
the end of a line, so what a test printed would be changed. Here each character is read back.
"""

from __future__ import annotations

from xml.etree.ElementTree import Element

DECLARATION = '<?xml version="1.0" encoding="UTF-8"?>'
INDENT = "    "
TEXT_ESCAPES = str.maketrans({"&": "&amp;", "<": "&lt;", ">": "&gt;", "\r": "&#13;"})
ATTRIBUTE_ESCAPES = TEXT_ESCAPES | str.maketrans({'"': "&quot;", "\t": "&#9;", "\n": "&#10;"})


def document_text(root: Element) -> str:
    """Return the document of an element, without white space where an element has a text."""
    return f"{DECLARATION}{element_text(root, chr(10))}\n"


def element_text(element: Element, line_break: str) -> str:
    """Return the text of an element, which stands after a line break with an indent."""
    attributes = "".join(
        f' {name}="{value.translate(ATTRIBUTE_ESCAPES)}"' for name, value in element.items()
    )
    if element.text is None and not len(element):
        return f"{line_break}<{element.tag}{attributes}/>"
    if element.text is None:
        text, inner, end = "", line_break and line_break + INDENT, line_break
    else:
        text, inner, end = element.text.translate(TEXT_ESCAPES), "", ""
    children = "".join(element_text(child, inner) for child in element)
    return f"{line_break}<{element.tag}{attributes}>{text}{children}{end}</{element.tag}>"
