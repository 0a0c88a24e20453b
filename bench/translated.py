"""Offsets of a Java file, as javac has them, in its text as the parser has it."""
import re

ESCAPE = re.compile(r'\\u+([0-9a-fA-F]{4})')


def translated(path):
    """The offsets in bytes of the text with its Unicode escapes translated (JLS 3.3), by offsets of the file in UTF-16 units; None where all are the same."""
    with open(path, encoding='utf-8', newline='') as file:
        text = file.read()
    if text.isascii() and '\\u' not in text:
        return None
    at, units, size, i, slashes = {}, 0, 0, 0, 0
    while i < len(text):
        at[units] = size
        escape = ESCAPE.match(text, i) if text[i] == '\\' and slashes % 2 == 0 else None
        if escape:
            code = int(escape[1], 16)
            low = ESCAPE.match(text, escape.end()) if 0xD800 <= code < 0xDC00 else None
            if low and 0xDC00 <= int(low[1], 16) < 0xE000:
                units, size, i, slashes = units + low.end() - i, size + 4, low.end(), 0
                continue
            units, i, slashes = units + escape.end() - i, escape.end(), 0
        else:
            code, slashes = ord(text[i]), slashes + 1 if text[i] == '\\' else 0
            units, i = units + (2 if code > 0xFFFF else 1), i + 1
        size += 1 if code < 0x80 else 2 if code < 0x800 else 3 if code < 0x10000 else 4
    at[units] = size
    return at
