#!/usr/bin/env python3
"""Spells the names of crates/ in pages as today's Rattle does: respell_pages.py FILE.., at the top, with the pairs of docs/PORT-NAMES.md.
In running text a name counts only where it cannot be an ordinary word; in backticks and quoted blocks it counts always."""
import re
import sys

TOKEN = re.compile(r"[A-Za-z_][\w'₀-₉′-]*")


def main(argv):
    new = dict(re.findall(r"`([^`]+)` `([^`]+)`", open("docs/PORT-NAMES.md", encoding="utf-8").read()))
    for path in argv:
        text = open(path, encoding="utf-8").read()
        parts = re.split(r"(```.*?```|`[^`\n]*`)", text, flags=re.S)
        for i, part in enumerate(parts):
            is_code = i % 2

            def turned(m):
                word = m.group(0)
                return new.get(word, word) if is_code or re.search(r"[a-z][A-Z]", word) else word

            parts[i] = TOKEN.sub(turned, part)
        out = "".join(parts)
        if out != text:
            open(path, "w", encoding="utf-8").write(out)
    return 0


if __name__ == "__main__":
    sys.exit(main(sys.argv[1:]))
