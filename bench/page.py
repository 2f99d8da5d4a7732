"""The page docs/BENCHMARK.md: where the tables of a script stand in it, and what it says of the machine."""

import platform

from building import TOP

DOCUMENT = TOP / "docs" / "BENCHMARK.md"


def put_into_document(script, text):
    """Puts the text between the two marks of the script."""
    begin, end = f"<!-- what follows is written by bench/{script} -->\n", f"<!-- here ends what bench/{script} writes -->\n"
    head, rest = DOCUMENT.read_text().split(begin)
    DOCUMENT.write_text(head + begin + "\n" + text + "\n" + end + rest.split(end)[1])


def processor():
    with open("/proc/cpuinfo", encoding="ascii", errors="replace") as lines:
        models = [line.split(":", 1)[1].strip() for line in lines if line.startswith("model name")]
    return models[0] if models else "not named"


def machine():
    return f"{platform.machine()}, {processor()}"
