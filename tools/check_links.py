"""Checks of README.md and the pages: what README shows is what is written, and every link leads somewhere."""
import pathlib
import re

ROOT = pathlib.Path(__file__).resolve().parent.parent
LINK = re.compile(r"\]\(([^)\s]*)\)")


def anchors(page):
    """The anchors of a page's headings, as they are made from their words."""
    heads = re.findall(r"^#+ (.*)$", page.read_text(encoding="utf-8"), re.M)
    return {re.sub(r"[^\w\- ]", "", head.lower()).replace(" ", "-") for head in heads}


def leads_nowhere(page, link):
    """Whether a link of a page, to a file or to a heading, has nothing at its end."""
    name, _, anchor = link.partition("#")
    target = page.parent / name if name else page
    return not target.exists() or bool(anchor) and anchor not in anchors(target)


def all_links(found):
    readme = (ROOT / "README.md").read_text(encoding="utf-8")
    for suffix in ("transcript", "table"):
        found.hold(f"README.md shows section 7's {suffix}", (ROOT / f"examples/section7.{suffix}").read_text() in readme)
    for page in [ROOT / "README.md", ROOT / "oracle/README.md", *sorted((ROOT / "docs").glob("*.md"))]:
        bad = [link for link in LINK.findall(page.read_text(encoding="utf-8")) if leads_nowhere(page, link)]
        found.hold(f"every link of {page.relative_to(ROOT)} leads somewhere", not bad, ", ".join(bad))
