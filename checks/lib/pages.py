"""What the checks of README.md and docs/ share."""
import re
from pathlib import Path

ROOT = Path(__file__).resolve().parents[2]


def read(path):
    return (ROOT / path).read_text(encoding="utf-8")


def found(pattern):
    """The paths below the repository's top of a pattern, in order."""
    return sorted(str(path.relative_to(ROOT)) for path in ROOT.glob(pattern))


def alone(told, there):
    """What only one of two sets has."""
    return [f"{one} is in one alone" for one in sorted(told ^ there)]


def tell(name, faults, seen):
    print(f"failed docs {name}: {'; '.join(faults)}" if faults else f"passed docs {name}: {seen}")


CRATES = re.findall(r"^([^#\s:]+)", read("crates.txt"), re.M)
PAGES = ["README.md", *found("docs/*.md")]
