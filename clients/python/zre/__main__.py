"""`python3 -m zre node`, `hub` and `talk`; also the commands zre-node, zre-hub and zre-talk."""
import sys
from typing import Callable, List, Optional

from .options import ToolError, report
from .session import NodeDied
from .settings import NoProgram

USAGE = """usage: python3 -m zre node [OPTION]...          a node in a terminal or under a script
       python3 -m zre hub SOCKET [OPTION]...    a node for programs that come and go
       python3 -m zre talk [OPTION]...          a node for a person
Each tells its options with --help."""


def _run(main: Callable[[List[str]], int], words: List[str]) -> int:
    try:
        return main(words)
    except ToolError as why:
        report(str(why))
        return why.status
    except NoProgram as why:
        report(str(why))
        return 2
    except NodeDied as why:
        report(why.error[5:] if why.error.startswith("zre: ") else str(why))
        return why.status if why.status > 0 else 128 - why.status


def node(words: Optional[List[str]] = None) -> int:
    from .launcher import main

    return _run(main, sys.argv[1:] if words is None else words)


def hub(words: Optional[List[str]] = None) -> int:
    from .hub import main

    return _run(main, sys.argv[1:] if words is None else words)


def talk(words: Optional[List[str]] = None) -> int:
    from .talk import main

    return _run(main, sys.argv[1:] if words is None else words)


def main() -> int:
    tools = {"node": node, "hub": hub, "talk": talk}
    if len(sys.argv) > 1 and sys.argv[1] in tools:
        return tools[sys.argv[1]](sys.argv[2:])
    asked = sys.argv[1:2] in (["--help"], ["-h"], ["help"])
    print(USAGE, file=sys.stdout if asked else sys.stderr)
    return 0 if asked else 2


if __name__ == "__main__":
    sys.exit(main())
