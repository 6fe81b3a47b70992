"""Starts a program of this package, or says in a sentence which of Debian's packages it wants."""

import importlib
import importlib.util
import sys


def start(program: str, module: str, *needed: str) -> int:
    """The status of a module's `main`; 2 where a module that isn't Python's own is missing. The program needs some of these."""
    try:
        status: int = importlib.import_module(f"{__package__}.{module}").main(sys.argv[1:])
        return status
    except ModuleNotFoundError as fault:
        missing = (fault.name or "").partition(".")[0]
        if missing in ("", __package__):
            raise
        packages = dict.fromkeys([missing, *(it for it in needed if not importlib.util.find_spec(it))])
        print(f"{program}: {sys.executable} has no module {missing}; on Debian `apt-get install "
              f"{' '.join(f'python3-{it}' for it in packages)}` brings what is missing (docs/SERVICE.md)", file=sys.stderr)
        return 2
