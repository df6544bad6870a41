"""How the tools are asked what they do: `--help` prints the usage and ends with status 0 before anything else is looked at; a call that is not of the usage's form
gets it on standard error, with status 2."""
import signal, sys


def asked(text):
    """Ends the run where the first word asks for help."""
    if sys.argv[1:2] in (["--help"], ["-h"]):
        signal.signal(signal.SIGPIPE, signal.SIG_DFL)  # where nobody reads on
        print(text)
        sys.exit(0)


def wrong(text):
    print(text, file=sys.stderr)
    sys.exit(2)
