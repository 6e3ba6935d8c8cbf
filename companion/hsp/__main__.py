import signal

# Until hsp.cli answers signals, Ctrl-C ends hsp without a traceback. Where it is ignored it stays so.
if signal.getsignal(signal.SIGINT) == signal.default_int_handler:
    signal.signal(signal.SIGINT, signal.SIG_DFL)

from hsp.cli import main  # noqa: E402

main(prog_name="hsp")
