# usage: sh script/cost.sh PROGRAM WORD..
#
# Called by ./mate for `cost`. Runs the program, then prints to standard error its processor time and its peak memory, and ends with its status.
# A shell that has the program as its only child becomes the Python that is told what its children took, so that what Python takes itself is
# not in it.

# python3 may be a script that starts others.
python=$(python3 -c 'import sys; print(sys.executable)' </dev/null)
(
    (
        trap '' XFSZ
        exec "$@"
    )
    exec "$python" -c '
import os, resource, sys
taken = resource.getrusage(resource.RUSAGE_CHILDREN)
line = "mate: %.2f s of processor time, at most %.1f MB of memory\n" % (
    taken.ru_utime + taken.ru_stime, taken.ru_maxrss * 1024 / 1e6)
try:
    # At a terminal the line may have a sign of life, which this one replaces.
    os.write(2, (("\r\033[K" if os.isatty(2) else "") + line).encode())
finally:
    os._exit(int(sys.argv[1]))
' $?
)
