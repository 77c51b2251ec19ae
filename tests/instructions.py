"""Instructions of a run, as valgrind counts them. They do not depend on the load of the machine, on its processor or on
its environment."""
import os
import re

from tests import support

# The C library reads each variable of the environment at its start, which takes about 500 instructions. And it copies memory with
# what the processor offers: here with what every processor offers.
ENVIRONMENT = {"PATH": os.environ["PATH"], "GLIBC_TUNABLES": "glibc.cpu.hwcaps=-AVX2,-ERMS,-AVX_Fast_Unaligned_Load"}


def instructions(words, stdin=b"", timeout=60, status=0):
    """The number of instructions of a command, which has to end with this status: one that ends too soon would count as cheap."""
    counted = ["valgrind", "--tool=cachegrind", "--vgdb=no", "--cache-sim=no", "--cachegrind-out-file=/dev/null", *words]
    done = support.run(counted, stdin=stdin, timeout=timeout, env=ENVIRONMENT)
    found = re.search(rb"I +refs: +([0-9,]+)", done.stderr)
    if not found or done.returncode != status:
        raise RuntimeError(f"status {done.returncode}, and {status} is due\n{done.stderr.decode(errors='replace')}")
    return int(found[1].replace(b",", b""))
