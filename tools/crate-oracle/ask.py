"""Asks the built oracle. ORACLE in the environment may name another one."""
import os
import subprocess
import sys

HERE = os.path.dirname(os.path.abspath(__file__))
ORACLE = os.environ.get("ORACLE", os.path.join(HERE, "build", "scale-oracle"))
sys.path.insert(0, os.path.join(HERE, "..", "model"))      # hrv and the model, for the scripts beside this one


def there():
    """Says what to do if there is no oracle."""
    if not os.path.exists(ORACLE):
        sys.exit(f"{ORACLE} isn't there: run build.sh first")


slow = {}                       # answers about units: 2^32 of them take the crate seconds


def ask(requests):
    """An answer for each request, in order. Equal requests are asked once: many cases share one."""
    distinct = [q for q in dict.fromkeys(requests) if q not in slow]
    run = subprocess.run([ORACLE], input="".join(q + "\n" for q in distinct), capture_output=True, text=True)
    answers = run.stdout.split("\n")[:-1]
    if run.returncode or len(answers) != len(distinct):
        raise OSError(f"the oracle ended early ({run.returncode}) {run.stderr[-500:]}")
    known = dict(zip(distinct, answers))
    slow.update((q, a) for q, a in known.items() if "units" in q)
    return [slow[q] if q in slow else known[q] for q in requests]
