"""The Cargo crate of rust/, which a script derives from the sources."""
import re
import subprocess
import sys


def derive(repository, *words):
    """What rust/derive.py says is stale or fits no rule: file, line and words."""
    script = repository.top / "rust" / "derive.py"
    if not script.is_file():
        return
    ran = subprocess.run([sys.executable, script, *words], capture_output=True, text=True)
    faults = re.findall(r"^([\w/.]+):(\d+): (.*)$", ran.stdout + ran.stderr, re.M)
    yield from ((repository.top / path, int(line), said) for path, line, said in faults)
    if ran.returncode and not faults:
        yield script, 1, f"ends with status {ran.returncode}"
