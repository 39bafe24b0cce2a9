"""How a program is run on a script."""
import os
import subprocess

SECONDS = 60


def run(program, script, text):
    """The status, the output and the errors of one run, or none where it has not ended in time."""
    stdin = os.open("/", os.O_RDONLY) if script.folder else subprocess.PIPE
    stdout = os.open("/dev/full", os.O_WRONLY) if script.full else subprocess.PIPE
    try:
        ran = subprocess.Popen(program + script.args, stdin=stdin, stdout=stdout, stderr=subprocess.PIPE)
        try:
            out, err = ran.communicate(None if script.folder else text, timeout=SECONDS)
        except subprocess.TimeoutExpired:
            ran.kill()
            ran.communicate()
            return None
    finally:
        for file in (stdin, stdout):
            if file != subprocess.PIPE:
                os.close(file)
    return ran.returncode, out or b"", err
