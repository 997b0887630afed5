"""Runs a lister, a command that reads a bundle on standard input and prints its listing."""
import subprocess


def run(command, path, limit):
    """What a lister prints for a stored bundle, what it says beside, and what went wrong, if anything did."""
    with open(path, "rb") as bundle:
        try:
            done = subprocess.run(command, stdin=bundle, capture_output=True, timeout=limit)
        except subprocess.TimeoutExpired:
            return b"", "", "over %g seconds" % limit
    said = done.stderr.decode(errors="replace").strip()
    fault = None
    if done.returncode < 0:
        fault = "signal %d" % -done.returncode
    elif done.returncode in (70, 101):
        fault = "status %d: %s" % (done.returncode, said.split("\n")[0])
    elif not done.stdout:
        fault = "prints nothing"
    return done.stdout, said, fault
