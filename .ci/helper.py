"""What the checks share: the built program, and how to leave a check out."""
import os
import pathlib
import subprocess
import sys

TOP = pathlib.Path(__file__).resolve().parent.parent
LEFT_OUT = 77


def program(name="tensors"):
    """The built program; TENSORS names another one that answers the same requests."""
    given = os.environ.get("TENSORS") if name == "tensors" else None
    made = pathlib.Path(given) if given else TOP / "crates" / name / "out" / name
    if not made.is_file():
        leave_out(f"the program {name} isn't built")
    return str(made)


def leave_out(why):
    """Ends the check as left out."""
    print(f"left out: {why}")
    sys.exit(LEFT_OUT)


def ask(lines, name="tensors"):
    """The program's status and its output lines for these request lines."""
    ran = subprocess.run([program(name)], input="".join(f"{it}\n" for it in lines).encode(), capture_output=True, check=False)
    return ran.returncode, ran.stdout.decode().splitlines()
