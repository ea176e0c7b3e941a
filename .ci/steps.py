"""What the steps of .ci/after in Python have in common. A step begins with

    sys.path.insert(0, str(pathlib.Path(__file__).resolve().parents[1]))
    from steps import Step, top

and makes a Step with its name: that counts what is held and what is wrong, runs commands, and ends the step. This file runs nothing by itself."""
import pathlib
import subprocess
import sys

top = pathlib.Path(__file__).resolve().parents[1]


def programs():
    """The proved programs for this processor by their names, built first where a source is newer."""
    made = subprocess.run([top / "tools/programs"], stdin=subprocess.DEVNULL, stdout=subprocess.PIPE, check=True, text=True, timeout=3600)
    return {pathlib.Path(line).name: line for line in made.stdout.splitlines()}


class Step:
    def __init__(self, name, seconds=600):
        """Its name stands in front of what it tells; a command that it runs may take so many seconds."""
        self.name, self.seconds = name, seconds
        self.held = self.wrong = 0

    def run(self, words, **more):
        """A command with no input, its two outputs kept; `more` says otherwise, as subprocess.run does."""
        kept = {"stdout": subprocess.PIPE, "stderr": subprocess.PIPE, "timeout": self.seconds}
        if "input" not in more:
            kept["stdin"] = subprocess.DEVNULL
        return subprocess.run(words, **{**kept, **more})

    def fault(self, *told):
        """Something that is wrong, told as it is."""
        self.wrong += 1
        print(*told, sep="\n    ")

    def hold(self, what, there, *told):
        """Something that must be there; where it is not, `what` is wrong."""
        self.held += 1
        if not there:
            self.fault(f"{self.name}: {what}", *told)

    def give_up(self, what, answer=None):
        """Ends red at once, with the end of what a command printed."""
        if answer is not None:
            print(*(answer.stdout + answer.stderr).decode(errors="replace").splitlines()[-60:], sep="\n")
        print(f"{self.name}: {what}")
        sys.exit(1)

    def close(self, told, also=True):
        """The step's last line: red where something was wrong, or where this is not so."""
        print(f"{self.name}: {told}")
        sys.exit(0 if also and not self.wrong else 1)
