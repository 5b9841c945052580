"""The recipes of docs/READING.md. In its blocks of shell a comment `# name: what it does` after a command names that command; a block whose
first line is such a comment is a recipe as a whole."""
import os
import re
import shutil
import subprocess

SECONDS = 60
NAMED = re.compile(r"(?:^|\s)# ([a-z]+(?:-[a-z]+)*): ")


class Page:
    """The recipes by name, and the rows of the tables of messages."""

    def __init__(self, name):
        self.folder = os.path.dirname(name)
        with open(name, encoding="utf-8") as it:
            text = it.read()
        self.recipes = {}
        for block in re.findall(r"^```sh\n(.*?)^```", text, re.S | re.M):
            self._take(block)
        lines = text.partition("# A gallery\n")[0].splitlines()
        self.rows = [line for line in lines if line.startswith("| ") and not line.startswith("| Message")]
        self.prose = "\n".join(line for line in lines if not line.startswith("|"))
        self.steps = self.prose.partition("## What to do first\n")[2].partition("\n## ")[0]
        self.lists = re.findall(r"^\*\*(`.*?)\*\*(.*?)(?:\n\n|\Z)", self.prose, re.S | re.M)
        self.used = set()

    def _take(self, block):
        lines = block.splitlines()
        whole = re.match(r"# ([a-z-]+): ", block)
        if whole:
            self.recipes[whole[1]] = block
            return
        command = ""
        for line in lines:
            command += line + "\n"
            named = NAMED.search(line)
            if named:
                self.recipes[named[1]] = command
            if named or not line.endswith(("\\", "|", "&&")):
                command = ""

    def recipe(self, name):
        self.used.add(name)
        return self.recipes[name]

    def run(self, recipes, variables, place, first=""):
        """Runs recipes in one shell, after `first`, the page's functions are read, and those variables are set."""
        shutil.copy(f"{self.folder}/rescue.sh", place)
        script = [first, self.recipe("setup"), *[f"{name}='{value}'\n" for name, value in variables.items()]]
        script += [self.recipe(name) for name in recipes.split()]
        return subprocess.run(["sh", "-c", "".join(script)], cwd=place, capture_output=True, timeout=SECONDS, check=False)

    def rows_of(self, kind):
        """The rows of a message: those whose first column has its words, in their order; and the lists below the tables whose head has."""
        words = [rf"(?<![\w/.'-]){re.escape(word)}(?![\w/.'-])" for word in re.findall(r"[^\s,:]+", kind.replace(", CANNOT FIX", ""))]
        rows = [row for row in self.rows if re.search(".*?".join(words), row.split(" | ")[0])]
        if "CANNOT FIX" in kind:
            rows += [row for row in self.rows if "CANNOT FIX" in row.split(" | ")[0]]
        if not rows:
            raise KeyError(f"no row of READING has {kind}")
        return rows + [text for head, text in self.lists if re.search(".*?".join(words), head)]
