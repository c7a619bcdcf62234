"""The words of the program, as tools/commands.txt has them: what the completions, the manual and the checks go by."""
import os
import re

HERE = os.path.dirname(os.path.abspath(__file__))
SOURCE = f"{HERE}/commands.txt"
NOT_YET = "Not built yet"


class Option:
    """An option of a command: its name, what its value is called (None of a flag), and whether it has to be given."""

    def __init__(self, name, value, needed):
        self.name, self.value, self.needed = name, value, needed

    def __repr__(self):
        return f"{self.name} {self.value} {self.needed}"


class Command:
    """A command: its name, its options, the one line that says what it does, the words behind its name as they stand there."""

    def __init__(self, name, usage, built):
        self.name, self.usage, self.text, self.built = name, usage, "", built

    @property
    def options(self):
        found = []
        for opening, name, value in re.findall(r"([\[(|]?) ?--([a-z-]+)(?: ([A-Z]+))?", self.usage):
            found.append(Option(name, value or None, not opening and not self.is_choice(name)))
        return found

    def is_choice(self, name):
        return any(f"--{name} " in choice for choice in re.findall(r"\([^)]*\)", self.usage))

    @property
    def choices(self):
        """The options of which exactly one is given."""
        return [re.findall(r"--([a-z-]+)", choice) for choice in re.findall(r"\([^)]*\)", self.usage)]


def text():
    with open(SOURCE, encoding="utf-8") as it:
        return it.read()


def blocks():
    """The headings and the lines below each, the two spaces before them taken off."""
    heading, found = "", {}
    for line in text().splitlines():
        if line and not line.startswith(" "):
            heading = line
        elif line.startswith("  ") and not heading.startswith("pcrlock "):
            found.setdefault(heading, []).append(line[2:])
    return found


def commands():
    found = []
    for heading, lines in blocks().items():
        for line in lines:
            if heading.startswith("Options"):
                continue
            if not line.startswith(" "):
                name, _, usage = line.partition(" ")
                found.append(Command(name, usage, not heading.startswith(NOT_YET)))
            elif line.strip().startswith(("[", "(", "--")):
                found[-1].usage += f" {line.strip()}"
            else:
                found[-1].text = line.strip()
    return found


def options():
    """Each option's value, what it says and its default, None where it has none."""
    joined = []
    for line in next(lines for heading, lines in blocks().items() if heading.startswith("Options")):
        if line.startswith(" "):
            joined[-1] += f" {line.strip()}"
        else:
            joined.append(line)
    found = {}
    for line in joined:
        name, value, says, default = re.fullmatch(r"--([a-z-]+)(?: ([A-Z]+))?  +(.*?)(?: \[(.*)\])?", line).groups()
        found[name] = value, says, default
    return found
