"""A script and its replies, read from their files."""


class Line:
    """One line of a script: its number from 1 on, its text, and its reply, which is None where it has none."""

    def __init__(self, number, text):
        self.number = number
        self.text = text
        self.reply = None

    def has_reply(self):
        """Tells whether the language gives this line a reply: all but empty lines and comments have one."""
        return self.text != "" and not self.text.startswith("#")


class Mismatch(Exception):
    """Script and replies do not belong together."""


def lines_of(data):
    """Cuts bytes into texts at each newline; what is behind the last one is a line unless it is empty."""
    texts = data.decode("utf-8", "replace").split("\n")
    return texts[:-1] if texts[-1] == "" else texts


def paired(script, replies):
    """Returns the lines of a script, each with its reply. Lines that a run which ended early did not answer have none."""
    lines = [Line(number, text) for number, text in enumerate(lines_of(script), 1)]
    texts = lines_of(replies)
    if len(texts) == 1 and (texts[0].startswith("bad image at ") or texts[0] == "worn image"):
        raise Mismatch(f"the program answered no line: {texts[0]}")
    answered = [line for line in lines if line.has_reply()]
    for line, text in zip(answered, texts):
        line.reply = text
    if len(texts) > len(answered):
        raise Mismatch(f"the script has {len(answered)} lines with a reply, and there are {len(texts)} replies")
    return lines


def read(script, replies):
    """Returns the lines of the script in one file, each with its reply in the other."""
    with open(script, "rb") as file:
        text = file.read()
    with open(replies, "rb") as file:
        return paired(text, file.read())
