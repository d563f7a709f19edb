"""What is wrong with an input, as it is reported to who typed the command."""


class Fault(Exception):
    """An input that can't be taken: its text is reported on one line of standard error, and the status is 1.

    `source` names the file or the word that is wrong; a text without one stands for itself.
    """

    def __init__(self, text, source=None):
        super().__init__(text if source is None else f"{source}: {text}")
