"""All faults of the sheets, each a sentence with its place."""

from typing import List

from ..faults import Fault


class Faults(Fault):
    """Why sheets can't be made into a deck: one sentence for each fault, with its file, row and column."""

    def __init__(self, sentences: List[str]) -> None:
        super().__init__("\n".join(sentences))
        self.sentences = sentences


class Judge:
    """Collects faults, and raises them together."""

    def __init__(self) -> None:
        self.sentences: List[str] = []

    def fault(self, place: str, sentence: str) -> None:
        """Notes a fault at a place, once."""
        whole = f"{place}: {sentence}" if place else sentence
        if whole not in self.sentences:
            self.sentences.append(whole)

    def raise_faults(self) -> None:
        """Raises all faults that were noted, if any was."""
        if self.sentences:
            raise Faults(self.sentences)
