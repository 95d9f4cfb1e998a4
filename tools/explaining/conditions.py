"""Conditions and comparisons as they are written in a source."""
from typing import Iterator, List

from reference.checker import bodies
from reference.grammar import Block, Node
from reference.tokens import Pos, Token

from .notes import Place
from .sources import BEHIND_CONDITION, Source


def nodes_in(node: Node) -> Iterator[Node]:
    yield node
    for part, _ in bodies(node):
        yield from nodes_in(part)


def parts_of(tree: list) -> Iterator[Node]:
    """All expressions in the blocks of a tree."""
    for block in tree:
        for use in block.uses if isinstance(block, Block) else []:
            for expression in (block.condition, use.condition, use.body):
                if isinstance(expression, Node):
                    yield from nodes_in(expression)


class Written:
    """What is written of the definitions of a source."""

    def __init__(self, source: Source, tree: list):
        self.source, self.tree = source, tree
        self.blocks = [block for block in tree if isinstance(block, Block)]

    def condition(self, pos: Pos) -> List[Token]:
        """The tokens of the condition of the definition that begins there."""
        tokens = self.source.behind(pos)
        ends = next((k for k, token in enumerate(tokens) if token.kind in BEHIND_CONDITION), len(tokens))
        begins = next((k for k, token in enumerate(tokens[:ends]) if token.kind == 'under condition'), ends)
        return tokens[begins + 1:ends]

    def around(self, pos: Pos, label: str) -> List[Place]:
        """The condition of the block of a definition."""
        block = next((b for b in self.blocks if any(use.pos == pos for use in b.uses)), None)
        return [self.source.place(block.condition.pos, block.condition.end, label)] if block and block.condition else []

    def own(self, pos: Pos, label: str) -> List[Place]:
        tokens = self.condition(pos)
        return [self.source.place(tokens[0].pos, tokens[-1].end, label)] if tokens else []

    def conditions(self, pos: Pos, label: str) -> List[Place]:
        """The condition of a definition, or its name where it has none, and the condition of its block."""
        return [*(self.own(pos, label) or [self.source.without_value(pos, label)]), *self.around(pos, 'holds')]

    def asked(self, pos: Pos, label: str) -> List[Place]:
        """What leaves a definition out: its condition, or that of its block, or the two together."""
        own, around = self.own(pos, label), self.around(pos, label)
        if not own or not around:
            return own or around
        return self.around(pos, '') + self.own(pos, label + ' together with the condition of its block')

    def comparison(self, expr) -> str:
        """A comparison as it is written, by the position of its sign."""
        node = next(node for node in parts_of(self.tree) if node.form == 'binary' and node.parts[1] == expr[2])
        return self.source.text(node.pos, node.end)
