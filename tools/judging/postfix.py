"""Trees in postfix order, parts first: rules and chapters share it."""

from typing import NamedTuple

from document01 import arity


class Span(NamedTuple):
    """A word's subtree: where it begins, and its height, a lone word having 1."""
    start: int
    height: int


def pop(stack, count):
    """Takes the last values from a stack, in their order."""
    parts = stack[len(stack) - count:]
    del stack[len(stack) - count:]
    return parts


def one_tree(alphabet, words):
    depth = 0
    for word in words:
        if arity(alphabet, word) > depth:
            return False
        depth += 1 - arity(alphabet, word)
    return depth == 1


def spans_of(alphabet, words):
    """Each word's subtree."""
    stack, spans = [], []
    for index, word in enumerate(words):
        children = pop(stack, arity(alphabet, word))
        start = children[0].start if children else index
        stack.append(Span(start, 1 + max((child.height for child in children), default=0)))
        spans.append(stack[-1])
    return spans


def splice(alphabet, words, index, replacement):
    """The words in which a replacement has the place of one word's subtree, and where it begins."""
    start = spans_of(alphabet, words)[index].start
    return words[:start] + replacement + words[index + 1:], start
