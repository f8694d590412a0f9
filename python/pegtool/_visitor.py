"""Visitors: values for the nodes of a match, from the leaves up."""

from __future__ import annotations

import types
from typing import Any, Callable, FrozenSet, Iterable, Iterator, List, Optional, Union

from ._errors import NoSuchRuleError, PegError, VisitError
from ._grammar import Grammar
from ._match import Match, Node


class Visitor:
    """Computes a value for each node, the children first.

    A subclass has a method `visit_RULE(self, node, values)` for each rule that it treats; `values` are the values of
    the node's children, in order. Other nodes go to `generic_visit`.

    >>> from pegtool import Grammar
    >>> class Evaluate(Visitor):
    ...     def visit_Sum(self, node, values):
    ...         return sum(values)
    ...     def visit_Number(self, node, values):
    ...         return int(node.text)
    >>> match = Grammar("Sum <- Number ('+' Number)*  Number <- [0-9]+").parse("1+22")
    >>> Evaluate().visit(match)
    23

    `hide` has names of rules whose nodes have no value. The values of their children take their place.

    Trees of any depth can be visited: the calls aren't nested.
    """

    # The names of the rules whose nodes have no value.
    hide: Iterable[str] = ()

    def visit(self, of: Union[Match[Any], Node[Any]]) -> Any:
        """The value of a node, or of a match's root, also if its rule is hidden.

        Raises `NoSuchRuleError` if a method `visit_RULE` or a name of `hide` fits no rule. If a method raises an error
        of this package, such as `node.error(..)`, that is passed on. Any other exception is the cause of a
        `VisitError`, which has the node's line and rule.
        """
        root = of.root if isinstance(of, Match) else of
        grammar = root.match.grammar
        self._check(grammar)
        hidden = grammar.known_rules(self.hide, "hide")
        # The nodes that are open, with the numbers after their subtrees and the values of their children so far.
        open_nodes: List[Node[Any]] = []
        ends: List[int] = []
        values: List[List[Any]] = [[]]
        for node in root.walk():
            while ends and ends[-1] <= node.number:
                self._close(open_nodes, ends, values, hidden)
            open_nodes.append(node)
            ends.append(node.number + node.size)
            values.append([])
        while ends:
            self._close(open_nodes, ends, values, hidden)
        return values[0][0]

    def _close(
        self, open_nodes: List[Node[Any]], ends: List[int], values: List[List[Any]], hidden: FrozenSet[str]
    ) -> None:
        node, of_children = open_nodes.pop(), values.pop()
        ends.pop()
        if open_nodes and node.rule in hidden:
            values[-1].extend(of_children)
        else:
            values[-1].append(self._value(node, of_children))

    def _value(self, node: Node[Any], values: List[Any]) -> Any:
        """The value of a node, by its method."""
        method = getattr(self, f"visit_{node.rule}", self.generic_visit)
        try:
            return method(node, values)
        except PegError:
            raise
        except Exception as error:
            raise visit_error(node, error) from error

    def _check(self, grammar: Grammar) -> None:
        """Raises `NoSuchRuleError` if a method fits no rule."""
        for name in self._names():
            if name.removeprefix("visit_") not in grammar.rules:
                raise NoSuchRuleError(f"{type(self).__name__}.{name} fits no rule")

    def _names(self) -> Iterator[str]:
        """The names of the methods that must fit rules."""
        return (name for name in dir(self) if name.startswith("visit_"))

    def generic_visit(self, node: Node[Any], values: List[Any]) -> Any:
        """The value of a node whose rule has no method: its text if nodes of the rule never have children, and the list
        of its children's values otherwise. Nodes of hidden rules don't count as children, if they have none that aren't
        hidden."""
        match = node.match
        is_leaf = match.grammar.is_leaf(node.rule, match.hidden.union(self.hide))
        return node.text if is_leaf else values

    def only(self, node: Node[Any], values: List[Any]) -> Any:
        """The value of the only child. `visit_Group = Visitor.only` passes a child's value on."""
        if len(values) != 1:
            raise ValueError(f"one value was expected, and there are {len(values)}")
        return values[0]


class Transformer(Visitor):
    """Computes a value for each node by a function that has the name of its rule.

    >>> from pegtool import Grammar
    >>> class Calculate(Transformer):
    ...     Number = int
    ...     def Sum(self, values):
    ...         return sum(values)
    >>> match = Grammar("Sum <- Number ('+' Number)*  Number <- [0-9]+").parse("1+22")
    >>> Calculate().visit(match)
    23

    The function of a rule whose nodes never have children takes the text of the node. The function of any other rule
    takes the list of the children's values. A class, a built-in function or a method such as `str.strip` can be given
    as it is; a function that is written in Python is a method, and takes `self` first. A node without a function has
    what its function would take as its value.

    A method `visit_RULE(self, node, values)` takes the node, too, and goes before the function. `hide` is that of
    `Visitor`. What a transformer has besides begins with an underscore: any other method must fit a rule. A rule whose
    name a `Transformer` has itself, such as `visit`, can only have a method `visit_RULE`.
    """

    def generic_visit(self, node: Node[Any], values: List[Any]) -> Any:
        """The value of a node by the function of its rule, if there is one."""
        value = super().generic_visit(node, values)
        function = self._function(node.rule)
        return value if function is None else function(value)

    def _function(self, rule: str) -> Optional[Callable[[Any], Any]]:
        """The function of a rule, if it has one. A method of a built-in class, such as `str.strip`, takes the text
        alone."""
        if hasattr(Transformer, rule):
            return None
        given = getattr(type(self), rule, None)
        return given if isinstance(given, types.MethodDescriptorType) else getattr(self, rule, None)

    def _names(self) -> Iterator[str]:
        kind = type(self)
        functions = (name for name in dir(kind) if not name.startswith("_") and callable(getattr(kind, name)))
        return (name for name in functions if not hasattr(Transformer, name))


def visit_error(node: Node[Any], error: Exception) -> VisitError:
    """The error at a node whose method raised an exception."""
    match = node.match
    message = f"in the visit of {node!r}: {type(error).__name__}: {error}"
    return VisitError(message, match._text, node.byte_start, match.name, node.rule)
