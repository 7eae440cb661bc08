"""Refutations: the branch that is open, and each rule line as a function.

A rule's function has the words of its line. Where what it needs is not so, the line breaks the rules. Else it returns
the branches that it leaves, if any, each as the facts that it adds: `("in", concept, node)`, `("edge", role, node,
node)`, `("same", True, node, node)`, `("apart", True, node, node)`, and `("new", first, node)`, a node that is apart
from all others that come with the same first one.
"""
from collections import defaultdict

from checker.concepts import BOTTOM, TOP, Roles
from checker.syntax import Fault, ascend, need

END_OF_NODES, NOTHING = 4_294_967_296, frozenset()


class Branch:
    """The facts of the open branch. Nodes that are the same have one representative. What is added can be undone."""

    def __init__(self):
        self.representative, self.said, self.facts, self.undone_by = {}, defaultdict(set), defaultdict(set), []

    def representatives(self, *nodes):
        return [self.representative.get(it, it) for it in nodes]

    def get(self, kind, *nodes):
        """What facts of a kind say of these nodes."""
        return self.said.get((kind, *self.representatives(*nodes)), NOTHING)

    def put(self, items, item):
        if item not in items:
            items.add(item)
            self.undone_by.append((items.discard, item))

    def add(self, kind, what, *nodes):
        """Adds a fact of nodes. It is kept by its kind and nodes, and under each node."""
        if kind == "same":
            return self.join(*nodes)
        nodes = self.representatives(*nodes)
        self.put(self.said[(kind, *nodes)], what)
        for node in nodes:
            self.put(self.facts[node], (kind, what, *nodes))

    def join(self, *nodes):
        """Joins two nodes: what is said of the one of which less is said is said of the other one too."""
        gone, kept = sorted(self.representatives(*nodes), key=lambda it: len(self.facts[it]))
        if gone == kept:
            return
        if self.are_apart(gone, kept):
            self.add("apart", True, gone, kept)
        for node in (gone, *self.get("is", gone)):
            self.undone_by.append((self.representative.update, {node: gone}))
            self.representative[node] = kept
            self.add("is", node, kept)
        for fact in [*self.facts[gone]]:
            self.add(*fact)

    def begin(self, length, facts):
        """Takes back what was added since so much was, and adds the facts with which a branch begins."""
        while len(self.undone_by) > length:
            call, item = self.undone_by.pop()
            call(item)
        for fact in facts:
            self.add(*fact)

    def are_apart(self, one, other):
        """Whether two nodes are said to be apart, or came with the same first one and are not the same."""
        one, other = self.representatives(one, other)
        is_said = self.get("apart", one, other) or self.get("apart", other, one)
        return is_said or one != other and not self.get("new", one).isdisjoint(self.get("new", other))


class Refutation:
    """The axioms that a refutation names, its rule lines as line, rule and words, and its last line."""

    def __init__(self, reader, axioms, lines, end):
        self.concepts, self.individuals = reader.concepts, len(reader.names["individuals"])
        self.axioms, self.lines, self.end = {it: reader.axioms[it - 1] for it in axioms}, lines, end

    def fault(self, query):
        """The first rule line that breaks the rules, or the end where a branch is left open, or None."""
        self.query, self.roles, self.rows, self.branch = query, Roles(self.axioms.values()), {}, Branch()
        waiting = [(0, [])]  # the branches that wait: how much was added before, and what they begin with
        for line, name, words in self.lines:
            try:
                need(waiting)
                self.branch.begin(*waiting.pop())
                left = getattr(self, f"rule_{name}")(*words) or []
            except Fault:
                return f"line {line}"
            waiting += [(len(self.branch.undone_by), it) for it in reversed(left)]
        return f"line {self.end}" if waiting else None

    def known(self, *nodes):
        need(all(self.branch.get("new", it) for it in nodes))

    def new(self, *nodes):
        need(nodes[-1] < END_OF_NODES and not any(self.branch.get("new", it) for it in nodes))

    def is_in(self, node, concept):
        self.known(node)
        need(concept == TOP or concept in self.branch.get("in", node))

    def is_in_a(self, kind, node, concept):
        """The node is in the concept, which is of this kind; returns what stands in it."""
        self.is_in(node, concept)
        need(self.concepts.shapes[concept][0] == kind)
        return self.concepts.shapes[concept][1:]

    def edge(self, one, other, role):
        """An edge of a role below this one leads from one node to the other."""
        self.known(one, other)
        need(any(role in self.roles.above(it) for it in self.branch.get("edge", one, other)))

    def said(self, number, place, *kinds):
        """What a named axiom of one of these kinds says at a place, from 1, behind its kind."""
        axiom = self.axioms.get(number)
        need(axiom and axiom.kind in kinds and 1 <= place <= len(axiom.said))
        return (axiom.kind, *axiom.said[place - 1])

    def rule_start(self):
        """It is the first rule line. There are nodes for all individuals and one more; the node in question is in the
        left class of the query, and in the complement of the right one."""
        self.new(0)
        ((one, other),) = self.query.said
        left, right, node = (TOP, one, other) if self.query.kind == "in" else (one, other, self.individuals)
        nodes = [("new", it, it) for it in range(self.individuals + 1)]
        return [[*nodes, ("in", left, node), ("in", right ^ 1, node)]]

    def rule_fact(self, number, place):
        """A named axiom is an assertion with so many facts. It adds the fact of this place."""
        self.known(0)
        return [[self.said(number, place, "in", "edge", "same", "apart")]]

    def rule_and(self, node, concept):
        """The node is in an intersection. It is in each of its parts."""
        return [[("in", part, node) for part in self.is_in_a("and", node, concept)]]

    def rule_or(self, node, concept):
        """The node is in a union. There is a branch for each part, in which it is in that."""
        return [[("in", part, node)] for part in self.is_in_a("or", node, concept)]

    def rule_all(self, node, other, concept):
        """The node is in 'all R I', and an edge below R leads to the other, which is in I."""
        role, filler = self.is_in_a("all", node, concept)
        self.edge(node, other, role)
        return [[("in", filler, other)]]

    def rule_carry(self, node, other, through, concept):
        """The node is in 'all R I'; a named axiom makes a role transitive, which is below R; an edge below that role
        leads to the other, which is in 'all I' over that role."""
        role, filler = self.is_in_a("all", node, concept)
        need(through in self.roles.transitive and role in self.roles.above(through))
        self.edge(node, other, through)
        return [[("in", self.concepts.number(("all", through, filler)), other)]]

    def rule_row(self, node, number, place, *positions):
        """The node is in the names at these positions, which ascend, of the left side of a part that is an inclusion,
        of a named axiom. It is in the right side, or outside of one of the other conjuncts."""
        self.known(node)
        _, left, right = self.said(number, place, "part")
        conjuncts = self.concepts.conjuncts(left)
        need(ascend([0, *positions, len(conjuncts) + 1]))
        for position in positions:
            self.is_in_a("name", node, conjuncts[position - 1])
        key = (number, place, positions)
        if key not in self.rows:
            left_out = set(positions)
            others = [it ^ 1 for at, it in enumerate(conjuncts, 1) if at not in left_out]
            self.rows[key] = self.concepts.union(*others, right)
        return [[("in", self.rows[key], node)]]

    def rule_range(self, node, other, number):
        """A named axiom is the range of R, and an edge below R leads to the other, which is in the class of it."""
        _, role, filler = self.said(number, 1, "range")
        self.edge(node, other, role)
        return [[("in", filler, other)]]

    def rule_some(self, node, new, concept):
        """The node is in 'some R I'. An edge of R leads to a new node, which is in I."""
        role, filler = self.is_in_a("some", node, concept)
        self.new(new)
        return [[("new", new, new), ("edge", role, node, new), ("in", filler, new)]]

    def rule_least(self, node, new, concept):
        """The node is in 'least N R I'. Edges of R lead to N new nodes, which are in I and apart."""
        count, role, filler = self.is_in_a("least", node, concept)
        nodes = range(new, new + count)
        self.new(*nodes)
        return [[it for at in nodes for it in (("new", new, at), ("edge", role, node, at), ("in", filler, at))]]

    def rule_choose(self, node, concept):
        """In one branch the node is in the concept, and in the other it is in its complement."""
        self.known(node)
        return [[("in", concept, node)], [("in", concept ^ 1, node)]]

    def rule_pair(self, *both):
        """In one branch the nodes are the same, and in the other they are apart."""
        self.known(*both)
        return [[("same", True, *both)], [("apart", True, *both)]]

    def rule_differ(self, one, other):
        """The nodes are apart, and they are the same."""
        self.known(one, other)
        one, other = self.branch.representatives(one, other)
        need(one == other and self.branch.are_apart(one, other))

    def rule_bottom(self, node):
        """The node is in `bottom`."""
        self.is_in(node, BOTTOM)

    def rule_clash(self, node, concept):
        """The node is in a name and in its complement."""
        self.is_in_a("name", node, concept)
        self.is_in(node, concept ^ 1)

    def rule_most(self, node, concept, *others):
        """The node is in 'most N R I'; N + 1 nodes, pairwise apart, are in I and at the end of an edge below R."""
        count, role, filler = self.is_in_a("most", node, concept)
        need(len(others) == count + 1)
        for at, other in enumerate(others):
            self.edge(node, other, role)
            self.is_in(other, filler)
            need(all(self.branch.are_apart(it, other) for it in others[:at]))
