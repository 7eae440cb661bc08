package jezundwa.owlapi;

import java.util.ArrayDeque;
import java.util.Collection;
import java.util.Collections;
import java.util.Deque;
import java.util.HashMap;
import java.util.LinkedHashMap;
import java.util.LinkedHashSet;
import java.util.Map;
import java.util.Set;
import java.util.function.Function;
import org.semanticweb.owlapi.model.OWLObject;
import org.semanticweb.owlapi.reasoner.Node;

/** Nodes of equal things, from a top node to a bottom node, each with those directly above it. */
final class Hierarchy<E extends OWLObject> {
    private final Node<E> top;
    private final Node<E> bottom;
    private final Map<E, Node<E>> nodes = new HashMap<>();
    private final Map<Node<E>, Set<Node<E>>> parents = new LinkedHashMap<>();
    private final Map<Node<E>, Set<Node<E>>> children = new LinkedHashMap<>();

    Hierarchy(Node<E> top, Node<E> bottom) {
        this.top = top;
        this.bottom = bottom;
        add(top);
        add(bottom);
    }

    /** A node that is not linked to any other one yet. */
    void add(Node<E> node) {
        node.forEach(member -> nodes.put(member, node));
        parents.putIfAbsent(node, new LinkedHashSet<>());
        children.putIfAbsent(node, new LinkedHashSet<>());
    }

    void link(Node<E> child, Node<E> parent) {
        parents.get(child).add(parent);
        children.get(parent).add(child);
    }

    /** Links what has nothing above it to the top, and what has nothing below it to the bottom. */
    void close() {
        for (Node<E> node : parents.keySet()) {
            if (!node.equals(top) && !node.equals(bottom) && parents.get(node).isEmpty()) {
                link(node, top);
            }
        }
        for (Node<E> node : children.keySet()) {
            if (!node.equals(bottom) && children.get(node).isEmpty() && !top.equals(bottom)) {
                link(bottom, node);
            }
        }
    }

    /** Takes a node out; what is below it is then below what is above it. */
    void remove(Node<E> node) {
        Set<Node<E>> above = parents.remove(node);
        Set<Node<E>> below = children.remove(node);
        node.forEach(nodes::remove);
        above.forEach(parent -> children.get(parent).remove(node));
        below.forEach(child -> parents.get(child).remove(node));
        for (Node<E> child : below) {
            Set<Node<E>> reached = reached(Set.of(child), this::parents);
            above.stream().filter(parent -> !reached.contains(parent)).forEach(parent -> link(child, parent));
        }
    }

    Node<E> top() {
        return top;
    }

    Node<E> bottom() {
        return bottom;
    }

    /** The node of a thing; null where it has none. */
    Node<E> node(E member) {
        return nodes.get(member);
    }

    Set<Node<E>> allNodes() {
        return Collections.unmodifiableSet(parents.keySet());
    }

    Set<Node<E>> parents(Node<E> node) {
        return Collections.unmodifiableSet(parents.get(node));
    }

    Set<Node<E>> children(Node<E> node) {
        return Collections.unmodifiableSet(children.get(node));
    }

    /** Some nodes and all above them. */
    Set<Node<E>> andAbove(Collection<Node<E>> start) {
        return reached(start, this::parents);
    }

    /** Some nodes and all below them. */
    Set<Node<E>> andBelow(Collection<Node<E>> start) {
        return reached(start, this::children);
    }

    /** Some nodes, and all that are reached from them. */
    static <N> Set<N> reached(Collection<N> start, Function<N, ? extends Collection<N>> next) {
        Set<N> found = new LinkedHashSet<>();
        Deque<N> open = new ArrayDeque<>(start);
        while (!open.isEmpty()) {
            N node = open.pop();
            if (found.add(node)) {
                open.addAll(next.apply(node));
            }
        }
        return found;
    }
}
