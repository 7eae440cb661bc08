package jezundwa.owlapi;

import java.util.ArrayList;
import java.util.Collection;
import java.util.HashMap;
import java.util.LinkedHashSet;
import java.util.List;
import java.util.Map;
import java.util.Set;
import java.util.function.Function;
import org.semanticweb.owlapi.model.OWLPropertyExpression;
import org.semanticweb.owlapi.reasoner.Node;

/** Properties of one kind, and which of them are below or apart from others as axioms say, directly or by chains. */
final class ToldProperties<P extends OWLPropertyExpression> {
    private final Map<P, Set<P>> above = new HashMap<>();
    private final Map<P, Set<P>> apart = new HashMap<>();
    private final Function<Set<P>, Node<P>> toNode;
    private final Node<P> top;
    private final Node<P> bottom;
    private Hierarchy<P> hierarchy;

    ToldProperties(Node<P> top, Node<P> bottom, Function<Set<P>, Node<P>> toNode) {
        this.top = top;
        this.bottom = bottom;
        this.toNode = toNode;
    }

    void add(P property) {
        above.computeIfAbsent(property, unknown -> new LinkedHashSet<>());
    }

    void addBelow(P below, P over) {
        add(below);
        add(over);
        above.get(below).add(over);
    }

    void addEqual(Collection<? extends P> properties) {
        List<P> ring = new ArrayList<>(properties);
        for (int at = 0; at < ring.size(); at++) {
            addBelow(ring.get(at), ring.get((at + 1) % ring.size()));
        }
    }

    void addApart(Collection<? extends P> properties) {
        for (P one : properties) {
            add(one);
            for (P other : properties) {
                if (!one.equals(other)) {
                    apart.computeIfAbsent(one, unknown -> new LinkedHashSet<>()).add(other);
                }
            }
        }
    }

    Hierarchy<P> hierarchy() {
        if (hierarchy == null) {
            hierarchy = build();
        }
        return hierarchy;
    }

    private Hierarchy<P> build() {
        Map<P, Set<P>> reached = new HashMap<>();
        above.keySet().forEach(property -> reached.put(property, Hierarchy.reached(Set.of(property), above::get)));
        Hierarchy<P> built = new Hierarchy<>(toNode.apply(allAboveTop(reached)), toNode.apply(allBelowBottom(reached)));
        for (P property : above.keySet()) {
            if (built.node(property) == null) {
                Set<P> equal = new LinkedHashSet<>(reached.get(property));
                equal.removeIf(other -> !reached.get(other).contains(property));
                built.add(toNode.apply(equal));
            }
        }
        for (Node<P> node : List.copyOf(built.allNodes())) {
            if (!node.equals(built.top()) && !node.equals(built.bottom())) {
                linkDirectly(built, node, reached);
            }
        }
        built.close();
        return built;
    }

    /** What is above the top is equal to it. */
    private Set<P> allAboveTop(Map<P, Set<P>> reached) {
        Set<P> equal = new LinkedHashSet<>(top.getEntities());
        top.forEach(one -> equal.addAll(reached.getOrDefault(one, Set.of())));
        return equal;
    }

    /** What is below the bottom is equal to it. */
    private Set<P> allBelowBottom(Map<P, Set<P>> reached) {
        Set<P> equal = new LinkedHashSet<>(bottom.getEntities());
        reached.forEach((property, over) -> {
            if (over.stream().anyMatch(bottom::contains)) {
                equal.add(property);
            }
        });
        return equal;
    }

    private static <P extends OWLPropertyExpression> void linkDirectly(Hierarchy<P> built, Node<P> node,
            Map<P, Set<P>> reached) {
        Set<Node<P>> over = new LinkedHashSet<>();
        reached.get(node.getRepresentativeElement()).forEach(property -> over.add(built.node(property)));
        over.remove(node);
        over.remove(built.top());
        for (Node<P> parent : over) {
            boolean isDirect = over.stream().noneMatch(other -> !other.equals(parent)
                && reached.get(other.getRepresentativeElement()).contains(parent.getRepresentativeElement()));
            if (isDirect) {
                built.link(node, parent);
            }
        }
    }

    /** The nodes below a property; one of which no axiom speaks has the bottom alone below it. */
    Set<Node<P>> below(P property, boolean isDirect) {
        Node<P> node = hierarchy().node(property);
        Set<Node<P>> children = node == null ? Set.of(hierarchy().bottom()) : hierarchy().children(node);
        return isDirect ? new LinkedHashSet<>(children) : hierarchy().andBelow(children);
    }

    Set<Node<P>> above(P property, boolean isDirect) {
        Node<P> node = hierarchy().node(property);
        Set<Node<P>> parents = node == null ? Set.of(hierarchy().top()) : hierarchy().parents(node);
        return isDirect ? new LinkedHashSet<>(parents) : hierarchy().andAbove(parents);
    }

    /** The nodes that have no pair in common with a property, as axioms say of it or of what is above it. */
    Set<Node<P>> disjoint(P property) {
        Set<Node<P>> found = new LinkedHashSet<>(Set.of(hierarchy().bottom()));
        if (hierarchy().bottom().contains(property)) {
            return new LinkedHashSet<>(hierarchy().allNodes());
        }
        if (above.containsKey(property)) {
            for (P over : Hierarchy.reached(Set.of(property), above::get)) {
                for (P other : apart.getOrDefault(over, Set.of())) {
                    found.addAll(hierarchy().andBelow(Set.of(hierarchy().node(other))));
                }
            }
        }
        return found;
    }
}
