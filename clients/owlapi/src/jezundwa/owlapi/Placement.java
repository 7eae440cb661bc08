package jezundwa.owlapi;

import java.util.ArrayList;
import java.util.Collection;
import java.util.HashSet;
import java.util.LinkedHashSet;
import java.util.List;
import java.util.Set;
import java.util.function.Function;
import org.semanticweb.owlapi.model.OWLClass;
import org.semanticweb.owlapi.reasoner.Node;

/** Where in the hierarchy a class expression stands that has no name there. */
final class Placement {
    /** Which of some nodes have a property, all asked in one call. */
    interface Test extends Function<List<Node<OWLClass>>, List<Boolean>> {}

    private final Hierarchy<OWLClass> hierarchy;

    Placement(Hierarchy<OWLClass> hierarchy) {
        this.hierarchy = hierarchy;
    }

    /** All nodes that contain it. A node below one that does not contain it is not asked about. */
    Set<Node<OWLClass>> above(Test contains) {
        Set<Node<OWLClass>> found = new LinkedHashSet<>(Set.of(hierarchy.top()));
        Set<Node<OWLClass>> asked = new HashSet<>(found);
        Set<Node<OWLClass>> level = found;
        while (!level.isEmpty()) {
            List<Node<OWLClass>> next = new ArrayList<>();
            for (Node<OWLClass> node : level) {
                hierarchy.children(node).stream().filter(asked::add).forEach(next::add);
            }
            level = those(next, contains);
            found.addAll(level);
        }
        return found;
    }

    /** All nodes that it contains, given those that contain it: they are below all of these. */
    Set<Node<OWLClass>> below(Set<Node<OWLClass>> above, Test isContained) {
        Set<Node<OWLClass>> candidates = null;
        for (Node<OWLClass> node : lowest(above)) {
            Set<Node<OWLClass>> under = hierarchy.andBelow(Set.of(node));
            if (candidates == null) {
                candidates = under;
            } else {
                candidates.retainAll(under);
            }
        }
        candidates.remove(hierarchy.bottom());
        Set<Node<OWLClass>> found = those(new ArrayList<>(candidates), isContained);
        found.add(hierarchy.bottom());
        return found;
    }

    /** All nodes that have nothing in common with it: one that has not has no node below it that has. */
    Set<Node<OWLClass>> disjoint(Test isDisjoint) {
        Set<Node<OWLClass>> found = new LinkedHashSet<>(Set.of(hierarchy.bottom()));
        Set<Node<OWLClass>> asked = new HashSet<>(found);
        List<Node<OWLClass>> level = new ArrayList<>(List.of(hierarchy.top()));
        level.removeAll(found);
        while (!level.isEmpty()) {
            Set<Node<OWLClass>> apart = those(level, isDisjoint);
            found.addAll(hierarchy.andBelow(apart));
            List<Node<OWLClass>> next = new ArrayList<>();
            for (Node<OWLClass> node : level) {
                if (!apart.contains(node)) {
                    hierarchy.children(node).stream().filter(asked::add).forEach(next::add);
                }
            }
            next.removeAll(found);
            level = next;
        }
        return found;
    }

    /** Those of some nodes below which none of them lies directly. */
    Set<Node<OWLClass>> lowest(Collection<Node<OWLClass>> nodes) {
        Set<Node<OWLClass>> lowest = new LinkedHashSet<>(nodes);
        lowest.removeIf(node -> hierarchy.children(node).stream().anyMatch(nodes::contains));
        return lowest;
    }

    /** Those of some nodes above which none of them lies directly. */
    Set<Node<OWLClass>> highest(Collection<Node<OWLClass>> nodes) {
        Set<Node<OWLClass>> highest = new LinkedHashSet<>(nodes);
        highest.removeIf(node -> hierarchy.parents(node).stream().anyMatch(nodes::contains));
        return highest;
    }

    private static Set<Node<OWLClass>> those(List<Node<OWLClass>> nodes, Test test) {
        List<Boolean> answers = test.apply(nodes);
        Set<Node<OWLClass>> found = new LinkedHashSet<>();
        for (int at = 0; at < nodes.size(); at++) {
            if (answers.get(at)) {
                found.add(nodes.get(at));
            }
        }
        return found;
    }
}
