package jezundwa.owlapi;

import java.util.Collection;
import java.util.HashMap;
import java.util.HashSet;
import java.util.List;
import java.util.Map;
import java.util.Set;
import java.util.function.Function;
import org.semanticweb.owlapi.model.OWLAxiom;
import org.semanticweb.owlapi.model.OWLClass;
import org.semanticweb.owlapi.model.OWLClassExpression;
import org.semanticweb.owlapi.model.OWLDataFactory;
import org.semanticweb.owlapi.reasoner.Node;
import org.semanticweb.owlapi.reasoner.NodeSet;
import org.semanticweb.owlapi.reasoner.impl.OWLClassNode;
import org.semanticweb.owlapi.reasoner.impl.OWLClassNodeSet;

/** Questions on classes: a named class has its node in the hierarchy, and any other expression is placed in it. */
final class ClassAnswers {
    private final Snapshot snapshot;
    private final Hierarchy<OWLClass> hierarchy;
    private final Placement placement;
    private final OWLDataFactory factory;
    private final Map<OWLClassExpression, Set<Node<OWLClass>>> nodesAbove = new HashMap<>();

    ClassAnswers(Snapshot snapshot) {
        this.snapshot = snapshot;
        this.hierarchy = snapshot.classes();
        this.placement = new Placement(hierarchy);
        this.factory = snapshot.factory();
    }

    static NodeSet<OWLClass> set(Collection<Node<OWLClass>> nodes) {
        return new OWLClassNodeSet(new HashSet<>(nodes));
    }

    /** The node of a class that has one: of the ontology, or built in. */
    Node<OWLClass> node(OWLClassExpression type) {
        return type.isAnonymous() ? null : hierarchy.node(type.asOWLClass());
    }

    /** Whether it is a class of which the ontology says nothing. */
    private boolean isFresh(OWLClassExpression type) {
        return !type.isAnonymous() && node(type) == null;
    }

    NodeSet<OWLClass> superClasses(OWLClassExpression type, boolean isDirect) {
        if (isFresh(type)) {
            return set(Set.of(hierarchy.top()));
        }
        Node<OWLClass> node = nodeOrEqual(type);
        if (node == null) {
            Set<Node<OWLClass>> above = above(type);
            return set(isDirect ? placement.lowest(above) : above);
        }
        Set<Node<OWLClass>> parents = hierarchy.parents(node);
        return set(isDirect ? parents : hierarchy.andAbove(parents));
    }

    /** The node of an expression, where it has one, with those above it; or its lowest node, or those. */
    NodeSet<OWLClass> andSuperClasses(OWLClassExpression type, boolean isDirect) {
        Node<OWLClass> node = nodeOrEqual(type);
        if (node == null) {
            return superClasses(type, isDirect);
        }
        return set(isDirect ? Set.of(node) : hierarchy.andAbove(Set.of(node)));
    }

    NodeSet<OWLClass> subClasses(OWLClassExpression type, boolean isDirect) {
        if (isFresh(type)) {
            return set(Set.of(hierarchy.bottom()));
        }
        Node<OWLClass> node = nodeOrEqual(type);
        Set<Node<OWLClass>> children = node == null ? directlyBelow(type) : hierarchy.children(node);
        return set(isDirect ? children : hierarchy.andBelow(children));
    }

    Node<OWLClass> equivalentClasses(OWLClassExpression type) {
        if (isFresh(type)) {
            return new OWLClassNode(type.asOWLClass());
        }
        Node<OWLClass> node = nodeOrEqual(type);
        return node == null ? new OWLClassNode() : node;
    }

    NodeSet<OWLClass> disjointClasses(OWLClassExpression type) {
        return set(placement.disjoint(nodes -> follow(nodes, node -> Question.of(factory.getOWLSubClassOfAxiom(
            factory.getOWLObjectIntersectionOf(type, node.getRepresentativeElement()), factory.getOWLNothing())))));
    }

    /** The domains or ranges of a role, given the axiom that says so of a class. */
    NodeSet<OWLClass> classesOf(Function<OWLClass, OWLAxiom> axiom, boolean isDirect) {
        Set<Node<OWLClass>> all = placement.above(nodes -> follow(nodes,
            node -> snapshot.reductions().of(axiom.apply(node.getRepresentativeElement())).get(0)));
        return set(isDirect ? placement.lowest(all) : all);
    }

    /** The nodes directly below an expression that has no node. */
    Set<Node<OWLClass>> directlyBelow(OWLClassExpression type) {
        return placement.highest(below(type, above(type)));
    }

    /** The node of a class, or one that is equal to the expression; null where there is none. */
    Node<OWLClass> nodeOrEqual(OWLClassExpression type) {
        Node<OWLClass> node = node(type);
        if (node != null || isFresh(type)) {
            return node;
        }
        Set<Node<OWLClass>> above = above(type);
        Set<Node<OWLClass>> lowest = placement.lowest(above);
        if (lowest.size() != 1) {
            return null;
        }
        Node<OWLClass> only = lowest.iterator().next();
        return only.equals(hierarchy.bottom()) || follow(List.of(only), candidate -> isIn(candidate, type)).get(0)
            ? only : null;
    }

    private Set<Node<OWLClass>> above(OWLClassExpression type) {
        return nodesAbove.computeIfAbsent(type, unplaced -> placement.above(nodes -> follow(nodes,
            node -> Question.of(factory.getOWLSubClassOfAxiom(type, node.getRepresentativeElement())))));
    }

    private Set<Node<OWLClass>> below(OWLClassExpression type, Set<Node<OWLClass>> above) {
        return placement.below(above, nodes -> follow(nodes, node -> isIn(node, type)));
    }

    private Question isIn(Node<OWLClass> node, OWLClassExpression type) {
        return Question.of(factory.getOWLSubClassOfAxiom(node.getRepresentativeElement(), type));
    }

    private List<Boolean> follow(List<Node<OWLClass>> nodes, Function<Node<OWLClass>, Question> question) {
        return snapshot.follow(nodes.stream().map(question).toList());
    }
}
