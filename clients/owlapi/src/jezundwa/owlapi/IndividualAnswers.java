package jezundwa.owlapi;

import java.util.ArrayList;
import java.util.Collection;
import java.util.HashMap;
import java.util.HashSet;
import java.util.LinkedHashSet;
import java.util.List;
import java.util.Map;
import java.util.Set;
import java.util.function.Function;
import org.semanticweb.owlapi.model.OWLAxiom;
import org.semanticweb.owlapi.model.OWLClass;
import org.semanticweb.owlapi.model.OWLClassExpression;
import org.semanticweb.owlapi.model.OWLDataFactory;
import org.semanticweb.owlapi.model.OWLFunctionalObjectPropertyAxiom;
import org.semanticweb.owlapi.model.OWLIndividual;
import org.semanticweb.owlapi.model.OWLInverseFunctionalObjectPropertyAxiom;
import org.semanticweb.owlapi.model.OWLNamedIndividual;
import org.semanticweb.owlapi.model.OWLObjectCardinalityRestriction;
import org.semanticweb.owlapi.model.OWLObjectPropertyAssertionAxiom;
import org.semanticweb.owlapi.model.OWLObjectPropertyExpression;
import org.semanticweb.owlapi.model.OWLSameIndividualAxiom;
import org.semanticweb.owlapi.reasoner.IndividualNodeSetPolicy;
import org.semanticweb.owlapi.reasoner.Node;
import org.semanticweb.owlapi.reasoner.NodeSet;
import org.semanticweb.owlapi.reasoner.impl.OWLNamedIndividualNode;
import org.semanticweb.owlapi.reasoner.impl.OWLNamedIndividualNodeSet;

/** Questions on individuals. */
final class IndividualAnswers {
    private final Snapshot snapshot;
    private final IndividualNodeSetPolicy policy;
    private final OWLDataFactory factory;

    IndividualAnswers(Snapshot snapshot, IndividualNodeSetPolicy policy) {
        this.snapshot = snapshot;
        this.policy = policy;
        this.factory = snapshot.factory();
    }

    NodeSet<OWLClass> types(OWLNamedIndividual individual, boolean isDirect) {
        Hierarchy<OWLClass> hierarchy = snapshot.classes();
        Set<Node<OWLClass>> direct = snapshot.types().getOrDefault(individual, Set.of(hierarchy.top()));
        return ClassAnswers.set(isDirect ? direct : hierarchy.andAbove(direct));
    }

    NodeSet<OWLNamedIndividual> instances(OWLClassExpression type, boolean isDirect) {
        ClassAnswers classes = new ClassAnswers(snapshot);
        Node<OWLClass> node = isDirect || !type.isAnonymous() ? classes.nodeOrEqual(type) : null;
        if (node != null) {
            return set(membersOf(isDirect ? Set.of(node) : snapshot.classes().andBelow(Set.of(node))));
        }
        if (!type.isAnonymous()) {
            return set(List.of());
        }
        Set<OWLNamedIndividual> members = named(snapshot.asker().instances(type));
        if (isDirect) {
            members.removeAll(membersOf(snapshot.classes().andBelow(classes.directlyBelow(type))));
        }
        return set(members);
    }

    /** The individuals one of whose most specific nodes is among some. */
    private Set<OWLNamedIndividual> membersOf(Set<Node<OWLClass>> nodes) {
        Set<OWLNamedIndividual> members = new LinkedHashSet<>();
        snapshot.types().forEach((individual, direct) -> {
            if (direct.stream().anyMatch(nodes::contains)) {
                members.add(individual);
            }
        });
        return members;
    }

    /** The names below the first line of an answer. */
    private Set<OWLNamedIndividual> named(ProgramAnswer answer) {
        Set<OWLNamedIndividual> found = new LinkedHashSet<>();
        for (String name : answer.lines().subList(1, answer.lines().size())) {
            OWLIndividual individual = snapshot.document().names().individualOf(name);
            if (individual != null && individual.isNamed()) {
                found.add(individual.asOWLNamedIndividual());
            }
        }
        return found;
    }

    Node<OWLNamedIndividual> sameIndividuals(OWLNamedIndividual individual) {
        Set<OWLNamedIndividual> same = new LinkedHashSet<>(Set.of(individual));
        if (canBeSame()) {
            same.addAll(those(other -> factory.getOWLSameIndividualAxiom(individual, other), others(individual)));
        }
        return new OWLNamedIndividualNode(same);
    }

    NodeSet<OWLNamedIndividual> differentIndividuals(OWLNamedIndividual individual) {
        return set(those(other -> factory.getOWLDifferentIndividualsAxiom(individual, other), others(individual)));
    }

    private List<OWLNamedIndividual> others(OWLNamedIndividual individual) {
        return snapshot.individuals().stream().filter(other -> !other.equals(individual)).toList();
    }

    NodeSet<OWLNamedIndividual> values(OWLNamedIndividual individual, OWLObjectPropertyExpression role) {
        if (role.isOWLTopObjectProperty()) {
            return set(snapshot.individuals());
        }
        if (role.isOWLBottomObjectProperty()) {
            return set(List.of());
        }
        return set(those(other -> factory.getOWLObjectPropertyAssertionAxiom(role, individual, other),
            candidates(individual, role)));
    }

    /**
     * The individuals to which an edge of a role may lead. Where no two names can be of one individual, an edge follows
     * only along asserted edges: a model has no others between named individuals but those that it need not have.
     */
    private List<OWLNamedIndividual> candidates(OWLNamedIndividual individual, OWLObjectPropertyExpression role) {
        Map<OWLIndividual, Set<OWLIndividual>> edges = new HashMap<>();
        for (OWLAxiom axiom : snapshot.document().axioms()) {
            if (axiom instanceof OWLObjectPropertyAssertionAxiom assertion) {
                boolean isTurned = role.isAnonymous() != assertion.getProperty().isAnonymous();
                edges.computeIfAbsent(isTurned ? assertion.getObject() : assertion.getSubject(),
                    unknown -> new LinkedHashSet<>()).add(isTurned ? assertion.getSubject() : assertion.getObject());
            }
        }
        if (canBeSame()) {
            return edges.isEmpty() ? List.of() : List.copyOf(snapshot.individuals());
        }
        Set<OWLIndividual> reached = Hierarchy.reached(edges.getOrDefault(individual, Set.of()),
            from -> edges.getOrDefault(from, Set.of()));
        return snapshot.individuals().stream().filter(reached::contains).toList();
    }

    /** The individuals of which an axiom is entailed. */
    private List<OWLNamedIndividual> those(Function<OWLNamedIndividual, OWLAxiom> axiom,
            List<OWLNamedIndividual> candidates) {
        List<Question> questions = new ArrayList<>();
        candidates.forEach(other -> questions.addAll(snapshot.reductions().of(axiom.apply(other))));
        List<Boolean> answers = snapshot.follow(questions);
        List<OWLNamedIndividual> found = new ArrayList<>();
        for (int at = 0; at < candidates.size(); at++) {
            if (answers.get(at)) {
                found.add(candidates.get(at));
            }
        }
        return found;
    }

    /** Two names are of one individual only where an axiom says so, or counts, or where the tool wrote axioms. */
    private boolean canBeSame() {
        return snapshot.document().coverage().policy() == OutsidePolicy.APPROXIMATE
            || snapshot.document().axioms().stream().anyMatch(axiom -> axiom instanceof OWLSameIndividualAxiom
                || axiom instanceof OWLFunctionalObjectPropertyAxiom
                || axiom instanceof OWLInverseFunctionalObjectPropertyAxiom
                || axiom.getNestedClassExpressions().stream()
                    .anyMatch(OWLObjectCardinalityRestriction.class::isInstance));
    }

    /** Individuals as nodes: each by itself, or with those that are one with it. */
    private NodeSet<OWLNamedIndividual> set(Collection<OWLNamedIndividual> individuals) {
        Set<Node<OWLNamedIndividual>> nodes = new HashSet<>();
        Set<OWLNamedIndividual> left = new LinkedHashSet<>(individuals);
        boolean isByName = policy == IndividualNodeSetPolicy.BY_NAME || !canBeSame();
        while (!left.isEmpty()) {
            OWLNamedIndividual next = left.iterator().next();
            Node<OWLNamedIndividual> node = isByName ? new OWLNamedIndividualNode(next) : sameIndividuals(next);
            node.forEach(left::remove);
            nodes.add(node);
        }
        return new OWLNamedIndividualNodeSet(nodes);
    }
}
