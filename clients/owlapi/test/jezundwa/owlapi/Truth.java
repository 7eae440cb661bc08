package jezundwa.owlapi;

import java.util.Collection;
import java.util.HashSet;
import java.util.List;
import java.util.Set;
import java.util.function.BiPredicate;
import org.semanticweb.owlapi.model.*;

/**
 * Whether axioms about classes, object properties and individuals are true in a finite interpretation, by the direct
 * semantics of OWL 2. It shares nothing with the client but the interpretation, which the program printed.
 */
final class Truth implements OWLAxiomVisitorEx<Boolean> {
    private final Extensions extensions;

    Truth(World world) {
        this.extensions = new Extensions(world);
    }

    boolean of(OWLAxiom axiom) {
        return axiom.accept(this);
    }

    /** Whether an ontology is true with all that it imports. */
    boolean ofAll(OWLOntology ontology) {
        return ontology.getImportsClosure().stream().flatMap(one -> one.getLogicalAxioms().stream()).allMatch(this::of);
    }

    private boolean isIn(OWLClassExpression part, OWLClassExpression whole) {
        return extensions.of(whole).containsAll(extensions.of(part));
    }

    private boolean areDisjoint(Collection<OWLClassExpression> types) {
        return extensions.all().stream()
            .allMatch(element -> types.stream().filter(type -> extensions.of(type).contains(element)).count() <= 1);
    }

    private boolean isEdge(OWLPropertyAssertionAxiom<OWLObjectPropertyExpression, OWLIndividual> axiom) {
        return extensions.isEdge(axiom.getProperty(), extensions.of(axiom.getSubject()),
            extensions.of(axiom.getObject()));
    }

    private boolean forAllPairs(BiPredicate<Integer, Integer> holds) {
        Set<Integer> all = extensions.all();
        return all.stream().allMatch(one -> all.stream().allMatch(other -> holds.test(one, other)));
    }

    @Override
    public Boolean visit(OWLSubClassOfAxiom axiom) {
        return isIn(axiom.getSubClass(), axiom.getSuperClass());
    }

    @Override
    public Boolean visit(OWLEquivalentClassesAxiom axiom) {
        return axiom.getClassExpressions().stream().map(extensions::of).distinct().count() <= 1;
    }

    @Override
    public Boolean visit(OWLDisjointClassesAxiom axiom) {
        return areDisjoint(axiom.getClassExpressions());
    }

    @Override
    public Boolean visit(OWLDisjointUnionAxiom axiom) {
        Set<Integer> union = new HashSet<>();
        axiom.getClassExpressions().forEach(part -> union.addAll(extensions.of(part)));
        return union.equals(extensions.of(axiom.getOWLClass())) && areDisjoint(axiom.getClassExpressions());
    }

    @Override
    public Boolean visit(OWLClassAssertionAxiom axiom) {
        return extensions.of(axiom.getClassExpression()).contains(extensions.of(axiom.getIndividual()));
    }

    @Override
    public Boolean visit(OWLObjectPropertyAssertionAxiom axiom) {
        return isEdge(axiom);
    }

    @Override
    public Boolean visit(OWLNegativeObjectPropertyAssertionAxiom axiom) {
        return !isEdge(axiom);
    }

    @Override
    public Boolean visit(OWLSameIndividualAxiom axiom) {
        return axiom.getIndividuals().stream().map(extensions::of).distinct().count() <= 1;
    }

    @Override
    public Boolean visit(OWLDifferentIndividualsAxiom axiom) {
        Set<OWLIndividual> individuals = axiom.getIndividuals();
        return individuals.stream().map(extensions::of).distinct().count() == individuals.size();
    }

    @Override
    public Boolean visit(OWLObjectPropertyDomainAxiom axiom) {
        Set<Integer> domain = extensions.of(axiom.getDomain());
        return forAllPairs((from, to) -> !extensions.isEdge(axiom.getProperty(), from, to) || domain.contains(from));
    }

    @Override
    public Boolean visit(OWLObjectPropertyRangeAxiom axiom) {
        Set<Integer> range = extensions.of(axiom.getRange());
        return forAllPairs((from, to) -> !extensions.isEdge(axiom.getProperty(), from, to) || range.contains(to));
    }

    @Override
    public Boolean visit(OWLFunctionalObjectPropertyAxiom axiom) {
        return extensions.all().stream().allMatch(from -> extensions.ends(axiom.getProperty(), from).size() <= 1);
    }

    @Override
    public Boolean visit(OWLInverseFunctionalObjectPropertyAxiom axiom) {
        Set<Integer> all = extensions.all();
        return all.stream().allMatch(
            to -> all.stream().filter(from -> extensions.isEdge(axiom.getProperty(), from, to)).count() <= 1);
    }

    @Override
    public Boolean visit(OWLSubObjectPropertyOfAxiom axiom) {
        return extensions.edges(axiom.getSuperProperty()).containsAll(extensions.edges(axiom.getSubProperty()));
    }

    @Override
    public Boolean visit(OWLEquivalentObjectPropertiesAxiom axiom) {
        return axiom.getProperties().stream().map(extensions::edges).distinct().count() <= 1;
    }

    @Override
    public Boolean visit(OWLDisjointObjectPropertiesAxiom axiom) {
        return forAllPairs((from, to) -> axiom.getProperties().stream()
            .filter(role -> extensions.isEdge(role, from, to)).count() <= 1);
    }

    @Override
    public Boolean visit(OWLInverseObjectPropertiesAxiom axiom) {
        return forAllPairs((from, to) -> extensions.isEdge(axiom.getFirstProperty(), from, to)
            == extensions.isEdge(axiom.getSecondProperty(), to, from));
    }

    @Override
    public Boolean visit(OWLSubPropertyChainOfAxiom axiom) {
        return extensions.all().stream().allMatch(
            from -> extensions.ends(axiom.getSuperProperty(), from).containsAll(ends(axiom.getPropertyChain(), from)));
    }

    private Set<Integer> ends(List<OWLObjectPropertyExpression> chain, int from) {
        Set<Integer> ends = Set.of(from);
        for (OWLObjectPropertyExpression role : chain) {
            Set<Integer> next = new HashSet<>();
            ends.forEach(end -> next.addAll(extensions.ends(role, end)));
            ends = next;
        }
        return ends;
    }

    @Override
    public Boolean visit(OWLTransitiveObjectPropertyAxiom axiom) {
        OWLObjectPropertyExpression role = axiom.getProperty();
        return extensions.all().stream()
            .allMatch(from -> extensions.ends(role, from).containsAll(ends(List.of(role, role), from)));
    }

    @Override
    public Boolean visit(OWLSymmetricObjectPropertyAxiom axiom) {
        return forAllPairs((from, to) -> extensions.isEdge(axiom.getProperty(), from, to)
            == extensions.isEdge(axiom.getProperty(), to, from));
    }

    @Override
    public Boolean visit(OWLAsymmetricObjectPropertyAxiom axiom) {
        return forAllPairs((from, to) -> !extensions.isEdge(axiom.getProperty(), from, to)
            || !extensions.isEdge(axiom.getProperty(), to, from));
    }

    @Override
    public Boolean visit(OWLReflexiveObjectPropertyAxiom axiom) {
        return extensions.all().stream().allMatch(element -> extensions.isEdge(axiom.getProperty(), element, element));
    }

    @Override
    public Boolean visit(OWLIrreflexiveObjectPropertyAxiom axiom) {
        return extensions.all().stream().noneMatch(element -> extensions.isEdge(axiom.getProperty(), element, element));
    }

    @Override
    public <T> Boolean doDefault(T data) {
        throw new UnsupportedOperationException(data.toString());
    }
}
