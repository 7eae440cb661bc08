package jezundwa.owlapi;

import java.util.ArrayList;
import java.util.Collection;
import java.util.List;
import java.util.Set;
import org.semanticweb.owlapi.model.*;
import org.semanticweb.owlapi.reasoner.UnsupportedEntailmentTypeException;

/**
 * Each kind of axiom about classes, roles and individuals as questions: the axiom is entailed just where each of them
 * is answered by yes. The helpers x are a class, y0, y1, .. individuals and s a role of which the ontology says
 * nothing. The reasons below say why a question fails only where the axiom does: a model in which the axiom fails
 * becomes one of the assumptions, when the helpers are given the meaning that is told. The other way round it is plain.
 */
final class Reductions implements OWLAxiomVisitorEx<List<Question>> {
    /** More different individuals than this are asked about two by two: the program counts no further. */
    private static final int MOST_COUNTED = FunctionalText.GREATEST_NUMBER;

    private final OWLDataFactory factory;
    private final OWLClass x;
    private final OWLNamedIndividual y0;
    private final OWLNamedIndividual y1;
    private final OWLNamedIndividual y2;
    private final Helpers helpers;

    Reductions(OWLDataFactory factory) {
        this.factory = factory;
        this.helpers = new Helpers(factory, "question");
        this.x = helpers.type(0);
        this.y0 = helpers.individual(0);
        this.y1 = helpers.individual(1);
        this.y2 = helpers.individual(2);
    }

    List<Question> of(OWLAxiom axiom) {
        return axiom.accept(this);
    }

    /** Whether the ontology and some assumptions contradict each other. */
    Question contradiction(List<? extends OWLAxiom> assumptions) {
        return new Question(List.copyOf(assumptions),
            factory.getOWLSubClassOfAxiom(factory.getOWLThing(), factory.getOWLNothing()));
    }

    /** An inclusion follows just where nothing can be in one class and not in the other. */
    @Override
    public List<Question> visit(OWLSubClassOfAxiom axiom) {
        return List.of(Question.of(factory.getOWLSubClassOfAxiom(axiom.getSubClass(), axiom.getSuperClass())));
    }

    /** Classes are equal just where none has a member that the next one, and behind the last the first, lacks. */
    @Override
    public List<Question> visit(OWLEquivalentClassesAxiom axiom) {
        List<OWLClassExpression> classes = axiom.getClassExpressionsAsList();
        List<OWLClassExpression> failures = new ArrayList<>();
        for (int at = 0; classes.size() > 1 && at < classes.size(); at++) {
            failures.add(without(classes.get(at), classes.get((at + 1) % classes.size())));
        }
        return failures.isEmpty() ? List.of() : List.of(none(List.of(), failures));
    }

    /** Classes are disjoint just where none has a member in common with the union of those before it. */
    @Override
    public List<Question> visit(OWLDisjointClassesAxiom axiom) {
        List<OWLAxiom> definitions = new ArrayList<>();
        List<OWLClassExpression> overlaps = overlaps(axiom.getClassExpressionsAsList(), definitions);
        return overlaps.isEmpty() ? List.of() : List.of(none(definitions, overlaps));
    }

    /** A class is the disjoint union just where it is the union, and the parts are disjoint. */
    @Override
    public List<Question> visit(OWLDisjointUnionAxiom axiom) {
        List<OWLClassExpression> parts = new ArrayList<>(axiom.getClassExpressions());
        List<OWLAxiom> definitions = new ArrayList<>();
        List<OWLClassExpression> failures = overlaps(parts, definitions);
        OWLClassExpression union = factory.getOWLObjectUnionOf(axiom.getClassExpressions());
        failures.add(without(axiom.getOWLClass(), union));
        failures.add(without(union, axiom.getOWLClass()));
        return List.of(none(definitions, failures));
    }

    /** An individual is in a class just where it cannot be outside of it. */
    @Override
    public List<Question> visit(OWLClassAssertionAxiom axiom) {
        requireName(axiom, axiom.getIndividual());
        return List.of(Question.of(
            factory.getOWLClassAssertionAxiom(axiom.getClassExpression(), axiom.getIndividual())));
    }

    /** A domain of R is a class that has all that begin an edge of R in it. */
    @Override
    public List<Question> visit(OWLObjectPropertyDomainAxiom axiom) {
        return in(axiom.getDomain(), edge(axiom.getProperty(), y0, y1), y0);
    }

    /** A range of R is a class that has all that end an edge of R in it. */
    @Override
    public List<Question> visit(OWLObjectPropertyRangeAxiom axiom) {
        return in(axiom.getRange(), edge(axiom.getProperty(), y0, y1), y1);
    }

    /** R is functional just where no y0 leads to two things: call them y1 and y2. */
    @Override
    public List<Question> visit(OWLFunctionalObjectPropertyAxiom axiom) {
        return impossible(
            both(both(edge(axiom.getProperty(), y0, y1), edge(axiom.getProperty(), y0, y2)), different()));
    }

    /** The same of edges that lead to y0. */
    @Override
    public List<Question> visit(OWLInverseFunctionalObjectPropertyAxiom axiom) {
        return impossible(
            both(both(edge(axiom.getProperty(), y1, y0), edge(axiom.getProperty(), y2, y0)), different()));
    }

    /** R is in S just where an edge of R between two things, call them y0 and y1, is one of S. */
    @Override
    public List<Question> visit(OWLSubObjectPropertyOfAxiom axiom) {
        return edgeFollows(axiom.getSuperProperty(), y0, y1, edge(axiom.getSubProperty(), y0, y1));
    }

    /** Roles are equal just where each is in the next one, and the last in the first. */
    @Override
    public List<Question> visit(OWLEquivalentObjectPropertiesAxiom axiom) {
        List<OWLObjectPropertyExpression> roles = new ArrayList<>(axiom.getProperties());
        List<Question> questions = new ArrayList<>();
        for (int at = 0; roles.size() > 1 && at < roles.size(); at++) {
            questions.addAll(
                edgeFollows(roles.get((at + 1) % roles.size()), y0, y1, edge(roles.get(at), y0, y1)));
        }
        return questions;
    }

    /** A chain is in S just where along each chain of edges, over y0, y1, .., an edge of S leads from end to end. */
    @Override
    public List<Question> visit(OWLSubPropertyChainOfAxiom axiom) {
        return chainFollows(axiom.getPropertyChain(), axiom.getSuperProperty());
    }

    /** R is transitive just where the chain R R is in R. */
    @Override
    public List<Question> visit(OWLTransitiveObjectPropertyAxiom axiom) {
        return chainFollows(List.of(axiom.getProperty(), axiom.getProperty()), axiom.getProperty());
    }

    /** Roles are disjoint just where for no two of them there is an edge of both. */
    @Override
    public List<Question> visit(OWLDisjointObjectPropertiesAxiom axiom) {
        List<OWLObjectPropertyExpression> roles = new ArrayList<>(axiom.getProperties());
        List<Question> questions = new ArrayList<>();
        for (int later = 0; later < roles.size(); later++) {
            for (int earlier = 0; earlier < later; earlier++) {
                questions.addAll(impossible(both(edge(roles.get(earlier), y0, y1), edge(roles.get(later), y0, y1))));
            }
        }
        return questions;
    }

    /** R is irreflexive just where nothing, call it y0, can have an edge to itself. */
    @Override
    public List<Question> visit(OWLIrreflexiveObjectPropertyAxiom axiom) {
        return impossible(edge(axiom.getProperty(), y0, y0));
    }

    /** R is asymmetric just where no two things, which may be one, have edges both ways. */
    @Override
    public List<Question> visit(OWLAsymmetricObjectPropertyAxiom axiom) {
        return impossible(both(edge(axiom.getProperty(), y0, y1), edge(axiom.getProperty(), y1, y0)));
    }

    /** R is symmetric just where an edge from y0 to y1 has one back. */
    @Override
    public List<Question> visit(OWLSymmetricObjectPropertyAxiom axiom) {
        return edgeFollows(axiom.getProperty(), y1, y0, edge(axiom.getProperty(), y0, y1));
    }

    /** R is reflexive just where anything, call it y0, has an edge to itself. */
    @Override
    public List<Question> visit(OWLReflexiveObjectPropertyAxiom axiom) {
        return edgeFollows(axiom.getProperty(), y0, y0, List.of());
    }

    /** Roles are inverse just where each edge of the one has one of the other back, both ways. */
    @Override
    public List<Question> visit(OWLInverseObjectPropertiesAxiom axiom) {
        OWLObjectPropertyExpression first = axiom.getFirstProperty();
        OWLObjectPropertyExpression second = axiom.getSecondProperty();
        List<Question> questions = new ArrayList<>(edgeFollows(second, y1, y0, edge(first, y0, y1)));
        questions.addAll(edgeFollows(first, y1, y0, edge(second, y0, y1)));
        return questions;
    }

    /** See {@link #edgeFollows}. */
    @Override
    public List<Question> visit(OWLObjectPropertyAssertionAxiom axiom) {
        requireName(axiom, axiom.getSubject());
        requireName(axiom, axiom.getObject());
        return edgeFollows(axiom.getProperty(), axiom.getSubject(), axiom.getObject(), List.of());
    }

    /** There is no edge just where there cannot be one. */
    @Override
    public List<Question> visit(OWLNegativeObjectPropertyAssertionAxiom axiom) {
        requireName(axiom, axiom.getSubject());
        requireName(axiom, axiom.getObject());
        return impossible(edge(axiom.getProperty(), axiom.getSubject(), axiom.getObject()));
    }

    /** Individuals are one just where each of them is in x whenever the one before it is: let x be {that one}. */
    @Override
    public List<Question> visit(OWLSameIndividualAxiom axiom) {
        List<OWLIndividual> individuals = axiom.getIndividualsAsList();
        individuals.forEach(individual -> requireName(axiom, individual));
        List<Question> questions = new ArrayList<>();
        for (int at = 1; at < individuals.size(); at++) {
            questions.add(new Question(List.of(factory.getOWLClassAssertionAxiom(x, individuals.get(at - 1))),
                factory.getOWLClassAssertionAxiom(x, individuals.get(at))));
        }
        return questions;
    }

    /** n individuals are different just where y0 with edges of s to them has n: let s have these edges alone. */
    @Override
    public List<Question> visit(OWLDifferentIndividualsAxiom axiom) {
        List<OWLIndividual> individuals = axiom.getIndividualsAsList();
        individuals.forEach(individual -> requireName(axiom, individual));
        if (individuals.size() == 2 || individuals.size() > MOST_COUNTED) {
            return differentByTwo(individuals);
        }
        OWLObjectProperty s = helpers.role();
        List<OWLAxiom> edges = individuals.stream()
            .map(individual -> (OWLAxiom) factory.getOWLObjectPropertyAssertionAxiom(s, y0, individual)).toList();
        return individuals.size() < 2 ? List.of() : List.of(new Question(edges, factory.getOWLClassAssertionAxiom(
            factory.getOWLObjectMinCardinality(individuals.size(), s, factory.getOWLThing()), y0)));
    }

    /** Two individuals are different just where they cannot be one. */
    private List<Question> differentByTwo(List<OWLIndividual> individuals) {
        List<Question> questions = new ArrayList<>();
        for (int later = 0; later < individuals.size(); later++) {
            for (int earlier = 0; earlier < later; earlier++) {
                questions.add(contradiction(
                    List.of(factory.getOWLSameIndividualAxiom(individuals.get(earlier), individuals.get(later)))));
            }
        }
        return questions;
    }

    /** Between a and b is an edge of S just where a has one to x whenever b is in x: let x be {b}. */
    List<Question> edgeFollows(OWLObjectPropertyExpression role, OWLIndividual from, OWLIndividual to,
            List<OWLAxiom> assumptions) {
        if (role.isOWLTopObjectProperty()) {
            return List.of();
        }
        if (role.isOWLBottomObjectProperty()) {
            return List.of(contradiction(assumptions));
        }
        OWLIndividual start = role.isAnonymous() ? to : from;
        OWLIndividual end = role.isAnonymous() ? from : to;
        List<OWLAxiom> all = new ArrayList<>(assumptions);
        all.add(factory.getOWLClassAssertionAxiom(x, end));
        return List.of(new Question(all, factory.getOWLClassAssertionAxiom(
            factory.getOWLObjectSomeValuesFrom(role.getNamedProperty(), x), start)));
    }

    private List<Question> chainFollows(List<? extends OWLObjectPropertyExpression> chain,
            OWLObjectPropertyExpression over) {
        List<OWLAxiom> edges = new ArrayList<>();
        for (int at = 0; at < chain.size(); at++) {
            edges.addAll(edge(chain.get(at), helpers.individual(at), helpers.individual(at + 1)));
        }
        return edgeFollows(over, y0, helpers.individual(chain.size()), edges);
    }

    /** That an edge leads from one individual to another; all have one of the top role, and none of the bottom role. */
    private List<OWLAxiom> edge(OWLObjectPropertyExpression role, OWLIndividual from, OWLIndividual to) {
        if (role.isOWLTopObjectProperty()) {
            return List.of();
        }
        if (role.isOWLBottomObjectProperty()) {
            return List.of(factory.getOWLClassAssertionAxiom(factory.getOWLNothing(), from));
        }
        return List.of(role.isAnonymous()
            ? factory.getOWLObjectPropertyAssertionAxiom(role.getNamedProperty(), to, from)
            : factory.getOWLObjectPropertyAssertionAxiom(role, from, to));
    }

    private List<OWLAxiom> different() {
        return List.of(factory.getOWLDifferentIndividualsAxiom(y1, y2));
    }

    private List<Question> in(OWLClassExpression type, List<OWLAxiom> assumptions, OWLIndividual individual) {
        return List.of(new Question(assumptions, factory.getOWLClassAssertionAxiom(type, individual)));
    }

    private List<Question> impossible(List<OWLAxiom> assumptions) {
        return List.of(contradiction(assumptions));
    }

    private static List<OWLAxiom> both(List<OWLAxiom> some, List<OWLAxiom> others) {
        List<OWLAxiom> all = new ArrayList<>(some);
        all.addAll(others);
        return all;
    }

    private OWLClassExpression without(OWLClassExpression one, OWLClassExpression other) {
        return factory.getOWLObjectIntersectionOf(one, factory.getOWLObjectComplementOf(other));
    }

    /** That all of these classes are empty, under some definitions. */
    private Question none(List<OWLAxiom> definitions, Collection<OWLClassExpression> classes) {
        OWLClassExpression union = classes.size() == 1 ? classes.iterator().next()
            : factory.getOWLObjectUnionOf(Set.copyOf(classes));
        return new Question(definitions, factory.getOWLSubClassOfAxiom(union, factory.getOWLNothing()));
    }

    /** What each class has in common with the union of those before it, which is a helper from the third class on. */
    private List<OWLClassExpression> overlaps(List<OWLClassExpression> classes, List<OWLAxiom> definitions) {
        List<OWLClassExpression> overlaps = new ArrayList<>();
        OWLClassExpression before = classes.get(0);
        for (int at = 1; at < classes.size(); at++) {
            overlaps.add(factory.getOWLObjectIntersectionOf(before, classes.get(at)));
            OWLClass union = helpers.type(at);
            if (at + 1 < classes.size()) {
                definitions.add(
                    factory.getOWLEquivalentClassesAxiom(union, factory.getOWLObjectUnionOf(before, classes.get(at))));
            }
            before = union;
        }
        return overlaps;
    }

    private static void requireName(OWLAxiom axiom, OWLIndividual individual) {
        if (individual.isAnonymous()) {
            throw new UnsupportedEntailmentTypeException(axiom);
        }
    }

    private static List<Question> unsupported(OWLAxiom axiom) {
        throw new UnsupportedEntailmentTypeException(axiom);
    }

    @Override
    public List<Question> visit(OWLSubDataPropertyOfAxiom axiom) {
        return unsupported(axiom);
    }

    @Override
    public List<Question> visit(OWLEquivalentDataPropertiesAxiom axiom) {
        return unsupported(axiom);
    }

    @Override
    public List<Question> visit(OWLDisjointDataPropertiesAxiom axiom) {
        return unsupported(axiom);
    }

    @Override
    public List<Question> visit(OWLDataPropertyDomainAxiom axiom) {
        return unsupported(axiom);
    }

    @Override
    public List<Question> visit(OWLDataPropertyRangeAxiom axiom) {
        return unsupported(axiom);
    }

    @Override
    public List<Question> visit(OWLFunctionalDataPropertyAxiom axiom) {
        return unsupported(axiom);
    }

    @Override
    public List<Question> visit(OWLDataPropertyAssertionAxiom axiom) {
        return unsupported(axiom);
    }

    @Override
    public List<Question> visit(OWLNegativeDataPropertyAssertionAxiom axiom) {
        return unsupported(axiom);
    }

    @Override
    public List<Question> visit(OWLDatatypeDefinitionAxiom axiom) {
        return unsupported(axiom);
    }

    @Override
    public List<Question> visit(OWLHasKeyAxiom axiom) {
        return unsupported(axiom);
    }

    @Override
    public List<Question> visit(SWRLRule rule) {
        return unsupported(rule);
    }

    /** A declaration or an annotation has no meaning, so it holds. */
    @Override
    public List<Question> visit(OWLDeclarationAxiom axiom) {
        return List.of();
    }

    @Override
    public List<Question> visit(OWLAnnotationAssertionAxiom axiom) {
        return List.of();
    }

    @Override
    public List<Question> visit(OWLSubAnnotationPropertyOfAxiom axiom) {
        return List.of();
    }

    @Override
    public List<Question> visit(OWLAnnotationPropertyDomainAxiom axiom) {
        return List.of();
    }

    @Override
    public List<Question> visit(OWLAnnotationPropertyRangeAxiom axiom) {
        return List.of();
    }
}
