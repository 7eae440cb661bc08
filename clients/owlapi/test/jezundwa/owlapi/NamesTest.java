package jezundwa.owlapi;

import static org.junit.Assert.assertEquals;
import static org.junit.Assert.assertFalse;
import static org.junit.Assert.assertTrue;

import java.util.ArrayList;
import java.util.HashSet;
import java.util.List;
import java.util.Set;
import org.junit.Test;
import org.semanticweb.owlapi.apibinding.OWLManager;
import org.semanticweb.owlapi.model.IRI;
import org.semanticweb.owlapi.model.OWLAxiom;
import org.semanticweb.owlapi.model.OWLClass;
import org.semanticweb.owlapi.model.OWLClassExpression;
import org.semanticweb.owlapi.model.OWLDataFactory;
import org.semanticweb.owlapi.model.OWLNamedIndividual;
import org.semanticweb.owlapi.model.OWLObjectProperty;

/** Names of any form and length, and questions longer than a word of a command line may be. */
public class NamesTest {
    private static final OWLDataFactory FACTORY = OWLManager.getOWLDataFactory();
    private static final List<String> ODD = List.of("http://example.org/caf\u00e9#\u5fc3\u81d3", "c12", "urn:x y",
        "urn:a>b", "urn:quote\"", "urn:back\\slash", "urn:(bracket", "urn:hash#hash#", "urn:\ud83d\ude00",
        "http://example.org/" + "long".repeat(5_000), "urn:jezundwa:other#1", "urn:line\nfeed", "\u00e9");

    private static OWLClass type(String iri) {
        return FACTORY.getOWLClass(IRI.create(iri));
    }

    @Test
    public void oddNamesAreAnsweredLikeAnyOther() {
        Set<OWLAxiom> axioms = new HashSet<>();
        OWLObjectProperty role = FACTORY.getOWLObjectProperty(IRI.create("urn:r\u00f4le"));
        OWLNamedIndividual individual = FACTORY.getOWLNamedIndividual(IRI.create("urn:\u00e9l\u00e9ment"));
        for (int at = 0; at + 1 < ODD.size(); at++) {
            axioms.add(FACTORY.getOWLSubClassOfAxiom(type(ODD.get(at)), type(ODD.get(at + 1))));
        }
        axioms.add(FACTORY.getOWLClassAssertionAxiom(type(ODD.get(0)), individual));
        axioms.add(FACTORY.getOWLObjectPropertyAssertionAxiom(role, individual, individual));
        JezundwaReasoner reasoner = Called.reasoner(Ontologies.of(axioms));
        OWLClass first = type(ODD.get(0));
        OWLClass last = type(ODD.get(ODD.size() - 1));
        for (int at = 0; at + 1 < ODD.size(); at++) {
            assertEquals(Set.of(type(ODD.get(at + 1))),
                reasoner.getSuperClasses(type(ODD.get(at)), true).getFlattened());
        }
        assertEquals(Set.of(first), reasoner.getTypes(individual, true).getFlattened());
        assertEquals(Set.of(individual), reasoner.getInstances(
            FACTORY.getOWLObjectSomeValuesFrom(role, last), false).getFlattened());
        JezundwaExplanations explanations = new JezundwaExplanations(reasoner);
        OWLAxiom statement = FACTORY.getOWLSubClassOfAxiom(first, last);
        assertEquals(ODD.size() - 1, explanations.justifications(statement).sets().get(0).size());
        assertEquals(ODD.size() - 1, explanations.repairs(statement).sets().size());
        assertTrue(explanations.certificates(statement).get(0).isOfEntailment());
    }

    /** A class, a role and an individual may have one name. */
    @Test
    public void oneNameOfSeveralKinds() {
        IRI iri = IRI.create("urn:eagle");
        OWLClass type = FACTORY.getOWLClass(iri);
        OWLNamedIndividual individual = FACTORY.getOWLNamedIndividual(iri);
        OWLObjectProperty role = FACTORY.getOWLObjectProperty(iri);
        JezundwaReasoner reasoner = Called.reasoner(Ontologies.of(Set.of(
            FACTORY.getOWLClassAssertionAxiom(type, individual),
            FACTORY.getOWLSubClassOfAxiom(type, FACTORY.getOWLObjectSomeValuesFrom(role, type)))));
        assertEquals(Set.of(individual), reasoner.getInstances(
            FACTORY.getOWLObjectSomeValuesFrom(role, type), false).getFlattened());
    }

    /** A class as a word of the command line would have over 128 KiB, which the system refuses. */
    @Test
    public void longQuestionsAreAskedOfHelpers() {
        Called.requireLongForm();
        List<OWLClassExpression> many = new ArrayList<>();
        for (int at = 0; at < 140; at++) {
            OWLClassExpression part =
                FACTORY.getOWLObjectSomeValuesFrom(Ontologies.role("r"), Ontologies.type("A" + at));
            for (int complements = 0; complements < 50; complements++) {
                part = FACTORY.getOWLObjectComplementOf(part);
            }
            many.add(part);
        }
        OWLClassExpression union = FACTORY.getOWLObjectUnionOf(new HashSet<>(many));
        OWLAxiom a = Ontologies.axiom("SubClassOf(:A :B)");
        OWLAxiom b = Ontologies.axiom("SubClassOf(:B ObjectSomeValuesFrom(:r :A77))");
        OWLAxiom c = Ontologies.axiom("ClassAssertion(:A :a)");
        JezundwaReasoner reasoner = Called.reasoner(Ontologies.of(Set.of(a, b, c)));
        assertTrue(reasoner.operation(current -> current.document().text(union)).length() > 1 << 17);
        JezundwaExplanations explanations = new JezundwaExplanations(reasoner);
        OWLAxiom inclusion = FACTORY.getOWLSubClassOfAxiom(Ontologies.type("A"), union);
        assertTrue(reasoner.isEntailed(inclusion));
        assertEquals(List.of(Set.of(a, b)), explanations.justifications(inclusion).sets());
        assertEquals(Set.of(Set.of(a), Set.of(b)), new HashSet<>(explanations.repairs(inclusion).sets()));
        OWLAxiom assertion = FACTORY.getOWLClassAssertionAxiom(union, Ontologies.individual("a"));
        assertEquals(List.of(Set.of(a, b, c)), explanations.justifications(assertion).sets());
        assertEquals(Set.of(Ontologies.individual("a")), reasoner.getInstances(union, false).getFlattened());
        OWLAxiom reverse = FACTORY.getOWLSubClassOfAxiom(union, Ontologies.type("A"));
        assertEquals(List.of(), explanations.justifications(reverse).sets());
        assertFalse(explanations.counterexample(reverse).isEmpty());
        assertTrue(explanations.example(FACTORY.getOWLObjectIntersectionOf(union, Ontologies.type("A"))).isPresent());
    }
}
