package jezundwa.owlapi;

import static org.junit.Assert.assertEquals;
import static org.junit.Assert.assertFalse;
import static org.junit.Assert.assertTrue;

import java.util.Arrays;
import java.util.List;
import java.util.Map;
import java.util.Set;
import java.util.stream.Collectors;
import org.junit.Test;
import org.semanticweb.owlapi.model.OWLAxiom;
import org.semanticweb.owlapi.model.OWLOntology;

/** What the tests themselves think true in an interpretation, by hand; and the worlds that the program gives. */
public class TruthTest {
    private static final World WORLD = new World(4,
        Map.of(Ontologies.type("A"), Set.of(0, 1), Ontologies.type("B"), Set.of(1, 2), Ontologies.type("C"),
            Set.of(0, 1, 2), Ontologies.type("D"), Set.of(3)),
        Map.of(Ontologies.role("r"), edges("01", "12", "02"), Ontologies.role("s"), edges("01", "12", "02", "23"),
            Ontologies.role("t"), edges("10", "21", "20", "32"), Ontologies.role("f"), edges("01", "11"),
            Ontologies.role("e"), edges("00", "11", "22", "33")),
        Map.of(Ontologies.individual("b"), 1, Ontologies.individual("c"), 1, Ontologies.individual("d"), 3));

    private static final List<String> TRUE = List.of("SubClassOf(:A :C)",
        "EquivalentClasses(:C ObjectUnionOf(:A :B))", "DisjointClasses(:A :D)", "DisjointUnion(owl:Thing :C :D)",
        "ClassAssertion(:D :d)", "ClassAssertion(ObjectOneOf(:a :d) :a)", "ObjectPropertyAssertion(:r :a :b)",
        "NegativeObjectPropertyAssertion(:r :b :a)", "SameIndividual(:b :c)", "DifferentIndividuals(:a :b :d)",
        "ObjectPropertyDomain(:r :A)", "ObjectPropertyRange(:r :B)", "FunctionalObjectProperty(:f)",
        "InverseFunctionalObjectProperty(:e)", "SubObjectPropertyOf(:r :s)",
        "EquivalentObjectProperties(:s ObjectInverseOf(:t))", "DisjointObjectProperties(:r :e)",
        "InverseObjectProperties(:s :t)", "SubObjectPropertyOf(ObjectPropertyChain(:r :r) :s)",
        "TransitiveObjectProperty(:r)", "SymmetricObjectProperty(:e)", "AsymmetricObjectProperty(:r)",
        "ReflexiveObjectProperty(:e)", "IrreflexiveObjectProperty(:r)",
        "SubObjectPropertyOf(owl:bottomObjectProperty :r)", "SubObjectPropertyOf(:r owl:topObjectProperty)",
        "SubClassOf(:D ObjectComplementOf(:C))",
        "SubClassOf(ObjectIntersectionOf(:A :B) ObjectSomeValuesFrom(:f owl:Thing))",
        "EquivalentClasses(ObjectSomeValuesFrom(:r :B) :A)", "SubClassOf(:D ObjectAllValuesFrom(:s owl:Nothing))",
        "ClassAssertion(ObjectMinCardinality(2 :r) :a)", "ClassAssertion(ObjectMaxCardinality(1 :r) :b)",
        "ClassAssertion(ObjectExactCardinality(1 :r :A) :a)", "SubClassOf(ObjectHasSelf(:f) ObjectHasValue(:f :b))",
        "EquivalentClasses(ObjectHasSelf(:f) ObjectOneOf(:b))");

    private static final List<String> FALSE = List.of("SubClassOf(:C :A)", "EquivalentClasses(:A :B)",
        "DisjointClasses(:A :B)", "DisjointUnion(:C :A :B)", "DisjointUnion(owl:Thing :A :D)",
        "ClassAssertion(:A :d)", "ObjectPropertyAssertion(:r :b :a)", "NegativeObjectPropertyAssertion(:r :a :b)",
        "SameIndividual(:a :b)", "DifferentIndividuals(:a :b :c)", "ObjectPropertyDomain(:r :B)",
        "ObjectPropertyRange(:r :A)", "FunctionalObjectProperty(:r)", "InverseFunctionalObjectProperty(:f)",
        "SubObjectPropertyOf(:s :r)", "EquivalentObjectProperties(:s :t)", "DisjointObjectProperties(:r :s)",
        "InverseObjectProperties(:r :t)", "SubObjectPropertyOf(ObjectPropertyChain(:s :s) :r)",
        "TransitiveObjectProperty(:s)", "SymmetricObjectProperty(:r)", "AsymmetricObjectProperty(:e)",
        "ReflexiveObjectProperty(:f)", "IrreflexiveObjectProperty(:f)",
        "SubObjectPropertyOf(:r owl:bottomObjectProperty)", "SubObjectPropertyOf(owl:topObjectProperty :r)",
        "SubClassOf(:C ObjectSomeValuesFrom(:r owl:Thing))", "SubClassOf(:A ObjectAllValuesFrom(:r :A))",
        "ClassAssertion(ObjectMinCardinality(3 :r) :a)", "ClassAssertion(ObjectMaxCardinality(1 :r) :a)",
        "ClassAssertion(ObjectExactCardinality(2 :r :A) :a)", "SubClassOf(ObjectHasValue(:f :b) ObjectHasSelf(:f))",
        "SubClassOf(ObjectOneOf(:a :b) :D)");

    private static Set<World.Edge> edges(String... pairs) {
        return Arrays.stream(pairs).map(pair -> new World.Edge(pair.charAt(0) - '0', pair.charAt(1) - '0'))
            .collect(Collectors.toSet());
    }

    @Test
    public void eachKindOfAxiomByHand() {
        Truth truth = new Truth(WORLD);
        TRUE.forEach(text -> assertTrue(text, truth.of(Ontologies.axiom(text))));
        FALSE.forEach(text -> assertFalse(text, truth.of(Ontologies.axiom(text))));
        assertTrue(truth.ofAll(Ontologies.read(String.join("\n", TRUE))));
        assertFalse(truth.ofAll(Ontologies.read(TRUE.get(0) + "\n" + FALSE.get(0))));
    }

    /** What does not follow has a world in which the whole ontology is true and it is not; what follows has none. */
    @Test
    public void theProgramsWorldsAreModels() {
        int worlds = 0;
        for (int seed = 0; seed < Called.many(2, 100); seed++) {
            Ontologies.Maker maker = new Ontologies.Maker(6_000 + seed, seed % 2 == 1);
            OWLOntology ontology = maker.ontology();
            JezundwaReasoner reasoner = Called.reasoner(ontology);
            if (!reasoner.isConsistent()) {
                continue;
            }
            List<OWLAxiom> axioms = maker.questions();
            List<Boolean> entailed = Called.entailed(reasoner, axioms);
            JezundwaExplanations explanations = new JezundwaExplanations(reasoner);
            for (int at = 0; at < axioms.size(); at++) {
                OWLAxiom axiom = axioms.get(at);
                String message = "seed " + seed + " " + axiom;
                var truth = explanations.counterexample(axiom).map(Truth::new);
                assertEquals(message, !entailed.get(at), truth.isPresent());
                truth.ifPresent(one -> assertTrue(message, one.ofAll(ontology) && !one.of(axiom)));
                worlds += truth.isPresent() ? 1 : 0;
            }
        }
        assertTrue(worlds > 0);
    }

    /** A judge who believes anything settles nothing. */
    @Test
    public void whatTheProgramCannotShowIsAFailure() {
        OWLOntology ontology = Ontologies.read("SubClassOf(:A :B)\nSubClassOf(:B :C)\nDeclaration(Class(:D))");
        Judge judge = new Judge(ontology, Called.reasoner(ontology));
        assertTrue(judge.isShownNotToFollow(Ontologies.axiom("SubClassOf(:C :A)")));
        assertFalse(judge.isShownNotToFollow(Ontologies.axiom("SubClassOf(:A :C)")));
        assertFalse(new Judge(Ontologies.read("SubClassOf(:C :A)"), Called.reasoner(ontology))
            .isShownNotToFollow(Ontologies.axiom("SubClassOf(:C :A)")));
        if (Konclude.isHere()) {
            assertTrue(judge.isShownToFollow(Ontologies.axiom("SubClassOf(:A :C)")));
            assertFalse(judge.isShownToFollow(Ontologies.axiom("SubClassOf(:A :D)")));
        }
        Certificate certificate = new JezundwaExplanations(ontology, Called.configuration())
            .certificates(Ontologies.axiom("SubClassOf(:A :C)")).get(0);
        assertTrue(Judge.isAccepted(certificate));
        assertFalse(Judge.isAccepted(new Certificate(certificate.statement(), certificate.document(),
            certificate.text().replace("axioms 1 2", "axioms 1"))));
    }
}
