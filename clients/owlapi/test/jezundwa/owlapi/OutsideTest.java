package jezundwa.owlapi;

import static org.junit.Assert.assertEquals;
import static org.junit.Assert.assertFalse;
import static org.junit.Assert.assertThrows;
import static org.junit.Assert.assertTrue;
import static org.junit.Assume.assumeTrue;

import java.util.ArrayList;
import java.util.HashSet;
import java.util.List;
import java.util.Map;
import java.util.Set;
import java.util.TreeSet;
import org.junit.Test;
import org.semanticweb.owlapi.apibinding.OWLManager;
import org.semanticweb.owlapi.model.OWLAxiom;
import org.semanticweb.owlapi.model.OWLClass;
import org.semanticweb.owlapi.model.OWLDataFactory;
import org.semanticweb.owlapi.model.OWLOntology;
import org.semanticweb.owlapi.model.parameters.Imports;

/** Axioms outside of the language: refused, left out, or translated. */
public class OutsideTest {
    /** Each axiom is outside of the language by what stands before it. */
    private static final Map<String, String> OUTSIDE = Map.ofEntries(
        Map.entry("SubClassOf(:A ObjectHasValue(:r :a))", "ObjectHasValue"),
        Map.entry("SubClassOf(ObjectOneOf(:a :b) :A)", "ObjectOneOf"),
        Map.entry("SubClassOf(:A ObjectHasSelf(:r))", "ObjectHasSelf"),
        Map.entry("SubClassOf(:A ObjectSomeValuesFrom(ObjectInverseOf(:r) :B))", "ObjectInverseOf"),
        Map.entry("SubClassOf(:A ObjectMinCardinality(101 :r :B))", "number"),
        Map.entry("SubClassOf(:A ObjectMaxCardinality(1 :t :B))", "not-simple"),
        Map.entry("SubClassOf(:A DataSomeValuesFrom(:p xsd:string))", "DataSomeValuesFrom"),
        Map.entry("SubClassOf(:A DataAllValuesFrom(:p DataOneOf(\"1\"^^xsd:integer)))", "DataAllValuesFrom"),
        Map.entry("SubClassOf(:A DataHasValue(:p \"a \\\"b\\\" \\\\\"))", "DataHasValue"),
        Map.entry("SubClassOf(:A DataMinCardinality(2 :p))", "DataMinCardinality"),
        Map.entry("SubClassOf(:A DataMaxCardinality(2 :p))", "DataMaxCardinality"),
        Map.entry("SubClassOf(:A DataExactCardinality(2 :p))", "DataExactCardinality"),
        Map.entry("SubObjectPropertyOf(ObjectPropertyChain(:r :s) :r)", "ObjectPropertyChain"),
        Map.entry("DisjointObjectProperties(:r :s)", "DisjointObjectProperties"),
        Map.entry("InverseObjectProperties(:r :s)", "InverseObjectProperties"),
        Map.entry("InverseFunctionalObjectProperty(:r)", "InverseFunctionalObjectProperty"),
        Map.entry("FunctionalObjectProperty(ObjectInverseOf(:r))", "InverseFunctionalObjectProperty"),
        Map.entry("ReflexiveObjectProperty(:r)", "ReflexiveObjectProperty"),
        Map.entry("IrreflexiveObjectProperty(:r)", "IrreflexiveObjectProperty"),
        Map.entry("SymmetricObjectProperty(:r)", "SymmetricObjectProperty"),
        Map.entry("AsymmetricObjectProperty(:r)", "AsymmetricObjectProperty"),
        Map.entry("SubDataPropertyOf(:p :q)", "SubDataPropertyOf"),
        Map.entry("EquivalentDataProperties(:p :q)", "EquivalentDataProperties"),
        Map.entry("DisjointDataProperties(:p :q)", "DisjointDataProperties"),
        Map.entry("DataPropertyDomain(:p :A)", "DataPropertyDomain"),
        Map.entry("DataPropertyRange(:p DatatypeRestriction(xsd:integer xsd:minInclusive \"3\"^^xsd:integer))",
            "DataPropertyRange"),
        Map.entry("FunctionalDataProperty(:p)", "FunctionalDataProperty"),
        Map.entry("DataPropertyAssertion(:p :a \"hola\"@es)", "DataPropertyAssertion"),
        Map.entry("NegativeDataPropertyAssertion(:p :a \"3\"^^xsd:integer)", "NegativeDataPropertyAssertion"),
        Map.entry("DatatypeDefinition(:d DataComplementOf(xsd:string))", "DatatypeDefinition"),
        Map.entry("HasKey(:A (:r) (:p))", "HasKey"),
        Map.entry("SubObjectPropertyOf(owl:topObjectProperty :r)", "owl:topObjectProperty"));

    /** What has another form in the language, and is taken as it is. */
    private static final List<String> INSIDE = List.of("SubObjectPropertyOf(ObjectPropertyChain(:r :r) :r)",
        "SubObjectPropertyOf(ObjectInverseOf(:r) ObjectInverseOf(:s))",
        "InverseFunctionalObjectProperty(ObjectInverseOf(:f))", "ObjectPropertyDomain(ObjectInverseOf(:r) :A)",
        "ObjectPropertyRange(ObjectInverseOf(:r) :A)", "TransitiveObjectProperty(ObjectInverseOf(:r))",
        "NegativeObjectPropertyAssertion(:r :a :b)", "ObjectPropertyAssertion(ObjectInverseOf(:r) :a :b)",
        "ClassAssertion(:A _:someone)", "SubObjectPropertyOf(:r owl:topObjectProperty)",
        "SubObjectPropertyOf(owl:bottomObjectProperty :r)", "DisjointUnion(owl:Thing :D :E)");

    /** Axioms that are outside, about the names of random ontologies. */
    private static final List<String> WITH_MEANING = List.of("SubClassOf(:A0 ObjectHasValue(:R0 :i0))",
        "SubClassOf(:A1 ObjectOneOf(:i0 :i1))", "InverseObjectProperties(:R0 :R1)", "SymmetricObjectProperty(:R0)",
        "SubClassOf(ObjectSomeValuesFrom(ObjectInverseOf(:R1) :A2) :A3)", "DataPropertyDomain(:p :A3)",
        "SubClassOf(:A4 DataSomeValuesFrom(:p xsd:integer))");

    // in milliseconds: with some of these ontologies Konclude was seen to wait for ever
    private static final long LONGEST = 20_000;

    private static final String REST = "\nTransitiveObjectProperty(:t)\nSubClassOf(:A :B)\nSubClassOf(:B :C)";

    private static JezundwaReasoner reasoner(String text, OutsidePolicy policy) {
        return new JezundwaReasonerFactory().createReasoner(Ontologies.read(text),
            Called.configuration().withOutside(policy));
    }

    @Test
    public void strictRefusesEachByName() {
        OUTSIDE.forEach((text, construct) -> {
            OutsideAxiomException refused = assertThrows(text, OutsideAxiomException.class,
                () -> reasoner(text + REST, OutsidePolicy.STRICT));
            assertEquals(Ontologies.axiom(text), refused.getAxiom());
            assertEquals(text, construct, refused.construct());
            String message = refused.getMessage();
            assertTrue(message, message.startsWith(construct + " is outside of the language"));
        });
    }

    @Test
    public void leaveOutTellsEachWithItsConstruct() {
        OUTSIDE.forEach((text, construct) -> {
            Coverage coverage = reasoner(text + REST, OutsidePolicy.LEAVE_OUT).coverage();
            assertEquals(text, Map.of(Ontologies.axiom(text), construct), coverage.outside());
            assertTrue(coverage.isCertain(true));
            assertFalse(coverage.isCertain(false));
        });
    }

    @Test
    public void whatHasAnotherFormIsTakenAsItIs() {
        INSIDE.forEach(text -> assertTrue(text, reasoner(text + REST, OutsidePolicy.STRICT).coverage().isWhole()));
    }

    /** One document with everything that is left out, and with every other form, is one that the program reads. */
    @Test
    public void theProgramReadsWhatIsLeft() {
        String all = String.join("\n", OUTSIDE.keySet()) + "\n" + String.join("\n", INSIDE) + REST;
        JezundwaReasoner reasoner = reasoner(all, OutsidePolicy.LEAVE_OUT);
        assertTrue(reasoner.isConsistent());
        assertTrue(reasoner.isEntailed(Ontologies.axiom("SubClassOf(:A :C)")));
        OUTSIDE.keySet().forEach(
            text -> assertTrue(text, reasoner.coverage().outside().containsKey(Ontologies.axiom(text))));
    }

    @Test
    public void approximateTranslatesWhatIsOutside() {
        requireTranslator();
        String text = "SubClassOf(:A ObjectHasValue(:r :a))\nSubClassOf(ObjectHasValue(:r :a) :B)"
            + "\nSubClassOf(:B DataHasValue(:p \"x\"))\nDataPropertyDomain(:p :C)\nClassAssertion(:A :b)";
        assertFalse(reasoner(text, OutsidePolicy.LEAVE_OUT).isEntailed(Ontologies.axiom("SubClassOf(:A :C)")));
        JezundwaReasoner reasoner = reasoner(text, OutsidePolicy.APPROXIMATE);
        assertTrue(reasoner.isEntailed(Ontologies.axiom("SubClassOf(:A :C)")));
        assertEquals(Set.of(Ontologies.type("B")), reasoner.getSuperClasses(Ontologies.type("A"), true).getFlattened());
        assertEquals(Set.of(Ontologies.type("C")), reasoner.getSuperClasses(Ontologies.type("B"), true).getFlattened());
        assertEquals(Set.of(Ontologies.type("A")),
            reasoner.getTypes(Ontologies.individual("b"), true).getFlattened());
        Coverage coverage = reasoner.coverage();
        assertEquals(4, coverage.outside().size());
        assertTrue(coverage.summary(), coverage.summary().contains("translat"));
        assertFalse(coverage.isCertain(false));
        AxiomSets reasons = new JezundwaExplanations(reasoner).justifications(Ontologies.axiom("SubClassOf(:A :C)"));
        Set<OWLAxiom> expected = new HashSet<>();
        for (String axiom : List.of("SubClassOf(:A ObjectHasValue(:r :a))", "SubClassOf(ObjectHasValue(:r :a) :B)",
            "SubClassOf(:B DataHasValue(:p \"x\"))", "DataPropertyDomain(:p :C)")) {
            expected.add(Ontologies.axiom(axiom));
        }
        assertEquals(List.of(expected), reasons.sets());
    }

    @Test
    public void aLiteralOfSeveralLinesKeepsTheLinesOfTheRest() {
        requireTranslator();
        JezundwaReasoner reasoner = reasoner("SubClassOf(:A DataHasValue(:p \"one\ntwo (\nthree\"))"
            + "\nSubClassOf(DataHasValue(:p \"one\ntwo (\nthree\") :B)\nSubClassOf(:B :C)", OutsidePolicy.APPROXIMATE);
        AxiomSets reasons = new JezundwaExplanations(reasoner).justifications(Ontologies.axiom("SubClassOf(:A :C)"));
        assertEquals(List.of(reasoner.getRootOntology().getLogicalAxioms()), reasons.sets());
    }

    /** Under each policy, nothing follows that does not follow from the whole ontology, as Konclude sees it. */
    @Test
    public void neverMoreThanKoncludeOnTheWhole() {
        assumeTrue("konclude is not installed", Konclude.isHere());
        List<OutsidePolicy> policies = policies();
        int found = 0;
        for (int seed = 0; seed < Called.many(3, 300); seed++) {
            OWLOntology ontology = withOutside(seed);
            List<OWLAxiom> questions = inclusions(ontology);
            List<Boolean> expected;
            try {
                expected = Konclude.entailedWithin(LONGEST, ontology, questions);
            } catch (Konclude.NoAnswer crash) {
                continue;
            }
            for (OutsidePolicy policy : policies) {
                JezundwaConfiguration configuration = Called.configuration().withOutside(policy);
                if (policy == OutsidePolicy.STRICT && choice(seed) != 0) {
                    assertThrows(OutsideAxiomException.class,
                        () -> new JezundwaReasonerFactory().createReasoner(ontology, configuration));
                    continue;
                }
                found += compare("seed " + seed + " " + policy, ontology, questions, expected,
                    new JezundwaReasonerFactory().createReasoner(ontology, configuration));
            }
        }
        assertTrue(found > 0);
    }

    private static List<OutsidePolicy> policies() {
        return hasTranslator() ? List.of(OutsidePolicy.values())
            : List.of(OutsidePolicy.STRICT, OutsidePolicy.LEAVE_OUT);
    }

    /** How many questions follow; each of these has to follow for Konclude too. */
    private static int compare(String message, OWLOntology ontology, List<OWLAxiom> questions, List<Boolean> expected,
            JezundwaReasoner reasoner) {
        Judge judge = new Judge(ontology, reasoner);
        boolean isConsistent = reasoner.isConsistent();
        if (!isConsistent) {
            judge.compare(message, Judge.inconsistency(), expected == null, true);
        }
        if (!isConsistent || expected == null) {
            return 0;
        }
        List<Boolean> answers = Called.entailed(reasoner, questions);
        int found = 0;
        for (int at = 0; at < answers.size(); at++) {
            if (answers.get(at)) {
                judge.compare(message, questions.get(at), expected.get(at), true);
                found++;
            }
        }
        return found;
    }

    /** Which of the axioms that are outside an ontology has, as bits: each choice is that of some seed. */
    private static int choice(int seed) {
        return seed * 45 % (1 << WITH_MEANING.size());
    }

    private static OWLOntology withOutside(int seed) {
        OWLOntology ontology = new Ontologies.Maker(5_000 + seed, true).ontology();
        for (int at = 0; at < WITH_MEANING.size(); at++) {
            if ((choice(seed) >> at & 1) == 1) {
                ontology.getOWLOntologyManager().addAxiom(ontology, Ontologies.axiom(WITH_MEANING.get(at)));
            }
        }
        return ontology;
    }

    private static List<OWLAxiom> inclusions(OWLOntology ontology) {
        OWLDataFactory factory = OWLManager.getOWLDataFactory();
        List<OWLAxiom> inclusions = new ArrayList<>();
        Set<OWLClass> types = new TreeSet<>(ontology.getClassesInSignature(Imports.INCLUDED));
        for (OWLClass one : types) {
            inclusions.add(factory.getOWLSubClassOfAxiom(one, factory.getOWLNothing()));
            types.forEach(other -> inclusions.add(factory.getOWLSubClassOfAxiom(one, other)));
        }
        ontology.getIndividualsInSignature(Imports.INCLUDED).forEach(individual -> types.forEach(
            type -> inclusions.add(factory.getOWLClassAssertionAxiom(type, individual))));
        return inclusions;
    }

    private static boolean hasTranslator() {
        return new ProcessCheck("approximate").isKnown();
    }

    private static void requireTranslator() {
        assumeTrue("shq approximate is not here", hasTranslator());
    }

    /** Whether {@code shq} knows a word. */
    private record ProcessCheck(String word) {
        boolean isKnown() {
            try {
                return new ProgramCall(Called.configuration().translator(), List.of(word),
                    OntologyDocument.bytes("Ontology(\n)\n")).run(Called.LONGEST).status() == ProgramStatus.DONE;
            } catch (ProgramException.NotFound missing) {
                return false;
            }
        }
    }
}
