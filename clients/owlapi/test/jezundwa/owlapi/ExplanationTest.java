package jezundwa.owlapi;

import static org.junit.Assert.assertEquals;
import static org.junit.Assert.assertFalse;
import static org.junit.Assert.assertThrows;
import static org.junit.Assert.assertTrue;
import static org.junit.Assume.assumeTrue;

import com.clarkparsia.owlapi.explanation.BlackBoxExplanation;
import com.clarkparsia.owlapi.explanation.HSTExplanationGenerator;
import java.util.ArrayList;
import java.util.Collections;
import java.util.HashSet;
import java.util.List;
import java.util.Random;
import java.util.Set;
import java.util.TreeSet;
import java.util.stream.Collectors;
import org.junit.Test;
import org.semanticweb.owlapi.model.AxiomType;
import org.semanticweb.owlapi.model.OWLAxiom;
import org.semanticweb.owlapi.model.OWLClass;
import org.semanticweb.owlapi.model.OWLOntology;

/** Justifications, repairs, certificates and worlds. */
public class ExplanationTest {
    private static final String ORGANS = """
        SubClassOf(:Heart :Muscular)
        SubClassOf(:Muscular :Organ)
        SubClassOf(:Heart ObjectIntersectionOf(:Hollow :Thoracic))
        SubClassOf(:Thoracic :Organ)
        SubClassOf(:Lung :Thoracic)
        """;

    private static Set<OWLAxiom> axioms(String... texts) {
        Set<OWLAxiom> axioms = new HashSet<>();
        for (String text : texts) {
            axioms.add(Ontologies.axiom(text));
        }
        return axioms;
    }

    private static JezundwaExplanations of(String text) {
        return new JezundwaExplanations(Ontologies.read(text), Called.configuration());
    }

    private static Set<Set<OWLAxiom>> justifications(JezundwaExplanations explanations, String statement) {
        AxiomSets found = explanations.justifications(Ontologies.axiom(statement));
        assertTrue(found.isWhole());
        return new HashSet<>(found.sets());
    }

    private static Set<Set<OWLAxiom>> repairs(JezundwaExplanations explanations, String statement) {
        AxiomSets found = explanations.repairs(Ontologies.axiom(statement));
        assertTrue(found.isWhole());
        return new HashSet<>(found.sets());
    }

    @Test
    public void twoReasonsAndFourRepairs() {
        JezundwaExplanations explanations = of(ORGANS);
        String muscular = "SubClassOf(:Heart :Muscular)";
        String organ = "SubClassOf(:Muscular :Organ)";
        String hollow = "SubClassOf(:Heart ObjectIntersectionOf(:Hollow :Thoracic))";
        String thoracic = "SubClassOf(:Thoracic :Organ)";
        assertEquals(Set.of(axioms(muscular, organ), axioms(hollow, thoracic)),
            justifications(explanations, "SubClassOf(:Heart :Organ)"));
        assertEquals(Set.of(axioms(muscular, hollow), axioms(muscular, thoracic), axioms(organ, hollow),
            axioms(organ, thoracic)), repairs(explanations, "SubClassOf(:Heart :Organ)"));
    }

    @Test
    public void whatDoesNotFollowHasNoReason() {
        JezundwaExplanations explanations = of(ORGANS);
        assertEquals(Set.of(), justifications(explanations, "SubClassOf(:Organ :Heart)"));
        assertEquals(Set.of(Set.of()), repairs(explanations, "SubClassOf(:Organ :Heart)"));
    }

    @Test
    public void whatFollowsFromNothingHasTheEmptyReasonAndNoRepair() {
        JezundwaExplanations explanations = of(ORGANS);
        assertEquals(Set.of(Set.of()), justifications(explanations, "SubClassOf(:Heart :Heart)"));
        assertEquals(Set.of(), repairs(explanations, "SubClassOf(:Heart :Heart)"));
    }

    @Test
    public void anInconsistencyHasReasons() {
        JezundwaExplanations explanations =
            of("DisjointClasses(:A :B)\nClassAssertion(:A :x)\nClassAssertion(:B :x)\nClassAssertion(:B :y)");
        assertEquals(Set.of(axioms("DisjointClasses(:A :B)", "ClassAssertion(:A :x)", "ClassAssertion(:B :x)")),
            justifications(explanations, "SubClassOf(owl:Thing owl:Nothing)"));
    }

    /** Roles are asked about by assumptions, which are in no reason and in no repair. */
    @Test
    public void assumptionsAreNotInTheSets() {
        JezundwaExplanations explanations = of("SubObjectPropertyOf(:r :s)\nSubObjectPropertyOf(:s :t)");
        String statement = "SubObjectPropertyOf(:r :t)";
        assertEquals(Set.of(axioms("SubObjectPropertyOf(:r :s)", "SubObjectPropertyOf(:s :t)")),
            justifications(explanations, statement));
        assertEquals(Set.of(axioms("SubObjectPropertyOf(:r :s)"), axioms("SubObjectPropertyOf(:s :t)")),
            repairs(explanations, statement));
    }

    /** An equivalence of roles is two questions: a reason has one of each, and a repair stops one of them. */
    @Test
    public void severalQuestionsAreTakenTogether() {
        JezundwaExplanations explanations =
            of("SubObjectPropertyOf(:r :s)\nSubObjectPropertyOf(:s :r)\nEquivalentObjectProperties(:r :s)");
        String statement = "EquivalentObjectProperties(:r :s)";
        assertEquals(Set.of(axioms("SubObjectPropertyOf(:r :s)", "SubObjectPropertyOf(:s :r)"), axioms(statement)),
            justifications(explanations, statement));
        assertEquals(Set.of(axioms("SubObjectPropertyOf(:r :s)", statement),
            axioms("SubObjectPropertyOf(:s :r)", statement)), repairs(explanations, statement));
    }

    /** A negative assertion is two axioms for the program, and one in a reason. */
    @Test
    public void anAxiomThatBecomesSeveralIsOne() {
        String negative = "NegativeObjectPropertyAssertion(:knows :a :b)";
        JezundwaExplanations explanations = of(negative + "\nObjectPropertyAssertion(:knows :a :b)");
        assertEquals(Set.of(axioms(negative, "ObjectPropertyAssertion(:knows :a :b)")),
            justifications(explanations, "SubClassOf(owl:Thing owl:Nothing)"));
        assertEquals(Set.of(axioms(negative), axioms("ObjectPropertyAssertion(:knows :a :b)")),
            repairs(explanations, "SubClassOf(owl:Thing owl:Nothing)"));
    }

    @Test
    public void axiomsWithDifferentAnnotationsAreTwo() {
        String annotated = "SubClassOf(Annotation(<http://www.w3.org/2000/01/rdf-schema#comment> \"why\") :A :B)";
        JezundwaExplanations explanations = of(annotated + "\nSubClassOf(:A :B)");
        assertEquals(Set.of(axioms(annotated), axioms("SubClassOf(:A :B)")),
            justifications(explanations, "SubClassOf(:A :B)"));
    }

    /** Each number of the program's text leads to the axiom whose text stands there. */
    @Test
    public void eachNumberLeadsToItsAxiom() {
        for (int seed = 0; seed < 50; seed++) {
            OWLOntology ontology = new Ontologies.Maker(seed, true).ontology();
            OntologyDocument document = new Snapshot(ontology, Called.configuration(),
                new CallRunner(Called.configuration())).document();
            Rewriting rewriting = new Rewriting(ontology.getOWLOntologyManager().getOWLDataFactory(),
                new Helpers(ontology.getOWLOntologyManager().getOWLDataFactory(), "axiom"));
            int number = 0;
            for (OWLAxiom axiom : document.axioms()) {
                for (OWLAxiom part : rewriting.of(axiom)) {
                    number++;
                    assertEquals(axiom, document.axiomOf(number));
                    assertTrue(document.text().line(document.text().lineOf(number)).contains(document.text(part)));
                }
            }
            assertEquals(number, document.text().axiomCount());
            assertEquals(null, document.axiomOf(number + 1));
        }
    }

    @Test
    public void certificatesAreAccepted() {
        JezundwaExplanations explanations = of(ORGANS + "DisjointClasses(:Lung :Hollow)\nClassAssertion(:Lung :mine)");
        for (String statement : List.of("SubClassOf(:Heart :Organ)", "SubClassOf(:Organ :Heart)",
            "DisjointClasses(:Heart :Lung)", "ClassAssertion(:Organ :mine)", "SubObjectPropertyOf(:r :s)")) {
            for (Certificate certificate : explanations.certificates(Ontologies.axiom(statement))) {
                ProgramAnswer answer = new ProgramCall(Called.configuration().command(),
                    List.of("check", certificate.statement()),
                    OntologyDocument.bytes(certificate.document() + certificate.text())).run(Called.LONGEST);
                assertEquals(statement, certificate.isOfEntailment() ? "accepted entailed" : "accepted not entailed",
                    answer.firstLine());
            }
        }
    }

    @Test
    public void worldsAreExamples() {
        JezundwaExplanations explanations =
            of(ORGANS + "SubClassOf(:Heart ObjectSomeValuesFrom(:partOf :Body))\nClassAssertion(:Lung :mine)");
        World world = explanations.example(Ontologies.type("Heart")).orElseThrow();
        int heart = world.members().get(Ontologies.type("Heart")).iterator().next();
        assertTrue(world.members().get(Ontologies.type("Organ")).contains(heart));
        World.Edge edge = world.edges().get(Ontologies.role("partOf")).stream()
            .filter(pair -> pair.from() == heart).findFirst().orElseThrow();
        assertTrue(world.members().get(Ontologies.type("Body")).contains(edge.to()));
        assertTrue(world.members().get(Ontologies.type("Lung"))
            .contains(world.individuals().get(Ontologies.individual("mine"))));
        World against = explanations.counterexample(Ontologies.axiom("SubClassOf(:Organ :Heart)")).orElseThrow();
        Set<Integer> organs = against.members().get(Ontologies.type("Organ"));
        assertFalse(against.members().getOrDefault(Ontologies.type("Heart"), Set.of()).containsAll(organs));
        assertTrue(explanations.counterexample(Ontologies.axiom("SubClassOf(:Heart :Organ)")).isEmpty());
    }

    @Test
    public void theLibrarysInterfaceIsMet() {
        JezundwaExplanations explanations = of("SubClassOf(:A :B)\nSubClassOf(:A ObjectComplementOf(:B))\n"
            + "SubClassOf(:A :C)\nDisjointClasses(:C :B)");
        OWLClass a = Ontologies.type("A");
        assertEquals(2, explanations.getExplanations(a).size());
        assertEquals(1, explanations.getExplanations(a, 1).size());
        assertTrue(explanations.getExplanations(a).contains(explanations.getExplanation(a)));
        assertEquals(Set.of(), explanations.getExplanation(Ontologies.type("B")));
    }

    @Test
    public void aSpentBudgetIsSaid() {
        JezundwaExplanations explanations =
            new JezundwaExplanations(Ontologies.read(ORGANS), Called.configuration().withBudget(2));
        AxiomSets found = explanations.justifications(Ontologies.axiom("SubClassOf(:Heart :Organ)"));
        assertFalse(found.isWhole());
        assertThrows(BudgetSpentException.class, () -> explanations.getExplanations(Ontologies.type("Heart")));
    }

    /**
     * All subsets of small ontologies, as copies with names of their own, are asked of Konclude in one run. Where it
     * says otherwise of one than the program's justifications do, that subset is looked at by itself.
     */
    @Test
    public void allSetsAsKoncludeSaysOfEachSubset() {
        Called.requireLongForm();
        assumeTrue("konclude is not installed", Konclude.isHere());
        int compared = 0;
        for (int seed = 0; compared < 40 && seed < 300; seed++) {
            Ontologies.Maker maker = new Ontologies.Maker(1_000 + seed, false);
            List<OWLAxiom> axioms = sixOf(maker.ontology(), seed);
            for (OWLAxiom statement : maker.questions()) {
                List<Boolean> ofKonclude = statement.isOfType(AxiomType.SUBCLASS_OF)
                    ? Subsets.entailed(axioms, statement) : null;
                if (ofKonclude != null && ofKonclude.get(ofKonclude.size() - 1) && !ofKonclude.get(0)) {
                    compareSubsets("seed " + seed, axioms, statement, ofKonclude);
                    compared++;
                    break;
                }
            }
        }
        System.out.println("compared with Konclude's answers to all subsets: " + compared + " statements");
        assertTrue(compared > 0);
    }

    /** Some axioms of all kinds, the same ones in every run. */
    private static List<OWLAxiom> sixOf(OWLOntology ontology, long seed) {
        List<OWLAxiom> axioms = new ArrayList<>(new TreeSet<>(ontology.getLogicalAxioms()));
        Collections.shuffle(axioms, new Random(seed));
        return axioms.subList(0, 6);
    }

    private static void compareSubsets(String message, List<OWLAxiom> axioms, OWLAxiom statement,
            List<Boolean> ofKonclude) {
        JezundwaExplanations explanations =
            new JezundwaExplanations(Ontologies.of(new HashSet<>(axioms)), Called.configuration());
        Set<Set<OWLAxiom>> justifications = new HashSet<>(explanations.justifications(statement).sets());
        List<Boolean> ofProgram = new ArrayList<>();
        for (int subset = 0; subset < ofKonclude.size(); subset++) {
            Set<OWLAxiom> members = Subsets.members(axioms, subset);
            ofProgram.add(justifications.stream().anyMatch(members::containsAll));
            if (!ofProgram.get(subset).equals(ofKonclude.get(subset))) {
                OWLOntology alone = Ontologies.of(members);
                new Judge(alone, Called.reasoner(alone)).compare(message + ", subset " + subset, statement,
                    ofKonclude.get(subset), ofProgram.get(subset));
            }
        }
        assertEquals(message + " " + statement, Subsets.smallest(axioms, ofProgram), justifications);
        assertEquals(message + " " + statement, Subsets.repairs(axioms, ofProgram),
            new HashSet<>(explanations.repairs(statement).sets()));
    }

    /** The library's own black box, over this reasoner: it tries sets where the program is told to list them. */
    @Test
    public void listsAsTheLibrarysBlackBoxFinds() {
        Called.requireLongForm();
        int compared = 0;
        for (int seed = 0; compared < Called.many(1, 40); seed++) {
            OWLOntology ontology = new Ontologies.Maker(2_000 + seed, false).ontology();
            JezundwaReasoner reasoner = Called.reasoner(ontology);
            if (!reasoner.isConsistent() || reasoner.getUnsatisfiableClasses().getEntitiesMinusBottom().isEmpty()) {
                continue;
            }
            OWLClass type = reasoner.getUnsatisfiableClasses().getEntitiesMinusBottom().iterator().next();
            BlackBoxExplanation single =
                new BlackBoxExplanation(ontology, new JezundwaReasonerFactory(Called.configuration()), reasoner);
            HSTExplanationGenerator all = new HSTExplanationGenerator(single);
            Set<Set<OWLAxiom>> expected = all.getExplanations(type).stream().map(HashSet::new)
                .collect(Collectors.toSet());
            assertEquals("seed " + seed, expected, new JezundwaExplanations(reasoner).getExplanations(type));
            compared++;
        }
    }
}
