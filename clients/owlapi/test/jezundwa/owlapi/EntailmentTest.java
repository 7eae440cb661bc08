package jezundwa.owlapi;

import static org.junit.Assert.assertFalse;
import static org.junit.Assert.assertThrows;
import static org.junit.Assert.assertTrue;
import static org.junit.Assume.assumeTrue;

import java.util.List;
import java.util.Set;
import java.util.stream.IntStream;
import org.junit.Test;
import org.semanticweb.owlapi.model.OWLAxiom;
import org.semanticweb.owlapi.model.OWLOntology;
import org.semanticweb.owlapi.reasoner.InconsistentOntologyException;
import org.semanticweb.owlapi.reasoner.UnsupportedEntailmentTypeException;

/** Each kind of axiom by {@code isEntailed}. */
public class EntailmentTest {
    /** The cases are worked by hand; each kind of axiom stands in both lists. */
    private static final String ONTOLOGY = """
        SubClassOf(:Dog :Animal)
        SubClassOf(:Cat :Animal)
        DisjointClasses(:Dog :Cat)
        DisjointUnion(:Pet :HouseDog :HouseCat)
        SubClassOf(:HouseDog :Dog)
        EquivalentClasses(:Hound :Dog)
        SubObjectPropertyOf(:hasPart :has)
        TransitiveObjectProperty(:has)
        EquivalentObjectProperties(:owns :possesses)
        FunctionalObjectProperty(:hasMaster)
        ObjectPropertyDomain(:hasMaster :Animal)
        ObjectPropertyRange(:hasMaster :Human)
        ObjectPropertyRange(:never owl:Nothing)
        ClassAssertion(:Dog :rex)
        ClassAssertion(:Cat :tom)
        ObjectPropertyAssertion(:hasMaster :rex :ann)
        ObjectPropertyAssertion(:hasMaster :rex :anna)
        ObjectPropertyAssertion(:has :rex :tail)
        ObjectPropertyAssertion(:hasPart :tail :tip)
        NegativeObjectPropertyAssertion(:owns :tom :ann)
        ClassAssertion(ObjectComplementOf(:Human) :tip)
        """;

    private static final List<String> FOLLOWS = List.of(
        "SubClassOf(:HouseDog :Animal)",
        "SubClassOf(ObjectSomeValuesFrom(:hasPart :Dog) ObjectSomeValuesFrom(:has :Animal))",
        "EquivalentClasses(:Hound ObjectIntersectionOf(:Dog :Animal))",
        "EquivalentClasses(:Pet ObjectUnionOf(:HouseDog :HouseCat) ObjectUnionOf(:HouseCat :HouseDog :HouseDog))",
        "DisjointClasses(:HouseDog :Cat)",
        "DisjointClasses(:HouseDog :Cat owl:Nothing)",
        "DisjointUnion(:Pet :HouseCat :HouseDog)",
        "ObjectPropertyDomain(:hasMaster ObjectUnionOf(:Animal :Human))",
        "ObjectPropertyRange(:hasMaster :Human)",
        "ObjectPropertyDomain(ObjectInverseOf(:hasMaster) :Human)",
        "ObjectPropertyRange(ObjectInverseOf(:hasMaster) :Animal)",
        "FunctionalObjectProperty(:hasMaster)",
        "InverseFunctionalObjectProperty(ObjectInverseOf(:hasMaster))",
        "InverseFunctionalObjectProperty(:never)",
        "SubObjectPropertyOf(:hasPart :has)",
        "SubObjectPropertyOf(ObjectInverseOf(:hasPart) ObjectInverseOf(:has))",
        "SubObjectPropertyOf(:never ObjectInverseOf(:has))",
        "SubObjectPropertyOf(:never owl:bottomObjectProperty)",
        "SubObjectPropertyOf(:has owl:topObjectProperty)",
        "EquivalentObjectProperties(:possesses :owns)",
        "DisjointObjectProperties(:never :has)",
        "SubObjectPropertyOf(ObjectPropertyChain(:hasPart :has :hasPart) :has)",
        "TransitiveObjectProperty(:has)",
        "TransitiveObjectProperty(:never)",
        "SymmetricObjectProperty(:never)",
        "AsymmetricObjectProperty(:never)",
        "IrreflexiveObjectProperty(:never)",
        "ReflexiveObjectProperty(owl:topObjectProperty)",
        "InverseObjectProperties(:never :never)",
        "ClassAssertion(:Animal :rex)",
        "ClassAssertion(ObjectSomeValuesFrom(:hasMaster :Human) :rex)",
        "ObjectPropertyAssertion(:has :rex :tip)",
        "ObjectPropertyAssertion(ObjectInverseOf(:has) :tip :rex)",
        "NegativeObjectPropertyAssertion(:possesses :tom :ann)",
        "NegativeObjectPropertyAssertion(:hasMaster :rex :tip)",
        "SameIndividual(:ann :anna)",
        "DifferentIndividuals(:rex :tom)",
        "DifferentIndividuals(:ann :tip)");

    private static final List<String> DOES_NOT_FOLLOW = List.of(
        "SubClassOf(:Animal :Dog)",
        "EquivalentClasses(:Dog :Animal)",
        "EquivalentClasses(:Hound :Dog :Animal)",
        "DisjointClasses(:Dog :Animal)",
        "DisjointClasses(:Cat :HouseDog :HouseCat)",
        "DisjointUnion(:Animal :Dog :Cat)",
        "ObjectPropertyDomain(:hasMaster :Dog)",
        "ObjectPropertyRange(:has :Human)",
        "ObjectPropertyRange(ObjectInverseOf(:hasMaster) :Dog)",
        "FunctionalObjectProperty(:has)",
        "InverseFunctionalObjectProperty(:hasMaster)",
        "SubObjectPropertyOf(:has :hasPart)",
        "SubObjectPropertyOf(:hasPart ObjectInverseOf(:has))",
        "SubObjectPropertyOf(:has owl:bottomObjectProperty)",
        "SubObjectPropertyOf(owl:topObjectProperty :has)",
        "EquivalentObjectProperties(:has :hasPart)",
        "DisjointObjectProperties(:hasPart :has)",
        "SubObjectPropertyOf(ObjectPropertyChain(:hasPart :has) :hasPart)",
        "TransitiveObjectProperty(:hasPart)",
        "SymmetricObjectProperty(:has)",
        "AsymmetricObjectProperty(:has)",
        "IrreflexiveObjectProperty(:has)",
        "ReflexiveObjectProperty(:has)",
        "ReflexiveObjectProperty(:never)",
        "InverseObjectProperties(:has :hasPart)",
        "ClassAssertion(:Cat :ann)",
        "ObjectPropertyAssertion(:hasPart :rex :tip)",
        "ObjectPropertyAssertion(:has :tip :rex)",
        "NegativeObjectPropertyAssertion(:owns :ann :tom)",
        "SameIndividual(:ann :rex)",
        "SameIndividual(:ann :anna :tail)",
        "DifferentIndividuals(:ann :anna)",
        "DifferentIndividuals(:rex :tom :ann)",
        "DifferentIndividuals(:ann :rex)");

    @Test
    public void whatFollowsByHand() {
        JezundwaReasoner reasoner = Called.reasoner(Ontologies.read(ONTOLOGY));
        List<OWLAxiom> axioms = FOLLOWS.stream().map(Ontologies::axiom).toList();
        List<Boolean> answers = Called.entailed(reasoner, axioms);
        for (int at = 0; at < axioms.size(); at++) {
            assertTrue(FOLLOWS.get(at), answers.get(at));
        }
    }

    @Test
    public void whatDoesNotFollowByHand() {
        JezundwaReasoner reasoner = Called.reasoner(Ontologies.read(ONTOLOGY));
        List<OWLAxiom> axioms = DOES_NOT_FOLLOW.stream().map(Ontologies::axiom).toList();
        List<Boolean> answers = Called.entailed(reasoner, axioms);
        for (int at = 0; at < axioms.size(); at++) {
            assertFalse(DOES_NOT_FOLLOW.get(at), answers.get(at));
        }
    }

    @Test
    public void severalAxiomsFollowWhereEachDoes() {
        JezundwaReasoner reasoner = Called.reasoner(Ontologies.read(ONTOLOGY));
        OWLAxiom yes = Ontologies.axiom(FOLLOWS.get(0));
        OWLAxiom no = Ontologies.axiom(DOES_NOT_FOLLOW.get(0));
        assertTrue(reasoner.isEntailed(Set.of(yes)));
        assertFalse(reasoner.isEntailed(Set.of(yes, no)));
        assertTrue(reasoner.isEntailed(Set.of()));
    }

    @Test
    public void whatCannotBeAskedIsRefused() {
        JezundwaReasoner reasoner = Called.reasoner(Ontologies.read(ONTOLOGY));
        for (String text : List.of("FunctionalDataProperty(:age)",
            "DataPropertyAssertion(:age :rex \"3\"^^xsd:integer)",
            "HasKey(:Dog (:hasMaster) ())", "ClassAssertion(:Dog _:someone)",
            "SubClassOf(:Dog ObjectHasValue(:hasMaster :ann))", "SubClassOf(:Dog ObjectMinCardinality(2 :has :Dog))")) {
            assertThrows(text, UnsupportedEntailmentTypeException.class,
                () -> reasoner.isEntailed(Ontologies.axiom(text)));
        }
        for (OWLAxiom axiom : Ontologies.read(ONTOLOGY).getLogicalAxioms()) {
            assertTrue(reasoner.isEntailmentCheckingSupported(axiom.getAxiomType()));
        }
        assertFalse(reasoner.isEntailmentCheckingSupported(
            Ontologies.axiom("FunctionalDataProperty(:age)").getAxiomType()));
    }

    @Test
    public void anInconsistentOntologyHasNoOtherAnswers() {
        JezundwaReasoner reasoner = Called.reasoner(Ontologies.read(ONTOLOGY + "ClassAssertion(:Cat :rex)"));
        assertFalse(reasoner.isConsistent());
        OWLAxiom axiom = Ontologies.axiom(FOLLOWS.get(0));
        assertThrows(InconsistentOntologyException.class, () -> reasoner.isEntailed(axiom));
        assertThrows(InconsistentOntologyException.class, reasoner::getUnsatisfiableClasses);
        assertThrows(InconsistentOntologyException.class, () -> reasoner.isSatisfiable(Ontologies.type("Dog")));
        assertThrows(InconsistentOntologyException.class, () -> reasoner.getTypes(Ontologies.individual("rex"), true));
        assertThrows(InconsistentOntologyException.class,
            () -> reasoner.getInstances(Ontologies.type("Dog"), false));
        assertThrows(InconsistentOntologyException.class,
            () -> reasoner.getSameIndividuals(Ontologies.individual("rex")));
    }

    @Test
    public void randomAxiomsAsKoncludeSays() {
        assumeTrue("konclude is not installed", Konclude.isHere());
        int compared = 0;
        int entailed = 0;
        for (int seed : seeds()) {
            Ontologies.Maker maker = new Ontologies.Maker(seed, seed % 2 == 1);
            OWLOntology ontology = maker.ontology();
            List<OWLAxiom> questions = maker.questions();
            List<Boolean> expected;
            try {
                expected = Konclude.entailed(ontology, questions);
            } catch (Konclude.NoAnswer crash) {
                continue;
            }
            JezundwaReasoner reasoner = Called.reasoner(ontology);
            Judge judge = new Judge(ontology, reasoner);
            String message = "seed " + seed;
            judge.compare(message, Judge.inconsistency(), expected == null, !reasoner.isConsistent());
            if (expected == null || !reasoner.isConsistent()) {
                continue;
            }
            List<Boolean> answers = Called.entailed(reasoner, questions);
            for (int at = 0; at < questions.size(); at++) {
                judge.compare(message, questions.get(at), expected.get(at), answers.get(at));
            }
            compared += questions.size();
            entailed += (int) answers.stream().filter(answer -> answer).count();
        }
        System.out.println("compared with Konclude: " + compared + " axioms, of which " + entailed + " follow");
        assertTrue(entailed > compared / 50 && entailed < compared);
    }

    /** In the gate a few, and 13, where Konclude says that more follows than does. */
    private static List<Integer> seeds() {
        return Called.isLongForm() ? IntStream.range(0, 300).boxed().toList()
            : List.of(0, 1, 2, 3, 4, 5, 6, 7, 13);
    }
}
