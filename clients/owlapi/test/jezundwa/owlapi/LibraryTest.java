package jezundwa.owlapi;

import static org.junit.Assert.assertEquals;
import static org.junit.Assert.assertFalse;
import static org.junit.Assert.assertTrue;

import java.util.HashMap;
import java.util.HashSet;
import java.util.List;
import java.util.Map;
import java.util.Random;
import java.util.Set;
import java.util.TreeSet;
import java.util.function.Function;
import java.util.stream.Collectors;
import org.junit.Test;
import org.semanticweb.owlapi.apibinding.OWLManager;
import org.semanticweb.owlapi.model.IRI;
import org.semanticweb.owlapi.model.OWLAxiom;
import org.semanticweb.owlapi.model.OWLClass;
import org.semanticweb.owlapi.model.OWLDataFactory;
import org.semanticweb.owlapi.model.OWLDataProperty;
import org.semanticweb.owlapi.model.OWLNamedIndividual;
import org.semanticweb.owlapi.model.OWLObject;
import org.semanticweb.owlapi.model.OWLObjectProperty;
import org.semanticweb.owlapi.model.OWLObjectPropertyExpression;
import org.semanticweb.owlapi.model.OWLOntology;
import org.semanticweb.owlapi.reasoner.Node;
import org.semanticweb.owlapi.reasoner.NodeSet;
import org.semanticweb.owlapi.reasoner.OWLReasoner;
import org.semanticweb.owlapi.reasoner.structural.StructuralReasonerFactory;
import org.semanticweb.owlapi.util.InferredClassAssertionAxiomGenerator;
import org.semanticweb.owlapi.util.InferredDisjointClassesAxiomGenerator;
import org.semanticweb.owlapi.util.InferredEquivalentClassAxiomGenerator;
import org.semanticweb.owlapi.util.InferredEquivalentObjectPropertyAxiomGenerator;
import org.semanticweb.owlapi.util.InferredInverseObjectPropertiesAxiomGenerator;
import org.semanticweb.owlapi.util.InferredObjectPropertyCharacteristicAxiomGenerator;
import org.semanticweb.owlapi.util.InferredOntologyGenerator;
import org.semanticweb.owlapi.util.InferredPropertyAssertionGenerator;
import org.semanticweb.owlapi.util.InferredSubClassAxiomGenerator;
import org.semanticweb.owlapi.util.InferredSubObjectPropertyAxiomGenerator;

/** What the library expects of a reasoner, and what its own tools make of this one. */
public class LibraryTest {
    private static final OWLDataFactory FACTORY = OWLManager.getOWLDataFactory();

    /** The nodes of an answer without those of the top and of the bottom. */
    private static <E extends OWLObject> Set<Set<E>> named(NodeSet<E> nodes) {
        return nodes.getNodes().stream().filter(node -> !node.isTopNode() && !node.isBottomNode())
            .map(node -> Set.copyOf(node.getEntities())).collect(Collectors.toSet());
    }

    private static <E extends OWLObject> Set<E> named(Node<E> node) {
        return Set.copyOf(node.getEntities());
    }

    @Test
    public void nodesOfTheTopAndOfTheBottom() {
        JezundwaReasoner reasoner = Called.reasoner(Ontologies.read("""
            EquivalentClasses(:A owl:Thing)
            EquivalentClasses(:B :C)
            SubClassOf(:D :C)
            SubClassOf(:E :D)
            SubClassOf(:F :B)
            SubClassOf(:F :A)
            SubClassOf(:G owl:Nothing)
            EquivalentClasses(:K ObjectComplementOf(:A))
            EquivalentObjectProperties(:all owl:topObjectProperty)
            SubObjectPropertyOf(:all :more)
            SubObjectPropertyOf(:never owl:bottomObjectProperty)
            SubObjectPropertyOf(:nevermore :never)
            SubObjectPropertyOf(:p :q)
            SubObjectPropertyOf(:p :more)
            SubDataPropertyOf(:none owl:bottomDataProperty)
            SubDataPropertyOf(:age :number)
            """));
        Function<String, OWLClass> type = Ontologies::type;
        assertEquals(Set.of(FACTORY.getOWLThing(), type.apply("A")), reasoner.getTopClassNode().getEntities());
        assertEquals(Set.of(FACTORY.getOWLNothing(), type.apply("G"), type.apply("K")),
            reasoner.getBottomClassNode().getEntities());
        assertEquals(Set.of(Set.of(type.apply("B"), type.apply("C"))),
            named(reasoner.getSubClasses(FACTORY.getOWLThing(), true)));
        assertEquals(reasoner.getSubClasses(FACTORY.getOWLThing(), true),
            reasoner.getSubClasses(type.apply("A"), true));
        assertEquals(Set.of(Set.of(type.apply("D")), Set.of(type.apply("F"))),
            named(reasoner.getSubClasses(type.apply("B"), true)));
        assertEquals(Set.of(reasoner.getBottomClassNode()), reasoner.getSubClasses(type.apply("E"), true).getNodes());
        assertEquals(Set.of(Set.of(type.apply("E")), Set.of(type.apply("F"))),
            named(reasoner.getSuperClasses(type.apply("G"), true)));
        assertEquals(Set.of(), reasoner.getSuperClasses(type.apply("A"), false).getNodes());
        assertEquals(Set.of(), reasoner.getSubClasses(type.apply("K"), false).getNodes());
        Function<String, OWLObjectProperty> role = Ontologies::role;
        assertEquals(Set.of(FACTORY.getOWLTopObjectProperty(), role.apply("all"), role.apply("more")),
            named(reasoner.getTopObjectPropertyNode()));
        assertEquals(Set.of(FACTORY.getOWLBottomObjectProperty(), role.apply("never"), role.apply("nevermore")),
            named(reasoner.getBottomObjectPropertyNode()));
        assertEquals(Set.of(Set.of(role.apply("q"))),
            named(reasoner.getSuperObjectProperties(role.apply("p"), true)));
        assertEquals(Set.of(Set.of(role.apply("q"))),
            named(reasoner.getSubObjectProperties(role.apply("more"), true)));
        assertTrue(reasoner.getDisjointObjectProperties(role.apply("never")).containsEntity(role.apply("p")));
        assertEquals(Set.of(FACTORY.getOWLBottomDataProperty(), data("none")),
            reasoner.getBottomDataPropertyNode().getEntities());
        assertEquals(Set.of(Set.of(data("number"))),
            named(reasoner.getSubDataProperties(FACTORY.getOWLTopDataProperty(), true)));
    }

    /** Where all is told between names, what follows is what follows by chains. */
    @Test
    public void hierarchiesOfWhatIsTold() {
        for (int seed = 0; seed < Called.many(3, 300); seed++) {
            Told told = new Told(new Random(seed));
            JezundwaReasoner reasoner = Called.reasoner(Ontologies.of(told.axioms));
            for (boolean isDirect : List.of(true, false)) {
                String message = "seed " + seed + (isDirect ? " direct " : " ");
                for (OWLClass type : told.types.members()) {
                    assertEquals(message + type, told.types.equal(type), named(reasoner.getEquivalentClasses(type)));
                    assertEquals(message + type, told.types.under(type, isDirect),
                        named(reasoner.getSubClasses(type, isDirect)));
                    assertEquals(message + type, told.types.over(type, isDirect),
                        named(reasoner.getSuperClasses(type, isDirect)));
                    assertEquals(message + type, told.instances(type, isDirect),
                        reasoner.getInstances(type, isDirect).getFlattened());
                }
                for (OWLObjectPropertyExpression role : told.roles.members()) {
                    assertEquals(message + role, told.roles.equal(role),
                        named(reasoner.getEquivalentObjectProperties(role)));
                    assertEquals(message + role, told.roles.under(role, isDirect),
                        named(reasoner.getSubObjectProperties(role, isDirect)));
                    assertEquals(message + role, told.roles.over(role, isDirect),
                        named(reasoner.getSuperObjectProperties(role, isDirect)));
                }
                for (OWLDataProperty property : told.properties.members()) {
                    assertEquals(message + property, told.properties.equal(property),
                        named(reasoner.getEquivalentDataProperties(property)));
                    assertEquals(message + property, told.properties.under(property, isDirect),
                        named(reasoner.getSubDataProperties(property, isDirect)));
                    assertEquals(message + property, told.properties.over(property, isDirect),
                        named(reasoner.getSuperDataProperties(property, isDirect)));
                }
            }
        }
    }

    /** Random inclusions and equivalences between names, and types of individuals. */
    private static final class Told {
        private final Set<OWLAxiom> axioms = new HashSet<>();
        private final Closure<OWLClass> types = new Closure<>();
        private final Closure<OWLObjectPropertyExpression> roles = new Closure<>();
        private final Closure<OWLDataProperty> properties = new Closure<>();
        private final Map<OWLNamedIndividual, Set<OWLClass>> told = new HashMap<>();

        Told(Random random) {
            for (int count = 0; count < 25; count++) {
                OWLClass type = Ontologies.type("A" + random.nextInt(9));
                OWLClass other = Ontologies.type("A" + random.nextInt(9));
                OWLObjectProperty role = Ontologies.role("r" + random.nextInt(6));
                OWLObjectProperty above = Ontologies.role("r" + random.nextInt(6));
                OWLDataProperty property = data("d" + random.nextInt(4));
                OWLDataProperty over = data("d" + random.nextInt(4));
                switch (random.nextInt(10)) {
                    case 0 -> {
                        axioms.add(FACTORY.getOWLEquivalentClassesAxiom(type, other));
                        types.addEqual(List.of(type, other));
                    }
                    case 1, 2 -> {
                        axioms.add(FACTORY.getOWLSubObjectPropertyOfAxiom(role, above));
                        roles.addBelow(role, above);
                    }
                    case 3 -> {
                        axioms.add(FACTORY.getOWLEquivalentObjectPropertiesAxiom(role, above));
                        roles.addEqual(List.of(role, above));
                    }
                    case 4 -> {
                        axioms.add(FACTORY.getOWLEquivalentDataPropertiesAxiom(property, over));
                        properties.addEqual(List.of(property, over));
                    }
                    case 5 -> {
                        axioms.add(FACTORY.getOWLSubDataPropertyOfAxiom(property, over));
                        properties.addBelow(property, over);
                    }
                    case 6 -> addType(type, Ontologies.individual("i" + random.nextInt(3)));
                    default -> {
                        axioms.add(FACTORY.getOWLSubClassOfAxiom(type, other));
                        types.addBelow(type, other);
                    }
                }
            }
        }

        private void addType(OWLClass type, OWLNamedIndividual individual) {
            axioms.add(FACTORY.getOWLClassAssertionAxiom(type, individual));
            types.add(type);
            told.computeIfAbsent(individual, unknown -> new HashSet<>()).add(type);
        }

        /** Direct instances of a class are in no class below it. */
        Set<OWLNamedIndividual> instances(OWLClass type, boolean isDirect) {
            return told.keySet().stream().filter(individual -> isIn(individual, type))
                .filter(individual -> !isDirect || types.members().stream()
                    .noneMatch(other -> types.isStrictlyBelow(other, type) && isIn(individual, other)))
                .collect(Collectors.toSet());
        }

        private boolean isIn(OWLNamedIndividual individual, OWLClass type) {
            return told.get(individual).stream().anyMatch(one -> types.isBelow(one, type));
        }
    }

    private static OWLDataProperty data(String name) {
        return FACTORY.getOWLDataProperty(IRI.create(Ontologies.PREFIX + name));
    }

    /** The library's generators call the reasoner for all that it infers; each axiom that they write has to follow. */
    @Test
    public void eachAxiomOfTheLibrarysGeneratorsFollows() {
        OWLOntology ontology = Ontologies.read("""
            EquivalentClasses(:Owner ObjectSomeValuesFrom(:owns :Animal))
            SubClassOf(:Dog :Animal)
            SubClassOf(:Puppy :Dog)
            EquivalentClasses(:Hound :Dog)
            DisjointClasses(:Dog :Owner)
            SubObjectPropertyOf(:breeds :owns)
            EquivalentObjectProperties(:owns :possesses)
            TransitiveObjectProperty(:has)
            FunctionalObjectProperty(:hasMaster)
            ObjectPropertyRange(:never ObjectIntersectionOf(:Dog :Owner))
            ClassAssertion(:Puppy :rex)
            ObjectPropertyAssertion(:breeds :ann :rex)
            """);
        JezundwaReasoner reasoner = Called.reasoner(ontology);
        OWLOntology inferred = Ontologies.of(Set.of());
        new InferredOntologyGenerator(reasoner, List.of(new InferredSubClassAxiomGenerator(),
            new InferredEquivalentClassAxiomGenerator(), new InferredDisjointClassesAxiomGenerator(),
            new InferredClassAssertionAxiomGenerator(), new InferredPropertyAssertionGenerator(),
            new InferredSubObjectPropertyAxiomGenerator(), new InferredEquivalentObjectPropertyAxiomGenerator(),
            new InferredInverseObjectPropertiesAxiomGenerator(),
            new InferredObjectPropertyCharacteristicAxiomGenerator())).fillOntology(FACTORY, inferred);
        Set<OWLAxiom> axioms = new TreeSet<>(inferred.getLogicalAxioms());
        for (String expected : List.of("SubClassOf(:Puppy :Hound)", "EquivalentClasses(:Dog :Hound)",
            "DisjointClasses(:Puppy :Owner)", "ClassAssertion(:Owner :ann)", "ClassAssertion(:Animal :rex)",
            "ObjectPropertyAssertion(:possesses :ann :rex)", "SubObjectPropertyOf(:breeds :possesses)",
            "FunctionalObjectProperty(:hasMaster)", "AsymmetricObjectProperty(:never)")) {
            assertTrue(expected + " in " + axioms, axioms.contains(Ontologies.axiom(expected)));
        }
        assertFalse(axioms.contains(Ontologies.axiom("FunctionalObjectProperty(:owns)")));
        List<OWLAxiom> all = List.copyOf(axioms);
        List<Boolean> entailed = Called.entailed(reasoner, all);
        for (int at = 0; at < all.size(); at++) {
            assertTrue(all.get(at).toString(), entailed.get(at));
        }
    }

    /** A service beside another reasoner: that one says what follows, and the reasons are those of its inference. */
    @Test
    public void explanationsBesideAnotherReasoner() {
        OWLOntology ontology = Ontologies.read("SubClassOf(:A :B)\nSubClassOf(:B :C)\nSubClassOf(:C :D)");
        OWLReasoner other = new StructuralReasonerFactory().createReasoner(ontology);
        JezundwaExplanations explanations = new JezundwaExplanations(ontology, Called.configuration());
        for (OWLClass above : other.getSuperClasses(Ontologies.type("A"), false).getFlattened()) {
            OWLAxiom inferred = FACTORY.getOWLSubClassOfAxiom(Ontologies.type("A"), above);
            assertEquals(1, explanations.justifications(inferred).sets().size());
        }
        ontology.getOWLOntologyManager().addAxiom(ontology, Ontologies.axiom("SubClassOf(:A :D)"));
        assertEquals(2, explanations.justifications(Ontologies.axiom("SubClassOf(:A :D)")).sets().size());
        explanations.dispose();
    }
}
